/* Hashes a password and verifies it: cc hash.c $(pkg-config --cflags --libs libargon2-proved) */
#include <argon2.h>
#include <stdio.h>
#include <stdlib.h>
#include <string.h>
#include <sys/random.h>

/* Returns whether a stored hash accepts a password. Any answer other than a mismatch is an error. */
static int accepts(const char *stored, const char *password)
{
    int code = argon2id_verify(stored, password, strlen(password));
    if (code != ARGON2_OK && code != ARGON2_VERIFY_MISMATCH) {
        fprintf(stderr, "%s\n", argon2_error_message(code));
        exit(1);
    }
    return code == ARGON2_OK;
}

int main(void)
{
    char salt[16], stored[128];

    if (getrandom(salt, sizeof salt, 0) != sizeof salt)
        return 1;
    int code = argon2id_hash_encoded(2, 19456, 1, "correct horse", 13, salt, sizeof salt, 32, stored, sizeof stored);
    if (code != ARGON2_OK) {
        fprintf(stderr, "%s\n", argon2_error_message(code));
        return 1;
    }
    puts(stored);
    printf("%s %s\n", accepts(stored, "correct horse") ? "true" : "false", accepts(stored, "wrong horse") ? "true" : "false");
    return 0;
}
