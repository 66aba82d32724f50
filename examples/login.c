/* Verifies a password by a hash that is stored under a secret key ("pepper"), within a bound, and renews the hash. To compile it:
 * cc login.c $(pkg-config --cflags --libs libargon2-proved) */
#include <argon2_phc.h>
#include <stdio.h>
#include <stdlib.h>
#include <string.h>

/* Ends the program with a message unless a call succeeded. */
static void must(int code)
{
    if (code != ARGON2P_OK) {
        fprintf(stderr, "%s\n", argon2p_error_message(code));
        exit(1);
    }
}

/* Returns whether a stored hash accepts a password, and replaces the stored hash if a new hash is due. If the stored hash can't
 * be verified, it accepts no password, and this logs the reason. */
static int log_in(const argon2p_params *params, const argon2p_verifier *verifier, char stored[ARGON2P_TEXT_SIZE],
    const char *password)
{
    char fresh[ARGON2P_TEXT_SIZE];
    int outcome;
    int code = argon2p_log_in(params, verifier, stored, strlen(stored), password, strlen(password), fresh, sizeof fresh,
        &outcome);

    if (code == ARGON2P_OK && outcome == ARGON2P_RENEWED)
        strcpy(stored, fresh); /* store this from now on */
    if (code != ARGON2P_OK && code != ARGON2P_MISMATCH)
        fprintf(stderr, "a stored hash is not verified: %s\n", argon2p_error_message(code));
    return code == ARGON2P_OK;
}

int main(void)
{
    argon2p_params params = ARGON2P_PARAMS_INIT;
    argon2p_verifier verifier = ARGON2P_VERIFIER_INIT;
    char stored[ARGON2P_TEXT_SIZE];

    /* The most that a stored hash may cost, which is what the service's own hashes need. */
    verifier.m_cost = 65536;
    verifier.t_cost = 4;
    /* A service reads its secret from a file that is not with the hashes. */
    params.secret = verifier.secret = "the secret";
    params.secret_len = verifier.secret_len = 10;
    must(argon2p_hash(&params, "correct horse", 13, NULL, 0, stored, sizeof stored)); /* with a random salt */
    puts(stored);
    printf("%s ", log_in(&params, &verifier, stored, "correct horse") ? "true" : "false");
    printf("%s\n", log_in(&params, &verifier, stored, "wrong horse") ? "true" : "false");
    return 0;
}
