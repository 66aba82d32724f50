/* Hashes standard input with a library for C, and prints the tag. The arguments are M T P SALT. With
   -DUSE_ARGON2 the library is libargon2, and with -DUSE_SODIUM it is libsodium, which has one lane only. */
#include <stdio.h>
#include <stdlib.h>
#include <string.h>
#ifdef USE_ARGON2
#include <argon2.h>
#else
#include <sodium.h>
#endif

int main(int count, char **words) {
    unsigned char password[128], tag[32];
    if (count != 5) return 2;
    size_t length = fread(password, 1, sizeof password, stdin);
    unsigned m = strtoul(words[1], 0, 10), t = strtoul(words[2], 0, 10), p = strtoul(words[3], 0, 10);
    const char *salt = words[4];
#ifdef USE_ARGON2
    if (argon2id_hash_raw(t, m, p, password, length, salt, strlen(salt), tag, sizeof tag)) return 1;
#else
    if (p != 1 || strlen(salt) != crypto_pwhash_SALTBYTES || sodium_init() < 0) return 1;
    if (crypto_pwhash(tag, sizeof tag, (const char *)password, length, (const unsigned char *)salt, t,
                      (size_t)m * 1024, crypto_pwhash_ALG_ARGON2ID13))
        return 1;
#endif
    for (size_t i = 0; i < sizeof tag; i++) printf("%02x", tag[i]);
    putchar('\n');
    return 0;
}
