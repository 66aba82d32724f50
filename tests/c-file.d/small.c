/*
 * Asks for more memory than a processor with addresses of 32 bits can address. Each call has to report that it lacks memory. The last
 * line is 'N passed, M failed'.
 */
#include "argon2.h"
#include "argon2_phc.h"

#include <stdio.h>
#include <string.h>

static int passed, failed;

static void check(const char *what, int is_right) {
    if (!is_right) printf("failed: %s\n", what);
    if (is_right) passed++;
    else failed++;
}

static int given(uint8_t **at, size_t n) {
    static uint8_t room[1 << 20];
    (void)n, *at = room;
    return 0;
}

static void taken(uint8_t *at, size_t n) { (void)at, (void)n; }

int main(void) {
    static const uint32_t costs[] = {UINT32_MAX, 1 << 22, (1 << 22) + 8, 1 << 23};
    static const char text[] = "$argon2id$v=19$m=4294967295,t=1,p=1$c29tZXNhbHQ$LVJKYEkaeNsu5UCkG00QmN9KvYwrpueSxItaCk3nAjU";
    argon2p_verifier verifier = ARGON2P_VERIFIER_INIT;
    uint8_t out[32], salt[8] = {0};
    char encoded[200];
    check("the addresses have 32 bits", sizeof(void *) == 4);
    for (size_t i = 0; i < sizeof costs / sizeof *costs; i++) {
        argon2_context context;
        memset(&context, 0, sizeof context);
        context.out = out, context.outlen = sizeof out, context.salt = salt, context.saltlen = sizeof salt;
        context.t_cost = 1, context.m_cost = costs[i], context.lanes = context.threads = 1, context.version = ARGON2_VERSION_13;
        check("argon2_ctx", argon2_ctx(&context, Argon2_id) == ARGON2_MEMORY_ALLOCATION_ERROR);
        context.allocate_cbk = given, context.free_cbk = taken;
        check("argon2_ctx with callbacks", argon2_ctx(&context, Argon2_id) == ARGON2_MEMORY_ALLOCATION_ERROR);
    }
    check("a tag and a text above 4 GiB", argon2id_hash_encoded(1, 8, 1, "", 0, salt, sizeof salt, 3221225472u, encoded, SIZE_MAX)
        == ARGON2_MEMORY_ALLOCATION_ERROR);
    check("the text of a tag of 3 GiB", argon2_encodedlen(1, 8, 1, 8, 3221225472u, Argon2_id) == SIZE_MAX);
    verifier.m_cost = UINT32_MAX;
    check("argon2p_verify", argon2p_verify(&verifier, text, strlen(text), "", 0, NULL) == ARGON2P_OUT_OF_MEMORY);
    check("argon2id_verify", argon2id_verify(text, "", 0) == ARGON2_MEMORY_ALLOCATION_ERROR);
    printf("%d passed, %d failed\n", passed, failed);
    return failed > 0;
}
