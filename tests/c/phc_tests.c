/*
 * Tests of argon2_phc.h, which tests/c/run runs: texts with a secret, old secrets, the bound, each code and the order of codes,
 * what a text shows, renewal, logins, salts that are drawn, lent blocks, structures of other sizes, refused memory, wiping, threads.
 * Another implementation computed the expected texts, tags and blocks. Prints what fails, and last 'N passed, M failed'.
 */
#define _GNU_SOURCE
#include "argon2_phc.h"
#include "counts.h"
#include "leftovers.h"

#include <malloc.h>
#include <pthread.h>
#include <stdlib.h>
#include <sys/types.h>

/* ---- requests for memory, which are counted, and refused from number `refuse` on if it is not 0; words that were not wiped */

static bool counting;
static int requests;

#if defined(__GLIBC__) && !defined(__SANITIZE_ADDRESS__) && !defined(__SANITIZE_THREAD__)
#define REFUSES
static int refuse;
static long unwiped = -1;
static char *changing; /* becomes 9 at a request */
void *__libc_malloc(size_t);
void __libc_free(void *);

void *malloc(size_t n) {
    if (changing) *changing = '9', changing = NULL;
    return counting && ++requests >= refuse && refuse ? NULL : __libc_malloc(n);
}

void free(void *at) {
    for (size_t i = 0, n = malloc_usable_size(at) / 8; unwiped >= 0 && n >= 1 << 12 && i < n; i++)
        unwiped += ((uint64_t *)at)[i] != 0;
    __libc_free(at);
}
#endif

/* Random bytes. First `interrupted` calls are interrupted. Then the bytes 7, 8, 9 .. are drawn, or none if `is_drained` is set. */
static int interrupted;
static bool is_drained;
static uint8_t drawn = 7;

ssize_t getrandom(void *at, size_t n, unsigned flags) {
    (void)flags;
    if (interrupted > 0) return interrupted--, errno = EINTR, -1;
    if (is_drained) return errno = ENOSYS, -1;
    for (size_t i = 0; i < n; i++) ((uint8_t *)at)[i] = drawn++;
    return n;
}

/* ---- known texts */

#define COSTS "$argon2id$v=19$m=64,t=2,p=2"
#define TEXT COSTS ",keyid=a2V5,data=ZGF0YQ$c29tZXNhbHQ$MC5xFfDVWB3WhzYBW2AB4juU7jI00nTn+GU4i7Sjq1c"
#define OLD COSTS ",keyid=a2V5,data=ZGF0YQ$c29tZXNhbHQ$oOQ2+4bp4/BKjF1xEsshjhRJwBA75YN2IZwie874sU0" /* under `old` */
#define PLAIN COSTS "$c29tZXNhbHQ$lDh0Fd+4TtGXdGWh6GJgc630K9Turh+qHdTiOh/2hZ8" /* without a secret */
#define FIRST "$argon2i$v=16$m=64,t=2,p=2$c29tZXNhbHQ$x2U4WFGOSL9unqYCN7qnkt8rN3rTGx/pDvAlJ1Q8fL0" /* and no data */
#define SHORT "$argon2d$v=19$m=8,t=1,p=1$c2FsdHNhbHRzYWx0c2FsdA$tUWsgg" /* of the empty password */
#define LARGE "$argon2id$v=19$m=4096,t=1,p=4,keyid=a2V5,data=ZGF0YQ$c29tZXNhbHQ$L9xIkdVzfDH5aEcSb655bvt+G9wvWq5VKnoyzfDO2OM"

static const uint8_t tag[32] = {
    0x30, 0x2e, 0x71, 0x15, 0xf0, 0xd5, 0x58, 0x1d, 0xd6, 0x87, 0x36, 0x01, 0x5b, 0x60, 0x01, 0xe2,
    0x3b, 0x94, 0xee, 0x32, 0x34, 0xd2, 0x74, 0xe7, 0xf8, 0x65, 0x38, 0x8b, 0xb4, 0xa3, 0xab, 0x57,
};

static argon2p_params params(void) {
    argon2p_params p = ARGON2P_PARAMS_INIT;
    p.m_cost = 64, p.t_cost = 2, p.p_cost = 2, p.secret = "secret", p.secret_len = 6, p.data = "data", p.data_len = 4;
    p.keyid = "key", p.keyid_len = 3;
    return p;
}

static argon2p_verifier verifier(void) {
    argon2p_verifier v = ARGON2P_VERIFIER_INIT;
    v.secret = "secret", v.secret_len = 6;
    return v;
}

static int verify(argon2p_verifier v, const char *text, const char *pwd, int *by_old) {
    return argon2p_verify(&v, text, strlen(text), pwd, strlen(pwd), by_old);
}

static int hash(argon2p_params p, const char *salt, char *text, size_t room) {
    return argon2p_hash(&p, "password", 8, salt, salt ? strlen(salt) : 0, text, room);
}

static void known_texts(void) {
    argon2p_params p = params();
    argon2p_verifier v = verifier();
    char text[ARGON2P_TEXT_SIZE];
    check(hash(p, "somesalt", text, sizeof text) == ARGON2P_OK && !strcmp(text, TEXT), "a text under a secret", 0);
    p.has_output_len = 1, p.output_len = 32;
    check(hash(p, "somesalt", text, sizeof text) == ARGON2P_OK && !strcmp(text, TEXT), "and a length", 0);
    p.secret = "old", p.secret_len = 3;
    check(hash(p, "somesalt", text, sizeof text) == ARGON2P_OK && !strcmp(text, OLD), "under another", 0);
    p.secret_len = p.data_len = p.keyid_len = 0, p.keyid = NULL;
    check(hash(p, "somesalt", text, sizeof text) == ARGON2P_OK && !strcmp(text, PLAIN), "under none", 0);
    p = params(), p.algorithm = ARGON2P_I, p.version = ARGON2P_VERSION_10, p.data_len = p.keyid_len = 0;
    check(hash(p, "somesalt", text, sizeof text) == ARGON2P_OK && !strcmp(text, FIRST), "Argon2i, version 0x10", 0);
    p = params(), p.algorithm = ARGON2P_D, p.m_cost = 8, p.t_cost = p.p_cost = 1, p.data_len = p.keyid_len = 0;
    p.has_output_len = 1, p.output_len = 4;
    check(argon2p_hash(&p, NULL, 0, "saltsaltsaltsalt", 16, text, sizeof text) == ARGON2P_OK && !strcmp(text, SHORT), "Argon2d", 0);
    check(verify(v, TEXT, "password", NULL) == ARGON2P_OK, "verifying it", 0);
    check(verify(v, FIRST, "password", NULL) == ARGON2P_OK, "Argon2i, version 0x10", 1);
    check(argon2p_verify(&v, SHORT, strlen(SHORT), NULL, 0, NULL) == ARGON2P_OUTPUT_OUT_OF_BOUND, "a hash of 4 bytes", 0);
    v.min_output = 4;
    check(argon2p_verify(&v, SHORT, strlen(SHORT), NULL, 0, NULL) == ARGON2P_OK, "an empty password", 0);
    check(argon2p_verify(&v, TEXT "$", strlen(TEXT), "password", 8, NULL) == ARGON2P_OK, "a text by its length", 0);
    check(argon2p_verify(&v, TEXT, sizeof TEXT, "password", 8, NULL) == ARGON2P_TEXT_INVALID, "with its zero byte", 0);
    check(verify(v, TEXT, "passwore", NULL) == ARGON2P_MISMATCH, "another password", 0);
    check(verify(v, OLD, "password", NULL) == ARGON2P_MISMATCH, "another secret", 0);
    check(verify(v, PLAIN, "password", NULL) == ARGON2P_MISMATCH, "no secret", 0);
}

static void old_secrets(void) {
    argon2p_verifier v = verifier();
    int by_old = 7;
    check(verify(v, OLD, "password", &by_old) == ARGON2P_MISMATCH && by_old == 7, "a refusal sets nothing", 0);
    check(verify(v, TEXT, "password", &by_old) == ARGON2P_OK && by_old == 0, "no old secret", 0);
    v.old_secret = "old", v.old_secret_len = 3;
    check(verify(v, OLD, "password", &by_old) == ARGON2P_STRUCT, "an old secret without has_old_secret", 0);
    v.old_secret_len = 0, check(verify(v, OLD, "password", &by_old) == ARGON2P_STRUCT, "its pointer", 0);
    v.old_secret = NULL, v.old_secret_len = 3, check(verify(v, OLD, "password", &by_old) == ARGON2P_STRUCT, "its length", 0);
    v.old_secret = "old", v.has_old_secret = 1, by_old = 7;
    check(verify(v, OLD, "password", &by_old) == ARGON2P_OK && by_old == 1, "an old secret", 0);
    check(verify(v, TEXT, "password", &by_old) == ARGON2P_OK && by_old == 0, "the new one before it", 0);
    check(verify(v, OLD, "passwore", NULL) == ARGON2P_MISMATCH, "an old secret and another password", 0);
    check(verify(v, PLAIN, "password", NULL) == ARGON2P_MISMATCH, "an old secret and a text without one", 0);
    v.old_secret = NULL, v.old_secret_len = 0, by_old = 7;
    check(verify(v, PLAIN, "password", &by_old) == ARGON2P_OK && by_old == 1, "an old secret of no bytes", 0);
    v.secret = "old", v.secret_len = 3, v.old_secret = "secret", v.old_secret_len = 6, by_old = 7;
    for (v.threads = 0; v.threads < 3; v.threads++)
        check(verify(v, LARGE, "password", &by_old) == ARGON2P_OK && by_old == 1, "in threads", v.threads);
    check(verify(v, LARGE, "passwore", NULL) == ARGON2P_MISMATCH, "in threads, another password", 0);
}

static void drawn_salts(void) {
    argon2p_params p = params();
    argon2p_shown shown = ARGON2P_SHOWN_INIT;
    char text[ARGON2P_TEXT_SIZE], same[ARGON2P_TEXT_SIZE];
    drawn = 7, interrupted = 3, errno = 4242;
    check(hash(p, NULL, text, sizeof text) == ARGON2P_OK && errno == 4242, "a drawn salt", 0);
    check(verify(verifier(), text, "password", NULL) == ARGON2P_OK, "verifying it", 1);
    check(argon2p_parse(text, strlen(text), &shown) == ARGON2P_OK && shown.salt_len == 16, "16 bytes", shown.salt_len);
    for (int i = 0; i < 16; i++) check(shown.salt[i] == 7 + i, "the bytes that were drawn", i);
    is_drained = true, memset(text, 7, sizeof text), memset(same, 7, sizeof same);
    check(hash(p, NULL, text, sizeof text) == ARGON2P_NO_RANDOM && !memcmp(text, same, sizeof same), "no random bytes", 0);
    check(hash(p, "somesalt", text, sizeof text) == ARGON2P_OK, "none needed", 0);
    is_drained = false;
}

/* ---- codes and their order */

#define FAULT(type, field, value, code) {offsetof(type, field), sizeof(((type *)0)->field), value, code}
#define IN_PARAMS(field, value, code) FAULT(argon2p_params, field, value, code)

struct fault {
    size_t at, size;
    uint64_t value;
    int code;
};

/* The faults, in the order in which they are refused. */
static const struct fault faults[] = {
    IN_PARAMS(size, 3, ARGON2P_STRUCT), IN_PARAMS(reserved, 1, ARGON2P_STRUCT), IN_PARAMS(has_output_len, 0, ARGON2P_STRUCT),
    IN_PARAMS(secret, 0, ARGON2P_SECRET_NULL), IN_PARAMS(data, 0, ARGON2P_DATA_NULL), IN_PARAMS(keyid, 0, ARGON2P_KEYID_NULL),
    IN_PARAMS(m_cost, 7, ARGON2P_MEMORY_TOO_LITTLE), IN_PARAMS(p_cost, 0, ARGON2P_LANES_TOO_FEW),
    IN_PARAMS(p_cost, 1 << 24, ARGON2P_LANES_TOO_MANY), IN_PARAMS(p_cost, 9, ARGON2P_MEMORY_TOO_LITTLE),
    IN_PARAMS(t_cost, 0, ARGON2P_PASSES_TOO_FEW), IN_PARAMS(output_len, 3, ARGON2P_OUTPUT_TOO_SHORT),
    IN_PARAMS(output_len, UINT64_C(1) << 32, ARGON2P_OUTPUT_TOO_LONG), IN_PARAMS(keyid_len, 9, ARGON2P_KEYID_TOO_LONG),
    IN_PARAMS(data_len, 33, ARGON2P_DATA_TOO_LONG), IN_PARAMS(algorithm, 3, ARGON2P_ALGORITHM),
    IN_PARAMS(version, 18, ARGON2P_VERSION), IN_PARAMS(secret_len, UINT64_C(1) << 32, ARGON2P_SECRET_TOO_LONG),
};

static void set(void *at, const struct fault *fault) { memcpy((char *)at + fault->at, &fault->value, fault->size); }

/* Returns the code of hashing, or 1 if it writes something or asks for memory. */
static int refused(const argon2p_params *p, const char *pwd, size_t pwd_len, const char *salt, size_t salt_len) {
    char text[8], same[8];
    int code;
    memset(text, 7, 8), memset(same, 7, 8), requests = 0, counting = true;
    code = argon2p_hash(p, pwd, pwd_len, salt, salt_len, text, 8);
    counting = false;
    return memcmp(text, same, 8) || requests ? 1 : code;
}

static void codes(void) {
    const size_t big = (size_t)1 << 32;
    argon2p_params p = params();
    argon2p_block block;
    uint8_t out[32];
    char text[ARGON2P_TEXT_SIZE];
    int answer;
    p.has_output_len = 1, p.output_len = 32;
    for (int i = sizeof faults / sizeof *faults; i-- > 0;) {
        const bool is_raw = faults[i].code != ARGON2P_KEYID_NULL && faults[i].code != ARGON2P_KEYID_TOO_LONG;
        set(&p, &faults[i]);
        check(refused(&p, "password", 8, "somesalt", 8) == faults[i].code, "the first of these faults of a text", i);
        check(argon2p_check(&p) == faults[i].code, "of parameters", i);
        check(argon2p_encode(&p, "somesalt", 8, tag, 32, text, sizeof text) == faults[i].code, "of a text that is written", i);
        if (faults[i].code != ARGON2P_SECRET_NULL && faults[i].code != ARGON2P_SECRET_TOO_LONG)
            check(argon2p_needs_rehash(&p, TEXT, strlen(TEXT), &answer) == faults[i].code, "of what is wanted", i);
        if (is_raw) {
            if (faults[i].code == ARGON2P_DATA_TOO_LONG) p.data_len = big;
            check(argon2p_hash_into(&p, "password", 8, "somesalt", 8, out, 32, NULL, 0) == faults[i].code, "of a tag", i);
            check(argon2p_fill_memory(&p, "password", 8, "somesalt", 8, &block, 1) == faults[i].code, "of memory", i);
            if (faults[i].code == ARGON2P_DATA_TOO_LONG) p.data_len = 33;
        }
    }
    p = params();
    check(refused(NULL, "password", 8, "somesalt", 8) == ARGON2P_STRUCT, "no parameters", 0);
    check(refused(&p, NULL, 8, "somesalt", 8) == ARGON2P_PASSWORD_NULL, "no password", 0);
    check(refused(&p, "password", 8, NULL, 8) == ARGON2P_SALT_NULL, "no salt", 0);
    check(refused(&p, "password", 8, "somesalt", 7) == ARGON2P_SALT_TOO_SHORT, "a short salt", 0);
    check(refused(&p, "password", 8, "somesalt", 49) == ARGON2P_SALT_TOO_LONG, "a long salt", 0);
    check(refused(&p, "password", big, "somesalt", 8) == ARGON2P_PASSWORD_TOO_LONG, "a long password", 0);
    check(refused(&p, "password", 8, "somesalt", 8) == ARGON2P_ROOM_TOO_SHORT, "short room", 0);
    p.has_output_len = 1, p.output_len = 65;
    check(refused(&p, "password", big, "somesalt", 8) == ARGON2P_OUTPUT_TOO_LONG, "a long hash", 0);
    check(argon2p_check(&p) == ARGON2P_OK, "which a tag may have", 0);
    check(argon2p_hash(&p, "password", 8, "somesalt", 8, NULL, 99) == ARGON2P_TEXT_NULL, "no room", 0);
    p = params();
    for (size_t room = 0; room <= strlen(TEXT); room++)
        check(argon2p_encode(&p, "somesalt", 8, tag, 32, text, room) == ARGON2P_ROOM_TOO_SHORT
            && hash(p, "somesalt", text, room) == ARGON2P_ROOM_TOO_SHORT, "less room than the text needs", room);
    check(argon2p_encode(&p, "somesalt", 8, tag, 32, text, strlen(TEXT) + 1) == ARGON2P_OK && !strcmp(text, TEXT), "exactly that", 0);
    check(hash(p, "somesalt", text, strlen(TEXT) + 1) == ARGON2P_OK && !strcmp(text, TEXT), "exactly that", 1);
    check(argon2p_encode(&p, NULL, 8, tag, 32, text, 327) == ARGON2P_SALT_NULL, "no salt", 1);
    check(argon2p_encode(&p, "somesalt", 8, NULL, 32, text, 327) == ARGON2P_OUTPUT_NULL, "no hash", 1);
    check(argon2p_encode(&p, "somesalt", 8, tag, 32, NULL, 327) == ARGON2P_TEXT_NULL, "no text", 1);
    check(argon2p_encode(&p, "somesalt", 8, tag, 3, text, 327) == ARGON2P_OUTPUT_TOO_SHORT, "a short hash", 1);
    check(argon2p_encode(&p, "somesalt", 8, tag, 65, text, 327) == ARGON2P_OUTPUT_TOO_LONG, "a long hash", 1);
    check(argon2p_encode(&p, "somesalt", 7, tag, 32, text, 327) == ARGON2P_SALT_TOO_SHORT, "a short salt", 1);
    check(argon2p_encode(&p, "somesalt", 49, tag, 32, text, 327) == ARGON2P_SALT_TOO_LONG, "a long salt", 1);
}

/* Each code has a message, and all messages differ. */
static void messages(void) {
    int known = 0;
    check(!strcmp(argon2p_error_message(1), "Unknown error code"), "no message", 1);
    for (int a = 0; a > -128; a--) {
        if (!strcmp(argon2p_error_message(a), "Unknown error code")) continue;
        known++;
        for (int b = 0; b > a; b--) check(strcmp(argon2p_error_message(a), argon2p_error_message(b)), "two codes", a);
    }
    check(known == 42, "codes with messages", known);
}

/* ---- texts that are refused, and the bound */

static const struct {
    const char *text;
    int code; /* of verifying */
    int shown; /* the code of argon2p_parse, or 1 if it is the same */
} texts[] = {
    {"", ARGON2P_TEXT_INVALID, 1}, {"$", ARGON2P_TEXT_INVALID, 1}, {"argon2id", ARGON2P_TEXT_INVALID, 1},
    {COSTS "$c29tZXNhbHQ$bQk8UB8$", ARGON2P_TEXT_INVALID, 1}, {COSTS "$c29tZXNhbHR$bQk8UB8", ARGON2P_TEXT_INVALID, 1},
    {"$argon2id$v=19$m=64,t=2,p=2,\xff=1$c29tZXNhbHQ$bQk8UB8", ARGON2P_TEXT_INVALID, 1},
    {"$argon2id$v=19$m=064,t=2,p=2$c29tZXNhbHQ$bQk8UB8", ARGON2P_TEXT_MEMORY, 1},
    {"$argon2id$v=19$m=7,t=0,p=1$c29tZXNhbHQ$bQk8UB8", ARGON2P_TEXT_MEMORY, 1},
    {"$argon2id$v=19$m=8,t=0,p=1$c29tZXNhbHQ$bQk8UB8", ARGON2P_TEXT_PASSES, 1},
    {"$argon2id$v=19$m=8,t=1,p=0$c29tZXNhbHQ$bQk8UB8", ARGON2P_TEXT_LANES, 1},
    {"$argon2id$v=19$m=8,t=1,p=2$c29tZXNhbHQ$bQk8UB8", ARGON2P_TEXT_MEMORY, 1},
    {"$argon2id$v=19$m=8,t=1,p=1,keyid=A$c29tZXNhbHQ$bQk8UB8", ARGON2P_TEXT_KEYID, 1},
    {"$argon2id$v=19$m=8,t=1,p=1,data=A$c29tZXNhbHQ$bQk8UB8", ARGON2P_TEXT_DATA, 1},
    {"$argon2id$v=19$m=8,t=1,p=1,x=1$c29tZXNhbHQ$bQk8UB8", ARGON2P_TEXT_PARAMETERS, 1},
    {"$argon2id$v=19$m=8,t=1$c29tZXNhbHQ$bQk8UB8", ARGON2P_TEXT_PARAMETERS, 1}, {"$scrypt$ln=16", ARGON2P_TEXT_PARAMETERS, 1},
    {"$argon2id$v=19$m=2097153,t=1,p=1", ARGON2P_ABOVE_BOUND, ARGON2P_OK},
    {"$argon2x$v=18$m=8,t=65,p=1", ARGON2P_ABOVE_BOUND, ARGON2P_ALGORITHM},
    {"$argon2id$v=19$m=520,t=1,p=65$c29tZXNhbHQ$bQk8UB8", ARGON2P_ABOVE_BOUND, ARGON2P_OK},
    {"$argon2id$v=19$m=4294967295,t=4294967295,p=16777215$c29tZXNhbHQ$bQk8UB8", ARGON2P_ABOVE_BOUND, ARGON2P_OK},
    {"$argon2x$v=18$m=8,t=1,p=1$c29tZXNhbHQ", ARGON2P_TEXT_INCOMPLETE, ARGON2P_ALGORITHM},
    {"$argon2x$v=18$m=8,t=1,p=1$c29tZXNhbHQ$bQk8UB8", ARGON2P_ALGORITHM, 1},
    {"$argon2id$v=18$m=8,t=1,p=1$c29tZXNhbHQ$bQk8UB8", ARGON2P_VERSION, 1},
    {"$argon2id$v=19$m=2097152,t=64,p=64$c29tZXNhbHQ$bQk8UB8kLZo3abfw9+PD", ARGON2P_OUTPUT_OUT_OF_BOUND, ARGON2P_OK},
};

static void refused_texts(void) {
    const size_t big = (size_t)1 << 32;
    argon2p_verifier v = verifier();
    argon2p_shown shown;
    argon2p_params p = params();
    int answer = 7, code;
    for (size_t i = 0; i < sizeof texts / sizeof *texts; i++) {
        const int wanted = texts[i].shown == 1 ? texts[i].code : texts[i].shown;
        requests = 0, counting = true;
        code = verify(v, texts[i].text, "password", &answer);
        counting = false;
        check(code == texts[i].code && !requests && answer == 7, "a text that is refused without memory", i);
        memset(&shown, 7, sizeof shown), shown.size = sizeof shown;
        check(argon2p_parse(texts[i].text, strlen(texts[i].text), &shown) == wanted, "what it shows", i);
        if (wanted == ARGON2P_TEXT_INVALID) check(shown.name_len == 0x07070707, "nothing", i);
        else if (wanted != ARGON2P_OK) check(shown.m_cost == 0 && shown.version == 0 && shown.name_len > 5, "fields alone", i);
        if (wanted != ARGON2P_OK)
            check(argon2p_needs_rehash(&p, texts[i].text, strlen(texts[i].text), &answer) == wanted && answer == 7, "renewal", i);
    }
    v.m_cost = 64, v.t_cost = 2, v.p_cost = 2, v.min_output = v.max_output = 32;
    check(verify(v, TEXT, "password", NULL) == ARGON2P_OK, "a text at its bound", 0);
    v.m_cost = 63, check(verify(v, TEXT, "password", NULL) == ARGON2P_ABOVE_BOUND, "more memory", 0), v.m_cost = 64;
    v.t_cost = 1, check(verify(v, TEXT, "password", NULL) == ARGON2P_ABOVE_BOUND, "more passes", 0), v.t_cost = 2;
    v.p_cost = 1, check(verify(v, TEXT, "password", NULL) == ARGON2P_ABOVE_BOUND, "more lanes", 0), v.p_cost = 2;
    v.min_output = 33, check(verify(v, TEXT, "password", NULL) == ARGON2P_OUTPUT_OUT_OF_BOUND, "a short hash", 0), v.min_output = 0;
    v.max_output = 31, check(verify(v, TEXT, "password", NULL) == ARGON2P_OUTPUT_OUT_OF_BOUND, "a long hash", 0), v.max_output = 64;
    check(argon2p_verify(NULL, TEXT, strlen(TEXT), "", 0, NULL) == ARGON2P_STRUCT, "no verifier", 0);
    check(argon2p_verify(&v, NULL, 9, NULL, 8, NULL) == ARGON2P_TEXT_NULL, "no text", 0);
    check(argon2p_verify(&v, NULL, 0, NULL, 0, NULL) == ARGON2P_TEXT_INVALID, "an empty text", 0);
    check(argon2p_verify(&v, TEXT, strlen(TEXT), NULL, 8, NULL) == ARGON2P_PASSWORD_NULL, "no password", 0);
    check(argon2p_verify(&v, TEXT, strlen(TEXT), "password", big, NULL) == ARGON2P_PASSWORD_TOO_LONG, "a long password", 0);
    v.secret_len = big, check(verify(v, TEXT, "password", NULL) == ARGON2P_SECRET_TOO_LONG, "a long secret", 0);
    v.secret = NULL, check(verify(v, TEXT, "password", NULL) == ARGON2P_SECRET_NULL, "no secret", 0);
    v = verifier(), v.has_old_secret = 1, v.old_secret_len = 8;
    check(verify(v, TEXT, "password", NULL) == ARGON2P_SECRET_NULL, "no old secret", 0);
    v.old_secret = "old", v.old_secret_len = big;
    check(verify(v, TEXT, "password", NULL) == ARGON2P_SECRET_TOO_LONG, "a long old secret", 0);
    v = verifier(), v.reserved = 1, check(verify(v, TEXT, "password", NULL) == ARGON2P_STRUCT, "a reserved member", 0);
    v.reserved = 0, v.size--, check(verify(v, TEXT, "password", NULL) == ARGON2P_STRUCT, "a short verifier", 0);
}

/* ---- what a text shows, and renewal */

static void shown_texts(void) {
    argon2p_shown s = ARGON2P_SHOWN_INIT;
    struct {
        argon2p_shown shown;
        uint8_t more[16];
    } later;
    char odd[sizeof s + 1];
    check(argon2p_parse(TEXT, strlen(TEXT), &s) == ARGON2P_OK, "a text", 0);
    check(s.name_len == 8 && s.has_version == 1 && s.text_version == 19 && s.params_at == 15 && s.params_len == 35, "its fields", 0);
    check(s.salt_len == 8 && !memcmp(s.salt, "somesalt\0\0", 10) && s.output_len == 32 && !memcmp(s.output, tag, 32)
        && s.output[32] == 0, "its salt and its hash", 0);
    check(s.algorithm == ARGON2P_ID && s.version == 19 && s.m_cost == 64 && s.t_cost == 2 && s.p_cost == 2, "its settings", 0);
    check(s.keyid_len == 3 && !memcmp(s.keyid, "key\0", 4) && s.data_len == 4 && !memcmp(s.data, "data\0", 5), "its bytes", 0);
    check(argon2p_parse("$argon2d$m=8,t=1,p=1", 20, &s) == ARGON2P_OK && s.name_len == 7 && s.has_version == 0 && s.text_version == 0
        && s.params_at == 9 && s.params_len == 11 && s.salt_len == 0 && s.output_len == 0 && s.algorithm == ARGON2P_D && s.version == 16
        && s.keyid_len == 0 && s.data_len == 0 && s.salt[0] == 0, "a text without most", 0);
    check(argon2p_parse("$argon2d$v=1", 12, &s) == ARGON2P_TEXT_PARAMETERS && s.has_version == 1 && s.text_version == 1
        && s.params_at == 0 && s.params_len == 0, "a text without parameters", 0);
    check(argon2p_parse(NULL, 3, &s) == ARGON2P_TEXT_NULL, "no text", 0);
    check(argon2p_parse(TEXT, strlen(TEXT), NULL) == ARGON2P_STRUCT, "no room", 0);
    s.size--, check(argon2p_parse(TEXT, strlen(TEXT), &s) == ARGON2P_STRUCT, "too little room", 0);
    s.size = sizeof s, memcpy(odd + 1, &s, sizeof s);
    check(argon2p_parse(TEXT, strlen(TEXT), (void *)(odd + 1)) == ARGON2P_OK
        && !memcmp(odd + 1 + offsetof(argon2p_shown, output), tag, 32), "a structure at an odd address", 0);
    s.size = SIZE_MAX, check(argon2p_parse(TEXT, strlen(TEXT), &s) == ARGON2P_STRUCT, "no size", 0);
    memset(&later, 7, sizeof later), later.shown.size = sizeof later.shown + 8;
    check(argon2p_parse(TEXT, strlen(TEXT), &later.shown) == ARGON2P_OK && later.more[7] == 0 && later.more[8] == 7, "a later structure", 0);
}

static int renewal(argon2p_params p, const char *text) {
    int answer = 7;
    const int code = argon2p_needs_rehash(&p, text, strlen(text), &answer);
    return code == ARGON2P_OK ? answer : code;
}

static void renewals(void) {
    argon2p_params p = params();
    check(renewal(p, TEXT) == ARGON2P_CURRENT && renewal(p, OLD) == ARGON2P_CURRENT, "current, whatever the secret is", 0);
    p.has_output_len = 1, p.output_len = 32, check(renewal(p, TEXT) == ARGON2P_CURRENT, "a length that is set", 0);
    p.output_len = 31, check(renewal(p, TEXT) == ARGON2P_OTHER, "a shorter hash", 0);
    p.output_len = 33, check(renewal(p, TEXT) == ARGON2P_BELOW, "a longer hash", 0);
    p = params(), p.m_cost = 63, check(renewal(p, TEXT) == ARGON2P_OTHER, "less memory", 0);
    p.m_cost = 65, check(renewal(p, TEXT) == ARGON2P_BELOW, "more memory", 0);
    p = params(), p.t_cost = 1, check(renewal(p, TEXT) == ARGON2P_OTHER, "fewer passes", 0);
    p.t_cost = 3, check(renewal(p, TEXT) == ARGON2P_BELOW, "more passes", 0);
    p = params(), p.p_cost = 1, check(renewal(p, TEXT) == ARGON2P_OTHER, "fewer lanes", 0);
    p.p_cost = 3, check(renewal(p, TEXT) == ARGON2P_BELOW, "more lanes", 0);
    p = params(), p.version = 16, check(renewal(p, TEXT) == ARGON2P_OTHER, "an older version", 0);
    p = params(), check(renewal(p, FIRST) == ARGON2P_BELOW, "a newer version", 0);
    p.algorithm = ARGON2P_I, check(renewal(p, TEXT) == ARGON2P_OTHER, "another algorithm", 0);
    p = params(), p.keyid = "kez", check(renewal(p, TEXT) == ARGON2P_OTHER, "another key identifier", 0);
    p = params(), p.data = "dat", p.data_len = 3, check(renewal(p, TEXT) == ARGON2P_OTHER, "other data", 0);
    p = params(), p.data_len = p.keyid_len = 0, check(renewal(p, PLAIN) == ARGON2P_CURRENT, "none", 0);
    check(renewal(p, COSTS) == ARGON2P_BELOW, "a text without a hash", 0);
    p.secret = NULL, check(renewal(p, PLAIN) == ARGON2P_CURRENT, "no secret is looked at", 0);
    check(argon2p_needs_rehash(&p, NULL, 1, NULL) == ARGON2P_TEXT_NULL, "no text", 0);
    check(argon2p_needs_rehash(&p, PLAIN, strlen(PLAIN), NULL) == ARGON2P_OUTPUT_NULL, "no answer", 0);
}

/* ---- logins */

static int weaker(argon2p_params p, const char *text) {
    int answer = 7;
    const int code = argon2p_is_weaker(&p, text, strlen(text), &answer);
    check((code == ARGON2P_OK) == (answer != 7), "an answer for a code of 0", code);
    return code == ARGON2P_OK ? answer : code;
}

/* Whether TEXT is weaker, if one member of what is wanted changes. */
static const struct fault wanted[] = {
    IN_PARAMS(m_cost, 63, 0), IN_PARAMS(m_cost, 65, 1), IN_PARAMS(t_cost, 1, 0), IN_PARAMS(t_cost, 3, 1),
    IN_PARAMS(p_cost, 1, 0), IN_PARAMS(p_cost, 3, 1), IN_PARAMS(algorithm, ARGON2P_D, 1), IN_PARAMS(algorithm, ARGON2P_I, 1),
    IN_PARAMS(version, ARGON2P_VERSION_10, 1), IN_PARAMS(keyid_len, 0, 1), IN_PARAMS(keyid_len, 2, 1),
    IN_PARAMS(data_len, 0, 1), IN_PARAMS(data_len, 3, 1), IN_PARAMS(secret_len, 0, 0), IN_PARAMS(threads, 1, 0),
    IN_PARAMS(has_output_len, 0, 0),
};

static void weaker_texts(void) {
    argon2p_params p = params();
    check(weaker(p, TEXT) == 0 && weaker(p, OLD) == 0, "a text as wanted, whatever the secret is", 0);
    for (size_t i = 0; i < sizeof wanted / sizeof *wanted; i++) {
        p = params(), set(&p, &wanted[i]);
        check(weaker(p, TEXT) == wanted[i].code, "whether a text is weaker", i);
    }
    p = params(), p.has_output_len = 1;
    for (p.output_len = 31; p.output_len <= 33; p.output_len++)
        check(weaker(p, TEXT) == (p.output_len > 32), "a length that is set", p.output_len);
    p = params(), p.keyid_len = p.data_len = 0;
    check(weaker(p, COSTS) == 0 && weaker(p, PLAIN) == 0 && weaker(p, FIRST) == 1, "other texts", 0);
    check(argon2p_is_weaker(&p, NULL, 1, NULL) == ARGON2P_TEXT_NULL, "no text", 0);
    check(argon2p_is_weaker(&p, PLAIN, strlen(PLAIN), NULL) == ARGON2P_OUTPUT_NULL, "no answer", 0);
}

/* Returns the outcome of a login, or the code of an error. Then `fresh` is a new text only if the outcome is ARGON2P_RENEWED. */
static int log_in(argon2p_params p, argon2p_verifier v, const char *text, const char *pwd, char *fresh) {
    char same[ARGON2P_TEXT_SIZE];
    int outcome = 7, code;
    memset(fresh, 7, sizeof same), memset(same, 7, sizeof same);
    code = argon2p_log_in(&p, &v, text, strlen(text), pwd, strlen(pwd), fresh, sizeof same, &outcome);
    check((code == ARGON2P_OK) == (outcome != 7), "an outcome for a code of 0", code);
    check((code == ARGON2P_OK && outcome == ARGON2P_RENEWED) == !!memcmp(fresh, same, sizeof same), "a new text", code);
    return code == ARGON2P_OK ? outcome : code;
}

/* Returns whether a login renews a text: the new text accepts the password, is not weaker, and has the next salt that is drawn. */
static bool renews(argon2p_params p, argon2p_verifier v, const char *text) {
    argon2p_shown shown = ARGON2P_SHOWN_INIT;
    char fresh[ARGON2P_TEXT_SIZE];
    const uint8_t first = drawn;
    if (log_in(p, v, text, "password", fresh) != ARGON2P_RENEWED) return false;
    v.has_old_secret = 0, v.old_secret = NULL, v.old_secret_len = 0;
    return verify(v, fresh, "password", NULL) == ARGON2P_OK && weaker(p, fresh) == 0
        && argon2p_parse(fresh, strlen(fresh), &shown) == ARGON2P_OK && shown.salt_len == 16 && shown.salt[0] == first;
}

static void logins(void) {
    argon2p_params p = params();
    argon2p_verifier v = verifier();
    char fresh[ARGON2P_TEXT_SIZE];
    check(log_in(p, v, TEXT, "password", fresh) == ARGON2P_CURRENT, "a login that stays", 0);
    check(log_in(p, v, TEXT, "passwore", fresh) == ARGON2P_MISMATCH, "another password", 0);
    check(log_in(p, v, OLD, "password", fresh) == ARGON2P_MISMATCH, "another secret", 0);
    for (size_t i = 0; i < sizeof wanted / sizeof *wanted; i++) {
        p = params(), v = verifier(), set(&p, &wanted[i]), v.secret_len = p.secret_len;
        if (!p.secret_len) continue;
        check(wanted[i].code ? renews(p, v, TEXT) : log_in(p, v, TEXT, "password", fresh) == ARGON2P_CURRENT, "renewal", i);
    }
    p = params(), v = verifier(), v.has_old_secret = 1, v.old_secret = "old", v.old_secret_len = 3;
    check(renews(p, v, OLD), "an old secret", 0);
    check(log_in(p, v, TEXT, "password", fresh) == ARGON2P_CURRENT, "the secret before the old one", 0);
    check(log_in(p, v, OLD, "passwore", fresh) == ARGON2P_MISMATCH, "an old secret and another password", 0);
    p.m_cost = 65, p.t_cost = 1, check(renews(p, v, OLD), "an old secret, and other costs", 0);
    interrupted = 3, errno = 4242, check(renews(p, v, TEXT) && errno == 4242, "random bytes after a signal", 0);
    is_drained = true;
    check(log_in(p, v, TEXT, "password", fresh) == ARGON2P_KEPT, "no random bytes", 0);
    check(log_in(p, v, OLD, "password", fresh) == ARGON2P_KEPT, "no random bytes, an old secret", 0);
    check(log_in(p, v, TEXT, "passwore", fresh) == ARGON2P_MISMATCH, "no random bytes, another password", 0);
    check(log_in(params(), v, TEXT, "password", fresh) == ARGON2P_CURRENT, "no random bytes that are needed", 0);
    is_drained = false;
    p = params(), v = verifier(), p.data_len = p.keyid_len = p.secret_len = v.secret_len = 0, p.version = ARGON2P_VERSION_10;
    check(renews(p, v, PLAIN), "no secret, and an older version", 0);
    p = params(), p.secret_len = 0, v.secret = NULL, p.m_cost = 8, p.t_cost = p.p_cost = 1, v.min_output = 4, p.output_len = 4;
    p.algorithm = ARGON2P_D, p.has_output_len = 1, p.data_len = p.keyid_len = 0;
    check(log_in(p, v, SHORT, "", fresh) == ARGON2P_MISMATCH, "an empty password, and another secret", 0);
    p.secret = v.secret = "secret", p.secret_len = v.secret_len = 6;
    check(log_in(p, v, SHORT, "", fresh) == ARGON2P_CURRENT, "an empty password", 0);
}

static int login_code(const argon2p_params *p, const argon2p_verifier *v, const char *text, size_t room) {
    static char fresh[ARGON2P_TEXT_SIZE];
    int outcome = 7;
    const int code = argon2p_log_in(p, v, text, text ? strlen(text) : 9, "password", 8, fresh, room, &outcome);
    check(code == ARGON2P_OK || outcome == 7, "no outcome of an error", code);
    return code;
}

/* The codes of a login in their order. Each call has the faults of all later ones, too. */
static void login_codes(void) {
    argon2p_params p = params();
    argon2p_verifier v = verifier();
    const size_t big = (size_t)UINT32_MAX + 1, room = strlen(TEXT) + 11; /* the new salt has eight bytes more */
    char fresh[ARGON2P_TEXT_SIZE];
    int outcome;
    check(login_code(NULL, &v, TEXT, 999) == ARGON2P_STRUCT && login_code(&p, NULL, TEXT, 999) == ARGON2P_STRUCT, "no structure", 0);
    v.reserved = 1, check(login_code(&p, &v, NULL, 0) == ARGON2P_STRUCT, "a reserved member", 0), v.reserved = 0;
    p.reserved = 1, check(login_code(&p, &v, NULL, 0) == ARGON2P_STRUCT, "a reserved member", 1), p.reserved = 0;
    check(argon2p_log_in(&p, &v, NULL, 1, NULL, 1, NULL, 0, NULL) == ARGON2P_TEXT_NULL, "no text", 0);
    check(argon2p_log_in(&p, &v, "", 0, NULL, 1, NULL, 0, NULL) == ARGON2P_PASSWORD_NULL, "no password", 0);
    v.secret = NULL, check(argon2p_log_in(&p, &v, "", 0, "", 0, NULL, 0, NULL) == ARGON2P_SECRET_NULL, "no secret", 0);
    v = verifier(), v.has_old_secret = 1, v.old_secret_len = 1;
    check(argon2p_log_in(&p, &v, "", 0, "", 0, NULL, 0, NULL) == ARGON2P_SECRET_NULL, "no secret", 1), v = verifier();
    p.secret = p.data = p.keyid = NULL;
    check(argon2p_log_in(&p, &v, "", 0, "", 0, NULL, 0, NULL) == ARGON2P_SECRET_NULL, "no secret", 2), p.secret = "secret";
    check(argon2p_log_in(&p, &v, "", 0, "", 0, NULL, 0, NULL) == ARGON2P_DATA_NULL, "no data", 0), p.data = "data";
    check(argon2p_log_in(&p, &v, "", 0, "", 0, NULL, 0, NULL) == ARGON2P_KEYID_NULL, "no key identifier", 0), p.keyid = "key";
    check(argon2p_log_in(&p, &v, "", 0, "", 0, NULL, 0, &outcome) == ARGON2P_OUTPUT_NULL, "no room", 0);
    check(argon2p_log_in(&p, &v, "", 0, "", 0, fresh, 0, NULL) == ARGON2P_OUTPUT_NULL, "no outcome", 0);
    /* (from here on the secrets differ, the room is too short, and the text is outside the grammar) */
    p.secret_len = 5, p.keyid_len = 9;
    v.m_cost = 63, check(login_code(&p, &v, "", 0) == ARGON2P_WANTED_OUT_OF_BOUND, "memory above the bound", 0), v.m_cost = 64;
    v.t_cost = 1, check(login_code(&p, &v, "", 0) == ARGON2P_WANTED_OUT_OF_BOUND, "passes above the bound", 0), v.t_cost = 2;
    v.p_cost = 1, check(login_code(&p, &v, "", 0) == ARGON2P_WANTED_OUT_OF_BOUND, "lanes above the bound", 0), v.p_cost = 2;
    v.min_output = 33, check(login_code(&p, &v, "", 0) == ARGON2P_WANTED_OUT_OF_BOUND, "a short tag", 0), v.min_output = 32;
    v.max_output = 31, check(login_code(&p, &v, "", 0) == ARGON2P_WANTED_OUT_OF_BOUND, "a long tag", 0), v.max_output = 32;
    check(login_code(&p, &v, "", 0) == ARGON2P_SECRETS_DIFFER, "a shorter secret", 0);
    p.secret = "sEcret", p.secret_len = 6, check(login_code(&p, &v, "", 0) == ARGON2P_SECRETS_DIFFER, "another secret", 0);
    p.secret = NULL, p.secret_len = 0, check(login_code(&p, &v, "", 0) == ARGON2P_SECRETS_DIFFER, "no secret", 3);
    p.secret = "secret", p.secret_len = 6, check(login_code(&p, &v, "", 0) == ARGON2P_KEYID_TOO_LONG, "a key identifier", 0);
    v.m_cost = v.t_cost = v.p_cost = v.max_output = UINT32_MAX, v.min_output = 0;
    for (size_t i = 0; i < sizeof faults / sizeof *faults; i++) {
        p = params(), p.has_output_len = 1, p.output_len = 32, set(&p, &faults[i]);
        if (faults[i].code != ARGON2P_STRUCT && p.secret_len == 6 && p.secret && p.output_len <= UINT32_MAX)
            check(login_code(&p, &v, "", 0) == faults[i].code, "what argon2p_check refuses", i);
    }
    p = params(), p.has_output_len = 1, p.output_len = 65, check(login_code(&p, &v, "", 0) == ARGON2P_OUTPUT_TOO_LONG, "a tag", 0);
    p = params(), v = verifier();
    check(login_code(&p, &v, "", room) == ARGON2P_ROOM_TOO_SHORT && login_code(&p, &v, TEXT, room) == ARGON2P_ROOM_TOO_SHORT, "room", 0);
    check(login_code(&p, &v, TEXT, room + 1) == ARGON2P_OK, "exactly the room", 0);
    for (size_t i = 0; i < sizeof texts / sizeof *texts; i++)
        check(login_code(&p, &v, texts[i].text, 327) == verify(v, texts[i].text, "password", NULL), "a refused text", i);
    v.t_cost = 2, check(login_code(&p, &v, "$argon2id$v=19$m=64,t=3,p=2$c29tZXNhbHQ$AAAAAA", 327) == ARGON2P_ABOVE_BOUND, "costs", 0);
    v.has_old_secret = 1, v.old_secret = "old", v.old_secret_len = big;
    check(login_code(&p, &v, TEXT, 327) == ARGON2P_SECRET_TOO_LONG, "a long old secret", 0);
    check(argon2p_log_in(&p, &v, TEXT, strlen(TEXT), "password", big, fresh, 327, &outcome) == ARGON2P_PASSWORD_TOO_LONG, "long", 0);
}

/* Tries structures that a later header may declare. */
static void later_structures(void) {
    struct {
        argon2p_params params;
        uint8_t more[16];
    } later = {params(), {0}};
    later.params.size = sizeof later;
    check(argon2p_check(&later.params) == ARGON2P_OK, "later members that are 0", 0);
    later.more[15] = 1;
    check(argon2p_check(&later.params) == ARGON2P_STRUCT, "later members that are not", 0);
    later.params.size = SIZE_MAX;
    check(argon2p_check(&later.params) == ARGON2P_STRUCT, "no size", 1);
}

/* ---- tags and lent blocks */

/* Returns the sum of all words, each multiplied by the number of its place. */
static uint64_t sum(const argon2p_block *blocks, size_t n) {
    uint64_t total = 0;
    for (size_t i = 0; i < 128 * n; i++) total += (i + 1) * blocks[i / 128].words[i % 128];
    return total;
}

static int into(const argon2p_params *p, void *out, size_t n, argon2p_block *memory, size_t blocks) {
    return argon2p_hash_into(p, "password", 8, "somesalt", 8, out, n, memory, blocks);
}

static int fill(const argon2p_params *p, argon2p_block *memory, size_t blocks) {
    return argon2p_fill_memory(p, "password", 8, "somesalt", 8, memory, blocks);
}

static void lent_blocks(void) {
    static const uint8_t wide[32] = { /* under 40 bytes of data */
        0x34, 0x27, 0x9a, 0xc0, 0x5a, 0x23, 0x5b, 0xe0, 0x84, 0x37, 0x39, 0xda, 0xff, 0xae, 0x61, 0xa4,
        0xf1, 0x23, 0xff, 0x9d, 0xb7, 0xd7, 0xfa, 0x63, 0xd9, 0x10, 0x30, 0x9d, 0x6e, 0x4b, 0xc9, 0xa8,
    };
    static argon2p_block blocks[66], same;
    const size_t big = (size_t)1 << 32;
    argon2p_params p = params();
    uint8_t out[64], data[40];
    memset(&same, 0xA5, sizeof same);
    check(into(&p, out, 32, NULL, 0) == ARGON2P_OK && !memcmp(out, tag, 32), "a tag on the library's memory", 0);
    for (size_t n = 64; n <= 66; n++) {
        memset(blocks, 0xA5, sizeof blocks), memset(out, 0, 64);
        check(into(&p, out, 32, blocks, n) == ARGON2P_OK && !memcmp(out, tag, 32), "a tag on lent blocks", n);
        check(sum(blocks, 64) == UINT64_C(14286243738465972738) && !memcmp(&blocks[64], &same, sizeof same), "the matrix", n);
        memset(blocks, 0xA5, sizeof blocks);
        check(fill(&p, blocks, n) == ARGON2P_OK && sum(blocks, 64) == UINT64_C(9741360527789852011)
            && !memcmp(&blocks[64], &same, sizeof same), "memory that is filled", n);
    }
    check(into(&p, out, 32, blocks, 63) == ARGON2P_BLOCKS_TOO_FEW && fill(&p, blocks, 63) == ARGON2P_BLOCKS_TOO_FEW, "too few", 63);
    check(into(&p, out, 32, blocks, 0) == ARGON2P_BLOCKS_TOO_FEW && fill(&p, blocks, 0) == ARGON2P_BLOCKS_TOO_FEW, "too few", 0);
    check(into(&p, out, 32, NULL, 64) == ARGON2P_BLOCKS_NULL && fill(&p, NULL, 0) == ARGON2P_BLOCKS_NULL, "no blocks", 0);
    check(into(&p, out, 32, (void *)((char *)blocks + 4), 65) == ARGON2P_BLOCKS_NULL, "blocks that are not aligned", 0);
    check(into(&p, NULL, 0, NULL, 0) == ARGON2P_OUTPUT_NULL, "no output", 0);
    check(into(&p, out, 3, NULL, 0) == ARGON2P_OUTPUT_TOO_SHORT && into(&p, out, big, NULL, 0) == ARGON2P_OUTPUT_TOO_LONG, "outputs", 0);
    p.has_output_len = 1, p.output_len = 33;
    check(into(&p, out, 32, NULL, 0) == ARGON2P_OUTPUT_TOO_SHORT && into(&p, out, 34, NULL, 0) == ARGON2P_OUTPUT_TOO_LONG
        && into(&p, out, 33, NULL, 0) == ARGON2P_OK && fill(&p, blocks, 64) == ARGON2P_OK, "a length that is set", 0);
    p = params();
    check(argon2p_hash_into(&p, NULL, 8, "somesalt", 8, out, 32, NULL, 0) == ARGON2P_PASSWORD_NULL
        && argon2p_hash_into(&p, "password", 8, NULL, 8, out, 32, NULL, 0) == ARGON2P_SALT_NULL
        && argon2p_hash_into(&p, "password", big, "somesalt", 7, out, 32, NULL, 0) == ARGON2P_PASSWORD_TOO_LONG
        && argon2p_hash_into(&p, "password", 8, "somesalt", 7, out, 32, NULL, 0) == ARGON2P_SALT_TOO_SHORT
        && argon2p_hash_into(&p, "password", 8, "somesalt", big, out, 32, NULL, 0) == ARGON2P_SALT_TOO_LONG, "inputs of a tag", 0);
    check(argon2p_fill_memory(&p, NULL, 8, "somesalt", 8, blocks, 64) == ARGON2P_PASSWORD_NULL
        && argon2p_fill_memory(&p, "password", 8, NULL, 8, blocks, 64) == ARGON2P_SALT_NULL
        && argon2p_fill_memory(&p, "password", big, "somesalt", 7, blocks, 64) == ARGON2P_PASSWORD_TOO_LONG
        && argon2p_fill_memory(&p, "password", 8, "somesalt", 7, blocks, 64) == ARGON2P_SALT_TOO_SHORT, "of memory", 0);
    check(argon2p_hash_into(&p, out + 31, 8, "somesalt", 8, out, 32, NULL, 0) == ARGON2P_OVERLAP, "an output on the password", 0);
    check(into(&p, blocks[63].words, 32, blocks, 64) == ARGON2P_OVERLAP && into(&p, blocks[64].words, 32, blocks, 65) == ARGON2P_OK
        && !memcmp(blocks[64].words, tag, 32), "an output on the blocks, and behind them", 0);
    check(argon2p_fill_memory(&p, "password", 8, blocks, 8, blocks, 64) == ARGON2P_OVERLAP, "blocks on the salt", 0);
    for (int i = 0; i < 40; i++) data[i] = i;
    p.data = data, p.data_len = 40, p.keyid = NULL, p.keyid_len = 99;
    check(into(&p, out, 32, NULL, 0) == ARGON2P_OK && !memcmp(out, wide, 32), "40 bytes of data, and no key identifier", 0);
    check(into(&p, out, 32, blocks, 64) == ARGON2P_OK && !memcmp(out, wide, 32), "on lent blocks", 0);
    check(argon2p_block_count(64, 2) == 64 && argon2p_block_count(71, 2) == 64 && argon2p_block_count(100, 3) == 96
        && argon2p_block_count(64, 0) == 0 && argon2p_block_count(UINT32_MAX, 1 << 24) == 0, "counts of blocks", 0);
}

/* ---- each request for memory refused in turn, and wiping */

#ifndef __SANITIZE_ADDRESS__ /* which has larger frames */
enum { HASHES = 4, CALLS = 11 };

static argon2p_shown shown_here = ARGON2P_SHOWN_INIT;

static int call(int which) {
    static char text[ARGON2P_TEXT_SIZE];
    static uint8_t out[32];
    argon2p_params p = params();
    argon2p_verifier small = verifier();
    int answer, by_old = 7;
    small.t_cost = 1;
    memset(text, 7, sizeof text), memset(out, 7, 32), forget_registers(), requests = 0, counting = true;
    if (which == 0) answer = hash(p, "somesalt", text, sizeof text);
    else if (which == 1) answer = verify(verifier(), TEXT, "password", &by_old);
    else if (which == 2) answer = into(&p, out, 32, NULL, 0);
    else if (which == 3) answer = verify(verifier(), LARGE, "password", &by_old);
    else if (which == 4) answer = verify(small, TEXT, "password", &by_old);
    else if (which == 5) answer = argon2p_parse(TEXT, strlen(TEXT), &shown_here);
    else if (which == 6) answer = argon2p_parse(TEXT "=", strlen(TEXT) + 1, &shown_here);
    else if (which == 7) answer = argon2p_needs_rehash(&p, TEXT, strlen(TEXT), &by_old);
    else if (which == 8) answer = argon2p_is_weaker(&p, TEXT, strlen(TEXT), &by_old);
    else {
        const argon2p_verifier v = verifier();
        p.m_cost = which == 9 ? 64 : 65;
        answer = argon2p_log_in(&p, &v, TEXT, strlen(TEXT), "password", 8, text, sizeof text, &by_old);
    }
    copy_registers();
    counting = false;
    return answer && (text[0] != 7 || out[0] != 7 || by_old != 7) ? 1 : answer;
}

static uint8_t stack[1 << 18] __attribute__((aligned(4096)));
static uint8_t *top;

static void *call_here(void *which) {
    top = __builtin_frame_address(0);
    call(*(int *)which);
    return NULL;
}

/* A call uses at most 32 KiB of stack, and leaves no eight bytes of the tag there or in a register. For calls that hash
 * nothing, the tag is the one in their text. */
static void stacks_of_calls(void) {
    for (int which = 0; which < CALLS; which++) {
        pthread_attr_t attributes;
        pthread_t thread;
        size_t untouched = 0;
        memset(stack, 0xA5, sizeof stack);
        pthread_attr_init(&attributes), pthread_attr_setstack(&attributes, stack, sizeof stack);
        check(!pthread_create(&thread, &attributes, call_here, &which) && !pthread_join(thread, NULL), "a thread", which);
        check(pieces(stack, sizeof stack, tag) == 0, "no tag on the stack", which);
        check(pieces_in_registers(tag) == 0, "no tag in a register", which);
        while (stack[untouched] == 0xA5) untouched++;
        check(top - stack - untouched <= 32 << 10, "32 KiB of stack", top - stack - untouched);
    }
}
#endif

#ifdef REFUSES
/* The text changes to ask for more memory while its memory is requested. The call has read it before. */
static void changed_text(void) {
    char text[] = TEXT;
    changing = strchr(text, '6');
    check(verify(verifier(), text, "password", NULL) == ARGON2P_OK && strstr(text, "m=94"), "a changed text", 0);
}

static void refused_memory(void) {
    refuse = 1, stacks_of_calls(), refuse = 0;
    for (int which = 0; which < HASHES; which++) {
        int answer;
        unwiped = 0;
        for (refuse = 1; answer = call(which), requests >= refuse; refuse++)
            if (answer == ARGON2P_OK && which == 3) break; /* a thread that is not started */
            else check(answer == ARGON2P_OUT_OF_MEMORY, "refused memory", which * 100 + refuse);
        check(refuse > 1 && answer == ARGON2P_OK, "a call that asks for memory", which);
        check(unwiped < 64, "words that were not wiped", unwiped);
        refuse = 0, unwiped = -1;
    }
}
#endif

#ifdef REFUSES
/* Refuses each request for memory of a login that renews. What is refused before the password is accepted is an error. Later the
 * stored hash is kept. */
static void refused_logins(void) {
    argon2p_params p = params();
    char fresh[ARGON2P_TEXT_SIZE];
    int outcomes[3] = {0}, answer;
    p.m_cost = 4096, p.p_cost = 4, unwiped = 0, counting = true;
    for (refuse = 1; requests = 0, answer = log_in(p, verifier(), LARGE, "password", fresh), requests >= refuse; refuse++) {
        check(answer == ARGON2P_OUT_OF_MEMORY || (answer >= 0 && answer <= 2), "refused memory of a login", answer);
        if (answer >= 0) outcomes[answer]++;
    }
    counting = false, refuse = 0;
    check(answer == ARGON2P_RENEWED && outcomes[ARGON2P_KEPT] > 0 && !outcomes[ARGON2P_CURRENT], "a login that keeps", answer);
    check(unwiped < 64, "words that were not wiped", unwiped);
    unwiped = -1;
}
#endif

int main(void) {
    known_texts(), old_secrets(), drawn_salts(), codes(), messages(), refused_texts(), shown_texts(), renewals(), later_structures();
    weaker_texts(), logins(), login_codes();
    lent_blocks();
#ifndef __SANITIZE_ADDRESS__
    stacks_of_calls();
#endif
#ifdef REFUSES
    changed_text(), refused_memory(), refused_logins();
#endif
    return ended();
}
