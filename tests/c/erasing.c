/*
 * Tests how a hash with 32 MiB of memory or more is erased: which pages are given back to the system, that all blocks are zero
 * when they are freed, and that memory of the caller is never given back. tests/c/run links it with the static library, because
 * only there a program can set FLAG_clear_internal_memory. tests/c/check-plants runs it on faults. The reference computed the
 * tags, and a program after the text of RFC 9106 the words of blocks. Prints what fails, and last 'N passed, M failed', and
 * how many rows were skipped.
 */
#define _GNU_SOURCE
#include "argon2.h"
#include "argon2_phc.h"
#include "counts.h"

#include <stdlib.h>
#include <sys/mman.h>
#include <sys/syscall.h>
#include <unistd.h>

/* ---- memory */

/* A file has bytes that are not 0 at the places between the last two. Each hash has blocks there. */
enum { LARGE = 16 << 20, HUGE_PAGE = 2 << 20, BLOCK = 1024, FROM = 4 << 20, TO = 28 << 20 };

/* What large memory is from malloc. `REFUSED` is private memory that the system does not take back. */
static enum kind { PRIVATE, SHARED, LOCKED, OF_FILE, REFUSED } kind;

/* The first words of blocks that a guess makes quickly, after one pass: of the columns 0, 1, 2 and of the last column of the first
 * slice, in each lane. */
static const uint64_t early[] = {
    /* 33000 blocks, one lane */
    0x0f40c850aa5ddbf3, 0xe5d73d8f913701d6, 0x4a245156d3e60691, 0x805e0ee6c3d6fec8,
    /* 40000 blocks, four lanes */
    0x0f4b70e965476acd, 0x68a027c8de291633, 0x27563818f2756c19, 0x18955d001178cf2e,
    0x6a666b37d498e957, 0x5a3b66af165efeb0, 0x2828fdf1c7ef9921, 0x2925206cfee6b891,
    0x53dc206cc4065233, 0xc3c310bb5383e899, 0xe7664fc4d747ea69, 0x9a27fc6e6cc77dc4,
    0xecd5d1ce494cecf9, 0xe45b6a0d9d152c30, 0xa7ed24ca4acd1738, 0x9a3e623f955c17f7,
};

/* Returns how many of these blocks are in memory that begins with a block. */
static int early_blocks(const void *at, size_t n) {
    int found = 0;
    for (size_t i = 0; i + BLOCK <= n; i += BLOCK)
        for (size_t k = 0; k < sizeof early / sizeof *early; k++)
            found += *(const uint64_t *)((const uint8_t *)at + i) == early[k];
    return found;
}

/* How many words are not 0. */
static long words(const void *at, size_t n) {
    long found = 0;
    for (size_t i = 0; i + 8 <= n; i += 8) found += *(const uint64_t *)((const uint8_t *)at + i) != 0;
    return found;
}

/* The large memory that malloc gave. */
static uint8_t *mapped;
static size_t mapped_size;

/* What was seen: bytes that were given back, early blocks in them just before, and in memory that is freed early blocks and words
 * that are not 0. */
static size_t given;
static int early_given, early_freed;
static long left;

static void *map(size_t n) {
    const int flags = kind == SHARED ? MAP_SHARED | MAP_ANONYMOUS : kind == OF_FILE ? MAP_PRIVATE : MAP_PRIVATE | MAP_ANONYMOUS;
    const int file = kind == OF_FILE ? memfd_create("blocks", 0) : -1;
    uint8_t some[4096] = {0};
    void *at;
    for (size_t i = 0; kind == OF_FILE && i < n; i += sizeof some) {
        if (i == FROM || i == TO) memset(some, i == FROM ? 0xA5 : 0, sizeof some);
        if (write(file, some, sizeof some) != sizeof some) return NULL;
    }
    at = mmap(NULL, n, PROT_READ | PROT_WRITE, flags, file, 0);
    if (file >= 0) close(file);
    if (at == MAP_FAILED || (kind == LOCKED && mlock(at, n) != 0)) return NULL;
    return at;
}

void *__libc_malloc(size_t);
void __libc_free(void *);

void *malloc(size_t n) {
    if (n < LARGE) return __libc_malloc(n);
    mapped = map(n), mapped_size = n;
    return mapped;
}

void free(void *at) {
    if (!at || at != mapped) {
        __libc_free(at);
        return;
    }
    left += words(mapped, mapped_size), early_freed += early_blocks(mapped, mapped_size);
    munmap(mapped, mapped_size), mapped = NULL;
}

int madvise(void *at, size_t n, int advice) {
    if (advice == MADV_DONTNEED) given += n, early_given += early_blocks(at, n);
    if (advice == MADV_DONTNEED && kind == REFUSED) return errno = EPERM, -1;
    return (int)syscall(SYS_madvise, at, n, advice);
}

static void forget(void) {
    given = 0, early_given = early_freed = 0, left = 0;
}

/* ---- hashes on memory of the library */

#define ONE_PASS 1, 33000, 1
#define TWO_PASSES 2, 33000, 1
#define LANES 1, 40000, 4
#define LANES_TWICE 2, 40000, 4
#define HUGE_PAGES(n) ((size_t)(n) * HUGE_PAGE)

static const struct row {
    uint32_t t_cost, m_cost, lanes, threads;
    int flag;
    enum kind kind;
    size_t given; /* bytes that the library asks the system to take back */
    int early; /* early blocks that are freed */
} rows[] = {
    /* below 32 MiB nothing is given back; from there on, all whole huge pages */
    {1, 32767, 1, 1, 1, PRIVATE, 0, 0}, {1, 32768, 1, 1, 1, PRIVATE, HUGE_PAGES(16), 0},
    {ONE_PASS, 1, 1, PRIVATE, HUGE_PAGES(16), 0}, {TWO_PASSES, 1, 1, PRIVATE, HUGE_PAGES(16), 0},
    {LANES, 1, 1, PRIVATE, HUGE_PAGES(19), 0}, {LANES, 3, 1, PRIVATE, HUGE_PAGES(19), 0},
    {LANES, 4, 1, PRIVATE, HUGE_PAGES(19), 0}, {LANES_TWICE, 4, 1, PRIVATE, HUGE_PAGES(19), 0},
    /* memory that keeps its bytes, or gets others */
    {ONE_PASS, 1, 1, SHARED, HUGE_PAGES(16), 0}, {LANES_TWICE, 4, 1, SHARED, HUGE_PAGES(19), 0},
    {ONE_PASS, 1, 1, LOCKED, HUGE_PAGES(16), 0}, {LANES_TWICE, 4, 1, LOCKED, HUGE_PAGES(19), 0},
    {TWO_PASSES, 1, 1, OF_FILE, HUGE_PAGES(16), 0}, {LANES, 4, 1, OF_FILE, HUGE_PAGES(19), 0},
    {TWO_PASSES, 1, 1, REFUSED, HUGE_PAGES(16), 0}, {LANES, 4, 1, REFUSED, HUGE_PAGES(19), 0},
    /* the other values of the flag */
    {ONE_PASS, 1, 2, PRIVATE, 0, 0}, {LANES_TWICE, 1, 2, PRIVATE, 0, 0}, {LANES, 4, 2, PRIVATE, 0, 0},
    {ONE_PASS, 1, 0, PRIVATE, 0, 4}, {LANES, 1, 0, PRIVATE, 0, 16}, {LANES, 4, 0, PRIVATE, 0, 16},
};

static const struct tag {
    uint32_t t_cost, m_cost;
    const char *hex;
} tags[] = {
    {1, 32767, "17a5b422146487e34d155cc25515546090b982089bd09888196d33b6a4b768cb"},
    {1, 32768, "862b217598eab4198fc557fbcae005b35cf8093e0648f942b2902ccb4e7d2beb"},
    {1, 33000, "fed704f11412dd872e47084de8f81c081181a465e14c9691ecfc48208e89ad2f"},
    {1, 40000, "9da3b58cd8f635d791669db479e92566657fa567a3add71ef5b735a7d349685f"},
    {2, 33000, "aedfbdd61bbcc9b55656fd5237899a73a3a11b7d12ca969d3aa579f44c640907"},
    {2, 40000, "f4eda34eede22365b43123f044f13ec8026b411e64faf9504bb81ff49f5ba52d"},
};

/* Returns whether a tag is the tag of these costs. */
static bool is_tag(const uint8_t *tag, uint32_t t_cost, uint32_t m_cost) {
    char hex[65];
    for (int i = 0; i < 32; i++) sprintf(hex + 2 * i, "%02x", tag[i]);
    for (size_t i = 0; i < sizeof tags / sizeof *tags; i++)
        if (tags[i].t_cost == t_cost && tags[i].m_cost == m_cost) return !strcmp(hex, tags[i].hex);
    return false;
}

static argon2_context context(const struct row *row, uint8_t *out) {
    return (argon2_context){
        .out = out, .outlen = 32, .pwd = (uint8_t *)"password", .pwdlen = 8, .salt = (uint8_t *)"somesalt", .saltlen = 8,
        .t_cost = row->t_cost, .m_cost = row->m_cost, .lanes = row->lanes, .threads = row->threads, .version = 0x13,
    };
}

/* Returns whether this process may lock the memory of a hash. */
static bool can_lock(void) {
    void *at;
    kind = LOCKED, at = map(HUGE_PAGES(24)), kind = PRIVATE;
    return at && munmap(at, HUGE_PAGES(24)) == 0;
}

/* Hashes as each row states. */
static void own_memory(void) {
    const bool locks = can_lock();
    for (size_t i = 0; i < sizeof rows / sizeof *rows; i++) {
        const struct row *row = &rows[i];
        uint8_t out[32] = {0};
        argon2_context c = context(row, out);
        if (row->kind == LOCKED && !locks) {
            skipped++;
            continue;
        }
        forget(), kind = row->kind, FLAG_clear_internal_memory = row->flag, errno = 4242;
        check(argon2_ctx(&c, Argon2_id) == ARGON2_OK && is_tag(out, row->t_cost, row->m_cost), "the tag", (long)i);
        check(errno == 4242, "errno as it was", (long)i);
        check(!mapped, "memory that is freed", (long)i);
        check(given == row->given, "bytes that are given back", (long)i);
        check(early_given == 0, "no block that shows a guess is given back", (long)i);
        check((left == 0) == (row->flag != 0), "no word is left", (long)i);
        check(early_freed == row->early, "blocks that show a guess, if nothing is erased", (long)i);
    }
    kind = PRIVATE, FLAG_clear_internal_memory = 1;
    if (!locks) printf("skipped: locked memory: allow this user to lock 48 MiB (ulimit -l)\n");
}

/* A verification hashes twice if an old secret accepts the password. */
static void two_secrets(void) {
    argon2p_params params = ARGON2P_PARAMS_INIT;
    argon2p_verifier verifier = ARGON2P_VERIFIER_INIT;
    char text[ARGON2P_TEXT_SIZE];
    int is_old = 0;
    params.m_cost = 33000, params.secret = "old", params.secret_len = 3;
    forget();
    check(argon2p_hash(&params, "password", 8, "somesalt", 8, text, sizeof text) == ARGON2P_OK && given == HUGE_PAGES(16) && !left,
        "a text", left);
    verifier.secret = "new", verifier.secret_len = 3;
    verifier.old_secret = params.secret, verifier.old_secret_len = 3, verifier.has_old_secret = 1;
    forget();
    check(argon2p_verify(&verifier, text, strlen(text), "password", 8, &is_old) == ARGON2P_OK && is_old
        && given == 2 * HUGE_PAGES(16) && !left, "an old secret", left);
}

/* ---- memory of the caller */

static const struct row lent_row = {ONE_PASS, 1, 1, PRIVATE, 0, 0};
static uint8_t *lent;
static size_t shift;
static long lent_left;

static int take(uint8_t **at, size_t n) {
    lent = map(n + HUGE_PAGE);
    *at = lent + shift;
    return memset(*at, 0xA5, n) == NULL;
}

static void give(uint8_t *at, size_t n) { lent_left = words(at - shift, n), munmap(lent, n + HUGE_PAGE); }

static void lent_memory(void) {
    argon2p_params params = ARGON2P_PARAMS_INIT;
    uint8_t out[32] = {0};
    argon2_context c = context(&lent_row, out);
    void *at = map(33000 * BLOCK);
    c.allocate_cbk = take, c.free_cbk = give;
    for (shift = 0; shift < 2; shift++) { /* the library hashes on its own memory if the caller's is not aligned */
        forget();
        check(argon2_ctx(&c, Argon2_id) == ARGON2_OK && is_tag(out, 1, 33000), "a tag on lent memory", (long)shift);
        check(given == (shift ? HUGE_PAGES(16) : 0) && !left, "lent memory is not given back", (long)shift);
        check(lent_left == 0, "lent memory is wiped", lent_left);
    }
    params.m_cost = 33000, params.t_cost = 1;
    forget();
    check(argon2p_hash_into(&params, "password", 8, "somesalt", 8, out, 32, at, 33000) == ARGON2P_OK && is_tag(out, 1, 33000)
        && early_blocks(at, 33000 * BLOCK) == 4 && !given, "lent blocks stay", (long)given);
    munmap(at, 33000 * BLOCK);
}

int main(void) {
    own_memory(), two_secrets(), lent_memory();
    return ended();
}
