/*
 * Makes hashes whose lanes several threads fill. tests/c/check-races runs it under ThreadSanitizer or helgrind. The C code of
 * the library is linked with this file, which gets its calls of the crate. ThreadSanitizer does not see into the crate, so the
 * functions here tell it what each call reads and writes. They also check that the calls have the order that the crate
 * requires. Prints what fails, and last 'N passed, M failed'.
 */
#define _GNU_SOURCE
#define argon2_c_begin watched_begin
#define argon2_c_segment watched_segment
#define argon2_c_finish watched_finish
#include "private.h"
#undef argon2_c_begin
#undef argon2_c_segment
#undef argon2_c_finish

#include "counts.h"

#include <stdatomic.h>
#include <unistd.h>

__typeof__(watched_begin) argon2_c_begin;
__typeof__(watched_segment) argon2_c_segment;
__typeof__(watched_finish) argon2_c_finish;

/* This is 1 for ThreadSanitizer, and 0 for helgrind, which would see the counts here too. */
#ifndef ANNOTATES
#define ANNOTATES 0
#endif
void __tsan_read_range(void *, long);
void __tsan_write_range(void *, long);

enum { MOST_PASSES = 2, MOST_LANES = 9 };

/* Which segments of the hash are done. The counts set no order of memory, because that would hide races. */
static uint32_t lanes;
static atomic_uint made[4 * MOST_PASSES][MOST_LANES], filled[4 * MOST_PASSES], wrong;

static void once(bool holds) {
    if (!holds) atomic_fetch_add_explicit(&wrong, 1, memory_order_relaxed);
}

int32_t watched_begin(const struct request *request, bytes pwd, size_t pwdlen, bytes salt, size_t saltlen, bytes secret,
    size_t secretlen, bytes ad, size_t adlen, size_t outlen, block *first, size_t width) {
    once((uintptr_t)first % 128 == 0);
    if (ANNOTATES) __tsan_write_range(first, width * sizeof *first);
    return argon2_c_begin(request, pwd, pwdlen, salt, saltlen, secret, secretlen, ad, adlen, outlen, first, width);
}

int32_t watched_finish(const struct request *request, const block *last, size_t width, uint8_t *out, size_t outlen) {
    if (ANNOTATES) __tsan_read_range((block *)last, width * sizeof *last);
    return argon2_c_finish(request, last, width, out, outlen);
}

/* The first segment waits, so that other threads have time to fill the other segments. */
int32_t watched_segment(const struct request *request, bytes secret, size_t secretlen, bytes ad, size_t adlen,
    const block *before, size_t before_n, block *own, size_t n, const block *after, size_t after_n,
    const struct segment_at *at) {
    const size_t width = n * lanes;
    const uint32_t slice = at->slice, lane = at->lane, step = 4 * at->pass + slice;
    int32_t answer;
    if (step == 0 && lane == 0) usleep(20000);
    if (ANNOTATES) {
        once(own == before + slice * width + lane * n && before_n == slice * width);
        once(after == before + (slice + 1) * width && after_n == (3 - slice) * width);
        once(atomic_fetch_add_explicit(&made[step][lane], 1, memory_order_relaxed) == 0);
        once(step == 0 || atomic_load_explicit(&filled[step - 1], memory_order_relaxed) == lanes);
        __tsan_read_range((block *)before, before_n * sizeof *before);
        __tsan_write_range(own, n * sizeof *own);
        __tsan_read_range((block *)after, after_n * sizeof *after);
    }
    answer = argon2_c_segment(request, secret, secretlen, ad, adlen, before, before_n, own, n, after, after_n, at);
    if (ANNOTATES) atomic_fetch_add_explicit(&filled[step], 1, memory_order_relaxed);
    return answer;
}

static void hash(argon2_type type, uint32_t version, uint32_t passes, uint32_t threads, uint8_t *tag) {
    argon2_context c = {
        .out = tag, .outlen = 32, .pwd = (uint8_t *)"password", .pwdlen = 8, .salt = (uint8_t *)"somesalt", .saltlen = 8,
        .t_cost = passes, .m_cost = 4096 + 4 * MOST_LANES, .lanes = lanes, .threads = threads, .version = version,
    };
    memset(made, 0, sizeof made), memset(filled, 0, sizeof filled);
    check(argon2_ctx(&c, type) == ARGON2_OK, "a hash", lanes);
}

int main(void) {
    static const struct {
        argon2_type type;
        uint32_t version, passes, lanes;
    } all[] = {
        {Argon2_d, ARGON2_VERSION_10, 1, 2}, {Argon2_i, ARGON2_VERSION_13, 1, 3},
        {Argon2_id, ARGON2_VERSION_13, MOST_PASSES, 4}, {Argon2_id, ARGON2_VERSION_10, 1, MOST_LANES},
    };
    for (size_t i = 0; i < sizeof all / sizeof *all; i++) {
        uint8_t alone[32], tag[32] = {0};
        lanes = all[i].lanes;
        hash(all[i].type, all[i].version, all[i].passes, 1, alone);
        hash(all[i].type, all[i].version, all[i].passes, 4, tag);
        check(!memcmp(tag, alone, 32), "the tag of one thread", lanes);
    }
    check(wrong == 0, "blocks on a line of the cache, and each segment once and in order", lanes);
    return ended();
}
