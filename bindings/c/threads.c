/*
 * Several threads fill the lanes of a hash. The memory is laid out slice by slice, and in each slice lane by lane. So a
 * segment, the slices before its slice, and the slices after its slice are three ranges that do not overlap.
 *
 * The law `segments_apart` gives the tag if the following conditions hold. This C keeps them, and no proof checks that it does.
 * S is m / (4 p).
 * - All calls of a hash have the same request, secret and data. The output of argon2_c_finish has the length that
 *   argon2_c_begin got.
 * - One memory of 4 S p blocks lives through all calls. argon2_c_begin gets its first slice, and argon2_c_finish its last
 *   slice.
 * - For slice k and lane l, argon2_c_segment gets the first k S p blocks of the memory, the S blocks from block (k p + l) S on,
 *   and all blocks from block (k + 1) S p on.
 * - argon2_c_segment is called once for each pass, slice and lane, after argon2_c_begin. The passes come one after the other.
 *   In a pass, all calls of a slice return before a call of the next slice begins. A call sees what all calls of earlier slices
 *   and passes wrote.
 * - From argon2_c_begin to the last segment, nothing else writes to the memory. Nothing else writes to the last slice until
 *   argon2_c_finish returns.
 * - The answer of each call is checked. If an answer is not 0, no tag is returned.
 */
#include "private.h"

enum {
    FROM_HERE_IN_THREADS = 4 << 10, /* blocks; with fewer blocks, threads save no time */
    STACK = 256 << 10, /* bytes added to the default size, which may have room for the thread-local memory only */
    LOOKS = 200, /* how often a thread looks for the next slice before it sleeps */
};

/* 1 in a build of tests/c/check-races, in which no slice waits for the slice before it. */
#ifndef RACES
#define RACES 0
#endif

/* A hash that several threads make. */
struct filling {
    const argon2_context *context;
    const struct request *request;
    block *blocks;
    size_t segment; /* the number of its blocks */
    uint32_t workers; /* the number of threads, with the caller's */
    mutex lock; /* for the members after it */
    condition changed;
    uint32_t pass, slice;
    uint32_t taken, filled; /* lanes of the slice; all count as taken until the first slice is begun */
    uint32_t unwiped; /* segments of the first three slices; they are wiped when all slices are filled */
    int answer; /* 0, or the answer of a call that failed */
};

/* Returns how many threads make a hash, with the caller's. */
uint32_t worker_count(const argon2_context *c) {
    const uint32_t useful = c->threads < c->lanes ? c->threads : c->lanes;
    uint32_t usable;
    if (useful == 1 || block_count(c) < FROM_HERE_IN_THREADS) return 1;
    usable = processor_count();
    if (usable == 0) return 1;
    if (usable > MOST_THREADS) usable = MOST_THREADS;
    return useful < usable ? useful : usable;
}

/* Fills the segments of `n` lanes, beginning with `lane`. */
static int fill_segments(const struct filling *f, uint32_t pass, uint32_t slice, uint32_t lane, uint32_t n) {
    const argon2_context *c = f->context;
    const size_t width = f->segment * c->lanes;
    block *here = f->blocks + slice * width;
    int answer = ARGON2_OK;
    for (struct segment_at at = {pass, slice, lane}; at.lane < lane + n && answer == ARGON2_OK; at.lane++)
        answer = argon2_c_segment(f->request, SECRET_AND_DATA(c), f->blocks, slice * width, here + at.lane * f->segment,
            f->segment, here + width, (3 - slice) * width, &at);
    return answer;
}

/* Lets the threads begin to fill, or lets them end if the first slice was not begun. */
static void begin_filling(struct filling *f, int answer) {
    lock(&f->lock);
    f->answer = answer;
    f->taken = 0;
    wake_all(&f->changed);
    unlock(&f->lock);
}

/* Counts lanes as filled. After the last lane of a slice the next slice begins. */
static void count_filled(struct filling *f, uint32_t n) {
    f->filled += n;
    if (f->filled < f->context->lanes) return;
    f->taken = f->filled = 0;
    f->pass += f->slice == 3;
    f->slice = (f->slice + 1) % 4;
    wake_all(&f->changed);
}

/* Waits about a microsecond. */
static void wait_briefly(void) {
    for (int i = 0; i < 16; i++) relax();
}

/* Takes lanes of the current slice and fills their segments, until the last slice is filled. Returns 0 in all threads if each
 * segment was filled, and in no thread otherwise. */
static int fill_slices(struct filling *f) {
    int result, looks = 0;
    lock(&f->lock);
    while (f->pass < f->context->t_cost && f->answer == ARGON2_OK) {
        const uint32_t pass = f->pass, slice = f->slice, lane = f->taken;
        const uint32_t n = (f->context->lanes - lane + 2 * f->workers - 1) / (2 * f->workers);
        int answer;
        if (n == 0) {
            if (looks++ < LOOKS) { /* a thread that sleeps may wake too late for its share of a short slice */
                unlock(&f->lock);
                wait_briefly();
                lock(&f->lock);
            } else {
                sleep_until(&f->changed, &f->lock);
            }
            continue;
        }
        looks = 0;
        f->taken += n;
        if (RACES) count_filled(f, n);
        unlock(&f->lock);
        answer = fill_segments(f, pass, slice, lane, n);
        lock(&f->lock);
        if (!RACES) count_filled(f, n);
        if (answer != ARGON2_OK) {
            f->answer = answer;
            wake_all(&f->changed);
        }
    }
    result = f->answer;
    unlock(&f->lock);
    wipe_stack();
    return result;
}

/* Wipes segments of the first three slices, until none is left. Meanwhile the tag is made of the last slice. */
static void wipe_slices(struct filling *f) {
    lock(&f->lock);
    while (f->unwiped > 0) {
        block *at = f->blocks + --f->unwiped * f->segment;
        unlock(&f->lock);
        wipe(at, f->segment * sizeof *at);
        lock(&f->lock);
    }
    unlock(&f->lock);
}

WORK work(void *filling) {
    if (fill_slices(filling) == ARGON2_OK) wipe_slices(filling);
    return 0;
}

/* Hashes as `argon2_c_hash` does, with at most `workers` threads. The threads that it starts have ended when it returns. */
int hash_in_threads(const argon2_context *c, const struct request *request, uint8_t *out, block *memory, bool wipes,
    uint32_t workers) {
    const size_t width = block_count(c) / 4;
    block *const last = memory + 3 * width;
    struct filling f = {
        .context = c, .request = request, .blocks = memory, .segment = width / c->lanes, .workers = workers,
        .taken = c->lanes,
        .unwiped = wipes ? 3 * c->lanes : 0, .lock = MUTEX, .changed = CONDITION,
    };
    thread threads[MOST_THREADS];
    const int cancelling = hold_cancelling();
    uint32_t started = start_all(threads, workers - 1, work, &f, STACK);
    int answer;
    answer = argon2_c_begin(request, INPUTS(c), c->outlen, memory, width);
    begin_filling(&f, answer);
    answer = fill_slices(&f);
    if (answer == ARGON2_OK) {
        answer = argon2_c_finish(request, last, width, out, c->outlen);
        if (wipes) wipe(last, width * sizeof *last);
        wipe_slices(&f);
    }
    while (started > 0) join(threads[--started]);
    restore_cancelling(cancelling);
    wipe_stack();
    if (wipes && answer != ARGON2_OK) wipe(memory, 4 * width * sizeof(block));
    return answer;
}
