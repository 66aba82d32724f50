/* Times the mixing of two blocks (RFC 9106, section 3.5) in plain C. Prints the least time of a mix in
   tenths of a nanosecond, and the exclusive or of all words at the end. */
#include <inttypes.h>
#include <stdint.h>
#include <stdio.h>
#include <stdlib.h>
#include <time.h>

static uint64_t add_mul(uint64_t u, uint64_t v)
{
    return u + v + 2 * (uint64_t)(uint32_t)u * (uint32_t)v;
}

static uint64_t rotated(uint64_t x, int k)
{
    return x >> k | x << (64 - k);
}

#define GB(a, b, c, d)             \
    do {                           \
        a = add_mul(a, b);         \
        d = rotated(d ^ a, 32);    \
        c = add_mul(c, d);         \
        b = rotated(b ^ c, 24);    \
        a = add_mul(a, b);         \
        d = rotated(d ^ a, 16);    \
        c = add_mul(c, d);         \
        b = rotated(b ^ c, 63);    \
    } while (0)

/* The permutation P on eight registers of two words. The first register is at z, and each next one is `step` words further. */
__attribute__((always_inline)) static inline void permute(uint64_t *z, int step)
{
#define WORD(k) z[step * (k / 2) + k % 2]
    GB(WORD(0), WORD(4), WORD(8), WORD(12));
    GB(WORD(1), WORD(5), WORD(9), WORD(13));
    GB(WORD(2), WORD(6), WORD(10), WORD(14));
    GB(WORD(3), WORD(7), WORD(11), WORD(15));
    GB(WORD(0), WORD(5), WORD(10), WORD(15));
    GB(WORD(1), WORD(6), WORD(11), WORD(12));
    GB(WORD(2), WORD(7), WORD(8), WORD(13));
    GB(WORD(3), WORD(4), WORD(9), WORD(14));
}

__attribute__((noinline)) static void mix(const uint64_t *x, const uint64_t *y, uint64_t *out)
{
    uint64_t r[128], z[128];
    for (int k = 0; k < 128; k++)
        z[k] = r[k] = x[k] ^ y[k];
    for (int i = 0; i < 8; i++)
        permute(z + 16 * i, 2);
    for (int j = 0; j < 8; j++)
        permute(z + 2 * j, 16);
    for (int k = 0; k < 128; k++)
        out[k] = z[k] ^ r[k];
}

static int64_t now(void)
{
    struct timespec time;
    clock_gettime(CLOCK_MONOTONIC, &time);
    return time.tv_sec * INT64_C(1000000000) + time.tv_nsec;
}

int main(int count, char **words)
{
    static uint64_t b[3][128];
    int turns = count > 1 ? atoi(words[1]) : 300;
    int64_t least = INT64_MAX;
    uint64_t all = 0;
    for (int k = 0; k < 384; k++)
        b[k / 128][k % 128] = k;
    for (int turn = 0; turn < turns; turn++) {
        int64_t start = now();
        for (int n = 0; n < 100; n++) {
            mix(b[1], b[2], b[0]);
            mix(b[2], b[0], b[1]);
            mix(b[0], b[1], b[2]);
        }
        int64_t took = now() - start;
        least = took < least ? took : least;
    }
    for (int k = 0; k < 384; k++)
        all ^= b[k / 128][k % 128];
    printf("%" PRId64 " %016" PRIx64 "\n", least / 30, all);
}
