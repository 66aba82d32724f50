/* Finds the pieces of a tag that a call leaves in memory or in registers. tests.c and phc_tests.c copy the registers after a
 * call. */
#include <stdint.h>
#include <string.h>

#ifdef __x86_64__
#include <cpuid.h>

/* The general registers that a call may change, and the other registers: x87, vectors and masks of all lengths. */
static uint64_t general_registers[9];
static uint8_t other_registers[1 << 14] __attribute__((aligned(64)));
static bool has_xsave;

/* Runs before a call. It clears the other registers too, because a new thread begins with the registers of the thread that starts
 * it, and a test may have left a tag there. */
static __attribute__((noinline)) void forget_registers(void) {
    const uint32_t mxcsr = 0x1F80;
    unsigned a, b, c, d;
    memset(general_registers, 0, sizeof general_registers), memset(other_registers, 0, sizeof other_registers);
    has_xsave = __get_cpuid(1, &a, &b, &c, &d) && (c & bit_OSXSAVE) && __get_cpuid_count(13, 0, &a, &b, &c, &d)
        && b <= sizeof other_registers;
    if (!has_xsave) return;
    /* (an area in which no register is saved sets each of them to zero, except this one) */
    memcpy(other_registers + 24, &mxcsr, sizeof mxcsr);
    __asm__ volatile("xrstor64 %0" : : "m"(other_registers), "a"(-1), "d"(-1)
        : "xmm0", "xmm1", "xmm2", "xmm3", "xmm4", "xmm5", "xmm6", "xmm7", "xmm8", "xmm9", "xmm10", "xmm11", "xmm12", "xmm13", "xmm14",
        "xmm15");
    memset(other_registers, 0, sizeof other_registers);
}

static inline __attribute__((always_inline)) void copy_registers(void) {
    uint64_t *at = general_registers;
    __asm__ volatile(
        "movq %%rax, %0\n\tmovq %%rcx, %1\n\tmovq %%rdx, %2\n\tmovq %%rsi, %3\n\tmovq %%rdi, %4\n\t"
        "movq %%r8, %5\n\tmovq %%r9, %6\n\tmovq %%r10, %7\n\tmovq %%r11, %8"
        : "=m"(at[0]), "=m"(at[1]), "=m"(at[2]), "=m"(at[3]), "=m"(at[4]), "=m"(at[5]), "=m"(at[6]), "=m"(at[7]), "=m"(at[8]));
    if (has_xsave) __asm__ volatile("xsave64 %0" : "+m"(other_registers) : "a"(-1), "d"(-1));
    else __asm__ volatile("fxsave64 %0" : "+m"(other_registers));
}
#else
static const uint64_t general_registers[1];
static const uint8_t other_registers[1];
static void forget_registers(void) {}
static void copy_registers(void) {}
#endif

/* Returns how often a place contains one of the four pieces of eight bytes of a 32-byte tag. */
static int pieces(const void *place, size_t n, const uint8_t *tag) {
    int found = 0;
    for (size_t at = 0; at + 8 <= n; at++)
        for (int part = 0; part < 32; part += 8) found += !memcmp((const uint8_t *)place + at, tag + part, 8);
    return found;
}

static int pieces_in_registers(const uint8_t *tag) {
    return pieces(general_registers, sizeof general_registers, tag) + pieces(other_registers, sizeof other_registers, tag);
}
