/*
 * SPDX-FileCopyrightText: 2026 The maintainers of this repository
 * SPDX-License-Identifier: MIT OR Apache-2.0
 *
 * The memory of a hash, and how secrets are wiped from memory, from the stack and from registers.
 */
#include "private.h"

#include <stdlib.h>

/* ---- wiping */

int FLAG_clear_internal_memory = 1;

/* Clears the registers that a call may change, if the compiler can do this. Vector registers may contain a part of a tag. Clang has
 * the attribute from version 15 on. */
#if __has_attribute(zero_call_used_regs)
__attribute__((zero_call_used_regs("all")))
#endif
NOINLINE static void clear_known_registers(void) {
#if defined __clang__ && defined __x86_64__ && !__has_attribute(zero_call_used_regs)
    __asm__ volatile(
        ".irp n, 0, 1, 2, 3, 4, 5, 6, 7, 8, 9, 10, 11, 12, 13, 14, 15\n\t"
        "pxor %%xmm\\n, %%xmm\\n\n\t"
        ".endr\n\t"
        ".irp n, eax, ecx, edx, esi, edi, r8d, r9d, r10d, r11d\n\t"
        "xorl %%\\n, %%\\n\n\t"
        ".endr"
        ::: "rax", "rcx", "rdx", "rsi", "rdi", "r8", "r9", "r10", "r11", "xmm0", "xmm1", "xmm2", "xmm3", "xmm4", "xmm5", "xmm6",
        "xmm7", "xmm8", "xmm9", "xmm10", "xmm11", "xmm12", "xmm13", "xmm14", "xmm15", "cc");
#elif defined __GNUC__
    __asm__ volatile("");
#endif
}

#if defined __GNUC__ && defined __x86_64__
/* Clears the registers that only AVX-512 has. glibc copies with them, and code compiled without AVX-512 can't clear them. */
__attribute__((noinline, target("avx512f"))) static void clear_further_registers(void) {
    __asm__ volatile(
        ".irp n, 16, 17, 18, 19, 20, 21, 22, 23, 24, 25, 26, 27, 28, 29, 30, 31\n\t"
        "vpxord %%zmm\\n, %%zmm\\n, %%zmm\\n\n\t"
        ".endr"
        ::: "xmm16", "xmm17", "xmm18", "xmm19", "xmm20", "xmm21", "xmm22", "xmm23", "xmm24", "xmm25", "xmm26", "xmm27", "xmm28",
        "xmm29", "xmm30", "xmm31");
}
#endif

static void clear_registers(void) {
#if defined __GNUC__ && defined __x86_64__
    if (__builtin_cpu_supports("avx512f")) clear_further_registers();
#endif
    clear_known_registers();
}

/* Wipes bytes, and the registers that may contain a part of them. The registers come first, because the loader can save them on
 * the stack when explicit_bzero is called for the first time. */
void wipe(void *at, size_t n) {
    if (!FLAG_clear_internal_memory) return;
    clear_registers();
    explicit_bzero(at, n);
}

void wipe_and_free(uint8_t *at, size_t n) {
    wipe(at, n);
    free(at);
}

/* Wipes what the crate's functions left on the stack. They use about 13 KiB of it. */
NOINLINE void wipe_stack(void) {
    uint8_t below[20 << 10];
    wipe(below, sizeof below);
}

/* ---- memory */

enum { LINES = 128, HUGE_PAGE = 2 << 20, LARGE = 4 << 20, MAPPED = 32 << 20 };

/* Asks for huge pages for large memory, which saves most page faults. Before the memory is freed, this asks for small pages
 * again, so that what the program puts there later does not take more memory than it uses. It is no error if the system
 * refuses. */
static void advise_blocks(block *blocks, size_t n, int advice) {
    const size_t whole = n * sizeof *blocks, before = -(uintptr_t)blocks % HUGE_PAGE; /* the bytes up to the first huge page */
    if (whole >= LARGE) advise((uint8_t *)blocks + before, (whole - before) / HUGE_PAGE * HUGE_PAGE, advice);
}

/* Returns the blocks of a hash, which begin on a line of the cache. The address that malloc gave is stored before them.
 * (memalign would need no such address, but a program may define malloc and free itself, without memalign.) Below 32 MiB,
 * malloc gives the same memory to the next hash, without a page fault. From 32 MiB on, it maps new memory for each hash, so the
 * blocks begin with a huge page. */
block *new_blocks(size_t n) {
    const size_t whole = n * sizeof(block), multiple = whole < MAPPED ? LINES : HUGE_PAGE;
    uint8_t *const given = n <= MOST_BLOCKS ? malloc(whole + multiple + sizeof given) : NULL, *at;
    if (!given) return NULL;
    at = given + sizeof given;
    at += -(uintptr_t)at % multiple;
    memcpy(at - sizeof given, &given, sizeof given);
    advise_blocks((block *)at, n, MADV_HUGEPAGE);
    return (block *)at;
}

enum { BLOCKS_OF_PAGE = HUGE_PAGE / sizeof(block) };

/* Returns whether `erase` gives pages of n blocks back to the system. */
bool is_given_back(size_t n) {
    return FLAG_clear_internal_memory == 1 && n >= MAPPED / sizeof(block);
}

/* Gives huge pages back to the system, and returns whether they then read as zeros. Locked memory can't be given back. Memory from
 * a malloc of the program may be of a file, or shared with another process, and then it keeps its bytes. */
static bool are_zeros_now(block *blocks, size_t n) {
    if (!give_back(blocks, n * sizeof *blocks)) return false;
    for (size_t last = BLOCKS_OF_PAGE - 1; last < n; last += BLOCKS_OF_PAGE)
        if (*(const volatile uint64_t *)&blocks[last].words[127] != 0) return false;
    return true;
}

/* Erases the blocks of a hash. A lane begins `apart` blocks after the lane before it.
 *
 * From 32 MiB on, malloc maps new pages for each hash, and the system clears each page before a program gets it. So this function
 * gives whole huge pages back to the system, and wipes only the blocks after them. Until the system uses a page again, the page
 * has its bytes, which no program can read. After two passes or more, a block there depends on a whole pass before it. After one
 * pass, the blocks in the first quarter of a lane depend only on the blocks before them in the same lane, so a guess could be
 * compared with them quickly. These quarters are wiped first. */
void erase(const argon2_context *c, block *blocks, size_t apart) {
    const int error = errno;
    const size_t n = block_count(c), quarter = n / (4 * c->lanes);
    size_t given = is_given_back(n) ? n - n % BLOCKS_OF_PAGE : 0;
    for (size_t lane = 0; given && c->t_cost == 1 && lane < c->lanes; lane++)
        wipe(blocks + lane * apart, quarter * sizeof *blocks);
    if (given && !are_zeros_now(blocks, given)) given = 0;
    wipe(blocks + given, (n - given) * sizeof *blocks);
    errno = error;
}

void free_blocks(block *blocks, size_t n) {
    uint8_t *given, *const at = (uint8_t *)blocks - sizeof given;
    advise_blocks(blocks, n, MADV_NOHUGEPAGE);
    memcpy(&given, at, sizeof given);
    wipe(at, sizeof given);
    free(given);
}
