/*
 * SPDX-FileCopyrightText: 2026 The maintainers of this repository
 * SPDX-License-Identifier: MIT OR Apache-2.0
 *
 * The instructions of WebAssembly that are no operator of C, each as a function with its name. Words in memory are little-endian
 * and lie at any address. An address has 64 bits, also on a system whose pointers have 32.
 */
#ifndef ARGON2_MACHINE_H
#define ARGON2_MACHINE_H

#include <stdint.h>
#include <stdlib.h>
#include <string.h>

typedef uint8_t u8;
typedef uint16_t u16;
typedef uint32_t u32;
typedef uint64_t u64;
typedef int8_t s8;
typedef int16_t s16;
typedef int32_t s32;
typedef int64_t s64;

#ifdef __GNUC__
#define INLINE __attribute__((always_inline, unused)) static inline
#else
#define INLINE static inline
#endif

/* Ends the program. Code that is proved does not get here. */
_Noreturn static void trap(void) { abort(); }

/* ---- memory */

#define AT(address) ((u8 *)(uintptr_t)(address))
#define ADDRESS(it) ((u64)(uintptr_t)(it))

#if defined _WIN32 || defined __BYTE_ORDER__ && __BYTE_ORDER__ == __ORDER_LITTLE_ENDIAN__
#define WORD(bits) \
    INLINE u##bits read##bits(u64 at) { u##bits word; memcpy(&word, AT(at), sizeof word); return word; } \
    INLINE void write##bits(u64 at, u##bits word) { memcpy(AT(at), &word, sizeof word); }
#else
#define WORD(bits) \
    INLINE u##bits read##bits(u64 at) { \
        u64 word = 0; \
        for (int i = 0; i < bits / 8; i++) word |= (u64)AT(at)[i] << 8 * i; \
        return (u##bits)word; \
    } \
    INLINE void write##bits(u64 at, u##bits word) { \
        for (int i = 0; i < bits / 8; i++) AT(at)[i] = (u8)(word >> 8 * i); \
    }
#endif
WORD(8)
WORD(16)
WORD(32)
WORD(64)

INLINE u32 i32_load(u64 at) { return read32(at); }
INLINE u32 i32_load8_s(u64 at) { return (u32)(s32)(s8)read8(at); }
INLINE u32 i32_load8_u(u64 at) { return read8(at); }
INLINE u32 i32_load16_s(u64 at) { return (u32)(s32)(s16)read16(at); }
INLINE u32 i32_load16_u(u64 at) { return read16(at); }
INLINE u64 i64_load(u64 at) { return read64(at); }
INLINE u64 i64_load8_s(u64 at) { return (u64)(s64)(s8)read8(at); }
INLINE u64 i64_load8_u(u64 at) { return read8(at); }
INLINE u64 i64_load16_s(u64 at) { return (u64)(s64)(s16)read16(at); }
INLINE u64 i64_load16_u(u64 at) { return read16(at); }
INLINE u64 i64_load32_s(u64 at) { return (u64)(s64)(s32)read32(at); }
INLINE u64 i64_load32_u(u64 at) { return read32(at); }
INLINE void i32_store(u64 at, u32 it) { write32(at, it); }
INLINE void i32_store8(u64 at, u32 it) { write8(at, (u8)it); }
INLINE void i32_store16(u64 at, u32 it) { write16(at, (u16)it); }
INLINE void i64_store(u64 at, u64 it) { write64(at, it); }
INLINE void i64_store8(u64 at, u64 it) { write8(at, (u8)it); }
INLINE void i64_store16(u64 at, u64 it) { write16(at, (u16)it); }
INLINE void i64_store32(u64 at, u64 it) { write32(at, (u32)it); }
INLINE void memory_copy(u64 to, u64 from, u64 n) { memmove(AT(to), AT(from), (size_t)n); }
INLINE void memory_fill(u64 to, u32 byte, u64 n) { memset(AT(to), (u8)byte, (size_t)n); }

/* ---- words */

INLINE u64 i64_popcnt(u64 a) { u64 n = 0; for (; a; a &= a - 1) n++; return n; }
INLINE u64 i64_clz(u64 a) { u64 n = 64; for (; a; a >>= 1) n--; return n; }
INLINE u64 i64_ctz(u64 a) { u64 n = 64; for (; a; a <<= 1) n--; return n; }
INLINE u32 i32_popcnt(u32 a) { return (u32)i64_popcnt(a); }
INLINE u32 i32_clz(u32 a) { return (u32)i64_clz(a) - 32; }
INLINE u32 i32_ctz(u32 a) { return a ? (u32)i64_ctz(a) : 32; }
INLINE u32 i32_rotl(u32 a, u32 n) { return a << (n & 31) | a >> (-n & 31); }
INLINE u32 i32_rotr(u32 a, u32 n) { return a >> (n & 31) | a << (-n & 31); }
INLINE u64 i64_rotl(u64 a, u64 n) { return a << (n & 63) | a >> (-n & 63); }
INLINE u64 i64_rotr(u64 a, u64 n) { return a >> (n & 63) | a << (-n & 63); }
INLINE u32 i32_div_u(u32 a, u32 b) { if (!b) trap(); return a / b; }
INLINE u32 i32_rem_u(u32 a, u32 b) { if (!b) trap(); return a % b; }
INLINE u64 i64_div_u(u64 a, u64 b) { if (!b) trap(); return a / b; }
INLINE u64 i64_rem_u(u64 a, u64 b) { if (!b) trap(); return a % b; }

/* ---- what a module imports */

/* These two mark the beginning and the end of a call, so that no call begins after a trap. Here a trap ends the program. */
INLINE u32 imported_rattle_enter(void) { return 0; }
INLINE void imported_rattle_leave(void) {}
INLINE void imported_rattle_trap(void) { trap(); }

/* Shifts of 128 bits by fewer than 128. */
INLINE void imported_ashlti3(u64 to, u64 low, u64 high, u32 n) {
    write64(to, n < 64 ? low << n : 0);
    write64(to + 8, n == 0 ? high : n < 64 ? high << n | low >> (64 - n) : low << (n - 64));
}
INLINE void imported_lshrti3(u64 to, u64 low, u64 high, u32 n) {
    write64(to, n == 0 ? low : n < 64 ? low >> n | high << (64 - n) : high >> (n - 64));
    write64(to + 8, n < 64 ? high >> n : 0);
}

/* ---- vectors of two words: by SSE2, by NEON, or in plain C */

#if defined __SSE2__ || defined _M_X64

#include <emmintrin.h>

typedef __m128i v128;

INLINE v128 v128_const(u64 a, u64 b) { return _mm_set_epi64x((s64)b, (s64)a); }
INLINE v128 v128_load(u64 at) { return _mm_loadu_si128((const __m128i *)AT(at)); }
INLINE void v128_store(u64 at, v128 a) { _mm_storeu_si128((__m128i *)AT(at), a); }
INLINE v128 v128_or(v128 a, v128 b) { return _mm_or_si128(a, b); }
INLINE v128 v128_xor(v128 a, v128 b) { return _mm_xor_si128(a, b); }
INLINE v128 i64x2_add(v128 a, v128 b) { return _mm_add_epi64(a, b); }
INLINE v128 i64x2_shl(v128 a, u32 n) { return _mm_sll_epi64(a, _mm_cvtsi32_si128((s32)(n & 63))); }
INLINE v128 i64x2_shr_u(v128 a, u32 n) { return _mm_srl_epi64(a, _mm_cvtsi32_si128((s32)(n & 63))); }
INLINE v128 i64x2_extmul_low_i32x4_u(v128 a, v128 b) { return _mm_mul_epu32(_mm_shuffle_epi32(a, 0x50), _mm_shuffle_epi32(b, 0x50)); }
INLINE v128 i64x2_extmul_high_i32x4_u(v128 a, v128 b) { return _mm_mul_epu32(_mm_shuffle_epi32(a, 0xfa), _mm_shuffle_epi32(b, 0xfa)); }
INLINE v128 low_halves(v128 a, v128 b) { return _mm_castps_si128(_mm_shuffle_ps(_mm_castsi128_ps(a), _mm_castsi128_ps(b), 0x88)); }

#define words(a, b, i, j) _mm_castpd_si128(_mm_shuffle_pd(_mm_castsi128_pd((i) < 2 ? (a) : (b)), \
    _mm_castsi128_pd((j) < 2 ? (a) : (b)), (i) % 2 + (j) % 2 * 2))
#define rotr64(a, n) ((n) == 32 ? _mm_shuffle_epi32(a, 0xb1) : _mm_or_si128(_mm_srli_epi64(a, n), _mm_slli_epi64(a, 64 - (n))))


#elif defined __aarch64__ && defined __ARM_NEON && !defined __AARCH64EB__

#include <arm_neon.h>

typedef uint64x2_t v128;

INLINE v128 v128_const(u64 a, u64 b) { return vcombine_u64(vcreate_u64(a), vcreate_u64(b)); }
INLINE v128 v128_load(u64 at) { return vreinterpretq_u64_u8(vld1q_u8(AT(at))); }
INLINE void v128_store(u64 at, v128 a) { vst1q_u8(AT(at), vreinterpretq_u8_u64(a)); }
INLINE v128 v128_or(v128 a, v128 b) { return vorrq_u64(a, b); }
INLINE v128 v128_xor(v128 a, v128 b) { return veorq_u64(a, b); }
INLINE v128 i64x2_add(v128 a, v128 b) { return vaddq_u64(a, b); }
INLINE v128 i64x2_shl(v128 a, u32 n) { return vshlq_u64(a, vdupq_n_s64((s64)(n & 63))); }
INLINE v128 i64x2_shr_u(v128 a, u32 n) { return vshlq_u64(a, vdupq_n_s64(-(s64)(n & 63))); }
INLINE v128 i64x2_extmul_low_i32x4_u(v128 a, v128 b) {
    return vmull_u32(vget_low_u32(vreinterpretq_u32_u64(a)), vget_low_u32(vreinterpretq_u32_u64(b)));
}
INLINE v128 i64x2_extmul_high_i32x4_u(v128 a, v128 b) {
    return vmull_u32(vget_high_u32(vreinterpretq_u32_u64(a)), vget_high_u32(vreinterpretq_u32_u64(b)));
}
INLINE v128 low_halves(v128 a, v128 b) { return vreinterpretq_u64_u32(vcombine_u32(vmovn_u64(a), vmovn_u64(b))); }

#define WORD_OF(a, b, i) ((i) % 2 ? vget_high_u64((i) < 2 ? (a) : (b)) : vget_low_u64((i) < 2 ? (a) : (b)))
#define words(a, b, i, j) vcombine_u64(WORD_OF(a, b, i), WORD_OF(a, b, j))
#define rotr64(a, n) vorrq_u64(vshrq_n_u64(a, n), vshlq_n_u64(a, 64 - (n)))

#else

typedef struct {
    u64 low, high;
} v128;

INLINE v128 v128_const(u64 a, u64 b) { v128 both; both.low = a, both.high = b; return both; }
INLINE v128 v128_load(u64 at) { return v128_const(read64(at), read64(at + 8)); }
INLINE void v128_store(u64 at, v128 a) { write64(at, a.low), write64(at + 8, a.high); }
INLINE v128 v128_or(v128 a, v128 b) { return v128_const(a.low | b.low, a.high | b.high); }
INLINE v128 v128_xor(v128 a, v128 b) { return v128_const(a.low ^ b.low, a.high ^ b.high); }
INLINE v128 i64x2_add(v128 a, v128 b) { return v128_const(a.low + b.low, a.high + b.high); }
INLINE v128 i64x2_shl(v128 a, u32 n) { return v128_const(a.low << (n & 63), a.high << (n & 63)); }
INLINE v128 i64x2_shr_u(v128 a, u32 n) { return v128_const(a.low >> (n & 63), a.high >> (n & 63)); }
INLINE u64 product(u64 a, u64 b) { return (u64)(u32)a * (u32)b; }
INLINE v128 i64x2_extmul_low_i32x4_u(v128 a, v128 b) {
    return v128_const(product(a.low, b.low), product(a.low >> 32, b.low >> 32));
}
INLINE v128 i64x2_extmul_high_i32x4_u(v128 a, v128 b) {
    return v128_const(product(a.high, b.high), product(a.high >> 32, b.high >> 32));
}
INLINE v128 low_halves(v128 a, v128 b) { return v128_const((u32)a.low | a.high << 32, (u32)b.low | b.high << 32); }
INLINE u64 word_of(v128 a, v128 b, int i) { return i == 0 ? a.low : i == 1 ? a.high : i == 2 ? b.low : b.high; }
INLINE v128 words(v128 a, v128 b, int i, int j) { return v128_const(word_of(a, b, i), word_of(a, b, j)); }
INLINE v128 rotr64(v128 a, u32 n) { return v128_const(i64_rotr(a.low, n), i64_rotr(a.high, n)); }

#endif

/* Vectors of 16 bytes, which only texts use. */
#define BYTES(name, second, result) \
    INLINE v128 name(v128 a, second b) { \
        u8 at[16], of_b[16]; \
        v128_store(ADDRESS(at), a), second##_bytes(of_b, b); \
        for (int i = 0; i < 16; i++) { const u8 one = at[i], other = of_b[i]; at[i] = (u8)(result); } \
        return v128_load(ADDRESS(at)); \
    }
INLINE void v128_bytes(u8 *to, v128 a) { v128_store(ADDRESS(to), a); }
INLINE void u32_bytes(u8 *to, u32 n) { memset(to, (u8)(n & 7), 16); }
BYTES(i8x16_ne, v128, one != other ? 255 : 0)
BYTES(i8x16_lt_s, v128, (s8)one < (s8)other ? 255 : 0)
BYTES(i8x16_shl, u32, one << other)
BYTES(i8x16_shr_s, u32, (s8)one >> other)

INLINE u32 v128_any_true(v128 a) { u64 at[2]; v128_store(ADDRESS(at), a); return (at[0] | at[1]) != 0; }

#endif
