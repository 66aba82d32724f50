/* The instructions of SSE2 that the reference's opt.c uses, as instructions of WebAssembly. */
#include <wasm_simd128.h>

typedef v128_t __m128i;

#define _mm_loadu_si128 wasm_v128_load
#define _mm_storeu_si128 wasm_v128_store
#define _mm_xor_si128 wasm_v128_xor
#define _mm_add_epi64 wasm_i64x2_add
#define _mm_slli_epi64 wasm_i64x2_shl
#define _mm_srli_epi64 wasm_u64x2_shr
#define _mm_unpacklo_epi64(a, b) wasm_i64x2_shuffle(a, b, 0, 2)
#define _mm_unpackhi_epi64(a, b) wasm_i64x2_shuffle(a, b, 1, 3)
#define EVEN(v) wasm_i32x4_shuffle(v, v, 0, 2, 0, 2)
#define _mm_mul_epu32(a, b) wasm_u64x2_extmul_low_u32x4(EVEN(a), EVEN(b))
