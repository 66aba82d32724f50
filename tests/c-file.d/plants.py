"""Faults in build/wasm-to-c, in bindings/c-file and in bindings/c/port.h. tests/c-file plants each into a copy of the repository."""

import typing


class Plant(typing.NamedTuple):
    what: str
    file: str
    old: str
    new: str
    target: str = "gcc"


TRANSLATOR, MACHINE, CALLS = "build/wasm-to-c", "bindings/c-file/machine.h", "bindings/c-file/calls.c"
PLAIN, BIG, NEON = "gcc, vectors in plain C", "s390x, big-endian", "aarch64"

PLANTS = [
    # the translator
    Plant("a difference is reversed", TRANSLATOR, "jj:j {0} - {1}", "jj:j {1} - {0}"),
    Plant("or becomes exclusive or", TRANSLATOR, "ii:i {0} | {1}", "ii:i {0} ^ {1}"),
    Plant("a comparison without sign gets one", TRANSLATOR, "jj:i {0} < {1}", "jj:i (s64){0} < (s64){1}"),
    Plant("a comparison with sign has none", TRANSLATOR, "ii:i (s32){0} < (s32){1}", "ii:i {0} < {1}"),
    Plant("at most becomes less than", TRANSLATOR, "jj:i {0} <= {1}", "jj:i {0} < {1}"),
    Plant("at least becomes more than", TRANSLATOR, "ii:i {0} >= {1}", "ii:i {0} > {1}"),
    Plant("a word is extended with its sign", TRANSLATOR, "i:j (u64){0}", "i:j (u64)(s64)(s32){0}"),
    Plant("a word is extended without its sign", TRANSLATOR, "i:j (u64)(s64)(s32){0}", "i:j (u64){0}"),
    Plant("a shift with sign has none", TRANSLATOR, "jj:j (u64)((s64){0} >> ({1} & 63))", "jj:j {0} >> ({1} & 63)"),
    Plant("a shift counts to 31", TRANSLATOR, "jj:j {0} << ({1} & 63)", "jj:j {0} << ({1} & 31)"),
    Plant("a select chooses the other", TRANSLATOR, "{condition} ? {one} : {other}", "{condition} ? {other} : {one}"),
    Plant("a table begins at 1", TRANSLATOR, '"".join(f"case {at}:', '"".join(f"case {at + 1}:'),
    Plant("the value of a branch is lost", TRANSLATOR, 'text = f"{label.result}{label.height} = {self.values[-1]}; {text}"', "pass"),
    Plant("an offset is lost", TRANSLATOR, 'operands[0] += f" + {immediates[0]}u"', "pass"),
    Plant("a set of a local is lost", TRANSLATOR, '        self.write(f"{self.local(index)} = {value};")',
          '        self.local(index) if index == 5 else self.write(f"{self.local(index)} = {value};")'),
    Plant("a branch to a loop leads to its end", TRANSLATOR, 'if label.is_used and label.kind == "loop":', "if False:"),
    Plant("what follows a block is lost", TRANSLATOR, 'or label.is_used and label.kind != "loop":', "or False:"),
    Plant("a rotation turns to the left", TRANSLATOR, "lanes == [8 * word + (at + count) % 8", "lanes == [8 * word + (at - count) % 8"),
    Plant("a negative constant loses its sign", TRANSLATOR, "UINT64_C({immediates[0] % 2 ** bits})", "UINT64_C({abs(immediates[0])})"),
    Plant("operands of a call are reversed", TRANSLATOR, 'operands.insert(0, "sp")', 'operands = ["sp", *operands[::-1]]'),
    Plant("a frame is not counted", TRANSLATOR, "frame = max(frame, code[at + 1][1][0])", "frame = max(frame, 0)"),
    Plant("the depth of a call is not added", TRANSLATOR, "return active * body.frame + max(", "return active * body.frame or max("),
    Plant("only one call of itself is counted", TRANSLATOR, "active = ACTIVE.get(function.name) or", "active = 1 if function.name in ACTIVE else"),
    # the instructions of machine.h
    Plant("a load of a byte loses the sign", MACHINE, "return (u32)(s32)(s8)read8(at)", "return read8(at)"),
    Plant("a load of half a word gets a sign", MACHINE, "u64 i64_load32_u(u64 at) { return read32(at)", "u64 i64_load32_u(u64 at) { return (u64)(s64)(s32)read32(at)"),
    Plant("a store of 32 bits stores 16", MACHINE, "write32(at, (u32)it)", "write16(at, (u16)it)"),
    Plant("a store of 8 bits stores 16", MACHINE, "void i32_store8(u64 at, u32 it) { write8(at, (u8)it)", "void i32_store8(u64 at, u32 it) { write16(at, (u16)it)"),
    Plant("a copy loses a byte", MACHINE, "memmove(AT(to), AT(from), (size_t)n)", "memmove(AT(to), AT(from), (size_t)n & ~(size_t)1)"),
    Plant("a copy overlaps", MACHINE, "memmove(AT(to), AT(from), (size_t)n)", "for (u64 i = 0; i < n; i++) AT(to)[i] = AT(from)[i]"),
    Plant("a fill loses a byte", MACHINE, "memset(AT(to), (u8)byte, (size_t)n)", "memset(AT(to), (u8)byte, (size_t)n - (n > 8))"),
    Plant("a rotation counts to 31", MACHINE, "a << (n & 63) | a >> (-n & 63)", "a << (n & 31) | a >> (-n & 31)"),
    Plant("the zeros of 0 are none", MACHINE, "u64 n = 64; for (; a; a <<= 1) n--;", "u64 n = 64; for (; a; a <<= 1) n--; if (n == 64) n = 0;"),
    Plant("a shift of 128 bits by 64", MACHINE, "write64(to, n < 64 ? low << n : 0)", "write64(to, n <= 64 ? low << (n & 63) : 0)"),
    Plant("a shift of 128 bits loses bits", MACHINE, "n < 64 ? low >> n | high << (64 - n)", "n < 64 ? low >> n"),
    Plant("SSE2: a product of high halves", MACHINE, "_mm_shuffle_epi32(b, 0x50)", "_mm_shuffle_epi32(b, 0xfa)"),
    Plant("SSE2: a word of the other vector", MACHINE, "_mm_castsi128_pd((j) < 2 ? (a) : (b))", "_mm_castsi128_pd((j) < 2 ? (b) : (a))"),
    Plant("SSE2: a rotation by 24 loses bits", MACHINE, "_mm_slli_epi64(a, 64 - (n))", "_mm_slli_epi64(a, 63 - (n))"),
    Plant("plain vectors: a product of 32 bits", MACHINE, "(u64)(u32)a * (u32)b", "(u32)a * (u32)b", PLAIN),
    Plant("plain vectors: a sum has a carry", MACHINE, "v128_const(a.low + b.low, a.high + b.high)", "v128_const(a.low + b.low, a.high + b.high + (a.low + b.low < a.low))", PLAIN),
    Plant("plain vectors: halves are swapped", MACHINE, "(u32)a.low | a.high << 32, (u32)b.low", "(u32)a.low | a.high << 32, b.low >> 32", PLAIN),
    Plant("NEON: a product of high halves", MACHINE, "vget_low_u32(vreinterpretq_u32_u64(b))", "vget_high_u32(vreinterpretq_u32_u64(b))", NEON),
    Plant("NEON: a shift to the left", MACHINE, "vdupq_n_s64(-(s64)(n & 63))", "vdupq_n_s64((s64)(n & 63))", NEON),
    Plant("big-endian: a word has the order of the processor", MACHINE, "AT(at)[i] << 8 * i", "AT(at)[i] << (bits - 8 - 8 * i)", BIG),
    Plant("bytes are compared without a sign", MACHINE, "(s8)one < (s8)other", "one < other"),
    Plant("a vector is zero if one word is", MACHINE, "(at[0] | at[1]) != 0", "(at[0] & at[1]) != 0"),
    # the calls of the module
    Plant("the module's stack is too small", CALLS, "stack[2 + name##_stack / sizeof(u64)]", "stack[2 + name##_stack / 64]"),
    Plant("big-endian: a cost is not ordered", CALLS, "order32(&own, 6)", "order32(&own, 3)", BIG),
    Plant("big-endian: what a text shows is not ordered", CALLS, "order32(it, 4), order64(&it->salt, 2)", "order32(it, 4)", BIG),
    Plant("salt and secret are swapped", CALLS, "ADDRESS(salt), salt_len, ADDRESS(secret), secret_len,\n        ADDRESS(associated), associated_len, ADDRESS(memory), n, ADDRESS(out)",
          "ADDRESS(secret), secret_len, ADDRESS(salt), salt_len,\n        ADDRESS(associated), associated_len, ADDRESS(memory), n, ADDRESS(out)"),
    Plant("a segment gets the place of another", CALLS, "order32(&own, 3);\n    return own;", "order32(&own, 3), own.slice ^= 1;\n    return own;"),
]
