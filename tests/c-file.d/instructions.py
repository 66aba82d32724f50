"""Compares each instruction that build/wasm-to-c knows, as node runs it and as a compiler of C does.

A module has a function for each instruction. It is written twice as text, with addresses of 32 bits for node, and with addresses of
64 bits for build/wasm-to-c, and wat2wasm turns the texts into modules. A function gets the place of 64 bytes and four words. The
first 32 bytes are the words. After the call the checksum of the bytes has to be the same.
"""

import importlib.machinery
import importlib.util
import itertools
import random
import re
import resource
import subprocess

# Words at the edges of the types, and random ones.
EDGES = [0, 1, 2, 7, 8, 31, 32, 33, 63, 64, 65, 96, 127, 128, 255, 256, 2**15 - 1, 2**15, 2**16 - 1, 2**16, 2**31 - 1, 2**31,
         2**31 + 1, 2**32 - 2, 2**32 - 1, 2**32, 2**32 + 1, 2**63 - 1, 2**63, 2**63 + 1, 2**64 - 2, 2**64 - 1]
TYPES = {"i": "i32", "j": "i64", "v": "v128"}

# Functions for the instructions that are no computation. {p} is the type of an address. Local 0 is the place, 1 to 4 are the words,
# and 5 (a word) and 6 (an address) are zero.
CONTROL = {
    "block, br: the value of a block": """(block (result i64) (i64.const 11) (i64.const 12) (br 0 (i64.add (local.get 1) (i64.const 3))))""",
    "br_if: with a value": """(block (result i64) (i64.const 5) (i64.const 9) (br_if 0 (i64.lt_u (local.get 1) (local.get 2))) i64.add)""",
    "br_if, loop: a sum": """(local.set 5 (i64.const 5)) (loop (local.set 1 (i64.add (local.get 1) (local.get 2)))
        (br_if 0 (i64.ne (local.tee 5 (i64.sub (local.get 5) (i64.const 1))) (i64.const 0)))) (local.get 1)""",
    "loop: the value of a loop": """(loop (result i64) (local.set 5 (i64.add (local.get 5) (i64.const 1)))
        (br_if 0 (i64.lt_u (local.get 5) (i64.and (local.get 1) (i64.const 7)))) (local.get 5))""",
    "if, else: both have a value": """(if (result i64) (i64.gt_s (local.get 1) (local.get 2)) (then (local.get 1))
        (else (i64.xor (local.get 2) (i64.const 1))))""",
    "if: without else": "(if (i64.eq (local.get 1) (local.get 2)) (then (local.set 1 (i64.const 77)))) (local.get 1)",
    "if, return: nested": """(block (if (i64.lt_s (local.get 1) (i64.const 0)) (then (local.set 5 (i64.const 1)) (br 1)) (else
        (if (i64.lt_u (local.get 2) (i64.const 9)) (then (return (i64.const 2))) (else (br 2))))) (local.set 5 (i64.const 3))) (local.get 5)""",
    "br_table: three labels": """(block (block (block (block (br_table 0 2 1 3 (i32.wrap_i64 (local.get 1)))) (return (i64.const 7)))
        (return (i64.const 8))) (return (i64.const 9))) (i64.const 10)""",
    "br_table: with a value": """(block (result i64) (block (result i64) (local.get 2) (br_table 0 1 (i32.wrap_i64 (local.get 1))))
        (i64.mul (i64.const 3)))""",
    "return: what follows is not reached": """(return (local.get 1)) (block (loop (return (local.get 2)) (block (br 0)) (br 0)))
        (if (i32.const 1) (then (unreachable)) (else (nop))) (i64.const 1)""",
    "unreachable: in a branch that is not taken": "(if (i32.const 0) (then unreachable)) nop (local.get 2)",
    "select: of 32 bits": """(i64.extend_i32_u (select (i32.wrap_i64 (local.get 1)) (i32.wrap_i64 (local.get 2)) (i32.wrap_i64 (local.get 3))))""",
    "select: of 64 bits": "(select (local.get 1) (local.get 2) (i64.lt_u (local.get 3) (local.get 4)))",
    "select: of vectors": """(v128.store offset=40 (local.get 0) (select (v128.load (local.get 0)) (v128.load offset=16 (local.get 0))
        (i64.lt_u (local.get 3) (local.get 4)))) (i64.const 0)""",
    "drop: of two values": "(local.get 1) (drop) (local.get 2) (i64.const 4) (drop)",
    "local.get, local.set: set while the value is on the stack": "(local.get 1) (local.set 1 (local.get 2)) (local.get 1) i64.sub",
    "local.tee: of a value that is used twice": "(i64.add (local.tee 5 (i64.mul (local.get 1) (i64.const 3))) (i64.shl (local.get 5) (i64.const 1)))",
    "local.get: a local is zero at first": "(local.get 5)",
    "call: the order of the operands": "(call $mixed (local.get 1) (i32.wrap_i64 (local.get 2)) (local.get 3))",
    "call: a function without a result": "(call $nothing) (local.get 1)",
    "global.get: the constants": """(i64.load offset=3 ({p}.add (global.get $base) {of1}))""",
    "global.set: the stack": """(local.tee 6 ({p}.sub (global.get $sp) ({p}.const 32))) (global.set $sp)
        (i64.store offset=8 (local.get 6) (local.get 1)) (call $deep (local.get 2)) (i64.load offset=8 (local.get 6))
        (global.set $sp ({p}.add (local.get 6) ({p}.const 32)))""",
    "memory.copy: apart": "(memory.copy ({p}.add (local.get 0) ({p}.const 43)) ({p}.add (local.get 0) ({p}.const 5)) ({p}.const 13)) (i64.const 0)",
    "memory.copy: up": "(memory.copy ({p}.add (local.get 0) ({p}.const 9)) ({p}.add (local.get 0) ({p}.const 5)) ({p}.const 13)) (i64.const 0)",
    "memory.copy: down": "(memory.copy ({p}.add (local.get 0) ({p}.const 5)) ({p}.add (local.get 0) ({p}.const 9)) ({p}.const 14)) (i64.const 0)",
    "memory.copy: nothing": "(memory.copy (local.get 0) ({p}.add (local.get 0) ({p}.const 9)) ({p}.const 0)) (i64.const 0)",
    "memory.fill: some bytes": """(memory.fill ({p}.add (local.get 0) ({p}.const 41)) (i32.wrap_i64 (local.get 2)) {of1}) (i64.const 0)""",
    "memory.fill: 13 bytes": "(memory.fill ({p}.add (local.get 0) ({p}.const 41)) (i32.wrap_i64 (local.get 2)) ({p}.const 13)) (i64.const 0)",
    "call: a shift of 128 bits to the left": """(call $ashlti3 ({p}.add (local.get 0) ({p}.const 40)) (local.get 1) (local.get 3)
        (i32.wrap_i64 (i64.and (local.get 2) (i64.const 127)))) (i64.const 0)""",
    "call: a shift of 128 bits to the right": """(call $lshrti3 ({p}.add (local.get 0) ({p}.const 40)) (local.get 1) (local.get 3)
        (i32.wrap_i64 (i64.and (local.get 2) (i64.const 127)))) (i64.const 0)""",
}
# Functions that these call.
CALLED = """
    (func $mixed (param i64 i32 i64) (result i64) (i64.sub (i64.mul (local.get 0) (i64.const 5)) (i64.add (i64.extend_i32_u (local.get 1))
        (i64.mul (local.get 2) (i64.const 7)))))
    (func $nothing)
    (func $deep (param i64) (local $at {p}) (local.tee $at ({p}.sub (global.get $sp) ({p}.const 48))) (global.set $sp)
        (i64.store offset=24 (local.get $at) (local.get 0)) (global.set $sp ({p}.add (local.get $at) ({p}.const 48))))
"""

# Functions that no test calls, and how many bytes of the stack each needs.
STACKS = {
    "s_none": (0, "(func (export \"s_none\") (param i64) (result i64) (local.get 0))"),
    "s_leaf": (16, """(func (export "s_leaf") (local i64) (local.set 0 (i64.sub (global.get $sp) (i64.const 16)))
        (i64.store (local.get 0) (i64.const 1)))"""),
    "s_two": (112, """(func $two (export "s_two") (local i64) (global.set $sp (local.tee 0 (i64.sub (global.get $sp) (i64.const 64))))
        (call $deep (i64.const 1)) (call $nothing) (global.set $sp (i64.add (local.get 0) (i64.const 64))))"""),
    "s_three": (208, """(func (export "s_three") (local i64) (global.set $sp (local.tee 0 (i64.sub (global.get $sp) (i64.const 96))))
        (call $nothing) (call $two) (call $deep (i64.const 1)) (global.set $sp (i64.add (local.get 0) (i64.const 96))))"""),
    "s_guard": (0, """(func (export "s_guard") (local i64) (if (i64.lt_s (local.tee 0 (global.get $sp)) (i64.const 16)) (then unreachable))
        (global.set $sp (local.get 0)))"""),
    "s_ten": (640, """(func $argon2_base::phc::value::decimal_text (export "s_ten") (param i64) (local i64)
        (global.set $sp (local.tee 1 (i64.sub (global.get $sp) (i64.const 64)))) (if (i64.gt_u (local.get 0) (i64.const 9)) (then
        (call $argon2_base::phc::value::decimal_text (i64.div_u (local.get 0) (i64.const 10)))))
        (global.set $sp (i64.add (local.get 1) (i64.const 64))))"""),
    "s_again": (0, """(func $again (export "s_again") (param i64) (if (i64.eqz (local.get 0)) (then (return)))
        (call $again (i64.sub (local.get 0) (i64.const 1))))"""),
}

# What a module has that build/wasm-to-c refuses, and a part of the message.
REFUSED = [
    ('(func (export "f") (param i64) (result i64) (i64.div_s (local.get 0) (i64.const 3)))', "the instruction 0x7f is not known"),
    ('(func (export "f") (param i64) (result i64) (i64.trunc_sat_f64_u (f64.reinterpret_i64 (local.get 0))))', "is not known"),
    ('(func (export "f") (param i64) (v128.store (local.get 0) (i8x16.shuffle 0 1 2 3 4 5 6 7 0 1 2 3 4 5 7 6 (v128.load (local.get 0)) '
     "(v128.load (local.get 0)))))", "the shuffle"),
    ('(func (export "f") (param i64) (global.set $sp (i64.sub (global.get $sp) (local.get 0))))', "uses the stack in a way"),
    ('(func (export "f") (param i64) (global.set $sp (i64.const 5)))', "uses the stack in a way"),
    ('(func $f (export "f") (param i64) (local i64) (global.set $sp (local.tee 1 (i64.sub (global.get $sp) (i64.const 16)))) '
     "(call $f (local.get 0)))", "uses the stack and calls itself"),
    ('(func $f (export "f") (call $g)) (func $g (call $f))', "calls itself by another function"),
    ('(func (export "f")) (table 1 funcref) (elem (i32.const 0) 0)', "the section 4 is not known"),
    ('(global $own (mut i64) (i64.const 0)) (func (export "f"))', "the section 6 is not known"),
    ('(func $f) (start $f)', "the section 8 is not known"),
    ('(func (export "__wasm_apply_data_relocs") (nop))', "is not empty"),
    ('(func (export "f") (param i64) (result i64) (local.get 0) (block (param i64) (result i64)))', "a block has operands"),
    ('(table 1 funcref) (func (export "f") (param i64) (call_indirect (param i64) (local.get 0) (i32.const 0)))', "is not known"),
    ('(data (i64.const 8) "x")', "the constants do not have one place"),
]


def limit_processor():
    """Ends a process of its caller after 10 seconds of a processor, because a fault may lead to a loop that does not end."""
    resource.setrlimit(resource.RLIMIT_CPU, (10, 10))


def load(translator):
    """Returns a copy of build/wasm-to-c as a module of Python."""
    loader = importlib.machinery.SourceFileLoader("wasm_to_c", translator)
    module = importlib.util.module_from_spec(importlib.util.spec_from_loader("wasm_to_c", loader))
    loader.exec_module(module)
    return module


def operand(kind, at):
    """Returns the text of an operand: the word `at`, or two words as a vector."""
    word = f"(local.get {at + 1})"
    return {"j": word, "i": f"(i32.wrap_i64 {word})"}.get(kind) or f"(v128.load offset={16 * at} (local.get 0))"


def shuffles():
    """Returns the shuffles that the translator knows."""
    rotations = [[8 * word + (at + count) % 8 for word in (0, 1) for at in range(8)] for count in range(1, 8)]
    words = [[8 * it + at for it in two for at in range(8)] for two in itertools.product(range(4), repeat=2)]
    return [*rotations, *words, [8 * it + at for it in range(4) for at in range(4)]]


def immediates(row):
    """Returns the immediates with which an instruction is tried, as text."""
    numbers = [0, 1, 63, 64, -64, 2**31 - 1, -(2**31), -1, *([2**63 - 1, -(2**63)] if row.result == "j" else [])]
    return {
        "s": [*map(str, numbers)],
        "c": ["i64x2 81985529216486895 -81985529216486896", "i64x2 0 1"],
        "x": [" ".join(map(str, it)) for it in shuffles()],
        "m": ["offset=0", "offset=5"],
    }.get(row.immediates, [""])


def computed(row, immediate):
    """Returns the body of a function for an instruction that computes, or that reads or writes memory."""
    operands = [operand(kind, at) for at, kind in enumerate(row.operands)]
    if row.immediates == "m":
        operands[0] = f"({{p}}.add (local.get 0) ({{p}}.const {6 if row.result else 38}))"
    if row.name.endswith(("div_u", "rem_u")):  # by a number that is not zero
        kind = TYPES[row.operands[1]]
        operands[1] = f"(select {operands[1]} ({kind}.const 7) ({kind}.ne {operands[1]} ({kind}.const 0)))"
    text = f"({row.name} {immediate} {' '.join(operands)})"
    if row.result == "v":
        text = f"(v128.store offset=40 (local.get 0) {text})"
    return {"j": text, "i": f"(i64.extend_i32_u {text})"}.get(row.result) or f"{text} (i64.const 0)"


def functions(rows):
    """Returns functions with a title and a body each. They have all instructions that the translator knows."""
    titles = {title: title.split(":")[0].split(", ") for title in CONTROL}
    computing = [it for it in rows if it.operands is not None and not it.name.startswith("memory.")]
    tried = {name for names in titles.values() for name in names} | {it.name for it in computing} | {"end", "nop"}
    if lacking := {it.name for it in rows} - tried:
        raise ValueError(f"no function tries {lacking}")
    return [*((f"{row.name} {it}".strip(), computed(row, it)) for row in computing for it in immediates(row)), *CONTROL.items()]


def module(parts, pointer):
    """Returns the text of a module with some functions, whose addresses have the type `pointer`."""
    is_wide = pointer == "i64"
    of_word = "(i64.and (local.get 1) (i64.const 7))"
    text = "\n".join([
        f'(module (import "env" "memory" (memory {"i64 " if is_wide else ""}1))',
        '(import "env" "__stack_pointer" (global $sp (mut {p}))) (import "env" "__memory_base" (global $base {p}))',
        '(import "env" "__ashlti3" (func $ashlti3 (param {p} i64 i64 i32)))',
        '(import "env" "__lshrti3" (func $lshrti3 (param {p} i64 i64 i32)))', CALLED,
        '(data (global.get $base) "\\01\\23\\45\\67\\89\\ab\\cd\\ef\\fe\\dc\\ba\\98\\76\\54\\32\\10wxyz")', *parts, ")"])
    return text.replace("{of1}", of_word if is_wide else f"(i32.wrap_i64 {of_word})").replace("{p}", pointer)


def write_module(path, text):
    with open(f"{path}.wat", "w", encoding="utf-8") as file:
        file.write(text)
    subprocess.run(["wat2wasm", "--enable-memory64", "--debug-names", f"{path}.wat", "-o", path], check=True)


def requests():
    """Returns the words of each call. All pairs of edges are the first two words of a call."""
    chosen = random.Random(9106)
    words = [*EDGES, *(chosen.getrandbits(64) for _ in range(8)), *(chosen.getrandbits(32) for _ in range(4))]
    return [(one, other, chosen.choice(words), chosen.choice(words)) for one in words for other in words]


NODE = """
const fs = require("node:fs");
const memory = new WebAssembly.Memory({ initial: 1 });
const bytes = new Uint8Array(memory.buffer);
const view = new DataView(memory.buffer);
const global = (value, mutable) => new WebAssembly.Global({ value: "i32", mutable }, value);
const put = (to, value) => [0, 8].forEach((at) => view.setBigUint64(to + at, BigInt.asUintN(64, value >> BigInt(8 * at)), true));
const whole = (low, high) => BigInt.asUintN(64, low) | BigInt.asUintN(64, high) << 64n;
const env = {
  memory, __stack_pointer: global(4096, true), __memory_base: global(8192, false),
  __ashlti3: (to, low, high, n) => put(to, whole(low, high) << BigInt(n)),
  __lshrti3: (to, low, high, n) => put(to, whole(low, high) >> BigInt(n)),
};
const { exports } = new WebAssembly.Instance(new WebAssembly.Module(fs.readFileSync("narrow.wasm")), { env });
const requests = fs.readFileSync("requests", "utf8").trim().split("\\n").map((it) => it.split(" ").map(BigInt));
for (let at = 0; exports[`t${at}`]; at++) {
  let sum = 0x811c9dc5;
  for (const words of requests) {
    bytes.fill(0xa5, 1024, 1096);
    words.forEach((it, index) => view.setBigUint64(1024 + 8 * index, it, true));
    view.setBigUint64(1088, BigInt.asUintN(64, exports[`t${at}`](1024, ...words)), true);
    for (let it = 1024; it < 1096; it++) sum = Math.imul(sum ^ bytes[it], 0x01000193);
  }
  console.log(sum >>> 0);
}
"""

C = r"""
#include "machine.h"
#include <stdio.h>
#include "wide.inc"
typedef u64 function(u64 sp, u64 at, u64, u64, u64, u64);
static function *const functions[] = {FUNCTIONS};
static const u64 requests[][4] = {
#include "requests.inc"
};
static u64 stack[512];
static u8 bytes[72];
int main(void) {
    const u64 at = (u64)(uintptr_t)bytes, sp = (u64)(uintptr_t)(stack + 510) & ~(u64)15;
    for (size_t i = 0; i < sizeof functions / sizeof *functions; i++) {
        u32 sum = 0x811c9dc5u;
        for (size_t r = 0; r < sizeof requests / sizeof *requests; r++) {
            memset(bytes, 0xa5, sizeof bytes);
            for (int k = 0; k < 4; k++) write64(at + 8 * (u64)k, requests[r][k]);
            write64(at + 64, functions[i](sp, at, requests[r][0], requests[r][1], requests[r][2], requests[r][3]));
            for (size_t k = 0; k < sizeof bytes; k++) sum = (sum ^ bytes[k]) * 0x01000193u;
        }
        printf("%lu\n", (unsigned long)sum);
    }
    return 0;
}
"""


def prepare(folder, translator):
    """Writes the modules and the calls into a folder. Returns the folder, the titles of the functions, and the checksums that node
    prints."""
    titles, bodies = zip(*functions([*load(translator).INSTRUCTIONS.values()]), strict=True)
    parts = [f'(func (export "t{at}") (param {{p}} i64 i64 i64 i64) (result i64) (local i64 {{p}}) {body})' for at, body in enumerate(bodies)]
    for name, pointer in (("narrow", "i32"), ("wide", "i64")):
        more = [it for _, it in STACKS.values()] if pointer == "i64" else []
        write_module(f"{folder}/{name}.wasm", module([*parts, *more], pointer))
    calls = requests()
    for name, line in (("requests", "{} {} {} {}\n"), ("requests.inc", "{{UINT64_C({}), UINT64_C({}), UINT64_C({}), UINT64_C({})}},\n")):
        with open(f"{folder}/{name}", "w", encoding="utf-8") as file:
            file.writelines(line.format(*it) for it in calls)
    ran = subprocess.run(["node", "-e", NODE], cwd=folder, capture_output=True, text=True, check=True)
    with open(f"{folder}/instructions.c", "w", encoding="utf-8") as file:
        file.write(C.replace("FUNCTIONS", ", ".join(f"wasm_t{at}" for at in range(len(titles)))))
    return folder, titles, ran.stdout.split()


def differing(folder, prepared, translator, machine, cc, run):
    """Writes the prepared module as C by a copy of build/wasm-to-c, compiles the C in a folder, and returns the functions that differ
    from what node computes, and the stacks that differ. `machine` is the folder with machine.h."""
    source, titles, wanted = prepared
    how = {"capture_output": True, "text": True}
    subprocess.run([translator, f"{source}/wide.wasm", f"{folder}/wide.inc"], check=True, **how)
    with open(f"{folder}/wide.inc", encoding="utf-8") as file:
        stacks = dict(re.findall(r"^  (\w+)_stack = (\d+),$", file.read(), re.MULTILINE))
    found = [name for name, (size, _) in STACKS.items() if stacks.get(name) != str(size)]
    words = ["-I", folder, "-I", machine, "-I", source, "-o", f"{folder}/instructions.exe", f"{source}/instructions.c"]
    subprocess.run([*cc, "-Wno-error", *words], check=True, **how)
    ran = subprocess.run([*run, f"{folder}/instructions.exe"], preexec_fn=limit_processor, **how)
    sums = ran.stdout.split()
    if len(sums) != len(wanted):
        return [f"the program ended with {ran.returncode} after {len(sums)} functions"]
    return found + [title for title, one, other in zip(titles, wanted, sums, strict=True) if one != other]


def try_refused(folder, translator, text, why):
    """Requires that build/wasm-to-c refuses a module, and says why."""
    write_module(f"{folder}/refused.wasm", module([text], "i64"))
    ran = subprocess.run([translator, f"{folder}/refused.wasm", f"{folder}/refused.c"], capture_output=True, text=True)
    if ran.returncode != 1 or not ran.stderr.startswith("build/wasm-to-c: ") or why not in ran.stderr:
        return f"it ended with {ran.returncode}: {ran.stderr}"
    return None
