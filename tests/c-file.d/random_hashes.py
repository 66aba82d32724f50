"""Compares random hashes of two libraries with the functions of argon2.h."""

import ctypes
import random


class Context(ctypes.Structure):
    """The `argon2_context` of argon2.h."""

    _fields_ = [
        *(field for name in ("out", "pwd", "salt", "secret", "ad") for field in ((name, ctypes.c_char_p), (name + "len", ctypes.c_uint32))),
        *((name, ctypes.c_uint32) for name in ("t_cost", "m_cost", "lanes", "threads", "version")),
        *((name, ctypes.c_void_p) for name in ("allocate_cbk", "free_cbk")),
        ("flags", ctypes.c_uint32),
    ]


def load(path):
    return ctypes.CDLL(path)


def answer(library, algorithm, version, length, costs, threads, inputs):
    """Returns the code of a hash, and its tag."""
    out = ctypes.create_string_buffer(length or 1)
    fields = [it for value in inputs for it in (value, len(value))]
    context = Context(ctypes.cast(out, ctypes.c_char_p), length, *fields, *costs, threads, version)
    code = library.argon2_ctx(ctypes.byref(context), algorithm)
    return code, out.raw if code == 0 else b""


def differing(ours, theirs, count):
    """Returns the first calls of `count` calls to which the libraries give other answers. Some calls are refused."""
    chosen = random.Random(9106)
    found = []
    for _ in range(count):
        lanes = chosen.choice((1, 1, 2, 3, 4, 7))
        memory = chosen.choice((8 * lanes + chosen.randrange(60), chosen.randrange(30), chosen.randrange(8 * lanes, 6000)))
        length = chosen.choice((0, 3, 4, 32, 64, 65, chosen.randrange(4, 300)))
        lengths = [chosen.choice(it) for it in ((0, 8, chosen.randrange(200)), (7, 8, 16, 100), (0, 16, 130), (0, 12, 32))]
        call = (chosen.randrange(3), chosen.choice((0x10, 0x13)), length, (chosen.choice((0, 1, 1, 2, 3)), memory, lanes),
                chosen.choice((1, lanes)), [chosen.randbytes(it) for it in lengths])
        if answer(ours, *call) != answer(theirs, *call):
            found.append(call)
    return found[:3]
