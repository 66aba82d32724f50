"""The programs that are asked for values. None of them is this project's.

A request is a tuple: the name of the function, the length of the output, and the inputs.

    ("hash", length, algorithm, version, m, t, p, password, salt, secret, data)
    ("long", length, message)        H', the hash of any length of RFC 9106, section 3.3
    ("blake2b", length, message)

Each program's function `answers` returns an answer for each request: bytes, a name of `REASONS`, or None if the program has no
such function or takes no such inputs.
"""

import contextlib
import ctypes
import glob
import hashlib
import os
import subprocess
import tempfile

HERE = os.path.dirname(os.path.realpath(__file__))
ALGORITHMS = ["argon2d", "argon2i", "argon2id"]
# Why libargon2 refuses to hash, by its codes.
REASONS = {
    -2: "OutputTooShort",
    -6: "SaltTooShort",
    -12: "PassesTooFew",
    -14: "MemoryTooLittle",
    -16: "LanesTooFew",
    -17: "LanesTooMany",
    -26: "VersionUnknown",
}


class Context(ctypes.Structure):
    """The `argon2_context` of argon2.h."""

    _fields_ = [
        *(
            field
            for name in ("out", "pwd", "salt", "secret", "ad")
            for field in ((name, ctypes.c_char_p), (name + "len", ctypes.c_uint32))
        ),
        *((name, ctypes.c_uint32) for name in ("t_cost", "m_cost", "lanes", "threads", "version")),
        ("allocate_cbk", ctypes.c_void_p),
        ("free_cbk", ctypes.c_void_p),
        ("flags", ctypes.c_uint32),
    ]


def libargon2_answer(library, request):
    """What `argon2_ctx` of a libargon2 answers."""
    function, length, *inputs = request
    if function != "hash":
        return None
    algorithm, version, m, t, p, *fields = inputs
    if version not in (16, 19):
        # (the library takes any other number for 19)
        return None
    out = ctypes.create_string_buffer(max(length, 1))
    sized = (it for field in fields for it in (field, len(field)))
    context = Context(ctypes.cast(out, ctypes.c_char_p), length, *sized, t, m, p, 1, version)
    code = library.argon2_ctx(ctypes.byref(context), ALGORITHMS.index(algorithm))
    return REASONS[code] if code else out.raw[:length]


def libargon2(name="libargon2.so.1"):
    """The reference's library, whose package of Debian is libargon2-1."""
    library = ctypes.CDLL(name)
    return lambda requests: [libargon2_answer(library, it) for it in requests]


def libsodium():
    """Debian's package libsodium23. It hashes with one lane and a salt of 16 bytes."""
    library = ctypes.CDLL("libsodium.so.23")
    sizes = {"argon2i": 1, "argon2id": 2}

    def answer(request):
        function, length, *inputs = request
        out, size = ctypes.create_string_buffer(max(length, 1)), ctypes.c_ulonglong
        if function == "blake2b":
            code = library.crypto_generichash_blake2b(out, ctypes.c_size_t(length), inputs[0], size(len(inputs[0])), None, 0)
        elif function == "hash":
            algorithm, version, m, t, p, password, salt, secret, data = inputs
            if algorithm not in sizes or version != 19 or p != 1 or len(salt) != 16 or secret or data:
                return None
            words = (size(len(password)), salt, size(t), ctypes.c_size_t(1024 * m), sizes[algorithm])
            code = library.crypto_pwhash(out, size(length), password, *words)
        else:
            return None
        return None if code else out.raw[:length]

    return lambda requests: [answer(it) for it in requests]


def by_lines(command, requests):
    """The answers of a program that reads a line for each request, as programs/README.md says."""

    def word(value):
        return value.hex() or "-" if isinstance(value, bytes) else str(value)

    given = "".join(" ".join(map(word, it)) + "\n" for it in requests)
    ran = subprocess.run(command, input=given, capture_output=True, text=True, check=True)
    return [None if it.startswith(("refused:", "unknown")) else bytes.fromhex(it) for it in ran.stdout.splitlines()]


def bouncy_castle():
    """Debian's package libbcprov-java."""
    (jar,) = glob.glob("/usr/share/java/bcprov.jar")
    command = ["java", "-Xmx2g", "-cp", jar, f"{HERE}/../programs/BouncyCastle.java"]
    return lambda requests: by_lines(command, requests)


def x_crypto():
    """Go's golang.org/x/crypto, whose package of Debian is golang-golang-x-crypto-dev. Its Argon2 is that of version 0x13."""
    folder = tempfile.TemporaryDirectory()
    program = f"{folder.name}/program"
    environment = os.environ | {"GO111MODULE": "off", "GOPATH": "/usr/share/gocode", "GOCACHE": f"{folder.name}/cache"}
    words = ["go", "build", "-o", program, "."]
    subprocess.run(words, cwd=f"{HERE}/../programs/go", env=environment, check=True, capture_output=True)

    def answers(requests):
        folder  # noqa: B018 (the program is there as long as this function is)
        return by_lines([program], requests)

    return answers


class Parameter(ctypes.Structure):
    """The `OSSL_PARAM` of OpenSSL."""

    _fields_ = [
        ("key", ctypes.c_char_p),
        ("data_type", ctypes.c_uint),
        ("data", ctypes.c_char_p),
        ("data_size", ctypes.c_size_t),
        ("return_size", ctypes.c_size_t),
    ]


def openssl():
    """OpenSSL from 3.2 on, as in Debian's package libssl3t64. It takes a salt from 8 bytes on."""
    library = ctypes.CDLL("libcrypto.so.3")
    if not hasattr(library, "EVP_KDF_fetch"):
        raise OSError("this OpenSSL has no functions of that kind")
    library.EVP_KDF_fetch.restype = library.EVP_KDF_CTX_new.restype = ctypes.c_void_p
    functions = {it: library.EVP_KDF_fetch(None, it.upper().encode(), None) for it in ALGORITHMS}
    if None in functions.values():
        raise OSError("this OpenSSL has no Argon2")
    number, octets = 2, 5

    def answer(request):
        function, length, *inputs = request
        if function != "hash":
            return None
        algorithm, version, m, t, p, *fields = inputs
        numbers = {"version": version, "memcost": m, "iter": t, "lanes": p}
        values = [(name, number, it.to_bytes(4, "little")) for name, it in numbers.items()]
        values += [(name, octets, it) for name, it in zip(("pass", "salt", "secret", "ad"), fields) if it or name == "pass"]
        given = [Parameter(name.encode(), kind, it, len(it), 0) for name, kind, it in values]
        parameters = (Parameter * (len(given) + 1))(*given, Parameter())
        out = ctypes.create_string_buffer(length)
        context = ctypes.c_void_p(library.EVP_KDF_CTX_new(ctypes.c_void_p(functions[algorithm])))
        is_made = library.EVP_KDF_derive(context, out, ctypes.c_size_t(length), parameters)
        library.EVP_KDF_CTX_free(context)
        return out.raw if is_made == 1 else None

    return lambda requests: [answer(it) for it in requests]


def python():
    """Python's hashlib."""

    def answer(request):
        function, length, *inputs = request
        if function != "blake2b" or not 1 <= length <= 64:
            return None
        return hashlib.blake2b(inputs[0], digest_size=length).digest()

    return lambda requests: [answer(it) for it in requests]


PROGRAMS = {
    "libargon2": libargon2,
    "Bouncy Castle": bouncy_castle,
    "x/crypto": x_crypto,
    "libsodium": libsodium,
    "OpenSSL": openssl,
    "hashlib": python,
}


def found():
    """The programs that are here and answer, by their names."""
    programs = {}
    for name, start in PROGRAMS.items():
        with contextlib.suppress(OSError, ValueError, subprocess.CalledProcessError):
            ask = start()
            ask([("blake2b", 1, b"")])
            programs[name] = ask
    return programs
