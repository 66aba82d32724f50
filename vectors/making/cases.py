"""The inputs of the cases: those of the project's table of tests, and the edges. A case also has a comment and flags.

The other cases, which are random, stand in the files only.
"""

import itertools
import os

from texts import base64_of

HERE = os.path.dirname(os.path.realpath(__file__))
TABLE = os.path.join(HERE, "../../crates/argon2_test_calls/stdin")

ALGORITHMS = ["argon2d", "argon2i", "argon2id"]
BOTH = [(it, version) for version in (16, 19) for it in ALGORITHMS]
NAMES = ("m", "t", "p", "password", "salt", "secret", "data", "length")
PASSWORD, SALT = b"password", b"somesaltsomesalt"
TABLE_LINE = "a line of the project's table of tests"
FIELDS = {"password": b"\1" * 32, "salt": b"\2" * 16, "secret": b"\3" * 8, "data": b"\4" * 12}
STANDARD = {"m": 32, "t": 3, "p": 4, **FIELDS, "length": 32}
# The calls of the table whose answers begin with a tag.
HASHING = ("hash_password_into", "hash_password_into_with_memory", "hash_password_into_watched", "fill_segment")
# Lengths of messages, and of pieces of H', with their neighbours.
LENGTHS = (1, 2, 4, 16, 31, 32, 33, 63, 64, 65, 66, 95, 96, 97, 98, 127, 128, 129, 159, 160, 161, 191, 192, 193, 255, 256, 257)
SIZES = (0, 1, 2, 63, 64, 65, 111, 112, 126, 127, 128, 129, 130, 191, 192, 254, 255, 256, 257, 383, 384, 385, 511, 512, 513)


def counted(count, begin=0):
    """So many bytes that count up."""
    return bytes((begin + it) % 256 for it in range(count))


# ---- the table


def bytes_of(word):
    """The bytes that a word of the table says: `COUNT*HEX+..`, or those of its text."""
    pieces = [it.split("*") for it in word.split("+")]
    if all(len(it) == 2 and it[0].isdecimal() for it in pieces):
        return b"".join(int(count) * bytes.fromhex(digits) for count, digits in pieces)
    return word.encode()


def lines():
    """The words of each call of the table, and its answer."""
    with open(TABLE, encoding="utf-8") as it:
        for line in it.read().splitlines():
            if line and not line.startswith("#"):
                call, _, answer = line.partition(" = ")
                yield call.split(" "), answer


def contexts():
    """What the table's contexts are: the algorithm, the version, and m, t, p, secret and data."""
    found = {}
    for (name, *words), answer in lines():
        if name == "context" and answer == "Ok":
            own = dict(it.split("=", 1) for it in words[7:])
            costs = dict(zip("mtp", map(int, words[3:6])))
            fields = {it: bytes_of(own.get(it, "0*")) for it in ("secret", "data")}
            found[words[0]] = (words[1], int(words[2])), costs | fields
    return found


def table_hashes():
    known = contexts()
    for (name, *words), answer in lines():
        if len(words) < 4 or words[0] not in known or not words[3].isdecimal():
            continue
        group, settings = known[words[0]]
        length = int(words[3])
        is_tag = len(answer.split(" ")[0]) == 2 * length
        if is_tag and name in HASHING:
            own = {"password": bytes_of(words[1]), "salt": bytes_of(words[2]), "length": length}
            yield group, settings | own, TABLE_LINE, []


def table_texts():
    """The texts of Argon2 of the table, whole ones and lists of parameters in one."""
    for (name, *words), _ in lines():
        if name in ("PasswordHash::new", "Stored::try_from", "Params::try_from"):
            yield bytes_of(words[0]).decode()
        elif name == "verify_password":
            yield bytes_of(words[2]).decode()
        elif name == "Params::from_str" and words[0] != "0*":
            yield f"$argon2id$v=19${words[0]}$c29tZXNhbHQ$LVJKYEkaeNsu5UCkG00QmN9KvYwrpueSxItaCk3nAjU"


def table_verifications():
    """The passwords, secrets and texts that the table verifies."""
    known = contexts()
    for (name, *words), _ in lines():
        if name == "verify_password":
            secret = b"" if words[0] == "default" else known[words[0]][1]["secret"]
            yield bytes_of(words[1]), secret, bytes_of(words[2]).decode()


# ---- hashes


def hash_edges():
    """Each edge with its group, inputs, comment and flags."""
    small = {"m": 8, "t": 1, "p": 1, "password": PASSWORD, "salt": SALT, "secret": b"", "data": b"", "length": 32}
    id_13 = ("argon2id", 19)

    def edge(group, flag, comment, **inputs):
        return group, small | inputs, comment, [flag] if isinstance(flag, str) else flag

    for algorithm, version in BOTH:
        section = {"argon2d": "5.1", "argon2i": "5.2", "argon2id": "5.3"}[algorithm]
        by = f"RFC 9106, section {section}" if version == 19 else f"the inputs of RFC 9106, section {section}"
        yield (algorithm, version), STANDARD, by, ["Rfc9106"]

    for group in BOTH:
        for m in (8, 9, 10, 11, 12, 13, 15, 16, 508, 511, 512, 513, 516, 1024, 1028):
            yield edge(group, "Memory", f"{m} KiB, {m // 4} blocks in a segment", m=m)
        for p in (2, 3, 4, 5, 7, 8, 16, 64, 255, 256, 257):
            yield edge(group, "Lanes", f"{p} lanes, and the least memory", m=8 * p, p=p)
        for p in (2, 4):
            for m in (8 * p + 1, 12 * p - 1, 12 * p, 12 * p + 1):
                yield edge(group, "Memory", f"{m} KiB for {p} lanes", m=m, p=p)
        for t in (2, 3, 4):
            yield edge(group, "Passes", f"{t} passes", m=16, t=t, p=2)
        for length in (4, 64, 65, 128):
            yield edge(group, "Output", f"an output of {length} bytes", length=length)
        for lengths in ((0, 8, 0, 0), (1, 8, 1, 0), (1, 8, 0, 1), (0, 64, 32, 32)):
            fields = dict(zip(("password", "salt", "secret", "data"), map(counted, lengths)))
            yield edge(group, "Inputs", "{} bytes of password, {} of salt, {} of secret, {} of data".format(*lengths), **fields)

    for group in itertools.product(ALGORITHMS, [19]):
        yield edge(group, "Passes", "0 passes", t=0)
        yield edge(group, "Memory", "7 KiB", m=7)
        yield edge(group, "Lanes", "0 lanes", p=0)
        yield edge(group, "Output", "an output of 3 bytes", length=3)
        for p in (2, 4, 255):
            yield edge(group, "Lanes", f"{p} lanes, and 1 KiB less than the least memory", m=8 * p - 1, p=p)
        yield edge(group, "Passes", "257 passes", t=257)
    yield edge(id_13, "Lanes", "16777216 lanes, and the least memory", m=2**27, p=2**24)
    for length in (0, 1, 2):
        yield edge(id_13, "Output", f"an output of {length} bytes", length=length)
    for version in (0, 1, 15, 17, 18, 20, 256 + 19, 2**32 - 1):
        yield edge(("argon2id", version), "Version", f"version {version}")
    for t in (5, 255, 256, 1000):
        yield edge(id_13, "Passes", f"{t} passes", t=t)
    for p in (1023, 1024, 4096):
        yield edge(id_13, "Lanes", f"{p} lanes", m=8 * p, p=p)
    for length in (5, 16, 31, 33, 63, 66, 95, 96, 97, 127, 129, 159, 160, 161, 512, 1023, 1024, 1025, 4096):
        yield edge(id_13, "Output", f"an output of {length} bytes", length=length)

    # (the first hash takes 40 bytes, those of the inputs, and one block of BLAKE2b has 128)
    for length in (1, 2, 71, 72, 73, 127, 128, 129, 199, 200, 201, 255, 256, 257, 1000, 4096):
        yield edge(id_13, "Password", f"a password of {length} bytes", password=counted(length))
    for comment, password in (
        ("a password of a zero byte", b"\0"),
        ("a password with a zero byte", b"pass\0word"),
        ("a password that ends with a zero byte", b"password\0"),
        ("a password that ends with a line feed", b"password\n"),
        ("a password in UTF-8", "pässwörd 密碼 🔑".encode()),
        ("the same letters composed otherwise", "pa\u0308sswo\u0308rd 密碼 🔑".encode()),
        ("a password that is no UTF-8", b"\xff\xfe\x80pass"),
    ):
        yield edge(id_13, "Password", comment, password=password)
    for length in range(8):
        yield edge(id_13, ["Salt", "ShortSalt"], f"a salt of {length} bytes", salt=counted(length))
    for length in (8, 9, 15, 17, 32, 47, 48, 49, 63, 64, 65, 80, 128, 1024):
        yield edge(id_13, "Salt", f"a salt of {length} bytes", salt=counted(length))
    for name, flag in (("secret", "Secret"), ("data", "Data")):
        for length in (1, 8, 16, 31, 32, 33, 64, 128, 1024):
            yield edge(id_13, flag, f"{length} bytes of {name}", **{name: counted(length, 128)})
    yield edge(id_13, ["Secret", "Data"], "the secret of the next case as data", data=b"pepper")
    yield edge(id_13, ["Secret", "Data"], "the data of the case before as secret", secret=b"pepper")
    yield edge(id_13, "Inputs", "a byte that is the password's", password=b"ab", salt=b"cdefghijk")
    yield edge(id_13, "Inputs", "the same byte as the salt's", password=b"a", salt=b"bcdefghijk")
    for group in BOTH:
        fields = {"password": counted(300), "salt": counted(64, 1), "secret": counted(96, 2), "data": counted(200, 3)}
        yield edge(group, "Inputs", "all inputs long, and an output of 192 bytes", m=97, t=3, p=3, length=192, **fields)

    for comment, m, t, p in (
        ("the second recommended option of RFC 9106", 65536, 3, 4),
        ("OWASP's 46 MiB", 47104, 1, 1),
        ("OWASP's 19 MiB", 19456, 2, 1),
        ("OWASP's 12 MiB", 12288, 3, 1),
        ("OWASP's 9 MiB", 9216, 4, 1),
        ("OWASP's 7 MiB", 7168, 5, 1),
        ("libsodium's interactive limits", 65536, 2, 1),
        ("the defaults of PHP", 65536, 4, 1),
        ("the defaults of Django", 102400, 2, 8),
        ("libsodium's moderate limits", 262144, 3, 1),
        ("libsodium's sensitive limits", 1048576, 4, 1),
        ("65536 lanes, and the least memory", 524288, 1, 65536),
        ("10000 passes over the least memory", 8, 10000, 1),
    ):
        yield edge(id_13, "Common", comment, m=m, t=t, p=p)
    for algorithm in ("argon2d", "argon2i"):
        yield edge((algorithm, 19), "Common", "64 MiB in three passes", m=65536, t=3, p=4)
        yield edge((algorithm, 16), "Common", "64 MiB in three passes", m=65536, t=3, p=1)


# ---- BLAKE2b and H'


def pieces(kind, edges, name):
    """The edges, and the table's lines of a name."""
    for length, message, comment in edges:
        yield {"type": kind}, {"length": length, "message": message}, comment, ["Edge"]
    for (called, *words), _ in lines():
        if called == name and int(words[0]) > 0:
            yield {"type": kind}, {"length": int(words[0]), "message": bytes_of(words[1])}, TABLE_LINE, []


def long_hashes():
    return pieces("Argon2LongHash", long_edges(), "blake2b_long")


def digests():
    return pieces("Blake2b", blake2b_edges(), "Blake2b")


def long_edges():
    for length in LENGTHS:
        yield length, b"abc", f"{length} bytes"
    for length in (512, 992, 1023, 1024, 1025, 4096):
        yield length, counted(72), f"{length} bytes of a message as long as that of a first block"
    for length in (0, 1, 60, 123, 124, 125, 128, 252, 1024):
        for size in (4, 64, 65, 1024):
            yield size, counted(length), f"{size} bytes of a message of {length} bytes"


def blake2b_edges():
    for length in range(1, 65):
        yield length, b"abc", f"a digest of {length} bytes"
    for size in (*SIZES, 1023, 1024, 1025):
        for length in (1, 32, 64):
            yield length, counted(size), f"a message of {size} bytes"
    for byte in (0, 255):
        for size in (1, 127, 128, 129, 256):
            yield 64, bytes([byte]) * size, f"{size} bytes {byte:02x}"


# ---- texts


def texts():
    """The texts, each with a comment."""
    yield from text_edges()
    yield from ((it, TABLE_LINE) for it in table_texts() if it.startswith(("$argon2", "$scrypt")))


def verifications():
    """The passwords, secrets and texts, each with a comment."""
    yield from verify_edges()
    yield from ((*it, TABLE_LINE) for it in table_verifications())


# Texts by libargon2, which accept the password `abc` there.
ACCEPTING = "$argon2id$v=19$m=8,t=1,p=1$c29tZXNhbHQ$LVJKYEkaeNsu5UCkG00QmN9KvYwrpueSxItaCk3nAjU"
SLASHES = "$argon2id$v=19$m=8,t=1,p=1$//////////8$f4PZjJleUQUXX1jgTKKScQ"
ACCEPTED_17 = "$argon2id$v=17$m=8,t=1,p=1$c29tZXNhbHQ$hyz51z3MBYCia/8QWKkngw"
ACCEPTED_SALT = f"$argon2id$v=19$m=8,t=1,p=1${base64_of(counted(49))}$/24MSXHoJIHG+x/9v+S9bg"
ACCEPTED_HASH = (
    "$argon2id$v=19$m=8,t=1,p=1$c29tZXNhbHQ"
    "$aw8zS/OyKIUnFWuG4QoN0eqqyZ3YIPwDZq1V1XnVdRnuRbNGih+nypfSzPiv2v6GnD3eaRVyIa1uojbKfP8PRv0"
)


def text_edges():
    """Texts, each with a comment. Most are one step from one that is read."""
    yield ACCEPTING, "a text that each program reads"
    for comment, old, new in (
        ("Argon2i", "argon2id", "argon2i"),
        ("Argon2d", "argon2id", "argon2d"),
        ("version 16", "v=19", "v=16"),
        ("no version", "$v=19", ""),
        ("a version with a leading zero", "v=19", "v=019"),
        ("a version with a sign", "v=19", "v=+19"),
        ("a version in hexadecimal digits", "v=19", "v=0x13"),
        ("a version of another base", "v=19", "v=13"),
        ("a version that is empty", "v=19", "v="),
        ("version 17", "v=19", "v=17"),
        ("version 18", "v=19", "v=18"),
        ("version 20", "v=19", "v=20"),
        ("version 0", "v=19", "v=0"),
        ("version 19 with 2 to the power of 32 added", "v=19", "v=4294967315"),
        ("the version twice", "v=19", "v=19$v=19"),
        ("the version among the parameters", "$v=19$m", "$v=19,m"),
        ("the version as the last parameter", "v=19$m=8,t=1,p=1", "m=8,t=1,p=1,v=19"),
        ("the version after the parameters", "v=19$m=8,t=1,p=1", "m=8,t=1,p=1$v=19"),
        ("an upper-case name of the version", "v=19", "V=19"),
        ("upper-case letters of the algorithm", "argon2id", "Argon2id"),
        ("the algorithm's name ends early", "argon2id", "argon2"),
        ("the algorithm's name is another", "argon2id", "argon2ds"),
        ("the algorithm's name is longer", "argon2id", "argon2idx"),
        ("another scheme", "argon2id", "scrypt"),
        ("the algorithm is empty", "argon2id", ""),
        ("no dollar sign before the algorithm", "$argon2id", "argon2id"),
        ("two dollar signs before the algorithm", "$argon2id", "$$argon2id"),
        ("two dollar signs before the version", "$v=", "$$v="),
        ("two dollar signs before the parameters", "$m=", "$$m="),
        ("two dollar signs before the salt", "$c29", "$$c29"),
        ("two dollar signs before the hash", "$LVJ", "$$LVJ"),
        ("a dollar sign at the end", "AjU", "AjU$"),
        ("a further field", "AjU", "AjU$AAAA"),
        ("a space at the beginning", "$argon2id", " $argon2id"),
        ("a space at the end", "AjU", "AjU "),
        ("a line feed at the end", "AjU", "AjU\n"),
        ("a carriage return at the end", "AjU", "AjU\r"),
        ("a tab at the end", "AjU", "AjU\t"),
        ("a space before a number", "m=8", "m= 8"),
        ("a space after a number", "m=8", "m=8 "),
        ("a space after a comma", ",t", ", t"),
        ("a space before the version's number", "v=19", "v= 19"),
        ("m with a leading zero", "m=8", "m=08"),
        ("t with a leading zero", "t=1", "t=01"),
        ("p with a leading zero", "p=1", "p=01"),
        ("m with a plus sign", "m=8", "m=+8"),
        ("m with a minus sign", "m=8", "m=-8"),
        ("m with an exponent", "m=8", "m=8e0"),
        ("m with a fraction", "m=8", "m=8.0"),
        ("m in hexadecimal digits", "m=8", "m=0x8"),
        ("m in digits that are not ASCII", "m=8", "m=٨"),
        ("m is empty", "m=8", "m="),
        ("m is below its least", "m=8", "m=7"),
        ("m is below its least for two lanes", "m=8,t=1,p=1", "m=15,t=1,p=2"),
        ("m is 0", "m=8", "m=0"),
        ("m is 2 to the power of 32", "m=8", "m=4294967296"),
        ("m is 8 with 2 to the power of 32 added", "m=8", "m=4294967304"),
        ("m is 8 with 2 to the power of 64 added", "m=8", "m=18446744073709551624"),
        ("m is the greatest", "m=8", "m=4294967295"),
        ("m is a multiple of 4 p", "m=8", "m=12"),
        ("m is no multiple of 4 p", "m=8", "m=13"),
        ("t is 0", "t=1", "t=0"),
        ("t is 2 to the power of 32", "t=1", "t=4294967296"),
        ("t is 1 with 2 to the power of 32 added", "t=1", "t=4294967297"),
        ("t is empty", "t=1", "t="),
        ("p is 0", "p=1", "p=0"),
        ("p is 255", "m=8,t=1,p=1", "m=2040,t=1,p=255"),
        ("p is 256", "m=8,t=1,p=1", "m=2048,t=1,p=256"),
        ("p is 2 to the power of 24", "m=8,t=1,p=1", "m=134217728,t=1,p=16777216"),
        ("p is 1 with 2 to the power of 32 added", "p=1", "p=4294967297"),
        ("p is empty", "p=1", "p="),
        ("upper-case names of parameters", "m=8,t=1,p=1", "M=8,T=1,P=1"),
        ("no m", "m=8,t=1,p=1", "t=1,p=1"),
        ("no t", "m=8,t=1,p=1", "m=8,p=1"),
        ("no p", "m=8,t=1,p=1", "m=8,t=1"),
        ("no parameters", "$m=8,t=1,p=1", ""),
        ("the order t, m, p", "m=8,t=1,p=1", "t=1,m=8,p=1"),
        ("the order m, p, t", "m=8,t=1,p=1", "m=8,p=1,t=1"),
        ("the order p, t, m", "m=8,t=1,p=1", "p=1,t=1,m=8"),
        ("m twice, the same", "m=8", "m=8,m=8"),
        ("m twice, the last one greater", "p=1", "p=1,m=16"),
        ("p twice", "p=1", "p=1,p=1"),
        ("a parameter that Argon2 does not have", "p=1", "p=1,r=8"),
        ("a parameter without a value", "p=1", "p=1,x"),
        ("a comma at the end of the parameters", "p=1", "p=1,"),
        ("a comma at the beginning of the parameters", "m=8", ",m=8"),
        ("two commas", "8,t", "8,,t"),
        ("a semicolon for a comma", "8,t", "8;t"),
        ("a colon for an equals sign", "m=8", "m:8"),
        ("a name twice with two equals signs", "m=8", "m==8"),
        ("each parameter in a field", "m=8,t=1,p=1", "m=8$t=1$p=1"),
        ("a key identifier", "p=1", "p=1,keyid=8PDw8A"),
        ("a key identifier of 8 bytes", "p=1", "p=1,keyid=AAECAwQFBgc"),
        ("a key identifier of 9 bytes", "p=1", "p=1,keyid=AAECAwQFBgcI"),
        ("a key identifier with stray bits", "p=1", "p=1,keyid=8PDw8B"),
        ("a key identifier that is empty", "p=1", "p=1,keyid="),
        ("data", "p=1", "p=1,data=Dw8PDw8P"),
        ("data of 32 bytes", "p=1", "p=1,data=" + base64_of(counted(32))),
        ("data of 33 bytes", "p=1", "p=1,data=" + base64_of(counted(33))),
        ("data with padding", "p=1", "p=1,data=Dw8PDw=="),
        ("a key identifier and data", "p=1", "p=1,keyid=8PDw8A,data=Dw8PDw8P"),
        ("data before the key identifier", "p=1", "p=1,data=Dw8PDw8P,keyid=8PDw8A"),
        ("a key identifier before the costs", "m=8", "keyid=8PDw8A,m=8"),
        ("data twice", "p=1", "p=1,data=Dw8P,data=Dw8P"),
        ("a salt of 7 bytes", "c29tZXNhbHQ", "c29tZXNhbA"),
        ("a salt of 9 bytes", "c29tZXNhbHQ", "c29tZXNhbHRz"),
        ("a salt of 16 bytes", "c29tZXNhbHQ", "c29tZXNhbHRzb21lc2FsdA"),
        ("a salt of 48 bytes", "c29tZXNhbHQ", base64_of(counted(48))),
        ("a salt of 49 bytes", "c29tZXNhbHQ", base64_of(counted(49))),
        ("a salt of 64 bytes", "c29tZXNhbHQ", base64_of(counted(64))),
        ("a salt that is empty", "c29tZXNhbHQ", ""),
        ("a salt with padding", "c29tZXNhbHQ", "c29tZXNhbHQ="),
        ("a salt with stray bits", "c29tZXNhbHQ", "c29tZXNhbHR"),
        ("a salt with a last character that has no byte", "c29tZXNhbHQ", "c29tZXNhbHRzA"),
        ("a salt in Base64 for URLs", "c29tZXNhbHQ", "-_29tZXNhbHQ"),
        ("a salt in crypt's Base64", "c29tZXNhbHQ", "..29tZXNhbHQ"),
        ("a salt with a line feed in it", "c29tZXNhbHQ", "c29tZX\nNhbHQ"),
        ("a salt with a sign that is no Base64", "c29tZXNhbHQ", "c29tZ!NhbHQ"),
        ("a salt with a letter that is not ASCII", "c29tZXNhbHQ", "c29tZéNhbHQ"),
        ("a hash with a letter that is not ASCII", "LVJ", "LVé"),
        ("a hash with padding", "AjU", "AjU="),
        ("a hash with stray bits", "AjU", "AjV"),
        ("a hash with a last character that has no byte", "AjU", "AjUAA"),
        ("a hash with a sign that is no Base64", "AjU", "Aj*"),
        ("a hash in Base64 for URLs", "LVJ", "_-J"),
        ("no hash", "$LVJKYEkaeNsu5UCkG00QmN9KvYwrpueSxItaCk3nAjU", ""),
        ("no salt and no hash", "$c29tZXNhbHQ$LVJKYEkaeNsu5UCkG00QmN9KvYwrpueSxItaCk3nAjU", ""),
        ("the hash is empty", "LVJKYEkaeNsu5UCkG00QmN9KvYwrpueSxItaCk3nAjU", ""),
        *(
            (f"a hash of {size} bytes", "LVJKYEkaeNsu5UCkG00QmN9KvYwrpueSxItaCk3nAjU", base64_of(counted(size)))
            for size in (3, 4, 11, 12, 15, 16, 31, 33, 63, 64, 65, 128)
        ),
    ):
        yield ACCEPTING.replace(old, new), comment
    for comment, text in (
        ("an empty text", ""),
        ("a dollar sign", "$"),
        ("two dollar signs", "$$"),
        ("a letter", "x"),
        ("the algorithm without a dollar sign", "argon2id"),
        ("the algorithm only", "$argon2id"),
        ("the algorithm and a dollar sign", "$argon2id$"),
        ("a text with Dovecot's prefix", "{ARGON2ID}" + ACCEPTING),
        ("a text with Django's prefix", "argon2" + ACCEPTING),
        ("a text with the sign of a locked name", "!" + ACCEPTING),
    ):
        yield text, comment
    yield "$2b$12$abcdefghijklmnopqrstuuNhV0MMPRGqQ6VNEkGAgpVW3C5qSIH6C", "a text of bcrypt"
    yield ACCEPTING.replace("=", "＝"), "equals signs that are not ASCII"
    yield ACCEPTING[: len(ACCEPTING) // 2], "half a text"


def verify_edges():
    """Passwords, secrets and texts, each with a comment."""
    yield b"abc", b"", ACCEPTING, "the password"
    yield b"abd", b"", ACCEPTING, "another password"
    yield b"", b"", ACCEPTING, "no password"
    yield b"abc\0", b"", ACCEPTING, "the password and a zero byte"
    yield b"abc\n", b"", ACCEPTING, "the password and a line feed"
    yield b"ABC", b"", ACCEPTING, "the password in capitals"
    yield b"abc", b"pepper", ACCEPTING, "a secret that the text has not"
    yield b"abc", b"", ACCEPTING[:-2] + "jQ", "the hash with another last byte"
    yield b"abc", b"", ACCEPTING.replace("LVJ", "KVJ"), "the hash with another first byte"
    yield b"abc", b"", ACCEPTING.replace("c29t", "c29u"), "another salt"
    yield b"abc", b"", ACCEPTING.replace("argon2id", "argon2i"), "another algorithm"
    yield b"abc", b"", ACCEPTING.replace("v=19", "v=16"), "another version"
    yield b"abc", b"", ACCEPTING.replace("$v=19", ""), "no version, which is not version 19"
    yield b"abc", b"", ACCEPTING.replace("m=8", "m=9"), "other memory, and as many blocks"
    yield b"abc", b"", ACCEPTING.replace("t=1", "t=2"), "other passes"
    yield b"abc", b"", ACCEPTING.replace("p=1", "p=1,keyid=8PDw8A"), "a key identifier, which does not enter the hash"
    yield b"abc", b"", ACCEPTING.replace("p=1", "p=1,data=8PDw8A"), "data, which enters the hash"
    yield b"abc", b"", ACCEPTING[:-22], "the first half of the hash"
    yield b"abc", b"", SLASHES, "a salt of bytes ff"
    yield b"abc", b"", SLASHES.replace("$//", "$é"), "a letter that is not ASCII for two slashes of the salt"
    yield b"abc", b"", ACCEPTED_17, "the hash that libargon2 makes under version 17"
    yield b"abc", b"", ACCEPTED_SALT, "the hash that libargon2 makes under a salt of 49 bytes"
    yield b"abc", b"", ACCEPTED_HASH, "a hash of 65 bytes that libargon2 makes"
