"""What the scripts share that try argon2-passwd, tests/passwd-*: the program, what it says, texts, and files with accounts."""

import os
import re
import sqlite3
import tempfile
from functools import partial

from lib.checks import CRATES, built, check, end, execute

PROGRAM = built("argon2_passwd_cli")
LEAST = ("--params", "m=8,t=1,p=1")
OTHER = ("--params", "m=16,t=1,p=1")
# The table of accounts, as the program makes it.
with open(os.path.join(CRATES, "argon2_store/src/database.rt"), encoding="utf-8") as source:
    [TABLE] = re.findall(r'const SQL: &str =\s*"(.*)";', source.read())
# Costs of little memory and some seconds.
HARD = ("--params", "m=8,t=1000000,p=1")
TEXT = "$argon2id$v=19$m=8,t=1,p=1$"
# Texts of `abc` and the salt `somesalt`, by the reference implementation and by an independent model: at the least costs,
# with more memory, with more passes, and with the secret `some secret`. The last two are of 4096 times `x` and of no bytes.
PLAIN = f"{TEXT}c29tZXNhbHQ$LVJKYEkaeNsu5UCkG00QmN9KvYwrpueSxItaCk3nAjU"
LARGE = "$argon2id$v=19$m=16,t=1,p=1$c29tZXNhbHQ$PE5tQgGfbCqqYHJ2jnvlQgvfNOIbWUpxEO6b546gzwI"
SLOW = "$argon2id$v=19$m=8,t=2,p=1$c29tZXNhbHQ$IrdsLpbrnTLNTrEEkSZbhhvN1JyNMBaDHPVDIoIz1UY"
KEYED = f"{TEXT}c29tZXNhbHQ$7p3arrt+IjRcciOeaCekPKTa5fGd9LB7Ka+bp9WnFtU"
LONG = f"{TEXT}c29tZXNhbHQ$42jG9xfbOst9TdEVirEAo7e2e2FD1jsef7Su4fsYZEg"
EMPTY = f"{TEXT}c29tZXNhbHQ$Ze7t9R9ABr5D6ybRIUGCqX1Qh3Z+NIe/vISd0ygUVlE"


def ended(*words, typed=b"", options=LEAST):
    """The status, the output and the errors of a command."""
    ran = execute([PROGRAM, *options, *words], input=typed, capture_output=True)
    return ran.returncode, ran.stdout.decode(), ran.stderr.decode()


def said(status, why):
    """How a command ends that says why."""
    return status, "", f"argon2-passwd: {why}\n"


def expect(wanted, *words, **how):
    """Requires that a command ends so, where `DONE` also says that it made its file, if it did."""
    new = [it for it in words if it.startswith("/") and not os.path.exists(it)]
    got = ended(*words, **how)
    if wanted == DONE and new:
        wanted = 0, "", f"argon2-passwd: made {new[0]}\n"
    check(got == wanted, (words, got))


DONE = 0, "", ""
CURRENT = 0, "hash is current\n", ""
WRONG = said(1, "password is invalid")
REFUSED = said(1, "name or password is invalid")
UNKNOWN = said(1, "name is unknown")
# What reads each row of FILE and checks it.
WHOLE = "list", "export", "check-file"
NONE = said(1, "standard input has no password")
TOO_LONG = said(1, "a password has at most 4096 bytes")
NOT_NEW = said(1, "a new password has 1 to 4096 bytes")
ABOVE = said(2, "parameters are above the bound")
NO_HASH = "no name with an Argon2 hash that can be verified; see --any-hash"
CHARACTER = "a name has no colon and no control character"
LOW = "--bound", "m=8,t=1,p=1"
FOREIGN = {
    "bcrypt": ("$2b$12$GhvMmNVjRW29ulnudl.LbuAnUtN/LRfe1JsBm1Xu6LE3059z5Tr8m", "bcrypt_sha256$$2b$12$x"),
    "scrypt": (f"$scrypt$ln=16,r=8,p=1$aM15713r3Xsvxbi31lqr1Q${PLAIN.split('$')[-1]}", "scrypt:8:1$a$b"),
    "PBKDF2": ("pbkdf2_sha256$600000$a$b", "{PBKDF2-SHA256}10000$a$b"),
    "yescrypt": ("$y$j9T$a$b",),
    "sha256crypt": ("$5$a$b",),
    "sha512crypt": ("$6$a$b",),
    "md5crypt": ("$apr1$a$b",),
    "Django digest": ("md5$a$b",),
    "LDAP digest": ("{SSHA}YWJj",),
}


def with_ann(path, password=b"abc\n"):
    expect(DONE, path, "register", "ann", typed=password)


def write(path, *statements):
    """Changes a database as another program does."""
    base = sqlite3.connect(path)
    for statement in statements:
        base.execute(statement)
    base.commit()
    base.close()


# What a database of accounts begins with: the name of SQLite's format, pages of 4096 bytes, and a log.
HEAD = b"SQLite format 3\0\x10\0\2\2"
# What each command of a file reads from standard input.
ON_FILE = {
    ("list",): b"", ("export",): b"", ("check-file",): b"", ("verify", "ann"): b"abc\n", ("change", "ann"): b"abc\nnew\n",
    ("set", "ann"): b"abc\n", ("register", "ann"): b"abc\n", ("remove", "ann"): b"", ("lock", "ann"): b"", ("unlock", "ann"): b"",
    ("import",): f"ann:{PLAIN}\n".encode(),
}


def contents(path):
    """What a file and its log hold, or False for one that is not there."""
    return [os.path.exists(it) and open(it, "rb").read() for it in (path, f"{path}-wal")]


def refused(path, commands=ON_FILE):
    """Requires that each of these commands says that a file holds no accounts, and leaves it and its log as they are."""
    before = contents(path)
    for words, typed in commands.items():
        expect(said(3, f"{path}: the file does not hold accounts"), path, *words, typed=typed)
        check(contents(path) == before, words)


def tried(case):
    """Tries a case on the path of a file that is not there yet."""
    with tempfile.TemporaryDirectory() as folder:
        case(f"{folder}/accounts")


def end_cases(*cases):
    """Tries cases, each on a new path, and ends the script."""
    end((it.__doc__, partial(tried, it)) for it in cases)
