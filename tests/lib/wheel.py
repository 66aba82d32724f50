"""The scripts that try the wheel for Python and the package for Go share this module."""

import glob
import json
import os
import sys
import zipfile

from lib.checks import ROOT, check, execute, need

# Texts that an independent model made. OF_ABC is for the password `abc`. The others are for `pass wörd`: OF_SECRET with a secret,
# data and a key identifier, and OF_OLD_SECRET only with another secret.
OF_ABC = "$argon2id$v=19$m=8,t=1,p=1$c29tZXNhbHQ$LVJKYEkaeNsu5UCkG00QmN9KvYwrpueSxItaCk3nAjU"
COSTS = "$argon2id$v=19$m=64,t=2,p=2"
OF_SECRET = f"{COSTS},keyid=a2V5IDE,data=c29tZSBkYXRh$c29tZXNhbHQ$8Fe4gWVJpEPVFv1y5tDY+m6T9i6mEDkkKNQBGzcGzH8"
OF_OLD_SECRET = f"{COSTS}$c29tZXNhbHQ$TIwxZJX/u/uyFcujYXWbkdtyc4CJCdkl+/isYF6xVj0"


def unpack(built, top):
    """Makes the wheel of a build of libargon2 in a folder and unpacks it there, so that this process can import it."""
    execute([f"{ROOT}/build/wheel", built, top], check=True, stderr=-1)
    (wheel,) = glob.glob(f"{top}/*.whl")
    with zipfile.ZipFile(wheel) as it:
        it.extractall(top)
    sys.path.insert(0, top)


def logins():
    """Yields each login of vectors/argon2_login.json, with the arguments of `argon2_proved.PasswordHasher` for it."""
    from argon2_proved import Algorithm, Bound

    with open(f"{ROOT}/vectors/argon2_login.json", encoding="utf-8") as it:
        groups = json.load(it)["testGroups"]
    for row in (row for group in groups for row in group["tests"]):
        wanted, most = row["wanted"], row["bound"]
        words = {name: bytes.fromhex(wanted[name]) for name in ("keyid", "data")}
        words |= {"secret": bytes.fromhex(row["secret"]), "algorithm": Algorithm[wanted["algorithm"][6:].upper()]}
        words |= {"old_secret": None if row["oldSecret"] is None else bytes.fromhex(row["oldSecret"])}
        words |= {"memory_cost": wanted["m"], "time_cost": wanted["t"], "parallelism": wanted["p"]}
        words |= {"version": wanted["version"], "hash_len": wanted["length"], "bound": Bound(*most.values(), min_hash_len=4)}
        yield {**row, "password": bytes.fromhex(row["password"])}, words


def without_random(folder):
    """Returns the environment of a program whose system gives no random bytes. The library of C for that is in a folder."""
    need("gcc", "cc")
    library = f"{folder}/without_random.so"
    text = "#include <errno.h>\n#include <sys/random.h>\n"
    text += "ssize_t getrandom(void *at, size_t n, unsigned flags) { return errno = ENOSYS, -1; }\n"
    execute(["cc", "-shared", "-fPIC", "-x", "c", "-", "-o", library], input=text, text=True, check=True)
    return {**os.environ, "LD_PRELOAD": library, "NO_RANDOM": "yes"}


def raised(error, call, *words):
    """Requires that a call raises an error, and returns the error."""
    try:
        found = call(*words)
    except error as it:
        return it
    return check(False, call, words, found)
