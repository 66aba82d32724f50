#!/usr/bin/env python3
"""Tries a library with the functions of argon2.h on the files: libargon2.py [LIBRARY], by default Debian's libargon2.so.1. If it
also has the logins of this project's argon2_phc.h, it is tried on these, too."""

import ctypes
import sys

from common import accepts, has_value, run

LIBRARY = ctypes.CDLL(sys.argv[1] if len(sys.argv) > 1 else "libargon2.so.1")
TYPES = {"argon2d": 0, "argon2i": 1, "argon2id": 2}
OK, OUT_OF_MEMORY, MISMATCH = 0, -22, -35


class Context(ctypes.Structure):
    """The `argon2_context` of argon2.h."""

    _fields_ = [
        *(
            field
            for name in ("out", "pwd", "salt", "secret", "ad")
            for field in ((name, ctypes.c_char_p), (name + "len", ctypes.c_uint32))
        ),
        *((name, ctypes.c_uint32) for name in ("t_cost", "m_cost", "lanes", "threads", "version")),
        *((name, ctypes.c_void_p) for name in ("allocate_cbk", "free_cbk")),
        ("flags", ctypes.c_uint32),
    ]


def has_tag(group, test):
    out = ctypes.create_string_buffer(test["length"] or 1)
    inputs = [bytes.fromhex(test[it]) for it in ("password", "salt", "secret", "data")]
    fields = [it for value in inputs for it in (value, len(value))]
    costs = [test[it] for it in ("t", "m", "p")]
    context = Context(ctypes.cast(out, ctypes.c_char_p), test["length"], *fields, *costs, 1, group["version"])
    code = LIBRARY.argon2_ctx(ctypes.byref(context), TYPES[group["algorithm"]])
    return has_value(test, None if code else out.raw[: test["length"]].hex())


def verified(text, password):
    """Returns the code of verifying a text. The caller names the algorithm, which is the beginning of the text."""
    kind = TYPES.get(text[1:].split("$")[0], TYPES["argon2id"])
    return LIBRARY.argon2_verify(text.encode(), password, ctypes.c_size_t(len(password)), kind)


def is_read(_, test):
    if test.get("m", 0) * test.get("t", 0) > 2**20:
        return None
    return accepts(test, verified(test["text"], b"") in (OK, OUT_OF_MEMORY, MISMATCH))


def is_accepted(_, test):
    # (argon2.h verifies no text under a secret)
    return None if test["secret"] else accepts(test, verified(test["text"], bytes.fromhex(test["password"])) == OK)


# ---- logins, by argon2_phc.h

CURRENT, RENEWED = 0, 1
CODES = {
    "WrongPassword": -35,
    "AlgorithmUnknown": -70,
    "VersionUnknown": -71,
    "WantedAboveBound": -75,
    "Grammar": -80,
    "MemoryInvalid": -81,
    "PassesInvalid": -82,
    "LanesInvalid": -83,
    "KeyidInvalid": -84,
    "DataInvalid": -85,
    "ParametersInvalid": -86,
    "Incomplete": -87,
    "AboveBound": -88,
}


class Wanted(ctypes.Structure):
    """The `argon2p_params` of argon2_phc.h."""

    _fields_ = [
        ("size", ctypes.c_size_t),
        *((name, ctypes.c_uint32) for name in ("algorithm", "version", "m_cost", "t_cost", "p_cost", "threads")),
        ("output_len", ctypes.c_size_t),
        *((name, ctypes.c_uint32) for name in ("has_output_len", "reserved")),
        *(
            field
            for name in ("secret", "data", "keyid")
            for field in ((name, ctypes.c_char_p), (name + "_len", ctypes.c_size_t))
        ),
    ]


class Verifier(ctypes.Structure):
    """The `argon2p_verifier` of argon2_phc.h."""

    _fields_ = [
        ("size", ctypes.c_size_t),
        *((name, ctypes.c_uint32) for name in ("m_cost", "t_cost", "p_cost", "min_output", "max_output", "threads")),
        *((name, ctypes.c_uint32) for name in ("has_old_secret", "reserved")),
        *(field for name in ("secret", "old_secret") for field in ((name, ctypes.c_char_p), (name + "_len", ctypes.c_size_t))),
    ]


def sized(value):
    return value, ctypes.c_size_t(len(value))


class Login:
    """A login with the wanted settings, the bound and the secrets of a test. Each function returns a code, and what it found."""

    def __init__(self, test):
        wanted, bound, secret = test["wanted"], test["bound"], bytes.fromhex(test["secret"])
        data, keyid = (bytes.fromhex(wanted[it]) for it in ("data", "keyid"))
        settings = (TYPES[wanted["algorithm"]], wanted["version"], wanted["m"], wanted["t"], wanted["p"], 0, wanted["length"], 1, 0)
        fields = [it for value in (secret, data, keyid) for it in (value, len(value))]
        self.wanted = Wanted(ctypes.sizeof(Wanted), *settings, *fields)
        old = [] if test["oldSecret"] is None else [bytes.fromhex(test["oldSecret"])]
        fields = [it for value in (secret, *old) for it in (value, len(value))]
        costs = (bound["m"], bound["t"], bound["p"])
        self.verifier = Verifier(ctypes.sizeof(Verifier), *costs, 4, 64, 0, len(old), 0, *fields)
        self.password = bytes.fromhex(test["password"])

    def verify(self, text):
        found = ctypes.c_int()
        code = LIBRARY.argon2p_verify(ctypes.byref(self.verifier), *sized(text), *sized(self.password), ctypes.byref(found))
        return code, "old secret" if found.value else "secret"

    def is_weaker(self, text):
        found = ctypes.c_int()
        code = LIBRARY.argon2p_is_weaker(ctypes.byref(self.wanted), *sized(text), ctypes.byref(found))
        return code, bool(found.value)

    def log_in(self, text):
        outcome, fresh = ctypes.c_int(), ctypes.create_string_buffer(327)
        inputs = (ctypes.byref(self.wanted), ctypes.byref(self.verifier), *sized(text), *sized(self.password))
        code = LIBRARY.argon2p_log_in(*inputs, fresh, ctypes.c_size_t(len(fresh)), ctypes.byref(outcome))
        return code, outcome.value, fresh.value


def logs_in(_, test):
    if not all(hasattr(LIBRARY, it) for it in ("argon2p_verify", "argon2p_is_weaker", "argon2p_log_in")):
        return None
    login, text = Login(test), test["text"].encode()
    code, weaker = login.is_weaker(text)
    if (None if code else weaker) != test.get("weaker"):
        return False
    code, outcome, fresh = login.log_in(text)
    if "reason" in test:
        return code == CODES[test["reason"]] and not fresh
    if (code, outcome) != (OK, RENEWED if test["due"] else CURRENT) or login.verify(text) != (OK, test["acceptedBy"]):
        return False
    return is_renewed(login, text, fresh) if test["due"] else not fresh


def is_renewed(login, text, fresh):
    """Returns whether a fresh hash has another salt, is accepted by the secret, and is as wanted."""
    is_other = fresh.split(b"$")[-2] != text.split(b"$")[-2]
    return is_other and login.verify(fresh) == (OK, "secret") and login.is_weaker(fresh) == (OK, False)


if __name__ == "__main__":
    run({"argon2_hash": has_tag, "phc_argon2": is_read, "argon2_verify": is_accepted, "argon2_login": logs_in})
