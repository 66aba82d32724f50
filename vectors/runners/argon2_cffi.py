#!/usr/bin/env python3
"""Tries argon2-cffi on the tags and the stored texts: python3 argon2_cffi.py. It needs Debian's python3-argon2."""

import json
from collections import Counter
from pathlib import Path

from argon2.exceptions import VerificationError
from argon2.low_level import Type, core, ffi, verify_secret

TYPES = {"argon2d": Type.D, "argon2i": Type.I, "argon2id": Type.ID}


def tag(group, test):
    """Returns the tag in hexadecimal digits, or None. (Only the function `core` of the package accepts a secret and data.)"""
    out, kept = ffi.new("uint8_t[]", test["length"] or 1), []
    context = ffi.new("argon2_context *", {"out": out, "outlen": test["length"], "version": group["version"], "threads": 1})
    context.m_cost, context.t_cost, context.lanes = test["m"], test["t"], test["p"]
    for name, field in {"pwd": "password", "salt": "salt", "secret": "secret", "ad": "data"}.items():
        kept.append(ffi.from_buffer("uint8_t[]", bytes.fromhex(test[field])))
        setattr(context, name, kept[-1])
        setattr(context, name + "len", len(kept[-1]))
    return ffi.buffer(out, test["length"])[:].hex() if core(context, TYPES[group["algorithm"]].value) == 0 else None


def verified(test):
    try:
        kind = TYPES.get(test["text"][1:].split("$")[0], Type.ID)
        return verify_secret(test["text"].encode(), bytes.fromhex(test["password"]), kind) and "accepted"
    except VerificationError:
        return None


counts = Counter()
for file in ("argon2_hash", "argon2_verify"):
    groups = json.loads((Path(__file__).parent.parent / f"{file}.json").read_text())["testGroups"]
    for group, test in ((group, test) for group in groups for test in group["tests"]):
        if "text" in test:
            found, wanted = verified(test), "accepted" if test["result"] != "invalid" else None
        else:
            found, wanted = tag(group, test), test.get("tag")
        is_right = found == wanted or test["result"] == "acceptable" and found is None
        outcome = "skipped" if "text" in test and test["secret"] else "passed" if is_right else "failed"
        counts[outcome] += 1
        print(f"{file} {test['tcId']}: {found}\n" * (outcome == "failed"), end="")
print(f"{counts['passed']} passed, {counts['failed']} failed, {counts['skipped']} skipped")
