#!/usr/bin/env python3
"""Tries random logins on a library with argon2_phc.h: random_logins.py LIBRARY [COUNT]. The wanted settings, the bound and the
stored hash of each login are those of a case of argon2_login.json, of which some are changed. The answers are from the rule in
../making/logins.py. No tag is computed for them, so a password that a changed login may accept is changed, too. The same logins are
tried each time."""

import os
import random
import sys

from common import FOLDER, cases
from libargon2 import CODES, CURRENT, OK, RENEWED, Login

sys.path.insert(0, os.path.join(FOLDER, "making"))
from logins import answer, refusal  # noqa: E402

COUNT = int(sys.argv[2]) if len(sys.argv) > 2 else 5000
TESTS = [test for _, test in cases("argon2_login")]
CHOSEN = random.Random(1)
# What a wanted setting can be changed to.
SETTINGS = {
    "algorithm": ["argon2d", "argon2i", "argon2id"],
    "version": [16, 19],
    "m": [16, 31, 32, 33, 64],
    "t": [1, 2, 3, 4],
    "p": [1],
    "keyid": ["", "00", "6b6579", "6b6579" * 2],
    "data": ["", "64617461", "64617462"],
    "length": [4, 16, 31, 32, 33, 64],
}


def changed_text(text):
    """A stored hash of which one character is another, is missing or stands twice, or a field is that of another stored hash."""
    if CHOSEN.random() < 0.3:
        fields, others = text.split("$"), CHOSEN.choice(TESTS)["text"].split("$")
        at = CHOSEN.randrange(len(fields))
        return "$".join(fields[:at] + others[at : at + 1] + fields[at + 1 :])
    at = CHOSEN.randrange(len(text) + 1)
    return text[:at] + CHOSEN.choice(["", text[at : at + 1] * 2, *"0129$=,vmtpAz/"]) + text[at + 1 :]


def changed(test):
    """A login, and whether its stored hash has another text."""
    login = {**test, "wanted": {**test["wanted"]}, "bound": {**test["bound"]}}
    for name in CHOSEN.sample([*SETTINGS], CHOSEN.randrange(3)):
        login["wanted"][name] = CHOSEN.choice(SETTINGS[name])
    if CHOSEN.random() < 0.2:
        login["bound"][CHOSEN.choice(("m", "t", "p"))] -= 1
    if CHOSEN.random() < 0.5:
        login["text"] = changed_text(test["text"])
    return login, login["text"] != test["text"]


def in_bytes(login):
    """The login as ../making/logins.py reads it."""
    wanted = login["wanted"]
    return {**login, "wanted": {**wanted, "keyid": bytes.fromhex(wanted["keyid"]), "data": bytes.fromhex(wanted["data"])}}


def is_right(test):
    """Whether the library answers a changed login as the rule does."""
    login, is_changed = changed(test)
    if is_changed:
        login["password"] = "00" * 65
    # (the secret that accepts the stored hash of the case accepts it under any wanted settings within the bound)
    accepted_by = None if is_changed else test.get("acceptedBy") or accepted(test)
    wanted, text = answer(in_bytes(login), accepted_by), login["text"].encode()
    call = Login(login)
    code, weaker = call.is_weaker(text)
    if (None if code else weaker) != wanted["weaker"]:
        return False
    code, outcome, fresh = call.log_in(text)
    if "reason" in wanted:
        return code == CODES[wanted["reason"]] and not fresh
    return (code, outcome) == (OK, RENEWED if wanted["due"] else CURRENT) and bool(fresh) == wanted["due"]


def accepted(test):
    """The secret that accepts the stored hash of a case whose own bound refuses it, as argon2p_verify finds within another bound."""
    if refusal(in_bytes(test)) in (None, "AboveBound", "WantedAboveBound"):
        code, by = Login({**test, "bound": {"m": 2**20, "t": 2**10, "p": 2**10}}).verify(test["text"].encode())
        return by if code == OK else None
    return None


failed = 0
for number in range(COUNT):
    test = TESTS[number % len(TESTS)]
    if not is_right(test):
        failed += 1
        print(f"login {number}, of case {test['tcId']}: {test['comment']}", flush=True)
print(f"{COUNT - failed} passed, {failed} failed")
sys.exit(1 if failed else 0)
