#!/usr/bin/env python3
"""Tries a program that reads a line for each request, as ../programs/README.md says: lines.py COMMAND [WORD..]."""

import subprocess
import sys

from common import accepts, cases, has_value, run


def word(value):
    return value or "-" if isinstance(value, str) else str(value)


def requests(name, group, test):
    """Yields the words of each line for a test."""
    if name == "argon2_hash":
        names = ("m", "t", "p", "password", "salt", "secret", "data")
        yield ["hash", test["length"], group["algorithm"], group["version"], *(test[it] for it in names)]
    elif name == "argon2_verify":
        yield ["verify", test["text"].encode().hex(), test["password"], test["secret"]]
    elif name == "argon2_login":
        wanted = [test["wanted"][it] for it in ("algorithm", "version", "m", "t", "p", "length", "keyid", "data")]
        bound = [test["bound"][it] for it in ("m", "t", "p")]
        text, old_secret = test["text"].encode().hex(), "none" if test["oldSecret"] is None else test["oldSecret"]
        yield ["login", *wanted, *bound, test["secret"], old_secret, text, test["password"]]
        if "weaker" in test:
            yield ["weaker", *wanted, text]
    else:
        yield ["blake2b" if name == "blake2b" else "long", test["length"], test["message"]]


NAMES = ("argon2_hash", "argon2_long_hash", "blake2b", "argon2_verify", "argon2_login")
REQUESTS = [it for name in NAMES for both in cases(name) for it in requests(name, *both)]
GIVEN = "".join(" ".join(map(word, it)) + "\n" for it in REQUESTS)
ANSWERS = iter(subprocess.run(sys.argv[1:], input=GIVEN, stdout=subprocess.PIPE, text=True, check=True).stdout.splitlines())


def is_login(test, answer, is_weaker):
    """Returns whether a test allows these answers to its requests. The second answer is None if there is no second request."""
    if "weaker" in test and is_weaker != str(test["weaker"]).lower():
        return False
    if test["result"] == "invalid":
        return answer.startswith("refused:")
    return answer == ("renewed" if test["due"] else "current")


def is_right(_, test):
    """Returns whether the next answers are the answers of a test. The program answers in the order of the requests."""
    answer = next(ANSWERS)
    is_weaker = next(ANSWERS) if "weaker" in test else None
    if answer == "unknown":
        return None
    if "wanted" in test:
        return is_login(test, answer, is_weaker)
    if "text" in test:
        return accepts(test, answer == "accepted")
    return has_value(test, None if answer.startswith("refused:") else answer)


run(dict.fromkeys(NAMES, is_right))
