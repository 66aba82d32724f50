#!/usr/bin/env python3
"""Tries the crates on the files: calls.py PROGRAM. PROGRAM reads lines of the table of tests, and each case becomes such lines."""

import base64
import re
import subprocess
import sys

from common import cases

ERRORS = {
    "Grammar": "EncodingInvalid",
    "Incomplete": "PasswordInvalid",
    "WrongPassword": "PasswordInvalid",
    "ParametersInvalid": "ParamsInvalid",
    "KeyidInvalid": 'ParamInvalid { name: "keyid" }',
    "DataInvalid": 'ParamInvalid { name: "data" }',
    "MemoryInvalid": 'ParamInvalid { name: "m" }',
    "PassesInvalid": 'ParamInvalid { name: "t" }',
    "LanesInvalid": 'ParamInvalid { name: "p" }',
    "AlgorithmUnknown": "Algorithm",
    "VersionUnknown": "Version",
    # (for hashes)
    "LanesTooFew": "ThreadsTooFew",
    "LanesTooMany": "ThreadsTooMany",
    "PassesTooFew": "TimeTooSmall",
}


def word(value):
    """Returns bytes, which are given in hexadecimal digits, as a word of the table."""
    return f"1*{value}" if value else "0*"


def text_word(text):
    return word(text.encode().hex())


def hash_lines(number, group, test):
    """Returns the lines of a tag. The tag gets its own context, and the call gets the associated data, of any length."""
    settings = f"{group['algorithm']} {group['version']} {test['m']} {test['t']} {test['p']} none secret={word(test['secret'])}"
    reason = test.get("reason")
    if reason == "VersionUnknown":
        return [f"context c{number} {settings} = VersionInvalid"]
    if reason and reason != "OutputTooShort":
        return [f"context c{number} {settings} = {ERRORS.get(reason, reason)}"]
    # (the crate refuses a salt below 8 bytes, as the reference implementation does)
    refused = reason or ("SaltTooShort" if "ShortSalt" in test["flags"] else None)
    answer = f"{refused} same" if refused else test["tag"]
    inputs = f"{word(test['password'])} {word(test['salt'])} {test['length']} {word(test['data'])}"
    return [f"context c{number} {settings} = Ok", f"hash_password_into_with_data c{number} {inputs} = {answer}"]


def base64_of(digits):
    return base64.b64encode(bytes.fromhex(digits)).decode().rstrip("=")


def text_line(test):
    """Returns the line of a text. The answer of the call is what the text says."""
    call = f"Stored::try_from {text_word(test['text'])}"
    if "reason" in test:
        return f"{call} = {ERRORS[test['reason']]}"
    costs = [f"{name}={test[name]}" for name in ("m", "t", "p")]
    costs += [f"{name}={base64_of(test[name])}" for name in ("keyid", "data") if test[name]]
    shown = f"{test['algorithm']} {test['version']} {','.join(costs)} {len(test['hash']) // 2}"
    return f"{call} = {shown} {base64_of(test['salt'])} {base64_of(test['hash'])}"


def verify_lines(number, test):
    context = f"v{number}"
    call = f"verify_password {context} {word(test['password'])} {text_word(test['text'])}"
    answer = ERRORS[test["reason"]] if "reason" in test else "Ok"
    return [f"context {context} argon2id 19 8 1 1 none secret={word(test['secret'])} = Ok", f"{call} = {answer}"]


def context_line(name, wanted, secret):
    """Returns the line that makes a context of wanted settings and a secret."""
    costs = " ".join(str(wanted[it]) for it in ("m", "t", "p", "length"))
    options = [f"{it}={word(wanted[it])}" for it in ("keyid", "data") if wanted[it]] + [f"secret={word(secret)}"]
    return f"context {name} {wanted['algorithm']} {wanted['version']} {costs} {' '.join(options)} = Ok"


# The salt that is drawn has 16 bytes 02.
DRAWN = "4*02+4*00"
RENEWED = re.compile(r"Rehashed drawn 16 (\$\S+)")


class Logins:
    """The logins that the lines of cases make. A login that renews the stored hash has no answer yet."""

    def __init__(self, tests):
        self.lines, self.renewing = [], []
        for test in tests:
            self.add_case(test)

    def add_case(self, test):
        number, old = test["tcId"], test["oldSecret"]
        bound = " ".join(str(test["bound"][it]) for it in ("m", "t", "p"))
        policy, old_policy = f"l{number} {bound}", f"o{number} {bound}"
        self.lines.append(context_line(f"l{number}", test["wanted"], test["secret"]))
        reason, text = test.get("reason"), test["text"]
        if reason == "WantedAboveBound":
            self.lines.append(f"Policy::new {policy} = TooExpensive")
        elif reason == "Grammar" and (text != text.strip() or not text):
            # (a line writes the text of a login as one word)
            self.lines.append(f"verify_password l{number} {word(test['password'])} {text_word(text)} = {ERRORS[reason]}")
        elif reason:
            answer = "TooExpensive drawn 0" if reason == "AboveBound" else f"Refused({ERRORS[reason]}) drawn 0"
            self.add(test, policy, old, answer=answer)
        else:
            self.add(test, policy, old, is_due=test["due"])
            if test["acceptedBy"] == "old secret":
                self.add(test, policy, None, answer=f"Refused({ERRORS['WrongPassword']}) drawn 0")
                # (a login under the old secret renews the hash if and only if the hash is weaker)
                self.lines.append(context_line(f"o{number}", test["wanted"], old))
                self.add(test, old_policy, None, is_due=test["weaker"])

    def add(self, test, policy, old, is_due=False, answer="Current drawn 0 none"):
        name = "Policy::log_in" if old is None else "Policy::with_old_secret"
        words = [name, policy, *([] if old is None else [word(old)]), DRAWN, word(test["password"])]
        if is_due:
            self.renewing.append((f"{' '.join(words)} {test['text']}", f"Policy::log_in {policy} {' '.join(words[-2:])}"))
        else:
            self.lines.append(f"{' '.join(words)} {test['text']} = {answer}")

    def all_lines(self):
        """Returns all lines. A fresh hash has to be current at the next login, which does not get the old secret."""
        asked = [it for it in self.lines if it.startswith("context ")] + [call for call, _ in self.renewing]
        found = dict(it.split(" = ", 1) for it in run(asked) if " = " in it)
        lines = [*self.lines]
        for call, again in self.renewing:
            fresh = RENEWED.fullmatch(found[call])
            lines.append(f"{call} = {fresh[0] if fresh else 'Rehashed'}")
            lines += [f"{again} {fresh[1]} = Current drawn 0 none"] if fresh else []
        return lines


def run(lines):
    """Returns the lines that the program prints."""
    given = "".join(f"{it}\n" for it in lines)
    return subprocess.run(sys.argv[1:], input=given, stdout=subprocess.PIPE, text=True, check=True).stdout.splitlines()


lines = [line for group, test in cases("argon2_hash") for line in hash_lines(test["tcId"], group, test)]
lines += [f"blake2b_long {test['length']} {word(test['message'])} 128 = {test['hash']}" for _, test in cases("argon2_long_hash")]
lines += [f"Blake2b {test['length']} {word(test['message'])} 128 = {test['digest']}" for _, test in cases("blake2b")]
lines += [text_line(test) for _, test in cases("phc_argon2")]
lines += [line for _, test in cases("argon2_verify") for line in verify_lines(test["tcId"], test)]
lines += Logins(test for _, test in cases("argon2_login")).all_lines()
*wrong, last = run(lines)
print("".join(f"{it}\n" for it in wrong), end="")
right, _, number, _ = last.replace(",", "").split(" ")
print(f"{right} passed, {number} failed, 0 skipped")
sys.exit(1 if int(number) or int(right) != len(lines) else 0)
