"""What the runners share: the cases of a file, and the lines for the cases to which a program gives another answer."""

import json
import os
import sys

FOLDER = os.path.join(os.path.dirname(os.path.realpath(__file__)), "..")


def cases(name):
    """Returns the tests of a file, each with its group."""
    with open(f"{FOLDER}/{name}.json", encoding="utf-8") as file:
        return [(group, test) for group in json.load(file)["testGroups"] for test in group["tests"]]


def run(answers):
    """Tries a program on all cases of some files. `answers` has a function for the name of each file. The function gets a group
    and a test, and returns whether the program answers as the test says, or None if the program can't answer. Prints each case
    that failed, and last 'N passed, M failed, K skipped'. The status is 1 if a case failed."""
    passed = failed = skipped = 0
    for name, answer in answers.items():
        for group, test in cases(name):
            is_right = answer(group, test)
            passed += is_right is True
            failed += is_right is False
            skipped += is_right is None
            if is_right is False:
                print(f"{name} {test['tcId']}: {test['comment']}", flush=True)
    print(f"{passed} passed, {failed} failed, {skipped} skipped")
    sys.exit(1 if failed else 0)


def has_value(test, found):
    """Returns whether a test allows a value, in hexadecimal digits. `found` is None if the program refuses."""
    wanted = next((test[it] for it in ("tag", "hash", "digest") if it in test), None)
    return found == wanted or found is None and test["result"] == "acceptable"


def accepts(test, found):
    """Returns whether a test allows that a program accepts a text, or that it does not. `found` is whether it accepts."""
    return found == (test["result"] != "invalid") or not found and test["result"] == "acceptable"
