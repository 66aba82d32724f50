"""Hashes three times with `PasswordHasher().hash`, and prints the costs and the least seconds of a hash.

  hashing.py [FOLDER]     FOLDER is an unpacked wheel, whose binding replaces Debian's
"""

import importlib
import sys
import time

if sys.argv[1:]:
    sys.path.insert(0, sys.argv[1])
    sys.modules["argon2._ffi"] = importlib.import_module("_argon2_cffi_bindings")
import argon2

hasher, least = argon2.PasswordHasher(), float("inf")
for _ in range(3):
    start = time.perf_counter()
    text = hasher.hash("correct horse")
    least = min(least, time.perf_counter() - start)
print(text.split("$")[3], least)
