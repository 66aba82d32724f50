"""Hashes and verifies with Debian's python3-argon2, and prints the files of libargon2 that the process has mapped.

The status is 0 only if each answer is right.
"""

from argon2 import PasswordHasher, Type, exceptions, low_level

hasher = PasswordHasher(time_cost=2, memory_cost=1024, parallelism=8)
text = hasher.hash("correct horse")
assert hasher.verify(text, "correct horse") and not hasher.check_needs_rehash(text)
try:
    hasher.verify(text, "wrong")
except exceptions.VerifyMismatchError:
    pass
else:
    raise SystemExit("a wrong password is accepted")
# (the tag is from the reference's test.c)
tag = low_level.hash_secret_raw(b"password", b"somesalt", 2, 256, 2, 32, Type.ID)
assert tag.hex() == "6d093c501fd5999645e0ea3bf620d7b8be7fd2db59c20d9fff9539da2bf57037"
long = low_level.hash_secret(b"password", b"somesalt" * 8, 2, 256, 2, 128, Type.ID)
assert low_level.verify_secret(long, b"password", Type.ID)
print(text)
with open("/proc/self/maps", encoding="utf-8") as maps:
    print("mapped:", sorted({line.split()[-1] for line in maps if "libargon2" in line}))
