"""Hashes a password and verifies it, by Debian's python3-argon2."""

import argon2

HASHER = argon2.PasswordHasher(time_cost=2, memory_cost=19456, parallelism=1, hash_len=32)


def accepts(stored, password):
    """Returns whether a stored hash accepts a password."""
    try:
        return HASHER.verify(stored, password)
    except argon2.exceptions.VerifyMismatchError:
        return False


stored = HASHER.hash("correct horse")
print(stored)
print(accepts(stored, "correct horse"), accepts(stored, "wrong horse"))
