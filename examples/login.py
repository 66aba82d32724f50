"""Verifies a password by a hash that is stored under a secret key ("pepper"), within a bound, and renews the hash."""

import logging

from argon2_proved import Bound, Error, Mismatch, PasswordHasher

# A service reads its secret from a file that is not with the hashes.
HASHER = PasswordHasher(time_cost=2, memory_cost=19456, secret=b"the secret", bound=Bound(memory_cost=65536, time_cost=4))


def log_in(stored, password):
    """Returns the hash to store from now on if a stored hash accepts a password, else None.

    If the stored hash can't be verified, this logs the reason.
    """
    try:
        return HASHER.log_in(stored, password)
    except (Mismatch, ValueError):
        # (the password is wrong, or it has no bytes in UTF-8, which is a ValueError)
        return None
    except Error as error:
        logging.error("a stored hash is not verified: %s", error)
        return None


stored = HASHER.hash("correct horse")
print(stored)
print(log_in(stored, "correct horse") == stored, log_in(stored, "wrong horse") is not None)
