"""Logs users in, in a service over asyncio.

Hashes run in threads. Together they hold at most 256 MiB, and each waits for its memory at most five seconds.
"""

import asyncio
import logging

from argon2_proved import Bound, Busy, Error, Mismatch, PasswordHasher

# A service reads its secret key ("pepper") from a file that is not with the hashes.
HASHER = PasswordHasher(secret=b"the secret", bound=Bound(memory_cost=65536, time_cost=4), max_memory=262144, timeout=5)


async def log_in(stored, password):
    """Returns the hash to store from now on if a stored hash accepts a password, else None.

    A `Busy` means that too many logins wait. The user should try again later.
    """
    try:
        return await asyncio.to_thread(HASHER.log_in, stored, password)
    except (Mismatch, ValueError):
        return None
    except Error as error:
        logging.error("a stored hash is not verified: %s", error)
        return None


async def main():
    stored = await asyncio.to_thread(HASHER.hash, "correct horse")
    print(stored)
    right = await asyncio.gather(*(log_in(stored, "correct horse") for _ in range(20)), return_exceptions=True)
    wrong = await log_in(stored, "wrong horse")
    print(all(it == stored or isinstance(it, Busy) for it in right), wrong is not None)


asyncio.run(main())
