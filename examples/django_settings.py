"""Sets up a Django project for hashes of Argon2 under a secret key ("pepper"). The wheel must be installed.

Django makes new hashes by the first hasher. It verifies a stored hash by the hasher that made it, so a user whose hasher is not
in the list can't log in. This list contains all hashers of Django's own list, with the hasher of argon2_proved in the place of
Django's Argon2. Add each further hasher that made a hash in your database.
"""

import os
from pathlib import Path

from argon2_proved import Bound
from django.conf import global_settings

DJANGOS = "django.contrib.auth.hashers.Argon2PasswordHasher"
PASSWORD_HASHERS = ["argon2_proved.django.PasswordHasher", *(it for it in global_settings.PASSWORD_HASHERS if it != DJANGOS)]
ARGON2_PROVED = {
    # (systemd puts the file into this folder if the unit has a line LoadCredential=argon2_secret:PATH)
    "secret": Path(os.environ["CREDENTIALS_DIRECTORY"], "argon2_secret").read_bytes(),
    "keyid": b"1",
    # Hashes of Argon2 that were stored without a secret are verified without a secret, until their users have logged in.
    "old_secret": b"",
    # What new hashes cost, which is here the same as in Django's class, and what a stored hash may cost.
    "memory_cost": 102400,
    "time_cost": 2,
    "parallelism": 8,
    "bound": Bound(memory_cost=102400, time_cost=4, parallelism=8),
    # How many KiB all hashes of a process hold at once, and how many seconds a hash waits for its memory.
    "max_memory": 409600,
    "timeout": 10,
}
