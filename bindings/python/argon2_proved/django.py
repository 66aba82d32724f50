"""Argon2 for Django's PASSWORD_HASHERS, with a secret key ("pepper"), and with bounds on the costs of hashes and on memory.

`argon2_proved.django.PasswordHasher` replaces Django's Argon2PasswordHasher. Its stored hashes have the same algorithm and the
same form. The setting ARGON2_PROVED is a dict of arguments of `argon2_proved.PasswordHasher`. If the dict lacks a cost, this uses
the cost of Django's class. Every other argument that the dict lacks has the default of `argon2_proved.PasswordHasher`.

`keyid` names the secret. If there is an `old_secret`, a stored hash with this `keyid` is verified under `secret`, and each other
stored hash is verified under `old_secret`. The `keyid` decides because Django asks whether a hash must be renewed before Django
verifies the password. An `old_secret` of no bytes is for hashes that were stored without a secret.
"""

from __future__ import annotations

import contextlib
import logging
from typing import Any

from django.conf import settings
from django.contrib.auth import hashers
from django.core.exceptions import ImproperlyConfigured
from django.core.signals import setting_changed
from django.dispatch import receiver
from django.utils.translation import gettext_noop as _

import argon2_proved

LOG = logging.getLogger(__name__)
# The most characters that Django's field for a stored hash holds.
ROOM = 128
COSTS = "memory_cost", "time_cost", "parallelism"


class PasswordHasher(hashers.BasePasswordHasher):
    """Makes and verifies stored hashes.

    If a stored hash is damaged or above the bound, it accepts no password, and this logs the reason.
    """

    algorithm = "argon2"

    def __init__(self) -> None:
        costs = {it: getattr(hashers.Argon2PasswordHasher, it) for it in COSTS}
        options = self._options = {**costs, **getattr(settings, "ARGON2_PROVED", {})}
        old_secret, secret = options.pop("old_secret", None), options.get("secret")
        if isinstance(secret, (bytes, bytearray, str)) and not secret:
            raise ImproperlyConfigured("ARGON2_PROVED: the secret is empty; leave it out to hash without a secret")
        try:
            self._new = argon2_proved.PasswordHasher(**options)
            # (the other hashers share the memory of this one)
            options.update(max_memory=self._new.memory, timeout=None)
            self._old = None if old_secret is None else argon2_proved.PasswordHasher(**{**options, "secret": old_secret})
        except (argon2_proved.Error, OverflowError, TypeError, ValueError) as error:
            raise ImproperlyConfigured(f"ARGON2_PROVED: {error}") from error
        if self._old and not self._new.keyid:
            raise ImproperlyConfigured("ARGON2_PROVED: an old_secret needs a keyid, which names the new secret")

    def encode(self, password: str | bytes, salt: str) -> str:
        """Returns the hash of a password and a salt of 8 to 48 bytes, to be stored."""
        encoded = self.algorithm + self._new.hash(password, salt=salt.encode())
        if len(encoded) > ROOM:
            why = f"a stored password has {len(encoded)} characters, and Django has room for {ROOM}"
            raise ImproperlyConfigured(f"ARGON2_PROVED: {why}: keyid, data or hash_len are too long")
        return encoded

    def decode(self, encoded: str) -> dict[str, Any]:
        """Returns what a stored hash shows. If it is damaged, this raises an `argon2_proved.Error`."""
        shown = argon2_proved.parse(self._text(encoded))
        return {
            "algorithm": self.algorithm,
            "variety": f"argon2{shown.algorithm.name.lower()}",
            "version": shown.version,
            "memory_cost": shown.memory_cost,
            "time_cost": shown.time_cost,
            "parallelism": shown.parallelism,
            "keyid": shown.keyid,
            "salt": shown.salt.decode("latin1"),
            "hash": encoded.rpartition("$")[2],
        }

    def verify(self, password: str | bytes, encoded: str) -> bool:
        """Returns whether a stored hash accepts a password. Without memory there is no answer, so this raises an error."""
        text = self._text(encoded)
        try:
            return self._hasher_of(text).verify(text, password)
        except (argon2_proved.Mismatch, ValueError):
            # (a ValueError is a password that has no bytes in UTF-8)
            return False
        except argon2_proved.Error as error:
            if error.name == "OUT_OF_MEMORY":
                raise
            LOG.error("a stored password is not verified: %s", error)
            return False

    def must_update(self, encoded: str) -> bool:
        """Returns whether a stored hash is weaker than new hashes, or has another keyid. A hash that costs more stays."""
        text = self._text(encoded)
        try:
            return self._new.is_weaker(text) or len(argon2_proved.parse(text).salt) * 8 < self.salt_entropy
        except argon2_proved.Error:
            # (this hash accepts no password, so nothing replaces it)
            return False

    def harden_runtime(self, password: str | bytes, encoded: str) -> None:
        """Does the work that a new hash needs beyond the work of a stored hash, after the stored hash has refused a password.

        Work is memory times passes. So the time of a refusal shows little about whose stored hash is weaker.
        """
        memory_cost, time_cost, parallelism = (self._options[it] for it in COSTS)
        with contextlib.suppress(argon2_proved.Error, argon2_proved.Busy, ValueError):
            shown = argon2_proved.parse(self._text(encoded))
            memory = memory_cost - shown.memory_cost * shown.time_cost // time_cost
            if memory >= 8 * parallelism:
                argon2_proved.PasswordHasher(**{**self._options, "memory_cost": memory}).hash(password)

    def safe_summary(self, encoded: str) -> dict[str, Any]:
        """Returns what Django's admin may show of a stored hash, under the names that Django's Argon2PasswordHasher uses."""
        shown = self.decode(encoded)
        return {
            _("algorithm"): shown["algorithm"],
            _("variety"): shown["variety"],
            _("version"): shown["version"],
            _("memory cost"): shown["memory_cost"],
            _("time cost"): shown["time_cost"],
            _("parallelism"): shown["parallelism"],
            _("salt"): hashers.mask_hash(shown["salt"]),
            _("hash"): hashers.mask_hash(shown["hash"]),
        }

    def _text(self, encoded: str) -> str:
        """Returns the PHC string in one of Django's stored hashes."""
        return encoded[len(self.algorithm) :]

    def _hasher_of(self, text: str) -> argon2_proved.PasswordHasher:
        """Returns the hasher with the secret of a stored hash."""
        is_new = self._old is None or argon2_proved.parse(text).keyid == self._new.keyid
        return self._new if is_new else self._old


@receiver(setting_changed)
def _reset_hashers(*, setting: str, **_more: Any) -> None:
    """Lets Django read ARGON2_PROVED again if a test overrides it, as Django does for PASSWORD_HASHERS."""
    if setting == "ARGON2_PROVED":
        hashers.reset_hashers(setting="PASSWORD_HASHERS")
