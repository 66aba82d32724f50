"""Makes and verifies stored hashes under a secret and within a bound, by the functions of
argon2_phc.h.

A `PasswordHasher` contains the parameters of new stored hashes, the secret key ("pepper"), and the
bound on the stored hashes that it accepts. A stored hash is a PHC string in a str, and its last
field is the tag. Each argument `text` is a stored hash. A password is bytes, or a str, which means
its bytes in UTF-8.

    from argon2_proved import Mismatch, PasswordHasher

    hasher = PasswordHasher(secret=secret)
    stored = hasher.hash(password)
    try:
        stored = hasher.log_in(stored, password)  # store this from now on
    except Mismatch:
        ...  # the password is wrong

If the library refuses a call, it raises an `Error`, whose `name` is the reason. Each function lists
the names in the order in which it looks for them. A str that has no bytes in UTF-8 is a
`ValueError`, which does not hold the str. A number that is negative or too large for the library is
an `OverflowError`, and a password or a number of a wrong type is a `TypeError`. An empty password is
hashed and verified like any other. Several threads may use an object at once. Other threads run
while a hash is made, and `max_memory` bounds how much memory their hashes hold at once.
"""

from __future__ import annotations

from contextlib import nullcontext
from dataclasses import dataclass
from enum import IntEnum
from typing import Any, ContextManager

from _argon2_cffi_bindings import ffi as _ffi
from _argon2_cffi_bindings import lib as _lib

from ._memory import Busy, Memory

__all__ = ["Algorithm", "Bound", "Busy", "Error", "Memory", "Mismatch", "Parsed", "PasswordHasher", "Renewal", "parse"]

_CODES = _ffi.typeof("argon2p_code").elements


class Error(Exception):
    """The library refused a call.

    code: the negative number of the reason, as in argon2_phc.h
    name: the name of the code without ARGON2P_, such as "ABOVE_BOUND"

    str() gives the name and a message. An Error holds neither a password nor a secret.
    """

    def __init__(self, code: int) -> None:
        super().__init__(code)
        self.code = code
        self.name: str = _CODES[code].replace("ARGON2P_", "")

    def __str__(self) -> str:
        return f"{self.name}: {_ffi.string(_lib.argon2p_error_message(self.code)).decode()}"


class Mismatch(Error):
    """The stored hash does not accept the password: the Error with the name "MISMATCH"."""


class Algorithm(IntEnum):
    """The variant of Argon2. `ID` (Argon2id) is for passwords; `I` is Argon2i, and `D` is Argon2d."""

    D = 0
    I = 1  # noqa: E741
    ID = 2


class Renewal(IntEnum):
    """Whether a stored hash has other parameters than new hashes. `CURRENT` is false, and the others
    are true.

    CURRENT: it has the same algorithm, version, costs, key identifier, data and length of the tag
    OTHER: it has other parameters, and none of them is below the wanted ones
    BELOW: its memory, passes, lanes, version or length of the tag is below the wanted ones
    """

    CURRENT = 0
    OTHER = 1
    BELOW = 2


@dataclass(frozen=True)
class Bound:
    """The most that verifying a stored hash may cost, and the lengths of its tag.

    memory_cost: the most memory in KiB
    time_cost: the most passes
    parallelism: the most lanes
    min_hash_len, max_hash_len: the fewest and the most bytes of the tag

    The default is the bound of argon2_phc.h: 2 GiB, 64 passes, 64 lanes, and a tag of 16 to 64 bytes.
    The most expensive stored hash within it needs half a minute of a processor or more. It needs twice
    that time if an old secret is tried. A service sets what its own stored hashes need.
    """

    memory_cost: int = _lib.ARGON2P_BOUND_MEMORY
    time_cost: int = _lib.ARGON2P_BOUND_PASSES
    parallelism: int = _lib.ARGON2P_BOUND_LANES
    min_hash_len: int = _lib.ARGON2P_BOUND_MIN_OUTPUT
    max_hash_len: int = _lib.ARGON2P_BOUND_MAX_OUTPUT


@dataclass(frozen=True)
class Parsed:
    """What a stored hash shows.

    algorithm: the variant
    version: 16 or 19, and 16 if the stored hash shows no version
    memory_cost: the memory in KiB
    time_cost: the passes
    parallelism: the lanes
    keyid: the key identifier, at most 8 bytes
    data: the associated data, at most 32 bytes
    salt: the bytes of the salt, or no bytes if the stored hash has no salt
    hash: the bytes of the tag, or no bytes if the stored hash has no tag
    """

    algorithm: Algorithm
    version: int
    memory_cost: int
    time_cost: int
    parallelism: int
    keyid: bytes
    data: bytes
    salt: bytes
    hash: bytes


def _must(code: int) -> None:
    """Raises the error of a code, unless it is ARGON2P_OK."""
    if code == _lib.ARGON2P_MISMATCH:
        raise Mismatch(code)
    if code:
        raise Error(code)


def _bytes_of(value: str | bytes) -> bytes:
    """Returns the bytes of a value, which are UTF-8 if it is a str. They are a copy of bytes that can change."""
    if not isinstance(value, str):
        return bytes(memoryview(value))
    try:
        return value.encode()
    except UnicodeEncodeError:
        # (this error holds the value, which may be a password, so the error that is raised has no context either)
        pass
    raise ValueError("a str with half of a pair of surrogates has no bytes in UTF-8")


def _buffer(value: str | bytes) -> Any:
    """Returns a buffer with the bytes of a value, which stay as long as the buffer. Only the bytes of a str are copied."""
    return _ffi.from_buffer(_bytes_of(value) if isinstance(value, str) else value)


def _text(value: str) -> Any:
    """Returns a buffer with a stored hash. The library refuses every character that is not ASCII."""
    if not isinstance(value, str):
        raise TypeError(f"a stored hash is a str, and not {type(value).__name__}")
    return _buffer(value.encode("utf-8", "surrogatepass"))


def _structure(kind: str, **members: Any) -> Any:
    """Returns a structure of C, which contains its own size."""
    return _ffi.new(f"{kind} *", {"size": _ffi.sizeof(kind), **members})


def parse(text: str) -> Parsed:
    """Returns what a stored hash shows. Nothing is hashed.

    text: the stored hash

    Error: TEXT_INVALID; TEXT_MEMORY, TEXT_PASSES, TEXT_LANES, TEXT_KEYID, TEXT_DATA or
        TEXT_PARAMETERS, by the first parameter that is wrong; ALGORITHM; VERSION
    """
    given, shown = _text(text), _structure("argon2p_shown")
    _must(_lib.argon2p_parse(given, len(given), shown))
    costs = shown.m_cost, shown.t_cost, shown.p_cost
    fields = (bytes(getattr(shown, it))[: getattr(shown, f"{it}_len")] for it in ("keyid", "data", "salt", "output"))
    return Parsed(Algorithm(shown.algorithm), shown.version, *costs, *fields)


class PasswordHasher:
    """Makes and verifies stored hashes. The costs have the names and the order of argon2-cffi's class.

    time_cost: the passes of new stored hashes, at least 1
    memory_cost: their memory in KiB, at least 8 for each lane
    parallelism: their lanes, from 1 to 16777215, which change the tag
    hash_len: the bytes of their tag, from 4 to 64
    algorithm: their variant
    version: their version, 19 (0x13) or 16 (0x10)
    secret: the secret key, which enters each tag, and which no stored hash shows
    old_secret: a secret key, or None. If a stored hash does not accept the password under the secret,
        it is tried under the old secret. An old secret of no bytes accepts stored hashes without a
        secret
    keyid: a key identifier of at most 8 bytes, for example of the secret. New stored hashes show it
    data: associated data of at most 32 bytes, which enters the tag of new stored hashes, and which
        they show
    bound: what verifying a stored hash may cost. New stored hashes must be within it
    threads: the most threads that fill the lanes of a hash; 0 is as many as lanes. They do not
        change the tag
    max_memory: the most KiB that the hashes of this object hold at once, in all threads, or a
        `Memory`, which bounds the hashes of several objects together. A hash waits until there is
        room for it, in the order of asking. A stored hash that asks for more than this is
        ABOVE_BOUND
    timeout: the seconds after which a hash that waits is `Busy`. If this is None, a hash waits for
        any time. (A `Memory` has a timeout of its own)

    Secrets, the key identifier and the data are copied, so the caller may clear what it gave. The
    copies stay as long as this object. The attribute `keyid` is the bytes of the key identifier, and
    `memory` is the `Memory` of max_memory, or None.

    Error: WANTED_OUT_OF_BOUND (new stored hashes would be outside the bound or need more than
        max_memory); MEMORY_TOO_LITTLE; LANES_TOO_FEW; LANES_TOO_MANY; PASSES_TOO_FEW;
        OUTPUT_TOO_SHORT (a hash_len below 4); OUTPUT_TOO_LONG (above 64); KEYID_TOO_LONG;
        DATA_TOO_LONG; ALGORITHM; VERSION; SECRET_TOO_LONG
    ValueError: a timeout without a max_memory in KiB
    """

    def __init__(
        self,
        time_cost: int = 2,
        memory_cost: int = 19456,
        parallelism: int = 1,
        hash_len: int = 32,
        *,
        algorithm: Algorithm = Algorithm.ID,
        version: int = 0x13,
        secret: str | bytes = b"",
        old_secret: str | bytes | None = None,
        keyid: str | bytes = b"",
        data: str | bytes = b"",
        bound: Bound = Bound(),
        threads: int = 0,
        max_memory: int | Memory | None = None,
        timeout: float | None = None,
    ) -> None:
        if max_memory is None or isinstance(max_memory, Memory):
            if timeout is not None:
                raise ValueError("timeout is only for hashes that wait, with a max_memory in KiB")
            self.memory = max_memory
        else:
            self.memory = Memory(max_memory, timeout)
        most = bound.memory_cost if self.memory is None else min(bound.memory_cost, self.memory.limit)
        # (these are copies, so they stay if the caller clears or changes the arguments)
        values = [_bytes_of(it) for it in (secret, b"" if old_secret is None else old_secret, keyid, data)]
        # (the structures of C point to these buffers, so they are kept)
        self._held = [_buffer(it) for it in values]
        key, old, name, more = self._held
        self._params = _structure(
            "argon2p_params", algorithm=algorithm, version=version, m_cost=memory_cost, t_cost=time_cost, p_cost=parallelism,
            threads=threads, output_len=hash_len, has_output_len=1, secret=key, secret_len=len(key), keyid=name,
            keyid_len=len(name), data=more, data_len=len(more),
        )  # fmt: skip
        self._verifier = _structure(
            "argon2p_verifier", m_cost=most, t_cost=bound.time_cost, p_cost=bound.parallelism, threads=threads,
            min_output=bound.min_hash_len, max_output=bound.max_hash_len, has_old_secret=old_secret is not None, secret=key,
            secret_len=len(key), old_secret=_ffi.NULL if old_secret is None else old, old_secret_len=len(old),
        )  # fmt: skip
        self.keyid = values[2]
        # (a login looks for what is wrong with these structures before it reads the stored hash, which here has no characters)
        code, _ = self._log_in(_buffer(""), _buffer(""))
        if code != _lib.ARGON2P_TEXT_INVALID:
            _must(code)

    def hash(self, password: str | bytes, *, salt: bytes | None = None) -> str:
        """Returns the hash of a password, to be stored.

        password: at most 4294967295 bytes
        salt: 8 to 48 bytes; if it is None, the system draws 16 bytes

        Busy: there was no room for the hash within the timeout
        Error: SALT_TOO_SHORT; SALT_TOO_LONG; PASSWORD_TOO_LONG; NO_RANDOM; OUT_OF_MEMORY
        """
        given, text = _buffer(password), _ffi.new("char[]", _lib.ARGON2P_TEXT_SIZE)
        # (a value can have more bytes than items; an empty salt has an address too, so that the library draws none in its place)
        start = _ffi.from_buffer(b"" if salt is None else _bytes_of(salt))
        place = _ffi.NULL if salt is None else start
        with self._lent(self._params.m_cost):
            _must(_lib.argon2p_hash(self._params, given, len(given), place, len(start), text, len(text)))
        made: bytes = _ffi.string(text)
        return made.decode()

    def verify(self, text: str, password: str | bytes) -> bool:
        """Returns True if a stored hash accepts a password under the secret or the old secret. It
        never returns False.

        text: the stored hash
        password: at most 4294967295 bytes

        Busy: there was no room for the hash within the timeout. A stored hash that can't be read or
            is above the bound is refused without a wait
        Error: TEXT_INVALID; TEXT_MEMORY, TEXT_PASSES, TEXT_LANES, TEXT_KEYID, TEXT_DATA or
            TEXT_PARAMETERS, by the first parameter that is wrong; ABOVE_BOUND; TEXT_INCOMPLETE;
            ALGORITHM; VERSION; OUTPUT_OUT_OF_BOUND; PASSWORD_TOO_LONG; SECRET_TOO_LONG;
            OUT_OF_MEMORY; and last `Mismatch`
        """
        stored, given = _text(text), _buffer(password)
        with self._lent(self._needed(stored)):
            _must(_lib.argon2p_verify(self._verifier, stored, len(stored), given, len(given), _ffi.NULL))
        return True

    def log_in(self, text: str, password: str | bytes) -> str:
        """Verifies a password, and returns the stored hash to store from now on.

        This is a new hash if `text` accepted the password only under the old secret, or is weaker
        than new hashes (`is_weaker`). Otherwise it is `text`. It is also `text` if the system refuses
        memory or random bytes for a new hash. The next login tries again.

        text, password: as in `verify`, which also lists the errors

        Busy: there was no room, within the timeout, for the stored hash or for a new hash, whichever
            needs more. The password was not verified
        Error: as in `verify`
        """
        stored, given = _text(text), _buffer(password)
        # (a stored hash with less memory than new hashes is weaker, so a login by it also makes a new hash)
        with self._lent(self._needed(stored, self._params.m_cost)):
            code, fresh = self._log_in(stored, given)
        _must(code)
        return fresh or text

    def is_weaker(self, text: str) -> bool:
        """Returns whether a stored hash is weaker than new hashes.

        It is weaker if it has another algorithm, version, key identifier or data, a lower cost, or
        a shorter tag. Higher costs and a longer tag do not count.

        text: the stored hash

        Error: as in `parse`
        """
        return bool(self._compared(_lib.argon2p_is_weaker, text))

    def needs_rehash(self, text: str) -> Renewal:
        """Returns whether a stored hash shows other parameters than new hashes. A stored hash does not
        show its secret.

        text: the stored hash

        Error: as in `parse`
        """
        return Renewal(self._compared(_lib.argon2p_needs_rehash, text))

    def tag(self, password: str | bytes, salt: bytes, length: int | None = None) -> bytes:
        """Returns only a tag, for example as a key.

        password: at most 4294967295 bytes
        salt: 8 to 4294967295 bytes
        length: the bytes of the tag, from 4 to 4294967295; if it is None, they are `hash_len`

        Busy: there was no room for the hash within the timeout
        Error: OUTPUT_TOO_SHORT; OUTPUT_TOO_LONG; PASSWORD_TOO_LONG; SALT_TOO_SHORT; SALT_TOO_LONG;
            OUT_OF_MEMORY
        """
        params = _ffi.new("argon2p_params *", self._params[0])
        if length is not None:
            params.output_len = length
        given, start, out = _buffer(password), _buffer(salt), bytearray(params.output_len)
        with self._lent(params.m_cost):
            code = _lib.argon2p_hash_into(params, given, len(given), start, len(start), _buffer(out), len(out), _ffi.NULL, 0)
        _must(code)
        return bytes(out)

    def _log_in(self, stored: Any, given: Any) -> tuple[int, str]:
        """Returns the code of a login, and the new hash, which is empty if there is none."""
        fresh = _ffi.new("char[]", _lib.ARGON2P_TEXT_SIZE)
        words = stored, len(stored), given, len(given), fresh, len(fresh), _ffi.new("int *")
        code: int = _lib.argon2p_log_in(self._params, self._verifier, *words)
        return code, _ffi.string(fresh).decode()

    def _compared(self, call: Any, text: str) -> int:
        """Returns the answer of a call that compares a stored hash with new hashes."""
        stored, answer = _text(text), _ffi.new("int *")
        _must(call(self._params, stored, len(stored), answer))
        return int(answer[0])

    def _needed(self, stored: Any, least: int = 0) -> int:
        """Returns the KiB that a call with a stored hash needs, at least `least`.

        They are 0 if the stored hash is not valid or above the bound, because such a call makes no hash.
        """
        shown, most = _structure("argon2p_shown"), self._verifier
        is_read = _lib.argon2p_parse(stored, len(stored), shown) == _lib.ARGON2P_OK
        is_within = shown.m_cost <= most.m_cost and shown.t_cost <= most.t_cost and shown.p_cost <= most.p_cost
        return max(shown.m_cost, least) if is_read and is_within else 0

    def _lent(self, size: int) -> ContextManager[None]:
        """Returns the context of a call that holds `size` KiB. If `max_memory` bounds them, it waits until they are free."""
        return nullcontext() if self.memory is None or size == 0 else self.memory.lend(size)
