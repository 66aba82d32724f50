"""Bounds the memory that hashes hold at once."""

from __future__ import annotations

import ctypes
import threading
from collections import deque
from contextlib import contextmanager
from typing import Iterator

# From this many bytes on malloc maps memory for one request only, and gives it back when it is freed (mallopt(3)). glibc begins
# with this number, and raises it up to 32 MiB as a program frees memory. Then each thread keeps the memory of its last hash.
_M_MMAP_THRESHOLD = -3
_FIRST_THRESHOLD = 128 << 10


class Busy(TimeoutError):
    """A hash did not get its memory within the `timeout`. This tells nothing about the password."""


class Memory:
    """The memory of the hashes of all objects that have it as their `max_memory`.

    Hashes are served in the order in which they ask, so small hashes do not starve a large one. This also sets M_MMAP_THRESHOLD
    of mallopt(3) for the whole process, because glibc otherwise keeps the freed memory of a hash for each thread, up to 32 MiB.

    limit: the most KiB that the hashes hold at once
    timeout: the seconds after which a hash that waits is `Busy`. If this is None, a hash waits for any time
    """

    def __init__(self, limit: int, timeout: float | None = None) -> None:
        self.limit = self._free = limit
        self._timeout = timeout
        self._lock = threading.Lock()
        self._queue: deque[threading.Condition] = deque()
        ctypes.CDLL(None).mallopt(_M_MMAP_THRESHOLD, _FIRST_THRESHOLD)

    @contextmanager
    def lend(self, size: int) -> Iterator[None]:
        """Waits until `size` KiB are free, at most `limit`, and lends them to the code in this context."""
        with self._lock:
            turn = threading.Condition(self._lock)
            self._queue.append(turn)
            try:
                if not turn.wait_for(lambda: self._queue[0] is turn and size <= self._free, self._timeout):
                    raise Busy(f"{size} of {self.limit} KiB were not free within {self._timeout} seconds")
                self._free -= size
            finally:
                self._queue.remove(turn)
                self._wake()
        try:
            yield
        finally:
            with self._lock:
                self._free += size
                self._wake()

    def _wake(self) -> None:
        """Wakes the first request that waits."""
        if self._queue:
            self._queue[0].notify()
