"""argon2-cffi imports `ffi` and `lib`. `lib` is the libargon2 in this folder, with what argon2.h and argon2_phc.h declare."""

from pathlib import Path
from typing import Any

from ._ffi import ffi

__all__ = ["ffi", "lib"]


def _load() -> Any:
    """Returns the library for this processor. The loader refuses a library of a higher level, so the highest level is first."""
    folder = Path(__file__).resolve().parent
    refusal = None
    for path in [*sorted(folder.glob("*/libargon2.so.1"), reverse=True), folder / "libargon2.so.1"]:
        try:
            return ffi.dlopen(str(path))
        except OSError as error:
            refusal = error
    raise ImportError(f"no libargon2 for this system: {refusal}")


lib = _load()
