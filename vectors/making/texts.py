"""What a text of Argon2 says, by docs/PHC.md, and the programs whose readers of texts are asked."""

import base64
import ctypes
import importlib
import re
import subprocess

PAIR = "[a-z0-9-]{1,32}=[A-Za-z0-9/+.-]{1,64}"
TEXT = re.compile(
    r"\$(?P<algorithm>[a-z0-9-]{1,32})(?:\$v=(?P<version>0|[1-9][0-9]*))?"
    rf"(?:\$(?P<list>{PAIR}(?:,{PAIR})*))?(?:\$(?P<salt>[A-Za-z0-9+/]+)(?:\$(?P<hash>[A-Za-z0-9+/]+))?)?"
)
NUMBER = re.compile("0|[1-9][0-9]{0,9}")
# The parameters of Argon2, the reason why each can be invalid, and the most bytes of those that are bytes.
PARAMETERS = {
    "m": ("MemoryInvalid", None),
    "t": ("PassesInvalid", None),
    "p": ("LanesInvalid", None),
    "keyid": ("KeyidInvalid", 8),
    "data": ("DataInvalid", 32),
}


class Refused(Exception):
    """A text is not read. The error has the name of the first reason."""


def need(holds, reason):
    if not holds:
        raise Refused(reason)


def number_of(digits):
    """The number below 2**32 that canonical digits say, or None."""
    return int(digits) if NUMBER.fullmatch(digits) and int(digits) < 2**32 else None


def bytes_of(text, least, most):
    """From `least` to `most` bytes, whose only Base64 without padding the text is, or None."""
    try:
        value = base64.b64decode(text + "=" * (-len(text) % 4), validate=True)
    except ValueError:
        return None
    return value if base64_of(value) == text and least <= len(value) <= most else None


def base64_of(value):
    return base64.b64encode(value).decode().rstrip("=")


def parsed(text):
    """The fields of a text, and the pairs of its list. It raises `Refused` if the text is outside the grammar."""
    fields = TEXT.fullmatch(text)
    need(fields and text.isascii(), "Grammar")
    version, salt, output = (fields[it] for it in ("version", "salt", "hash"))
    pairs = [it.split("=") for it in fields["list"].split(",")] if fields["list"] else []
    names = [name for name, _ in pairs]
    need(version is None or number_of(version) is not None, "Grammar")
    need("v" not in names and len({*names}) == len(names) and len(fields["list"] or "") <= 127, "Grammar")
    salt = None if salt is None else bytes_of(salt, 8, 48)
    output = None if output is None else bytes_of(output, 4, 64)
    need((fields["salt"] is None) == (salt is None) and (fields["hash"] is None) == (output is None), "Grammar")
    return {"algorithm": fields["algorithm"], "version": int(version or 16), "pairs": pairs, "salt": salt, "hash": output}


def parameters(pairs):
    """The parameters that pairs give. It raises `Refused` with the first reason why they give none."""
    values = {"keyid": b"", "data": b""}
    for name, value in pairs:
        need(name in PARAMETERS, "ParametersInvalid")
        reason, most = PARAMETERS[name]
        values[name] = number_of(value) if most is None else bytes_of(value, 0, most)
        need(values[name] is not None, reason)
    need({"m", "t", "p"} <= {*values}, "ParametersInvalid")
    m, t, p = (values[it] for it in ("m", "t", "p"))
    need(m >= 8, "MemoryInvalid")
    need(1 <= p < 2**24, "LanesInvalid")
    need(m >= 8 * p, "MemoryInvalid")
    need(t >= 1, "PassesInvalid")
    return {name: values[name] for name in PARAMETERS}


def need_whole(fields):
    need(fields["hash"] is not None, "Incomplete")


def need_known(fields):
    need(fields["algorithm"] in ("argon2d", "argon2i", "argon2id"), "AlgorithmUnknown")
    need(fields["version"] in (16, 19), "VersionUnknown")


def read(text):
    """What a text says. It raises `Refused` with the first reason if the text is none of Argon2 that can accept a password."""
    fields = parsed(text)
    need_whole(fields)
    values = parameters(fields["pairs"])
    need_known(fields)
    head, tail = ({it: fields[it] for it in names} for names in (("algorithm", "version"), ("salt", "hash")))
    return head | values | tail


VARIATIONS = ("NoVersion", "OtherOrder", "KeyidOrData", "ShortHash", "ManyLanes")


def variations(text):
    """How a text that is read differs from those that all programs read, as names of flags."""
    fields = TEXT.fullmatch(text)
    pairs = [it.split("=") for it in fields["list"].split(",")]
    names = [name for name, _ in pairs]
    holds = (
        fields["version"] is None,
        names != [it for it in PARAMETERS if it in names],
        bool({"keyid", "data"} & {*names}),
        len(bytes_of(fields["hash"], 4, 64)) < 16,
        int(dict(pairs)["p"]) > 255,
    )
    return [name for name, it in zip(VARIATIONS, holds) if it]


# ---- the readers of other programs


def libargon2():
    """The reference's library: a text is read if it is refused for the password only, or for want of memory."""
    library = ctypes.CDLL("libargon2.so.1")
    kinds = {"argon2d": 0, "argon2i": 1, "argon2id": 2}

    def reads(text):
        # (a caller names the algorithm, which the text begins with)
        kind = kinds.get(text[1:].split("$")[0], 2)
        return library.argon2_verify(text.encode(), b"x", ctypes.c_size_t(1), kind) in (0, -22, -35)

    return reads


def libsodium():
    library = ctypes.CDLL("libsodium.so.23")

    def reads(text):
        words = (text.encode(), ctypes.c_ulonglong(2), ctypes.c_size_t(65536))
        return any(getattr(library, f"crypto_pwhash_{it}_str_needs_rehash")(*words) >= 0 for it in ("argon2i", "argon2id"))

    return reads


def argon2_cffi():
    extract = importlib.import_module("argon2").extract_parameters

    def reads(text):
        try:
            extract(text)
        except Exception:  # noqa: BLE001 (each error is a refusal)
            return False
        return True

    return reads


def passlib():
    handler = importlib.import_module("passlib.hash").argon2

    def reads(text):
        try:
            handler.from_string(text)
        except Exception:  # noqa: BLE001
            return False
        return True

    return reads


# Each with its package of Debian.
READERS = {
    "libargon2": ("libargon2-1", libargon2),
    "libsodium": ("libsodium23", libsodium),
    "argon2-cffi": ("python3-argon2", argon2_cffi),
    "passlib": ("python3-passlib", passlib),
}


def version_of(package):
    """The version of a package of Debian without Debian's revision, or None if it is not installed."""
    ran = subprocess.run(["dpkg-query", "-W", "-f", "${Version}", package], capture_output=True, text=True, check=False)
    return ran.stdout.rpartition("-")[0] or None
