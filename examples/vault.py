"""Encrypts a file under a passphrase by `vault.py seal FILE VAULT`, and decrypts it by `vault.py open VAULT FILE`.

You type the passphrase, or it is the first line of standard input. Argon2id makes the key from it, and ChaCha20-Poly1305 encrypts
the whole file in memory. A vault begins with a header, which is authenticated. The header contains the version, the costs, the
salt and the nonce.
"""

import argparse
import getpass
import os
import struct
import sys
import tempfile

from argon2_proved import Error, PasswordHasher
from cryptography.exceptions import InvalidTag
from cryptography.hazmat.primitives.ciphers.aead import ChaCha20Poly1305

NAME, VERSION = b"A2VAULT", 1
# The header contains the name, the version, the costs, the salt and the nonce.
HEADER = struct.Struct(">7sB3I16s12s")
# The memory in KiB, the passes and the lanes of a new vault, and the largest ones for a vault that is opened. Anybody may have
# written the costs of that vault.
COSTS = 65536, 3, 4
MOST = 1048576, 16, 16


class Refused(Exception):
    """The reason why a file is not encrypted or decrypted."""


def key_of(passphrase, costs, salt):
    """Returns the key of a passphrase. The salt is new for each vault, so no stored hash of the passphrase has the same bytes."""
    memory, passes, lanes = costs
    return PasswordHasher(passes, memory, lanes, hash_len=32).tag(passphrase, salt)


def seal(content, passphrase):
    """Returns a vault with this content."""
    salt, nonce = os.urandom(16), os.urandom(12)
    header = HEADER.pack(NAME, VERSION, *COSTS, salt, nonce)
    return header + ChaCha20Poly1305(key_of(passphrase, COSTS, salt)).encrypt(nonce, content, header)


def opened(vault, passphrase):
    """Returns the content of a vault, or raises `Refused`. It returns no byte of a vault that somebody changed."""
    header, sealed = vault[: HEADER.size], vault[HEADER.size :]
    if len(header) < HEADER.size or not header.startswith(NAME):
        raise Refused("it is no vault")
    _, version, *costs, salt, nonce = HEADER.unpack(header)
    if version != VERSION:
        raise Refused(f"it is a vault of version {version}, and this program reads version {VERSION}")
    if any(cost > most for cost, most in zip(costs, MOST)):
        raise Refused(f"its memory in KiB, passes and lanes are {costs}, above the bound {[*MOST]}")
    try:
        return ChaCha20Poly1305(key_of(passphrase, costs, salt)).decrypt(nonce, sealed, header)
    except InvalidTag:
        raise Refused("the passphrase is wrong, or the vault is damaged") from None


def read_passphrase(is_new):
    """Returns the passphrase. You type a new passphrase twice, because nobody can open the vault if it has a typing error."""
    if not sys.stdin.isatty():
        found = sys.stdin.buffer.readline().removesuffix(b"\n")
    else:
        found = getpass.getpass("passphrase: ").encode()
        if is_new and getpass.getpass("passphrase again: ").encode() != found:
            raise Refused("the passphrases differ")
    if not found:
        raise Refused("there is no passphrase")
    return found


def put(path, content):
    """Writes this content beside a path, and renames it. So the path has its old content or the whole new content."""
    file, beside = tempfile.mkstemp(dir=os.path.dirname(path) or ".")
    try:
        with open(file, "wb") as it:
            it.write(content)
            it.flush()
            os.fsync(it.fileno())
        os.replace(beside, path)
    except BaseException:
        os.unlink(beside)
        raise


def main():
    parser = argparse.ArgumentParser(description="encrypts a file under a passphrase, and decrypts it")
    parser.add_argument("command", choices=["seal", "open"])
    parser.add_argument("source")
    parser.add_argument("target")
    words = parser.parse_args()
    try:
        with open(words.source, "rb") as it:
            content = it.read()
        passphrase = read_passphrase(words.command == "seal")
        put(words.target, (seal if words.command == "seal" else opened)(content, passphrase))
    except (Refused, Error, OSError, UnicodeError) as error:
        sys.exit(f"vault.py: {words.source}: {error}")


main()
