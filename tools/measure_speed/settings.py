"""What is hashed: settings, passwords, and the hashes that libxcrypt makes of them."""
from __future__ import annotations

import functools
from dataclasses import dataclass, replace

from support import libxcrypt
from support.model import methods
from support.model.methods import Method, number_of
from support.model.settings import ScryptCost, read_setting, recommended_setting

from .failure import Stop

PASSWORD = b"p" * 8
SALT = b"x" * 16


def scrypt(log_n: int, r: int, p: int, salt: bytes = b"x" * 22) -> bytes:
    """Returns a setting of scrypt."""
    return b"$7$" + ScryptCost(log_n, r, p).text + salt


def recommended(method: Method, salt: bytes) -> bytes:
    """Returns a setting with the recommended rounds."""
    return recommended_setting(method, None, salt).text


MD5CRYPT = b"$1$xxxxxxxx"
SHA256CRYPT = recommended(methods.SHA256CRYPT, SALT)
SHA512CRYPT = recommended(methods.SHA512CRYPT, SALT)
SCRYPT = scrypt(14, 32, 1)


@dataclass(frozen=True)
class Workload:
    """A number of hashes, all of one password with one setting."""

    setting: bytes
    hashes: int = 1
    password: bytes = PASSWORD
    # How many hashes a JavaScript engine makes before those that count, to compile the code.
    warm_up_hashes: int = 1

    @property
    def without_hashes(self) -> Workload:
        """This workload without any hash: a program that gets it only starts and ends."""
        return replace(self, hashes=0)

    @property
    def hash(self) -> bytes:
        """The hash, as libxcrypt makes it."""
        return hash_of(self.setting, self.password)

    @property
    def scrypt_cost(self) -> ScryptCost | None:
        """N, r and p of a setting of scrypt; None for another method."""
        return read_setting(self.setting).scrypt


@functools.cache
def hash_of(setting: bytes, password: bytes = PASSWORD) -> bytes:
    """Returns the hash that libxcrypt makes."""
    text = libxcrypt.crypt_or_none(password, setting)
    if text is None:
        raise Stop(f"libxcrypt refuses the setting {setting.decode()}")
    return text


def scrypt_digest(stored_hash: bytes) -> bytes:
    """Returns the 32 bytes of the digest at the end of a scrypt hash.

    Each character of the digest stands for six bits, the lowest first.
    """
    digits = stored_hash.rpartition(b"$")[2]
    size_of_digits = 33  # since 43 digits are 258 bits, two more than 32 bytes have
    return number_of(digits).to_bytes(size_of_digits, "little")[:32]
