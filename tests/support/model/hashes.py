"""Hashes from libxcrypt, or, for inputs that it refuses, computed here with hashlib."""
from __future__ import annotations

import functools
import hashlib

from .. import libxcrypt
from .methods import MD5CRYPT, SCRYPT, Method, numeral
from .settings import Setting


def packed(method: Method, digest: bytes) -> bytes:
    """Encodes a digest in the characters of a hash."""
    text = b""
    for group in method.digest_order.split(","):
        places = [int(place) for place in group.split()]
        number = int.from_bytes(bytes(digest[place] for place in places), "big")
        text += numeral(number, len(places) + 1)
    return text


def cycled(text: bytes, length: int) -> bytes:
    """Returns a text repeated up to this length."""
    return (text * (1 + length // len(text)))[:length]


def second_digest(method: Method, password: bytes, salt: bytes) -> bytes:
    """Returns the digest that the first round of md5crypt or SHA-crypt starts from."""
    first = method.digest(password + salt + password)
    message = password + salt
    of_one, of_zero = first, password
    if method is MD5CRYPT:
        message = password + method.prefix + salt
        of_one, of_zero = b"\0", password[:1]
    message += cycled(first, len(password))
    # For each binary digit of the password's length, the lowest first.
    digits = f"{len(password):b}" if password else ""
    for digit in reversed(digits):
        message += of_one if digit == "1" else of_zero
    return method.digest(message)


def hash_by_hashlib(setting: Setting, password: bytes) -> bytes:
    """Computes an md5crypt or SHA-crypt hash with hashlib's digests."""
    method, salt = setting.method, setting.salt
    last = second_digest(method, password, salt)
    # What the rounds digest: md5crypt takes the password and the salt themselves, SHA-crypt takes
    # digests of them, repeated to the same lengths (Drepper's specification, steps 13 to 20).
    of_password, of_salt, rounds = password, salt, 1000
    if method is not MD5CRYPT:
        of_password = cycled(method.digest(password * len(password)), len(password))
        of_salt = cycled(method.digest(salt * (16 + last[0])), len(salt))
        rounds = setting.rounds
    for number in range(rounds):
        middle = of_salt if number % 3 else b""
        middle += of_password if number % 7 else b""
        if number % 2:
            last = method.digest(of_password + middle + last)
        else:
            last = method.digest(last + middle + of_password)
    return setting.text + b"$" + packed(method, last)


def hash_by_libxcrypt(setting: Setting, password: bytes) -> bytes | None:
    """Returns libxcrypt's hash, or None if it refuses the password or the setting."""
    if len(password) > libxcrypt.LONGEST_PASSWORD or b"\0" in password:
        return None
    text = libxcrypt.crypt_or_none(password, setting.text)
    if text is None or not text.startswith(setting.text + b"$"):
        return None
    return text


@functools.lru_cache(maxsize=4096)
def hash_of(setting: Setting, password: bytes) -> bytes | None:
    """Returns the hash of a password, or None for scrypt hashes that libxcrypt refuses to make."""
    known = password
    if setting.method is SCRYPT and len(password) > libxcrypt.LONGEST_PASSWORD:
        known = hashlib.sha256(password).digest()  # HMAC replaces a long key with its digest
    text = hash_by_libxcrypt(setting, known)
    if text is None and setting.method is not SCRYPT:
        text = hash_by_hashlib(setting, password)
    return text
