"""The four methods, and numbers in crypt(5)'s alphabet."""
from __future__ import annotations

import functools
import hashlib
import math
from dataclasses import dataclass

ALPHABET = b"./0123456789ABCDEFGHIJKLMNOPQRSTUVWXYZabcdefghijklmnopqrstuvwxyz"
DIGIT = rb"[./0-9A-Za-z]"  # matches one character of the alphabet
BITS_OF_DIGIT = 6

_VALUES = {character: value for value, character in enumerate(ALPHABET)}


@dataclass(frozen=True)
class Method:
    """A method, as docs/FORMATS.md describes it."""

    name: str
    prefix: bytes
    longest_salt: int
    drawn_salt: int  # the length of a salt that the program draws
    recommended: int  # rounds, or scrypt's cost
    digest_name: str  # the digest's name in hashlib
    # The indexes of the digest's bytes in each group of characters, the highest byte first.
    digest_order: str = ""

    def digest(self, message: bytes) -> bytes:
        """Returns the digest of a message."""
        return hashlib.new(self.digest_name, message).digest()

    @functools.cached_property
    def digest_size(self) -> int:
        """How many bytes a digest has, or scrypt's output."""
        return hashlib.new(self.digest_name).digest_size

    @functools.cached_property
    def hash_length(self) -> int:
        """How many characters follow the last dollar sign of a hash."""
        return math.ceil(8 * self.digest_size / BITS_OF_DIGIT)

    @functools.cached_property
    def last_digits(self) -> bytes:
        """The characters that a hash can end with: the last one encodes only two or four bits."""
        bits = 8 * self.digest_size % BITS_OF_DIGIT
        return ALPHABET[: 1 << bits]


MD5CRYPT = Method(
    "md5crypt",
    b"$1$",
    longest_salt=8,
    drawn_salt=8,
    recommended=0,
    digest_name="md5",
    digest_order="0 6 12,1 7 13,2 8 14,3 9 15,4 10 5,11",
)
SHA256CRYPT = Method(
    "sha256crypt",
    b"$5$",
    longest_salt=16,
    drawn_salt=16,
    recommended=656_000,
    digest_name="sha256",
    digest_order="0 10 20,21 1 11,12 22 2,3 13 23,24 4 14,15 25 5,6 16 26,27 7 17,18 28 8,9 19 29,"
    "31 30",
)
SHA512CRYPT = Method(
    "sha512crypt",
    b"$6$",
    longest_salt=16,
    drawn_salt=16,
    recommended=656_000,
    digest_name="sha512",
    digest_order="0 21 42,22 43 1,44 2 23,3 24 45,25 46 4,47 5 26,6 27 48,28 49 7,50 8 29,9 30 51,"
    "31 52 10,53 11 32,12 33 54,34 55 13,56 14 35,15 36 57,37 58 16,59 17 38,18 39 60,40 61 19,"
    "62 20 41,63",
)
SCRYPT = Method(
    "scrypt",
    b"$7$",
    longest_salt=86,
    drawn_salt=22,
    recommended=7,
    digest_name="sha256",
)
METHODS = (MD5CRYPT, SHA256CRYPT, SHA512CRYPT, SCRYPT)
BY_PREFIX = {method.prefix: method for method in METHODS}
# The names that the option -m accepts.
BY_NAME = {
    **{method.name: method for method in METHODS},
    "md5": MD5CRYPT,
    "sha-256": SHA256CRYPT,
    "sha-512": SHA512CRYPT,
}


def numeral(number: int, places: int) -> bytes:
    """Encodes a number in characters of six bits, the lowest bits first."""
    digits = [number >> BITS_OF_DIGIT * place & 63 for place in range(places)]
    return bytes(ALPHABET[digit] for digit in digits)


def number_of(text: bytes) -> int:
    """Decodes a number whose characters have six bits each, the lowest bits first."""
    return sum(_VALUES[digit] << BITS_OF_DIGIT * place for place, digit in enumerate(text))
