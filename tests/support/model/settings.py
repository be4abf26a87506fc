"""Reads and writes settings, with which hashes begin, and says why a setting is refused."""
from __future__ import annotations

import re
from dataclasses import dataclass

from .methods import (
    BY_PREFIX,
    DIGIT,
    MD5CRYPT,
    SCRYPT,
    SHA256CRYPT,
    SHA512CRYPT,
    Method,
    number_of,
    numeral,
)

LONGEST_SETTING = 384
LEAST_ROUNDS = 1000
MOST_ROUNDS = 999_999_999
UNWRITTEN_ROUNDS = 5000
SCRYPT_CEILING = 8_388_608  # the greatest N * r * p
# The costs that new scrypt hashes can have. With cost C, N is 2^(C + LOG_N_OF_COST_0).
SCRYPT_COSTS = range(6, 12)
LOG_N_OF_COST_0 = 7
R_OF_NEW, P_OF_NEW = 32, 1
SHA_CRYPT = (SHA256CRYPT, SHA512CRYPT)
# Characters outside printable ASCII, a space, and those that mean something in password files.
BAD_CHARACTER = re.compile(rb"[^\x21-\x7e]|[:;*!\\]")

SETTING_REFUSALS = (
    "setting too long",
    "bad character",
    "unknown scheme",
    "bad rounds",
    "bad cost",
    "scrypt range",
    "above ceiling",
    "bad salt",
)


class Refused(Exception):
    """A setting or a line is refused. The text is the reason that the program prints."""


@dataclass(frozen=True)
class ScryptCost:
    """Scrypt's N (as its logarithm), r and p."""

    log_n: int
    r: int
    p: int

    @property
    def text(self) -> bytes:
        """The eleven characters that encode these numbers in a setting."""
        return numeral(self.log_n, 1) + numeral(self.r, 5) + numeral(self.p, 5)

    @property
    def block_size(self) -> int:
        """The bytes of a block of scrypt, which is also a row of its table (RFC 7914)."""
        return 128 * self.r

    @property
    def product(self) -> int:
        """N * r * p, by which two costs are compared."""
        return (self.r * self.p) << self.log_n


@dataclass(frozen=True)
class Setting:
    """A method with a cost and a salt."""

    method: Method
    salt: bytes
    written_rounds: int | None = None  # SHA-crypt's rounds, if the text has them
    scrypt: ScryptCost | None = None

    @property
    def rounds(self) -> int:
        """SHA-crypt's rounds."""
        return UNWRITTEN_ROUNDS if self.written_rounds is None else self.written_rounds

    @property
    def scrypt_cost(self) -> ScryptCost:
        """The numbers of a scrypt setting."""
        assert self.scrypt is not None
        return self.scrypt

    @property
    def before_salt(self) -> bytes:
        """The part of the canonical text before the salt."""
        if self.scrypt is not None:
            return self.method.prefix + self.scrypt.text
        if self.written_rounds is not None:
            return self.method.prefix + b"rounds=%d$" % self.written_rounds
        return self.method.prefix

    @property
    def text(self) -> bytes:
        """The canonical text, with which the hash begins."""
        return self.before_salt + self.salt

    @property
    def strength(self) -> int:
        """The number by which two settings of a method are compared."""
        if self.scrypt is not None:
            return self.scrypt.product
        return 0 if self.method is MD5CRYPT else self.rounds

    def is_replaced_by(self, new: Setting) -> bool:
        """Returns whether a hash with this setting is outdated if new hashes have `new`."""
        return self.method is not new.method or self.strength < new.strength


def clamped_rounds(rounds: int) -> int:
    """Returns how many rounds SHA-crypt does if a setting asks for this many."""
    return min(max(rounds, LEAST_ROUNDS), MOST_ROUNDS)


def read_setting(text: bytes) -> Setting:
    """Returns the setting that a text begins with."""
    if len(text) > LONGEST_SETTING:
        raise Refused("setting too long")
    if BAD_CHARACTER.search(text):
        raise Refused("bad character")
    method, rest = BY_PREFIX.get(text[:3]), text[3:]
    if method is None:
        raise Refused("unknown scheme")
    if method is SCRYPT:
        return read_scrypt(rest)
    rounds = None
    if method in SHA_CRYPT and rest.startswith(b"rounds="):
        rounds, rest = read_rounds(rest)
    salt = rest.split(b"$")[0][: method.longest_salt]
    return Setting(method, salt, rounds)


def read_rounds(text: bytes) -> tuple[int, bytes]:
    """Returns the rounds that a text begins with, and the rest of the text."""
    match = re.match(rb"rounds=([1-9][0-9]*)\$", text)
    if match is None:
        raise Refused("bad rounds")
    return clamped_rounds(int(match[1])), text[match.end() :]


def read_scrypt(text: bytes) -> Setting:
    """Reads a scrypt setting from the text after its prefix."""
    match = re.match(rb"(%b)(%b{5})(%b{5})([^$]*)" % (DIGIT, DIGIT, DIGIT), text)
    if match is None:
        raise Refused("bad cost")
    cost = ScryptCost(number_of(match[1]), number_of(match[2]), number_of(match[3]))
    salt = match[4]
    is_n_too_large = cost.log_n >= 16 * cost.r  # RFC 7914: N must be below 2^(128 * r / 8)
    if 0 in (cost.log_n, cost.r, cost.p) or is_n_too_large:
        raise Refused("scrypt range")
    if cost.product > SCRYPT_CEILING:
        raise Refused("above ceiling")
    if len(salt) > SCRYPT.longest_salt or not re.fullmatch(rb"%b*" % DIGIT, salt):
        raise Refused("bad salt")
    return Setting(SCRYPT, salt, scrypt=cost)


def setting_of_options(method: Method, cost: int | None, salt: bytes | None) -> Setting:
    """Returns the setting that the options -m, -R and -S give a new hash.

    If the program draws the salt, the setting has a made-up salt of the same length.
    """
    if salt is None:
        salt = b"." * method.drawn_salt
    if method is SCRYPT:
        log_n = (cost or SCRYPT.recommended) + LOG_N_OF_COST_0
        return Setting(SCRYPT, salt, scrypt=ScryptCost(log_n, R_OF_NEW, P_OF_NEW))
    if method is MD5CRYPT or not cost:
        return Setting(method, salt)
    return Setting(method, salt, clamped_rounds(cost))


def recommended_setting(method: Method, cost: int | None, salt: bytes | None = None) -> Setting:
    """Returns the setting of new hashes for calls and audits.

    A cost of 0 or None means the recommended cost.
    """
    return setting_of_options(method, cost or method.recommended, salt)
