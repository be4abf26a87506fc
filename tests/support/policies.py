"""Methods and rounds of new hashes, as arguments of the calls: 0 means the recommended ones."""
from __future__ import annotations

from dataclasses import dataclass

from .model.calls import METHODS, RECOMMENDED_METHOD, Reason
from .model.settings import Setting, recommended_setting

GREATEST_32 = 2**32 - 1


@dataclass(frozen=True)
class Policy:
    """The method and the rounds of new hashes."""

    title: str
    method: int
    rounds: int

    def __str__(self) -> str:
        return self.title

    @property
    def setting(self) -> Setting:
        """The setting of new hashes, with an arbitrary salt."""
        return recommended_setting(METHODS[self.method or RECOMMENDED_METHOD], self.rounds)


@dataclass(frozen=True)
class InvalidPolicy(Policy):
    """A method or rounds that the calls refuse, and the error."""

    error: Reason


RECOMMENDED = Policy("the recommended one", method=0, rounds=0)
# Of all calls, only mkpasswd_needs_rehash clamps SHA-crypt's rounds, as the formats do.
CLAMPED = (
    Policy("sha512crypt with 10 rounds", method=6, rounds=10),
    Policy("sha512crypt with the greatest number as rounds", method=6, rounds=GREATEST_32),
)
POLICIES = (
    Policy("md5crypt", method=1, rounds=0),
    Policy("md5crypt with rounds, which it ignores", method=1, rounds=5),
    Policy("sha256crypt as recommended", method=5, rounds=0),
    Policy("sha256crypt with 5000 rounds", method=5, rounds=5000),
    RECOMMENDED,
    Policy("the recommended method with 5000 rounds", method=0, rounds=5000),
    Policy("sha512crypt as recommended", method=6, rounds=0),
    *CLAMPED,
    Policy("scrypt as recommended", method=7, rounds=0),
    Policy("scrypt with the lowest cost", method=7, rounds=6),
    Policy("scrypt with the highest cost", method=7, rounds=11),
)
INVALID_POLICIES = (
    InvalidPolicy("method 2", method=2, rounds=0, error=Reason.UNKNOWN_METHOD),
    InvalidPolicy("method 3", method=3, rounds=5, error=Reason.UNKNOWN_METHOD),
    InvalidPolicy("method 4", method=4, rounds=0, error=Reason.UNKNOWN_METHOD),
    InvalidPolicy("method 8", method=8, rounds=0, error=Reason.UNKNOWN_METHOD),
    InvalidPolicy(
        "the greatest number as the method",
        method=GREATEST_32,
        rounds=7,
        error=Reason.UNKNOWN_METHOD,
    ),
    InvalidPolicy("scrypt with cost 1", method=7, rounds=1, error=Reason.ROUNDS),
    InvalidPolicy("scrypt with cost 5", method=7, rounds=5, error=Reason.ROUNDS),
    InvalidPolicy("scrypt with cost 12", method=7, rounds=12, error=Reason.ROUNDS),
    InvalidPolicy(
        "scrypt with the greatest number as cost", method=7, rounds=GREATEST_32, error=Reason.ROUNDS
    ),
)
# Policies that all calls except mkpasswd_needs_rehash refuse, since they don't clamp rounds.
INVALID_ROUNDS = (
    InvalidPolicy(
        "the recommended method with 999 rounds", method=0, rounds=999, error=Reason.ROUNDS
    ),
    InvalidPolicy("sha512crypt with 999 rounds", method=6, rounds=999, error=Reason.ROUNDS),
    InvalidPolicy("sha256crypt with one round", method=5, rounds=1, error=Reason.ROUNDS),
    InvalidPolicy(
        "sha512crypt with 1000000000 rounds", method=6, rounds=1_000_000_000, error=Reason.ROUNDS
    ),
)
