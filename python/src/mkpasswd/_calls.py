"""Converts the arguments of the package's calls for the library, and its errors to exceptions."""
from __future__ import annotations

import operator
import os
from typing import Any, Optional, Union

from . import _library
from ._library import PASSWORD_LIMIT, Answer, Numbers
from ._message import message
from ._reasons import Reason

Text = Union[str, bytes]

# The library takes this as no limit: every cost is below 2^42.
NO_LIMIT = 2**64 - 1

METHODS = {"md5crypt": 1, "sha256crypt": 5, "sha512crypt": 6, "scrypt": 7}

# The rounds that a new hash may have. The library's message doesn't name these numbers.
_ROUNDS = {
    "md5crypt": "0 to 4294967295",
    "sha256crypt": "1000 to 999999999",
    "sha512crypt": "1000 to 999999999",
    "scrypt": "6 to 11",
}

# The length of the salt of a new hash, and the characters in it.
_SALT_LENGTHS = {"md5crypt": 8, "sha256crypt": 16, "sha512crypt": 16, "scrypt": 22}
_SALT_CHARACTERS = "./0123456789ABCDEFGHIJKLMNOPQRSTUVWXYZabcdefghijklmnopqrstuvwxyz"

# The errors for a field that isn't a valid setting of one of these methods.
NO_SETTING = frozenset(
    {
        Reason.SETTING_TOO_LONG,
        Reason.BAD_CHARACTER,
        Reason.UNKNOWN_SCHEME,
        Reason.BAD_ROUNDS,
        Reason.BAD_COST,
        Reason.SCRYPT_RANGE,
        Reason.ABOVE_CEILING,
        Reason.BAD_SALT,
    }
)


class Refused(ValueError):
    """The stored hash has no valid setting, or the method, its rounds or the salt is invalid.

    `reason` is a Reason, or None if it comes from a newer library and this package doesn't know it.
    """

    __module__ = "mkpasswd"

    def __init__(self, reason: Optional[Reason], text: str) -> None:
        super().__init__(reason, text)
        self.reason = reason
        self._text = text

    def __str__(self) -> str:
        return self._text


class TooCostly(Refused):
    """The hash can cost more than the budget, so nothing was hashed.

    `cost` is the most that the hash can cost. str() leaves it out, since it depends on the length
    of the password, and frameworks log messages.
    """

    __module__ = "mkpasswd"

    def __init__(self, cost: int, budget: int) -> None:
        text = f"{Reason.OVER_BUDGET.message}: the hash can cost more than {budget}"
        super().__init__(Reason.OVER_BUDGET, text)
        self.args = (cost, budget)
        self.cost = cost
        self.budget = budget


# A subclass of str, bytes or int can have a __len__ or an __eq__ of its own, so these functions
# read the value by a method of the base class.


def encode(value: Text, name: str) -> bytes:
    """Returns the bytes of an argument. Raises TypeError unless it is str or bytes."""
    if isinstance(value, bytes):
        return bytes.__getitem__(value, slice(None))
    if isinstance(value, str):
        # The strict codec would raise an error that contains the whole str.
        return str.encode(value, "utf-8", "surrogatepass")
    raise TypeError(f"{name} must be str or bytes, not {type(value).__name__}")


def encode_password(value: Text) -> bytes:
    """Returns the bytes of a password. Raises ValueError if it can't be hashed."""
    password = encode(value, "password")
    if len(password) > PASSWORD_LIMIT:
        raise ValueError(Reason.PASSWORD_TOO_LONG.message)
    if 0 in password:
        raise ValueError(Reason.PASSWORD_ZERO_BYTE.message)
    if isinstance(value, str) and password != str.encode(value, "utf-8", "replace"):
        raise ValueError("password has a lone surrogate")
    return password


def require_integer(value: Any, name: str, kind: str = "an int") -> int:
    """Returns the number in an argument. Raises TypeError, also for a bool or a float."""
    if isinstance(value, (bool, float)):
        raise TypeError(f"{name} must be {kind}, not {value!r}")
    try:
        return int.__index__(operator.index(value))
    except TypeError:
        raise TypeError(f"{name} must be {kind}, not {type(value).__name__}") from None


def require_length(value: int) -> int:
    """Returns a password's length in bytes, cut to fit: ctypes would reduce it modulo 2^64."""
    number = require_integer(value, "password_len")
    if number < 0:
        raise ValueError("password_len is negative")
    return min(number, PASSWORD_LIMIT + 1)


def policy_numbers(method: str, rounds: Optional[int], budget: Optional[int]) -> Numbers:
    """Returns a policy as the library takes it. Only the library knows the range of rounds."""
    if not isinstance(method, str):
        raise TypeError(f"method must be str, not {type(method).__name__}")
    method = str.__str__(method)
    rounds = 0 if rounds is None else require_integer(rounds, "rounds")
    if method not in METHODS:
        *names, last = METHODS
        raise Refused(Reason.UNKNOWN_METHOD, f"method must be {', '.join(names)} or {last}")
    # ctypes would reduce other numbers modulo 2^32.
    if not 0 <= rounds < 2**32:
        raise refused_rounds(method)
    return Numbers(METHODS[method], rounds, budget_number(budget))


def budget_number(budget: Optional[int]) -> int:
    """Returns the library's number for a budget. 0 stands for the policy's own limit."""
    if budget is None:
        return 0
    number = require_integer(budget, "budget", "an int (2**42 for no limit)")
    if number < 1:
        raise ValueError("budget must be above 0, or None for twice what a new hash costs")
    return min(number, NO_LIMIT)


def policy_limit(numbers: Numbers, method: str) -> Answer:
    """Returns what a policy allows. Raises Refused for rounds out of the method's range."""
    answer = _library.limit(numbers)
    if answer.is_yes or answer.reason is Reason.OVER_BUDGET:
        return answer
    if answer.reason is Reason.ROUNDS:
        raise refused_rounds(method)
    raise error_from(answer)


def refused_rounds(method: str) -> Refused:
    """Returns the error that says which rounds a method takes."""
    if method == "md5crypt":
        return Refused(Reason.ROUNDS, f"rounds must be {_ROUNDS[method]}")
    recommended = policy_limit(Numbers(METHODS[method], 0, 0), method).report.rounds
    return Refused(Reason.ROUNDS, f"rounds must be {_ROUNDS[method]}, or 0 for {recommended}")


def new_salt(method: str) -> str:
    """Returns a salt from the system's random bytes, as long as those of the library."""
    return "".join(_SALT_CHARACTERS[byte & 63] for byte in os.urandom(_SALT_LENGTHS[method]))


def error_from(answer: Answer, limit: int = NO_LIMIT) -> Exception:
    """Returns the exception for a call of the library that failed with this budget."""
    reason = answer.reason
    text = message(answer.report.error)
    if reason is Reason.OVER_BUDGET:
        return TooCostly(answer.report.cost, limit)
    if reason in (Reason.PASSWORD_TOO_LONG, Reason.PASSWORD_ZERO_BYTE):
        return ValueError(text)
    if reason is Reason.OUT_OF_MEMORY:
        return MemoryError(text)
    if reason is Reason.NO_RANDOM_NUMBERS:
        return OSError(text)
    return Refused(reason, text)
