"""The C library's calls, as mkpasswd.h declares them.

A function here takes bytes and numbers as the library does, checks nothing, and returns an
`Answer`. ctypes releases the interpreter's lock while a call runs. The library keeps no pointer and
no state, so any number of threads may call at once.
"""
from __future__ import annotations

import ctypes
from typing import Any, NamedTuple, Optional, Union

from ._loaded import STRING, TEXT_SIZE, declare, read_text

from ._reasons import Reason

# The longest password in bytes, as in the header.
PASSWORD_LIMIT = 1024

_REASONS = {reason.value: reason for reason in Reason}


class Numbers(NamedTuple):
    """A policy as the library takes it. Each 0 stands for the recommended value."""

    method: int
    rounds: int
    budget: int


class Work(ctypes.Structure):
    """`struct mkpasswd_work`."""

    digests: int
    bytes: int
    mixes: int
    table: int
    scratch: int
    _fields_ = [
        ("digests", ctypes.c_uint64),
        ("bytes", ctypes.c_uint64),
        ("mixes", ctypes.c_uint64),
        ("table", ctypes.c_uint64),
        ("scratch", ctypes.c_uint64),
    ]


class Report(ctypes.Structure):
    """`struct mkpasswd_report`, which every call fills in. A new one is all zeros."""

    error: int
    outdated: int
    length: int
    scheme: int
    rounds: int
    n: int
    r: int
    p: int
    cost: int
    work: Work
    _fields_ = [
        ("error", ctypes.c_uint32),
        ("outdated", ctypes.c_uint32),
        ("length", ctypes.c_uint32),
        ("scheme", ctypes.c_uint32),
        ("rounds", ctypes.c_uint32),
        ("n", ctypes.c_uint32),
        ("r", ctypes.c_uint32),
        ("p", ctypes.c_uint32),
        ("cost", ctypes.c_uint64),
        ("work", Work),
    ]


class Answer(NamedTuple):
    """What a call returned, what it reported, and the string that it wrote to its buffer."""

    is_yes: bool
    report: Report
    text: str = ""

    @property
    def reason(self) -> Optional[Reason]:
        """Why the call failed. None if it didn't, or if only a newer library has this error."""
        return _REASONS.get(self.report.error)


_PAIR = [ctypes.c_uint32, ctypes.c_uint32]  # a method and its rounds
_BUDGET = [ctypes.c_uint64]
_REPORT = [ctypes.POINTER(Report)]
_POLICY = [*_PAIR, *_BUDGET, *_REPORT]

_LOGIN = declare("mkpasswd_login_bytes", [*STRING, *STRING, *_POLICY])
_VERIFY = declare("mkpasswd_verify_bytes", [*STRING, *STRING, *_BUDGET, *_REPORT])
_NEW = declare("mkpasswd_new_bytes", [*STRING, *_PAIR, *_BUDGET, *STRING, *_REPORT])
_HASH = declare("mkpasswd_hash_bytes", [*STRING, *STRING, *_BUDGET, *STRING, *_REPORT])
_NEEDS_REHASH = declare("mkpasswd_needs_rehash_bytes", [*STRING, *_PAIR, *_REPORT])
_AUDIT = declare("mkpasswd_audit_bytes", [*STRING, *_POLICY])
_LIMIT = declare("mkpasswd_limit_bytes", _POLICY)
_ROUNDS = declare("mkpasswd_rounds_bytes", [ctypes.c_size_t, *_POLICY])
_BOUND = declare("mkpasswd_bound_bytes", [*STRING, ctypes.c_size_t, *_REPORT])
_SETTING = declare("mkpasswd_setting_bytes", [*_PAIR, *STRING, *STRING, *_REPORT])
_SCHEME_NAME = declare("mkpasswd_scheme_name_bytes", [ctypes.c_uint32, *STRING])
_VERSION = declare("mkpasswd_version", [], ctypes.c_uint32)


def _call(call: Any, *arguments: Union[bytes, int]) -> Answer:
    """Makes a call that only writes a report."""
    report = Report()
    return Answer(call(*arguments, report) == 1, report)


def _call_for_text(call: Any, *arguments: Union[bytes, int]) -> Answer:
    """Makes a call that writes a report and a string."""
    report = Report()
    out = ctypes.create_string_buffer(TEXT_SIZE)
    is_yes = call(*arguments, out, TEXT_SIZE, report) == 1
    return Answer(is_yes, report, out.value.decode("ascii"))


def login(password: bytes, field: bytes, numbers: Numbers) -> Answer:
    """Checks a password. If the field can't be checked, this costs as much as a new hash."""
    return _call(_LOGIN, password, len(password), field, len(field), *numbers)


def verify(password: bytes, stored: bytes, budget: int) -> Answer:
    """Checks a password against a hash that costs at most the budget. 0 allows no hash."""
    return _call(_VERIFY, password, len(password), stored, len(stored), budget)


def new(password: bytes, numbers: Numbers) -> Answer:
    """Makes a new hash, with a salt from the system."""
    return _call_for_text(_NEW, password, len(password), *numbers)


def hash_by(password: bytes, setting_or_hash: bytes, budget: int) -> Answer:
    """Hashes with a setting, within a budget; 0 allows no hash. A failure leaves "*0" or "*1"."""
    return _call_for_text(
        _HASH, password, len(password), setting_or_hash, len(setting_or_hash), budget
    )


def needs_rehash(stored: bytes, numbers: Numbers) -> Answer:
    """Reports whether the stored hash is outdated."""
    return _call(_NEEDS_REHASH, stored, len(stored), numbers.method, numbers.rounds)


def audit(field: bytes, numbers: Numbers) -> Answer:
    """Reports what is wrong with a stored hash, and whether it is outdated."""
    return _call(_AUDIT, field, len(field), *numbers)


def limit(numbers: Numbers) -> Answer:
    """Reports what a hash may cost, the longest password, and the rounds of new hashes."""
    return _call(_LIMIT, *numbers)


def rounds(password_len: int, numbers: Numbers) -> Answer:
    """Reports rounds with which each password of this length is within the policy's limit."""
    return _call(_ROUNDS, password_len, *numbers)


def bound(stored: bytes, password_len: int) -> Answer:
    """Reports the most that a hash with this setting can cost."""
    return _call(_BOUND, stored, len(stored), password_len)


def setting(numbers: Numbers, salt: bytes) -> Answer:
    """Makes a setting with a given salt."""
    return _call_for_text(_SETTING, numbers.method, numbers.rounds, salt, len(salt))


def scheme_name(number: int) -> str:
    """Returns crypt(5)'s name of a scheme that an audit reports."""
    return read_text(_SCHEME_NAME, number)


def version() -> str:
    """Returns the library's version, such as "3.0.0"."""
    number: int = _VERSION()
    return f"{number // 10000}.{number // 100 % 100}.{number % 100}"
