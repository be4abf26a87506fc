"""The calls of the library that pwhash makes. Only this module uses private modules of mkpasswd.

Each hash and each verdict is one proved call. Calls that hash let other threads run meanwhile.
"""

from __future__ import annotations

import enum
import functools
from typing import NamedTuple, Optional, Union

import mkpasswd
from mkpasswd import Reason, _calls, _library
from mkpasswd._library import PASSWORD_LIMIT, Answer, Numbers

from pwhash.errors import Stop

METHODS = ("sha512crypt", "sha256crypt", "md5crypt", "scrypt")
LONGEST_PASSWORD = PASSWORD_LIMIT  # in bytes
LENGTH_OF_LIMITS = 64  # of the password whose cost sets the library's own limits
MAX_ROUNDS, MAX_BUDGET = 2**32 - 1, 2**64 - 1


class RefusedRounds(Exception):
    """Rounds that new hashes of a method can't have."""


class RefusedSalt(Exception):
    """A salt that a method can't have. The message says why."""


class Limit(NamedTuple):
    """What a method, rounds and a budget allow."""

    budget: int  # the most that a new hash or a login may cost, in bytes
    longest: Optional[int]  # the length of the longest password within it, or None
    rounds: int  # of new hashes


class Policy(NamedTuple):
    """How new hashes are made, and what a line may cost."""

    method: str
    rounds: int
    budget: int
    longest: Optional[int]  # the length of the longest password within the budget, or None
    setting: Optional[bytes]  # with the salt of -S, or None for new salts

    @property
    def numbers(self) -> Numbers:
        """The policy as the library takes it."""
        return Numbers(_calls.METHODS[self.method], self.rounds, self.budget)


class Verdict(enum.Enum):
    """The result of checking a password against a stored field. The value is what is printed."""

    MATCH = b"ok"
    WRONG = b"no"
    NO_HASH = b"none"
    LOCKED = b"locked"


class Refusal(NamedTuple):
    """Why a line gets no hash or verdict, with mkpasswd's message."""

    message: str


VERDICTS = {
    Reason.WRONG_PASSWORD: Verdict.WRONG,
    Reason.DEAD: Verdict.WRONG,
    Reason.NO_HASH: Verdict.NO_HASH,
    Reason.LOCKED: Verdict.LOCKED,
}
OVER_BUDGET = Refusal(Reason.OVER_BUDGET.message)
PASSWORD_TOO_LONG = Refusal(Reason.PASSWORD_TOO_LONG.message)
PASSWORD_ZERO_BYTE = Refusal(Reason.PASSWORD_ZERO_BYTE.message)


def version() -> str:
    """Returns the version of the library and of pwhash, which is the same."""
    return mkpasswd.__version__


def limit(method: str, rounds: Optional[int], budget: Optional[int]) -> Limit:
    """Returns what a method allows. None stands for recommended rounds and the library's budget."""
    if rounds is not None and not 1 <= rounds <= MAX_ROUNDS:  # the library takes 0 as None
        raise RefusedRounds
    given_budget = min(budget or 0, MAX_BUDGET)
    answer = _library.limit(Numbers(_calls.METHODS[method], rounds or 0, given_budget))
    report = answer.report
    if answer.reason is Reason.ROUNDS:
        raise RefusedRounds
    if not answer.is_yes and answer.reason is not Reason.OVER_BUDGET:
        raise unexpected_report_error(answer)
    if budget == 0:  # the library takes this as None, too
        return Limit(0, None, report.rounds)
    return Limit(report.cost, report.length if answer.is_yes else None, report.rounds)


def setting(method: str, rounds: int, salt: bytes) -> bytes:
    """Returns the setting with a given salt. Raises RefusedSalt."""
    answer = _library.setting(Numbers(_calls.METHODS[method], rounds, 0), salt)
    if answer.is_yes:
        return answer.text.encode("ascii")
    if answer.reason in (Reason.SALT_LENGTH, Reason.SALT_CHARACTER):
        raise RefusedSalt(answer.reason.message)
    raise unexpected_report_error(answer)


def longest_password(given_setting: bytes, budget: int) -> Optional[int]:
    """Returns the length of the longest password within the budget, with this setting, or None.

    limit() knows that only for new salts, and a hash with a longer salt costs more.
    """
    lengths = range(PASSWORD_LIMIT + 1)
    return max((each for each in lengths if cost(given_setting, each) <= budget), default=None)


def refused_password(password: bytes) -> Optional[Refusal]:
    """Returns why a password can't be hashed, or None."""
    if len(password) > PASSWORD_LIMIT:
        return PASSWORD_TOO_LONG
    return PASSWORD_ZERO_BYTE if 0 in password else None


def is_over_budget(policy: Policy, length: int) -> bool:
    """Returns whether a new hash of a password of this length costs more than the budget."""
    return policy.longest is None or length > policy.longest


def describe_length_limit(policy: Policy) -> str:
    """Says how long a password may be under a policy."""
    if policy.longest is None:
        return "with these rounds even the empty password costs more"
    return f"with these rounds and this budget a password may have at most {policy.longest} bytes"


@functools.lru_cache(maxsize=4096)
def cost(stored: bytes, length: int) -> int:
    """Returns the most that a hash with this setting can cost, for a password of this length."""
    answer = _library.bound(stored, length)
    if not answer.is_yes:
        raise unexpected_report_error(answer)
    return answer.report.cost


def new_cost(policy: Policy, length: int) -> int:
    """Returns the most that a new hash can cost, for a password of this length."""
    if policy.setting is not None:
        return cost(policy.setting, length)
    return cost(setting_of_new_hash(policy.method, policy.rounds), length)


@functools.lru_cache(maxsize=1)
def setting_of_new_hash(method: str, rounds: int) -> bytes:
    """Returns a setting with a salt as long as those of new hashes, to find their cost."""
    return setting(method, rounds, _calls.new_salt(method).encode("ascii"))


def limit_without_floor(method: str, rounds: int) -> int:
    """Returns the library's own limit for a method and rounds, without its floor."""
    return 2 * cost(setting_of_new_hash(method, rounds), LENGTH_OF_LIMITS)


def memory_of_new_hash(policy: Policy) -> int:
    """Returns how many bytes of memory a new hash takes: 0 except with scrypt."""
    return memory(policy.setting or setting_of_new_hash(policy.method, policy.rounds))


def memory(stored: bytes) -> int:
    """Returns how many bytes of memory a hash with this setting takes: 0 for an invalid one."""
    answer = _library.bound(stored, 0)
    return answer.report.work.table + answer.report.work.scratch if answer.is_yes else 0


def new_hash(policy: Policy, password: bytes) -> Union[bytes, Refusal]:
    """Returns the hash of a password by a policy, with a new salt unless -S gave one."""
    refusal = refused_password(password)
    if refusal is not None:
        return refusal
    if is_over_budget(policy, len(password)):
        return OVER_BUDGET
    if policy.setting is not None:
        return hash_by(password, policy.setting, policy.budget)
    answer = _library.new(password, policy.numbers)
    return answer.text.encode("ascii") if answer.is_yes else refusal_from(answer)


def hash_by(password: bytes, stored: bytes, budget: int) -> Union[bytes, Refusal]:
    """Returns the hash of a password with a setting, which may be a stored hash."""
    answer = _library.hash_by(password, stored, budget)
    return answer.text.encode("ascii") if answer.is_yes else refusal_from(answer)


def verify(password: bytes, field: bytes, budget: int) -> Union[Verdict, Refusal]:
    """Checks a password against a stored field, if that costs at most the budget."""
    answer = _library.verify(password, field, budget)
    if answer.is_yes:
        return Verdict.MATCH
    verdict = VERDICTS.get(answer.reason) if answer.reason else None
    return refusal_from(answer) if verdict is None else verdict


def describe(field: bytes) -> mkpasswd.Description:
    """Describes a stored field, whatever it costs."""
    return without_budget().describe(field)


@functools.lru_cache(maxsize=None)
def without_budget() -> mkpasswd.Policy:
    """Returns a policy by which no field is over budget."""
    return mkpasswd.Policy(budget=MAX_BUDGET)


def needs_rehash(policy: Policy, field: bytes) -> bool:
    """Returns whether a new hash by the policy would replace a stored one."""
    report = _library.needs_rehash(field, policy.numbers).report
    return report.error == 0 and report.outdated == 1


def auditing_policy(policy: Policy) -> mkpasswd.Policy:
    """Returns the package's policy that judges stored fields by this one."""
    return mkpasswd.Policy(policy.method, policy.rounds or None, policy.budget or None)


def refusal_from(answer: Answer) -> Refusal:
    """Returns why a call failed. Raises Stop if the machine or the library is to blame."""
    if answer.reason is None:
        raise unexpected_report_error(answer)
    if answer.reason in (Reason.OUT_OF_MEMORY, Reason.NO_RANDOM_NUMBERS):
        raise Stop(f"{answer.reason.message}.")
    return Refusal(answer.reason.message)


def unexpected_report_error(answer: Answer) -> Stop:
    """Returns the error for a report that no library of this version makes."""
    return Stop(f"the library reports {answer.report.error}: it isn't of this version.")
