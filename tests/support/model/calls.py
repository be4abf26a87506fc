"""A model of the calls for C: what each returns, reports and leaves in `out`, as mkpasswd.h says.

A call's arguments have the names of the header, and a policy is three numbers. None stands for a
null pointer, which an exported call doesn't accept. The inline calls treat a null password as one
with a zero byte, a null field or salt as empty, and a null `out` as a buffer of no bytes.
"""
from __future__ import annotations

import dataclasses
import enum
import functools
import re
from abc import ABC, abstractmethod
from dataclasses import dataclass
from typing import Any, ClassVar, TypeVar

from .audits import audit_policy, is_locked, is_whole, other_scheme, rounds_text, state_of
from .hashes import hash_of
from .methods import (
    ALPHABET,
    BITS_OF_DIGIT,
    DIGIT,
    MD5CRYPT,
    SCRYPT,
    SHA256CRYPT,
    SHA512CRYPT,
    Method,
)
from .settings import (
    LEAST_ROUNDS,
    LOG_N_OF_COST_0,
    MOST_ROUNDS,
    SCRYPT_COSTS,
    Refused,
    ScryptCost,
    Setting,
    read_setting,
    recommended_setting,
)
from .work import (
    HIGHEST_BYTE,
    LONGEST_PASSWORD,
    Work,
    cost,
    fitted_setting,
    login_limit,
    work_of,
    work_of_length,
)

TEXT_SIZE = 145  # bytes: enough for any hash, setting or message
BUDGET = 150_000_000  # enough for the hashes of these tests
GREATEST = 2**64 - 1  # the greatest number of 64 bits
RANDOM_BYTES = 24  # that mkpasswd_new asks the system for
NUMBER_SIZE = 8  # bytes of a random number
DIGITS_OF_NUMBER = 10  # characters of a salt that one random number gives


class Reason(enum.IntEnum):
    """Why a call fails: its name in the header, its message, and its number, counted from 1."""

    def __new__(cls, _message: str) -> Reason:
        number = len(cls.__members__) + 1
        member = int.__new__(cls, number)
        member._value_ = number
        return member

    def __init__(self, message: str) -> None:
        self.message = message

    PASSWORD_TOO_LONG = "password too long"
    PASSWORD_ZERO_BYTE = "password has a zero byte"
    SETTING_TOO_LONG = "setting too long"
    BAD_CHARACTER = "bad character"
    UNKNOWN_SCHEME = "unknown scheme"
    BAD_ROUNDS = "bad rounds"
    BAD_COST = "bad cost"
    SCRYPT_RANGE = "scrypt range"
    ABOVE_CEILING = "above ceiling"
    BAD_SALT = "bad salt"
    UNKNOWN_METHOD = "unknown method"
    SALT_LENGTH = "salt length"
    SALT_CHARACTER = "salt character"
    ROUNDS = "rounds out of range"
    LOCKED = "locked"
    NO_HASH = "no hash"
    NO_SCHEME = "no scheme"
    OVER_BUDGET = "over budget"
    TOO_FEW_BYTES = "too few bytes"
    NO_RANDOM_NUMBERS = "no random numbers"
    OUT_OF_MEMORY = "out of memory"
    WRONG_PASSWORD = "wrong password"
    DEAD = "dead"


class Form(enum.Enum):
    """How a call is made: through the exported function, or in two ways through the inline one."""

    EXPORTED = "pointers and lengths"
    LENGTHS = "a password and a field made of bytes"
    STRINGS = "a password and a field made of strings"


OF_A_SETTING = {
    reason.message: reason
    for reason in (
        Reason.SETTING_TOO_LONG,
        Reason.BAD_CHARACTER,
        Reason.UNKNOWN_SCHEME,
        Reason.BAD_ROUNDS,
        Reason.BAD_COST,
        Reason.SCRYPT_RANGE,
        Reason.ABOVE_CEILING,
        Reason.BAD_SALT,
    )
}
# A login hashes the password even if it fails for one of these reasons.
WITHOUT_A_HASH = {*OF_A_SETTING.values(), Reason.OVER_BUDGET, Reason.LOCKED, Reason.NO_HASH}
ERRORS_OF_AUDITS = {"over budget": Reason.OVER_BUDGET, "dead": Reason.DEAD}
AnyCall = TypeVar("AnyCall", bound="Call")
# The header's numbers for other schemes of crypt(5).
NUMBERS_OF_OTHERS: dict[str | None, int] = {
    "yescrypt": 101,
    "gost-yescrypt": 102,
    "bcrypt": 103,
    "NT": 104,
    "sha1crypt": 105,
    "SunMD5": 106,
    "bsdicrypt": 107,
    "descrypt": 108,
}
METHODS = {1: MD5CRYPT, 5: SHA256CRYPT, 6: SHA512CRYPT, 7: SCRYPT}
RECOMMENDED_METHOD = 6


class CallRefused(Exception):
    """Raised with the reason if a call returns 0."""

    def __init__(self, reason: Reason) -> None:
        super().__init__(reason.message)
        self.reason = reason


@dataclass(frozen=True)
class System:
    """What the system provides during calls: memory and random bytes."""

    refused_allocation: int = 0  # which allocation of a call fails, from 1; 0 for none
    random_bytes: bytes | None = None  # None if the system gives none
    is_real: bool = False  # whether the random bytes are the real system's, which are unknown

    @property
    def numbers(self) -> tuple[int, int, int]:
        """The random bytes as numbers."""
        text = self.random_bytes
        if text is None:
            raise CallRefused(Reason.NO_RANDOM_NUMBERS)
        first, second, third = (
            int.from_bytes(text[start : start + NUMBER_SIZE], "little")
            for start in (0, NUMBER_SIZE, 2 * NUMBER_SIZE)
        )
        return first, second, third


@dataclass(frozen=True)
class Answer:
    """What a call returns, reports and leaves in `out`, and what it asks the system for."""

    result: int
    error: int = 0
    outdated: int = 0
    length: int = 0
    cost: int = 0
    digests: int = 0
    bytes: int = 0
    mixes: int = 0
    table: int = 0
    scratch: int = 0
    rounds: int = 0
    scheme: int = 0
    n: int = 0
    r: int = 0
    p: int = 0
    allocations: int = 0
    kept: int = 0  # allocations that aren't freed
    drawn: int = 0  # random bytes
    out: str = "unchanged"  # otherwise a string in quotes


@dataclass
class Report:
    """What a call has reported and done so far in the model."""

    system: System
    cost: int = 0
    work: Work = Work()
    scratch: int = 0
    allocations: int = 0
    drawn: int = 0
    is_outdated: bool = False
    length: int = 0
    rounds: int = 0
    scheme: int = 0
    scrypt: ScryptCost | None = None
    result_text: bytes = b""  # for `out`

    def give(self, text: bytes) -> None:
        """Reports the text for `out`."""
        self.result_text = text
        self.length = len(text)

    def limit_cost(self, setting: Setting, length: int, budget: int) -> None:
        """Reports the cost of hashing a password of this length. Refuses a cost over the budget."""
        self.cost = cost(setting, length)
        if self.cost > budget:
            raise CallRefused(Reason.OVER_BUDGET)

    def hash(self, setting: Setting, password: bytes) -> bytes:
        """Hashes a password, reports the work, and returns the hash."""
        self.allocate(setting)
        self.work = work_of(setting, password)
        text = hash_of(setting, password)
        assert text is not None, "the tests have only passwords whose hashes are known"
        return text

    def allocate(self, setting: Setting) -> None:
        """Allocates scrypt's table, its blocks and two blocks to mix; nothing for other methods."""
        if setting.scrypt is None:
            return
        self.next_allocation()
        self.work = Work(memory=work_of_length(setting, 0, 0).memory)
        self.next_allocation()
        self.scratch = setting.scrypt.block_size * setting.scrypt.p
        self.next_allocation()
        self.scratch = scratch_of(setting)

    def next_allocation(self) -> None:
        """Counts an allocation. Raises CallRefused if the system refuses it."""
        self.allocations += 1
        if self.allocations == self.system.refused_allocation:
            raise CallRefused(Reason.OUT_OF_MEMORY)

    def answer(self, result: bool, error: int, out: str) -> Answer:
        """Returns the answer of a call with this result."""
        return Answer(
            result=int(result),
            error=error,
            outdated=int(self.is_outdated),
            length=self.length,
            cost=self.cost,
            digests=self.work.digests,
            bytes=self.work.hashed,
            mixes=self.work.mixings,
            table=self.work.memory,
            scratch=self.scratch,
            rounds=self.rounds,
            scheme=self.scheme,
            n=1 << self.scrypt.log_n if self.scrypt else 0,
            r=self.scrypt.r if self.scrypt else 0,
            p=self.scrypt.p if self.scrypt else 0,
            allocations=self.allocations,
            drawn=self.drawn,
            out=out,
        )


def scratch_of(setting: Setting) -> int:
    """Returns how many bytes scrypt allocates in addition to its table."""
    if setting.scrypt is None:
        return 0
    blocks_to_mix = 2
    return setting.scrypt.block_size * (setting.scrypt.p + blocks_to_mix)


def checked_password(password: bytes | None) -> bytes:
    """Returns the password, or refuses one that no call accepts."""
    if password is None:
        raise CallRefused(Reason.PASSWORD_ZERO_BYTE)
    if len(password) > LONGEST_PASSWORD:
        raise CallRefused(Reason.PASSWORD_TOO_LONG)
    if b"\0" in password:
        raise CallRefused(Reason.PASSWORD_ZERO_BYTE)
    return password


def setting_of(text: bytes | None) -> Setting:
    """Returns the setting that a text begins with."""
    try:
        return read_setting(text or b"")
    except Refused as refusal:
        raise CallRefused(OF_A_SETTING[str(refusal)]) from None


def setting_of_field(field: bytes | None) -> Setting:
    """Returns the setting of a stored field, or refuses an empty or locked one."""
    if not field:
        raise CallRefused(Reason.NO_HASH)
    if is_locked(field):
        raise CallRefused(Reason.LOCKED)
    return setting_of(field)


def method_of(number: int, rounds: int, *, are_clamped: bool) -> Method:
    """Returns the method of new hashes. Refuses invalid rounds, unless SHA-crypt clamps them."""
    method = METHODS.get(number or RECOMMENDED_METHOD)
    if method is None:
        raise CallRefused(Reason.UNKNOWN_METHOD)
    if rounds == 0 or method is MD5CRYPT:
        return method
    if method is SCRYPT:
        is_valid = rounds in SCRYPT_COSTS
    else:
        is_valid = are_clamped or LEAST_ROUNDS <= rounds <= MOST_ROUNDS
    if not is_valid:
        raise CallRefused(Reason.ROUNDS)
    return method


def salt_of(numbers: tuple[int, int, int], length: int) -> bytes:
    """Returns the salt that random numbers give: six bits per character, the lowest bits first."""
    digits = [
        numbers[place // DIGITS_OF_NUMBER] >> BITS_OF_DIGIT * (place % DIGITS_OF_NUMBER) & 63
        for place in range(length)
    ]
    return bytes(ALPHABET[digit] for digit in digits)


def limit_of(method: Method, rounds: int, budget: int, password: bytes) -> int:
    """Returns the limit of a login or a new hash: the budget, or the policy's limit if it is 0."""
    return budget or login_limit(method, rounds, len(password))


class Call(ABC):
    """A call of the library, with its arguments."""

    name: ClassVar[str]
    forms: ClassVar[tuple[Form, ...]] = tuple(Form)
    form: Form

    @property
    def values(self) -> dict[str, Any]:
        """The arguments by their names."""
        names = [field.name for field in dataclasses.fields(self) if field.name != "form"]
        return {name: getattr(self, name) for name in names}

    @property
    def row(self) -> str:
        """The call as a line for tests/c/calls.c."""
        words = [self.name + ("_bytes" if self.form is Form.EXPORTED else "")]
        for name, value in self.values.items():
            shown = "null" if value is None else str(value)
            if isinstance(value, bytes):
                shown = value.hex()
            if self.form is Form.STRINGS and name in NAMES_OF_BYTES:
                shown = f"text:{shown}"
            words.append(f"{name}={shown}")
        return " ".join(words)

    def can_have(self, form: Form) -> bool:
        """Returns whether this form can pass the call's arguments."""
        values = self.values.values()
        if form is Form.EXPORTED:
            return None not in values
        has_zero_byte = any(isinstance(value, bytes) and b"\0" in value for value in values)
        return not (form is Form.STRINGS and has_zero_byte)

    def expected(self, system: System) -> Answer:
        """Returns the answer that the call must give."""
        report = Report(system)
        result, error = False, 0
        try:
            result = self.evaluate(report)
        except CallRefused as refusal:
            error = refusal.reason
        return report.answer(result, error, self.out_after(result, report.result_text))

    def out_after(self, result: bool, text: bytes) -> str:
        """Returns what the call leaves in `out`, which some calls don't have."""
        del result, text
        return "unchanged"

    @abstractmethod
    def evaluate(self, report: Report) -> bool:
        """Returns the call's result, and fills the report. Raises CallRefused for an error."""


NAMES_OF_BYTES = ("password", "field", "stored", "setting", "salt")


def in_each_form(*calls: AnyCall) -> list[AnyCall]:
    """Returns each call in every form that it has and that can pass its arguments."""
    return [
        dataclasses.replace(call, form=form)
        for call in calls
        for form in call.forms
        if call.can_have(form)
    ]


class CallWithOut(Call):
    """A call that writes a string."""

    out_size: int | None
    token: ClassVar[bytes] = b"*0"

    def out_after(self, result: bool, text: bytes) -> str:
        if not self.out_size:
            return "unchanged"
        return quoted(text if result else self.token_for_refusal[: self.out_size - 1])

    @property
    def token_for_refusal(self) -> bytes:
        """The string that a refused call writes to `out`. No password matches it."""
        return self.token

    def require_room(self, length: int) -> None:
        """Refuses a text of this length if it doesn't fit into `out`."""
        if (self.out_size or 0) <= length:
            raise CallRefused(Reason.TOO_FEW_BYTES)


def quoted(text: bytes) -> str:
    """Returns a string as tests/c/calls.c prints it."""
    return f'"{text.decode("latin-1")}"'


def length_of_hash(setting: Setting) -> int:
    """Returns the length of a hash with this setting."""
    return len(setting.text) + 1 + setting.method.hash_length


@dataclass(frozen=True)
class Verify(Call):
    """mkpasswd_verify."""

    name = "verify"
    password: bytes | None
    stored: bytes | None
    budget: int = BUDGET
    form: Form = Form.EXPORTED

    def evaluate(self, report: Report) -> bool:
        password = checked_password(self.password)
        setting = setting_of_field(self.stored)
        report.limit_cost(setting, len(password), self.budget)
        if report.hash(setting, password) != self.stored:
            raise CallRefused(Reason.WRONG_PASSWORD)
        return True


@dataclass(frozen=True)
class Login(Call):
    """mkpasswd_login."""

    name = "login"
    password: bytes | None
    field: bytes | None
    method: int = 0
    rounds: int = 0
    budget: int = BUDGET
    form: Form = Form.EXPORTED

    def evaluate(self, report: Report) -> bool:
        password = checked_password(self.password)
        method = method_of(self.method, self.rounds, are_clamped=False)
        policy = recommended_setting(method, self.rounds)
        limit = limit_of(method, self.rounds, self.budget, password)
        try:
            return self.evaluate_field(report, password, policy, limit)
        except CallRefused as refusal:
            if refusal.reason in WITHOUT_A_HASH and cost(policy, len(password)) <= limit:
                hash_and_drop(report, policy, password)
            raise

    def evaluate_field(self, report: Report, password: bytes, policy: Setting, limit: int) -> bool:
        """Returns mkpasswd_verify's result, refuses dead hashes, and reports outdated ones."""
        setting = setting_of_field(self.field)
        report.limit_cost(setting, len(password), limit)
        if report.hash(setting, password) == self.field:
            report.is_outdated = setting.is_replaced_by(policy)
            return True
        is_dead = not is_whole(setting, self.field or b"")
        raise CallRefused(Reason.DEAD if is_dead else Reason.WRONG_PASSWORD)


def hash_and_drop(report: Report, policy: Setting, password: bytes) -> None:
    """Does the work of a new hash, or as much of it as the memory allows."""
    report.allocate(policy)
    report.work = work_of(policy, password)


@dataclass(frozen=True)
class New(CallWithOut):
    """mkpasswd_new."""

    name = "new"
    password: bytes | None
    method: int = 0
    rounds: int = 0
    budget: int = 0
    out_size: int | None = TEXT_SIZE
    form: Form = Form.EXPORTED

    def evaluate(self, report: Report) -> bool:
        password = checked_password(self.password)
        method = method_of(self.method, self.rounds, are_clamped=False)
        setting = recommended_setting(method, self.rounds)
        limit = limit_of(method, self.rounds, self.budget, password)
        report.limit_cost(setting, len(password), limit)
        self.require_room(length_of_hash(setting))
        report.drawn = RANDOM_BYTES
        salt = salt_of(report.system.numbers, method.drawn_salt)
        setting = recommended_setting(method, self.rounds, salt)
        report.give(report.hash(setting, password))
        return True


@dataclass(frozen=True)
class NewOver(New):
    """mkpasswd_new, called with the password in `out`, which the hash overwrites."""

    name = "new_over"
    forms = ()

    @property
    def row(self) -> str:
        return super().row.replace("new_over_bytes", "new_over", 1)


@dataclass(frozen=True)
class NeedsRehash(Call):
    """mkpasswd_needs_rehash."""

    name = "needs_rehash"
    stored: bytes | None
    method: int = 0
    rounds: int = 0
    form: Form = Form.EXPORTED

    def evaluate(self, report: Report) -> bool:
        setting = setting_of(self.stored)
        method = method_of(self.method, self.rounds, are_clamped=True)
        report.is_outdated = setting.is_replaced_by(recommended_setting(method, self.rounds))
        return report.is_outdated


def error_of_audit(stored: bytes, reason: Reason) -> Reason:
    """Returns an audit's error for a field whose setting is refused for this reason."""
    if reason in (Reason.NO_HASH, Reason.LOCKED):
        return reason
    if stored.startswith(b"$"):
        return reason if other_scheme(stored) is None else Reason.UNKNOWN_SCHEME
    return Reason.NO_SCHEME if other_scheme(stored) is None else Reason.UNKNOWN_SCHEME


@dataclass(frozen=True)
class Audit(Call):
    """mkpasswd_audit."""

    name = "audit"
    stored: bytes | None
    method: int = 0
    rounds: int = 0
    budget: int = 0
    form: Form = Form.EXPORTED

    def evaluate(self, report: Report) -> bool:
        method = method_of(self.method, self.rounds, are_clamped=False)
        policy = audit_policy(method, self.rounds, self.budget)
        stored = self.stored or b""
        try:
            setting = setting_of_field(stored)
        except CallRefused as refusal:
            name = None if is_locked(stored) else other_scheme(stored)
            report.scheme = NUMBERS_OF_OTHERS.get(name, 0)
            raise CallRefused(error_of_audit(stored, refusal.reason)) from None
        report.cost = cost(setting, LONGEST_PASSWORD)
        report.scheme = int(setting.text[1:2])
        report.scrypt = setting.scrypt
        if setting.scrypt is None:
            report.rounds = int(rounds_text(setting))
        state = state_of(policy, setting, stored)
        if state in ERRORS_OF_AUDITS:
            raise CallRefused(ERRORS_OF_AUDITS[state])
        report.is_outdated = state == "outdated"
        return not report.is_outdated


WITHOUT_BYTES = (Form.EXPORTED, Form.LENGTHS)


@functools.cache
def costs_by_length(setting: Setting) -> list[int]:
    """Returns the cost of a hash for each length of the password."""
    return [cost(setting, length) for length in range(LONGEST_PASSWORD + 1)]


def rounds_of(setting: Setting) -> int:
    """Returns the argument `rounds` that gives new hashes this setting."""
    if setting.scrypt is not None:
        return setting.scrypt.log_n - LOG_N_OF_COST_0
    return 0 if setting.method is MD5CRYPT else setting.rounds


@dataclass(frozen=True)
class Limit(Call):
    """mkpasswd_limit, which takes no strings."""

    name = "limit"
    forms = WITHOUT_BYTES
    method: int = 0
    rounds: int = 0
    budget: int = 0
    form: Form = Form.EXPORTED

    def evaluate(self, report: Report) -> bool:
        method = method_of(self.method, self.rounds, are_clamped=False)
        setting = recommended_setting(method, self.rounds)
        report.cost = limit_of(method, self.rounds, self.budget, b"")
        costs = enumerate(costs_by_length(setting))
        within = [length for length, price in costs if price <= report.cost]
        if not within:
            raise CallRefused(Reason.OVER_BUDGET)
        report.length = max(within)
        report.rounds = rounds_of(setting)
        return True


@dataclass(frozen=True)
class Rounds(Call):
    """mkpasswd_rounds, which takes no strings."""

    name = "rounds"
    forms = WITHOUT_BYTES
    password_length: int
    method: int = 0
    rounds: int = 0
    budget: int = 0
    form: Form = Form.EXPORTED

    def evaluate(self, report: Report) -> bool:
        if self.password_length > LONGEST_PASSWORD:
            raise CallRefused(Reason.PASSWORD_TOO_LONG)
        method = method_of(self.method, self.rounds, are_clamped=False)
        setting = recommended_setting(method, self.rounds)
        limit = limit_of(method, self.rounds, self.budget, b"")
        fitted = fitted_setting(setting, limit, self.password_length)
        report.cost = cost(fitted or setting, self.password_length)
        if fitted is None:
            raise CallRefused(Reason.OVER_BUDGET)
        report.rounds = rounds_of(fitted)
        return True


@dataclass(frozen=True)
class Bound(Call):
    """mkpasswd_bound."""

    name = "bound"
    setting: bytes | None
    password_length: int = 8
    form: Form = Form.EXPORTED

    def evaluate(self, report: Report) -> bool:
        if self.password_length > LONGEST_PASSWORD:
            raise CallRefused(Reason.PASSWORD_TOO_LONG)
        setting = setting_of(self.setting)
        report.cost = cost(setting, self.password_length)
        report.work = work_of_length(setting, self.password_length, HIGHEST_BYTE)
        report.scratch = scratch_of(setting)
        return True


@dataclass(frozen=True)
class Hash(CallWithOut):
    """mkpasswd_hash."""

    name = "hash"
    password: bytes | None
    setting: bytes | None
    budget: int = BUDGET
    out_size: int | None = TEXT_SIZE
    form: Form = Form.EXPORTED

    def evaluate(self, report: Report) -> bool:
        password = checked_password(self.password)
        setting = setting_of(self.setting)
        report.limit_cost(setting, len(password), self.budget)
        self.require_room(length_of_hash(setting))
        report.give(report.hash(setting, password))
        return True

    @property
    def token_for_refusal(self) -> bytes:
        return b"*1" if (self.setting or b"").startswith(b"*0") else b"*0"


@dataclass(frozen=True)
class MakeSetting(CallWithOut):
    """mkpasswd_setting. The inline call takes the salt as a string."""

    name = "setting"
    forms = (Form.EXPORTED, Form.STRINGS)
    method: int
    rounds: int
    salt: bytes | None
    out_size: int | None = TEXT_SIZE
    form: Form = Form.EXPORTED

    def evaluate(self, report: Report) -> bool:
        method = METHODS.get(self.method or RECOMMENDED_METHOD)
        if method is None:
            raise CallRefused(Reason.UNKNOWN_METHOD)
        salt = self.salt or b""
        if not 1 <= len(salt) <= method.longest_salt:
            raise CallRefused(Reason.SALT_LENGTH)
        if not re.fullmatch(rb"%b*" % DIGIT, salt):
            raise CallRefused(Reason.SALT_CHARACTER)
        method_of(self.method, self.rounds, are_clamped=False)
        text = recommended_setting(method, self.rounds, salt).text
        self.require_room(len(text))
        report.give(text)
        return True


class Text(Call):
    """A call without a report, which writes a text to `out`."""

    forms = WITHOUT_BYTES
    texts: ClassVar[dict[int, str]]  # by number
    unknown: ClassVar[str]
    out_size: int | None

    @property
    @abstractmethod
    def number(self) -> int:
        """The number whose text the call writes."""

    def evaluate(self, report: Report) -> bool:
        raise NotImplementedError

    def expected(self, system: System) -> Answer:
        text = self.texts.get(self.number, self.unknown).encode()
        if not self.out_size:
            return Answer(0)
        has_room = self.out_size > len(text)
        is_known = self.number in self.texts
        return Answer(int(is_known and has_room), out=quoted(text[: self.out_size - 1]))


@dataclass(frozen=True)
class SchemeName(Text):
    """mkpasswd_scheme_name."""

    name = "scheme_name"
    texts = {
        **{number: method.name for number, method in METHODS.items()},
        **{number: name for name, number in NUMBERS_OF_OTHERS.items() if name},
    }
    unknown = "unknown scheme"
    scheme: int
    out_size: int | None = TEXT_SIZE
    form: Form = Form.EXPORTED

    @property
    def number(self) -> int:
        return self.scheme


@dataclass(frozen=True)
class Message(Text):
    """mkpasswd_message."""

    name = "message"
    texts = {int(reason): reason.message for reason in Reason}
    unknown = "unknown reason"
    error: int
    out_size: int | None = TEXT_SIZE
    form: Form = Form.EXPORTED

    @property
    def number(self) -> int:
        return self.error


@dataclass(frozen=True)
class Version(Call):
    """mkpasswd_version."""

    name = "version"
    form: Form = Form.EXPORTED

    @property
    def row(self) -> str:
        return self.name

    def evaluate(self, report: Report) -> bool:
        raise NotImplementedError
