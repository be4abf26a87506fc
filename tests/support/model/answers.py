"""What the program must answer to each line, and how a run differs from that."""
from __future__ import annotations

import enum
import functools
import re
from collections import deque
from dataclasses import dataclass, replace
from typing import Iterator

from ..process import Result, Word, printable
from .audits import AuditPolicy, Finding, audit_policy, finding_of, is_locked, is_whole
from .hashes import hash_of
from .methods import BY_NAME, DIGIT, SHA512CRYPT, Method
from .settings import SETTING_REFUSALS, Refused, Setting, read_setting, setting_of_options
from .work import LONGEST_PASSWORD, Work, cost, work_of

LONGEST_LINE = 2048
LONGEST_NAME = 64
LINE_REFUSALS = (
    "line too long",
    "no name",
    "name too long",
    "no password field",
    "password too long",
    "password has a zero byte",
    *SETTING_REFUSALS,
    "over budget",
)


class Mode(enum.Enum):
    """The modes that read lines. A value is the mode's option."""

    BATCH = "--batch"
    CHECK = "--check"
    AUDIT = "--audit"


@dataclass(frozen=True)
class NewHash:
    """The options for new hashes. None means that an option isn't given."""

    method_name: str | None = None  # -m
    cost: int | None = None  # -R
    salt: bytes | None = None  # -S

    @property
    def method(self) -> Method:
        """The method of new hashes."""
        return SHA512CRYPT if self.method_name is None else BY_NAME[self.method_name]

    @property
    def words(self) -> list[Word]:
        """The options as arguments of a command."""
        words: list[Word] = []
        if self.method_name is not None:
            words += ["-m", self.method_name]
        if self.cost is not None:
            words += ["-R", self.cost]
        if self.salt is not None:
            words += ["-S", self.salt]
        return words


@dataclass(frozen=True)
class Job:
    """What a command does with the lines that it reads."""

    mode: Mode
    new_hash: NewHash = NewHash()
    is_rehash: bool = False
    shows_work: bool = False
    budget: int | None = None  # 0 means unlimited, None that the option isn't given
    first_line: int | None = None

    @property
    def words(self) -> list[Word]:
        """The options as arguments of a command."""
        words: list[Word] = [self.mode.value]
        if self.is_rehash:
            words.append("--rehash")
        if self.shows_work:
            words.append("--work")
        words += self.new_hash.words
        if self.budget is not None:
            words += ["--budget", self.budget]
        if self.first_line is not None:
            words += ["--first-line", self.first_line]
        return words

    @functools.cached_property
    def setting(self) -> Setting:
        """The setting of new hashes, with a made-up salt if the program draws one."""
        new = self.new_hash
        return setting_of_options(new.method, new.cost, new.salt)

    @functools.cached_property
    def policy(self) -> AuditPolicy:
        """The policy that an audit compares hashes with."""
        return audit_policy(self.new_hash.method, self.new_hash.cost, self.budget)


@dataclass(frozen=True)
class StoredHash:
    """A stored field that begins with a setting, in a line to check."""

    text: bytes
    setting: Setting
    is_replaced: bool  # whether a matching password gets a new hash


@dataclass(frozen=True)
class Parsed:
    """What the answer to a line needs, if the line isn't refused. Nothing is hashed yet."""

    name: bytes
    password: bytes = b""
    cost: int = 0
    finding: Finding | None = None  # of an audit
    verdict: str | None = None  # of a check that needs no hash
    stored: StoredHash | None = None  # of a check that needs a hash


def parsed(job: Job, line: bytes) -> Parsed:
    """Parses a line, or raises Refused with the reason."""
    field_count = 3 if job.mode is Mode.CHECK else 2
    if len(line) > LONGEST_LINE:
        raise Refused("line too long")
    name, *fields = line.split(b":", field_count - 1)
    if name == b"":
        raise Refused("no name")
    if len(name) > LONGEST_NAME:
        raise Refused("name too long")
    if len(fields) < field_count - 1:
        raise Refused("no password field")
    if job.mode is Mode.AUDIT:
        finding = finding_of(job.policy, fields[0].split(b":")[0])
        return Parsed(name, cost=finding.cost, finding=finding)
    result = parse_password(job, name, fields)
    if job.budget and result.cost > job.budget:
        raise Refused("over budget")
    return result


def parse_password(job: Job, name: bytes, fields: list[bytes]) -> Parsed:
    """Parses the fields of a line that has a password."""
    password = fields[-1]
    if len(password) > LONGEST_PASSWORD:
        raise Refused("password too long")
    if b"\0" in password:
        raise Refused("password has a zero byte")
    if job.mode is Mode.BATCH:
        return Parsed(name, password, cost(job.setting, len(password)))
    return parse_check(job, name, fields[0], password)


def parse_check(job: Job, name: bytes, field: bytes, password: bytes) -> Parsed:
    """Parses a line of --check."""
    if field == b"":
        return Parsed(name, password, verdict="none")
    if is_locked(field):
        return Parsed(name, password, verdict="locked")
    setting = read_setting(field)
    is_replaced = job.is_rehash and setting.is_replaced_by(job.setting)
    total = cost(setting, len(password))
    if is_replaced:
        total += cost(job.setting, len(password))
    return Parsed(name, password, total, stored=StoredHash(field, setting, is_replaced))


class Answerer:
    """Gives the expected answers to the lines of one run.

    If the program draws a salt, the model takes it from the program's answer; a salt that is drawn
    twice is wrong. It also accepts the program's verdict on scrypt hashes that it can't make.
    """

    def __init__(self, job: Job) -> None:
        self.job = job
        self.drawn_salts: set[bytes] = set()

    def answer(self, line: Parsed, received: bytes) -> tuple[bytes, bool]:
        """Returns the answer that a line must get, and whether it makes the status 1."""
        start = line.name + b":"
        if line.finding is not None:
            return start + line.finding.text.encode() + b"\n", line.finding.is_bad
        if line.verdict is not None:
            return start + line.verdict.encode() + self.work_text(Work()) + b"\n", False
        work = Work()
        if line.stored is not None:
            if self.job.shows_work:
                work = work_of(line.stored.setting, line.password)
            if not matches(line.stored, line.password, received.startswith(start + b"ok")):
                return start + b"no" + self.work_text(work) + b"\n", True
            start += b"ok"
            if not line.stored.is_replaced:
                return start + self.work_text(work) + b"\n", False
            start += b":"
        received_hash = received[len(start) :]
        setting = self.setting_of_new(received_hash)
        new = hash_of(setting, line.password) or b"(an unknown hash)"
        work += work_of(setting, line.password)
        return start + new + self.work_text(work) + b"\n", False

    def work_text(self, work: Work) -> bytes:
        """Returns what --work adds to an answer."""
        return work.text if self.job.shows_work else b""

    def setting_of_new(self, received_hash: bytes) -> Setting:
        """Returns the setting of a new hash. A drawn salt is taken from the received hash."""
        setting = self.job.setting
        if self.job.new_hash.salt is not None:
            return setting
        salt = rb"(%b{%d})" % (DIGIT, len(setting.salt))
        match = re.match(re.escape(setting.before_salt) + salt + rb"\$", received_hash)
        if match is None or match[1] in self.drawn_salts:
            return setting
        self.drawn_salts.add(match[1])
        return replace(setting, salt=match[1])


def matches(stored: StoredHash, password: bytes, is_accepted: bool) -> bool:
    """Returns whether a password matches, or the program's verdict if no hash is known."""
    if not is_whole(stored.setting, stored.text):
        return False
    text = hash_of(stored.setting, password)
    return is_accepted if text is None else text == stored.text


def lines_of(text: bytes) -> list[bytes]:
    """Splits a text into lines with their line feeds, which the last line may lack."""
    return re.findall(rb"[^\n]*\n|[^\n]+\Z", text)


@dataclass(frozen=True)
class Expected:
    """What the program must print for a line."""

    stream: str
    text: bytes
    is_bad: bool  # whether it makes the status 1


def expected_of_lines(job: Job, given: bytes, answers: deque[bytes]) -> Iterator[Expected]:
    """Yields what the program must print for each line.

    Before the next step, the caller must remove the answer to the last line from `answers`.
    """
    answerer = Answerer(job)
    for number, line in enumerate(lines_of(given), job.first_line or 1):
        try:
            parts = parsed(job, line.removesuffix(b"\n"))
        except Refused as refusal:
            yield Expected(
                "stderr", b"mkpasswd: line %d: %b\n" % (number, str(refusal).encode()), True
            )
            continue
        text, is_bad = answerer.answer(parts, answers[0] if answers else b"")
        yield Expected("stdout", text, is_bad)


def differences(job: Job, given: bytes, result: Result) -> list[str]:
    """Returns how a run differs from the model: each stream's first wrong line, and the status."""
    unread = {"stdout": deque(lines_of(result.stdout)), "stderr": deque(lines_of(result.stderr))}
    first_differences: dict[str, str] = {}
    status = 0
    given_lines = lines_of(given)
    for line, expected in zip(given_lines, expected_of_lines(job, given, unread["stdout"])):
        stream = unread[expected.stream]
        received = stream.popleft() if stream else b""
        status = max(status, int(expected.is_bad))
        if received != expected.text and expected.stream not in first_differences:
            first_differences[expected.stream] = (
                f"the line: {printable(line)}\n"
                f"expected {expected.stream}: {printable(expected.text)}\n"
                f"its {expected.stream}: {printable(received)}"
            )
    found = list(first_differences.values())
    for name, stream in unread.items():
        if stream and not first_differences:
            found.append(f"expected {name}: no more lines\nits {name}: {printable(stream[0])}")
    if result.status != status:
        found.append(f"expected status: {status}\nits status: {result.status}")
    return found
