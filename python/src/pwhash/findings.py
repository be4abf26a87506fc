"""The findings of an audit, and what to do about each."""

from __future__ import annotations

import enum
from typing import Dict, NamedTuple, Optional, Union

import mkpasswd

from pwhash import field

# Colours of text in a terminal, as in the sequence ESC [ 31 m.
RED, YELLOW, CYAN, GREEN, PLAIN = 31, 33, 36, 32, 0

# Schemes that mkpasswd can't judge, but that are no problem.
FINE_SCHEMES = frozenset(["yescrypt", "gost-yescrypt", "bcrypt"])


class Finding(enum.Enum):
    """The findings, worst first. Each has a word, the word's colour, and what to do."""

    NO_PASSWORD = (
        "no password",
        RED,
        "no password is asked for: set one, or lock the account with passwd -l NAME",
    )
    OVER_BUDGET = (
        "over budget",
        RED,
        "a login can refuse it, or take minutes: set a new password, or audit with your -R",
    )
    MALFORMED = (
        "malformed",
        RED,
        "mkpasswd takes no password, and others may fail badly, or take one: set a new password",
    )
    DEAD = (
        "dead",
        RED,
        "no password matches, since the hash was cut or changed: set a new password",
    )
    NO_SCHEME = (
        "no scheme",
        RED,
        "a password stored as it is, or a damaged hash: set a new password",
    )
    ENCODED = ("encoded", YELLOW, field.ENCODED)
    REFUSED = ("refused", YELLOW, "no line of an account: correct or remove it")
    UNKNOWN = (
        "unknown",
        CYAN,
        "another scheme, not judged: if it isn't yescrypt or bcrypt, set a new password",
    )
    OUTDATED = (
        "outdated",
        YELLOW,
        "few rounds or another method: a new password renews it, and chage -d 0 NAME asks for one",
    )
    CURRENT = ("current", GREEN, "as it should be")
    LOCKED = ("locked", PLAIN, "no password logs in")

    def __init__(self, word: str, colour: int, advice: str) -> None:
        self.word = word
        self.colour = colour
        self.advice = advice


class Judgement(NamedTuple):
    """The finding about one line. The fields are the keys of --json."""

    line: int
    name: str
    method: Optional[str]
    rounds: Union[int, str, None]  # scrypt has N/r/p
    cost: Optional[int]
    finding: Finding
    message: Optional[str]
    problem: bool
    prefix: Optional[str] = None  # in front of the hash, such as {SHA512-CRYPT}


# The rank of each finding; 0 is the worst.
SEVERITY: Dict[Finding, int] = {finding: place for place, finding in enumerate(Finding)}
BY_STATE: Dict[mkpasswd.State, Finding] = {
    mkpasswd.State.NONE: Finding.NO_PASSWORD,
    mkpasswd.State.OVER_BUDGET: Finding.OVER_BUDGET,
    mkpasswd.State.MALFORMED: Finding.MALFORMED,
    mkpasswd.State.DEAD: Finding.DEAD,
    mkpasswd.State.NO_SCHEME: Finding.NO_SCHEME,
    mkpasswd.State.UNKNOWN: Finding.UNKNOWN,
    mkpasswd.State.OUTDATED: Finding.OUTDATED,
    mkpasswd.State.CURRENT: Finding.CURRENT,
    mkpasswd.State.LOCKED: Finding.LOCKED,
}


def judge(
    number: int, name: str, description: mkpasswd.Description, prefix: Optional[str]
) -> Judgement:
    """Returns the judgement on the stored field of an account."""
    finding = BY_STATE[description.state]
    rounds: Union[int, str, None] = description.rounds
    if description.n is not None:
        rounds = f"{description.n}/{description.r}/{description.p}"
    is_fine_scheme = finding is Finding.UNKNOWN and description.scheme in FINE_SCHEMES
    is_fine = is_fine_scheme or finding in (Finding.CURRENT, Finding.LOCKED)
    message = description.reason.message if description.reason else None
    return Judgement(
        line=number,
        name=name,
        method=description.scheme,
        rounds=rounds,
        cost=description.cost,
        finding=finding,
        message=message,
        problem=not is_fine,
        prefix=prefix,
    )


def judge_refused_line(number: int, message: str) -> Judgement:
    """Returns the judgement on a line that isn't an account's."""
    return judge_without_hash(number, f"line {number}", Finding.REFUSED, message)


def judge_encoded(number: int, name: str) -> Judgement:
    """Returns the judgement on a hash in Base64."""
    return judge_without_hash(number, name, Finding.ENCODED, None)


def judge_without_hash(
    number: int, name: str, finding: Finding, message: Optional[str]
) -> Judgement:
    """Returns the judgement on a line in which there is no hash to describe."""
    return Judgement(
        line=number,
        name=name,
        method=None,
        rounds=None,
        cost=None,
        finding=finding,
        message=message,
        problem=True,
    )
