"""pam_mkpasswd.so with pamtester: its answer to each name and field of a file.

The log is the same for all wrong passwords, so that it doesn't give them away.
"""
from __future__ import annotations

from collections.abc import Iterator
from dataclasses import dataclass

import pytest
from support.pam import Answer, Login, Pam, failure_of
from support.pam_fields import CURRENT, CUT, FILE, HASHES, HOSTILE, OTHERS, OURS, PASSWORD, SHA512

pytestmark = [pytest.mark.needs("namespaces", "pamtester"), pytest.mark.xdist_group("pam")]


@dataclass(frozen=True)
class Line:
    """A line of the file, and what a login with it gets."""

    title: str
    name: str
    field: bytes
    accepts: bool = False  # whether the password matches
    reason: str | None = None  # in the log, if no password can match

    def __str__(self) -> str:
        return self.title


def lines_of_schemes() -> Iterator[Line]:
    """Yields a line for each scheme. The module refuses schemes other than ours."""
    for scheme in OURS:
        yield Line(scheme, scheme, HASHES[scheme], accepts=True)
    for scheme in OTHERS:
        yield Line(scheme, scheme, HASHES[scheme], reason="unknown scheme")


LINES = [
    *lines_of_schemes(),
    Line("a name with a blank", "a b", SHA512, accepts=True),
    Line("a name that others begin with", "last", SHA512, accepts=True),
    Line("a name like a setting", "$5$x", SHA512, accepts=True),
    Line("more fields after the hash", "more", SHA512 + b":19000:0:", accepts=True),
    Line("a locked hash", "locked", b"!" + SHA512),
    Line("a star", "starred", b"*"),
    Line("an empty field", "empty", b""),
    Line("a name that is locked in its first line", "twice", b"!"),
    Line("a name that has a hash in its second line", "twice", SHA512),
    Line("no name", "", SHA512),
    Line("a name with a colon", "a:b", SHA512),
    Line("a comment", "#old", SHA512),
    Line("a word", "word", b"x", reason="no scheme"),
    Line("a dollar sign", "dollar", b"$", reason="unknown scheme"),
    Line("a prefix", "prefix", b"$6", reason="unknown scheme"),
    Line("a prefix glued to more", "glued", b"$5x" + SHA512[3:], reason="unknown scheme"),
    Line("a hash over the budget", "costly", HOSTILE, reason="over budget"),
    Line("a truncated hash", "cut", CUT, reason="dead"),
    Line("a zero byte", "zero", SHA512 + b"\0", reason="bad character"),
    Line("a carriage return", "carriage", SHA512 + b"\r", reason="bad character"),
    Line("a byte that is no character", "bytes", b"$y$j75$\xff", reason="bad character"),
    Line("a long field", "long", SHA512 + b"a" * 384, reason="setting too long"),
    Line("scrypt out of its range", "range", b"$7$.6..../....abcd", reason="scrypt range"),
    Line("rounds that aren't a number", "rounds", b"$6$rounds=x$", reason="bad rounds"),
]
UNKNOWN_NAMES = [
    pytest.param("nobody", id="another name"),
    pytest.param("mor", id="the beginning of a name"),
    pytest.param("last\n", id="a name with a line feed after it"),
]
NOT_THE_PASSWORD = [
    pytest.param(PASSWORD[1:], id="without its first character"),
    pytest.param(b"", id="empty"),
    pytest.param(SHA512, id="the hash itself"),
    pytest.param(b"a" * 500, id="500 bytes"),
]


@pytest.fixture(scope="module", autouse=True)
def _file(pam: Pam) -> None:
    """Writes a file with all lines, the last one without a line feed."""
    lines = [line.name.encode() + b":" + line.field for line in LINES]
    pam.machine.write(FILE, b"\n".join(lines))
    pam.set_arguments(CURRENT)


def expected_log(line: Line) -> tuple[str, ...]:
    """Returns the log entries of a failed login with this line."""
    names_before = [other.name for other in LINES[: LINES.index(line)]]
    is_unknown = line.name == "" or ":" in line.name or line.name.startswith("#")
    failure = failure_of(None if is_unknown else line.name.replace(" ", "?"))
    if line.reason is None or line.name in names_before:
        return (failure,)
    return (f"{FILE}: line {LINES.index(line) + 1}: {line.reason}", failure)


@pytest.mark.parametrize("line", LINES, ids=str)
def test_the_password_matches_only_a_supported_hash(pam: Pam, line: Line) -> None:
    expected = Login(Answer.REFUSED, expected_log(line))
    if line.accepts:
        expected = Login(Answer.ACCEPTED)
    assert pam.login(line.name, PASSWORD) == expected


@pytest.mark.parametrize("password", NOT_THE_PASSWORD)
@pytest.mark.parametrize("line", LINES, ids=str)
def test_another_password_is_refused_with_the_same_log(
    pam: Pam, line: Line, password: bytes
) -> None:
    assert pam.login(line.name, password) == Login(Answer.REFUSED, expected_log(line))


@pytest.mark.parametrize("password", [pytest.param(PASSWORD, id="the one"), *NOT_THE_PASSWORD])
@pytest.mark.parametrize("name", UNKNOWN_NAMES)
def test_an_unknown_name_is_refused(pam: Pam, name: str, password: bytes) -> None:
    assert pam.login(name, password) == Login(Answer.REFUSED, (failure_of(None),))
