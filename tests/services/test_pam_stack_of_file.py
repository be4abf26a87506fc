"""pam_mkpasswd.so with pamtester: its manual's stack for users without accounts.

A module before or after it that accepts everybody changes nothing.
"""
from __future__ import annotations

import re
from dataclasses import dataclass, field
from pathlib import Path

import pytest
from support.pam import Answer, Login, Pam, failure_of, stacks_of_manual
from support.pam_fields import (
    CUT,
    HASHES,
    HOSTILE,
    PASSWORD,
    RECOMMENDED,
    SHA512,
    SHA512_RECOMMENDED,
)

pytestmark = [pytest.mark.needs("namespaces", "pamtester"), pytest.mark.xdist_group("pam stacks")]

FIELDS = {
    "costly": HOSTILE,
    "current": SHA512_RECOMMENDED,
    "cut": CUT,
    "locked": b"!" + SHA512,
    "sha512crypt": SHA512,
    "yescrypt": HASHES["yescrypt"],
}
REASONS = {"costly": "over budget", "cut": "dead", "yescrypt": "unknown scheme"}
GET_IN = ("current", "sha512crypt")
CONTENT = b"".join(b"%b:%b\n" % (name.encode(), value) for name, value in FIELDS.items())

OPEN = "auth required pam_permit.so\n"
RENEWED_FILE = "/srv/example/passwords"


@dataclass(frozen=True)
class Stack:
    """The manual's stack, perhaps with renewals, and the lines around it."""

    title: str
    before: str = ""
    after: str = ""
    renews: bool = False

    def __str__(self) -> str:
        return f"{self.title}, with renew" if self.renews else self.title

    def lines(self) -> str:
        """Returns the lines before the manual's stack, the stack, and the lines after it."""
        stack = stacks_of_manual().of_file
        if self.renews:
            stack = re.sub(r"file=\S+", f"file={RENEWED_FILE} renew", stack)
        return self.before + stack + self.after

    def file(self) -> str:
        """Returns the stack's file."""
        found = re.search(r"file=(\S+)", self.lines())
        assert found, self.lines()
        return found[1]


def stacks() -> list[Stack]:
    """Returns the manual's stack alone, and after and before a module that accepts everybody."""
    found = []
    for renews in (False, True):
        found += [
            Stack("the stack alone", renews=renews),
            Stack("pam_permit before it", before=OPEN, renews=renews),
            Stack("pam_permit after it", after=OPEN, renews=renews),
        ]
    return found


@dataclass(frozen=True)
class Visited:
    """The result of a login with the password for each name, and the file afterwards."""

    stack: Stack
    logins: dict[str, Login] = field(default_factory=dict)
    content: bytes = b""


@pytest.fixture(scope="module", name="visited", params=stacks(), ids=str)
def fixture_visited(pam: Pam, request: pytest.FixtureRequest) -> Visited:
    stack: Stack = request.param
    pam.machine.make_folder(str(Path(RENEWED_FILE).parent))
    pam.machine.write(stack.file(), CONTENT)
    pam.set_stack(stack.lines())
    pam.log.entries()
    logins = {name: pam.login(name, PASSWORD) for name in ("nobodyhere", *FIELDS)}
    return Visited(stack, logins, pam.machine.read(stack.file()))


@pytest.mark.parametrize("name", ["nobodyhere", *FIELDS])
def test_only_a_supported_hash_is_accepted(visited: Visited, name: str) -> None:
    answer = Answer.ACCEPTED if name in GET_IN else Answer.REFUSED
    assert visited.logins[name].answer is answer


@pytest.mark.parametrize("name", ["nobodyhere", *FIELDS])
def test_a_field_that_no_password_matches_is_logged(visited: Visited, name: str) -> None:
    expected = []
    if name in REASONS:
        line = list(FIELDS).index(name) + 1
        expected = [f"{visited.stack.file()}: line {line}: {REASONS[name]}"]
    if name not in GET_IN:
        expected.append(failure_of(name if name in FIELDS else None))
    assert list(visited.logins[name].log) == expected


def test_another_password_is_refused(pam: Pam, visited: Visited) -> None:
    pam.machine.write(visited.stack.file(), CONTENT)
    pam.set_stack(visited.stack.lines())
    assert pam.login("current", b"x") == Login(Answer.REFUSED, (failure_of("current"),))


def test_an_outdated_hash_is_renewed_if_renew_says_so(visited: Visited) -> None:
    has_new_hash = b"\nsha512crypt:" + RECOMMENDED in visited.content
    assert has_new_hash == visited.stack.renews, visited.content


def test_all_other_lines_stay(visited: Visited) -> None:
    pattern = rb"^sha512crypt:\$6\$rounds=656000\$\S+"
    content = re.sub(pattern, b"sha512crypt:" + SHA512, visited.content, flags=re.MULTILINE)
    assert content == CONTENT
