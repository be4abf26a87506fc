"""pam_mkpasswd.so under cachegrind: a refused login takes the same time for each field and name.

The tests count instructions, which don't depend on the machine's load.
"""
from __future__ import annotations

from dataclasses import dataclass

import pytest
from support.cachegrind import CACHEGRIND, instructions_in
from support.libxcrypt import crypt
from support.pam import Answer, Pam, answer_of
from support.pam_fields import FILE, HASHES, HOSTILE, WRONG

pytestmark = [
    pytest.mark.needs("namespaces", "pamtester", "valgrind"),
    pytest.mark.slow,
    pytest.mark.xdist_group("pam stacks"),
]

ROUNDS = 20_000  # so many that the work around a hash is below the tolerance: 180,000 instructions
ARGUMENTS = f"rounds={ROUNDS} debug"
TOLERANCE = 0.002
TOLERANCE_OF_UNREADABLE = 0.01

CURRENT = crypt(b"pass word", f"$6$rounds={ROUNDS}$abcdefghijklmnop".encode())
FIELDS = {
    "current": CURRENT,
    "cut": CURRENT[:-1],
    "costly": HOSTILE,
    "yescrypt": HASHES["yescrypt"],
    "malformed": b"$6$rounds=x$abcdefghijklmnop",
    "word": b"x",
    "empty": b"",
    "locked": b"!" + CURRENT,
}
UNKNOWN = ["nobodyhere", "", "a:b"]
UNREADABLE = [f"{FILE}.gone", "/etc"]
LONG_FILE = "/srv/long"
LINES = 20_000


@dataclass(frozen=True)
class Counted:
    """PAM's answer to a login with a wrong password, and the number of instructions."""

    answer: Answer
    instructions: int


def counted(pam: Pam, name: str) -> Counted:
    """Logs in with a wrong password."""
    pam.log.entries()
    command = (*CACHEGRIND, "pamtester", "example", name, "authenticate")
    result = pam.machine.run(*command, stdin=WRONG + b"\n")
    instructions = instructions_in(result.stderr)
    assert instructions is not None, result
    return Counted(answer_of(result), instructions)


@pytest.fixture(scope="module", autouse=True)
def _file(pam: Pam) -> None:
    """Writes a file with all fields."""
    lines = [b"%b:%b\n" % (name.encode(), field) for name, field in FIELDS.items()]
    pam.machine.write(FILE, b"".join(lines))


@pytest.fixture(scope="module", name="expected")
def fixture_expected(pam: Pam) -> int:
    """The number of instructions of a login with a current hash."""
    pam.set_arguments(f"file={FILE} {ARGUMENTS}")
    return counted(pam, "current").instructions


@pytest.mark.parametrize(
    "name", [*FIELDS, *[pytest.param(name, id=name or "empty name") for name in UNKNOWN]]
)
def test_a_wrong_password_takes_the_same_time_for_each_field_and_an_unknown_name(
    pam: Pam, expected: int, name: str
) -> None:
    pam.set_arguments(f"file={FILE} {ARGUMENTS}")
    found = counted(pam, name)
    assert found.answer is Answer.REFUSED
    assert found.instructions == pytest.approx(expected, rel=TOLERANCE)


@pytest.mark.parametrize("path", UNREADABLE)
def test_a_login_takes_the_same_time_if_the_file_cannot_be_read(
    pam: Pam, expected: int, path: str
) -> None:
    pam.set_arguments(f"file={path} {ARGUMENTS}")
    found = counted(pam, "current")
    assert found.answer is Answer.UNAVAILABLE
    assert found.instructions == pytest.approx(expected, rel=TOLERANCE_OF_UNREADABLE)


def test_a_login_takes_the_same_time_wherever_the_name_is_in_a_long_file(pam: Pam) -> None:
    others = b"".join(b"user%05d:!\n" % number for number in range(LINES))
    line = b":" + CURRENT + b"\n"
    pam.machine.write(LONG_FILE, b"user_first" + line + others + b"user_final" + line)
    pam.set_arguments(f"file={LONG_FILE} {ARGUMENTS}")
    found = [counted(pam, name).instructions for name in ("user_first", "user_final", "user_other")]
    assert found[1:] == pytest.approx([found[0]] * 2, rel=TOLERANCE)
