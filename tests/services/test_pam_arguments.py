"""pam_mkpasswd.so with pamtester: its arguments, and what invalid ones do to a service."""
from __future__ import annotations

from dataclasses import dataclass

import pytest
from support.libxcrypt import crypt
from support.pam import Answer, Login, Pam, failure_of
from support.pam_fields import CURRENT, FILE, PASSWORD, SHA512

pytestmark = [pytest.mark.needs("namespaces", "pamtester"), pytest.mark.xdist_group("pam")]

RECOMMENDED = b"$6$rounds=656000$abcdefghijklmnop"
MOST_BYTES = 168  # the longest password that the default budget admits
NEEDS_64_MIB = b"$7$CU..../....abcdefgh"
TOO_LITTLE_MEMORY = ("prlimit", "--as=60000000")


@dataclass(frozen=True)
class InvalidArguments:
    """Arguments with which the module refuses all logins, and the log entry for that."""

    arguments: str
    answer: Answer
    log: str

    def __str__(self) -> str:
        return self.arguments


def invalid(argument: str) -> InvalidArguments:
    """Returns an invalid argument, after a valid file."""
    log = f"invalid argument: {argument}"
    return InvalidArguments(f"file={FILE} {argument}", Answer.BROKEN, log)


def invalid_together(arguments: str, reason: str) -> InvalidArguments:
    """Returns arguments that allow no new hash, after a valid file."""
    log = f"invalid arguments: {reason}"
    return InvalidArguments(f"file={FILE} {arguments}", Answer.BROKEN, log)


def shadow(path: str) -> InvalidArguments:
    """Returns a path of the system's own password file, which the module refuses."""
    log = f"invalid argument: file={path} is /etc/shadow"
    return InvalidArguments(f"file={path}", Answer.BROKEN, log)


def unreadable(path: str, reason: str) -> InvalidArguments:
    """Returns the path of a file that can't be read."""
    return InvalidArguments(f"file={path}", Answer.UNAVAILABLE, f"{path}: {reason}")


VALID = [
    "",
    "budget=0",
    "budget=18446744073709551615",
    "method=scrypt",
    "debug",
    "rounds=1000 budget=300000",
    "rounds=1000 try_first_pass renew",
    "use_authtok authtok_type=FTP",
]
INVALID = [
    invalid_together("budget=1", "over budget"),
    invalid_together("rounds=1000 budget=100000", "over budget"),
    invalid_together("rounds=999", "rounds out of range"),
    InvalidArguments("", Answer.BROKEN, "invalid arguments: file= is missing"),
    InvalidArguments("renew debug", Answer.BROKEN, "invalid arguments: file= is missing"),
    InvalidArguments("file=passwords", Answer.BROKEN, "invalid argument: file=passwords"),
    InvalidArguments("file=", Answer.BROKEN, "invalid argument: file="),
    invalid("budget="),
    invalid("budget=-1"),
    invalid("budget=+1"),
    invalid("budget=1x"),
    invalid("budget=18446744073709551616"),
    invalid("rounds=x"),
    invalid("rounds=4294967296"),
    invalid("method="),
    invalid("method=des"),
    invalid("renew=1"),
    invalid("budge=1"),
    invalid("nullok"),
    invalid("use_authtok=1"),
    invalid("debug1"),
    invalid("file=passwords"),  # file= is given twice
    invalid("file="),
    invalid(f"file={FILE}"),
    shadow("/etc/shadow"),
    shadow("/srv/shadow"),
    shadow("/etc/other"),
    unreadable(f"{FILE}.gone", "No such file or directory"),
    unreadable("/etc", "Is a directory"),
]


@pytest.fixture(autouse=True)
def _file(pam: Pam) -> None:
    """Writes a file with a line for the user `six`."""
    pam.machine.write(FILE, b"six:" + SHA512 + b"\n")


@pytest.fixture(scope="module", autouse=True)
def _other_names_of_shadow(pam: Pam) -> None:
    """Makes a symbolic and a hard link to the system's own file."""
    pam.machine.run("ln", "-s", "/etc/shadow", "/srv/shadow").required()
    pam.machine.run("ln", "/etc/shadow", "/etc/other").required()


@pytest.mark.parametrize("arguments", [pytest.param(words, id=words or "none") for words in VALID])
def test_the_password_is_accepted_with_valid_arguments(pam: Pam, arguments: str) -> None:
    pam.set_arguments(f"file={FILE} {arguments}")
    assert pam.login("six", PASSWORD) == Login(Answer.ACCEPTED)


@pytest.mark.parametrize("invalid_arguments", INVALID, ids=str)
def test_invalid_arguments_refuse_every_login_and_are_logged(
    pam: Pam, invalid_arguments: InvalidArguments
) -> None:
    pam.set_arguments(invalid_arguments.arguments)
    expected = Login(invalid_arguments.answer, (invalid_arguments.log,))
    assert pam.login("six", PASSWORD) == expected


@pytest.mark.parametrize(
    ("size", "answer"),
    [
        pytest.param(MOST_BYTES, Answer.ACCEPTED, id="the longest password"),
        pytest.param(MOST_BYTES + 1, Answer.REFUSED, id="one byte more"),
    ],
)
def test_the_default_budget_admits_168_bytes(pam: Pam, size: int, answer: Answer) -> None:
    pam.set_arguments(f"file={FILE}")
    password = b"a" * size
    pam.machine.write(FILE, b"full:" + crypt(password, RECOMMENDED) + b"\n")
    assert pam.login("full", password).answer is answer


def test_scrypt_without_its_memory_is_refused(pam: Pam) -> None:
    pam.set_arguments(f"file={FILE}")
    pam.machine.write(FILE, b"seven:" + crypt(PASSWORD, NEEDS_64_MIB))
    login = pam.login("seven", PASSWORD, through=TOO_LITTLE_MEMORY)
    assert login == Login(Answer.REFUSED, ("out of memory", failure_of("seven")))


def test_an_unknown_name_is_logged_for_debugging(pam: Pam) -> None:
    pam.set_arguments(f"{CURRENT} debug")
    login = pam.login("nobody", PASSWORD)
    expected = (f"{FILE}: no line has this name", failure_of(None))
    assert login == Login(Answer.REFUSED, expected)


@pytest.mark.parametrize(
    ("before", "answer"),
    [
        pytest.param("", Answer.REFUSED, id="after no module"),
        pytest.param("auth optional pam_unix.so\n", Answer.ACCEPTED, id="after one that asks"),
    ],
)
def test_use_first_pass_asks_for_no_password(pam: Pam, before: str, answer: Answer) -> None:
    lines = (
        f"auth required pam_mkpasswd.so {CURRENT} use_first_pass\naccount required pam_permit.so\n"
    )
    pam.set_stack(before + lines)
    assert pam.login("six", PASSWORD).answer is answer
