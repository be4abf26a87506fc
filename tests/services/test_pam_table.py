"""pam_mkpasswd.so with pamtester: its manual's table, row by row.

A row says what each call returns for a line, or for something that prevents the call. The tests
try each row with a service of root and with one of another user.
"""
from __future__ import annotations

import contextlib
from collections.abc import Callable, Iterator
from contextlib import AbstractContextManager
from dataclasses import dataclass

import pytest
from support.namespaces import Namespaces
from support.pam import Answer, Pam, displays_of_manual
from support.pam_fields import CUT, HASHES, HOSTILE, PASSWORD, SHA512, WRONG
from support.process import Word
from support.services import wait_until

pytestmark = [pytest.mark.needs("namespaces", "pamtester"), pytest.mark.xdist_group("pam")]

FOLDER = "/srv/table"
FILE = f"{FOLDER}/passwords"
ARGUMENTS = f"file={FILE} rounds=1000 budget=300000"
NEW = b"another password"
TOO_LONG = b"a" * 1000  # over the budget
OWNER = 4242

ANSWERS = {
    "SUCCESS": Answer.ACCEPTED,
    "AUTH_ERR": Answer.REFUSED,
    "PERM_DENIED": Answer.DENIED,
    "USER_UNKNOWN": Answer.UNKNOWN_NAME,
    "AUTHTOK_RECOVERY_ERR": Answer.NO_OLD_PASSWORD,
    "AUTHTOK_ERR": Answer.NOT_CHANGED,
    "AUTHTOK_LOCK_BUSY": Answer.IN_USE,
    "AUTHINFO_UNAVAIL": Answer.UNAVAILABLE,
    "SERVICE_ERR": Answer.BROKEN,
}

Blocking = Callable[[Namespaces], AbstractContextManager[object]]


def nothing(_: Namespaces) -> AbstractContextManager[None]:
    """Blocks nothing."""
    return contextlib.nullcontext()


@contextlib.contextmanager
def lock_is_held(machine: Namespaces) -> Iterator[None]:
    """Holds the lock in another process."""
    lock = f"{FILE}.mkpasswd.lock"
    machine.write(lock, b"")
    with machine.started("flock", lock, "sleep", "infinity"):
        wait_until(
            lambda: machine.run("flock", "-n", lock, "true").status != 0,
            what="a process that holds the lock",
        )
        yield
    # The disk can't be remounted read-only while a process that is ending has a removed file open.
    wait_until(
        lambda: machine.run("flock", "-n", lock, "true").status == 0,
        what="the end of the process that held the lock",
    )


@contextlib.contextmanager
def disk_is_read_only(machine: Namespaces) -> Iterator[None]:
    """Makes the file system read-only."""
    machine.run("mount", "-o", "remount,ro", "/srv").required()
    try:
        yield
    finally:
        machine.run("mount", "-o", "remount,rw", "/srv").required()


@contextlib.contextmanager
def file_is_gone(machine: Namespaces) -> Iterator[None]:
    """Puts a folder in place of the file."""
    machine.path(FILE).unlink()
    machine.make_folder(FILE)
    try:
        yield
    finally:
        machine.path(FILE).rmdir()


@dataclass(frozen=True)
class Row:
    """How to try a row of the table: a line, what is typed, and an obstacle."""

    title: str
    field: bytes | None = SHA512  # None if the name has no line
    old: bytes | None = PASSWORD  # None if nothing is typed
    new: tuple[bytes, bytes] = (NEW, NEW)
    blocking: Blocking = nothing
    arguments: str = ARGUMENTS
    is_of_line: bool = False  # whether the row is about the line, not about an obstacle

    def __str__(self) -> str:
        return self.title


def of_line(title: str, field: bytes | None, old: bytes = PASSWORD) -> Row:
    """Returns a row about the name's line."""
    return Row(title, field, old, is_of_line=True)


ROWS_OF_LINES = [
    of_line("hash of the password", SHA512),
    of_line("hash of another one", SHA512, WRONG),
    of_line("dead hash", CUT),
    of_line("hash over the budget", HOSTILE),
    of_line("another scheme", HASHES["yescrypt"]),
    of_line("malformed field", b"$6$\xff"),
    of_line("empty field", b""),
    of_line("locked field", b"!" + SHA512),
    of_line("no such line", None),
]
NO_NAME = "no name given"  # pamtester can't try this row
ROWS_OF_OBSTACLES = [
    Row("no password given", old=None),
    Row("empty new password", new=(b"", b"")),
    Row("two new passwords", new=(NEW, WRONG)),
    Row("new one over budget", new=(TOO_LONG, TOO_LONG)),
    Row("file in use", blocking=lock_is_held),
    Row("file not replaceable", blocking=disk_is_read_only),
    Row("file not readable", blocking=file_is_gone),
    Row("invalid argument", arguments=f"{ARGUMENTS} nullok"),
]
ROWS = [*ROWS_OF_LINES, *ROWS_OF_OBSTACLES]


@dataclass(frozen=True)
class Expected:
    """The manual's answers in a row. None, a `-` in the table, means that there is no answer."""

    auth: Answer | None
    account: Answer | None
    password: Answer | None


def table_of_manual() -> dict[str, Expected]:
    """Returns the rows of the manual's table by title."""
    (table,) = [display for display in displays_of_manual() if "AUTH_ERR" in display]
    rows = {}
    for line in table.splitlines()[1:]:
        title, *words = line.rsplit(maxsplit=3)
        rows[title.strip()] = Expected(*[None if word == "-" else ANSWERS[word] for word in words])
    return rows


TABLE = table_of_manual()


@dataclass(frozen=True)
class Service:
    """A service's user, and its call for a change of password that asks for the old one."""

    title: str
    through: tuple[Word, ...]
    change: str

    def __str__(self) -> str:
        return self.title


SERVICES = [
    Service("root's service", (), "chauthtok(PAM_CHANGE_EXPIRED_AUTHTOK)"),
    Service(
        "another user's service",
        ("setpriv", f"--reuid={OWNER}", f"--regid={OWNER}", "--clear-groups"),
        "chauthtok",
    ),
]


def test_the_table_has_a_row_for_each_case() -> None:
    titles = [*map(str, ROWS_OF_LINES), NO_NAME, *map(str, ROWS_OF_OBSTACLES)]
    assert list(TABLE) == titles


@pytest.fixture(name="prepared")
def fixture_prepared(pam: Pam, request: pytest.FixtureRequest) -> Iterator[Row]:
    """The row, with its file and its obstacle, in a folder of the other user."""
    row: Row = request.param
    machine = pam.machine
    machine.run("rm", "-rf", FOLDER).required()
    machine.make_folder(FOLDER)
    line = b"" if row.field is None else b"ann:" + row.field + b"\n"
    machine.write(FILE, b"bob:" + SHA512 + b"\n" + line, 0o600)
    pam.set_arguments(row.arguments)
    machine.run("chown", "-R", f"{OWNER}:{OWNER}", FOLDER).required()
    with row.blocking(machine):
        yield row


def typed(*lines: bytes | None) -> list[bytes]:
    """Returns the lines to type, or an empty list if one of them is None."""
    if None in lines:
        return []
    return [line for line in lines if line is not None]


def answered_rows(column: str) -> pytest.MarkDecorator:
    """Returns a parameter for the rows in which a column of the table has an answer."""
    rows = [row for row in ROWS if getattr(TABLE[row.title], column) is not None]
    return pytest.mark.parametrize("prepared", rows, ids=str, indirect=True)


ALL_ROWS = pytest.mark.parametrize("prepared", ROWS, ids=str, indirect=True)
EACH_SERVICE = pytest.mark.parametrize("service", SERVICES, ids=str)


@answered_rows("auth")
@EACH_SERVICE
def test_authenticate(pam: Pam, prepared: Row, service: Service) -> None:
    call = pam.call("ann", "authenticate", *typed(prepared.old), through=service.through)
    assert call.answer is TABLE[prepared.title].auth, call.log


@answered_rows("account")
@EACH_SERVICE
def test_acct_mgmt(pam: Pam, prepared: Row, service: Service) -> None:
    call = pam.call("ann", "acct_mgmt", through=service.through)
    assert call.answer is TABLE[prepared.title].account, call.log


@ALL_ROWS
@EACH_SERVICE
def test_chauthtok(pam: Pam, prepared: Row, service: Service) -> None:
    lines = typed(prepared.old, *prepared.new)
    call = pam.call("ann", service.change, *lines, through=service.through)
    assert call.answer is TABLE[prepared.title].password, call.log


@ALL_ROWS
def test_chauthtok_without_the_old_password(pam: Pam, prepared: Row) -> None:
    row = TABLE[prepared.title]
    expected = row.account if prepared.is_of_line or prepared.old is None else row.password
    call = pam.call("ann", "chauthtok", *prepared.new)
    assert call.answer is expected, call.log


@ALL_ROWS
def test_setcred(pam: Pam, prepared: Row) -> None:
    is_invalid = prepared.arguments != ARGUMENTS
    answer = pam.call("ann", "setcred(PAM_ESTABLISH_CRED)").answer
    assert answer is (Answer.BROKEN if is_invalid else Answer.ACCEPTED)


# ---- A conversation that fails

WITHOUT_NAME = """\
import ctypes

CONVERSATION_FAILED = 19
Conversation = ctypes.CFUNCTYPE(
    ctypes.c_int, ctypes.c_int, ctypes.c_void_p, ctypes.c_void_p, ctypes.c_void_p
)


class Conversations(ctypes.Structure):
    _fields_ = [("function", Conversation), ("data", ctypes.c_void_p)]


library = ctypes.CDLL("libpam.so.0")
library.pam_strerror.restype = ctypes.c_char_p
conversations = Conversations(Conversation(lambda *_: CONVERSATION_FAILED), None)
handle = ctypes.c_void_p()
library.pam_start(b"example", None, ctypes.byref(conversations), ctypes.byref(handle))
for call in (library.pam_authenticate, library.pam_acct_mgmt, library.pam_chauthtok):
    print(library.pam_strerror(handle, call(handle, 0)).decode())
"""


def test_no_name_given(pam: Pam) -> None:
    pam.set_arguments(ARGUMENTS)
    row = TABLE[NO_NAME]
    result = pam.machine.run("/usr/bin/python3", "-c", WITHOUT_NAME).required()
    expected = [answer.value for answer in (row.auth, row.account, row.password) if answer]
    assert result.stdout.decode().splitlines() == expected
