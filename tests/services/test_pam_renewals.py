"""pam_mkpasswd.so with pamtester: a renewal changes one field, and loses nothing.

Hashes with 1000 rounds are outdated.
"""
from __future__ import annotations

import contextlib
import os
import re
import signal
import stat
from collections.abc import Callable, Iterator, Sequence
from contextlib import AbstractContextManager
from dataclasses import dataclass, replace
from pathlib import Path

import pytest
from support.libxcrypt import crypt
from support.namespaces import Namespaces
from support.pam import Answer, Login, Pam
from support.pam_fields import FILE, PASSWORD, SHA512
from support.preload import preload_library
from support.process import Word
from support.services import wait_until

pytestmark = [pytest.mark.needs("namespaces", "pamtester"), pytest.mark.xdist_group("pam")]

LOCK = f"{FILE}.mkpasswd.lock"
ARGUMENTS = f"file={FILE} rounds=1001 budget=1000000 renew"
RENEWED = re.compile(rb"\w+:(\$6\$rounds=1001\$[^:\n]*)")
LINE = b"two:" + SHA512 + b"\n"
NAME_OF_LOCK = Path(LOCK).name


@pytest.fixture(autouse=True)
def _arguments(pam: Pam) -> None:
    """Sets the service's arguments, and removes leftovers of the previous test."""
    pam.set_arguments(ARGUMENTS)
    for name in others_beside(pam.machine):
        pam.machine.path(FILE).with_name(name).unlink()


@pytest.fixture(scope="module", name="between")
def fixture_between(tmp_path_factory: pytest.TempPathFactory) -> tuple[str, str]:
    """The beginning of a command, which preloads a library that changes the file meanwhile."""
    library = preload_library("between", tmp_path_factory.mktemp("between"))
    return ("env", f"LD_PRELOAD={library}")


def is_renewed(line: bytes) -> bool:
    """Returns whether a line has a new hash of the password."""
    found = RENEWED.match(line)
    return found is not None and crypt(PASSWORD, found[1]) == found[1]


def others_beside(machine: Namespaces) -> list[str]:
    """Returns the names of other files beside the password file and its lock."""
    names = [file.name for file in machine.path(FILE).parent.glob("passwords.*")]
    return sorted(name for name in names if name != NAME_OF_LOCK)


# ---- What stays

LINES = b"one:x\n\ntwo:%b:19000:\0\nsix:!%b\nno line\nsix:%b" % (SHA512, SHA512, SHA512)
LINK = "/srv/link"
OWNER, GROUP, MODE = 65534, 4242, 0o640


@pytest.fixture(name="through_link")
def fixture_through_link(pam: Pam) -> Login:
    """A login of the user `two` with a link to the file in the stack."""
    pam.machine.write(FILE, LINES, MODE)
    os.chown(pam.machine.path(FILE), OWNER, GROUP)
    pam.machine.run("ln", "-sf", FILE, LINK).required()
    pam.set_arguments(ARGUMENTS.replace(FILE, LINK))
    return pam.login("two", PASSWORD)


def test_a_login_through_a_link_is_accepted(through_link: Login) -> None:
    assert through_link == Login(Answer.ACCEPTED)


@pytest.mark.usefixtures("through_link")
def test_the_hash_is_new(pam: Pam) -> None:
    lines = pam.machine.read(FILE).splitlines(keepends=True)
    (line,) = (line for line in lines if line.startswith(b"two:"))
    assert is_renewed(line), line


@pytest.mark.usefixtures("through_link")
def test_all_other_bytes_stay(pam: Pam) -> None:
    content = pam.machine.read(FILE)
    assert re.sub(rb"^two:[^:]*", b"two:" + SHA512, content, flags=re.MULTILINE) == LINES


@pytest.mark.usefixtures("through_link")
def test_the_owner_and_the_mode_stay(pam: Pam) -> None:
    status = pam.machine.path(FILE).stat()
    found = (stat.S_IMODE(status.st_mode), status.st_uid, status.st_gid)
    assert found == (MODE, OWNER, GROUP)


@pytest.mark.usefixtures("through_link")
def test_the_link_stays(pam: Pam) -> None:
    assert pam.machine.path(LINK).is_symlink()
    assert pam.machine.path(FILE).is_file() and not pam.machine.path(FILE).is_symlink()


# ---- Attributes


@pytest.mark.needs("setfacl", "setfattr")
def test_acls_and_attributes_stay_and_none_are_added(pam: Pam) -> None:
    folder = "/srv/attributes"
    file = f"{folder}/passwords"
    pam.machine.make_folder(folder)
    pam.machine.write(file, LINE, 0o640)
    pam.set_arguments(ARGUMENTS.replace(FILE, file))
    pam.machine.run("setfacl", "-d", "-m", "u:games:rwx", folder).required()
    pam.machine.run("setfacl", "-m", "u:daemon:r", file).required()
    pam.machine.run("setfattr", "-n", "trusted.other", "-v", "value", file).required()
    show = f"getfacl -cp {file}; getfattr -d -m - --absolute-names {file}"
    before = pam.machine.run("sh", "-euc", show).required().stdout
    assert b"daemon" in before and b"trusted.other" in before, before
    assert pam.login("two", PASSWORD) == Login(Answer.ACCEPTED)
    assert is_renewed(pam.machine.read(file))
    assert pam.machine.run("sh", "-euc", show).required().stdout == before


@pytest.mark.needs("setfacl", "setfattr")
def test_a_file_with_an_attribute_that_the_service_may_not_set_is_not_renewed(pam: Pam) -> None:
    folder = "/srv/unprivileged"
    file = f"{folder}/passwords"
    pam.machine.make_folder(folder)
    pam.machine.write(file, LINE, 0o600)
    pam.set_arguments(ARGUMENTS.replace(FILE, file))
    pam.machine.run("chown", "-R", "4242:4242", folder).required()
    pam.machine.run("setfattr", "-n", "security.other", "-v", "value", file).required()
    other_user = ("setpriv", "--reuid=4242", "--regid=4242", "--clear-groups")
    login = pam.login("two", PASSWORD, through=other_user)
    entry = f"{file}: not renewed: Operation not permitted"
    assert login == Login(Answer.ACCEPTED, (entry,))
    assert pam.machine.read(file) == LINE


@pytest.mark.parametrize("missing", ["NO_TMPFILE=1"])
def test_a_hash_is_renewed_without_o_tmpfile(
    pam: Pam, between: tuple[str, str], missing: str
) -> None:
    pam.machine.write(FILE, LINE)
    assert pam.login("two", PASSWORD, through=(*between, missing)) == Login(Answer.ACCEPTED)
    assert is_renewed(pam.machine.read(FILE))
    assert others_beside(pam.machine) == []


# ---- Other changes at the moment of the exchange


@dataclass(frozen=True)
class Overlap:
    """A login during which somebody else changes the file, and what it leaves."""

    changes: int  # how often somebody else changes the file
    login: Login
    content: bytes
    others: list[str]


@pytest.fixture(name="overlap", params=range(5), ids=lambda count: f"{count} changes")
def fixture_overlap(pam: Pam, between: tuple[str, str], request: pytest.FixtureRequest) -> Overlap:
    changes: int = request.param
    pam.machine.write(FILE, LINE)
    for number in range(1, changes + 1):
        pam.machine.write(f"{FILE}.{number}", LINE + b"# %d\n" % number)
    login = pam.login("two", PASSWORD, through=between)
    return Overlap(changes, login, pam.machine.read(FILE), others_beside(pam.machine))


def test_a_login_is_accepted_while_somebody_changes_the_file(overlap: Overlap) -> None:
    assert overlap.login == Login(Answer.ACCEPTED)


def test_the_newest_change_by_somebody_else_stays(overlap: Overlap) -> None:
    if overlap.changes == 0:
        assert is_renewed(overlap.content), overlap.content
    else:
        assert overlap.content == LINE + b"# %d\n" % overlap.changes


def test_a_login_leaves_nothing_beside_the_file(overlap: Overlap) -> None:
    assert overlap.others == []


def test_a_login_killed_before_its_file_is_complete_changes_nothing(
    pam: Pam, between: tuple[str, str]
) -> None:
    pam.machine.write(FILE, LINE)
    killed = pam.login_result("two", PASSWORD, through=(*between, "KILL=fsync"))
    assert killed.status == KILLED, killed
    assert (pam.machine.read(FILE), others_beside(pam.machine)) == (LINE, [])


# ---- Killed logins, and the next one

KILLED = 128 + signal.SIGKILL
SECOND = b"six:" + SHA512 + b"\n"
MOMENTS = ["fsync", "linkat", "exchange", "unlinkat"]


def kill_login(pam: Pam, between: tuple[str, ...], moment: str) -> None:
    """Logs in as the user `two`, and kills the login at a moment of the renewal."""
    killed = pam.login_result("two", PASSWORD, through=(*between, f"KILL={moment}"))
    assert killed.status == KILLED, killed


@pytest.mark.parametrize("no_tmpfile", [(), ("NO_TMPFILE=1",)], ids=["without a name", "named"])
@pytest.mark.parametrize("moment", MOMENTS)
def test_the_next_renewal_cleans_up_after_a_killed_one(
    pam: Pam, between: tuple[str, str], moment: str, no_tmpfile: tuple[str, ...]
) -> None:
    if no_tmpfile and moment == "linkat":
        moment = "fsync"  # without O_TMPFILE the file has its name from the beginning
    pam.machine.write(FILE, LINE + SECOND)
    kill_login(pam, (*between, *no_tmpfile), moment)
    assert len(pam.machine.read(FILE).splitlines()) == 2
    assert pam.login("six", PASSWORD, through=(*between, *no_tmpfile)) == Login(Answer.ACCEPTED)
    pam.login("two", PASSWORD)
    lines = pam.machine.read(FILE).splitlines(keepends=True)
    assert [is_renewed(line) for line in lines] == [True, True], lines
    assert others_beside(pam.machine) == []


def test_the_next_renewal_puts_back_the_file_that_a_killed_one_took_out(
    pam: Pam, between: tuple[str, str]
) -> None:
    locked = b"two:!" + SHA512 + b"\n"
    pam.machine.write(FILE, LINE + SECOND)
    pam.machine.write(f"{FILE}.1", locked + SECOND)
    kill_login(pam, between, "exchange")
    assert is_renewed(pam.machine.read(FILE))
    assert pam.login("six", PASSWORD) == Login(Answer.ACCEPTED)
    lines = pam.machine.read(FILE).splitlines(keepends=True)
    assert len(lines) == 2 and lines[0] == locked and is_renewed(lines[1]), lines
    assert others_beside(pam.machine) == []


def test_another_version_stays_while_the_note_cannot_be_read(
    pam: Pam, between: tuple[str, str]
) -> None:
    locked = b"two:!" + SHA512 + b"\n"
    pam.machine.write(FILE, LINE + SECOND)
    pam.machine.write(f"{FILE}.1", locked + SECOND)
    kill_login(pam, between, "exchange")
    login = pam.login("six", PASSWORD, through=(*between, "NO_LINKS=1"))
    assert login == Login(Answer.ACCEPTED, (f"{FILE}: not renewed: Input/output error",))
    assert pam.machine.read(f"{FILE}.mkpasswd.new") == locked + SECOND
    assert pam.login("six", PASSWORD) == Login(Answer.ACCEPTED)
    assert pam.machine.read(FILE).splitlines(keepends=True)[0] == locked
    assert others_beside(pam.machine) == []


def test_another_version_beside_a_newer_file_stays_for_the_administrator(
    pam: Pam, between: tuple[str, str]
) -> None:
    version, newer = LINE + SECOND + b"# 1\n", LINE + SECOND + b"# 2\n"
    pam.machine.write(FILE, LINE + SECOND)
    pam.machine.write(f"{FILE}.1", version)
    kill_login(pam, between, "exchange")
    pam.machine.write(f"{FILE}.newer", newer)
    pam.machine.path(f"{FILE}.newer").rename(pam.machine.path(FILE))
    login = pam.login("six", PASSWORD)
    assert login == Login(Answer.ACCEPTED, (f"{FILE}: not renewed: File exists",))
    assert pam.machine.read(f"{FILE}.mkpasswd.new") == version
    assert pam.machine.read(FILE) == newer


def test_a_mode_that_changes_at_the_last_moment_stays(pam: Pam, between: tuple[str, str]) -> None:
    pam.machine.write(FILE, LINE, 0o600)
    login = pam.login("two", PASSWORD, through=(*between, "CHMOD=1"))
    assert login == Login(Answer.ACCEPTED)
    mode_by_between = 0o604
    assert stat.S_IMODE(pam.machine.path(FILE).stat().st_mode) == mode_by_between
    assert others_beside(pam.machine) == []


def test_a_file_removed_at_the_last_moment_is_reported(pam: Pam, between: tuple[str, str]) -> None:
    pam.machine.write(FILE, LINE)
    login = pam.login_result("two", PASSWORD, through=(*between, f"REMOVED={FILE}"))
    entry = f"{FILE}: not renewed: No such file or directory"
    assert entry in pam.log.entries(), login
    assert others_beside(pam.machine) == []


# ---- Obstacles

LONG = LINE + b"# more\n" * 5000
SIZE_OF_SALT = 16  # of a new hash
NEW_SIZE = len(LONG) - len(b"abcdefgh") + SIZE_OF_SALT
Blocking = Callable[[Namespaces], AbstractContextManager[None]]


def between_commands(block: Sequence[Word], unblock: Sequence[Word]) -> Blocking:
    """Returns an obstacle that one command sets up, and another one removes."""

    @contextlib.contextmanager
    def blocking(machine: Namespaces) -> Iterator[None]:
        machine.run(*block).required()
        try:
            yield
        finally:
            machine.run(*unblock).required()

    return blocking


def remounted(blocking: str, usual: str) -> Blocking:
    """Returns an obstacle: the file system is remounted with another option."""
    block, unblock = (["mount", "-o", f"remount,{option}", "/srv"] for option in (blocking, usual))
    return between_commands(block, unblock)


def nothing(_: Namespaces) -> AbstractContextManager[None]:
    """Blocks nothing: the obstacle's command or variables do that."""
    return contextlib.nullcontext()


@contextlib.contextmanager
def lock_is_link(machine: Namespaces) -> Iterator[None]:
    """Puts a link in place of the lock."""
    lock = machine.path(LOCK)
    lock.unlink(missing_ok=True)
    lock.symlink_to("x")
    try:
        yield
    finally:
        lock.unlink()


@contextlib.contextmanager
def lock_is_held(machine: Namespaces) -> Iterator[None]:
    """Holds the lock in another process."""
    with machine.started("flock", LOCK, "sleep", "infinity"):
        wait_until(
            lambda: machine.run("flock", "-n", LOCK, "true").status != 0,
            what="a process that holds the lock",
        )
        yield


@dataclass(frozen=True)
class Obstacle:
    """What prevents a renewal, and the reason in the log."""

    title: str
    reason: str
    blocking: Blocking
    through: tuple[Word, ...] = ()
    variables: tuple[str, ...] = ()  # for the library of `between`

    def __str__(self) -> str:
        return self.title


FULL = Obstacle("a full disk", "No space left on device", remounted("size=60k", "size=10m"))
READ_ONLY = Obstacle("a read-only disk", "Read-only file system", remounted("ro", "rw"))
LINKED_LOCK = Obstacle("a link as the lock", "Too many levels of symbolic links", lock_is_link)
HELD_LOCK = Obstacle("a held lock", "another process keeps the lock", lock_is_held)
LIMITED = Obstacle(
    "a file size limit that is one byte too small",
    "File too large",
    nothing,
    ("prlimit", f"--fsize={NEW_SIZE - 1}"),
)
NO_EXCHANGE = Obstacle(
    "a file system that can't exchange files",
    "Invalid argument",
    nothing,
    variables=("NO_EXCHANGE=1",),
)
NO_LOCKS = Obstacle(
    "a file system without locks", "No locks available", nothing, variables=("NO_LOCKS=1",)
)

OBSTACLES = [FULL, READ_ONLY, LINKED_LOCK, HELD_LOCK, LIMITED, NO_EXCHANGE, NO_LOCKS]


def without_tmpfile(obstacle: Obstacle) -> Obstacle:
    """Returns the same obstacle on a file system without O_TMPFILE."""
    title = f"{obstacle.title}, without O_TMPFILE"
    return replace(obstacle, title=title, variables=(*obstacle.variables, "NO_TMPFILE=1"))


OBSTACLES += [without_tmpfile(obstacle) for obstacle in (FULL, LIMITED, NO_EXCHANGE)]


@dataclass(frozen=True)
class Blocked:
    """A login with an obstacle, what it left, and the file after a later login."""

    obstacle: Obstacle
    login: Login
    content: bytes
    others: list[str]
    later_content: bytes


@pytest.fixture(name="blocked", params=OBSTACLES, ids=str)
def fixture_blocked(pam: Pam, between: tuple[str, str], request: pytest.FixtureRequest) -> Blocked:
    obstacle: Obstacle = request.param
    pam.machine.write(FILE, LONG)
    through = obstacle.through
    if obstacle.variables:
        through = (*through, *between, *obstacle.variables)
    with obstacle.blocking(pam.machine):
        login = pam.login("two", PASSWORD, through=through)
    content, others = pam.machine.read(FILE), others_beside(pam.machine)
    pam.login("two", PASSWORD)
    return Blocked(obstacle, login, content, others, pam.machine.read(FILE))


def test_the_login_is_accepted_without_a_renewal_and_the_log_says_why(blocked: Blocked) -> None:
    entry = f"{FILE}: not renewed: {blocked.obstacle.reason}"
    assert blocked.login == Login(Answer.ACCEPTED, (entry,))


def test_a_file_that_cannot_be_renewed_stays_unchanged(blocked: Blocked) -> None:
    assert blocked.content == LONG


def test_a_failed_renewal_leaves_nothing_beside_the_file(blocked: Blocked) -> None:
    assert blocked.others == []


def test_a_later_login_renews_the_hash(blocked: Blocked) -> None:
    assert is_renewed(blocked.later_content), blocked.later_content[:200]
