"""vsftpd asks the PAM module, which renews outdated hashes in its file and loses no change."""
from __future__ import annotations

import contextlib
import ftplib
import functools
import os
import re
import signal
from collections.abc import Callable, Iterator
from concurrent.futures import Future, ThreadPoolExecutor
from dataclasses import dataclass
from pathlib import Path

import pytest
from support.libxcrypt import crypt
from support.logins import Door, PamLoginTests, Verdict
from support.namespaces import Namespaces, children_of
from support.pam import stacks_of_manual
from support.recipes import ONE, SIX, USERS, Site, User, is_recommended_hash
from support.services import SECONDS, Service, serving, wait_until

pytestmark = [
    pytest.mark.needs("namespaces", "vsftpd"),
    pytest.mark.xdist_group("services"),
]

PORT = 8080
NOT_LOGGED_IN = "530"  # FTP's code for a refused login
FILE = "/srv/example/passwords"
CONFIGURATION = f"""\
listen=YES
listen_address=127.0.0.1
listen_port={PORT}
background=NO
local_enable=YES
guest_enable=YES
guest_username=ftp
anonymous_enable=NO
pam_service_name=example
isolate=NO
isolate_network=NO
seccomp_sandbox=NO
delay_failed_login=0
local_root=/run/www
secure_chroot_dir=/run/vsftpd/empty
"""
COMMENT = b"# more\n"
LONG_TAIL = COMMENT * 5_000
LONGER_TAIL = COMMENT * 1_000_000
TIME_BEFORE_ACCESS = 1  # a second after the beginning of 1970
# About a second of work: logins overlap, and the file can change after it is read.
SLOW = b"$5$rounds=1500000$abcdefgh"


def ftp_verdict(machine: Namespaces, name: str, password: str) -> Verdict:
    """Logs in by FTP, and returns the verdict."""
    client = ftplib.FTP(timeout=SECONDS)
    with machine.network():
        client.connect("127.0.0.1", PORT)
    with contextlib.closing(client):
        client.sendcmd(f"USER {name}")
        try:
            client.sendcmd(f"PASS {password}")
        except ftplib.error_perm as error:
            if not str(error).startswith(NOT_LOGGED_IN):
                raise
            return Verdict.REFUSED
    return Verdict.ACCEPTED


@pytest.fixture(scope="module", name="door")
def fixture_door(
    site_with_module: Site, tmp_path_factory: pytest.TempPathFactory
) -> Iterator[Door]:
    site, machine = site_with_module, site_with_module.machine
    stack = re.sub(r"file=\S+", f"file={FILE} renew", stacks_of_manual().of_file)
    machine.write("/etc/pam.d/example", stack)
    machine.run("install", "-D", "/etc/example.passwords", FILE).required()
    machine.make_folder("/run/vsftpd/empty")
    machine.make_folder("/srv/ftp")
    folder: Path = tmp_path_factory.mktemp("vsftpd")
    (folder / "vsftpd.conf").write_text(CONFIGURATION, encoding="ascii")

    def log_in(name: str, password: str) -> Verdict:
        return ftp_verdict(machine, name, password)

    command = ("vsftpd", folder / "vsftpd.conf")
    with serving(machine, PORT, *command, log=folder / "log") as service:
        yield Door(site, log_in, service)


class TestLogins(PamLoginTests):
    """Logins to vsftpd."""

    @pytest.mark.parametrize("user", USERS, ids=str)
    def test_a_login_renews_an_outdated_hash(self, door: Door, user: User) -> None:
        door.assert_verdict(user.name, user.password, Verdict.ACCEPTED)
        assert_renewed(door, user)


def lines_by_name(content: bytes) -> dict[bytes, bytes]:
    """Returns the first line of each name."""
    lines: dict[bytes, bytes] = {}
    for line in content.splitlines():
        name, _, field = line.partition(b":")
        lines.setdefault(name, field)
    return lines


def assert_renewed(door: Door, user: User) -> None:
    """Fails the test unless the file has a recommended hash of the user's password."""
    field = lines_by_name(door.site.machine.read(FILE))[user.name.encode()]
    assert is_recommended_hash(field, user.password), f"{field!r}\n{door.service}"


def slow_line(user: User) -> bytes:
    """Returns a line whose hash takes a second."""
    return user.name.encode() + b":" + crypt(user.password.encode(), SLOW) + b"\n"


# ---- Renewals that overlap with other changes


@pytest.fixture(scope="module", name="slow_lines")
def fixture_slow_lines() -> dict[User, bytes]:
    """Lines of two users, whose hashes take a second each."""
    return {user: slow_line(user) for user in (ONE, SIX)}


def test_three_simultaneous_logins_are_accepted_and_renewed(
    door: Door, slow_lines: dict[User, bytes]
) -> None:
    door.site.machine.write(FILE, b"".join(slow_lines.values()))
    with ThreadPoolExecutor(3) as pool:
        verdicts = pool.map(lambda user: door.log_in(user.name, user.password), (ONE, SIX, SIX))
    assert list(verdicts) == [Verdict.ACCEPTED] * 3, str(door.service)
    assert_renewed(door, ONE)
    assert_renewed(door, SIX)


def log_in_while(
    door: Door, content: bytes, meanwhile: Callable[[Future[Verdict]], None]
) -> Verdict:
    """Logs in as the user `six` with this file, while something else happens."""
    door.site.machine.write(FILE, content)
    # Reading the file updates its access time.
    path = door.site.machine.path(FILE)
    os.utime(path, (TIME_BEFORE_ACCESS, path.stat().st_mtime))
    with ThreadPoolExecutor(1) as pool:
        login = pool.submit(door.log_in, SIX.name, SIX.password)
        meanwhile(login)
        return login.result()


@dataclass(frozen=True)
class Replacement:
    """A file that replaces one with a slow line during a login, and the login's verdict."""

    title: str
    is_locked: bool
    verdict: Verdict

    def __str__(self) -> str:
        return self.title

    def content(self, slow_lines: dict[User, bytes]) -> bytes:
        """Returns the lines of the file."""
        if self.is_locked:
            return slow_lines[SIX].replace(b":", b":!", 1)
        return slow_lines[ONE] + slow_lines[SIX]


REPLACEMENTS = [
    Replacement("with the user locked", is_locked=True, verdict=Verdict.REFUSED),
    Replacement("with another line", is_locked=False, verdict=Verdict.ACCEPTED),
]


@pytest.mark.parametrize("replacement", REPLACEMENTS, ids=str)
def test_a_file_that_replaces_the_old_one_keeps_all_but_the_checked_hash(
    door: Door, slow_lines: dict[User, bytes], replacement: Replacement
) -> None:
    machine, new = door.site.machine, replacement.content(slow_lines)
    machine.write(f"{FILE}.other", new)

    def is_read() -> bool:
        return machine.path(FILE).stat().st_atime != TIME_BEFORE_ACCESS

    def replace(login: Future[Verdict]) -> None:
        wait_until(lambda: is_read() or login.done(), what="a login that reads the file")
        machine.path(f"{FILE}.other").rename(machine.path(FILE))

    verdict = log_in_while(door, slow_lines[SIX], replace)
    content = machine.read(FILE)
    with_old_hash = re.sub(
        rb"^six:\$6\S+\n", lambda _: slow_lines[SIX], content, flags=re.MULTILINE
    )
    assert (verdict, with_old_hash) == (replacement.verdict, new), str(door.service)


# ---- A full disk, and a kill


@pytest.fixture(scope="module", name="short_line")
def fixture_short_line(door: Door) -> bytes:
    """The line of the user `six`, from the recipe."""
    return f"{SIX.name}:{door.site.hashes()[SIX.name]}\n".encode()


def remount(door: Door, size: str) -> None:
    """Remounts the disk with another size."""
    door.site.machine.run("mount", "-o", f"remount,size={size}", "/srv").required()


def test_a_login_on_a_full_disk_is_accepted_and_the_file_stays(
    door: Door, short_line: bytes
) -> None:
    content = short_line + LONG_TAIL
    remount(door, "60k")
    try:
        verdict = log_in_while(door, content, lambda _: None)
        found = door.site.machine.read(FILE)
    finally:
        remount(door, "50%")
    assert (verdict, found == content) == (Verdict.ACCEPTED, True), str(door.service)


def new_files_of(number: int) -> list[str]:
    """Returns the unnamed files that a process writes."""
    links = []
    with contextlib.suppress(FileNotFoundError, ProcessLookupError):
        for descriptor in Path(f"/proc/{number}/fd").iterdir():
            links.append(os.readlink(descriptor))
    return [link for link in links if link.endswith("(deleted)") and "/example/" in link]


def descendants_of(number: int) -> list[int]:
    """Returns the ids of all descendants of a process."""
    children = children_of(number)
    return children + [below for child in children for below in descendants_of(child)]


def kill_as_it_renews(service: Service, login: Future[Verdict]) -> None:
    """Kills the service's process for a client once it writes a new file."""

    def is_renewing() -> bool:
        return any(map(new_files_of, descendants_of(service.number)))

    wait_until(lambda: is_renewing() or login.done(), what="a login that writes a new file")
    for number in children_of(service.number):
        os.kill(number, signal.SIGKILL)


@pytest.fixture(name="killed_content")
def fixture_killed_content(door: Door, short_line: bytes) -> bytes:
    """What is left of a long file after a login that is killed during its renewal."""
    service = door.service
    assert service is not None
    kill = functools.partial(kill_as_it_renews, service)
    with contextlib.suppress(*ftplib.all_errors):
        log_in_while(door, short_line + LONGER_TAIL, kill)
    return door.site.machine.read(FILE)


def test_the_file_is_complete_after_a_kill(
    door: Door, short_line: bytes, killed_content: bytes
) -> None:
    with_old_hash = re.sub(rb"\Asix:\S+\n", lambda _: short_line, killed_content)
    assert with_old_hash == short_line + LONGER_TAIL, f"{killed_content[:200]!r}\n{door.service}"


@pytest.mark.usefixtures("killed_content")
def test_a_login_after_a_kill_renews_the_hash(door: Door) -> None:
    door.assert_verdict(SIX.name, SIX.password, Verdict.ACCEPTED)
    assert_renewed(door, SIX)
