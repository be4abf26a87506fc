"""pam_mkpasswd.so with pamtester: a thousand renewals and a thousand password changes in parallel.

Many of them are killed. Meanwhile an administrator changes the file's mode, and locks accounts in
two ways: by a script that follows the manual's protocol and is sometimes killed too, and by
renaming an edited file over the old one.
"""
from __future__ import annotations

import contextlib
import os
import random
import re
import stat
import sys
import threading
import time
from collections.abc import Iterator
from concurrent.futures import ThreadPoolExecutor
from dataclasses import dataclass, field
from pathlib import Path

import pytest
from support import replacing
from support.libxcrypt import crypt
from support.namespaces import Namespaces
from support.pam import Answer
from support.pam_fields import FILE
from support.process import Result, run

pytestmark = [
    pytest.mark.needs("namespaces", "pamtester"),
    pytest.mark.slow,
    pytest.mark.xdist_group("pam"),
]

SEED = int(os.environ.get("SEED", "1"))
ROUNDS = range(1001, 1021)  # hashes with earlier ones are outdated by later ones
NAMES = [f"user{number}" for number in range(10, 60)]
TO_LOCK = [f"other{number}" for number in range(10, 90)]  # the administrator locks them in turn
AT_ONCE = 12
SHARE_OF_KILLED = 0.4
LONGEST_LIFE = 0.03  # seconds until a login or a change is killed
SECONDS_TO_END = 300  # for one that isn't killed
LONGEST_SCRIPT = 0.1  # seconds until a script is killed
SECONDS_OF_SCRIPT = 60  # for one that isn't killed
PAUSE = 0.0005  # seconds between two looks at the file
CHANGE = "chauthtok"
OTHERS = (Answer.REFUSED, Answer.DENIED, Answer.IN_USE)
NOT_REPLACED = 1  # the script's status if another change came first


def passwords_of(name: str) -> tuple[bytes, bytes]:
    """Returns a user's two passwords, which alternate."""
    return (f"secret of {name}".encode(), f"other secret of {name}".encode())


@dataclass
class Judge:
    """Finds what is wrong with the file. Remembers which lines it has found right."""

    right: set[bytes] = field(default_factory=set)
    locked: set[str] = field(default_factory=set)  # the names that the administrator has locked

    def is_right(self, line: bytes, name: str) -> bool:
        """Returns whether a line has its name, and a hash of one of its user's passwords."""
        found = re.fullmatch(rb"(\w+):!?(\S+)\n", line)
        if found is None or found[1] != name.encode():
            return False
        if line not in self.right:
            hashes = [crypt(password, found[2]) for password in passwords_of(name)]
            if found[2] not in hashes:
                return False
            self.right.add(line)
        return True

    def problems(self, content: bytes, locked: set[str]) -> list[str]:
        """Returns the names whose lines are missing, misplaced, torn, or no longer locked."""
        lines = content.splitlines(keepends=True)
        names = NAMES + TO_LOCK
        if len(lines) != len(names):
            return [f"{len(lines)} lines"]
        wrong = [name for name, line in zip(names, lines) if not self.is_right(line, name)]
        for name in locked:
            if b"\n" + name.encode() + b":!" not in content:
                wrong.append(f"{name} is not locked any more")
        return wrong


@dataclass
class Watcher:
    """Reads the file again and again, and keeps what is wrong with it."""

    path: Path
    judge: Judge
    is_over: threading.Event = field(default_factory=threading.Event)
    looks: int = 0
    problems: list[str] = field(default_factory=list)  # from the first look that found some

    def watch(self) -> None:
        """Watches until the end of the test."""
        while not self.is_over.is_set():
            locked = set(self.judge.locked)  # copied before the file is read
            problems = self.judge.problems(self.path.read_bytes(), locked)
            self.problems = self.problems or problems
            self.looks += 1
            time.sleep(PAUSE)


@dataclass
class Administrator:
    """Locks accounts in both ways, and changes the file's mode."""

    path: Path
    judge: Judge
    is_over: threading.Event
    randoms: random.Random
    killed: int = 0
    mode: int = 0o600
    problems: list[str] = field(default_factory=list)

    def work(self) -> None:
        """Locks accounts until the end of the test, or until all are locked."""
        for number, name in enumerate(TO_LOCK):
            if self.is_over.is_set():
                break
            if number % 2 == 0:
                self.lock_by_script(name)
            else:
                self.lock_by_file(name)
            self.change_mode()
            time.sleep(self.randoms.uniform(0, 0.2))

    def field_of(self, name: str) -> str:
        """Returns the current field of a name."""
        found = re.search(rf"^{name}:(.*)$", self.path.read_text("ascii"), re.MULTILINE)
        assert found, f"{name} is missing"
        return found[1]

    def lock_by_script(self, name: str) -> None:
        """Locks an account by the protocol. Some of the scripts are killed."""
        result = None
        while not self.is_over.is_set() and not self.field_of(name).startswith("!"):
            field_now = self.field_of(name)
            life = self.randoms.uniform(0, LONGEST_SCRIPT)
            if self.randoms.random() >= SHARE_OF_KILLED:
                life = SECONDS_OF_SCRIPT
            command = (sys.executable, replacing.__file__, self.path)
            fields = (field_now, f"!{field_now}")
            result = run(*command, name, *fields, timeout=life)
            self.killed += result.has_timed_out
            assert result.has_timed_out or result.status in (0, NOT_REPLACED), str(result)
        if result and result.status == 0:
            self.judge.locked.add(name)

    def lock_by_file(self, name: str) -> None:
        """Locks an account by renaming an edited file over the old one."""
        new = self.path.with_name("administrator")
        content = re.sub(rf"^{name}:", f"{name}:!", self.path.read_text("ascii"), flags=re.M)
        new.write_text(content, "ascii")
        new.chmod(self.mode)
        # Only the administrator locks names, so this version has all locks.
        new.rename(self.path)
        self.judge.locked.add(name)

    def change_mode(self) -> None:
        """Changes the mode under the lock, and checks that the previous mode was kept."""
        with contextlib.suppress(replacing.NotReplaced), replacing.locked(self.path):
            found = stat.S_IMODE(self.path.stat().st_mode)
            if found != self.mode:
                self.problems.append(f"the mode is {found:o}, not {self.mode:o}")
            self.mode = 0o640 if self.mode == 0o600 else 0o600
            self.path.chmod(self.mode)


@dataclass(frozen=True)
class Visit:
    """A login or a change of password, and the seconds until it is killed, if it is."""

    name: str
    operation: str
    typed: bytes
    life: float | None  # None if it isn't killed


@dataclass(frozen=True)
class Replaced:
    """What two thousand visits did, and the file at the end."""

    watcher: Watcher
    administrator: Administrator
    results: list[Result]
    content: bytes

    @property
    def ended_badly(self) -> list[Result]:
        """The visits that weren't killed, and failed without another change in the way."""
        return [
            result
            for result in self.results
            if result.status and not result.has_timed_out and not was_in_the_way(result)
        ]


def was_in_the_way(result: Result) -> bool:
    """Returns whether somebody else changed the password or the file, or locked the account."""
    return any(answer.value.encode() in result.stderr for answer in OTHERS)


def visits_of(randoms: random.Random, turn: int) -> list[Visit]:
    """Returns a login and a change of password for each user, in random order."""
    visits = []
    some_to_lock = TO_LOCK[: len(TO_LOCK) // 8]  # so that visits meet locks too
    for name in NAMES + some_to_lock:
        old, new = passwords_of(name)
        if turn % 2:
            old, new = new, old
        for operation, typed in (("authenticate", old), (CHANGE, new + b"\n" + new)):
            life = randoms.uniform(0, LONGEST_LIFE)
            is_killed = randoms.random() < SHARE_OF_KILLED
            visits.append(Visit(name, operation, typed + b"\n", life if is_killed else None))
    randoms.shuffle(visits)
    return visits


def visit_machine(machine: Namespaces, visit: Visit) -> Result:
    """Makes a visit, and kills it after its seconds."""
    command = machine.entering("pamtester", "example", visit.name, visit.operation)
    return run(*command, stdin=visit.typed, timeout=visit.life or SECONDS_TO_END)


@contextlib.contextmanager
def beside(watcher: Watcher, administrator: Administrator) -> Iterator[None]:
    """Runs the watcher and the administrator during the `with` block."""
    with ThreadPoolExecutor(2) as pool:
        ended = [pool.submit(watcher.watch), pool.submit(administrator.work)]
        try:
            yield
        finally:
            watcher.is_over.set()
    for future in ended:
        future.result()


@pytest.fixture(scope="module", name="with_file")
def fixture_with_file(with_module: Namespaces) -> Namespaces:
    """A machine with the file. It has no system log, which the test would have to read."""
    names = NAMES + TO_LOCK
    passwords = [password for password, _other in map(passwords_of, names)]
    hashes = [crypt(password, b"$6$rounds=1000$abcdefgh") for password in passwords]
    lines = [b"%b:%b\n" % (name.encode(), field) for name, field in zip(names, hashes)]
    with_module.write(FILE, b"".join(lines), 0o600)
    return with_module


@pytest.fixture(scope="module", name="replaced")
def fixture_replaced(with_file: Namespaces) -> Replaced:
    randoms = random.Random(SEED)
    machine, judge = with_file, Judge()
    watcher = Watcher(machine.path(FILE), judge)
    administrator = Administrator(
        machine.path(FILE), judge, watcher.is_over, random.Random(SEED + 1)
    )
    results: list[Result] = []
    with beside(watcher, administrator), ThreadPoolExecutor(AT_ONCE) as pool:
        for turn, rounds in enumerate(ROUNDS):
            line = f"required pam_mkpasswd.so file={FILE} rounds={rounds} budget=1000000 renew\n"
            machine.write("/etc/pam.d/example", f"auth {line}password {line}")
            visits = visits_of(randoms, turn)
            results += pool.map(lambda visit: visit_machine(machine, visit), visits)
    return Replaced(watcher, administrator, results, machine.read(FILE))


def test_each_visit_that_is_not_killed_succeeds_or_meets_another_change(replaced: Replaced) -> None:
    assert replaced.ended_badly == [], "\n".join(map(str, replaced.ended_badly[:3]))


def test_most_changes_and_renewals_succeed(replaced: Replaced) -> None:
    succeeded = [result for result in replaced.results if result.status == 0]
    assert len(succeeded) > len(replaced.results) / 4


def test_the_file_is_complete_at_each_moment_and_no_lock_is_undone(replaced: Replaced) -> None:
    assert replaced.watcher.problems == [], f"SEED={SEED}"


def test_each_mode_set_by_the_administrator_stays(replaced: Replaced) -> None:
    assert replaced.administrator.problems == [], f"SEED={SEED}"


def test_the_file_is_complete_at_the_end(replaced: Replaced) -> None:
    judge = replaced.watcher.judge
    assert Judge().problems(replaced.content, judge.locked) == [], f"SEED={SEED}"


def test_the_administrator_has_locked_accounts_in_both_ways(replaced: Replaced) -> None:
    assert len(replaced.watcher.judge.locked) >= 2
