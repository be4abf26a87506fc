"""pwhash set and pam_mkpasswd.so change the same file, and many runs of both are killed.

Users log in, which renews their hashes, and change their passwords. Meanwhile an administrator
locks some names, adds some and deletes others.
"""
from __future__ import annotations

import os
import random
import re
import threading
import time
from collections.abc import Sequence
from concurrent.futures import ThreadPoolExecutor
from dataclasses import dataclass, field
from pathlib import Path

import pytest
from support.libxcrypt import crypt
from support.namespaces import Namespaces
from support.pam import Answer
from support.pam_fields import FILE
from support.process import Result, Word, run
from support.pwhash_runs import PWHASH

pytestmark = [
    pytest.mark.needs("namespaces", "pamtester"),
    pytest.mark.slow,
    pytest.mark.xdist_group("pam"),
]

SEED = int(os.environ.get("SEED", "1"))
ROUNDS = range(1001, 1009)  # hashes with earlier ones are outdated by later ones
USERS = [f"user{number}" for number in range(10, 30)]
TO_LOCK = [f"lock{number}" for number in range(10, 25)]
TO_ADD = [f"new{number}" for number in range(10, 25)]
TO_DELETE = [f"gone{number}" for number in range(10, 25)]
LOGINS_AT_ONCE, CHANGES_AT_ONCE = 6, 2
SHARE_OF_KILLED = 0.4
LONGEST_LOGIN = 0.03  # seconds until a login or a change is killed
SECONDS_TO_END = 300  # for one that isn't killed
LONGEST_RUN = 0.4  # seconds until a run of pwhash is killed
PAUSE = 0.0005  # seconds between two looks at the file
ADDED = b"secret of the administrator\n"
# The answers if somebody else changed the password or the file, or locked the account.
OTHERS = (Answer.REFUSED, Answer.DENIED, Answer.IN_USE)


def passwords_of(name: str) -> tuple[bytes, bytes]:
    """Returns a user's two passwords, which alternate."""
    return (f"secret of {name}".encode(), f"other secret of {name}".encode())


@dataclass
class Watcher:
    """Watches the file for lost, duplicate, torn and unlocked lines."""

    path: Path
    is_over: threading.Event = field(default_factory=threading.Event)
    locked: set[str] = field(default_factory=set)
    problems: list[str] = field(default_factory=list)

    def watch(self) -> None:
        """Watches until the end of the test."""
        while not self.is_over.is_set():
            locked = set(self.locked)  # copied before the file is read
            self.problems += self.problems_in(self.path.read_bytes(), locked)
            time.sleep(PAUSE)

    def problems_in(self, content: bytes, locked: set[str]) -> list[str]:
        """Returns what is wrong with the file's content."""
        lines = re.findall(rb"(\w+):(!?)\$[16]\$[\w./$=]+\n", content)
        names = [name.decode() for name, _ in lines]
        wrong = [name for name in USERS + TO_LOCK if names.count(name) != 1]
        wrong += [name for name in TO_ADD + TO_DELETE if names.count(name) > 1]
        wrong += [name for name in locked if name.encode() + b":!" not in content]
        if len(lines) != content.count(b"\n"):
            wrong.append("a torn line")
        return wrong


@dataclass(frozen=True)
class Outcome:
    """What the logins and the administrator did, and the file at the end."""

    watcher: Watcher
    logins: list[Result]
    runs: list[Result]  # the runs of pwhash
    content: bytes

    def fields(self) -> dict[bytes, bytes]:
        """Returns the fields of the file at the end, by name."""
        return dict(re.findall(rb"(?m)^(\w+):(.*)$", self.content))


@dataclass
class Administrator:
    """Changes lines with pwhash, kills some of the runs, and repeats these."""

    machine: Namespaces
    watcher: Watcher
    randoms: random.Random
    results: list[Result] = field(default_factory=list)

    def change(self, words: Sequence[str], name: str) -> None:
        """Runs `pwhash set` with these options for a name until it isn't killed."""
        command = self.machine.entering(PWHASH, "set", *words, FILE, name)
        result = self.run_to_the_end(command)
        self.results.append(result)
        if words == ["--lock"] and result.status == 0:
            self.watcher.locked.add(name)

    def run_to_the_end(self, command: Sequence[Word]) -> Result:
        """Kills some runs of a command, and repeats it until one of them isn't killed."""
        while self.randoms.random() < SHARE_OF_KILLED:
            life = self.randoms.uniform(0.1, LONGEST_RUN)
            result = run(*command, stdin=ADDED, timeout=life)
            if not result.has_timed_out and result.status == 0:
                return result  # it was quicker
        return run(*command, stdin=ADDED)

    def work(self) -> None:
        """Locks, adds and deletes names in random order."""
        tasks = [(["--lock"], name) for name in TO_LOCK]
        tasks += [(["--delete"], name) for name in TO_DELETE]
        tasks += [(["-m", "md5crypt"], name) for name in TO_ADD]
        self.randoms.shuffle(tasks)
        with ThreadPoolExecutor(CHANGES_AT_ONCE) as pool:
            for done in [pool.submit(self.change, *task) for task in tasks]:
                done.result()


@dataclass(frozen=True)
class Visit:
    """A login or a change of the password."""

    name: str
    operation: str
    typed: bytes
    seconds: float  # until it is killed

    def make(self, machine: Namespaces) -> Result:
        """Runs pamtester for the visit, and kills it after the visit's seconds."""
        command = machine.entering("pamtester", "example", self.name, self.operation)
        return run(*command, stdin=self.typed + b"\n", timeout=self.seconds)


def visit(machine: Namespaces, randoms: random.Random, turn: int) -> list[Result]:
    """Has each user log in and change the password, in random order. Kills some of these runs."""
    visits: list[Visit] = []
    for name in USERS + TO_LOCK:
        old, new = passwords_of(name)
        if turn % 2:
            old, new = new, old
        for operation, typed in (("authenticate", old), ("chauthtok", new + b"\n" + new)):
            is_killed = randoms.random() < SHARE_OF_KILLED
            seconds = randoms.uniform(0, LONGEST_LOGIN) if is_killed else SECONDS_TO_END
            visits.append(Visit(name, operation, typed, seconds))
    randoms.shuffle(visits)
    with ThreadPoolExecutor(LOGINS_AT_ONCE) as pool:
        runs = [pool.submit(each.make, machine) for each in visits]
    return [each.result() for each in runs]


@pytest.fixture(scope="module", name="with_file")
def fixture_with_file(with_module: Namespaces) -> Namespaces:
    names = USERS + TO_LOCK + TO_DELETE
    passwords = [password for password, _other in map(passwords_of, names)]
    hashes = [crypt(password, b"$6$rounds=1000$abcdefgh") for password in passwords]
    lines = [b"%b:%b\n" % (name.encode(), stored) for name, stored in zip(names, hashes)]
    with_module.write(FILE, b"".join(lines), 0o600)
    return with_module


@pytest.fixture(scope="module", name="beside")
def fixture_beside(with_file: Namespaces) -> Outcome:
    machine, randoms = with_file, random.Random(SEED)
    watcher = Watcher(machine.path(FILE))
    administrator = Administrator(machine, watcher, random.Random(SEED + 1))
    logins: list[Result] = []
    with ThreadPoolExecutor(2) as pool:
        watching, working = pool.submit(watcher.watch), pool.submit(administrator.work)
        try:
            for turn, rounds in enumerate(ROUNDS):
                line = f"required pam_mkpasswd.so file={FILE} rounds={rounds} budget=1000000 renew"
                machine.write("/etc/pam.d/example", f"auth {line}\npassword {line}\n")
                logins += visit(machine, randoms, turn)
            working.result()
        finally:
            watcher.is_over.set()
        watching.result()
    return Outcome(watcher, logins, administrator.results, machine.read(FILE))


def test_each_run_of_pwhash_that_is_not_killed_succeeds(beside: Outcome) -> None:
    # An earlier run that was killed may have deleted one of TO_DELETE already.
    failed = [
        result
        for result in beside.runs
        if result.status and not (result.status == 1 and b" has no gone" in result.stderr)
    ]
    assert not failed, "\n".join(map(str, failed[:3]))


def test_each_login_that_is_not_killed_succeeds_or_meets_another_change(beside: Outcome) -> None:
    failed = [
        result
        for result in beside.logins
        if result.status
        and not result.has_timed_out
        and not any(answer.value.encode() in result.stderr for answer in OTHERS)
    ]
    assert not failed, "\n".join(map(str, failed[:3]))


def test_the_file_is_complete_at_each_moment_and_no_lock_is_undone(beside: Outcome) -> None:
    assert beside.watcher.problems == []


def test_in_the_end_the_file_has_each_change(beside: Outcome) -> None:
    fields = beside.fields()
    expected = sorted(USERS + TO_LOCK + TO_ADD)
    assert sorted(name.decode() for name in fields) == expected
    assert [name for name in TO_LOCK if not fields[name.encode()].startswith(b"!")] == []
    added = [fields[name.encode()] for name in TO_ADD]
    assert [stored for stored in added if crypt(ADDED.rstrip(b"\n"), stored) != stored] == []


def test_in_the_end_each_hash_matches_one_of_its_users_passwords(beside: Outcome) -> None:
    fields = beside.fields()
    for name in USERS + TO_LOCK:
        stored = fields[name.encode()].lstrip(b"!")
        hashes = [crypt(password, stored) for password in passwords_of(name)]
        assert stored in hashes, f"{name}: {stored!r}"


def test_many_hashes_were_renewed(beside: Outcome) -> None:
    """A slow machine makes few renewals: kills come earlier, and locks are held longer."""
    assert beside.content.count(f"rounds={ROUNDS[-1]}$".encode()) > len(USERS) / 4
