"""A list that changes during a run: no user gets an old password, or another user's."""
from __future__ import annotations

import os
import re
import signal
import subprocess
import time
from collections.abc import Callable

import pytest
from support.pwhash_runs import (
    PWHASH,
    SLOW,
    SLOW_COUNT,
    command_to_go_on,
    ended,
    go_on,
    halted,
    halted_run,
    hashed,
    pwhash,
    read,
    save,
    started_program,
    users,
    wait_for,
)


def touch_access() -> None:
    os.utime("passwords", (time.time(), os.stat("passwords").st_mtime))


def link_file() -> None:
    os.link("passwords", "another name")


@pytest.mark.parametrize(
    "change",
    [
        pytest.param(touch_access, id="touch -a"),
        pytest.param(lambda: os.chmod("passwords", 0o600), id="chmod"),
        pytest.param(link_file, id="ln"),
        pytest.param(lambda: read("passwords"), id="reading"),
    ],
)
def test_a_file_whose_lines_stay_the_same_is_hashed(change: Callable[[], object]) -> None:
    with halted_run() as process:
        change()
        done = go_on(process)
    assert done.status == 0 and read("hashes").count(b"\n") == SLOW_COUNT, done


@pytest.mark.parametrize(
    "change", [touch_access, lambda: os.chmod("passwords", 0o600)], ids=["touch -a", "chmod"]
)
def test_a_run_resumes_after_the_file_was_touched(change: Callable[[], object]) -> None:
    with halted_run() as process:
        process.send_signal(signal.SIGTERM)
        first = go_on(process)
    change()
    command = command_to_go_on(first)
    second = ended(started_program("/bin/sh", "-c", command))
    assert second.status == 0 and read("hashes").count(b"\n") == SLOW_COUNT, second


def add_a_line() -> None:
    with open("passwords", "ab") as file:
        file.write(b"eve:password\n")


def change_a_line() -> None:
    with open("passwords", "r+b") as file:
        file.seek(len(b"user0:password0\n"))
        file.write(b"user1:PASSWORD1\n")


def replace_by_an_old_file() -> None:
    save("new", users(SLOW_COUNT).replace(b"password1\n", b"PASSWORD1\n"))
    os.utime("new", (1e9, 1e9))  # the times that halted_run() gave the list
    os.rename("new", "passwords")


@pytest.mark.parametrize(
    "change",
    [
        pytest.param(add_a_line, id="one more line"),
        pytest.param(change_a_line, id="another password"),
        pytest.param(replace_by_an_old_file, id="another file of the same size and time"),
        pytest.param(lambda: os.remove("passwords"), id="removed"),
    ],
)
def test_a_changed_file_makes_no_out(change: Callable[[], None]) -> None:
    with halted_run() as process:
        change()
        done = go_on(process)
    assert done.status == 2 and not os.path.exists("hashes"), done
    assert b"passwords was changed" in done.err and b"remove hashes.part" in done.err, done
    if b"--resume" in done.err:  # then the advice must work, which begins with a command
        touch = re.search(rb"touch -r \S+ \S+", done.err)
        assert touch, done
        subprocess.run(["/bin/sh", "-c", touch[0].decode().rstrip(":;")], check=True)
        again = pwhash("file", *SLOW, "passwords", "-o", "hashes", "--resume")
        assert again.status in (0, 2), again


@pytest.mark.parametrize("number", [signal.SIGINT, signal.SIGTERM], ids=["Ctrl-C", "SIGTERM"])
def test_a_run_does_not_resume_with_old_passwords(number: int) -> None:
    """A line changes after pwhash has hashed it, and then the run is interrupted."""
    with halted_run() as process:
        size = os.path.getsize("hashes.part")
        change_a_line()
        process.send_signal(signal.SIGCONT)
        wait_for(lambda: process.poll() is not None or os.path.getsize("hashes.part") > size)
        process.send_signal(number)
        ended(process)
    again = pwhash("file", *SLOW, "passwords", "-o", "hashes", "--resume")
    assert again.status == 2 and not os.path.exists("hashes"), again


@pytest.mark.parametrize("is_redirected", [False, True], ids=["named", "redirected"])
def test_a_changed_file_is_named_even_without_out(is_redirected: bool) -> None:
    """pwhash once read lines that no version of the file had."""
    save("list", users(SLOW_COUNT))
    before = os.stat("list").st_mtime
    script = 'exec "$@" < list > out' if is_redirected else 'exec "$@" list > out'
    with halted("/bin/sh", "-c", script, "sh", PWHASH, "file", *SLOW, part="out") as process:
        save("list", users(SLOW_COUNT).replace(b"password", b"pass"))
        done = go_on(process)
    assert os.stat("list").st_mtime > before
    assert done.status == 2 and b"changed" in done.err and b"out.part" not in done.err, done
    lines = read("out").splitlines()
    assert 0 < len(lines) < SLOW_COUNT
    for number in 0, len(lines) - 1:
        expected = hashed(b"password%d" % number, "$6$rounds=20000$saltsalt")
        assert lines[number] == b"user%d:%b" % (number, expected)


def replace_part() -> None:
    save("other", b"")
    os.rename("other", "hashes.part")


def empty_list() -> None:
    save("new", b"")
    os.rename("new", "passwords")


@pytest.mark.parametrize(
    "change",
    [
        pytest.param(lambda: os.remove("hashes.part"), id="removed"),
        pytest.param(replace_part, id="another file"),
        pytest.param(empty_list, id="an empty list instead"),
    ],
)
def test_a_replaced_part_or_list_makes_no_out(change: Callable[[], None]) -> None:
    """Otherwise OUT would lack some of the users."""
    with halted_run() as process:
        change()
        done = go_on(process)
    assert done.status in (2, 3) and not os.path.exists("hashes"), done
