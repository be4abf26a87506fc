"""pwhash set: kills at each moment, failing system calls, and simultaneous runs."""
from __future__ import annotations

import os
import pathlib
import random
import re
import signal
import time
from concurrent.futures import ThreadPoolExecutor

import pytest
from support.package import LIBRARY, PACKAGE
from support.pwhash_runs import (
    MD5CRYPT,
    Ended,
    ended,
    hashed,
    in_namespace,
    pwhash,
    read,
    save,
    shell,
    started,
    started_program,
)

SET = ("set", *MD5CRYPT, "passwords", "ann")
BEFORE = b"bob:!y\nann:x:1\nlast:z\n"
AFTER = BEFORE.replace(b"ann:x", b"ann:" + hashed(b"password"))
FILES_LEFT = ["passwords", "passwords.mkpasswd.lock"]  # the lock stays for later runs
# The command that bin/pwhash runs, so that strace counts only the calls from here on.
START = ("/usr/bin/python3", "-I", "-S", str(PACKAGE / "pwhash/start.py"), str(LIBRARY), "pwhash")


def traced(inject: str) -> Ended:
    """Sets Ann's password while strace injects a failure or a signal at a system call."""
    command = ["strace", "-qq", "-o", "/dev/null", "-e", f"inject={inject}", *START, *SET]
    return ended(started_program(*command), b"password\n")


def file_names() -> list[str]:
    """Returns the names of the files in the current folder."""
    return sorted(path.name for path in pathlib.Path().iterdir())


# ---- Kills


@pytest.mark.needs("strace")
@pytest.mark.parametrize(
    ("call", "number", "expected"),
    [
        pytest.param("flock", 1, BEFORE, id="before the lock"),
        pytest.param("fchown", 2, BEFORE, id="before the new file has its owner"),
        pytest.param("fsync", 1, BEFORE, id="before the new file is on the disk"),
        pytest.param("linkat", 1, BEFORE, id="before the new file has a name"),
        pytest.param("symlinkat", 1, BEFORE, id="before the note"),
        pytest.param("renameat2", 1, BEFORE, id="before the exchange"),
        pytest.param("unlinkat", 2, AFTER, id="before the old file is removed"),
        pytest.param("unlinkat", 3, AFTER, id="before the note is removed"),
        pytest.param("fsync", 2, AFTER, id="before the folder is on the disk"),
    ],
)
def test_a_killed_run_leaves_the_old_or_the_new_file(
    call: str, number: int, expected: bytes
) -> None:
    """A signal comes at the call with this number, counted from 1."""
    save("passwords", BEFORE)
    killed = traced(f"{call}:signal=KILL:when={number}")
    assert killed.status == -signal.SIGKILL, killed
    assert read("passwords") == expected, killed
    refused = pwhash("set", "--lock", "passwords", "last")  # its field z isn't a hash
    assert refused.status == 2, refused
    done = pwhash(*SET, stdin=b"password\n")
    assert (done.status, read("passwords"), file_names()) == (0, AFTER, FILES_LEFT), done


@pytest.mark.needs("strace")
@pytest.mark.parametrize("number", [signal.SIGTERM, signal.SIGINT, signal.SIGHUP])
@pytest.mark.parametrize("call", ["fsync", "renameat2"])
def test_a_signal_while_the_file_is_replaced_undoes_nothing(
    call: str, number: signal.Signals
) -> None:
    save("passwords", BEFORE)
    done = traced(f"{call}:signal={number.name}:when=1")
    assert (done.status, read("passwords"), file_names()) == (0, AFTER, FILES_LEFT), done
    assert number.name.encode() in done.err, done


KILLS = 60
SECONDS_TO_KILL = (0.05, 0.4)  # the least and the most, from the start of a run


def test_runs_killed_at_random_lose_nothing() -> None:
    source = random.Random(1)
    save("passwords", BEFORE)
    for _ in range(KILLS):
        with started(*SET) as process:
            assert process.stdin
            process.stdin.write(b"password\n")
            process.stdin.close()
            time.sleep(source.uniform(*SECONDS_TO_KILL))
            process.kill()
        assert read("passwords") in (BEFORE, AFTER)
    done = pwhash(*SET, stdin=b"password\n")
    assert (done.status, read("passwords"), file_names()) == (0, AFTER, FILES_LEFT), done


# ---- Failures


@pytest.mark.needs("strace")
@pytest.mark.parametrize(
    ("call", "error"),
    [
        pytest.param("flock", "ENOLCK", id="no lock"),
        pytest.param("fchown", "EPERM", id="no permission to set the owner"),
        pytest.param("fchmod", "EPERM", id="no permission to set the mode"),
        pytest.param("fsync", "EIO", id="a failing disk"),
        pytest.param("fsync", "ENOSPC", id="a full disk"),
        pytest.param("linkat", "EACCES", id="no permission to create a name"),
        pytest.param("symlinkat", "ENOSPC", id="no space for the note"),
        pytest.param("renameat2", "EINVAL", id="no exchange"),
        pytest.param("renameat2", "EIO", id="an exchange that fails"),
    ],
)
def test_a_system_call_that_fails_leaves_the_old_file(call: str, error: str) -> None:
    save("passwords", BEFORE)
    done = traced(f"{call}:error={error}")
    assert (done.status, done.out, read("passwords")) == (3, b"", BEFORE), done
    assert done.err.startswith(b"pwhash: ") and set(file_names()) <= set(FILES_LEFT), done


@pytest.mark.needs("strace")
@pytest.mark.parametrize(
    "inject",
    [
        pytest.param("unlinkat:error=EIO:when=2", id="the old file"),
        pytest.param("fsync:error=EINVAL:when=2", id="the folder"),
    ],
)
def test_an_error_after_the_exchange_is_not_a_failure(inject: str) -> None:
    save("passwords", BEFORE)
    done = traced(inject)
    assert (done.status, read("passwords")) == (0, AFTER), done
    done = pwhash("set", "--delete", "passwords", "bob")
    assert (done.status, file_names()) == (0, FILES_LEFT), done


def test_a_full_disk_leaves_the_old_file() -> None:
    script = """
        mkdir full
        mount -t tmpfs -o size=64k,mode=755 none full
        cd full
        { printf 'bob:!y\\nann:x:1\\n'; yes '#' | head -c 20000; } > passwords
        : > passwords.mkpasswd.lock
        head -c 60000 /dev/zero > zeros 2>> ../log || :
        cp -p passwords ../before
        "$@" || { status=$?; cmp passwords ../before && ls && exit $status; }
    """
    done = in_namespace(script, *SET, stdin=b"password\n")
    assert done.status == 3 and b"No space left" in done.err, done
    assert done.out.split() == [b"passwords", b"passwords.mkpasswd.lock", b"zeros"], done


def test_a_file_that_is_mounted_by_itself_stays() -> None:
    save("passwords", BEFORE)
    save("outside", BEFORE)
    script = 'mount --bind outside passwords; "$@" || { status=$?; ls; exit $status; }'
    done = in_namespace(script, *SET, stdin=b"password\n")
    assert done.status == 3 and b"mounted by itself" in done.err, done
    assert done.out.split() == [b"outside", b"passwords", b"passwords.mkpasswd.lock"], done
    assert read("passwords") == read("outside") == BEFORE, done


@pytest.mark.needs("strace")
def test_an_immutable_file_is_named_before_the_password_is_read() -> None:
    """The kernel fails with EPERM for anybody who wants to write such a file."""
    save("passwords", BEFORE)
    done = traced("?faccessat2,?faccessat:error=EPERM")
    assert done.status == 2 and b"immutable" in done.err, done
    assert (read("passwords"), file_names()) == (BEFORE, ["passwords"]), done


def test_a_limit_on_file_size_leaves_the_old_file() -> None:
    save("passwords", BEFORE)
    done = shell('ulimit -f 0; exec "$@"', *SET, stdin=b"password\n")
    assert done.status == 3 and b"ulimit -f" in done.err, done
    assert read("passwords") == BEFORE


# ---- Simultaneous runs


def test_a_lock_that_another_process_holds_is_named() -> None:
    save("passwords", BEFORE)
    script = 'exec 9> passwords.mkpasswd.lock; flock 9; exec "$@"'
    done = shell(script, *SET, stdin=b"password\n")
    assert (done.status, read("passwords")) == (3, BEFORE), done
    assert b"passwords.mkpasswd.lock" in done.err, done


def test_a_run_waits_for_the_lock() -> None:
    save("passwords", BEFORE)
    script = 'flock passwords.mkpasswd.lock sleep 2 & sleep 0.3; "$@"'
    done = shell(script, *SET, stdin=b"password\n")
    assert (done.status, read("passwords")) == (0, AFTER), done


def test_somebodys_version_stays_and_is_named() -> None:
    save("passwords", BEFORE)
    save("passwords.mkpasswd.new", b"ann:y\n")
    os.symlink("1 2", "passwords.mkpasswd.exchange")
    done = pwhash(*SET, stdin=b"password\n")
    assert (done.status, read("passwords")) == (3, BEFORE), done
    assert read("passwords.mkpasswd.new") == b"ann:y\n"
    assert b"passwords.mkpasswd.new" in done.err, done


def test_simultaneous_runs_lose_no_line() -> None:
    save("passwords", BEFORE)
    names = [f"user{number}" for number in range(30)]
    with ThreadPoolExecutor(6) as pool:
        runs = [
            pool.submit(pwhash, "set", *MD5CRYPT, "passwords", name, stdin=b"password\n")
            for name in names
        ]
    ends = [run.result() for run in runs]
    assert all(done.status == 0 for done in ends), "\n".join(map(str, ends))
    content = read("passwords")
    added = re.findall(rb"^(user\d+):", content, re.MULTILINE)
    assert content.startswith(BEFORE), content
    assert sorted(added) == sorted(name.encode() for name in names)


def test_simultaneous_runs_add_a_name_once() -> None:
    save("passwords", BEFORE)
    words = ("set", *MD5CRYPT, "passwords", "new")
    with ThreadPoolExecutor(4) as pool:
        runs = [pool.submit(pwhash, *words, stdin=b"password\n") for _ in range(8)]
    ends = [run.result() for run in runs]
    assert all(done.status == 0 for done in ends), "\n".join(map(str, ends))
    assert read("passwords") == BEFORE + b"new:" + hashed(b"password") + b"\n"
