"""Systems without Python or with low limits, and hostile inherited state."""
from __future__ import annotations

import os

import pytest
from support.process import Result
from support.pwhash_copies import Copy
from support.pwhash_runs import (
    MD5,
    MD5CRYPT,
    PWHASH,
    ended,
    hashed,
    in_namespace,
    save,
    shell,
    started_program,
    users,
)


def test_without_python_the_message_says_so() -> None:
    script = """
        mount --bind /dev/null "$(readlink -f /usr/bin/python3)"
        "$@"
    """
    done = in_namespace(script, *MD5CRYPT, stdin=b"x\n")
    assert done.status == 3 and b"/usr/bin/python3 is missing" in done.err, done


@pytest.mark.parametrize("status", [125, 1], ids=["coreutils 8.30", "BusyBox"])
def test_an_env_that_is_too_old_is_named(status: int) -> None:
    script = f"""
        echo '#!/bin/sh' > env
        echo 'case $1 in -*) exit {status} ;; esac; exec "$@"' >> env
        chmod 755 env
        mount --bind env "$(readlink -f /usr/bin/env)"
        "$@"
    """
    done = in_namespace(script, *MD5CRYPT, stdin=b"x\n")
    assert done.status == 3 and b"/usr/bin/env" in done.err and b"8.31" in done.err, done


@pytest.mark.parametrize("tool", ["env", "readlink"])
def test_a_missing_tool_is_named(tool: str) -> None:
    script = f'mount --bind /dev/null "$(readlink -f /usr/bin/{tool})"; "$@"'
    done = in_namespace(script, *MD5CRYPT, stdin=b"x\n")
    assert done.status == 3 and f"/usr/bin/{tool} is missing".encode() in done.err, done


@pytest.mark.parametrize("files", range(11, 24))
@pytest.mark.parametrize(
    "words",
    [("file", *MD5CRYPT, "passwords"), ("file", *MD5CRYPT, "passwords", "-o", "hashes"), MD5CRYPT],
    ids=["file", "into a file", "one"],
)
def test_with_few_open_files_there_is_a_result_or_a_message(
    words: tuple[str, ...], files: int
) -> None:
    save("passwords", users(20))
    done = shell(f'ulimit -n {files}; exec "$@"', *words, stdin=b"password\n")
    is_done = done.status == 0 and done.err == b""
    has_message = done.status == 3 and b"pwhash: " in done.err and b"open files" in done.err
    assert is_done or has_message, done


@pytest.mark.parametrize("kibibytes", range(4000, 60000, 4000))
def test_with_little_memory_no_python_error_or_password_is_shown(kibibytes: int) -> None:
    save("passwords", users(20) + b"secret:TopSecret\xfc\n")
    words = ("file", *MD5CRYPT, "--accept-doubtful", "passwords")
    done = shell(f'ulimit -v {kibibytes}; exec "$@"', *words)
    assert b"TopSecret" not in done.err and b"Error(" not in done.err, done


# ---- Limits of a process


def statuses_under(limit: str, limits: range) -> set[int]:
    """Returns the exit statuses under these limits. Fails if a line is lost or refused."""
    lines = users(50)
    expected = b"".join(
        b"user%d:%b\n" % (number, hashed(b"password%d" % number)) for number in range(50)
    )
    statuses = set()
    for most in limits:
        command = ("prlimit", f"--{limit}={most}", PWHASH, "file", *MD5CRYPT)
        done = ended(started_program(*command), lines)
        assert done.status != 1, done
        assert done.status != 0 or done.out == expected, done
        statuses.add(done.status)
    return statuses


@pytest.mark.slow
@pytest.mark.parametrize(
    ("limit", "limits"),
    [
        pytest.param("as", range(1 << 20, 60 << 20, 1 << 20), id="memory"),
        pytest.param("nofile", range(1, 40), id="open files"),
    ],
)
def test_a_run_is_complete_or_fails(limit: str, limits: range) -> None:
    statuses = statuses_under(limit, limits)
    assert 0 in statuses and len(statuses) > 1, statuses


def run_as_somebody(copy: Copy, most: int) -> Result:
    """Runs pwhash as a user who has no other processes and may have at most `most`.

    The user's number differs from that of another worker of pytest.
    """
    user = 60_000 + os.getpid() % 5_000
    limit = ("prlimit", f"--nproc={most}", "setpriv", f"--reuid={user}", "--regid=65534")
    before = (*limit, "--clear-groups", "--")
    return copy.run("file", *MD5CRYPT, stdin=b"ann:x\nbob:y\n", before=before)


@pytest.mark.needs("root")
def test_a_limit_on_processes_does_not_hang_a_run(copy: Copy) -> None:
    """pwhash must not wait forever for a process that can't be started."""
    statuses = [run_as_somebody(copy, most).status for most in range(1, 9)]
    assert set(statuses) == {0, 3} and statuses[0] == 3, statuses


# ---- Inherited state


def test_hostile_inherited_state_does_not_change_a_run() -> None:
    """Modules in the current folder, ignored and blocked signals, and Python's variables."""
    for name in "os.py", "csv.py", "command.py", "json.py":
        save(name, b"raise SystemExit(0)\n")
    variables = {
        "PATH": "/nowhere",
        "PYTHONPATH": os.getcwd(),
        "PYTHONSTARTUP": "os.py",
        "LC_ALL": "xx",
        "PYTHONHASHSEED": "x",
        "COLUMNS": "1",
    }
    environment = [f"{name}={value}" for name, value in variables.items()]
    signals = ("--ignore-signal=CHLD,PIPE", "--block-signal")
    command = ("/usr/bin/env", "-i", *signals, *environment, PWHASH, "file", *MD5CRYPT)
    done = ended(started_program(*command), b"ann:password\nx\n")
    assert (done.status, done.out) == (1, b"ann:" + MD5.encode() + b"\n"), done
    assert done.err == b"mkpasswd: line 2: no password field\n", done
