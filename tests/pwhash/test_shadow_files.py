"""pwhash check --shadow FIELDS, where FIELDS isn't an ordinary file."""

from __future__ import annotations

import os

import pytest
from support.pwhash_runs import (
    MD5,
    PWHASH,
    Ended,
    ended,
    pwhash,
    read,
    save,
    shell,
    started_program,
)

SHADOW = b"ann:" + MD5.encode() + b":1:::\nbob:!:1:::\n"


def bash(script: str) -> Ended:
    """Runs a bash script with little memory, and with Ann's password on stdin. "$@" is pwhash."""
    command = ["bash", "-c", f"ulimit -v 400000; {script}", "bash", PWHASH]
    return ended(started_program(*command), b"ann:password\n")


@pytest.mark.parametrize(
    ("script", "reason"),
    [
        pytest.param('"$@" check --shadow /dev/zero', b"/dev/zero is no file", id="a device"),
        pytest.param('"$@" check --shadow .', b". is a folder", id="a folder"),
        pytest.param(
            'mkfifo pipe; "$@" check --shadow pipe', b"pipe is a pipe without", id="a pipe"
        ),
        pytest.param(
            '"$@" check --shadow <(cat /dev/zero)', b"line 1: longer than", id="a line without end"
        ),
        pytest.param('"$@" check --shadow nowhere', b"nowhere: No such file", id="nothing"),
        pytest.param('"$@" check --shadow /dev/null', b"/dev/null", id="the null device"),
    ],
)
def test_a_file_without_fields_is_named(script: str, reason: bytes) -> None:
    done = bash(script)
    assert done.status in (2, 3) and done.out == b"" and reason in done.err, done
    assert b"Error" not in done.err, done


@pytest.mark.parametrize(
    ("script", "status"),
    [
        pytest.param('"$@" check --shadow <(cat shadow)', 0, id="a pipe of the shell"),
        pytest.param('"$@" check --shadow <(sleep 5; cat shadow)', 0, id="a slow pipe"),
        pytest.param(
            'mkfifo pipe; cat shadow > pipe & "$@" check --shadow pipe', 0, id="a pipe with a name"
        ),
        pytest.param('"$@" check --shadow /dev/stdin list < shadow', 0, id="standard input"),
        pytest.param('"$@" check --shadow <(cat many shadow)', 1, id="many fields for one name"),
    ],
)
def test_fields_are_read_from_a_pipe_or_standard_input(script: str, status: int) -> None:
    save("shadow", SHADOW)
    save("list", b"ann:password\n")
    save("many", b"eve:!:1:::\n" * 1_000_000)
    done = bash(script)
    assert (done.status, done.out) == (status, b"ann:ok\n"), done


def test_the_first_field_of_a_name_counts() -> None:
    save("shadow", b"no colon\n" + SHADOW + b"ann:!\nbob:" + MD5.encode())
    done = pwhash("check", "--shadow", "shadow", stdin=b"ann:password\nbob:password\n")
    assert (done.status, done.out) == (1, b"ann:ok\nbob:locked\n"), done
    assert b"the name again, after line 2" in done.err, done


def test_a_last_field_without_a_line_feed_counts() -> None:
    save("shadow", b"ann:" + MD5.encode())
    done = pwhash("check", "--shadow", "shadow", stdin=b"password\n")
    assert (done.status, done.out) == (0, b"ann:ok\n"), done
    assert os.listdir() == ["shadow"], done


@pytest.mark.parametrize("redirected", [">> shadow", "2>> shadow"])
def test_nothing_is_printed_into_the_file_with_the_hashes(redirected: str) -> None:
    shadow = b"ann:" + MD5.encode() + b":1:::\n"
    save("shadow", shadow)
    done = shell(f'exec "$@" {redirected}', "check", "--shadow", "shadow", stdin=b"ann:x\n")
    assert done.status == 2 and read("shadow") == shadow, done
