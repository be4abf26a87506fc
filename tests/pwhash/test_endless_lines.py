"""Lines without an end: pwhash ends as soon as one is too long, and shows nothing of it."""
from __future__ import annotations

import contextlib
import os

import pytest
from support.package import crypt
from support.pwhash_runs import (
    MD5,
    MD5CRYPT,
    SECONDS_TO_END,
    Ended,
    pwhash,
    read,
    save,
    shell,
    started,
)

SECRET = b"secret"
PASSWORDS = b"ann:" + MD5.encode() + b"\n"
LONGEST_ROW = 1 << 17  # of pwhash(1): 128 KiB
# Beginnings that are longer than a password, the lines with a hash, and a line of a list may be.
ABOVE_PASSWORD, ABOVE_HASH, ABOVE_LINE = SECRET * 200, SECRET * 700, SECRET * 22000
BLANK_LINES = b"\n" * 4200


def without_end_of_input(begin: bytes, *words: str) -> Ended:
    """Runs pwhash on the beginning of a standard input that stays open until the run has ended."""
    with started(*words) as process:
        assert process.stdin and process.stdout and process.stderr
        with contextlib.suppress(BrokenPipeError):  # the run may end before it has read all
            process.stdin.write(begin)
            process.stdin.flush()
        try:
            status = process.wait(SECONDS_TO_END)
        finally:
            process.kill()
        with contextlib.suppress(BrokenPipeError):
            process.stdin.close()
        return Ended(" ".join(words), status, process.stdout.read(), process.stderr.read())


@pytest.mark.parametrize(
    ("words", "begin", "status", "limit"),
    [
        pytest.param((), ABOVE_PASSWORD, 2, b"1,024 bytes", id="a password"),
        pytest.param(
            ("--accept-doubtful",), ABOVE_PASSWORD, 2, b"1,024 bytes", id="a doubtful password"
        ),
        pytest.param(
            ("set", "passwords", "ann"), ABOVE_PASSWORD, 2, b"1,024 bytes", id="a password to set"
        ),
        pytest.param(
            ("verify", "passwords", "ann"), ABOVE_PASSWORD, 2, b"1,024 bytes", id="ann's password"
        ),
        pytest.param(("verify",), ABOVE_PASSWORD, 2, b"1,024 bytes", id="a password to verify"),
        pytest.param(("verify",), b"x\n" + ABOVE_HASH, 2, b"4,096 bytes", id="a hash"),
        pytest.param(("verify",), b"x\n" + BLANK_LINES, 2, b"4,096 bytes", id="no hash"),
        pytest.param(("file",), b"ann:" + ABOVE_LINE, 3, b"line 1: longer than 128 KiB", id="file"),
        pytest.param(
            ("file", "--csv"),
            b"name,password\nann," + ABOVE_LINE,
            *(3, b"line 2: longer than 128 KiB"),
            id="a table",
        ),
        pytest.param(("audit", "-"), b"ann:" + ABOVE_LINE, 3, b"128 KiB", id="audit"),
        pytest.param(("check",), b"ann:x:" + ABOVE_LINE, 3, b"128 KiB", id="check"),
        pytest.param(
            ("check", "--shadow", "passwords"), ABOVE_LINE, 3, b"128 KiB", id="known passwords"
        ),
    ],
)
def test_a_line_above_the_limit_ends_the_run_while_it_still_comes(
    words: tuple[str, ...], begin: bytes, status: int, limit: bytes
) -> None:
    save("passwords", PASSWORDS)
    done = without_end_of_input(begin, *words)
    assert (done.status, done.out) == (status, b"") and limit in done.err, done
    assert SECRET not in done.err and done.err.count(b"\n") == 1, done
    assert read("passwords") == PASSWORDS and os.listdir() == ["passwords"], done


@pytest.mark.parametrize(
    "words",
    [
        pytest.param(("file", "/dev/zero"), id="file"),
        pytest.param(("file", "--csv", "--columns", "1,2", "/dev/zero"), id="a table"),
        pytest.param(("check", "/dev/zero"), id="check"),
        pytest.param(("audit", "/dev/zero"), id="audit"),
    ],
)
def test_a_device_without_an_end_is_no_list(words: tuple[str, ...]) -> None:
    done = pwhash(*words)
    assert (done.status, done.out) == (3, b"") and done.err.count(b"\n") == 1, done
    assert b"/dev/zero, line 1: longer than 128 KiB" in done.err, done


@pytest.mark.parametrize(
    "words",
    [
        pytest.param(("file", "list"), id="file"),
        pytest.param(("file", "list", "-o", "hashes"), id="file with -o"),
        pytest.param(("check", "list"), id="check"),
        pytest.param(("audit", "list"), id="audit"),
    ],
)
def test_only_the_beginning_of_a_huge_line_is_read(words: tuple[str, ...]) -> None:
    """The line has 1 TiB, which takes no room on the disk."""
    save("list", b"ann:pw\n")
    os.truncate("list", 1 << 40)
    done = pwhash(*words)
    assert done.status == 3 and b"list, line 2: longer than 128 KiB" in done.err, done
    assert os.listdir() == ["list"], done


def test_standard_input_can_be_a_device_without_an_end() -> None:
    done = shell('exec "$@" < /dev/zero', *MD5CRYPT)
    assert (done.status, done.out) == (2, b"") and b"1,024 bytes" in done.err, done


def test_what_follows_the_password_may_have_no_end() -> None:
    done = without_end_of_input(b"password\n" + ABOVE_LINE, *MD5CRYPT)
    assert (done.status, done.out) == (0, MD5.encode() + b"\n"), done


def test_what_follows_the_hash_may_have_no_end() -> None:
    done = without_end_of_input(b"password\n" + MD5.encode() + b"\n" + ABOVE_LINE, "verify")
    assert (done.status, done.out) == (0, b"yes, the password matches\n"), done


def test_the_longest_password_is_read_whole() -> None:
    longest = b"x" * 1024
    expected = crypt(longest, "$1$xxxxxxxx")
    words = ("-m", "md5crypt", "-S", "xxxxxxxx", "--accept-doubtful", "--budget", "100M")
    for data in longest, longest + b"\n":
        done = pwhash(*words, stdin=data)
        assert (done.status, done.out) == (0, expected.encode() + b"\n"), done


@pytest.mark.parametrize("end", [b"\n", b"\r\n"], ids=["a line feed", "an end of Windows"])
def test_a_line_of_128_kib_is_refused_and_the_next_one_is_hashed(end: bytes) -> None:
    line = b"ann:" + b"x" * (LONGEST_ROW - len(b"ann:"))
    words = ("file", *MD5CRYPT, "--windows")
    done = pwhash(*words, stdin=line + end + b"bob:password" + end)
    assert (done.status, done.out) == (1, b"bob:" + MD5.encode() + b"\n"), done.err[-300:]
    done = pwhash(*words, stdin=line + b"x" + end + b"bob:password" + end)
    assert (done.status, done.out) == (3, b"") and b"128 KiB" in done.err, done.err[-300:]
