"""pwhash never prints into the file that it reads, or control sequences to a terminal."""

from __future__ import annotations

import os

import pytest
from support.needs import needed
from support.pwhash_runs import MD5, MD5CRYPT, PWHASH, hashed, pwhash, read, save, shell, users

with needed("python3-pexpect"):
    import pexpect

ESCAPE = b"\x1b[2J"
# The limit stops a run after a megabyte of output, so that an endless one doesn't fill the disk.
LIMIT = "ulimit -f 2048; exec "

# ---- The file that pwhash reads

COMMANDS = [
    pytest.param(("audit",), id="audit"),
    pytest.param(("audit", "--json"), id="audit in JSON"),
    pytest.param(("check",), id="check"),
    pytest.param(("check", "--shadow", "shadow"), id="check of known passwords"),
    pytest.param(("file", *MD5CRYPT), id="file"),
    pytest.param(("file", *MD5CRYPT, "--skip-doubtful", "--skip-refused"), id="file, in part"),
    pytest.param(("file", *MD5CRYPT, "-o", "hashes"), id="file, with another OUT"),
]
APPENDED = [
    pytest.param('"$@" list >> list', b"standard output", id="appended"),
    pytest.param('"$@" list 1<> list', b"standard output", id="from its beginning"),
    pytest.param('"$@" - < list >> list', b"standard output", id="from standard input"),
    pytest.param('"$@" ./link >> list', b"standard output", id="by another name"),
]


@pytest.mark.parametrize(("script", "output"), APPENDED)
@pytest.mark.parametrize("words", COMMANDS)
def test_nothing_is_printed_into_the_file_that_is_read(
    words: tuple[str, ...], script: str, output: bytes
) -> None:
    save("shadow", b"".join(b"user%d:%b:1:::\n" % (number, MD5.encode()) for number in range(9)))
    save("list", users(9))
    os.symlink("list", "link")
    done = shell(LIMIT + script, *words)
    assert done.status == 2 and output in done.err, done
    assert read("list") == users(9) and not os.path.exists("hashes.part"), done


@pytest.mark.parametrize("redirected", ["2>> list", ">> list 2>&1"])
@pytest.mark.parametrize("words", [("check",), ("check", "--shadow", "shadow")], ids=" ".join)
def test_no_message_is_added_to_the_file_that_is_read(
    words: tuple[str, ...], redirected: str
) -> None:
    """Each message would add a line, which would cause the next message."""
    save("shadow", b"ann:!:1:::\n")
    lines = b"x" * 3000 + b"\n"
    save("list", lines)
    done = shell(f'{LIMIT} "$@" list {redirected}', *words)
    assert done.status == 2 and read("list") == lines, done


def test_the_terminal_shows_why_nothing_is_added() -> None:
    save("list", users(9))
    script = f"{LIMIT} {PWHASH} check list 2>> list"
    child = pexpect.spawn("/bin/sh", ["-c", script], timeout=60)
    child.expect(pexpect.EOF)
    child.close()
    screen = bytes(child.before)
    assert child.exitstatus == 2 and read("list") == users(9), screen
    assert b"list is standard error too" in screen, screen


def test_output_can_be_appended_to_another_file() -> None:
    save("list", b"ann:password\n")
    save("hashes", b"eve:!\n")
    done = shell('exec "$@" < list >> hashes', "file", *MD5CRYPT)
    assert done.status == 0 and read("hashes") == b"eve:!\nann:" + MD5.encode() + b"\n", done


# ---- Names on a terminal

NAME = b"an" + ESCAPE + b"\xffn"
ESCAPED_NAME = b"an\\x1b[2J\\xffn"
NAME_IN_JSON = ESCAPED_NAME.replace(b"\\", b"\\\\")


def at_terminal(*words: str) -> tuple[int, bytes]:
    """Returns the status of a run at a terminal, and what the terminal shows."""
    child = pexpect.spawn(PWHASH, list(words), timeout=60)
    child.expect(pexpect.EOF)
    child.close()
    return child.exitstatus, bytes(child.before)


@pytest.mark.parametrize(
    "words",
    [
        pytest.param(("check", "stored"), id="check"),
        pytest.param(("check", "--shadow", "shadow", "list"), id="check of known passwords"),
        pytest.param(("file", *MD5CRYPT, "--accept-doubtful", "list"), id="file"),
        pytest.param(("audit", "shadow"), id="audit"),
        pytest.param(("audit", "--json", "shadow"), id="audit in JSON"),
    ],
)
def test_no_name_in_a_line_controls_the_terminal(words: tuple[str, ...]) -> None:
    save("list", NAME + b":password\n")
    save("shadow", NAME + b":" + MD5.encode() + b":1:::\n")
    save("stored", NAME + b":" + MD5.encode() + b":password\n")
    status, screen = at_terminal(*words)
    assert b"\x1b[2J" not in screen, (status, screen)
    expected = NAME_IN_JSON if "--json" in words else ESCAPED_NAME
    assert expected in screen, (status, screen)


def test_a_name_is_printed_unchanged_without_a_terminal() -> None:
    done = pwhash("file", *MD5CRYPT, "--accept-doubtful", stdin=NAME + b":password\n")
    assert (done.status, done.out) == (0, NAME + b":" + MD5.encode() + b"\n"), done


def test_names_in_any_script_are_printed_unchanged() -> None:
    save("list", "zoë:password\nЯна:password\n".encode())
    status, screen = at_terminal("file", *MD5CRYPT, "list")
    assert status == 0 and "zoë:".encode() in screen and "Яна:".encode() in screen, screen
    assert screen.count(hashed(b"password")) == 2, screen
