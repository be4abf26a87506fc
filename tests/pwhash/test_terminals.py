"""pwhash at a terminal: a typed password is hashed as it is, and never shown."""
from __future__ import annotations

import os
import pathlib
import re
import select
import shlex
import signal
import termios

import pytest
from support.needs import needed
from support.pwhash_runs import (
    MD5CRYPT,
    PWHASH,
    at_terminal,
    hashed,
    pwhash,
    read,
    save,
    shows_keys,
    state_of,
    type_secret,
    wait_for,
)

with needed("python3-pexpect"):
    import pexpect

HALF_ERASED = b"TopSecret\xc3\xbc\x7f1"  # some terminals erase only one byte of the character
CTRL_C, CTRL_D, CTRL_Z, CTRL_BACKSLASH = b"\x03", b"\x04", b"\x1a", b"\x1c"
CTRL_Q, CTRL_S = b"\x11", b"\x13"  # let the terminal continue and stop its output
LOCAL_MODES = 3  # their place in what tcgetattr returns


@pytest.mark.parametrize(
    ("typed", "password", "utf8"),
    [
        pytest.param(HALF_ERASED, b"TopSecret\xc31", False, id="half of a character erased"),
        pytest.param(HALF_ERASED, b"TopSecret1", True, id="a whole character erased"),
        pytest.param(b"caf\xe9", b"caf\xe9", False, id="a byte of Latin-1"),
        pytest.param(b"\xfc\xff\xfe", b"\xfc\xff\xfe", True, id="bytes in no encoding"),
        pytest.param("Grüße €".encode(), "Grüße €".encode(), True, id="UTF-8"),
    ],
)
def test_a_typed_password_is_hashed_as_its_bytes(typed: bytes, password: bytes, utf8: bool) -> None:
    terminal = at_terminal(MD5CRYPT, [typed + b"\r"] * 2, utf8=utf8)
    assert terminal.status == 0 and terminal.screen.split()[-1] == hashed(password), terminal
    assert b"TopSecret" not in terminal.screen and not terminal.shows_keys_at_prompt, terminal


@pytest.mark.parametrize("locale", ["C", "C.UTF-8", "POSIX", "nonsense"])
def test_a_typed_password_does_not_depend_on_the_locale(
    locale: str, monkeypatch: pytest.MonkeyPatch
) -> None:
    monkeypatch.setenv("LC_ALL", locale)
    terminal = at_terminal(MD5CRYPT, [b"caf\xe9\r"] * 2)
    assert terminal.status == 0 and terminal.screen.split()[-1] == hashed(b"caf\xe9"), terminal


def typed_at(words: str, keys: bytes) -> tuple[int, bytes]:
    """Runs stty, then pwhash at a terminal, and sends the keys at both prompts.

    Returns the status and what the terminal shows at the end.
    """
    script = f"stty {words} && exec {PWHASH} {shlex.join(MD5CRYPT)}"
    child = pexpect.spawn("/bin/sh", ["-c", script], timeout=60)
    screen = b""
    for prompt in rb"Password: ", rb"Again: ":
        child.expect(prompt)
        child.send(keys)
    child.expect(pexpect.EOF)
    screen = bytes(child.before)
    child.close()
    return os.waitstatus_to_exitcode(child.status), screen


@pytest.mark.parametrize(
    ("words", "keys", "password"),
    [
        pytest.param("istrip", "Grüße\r".encode(), "Grüße".encode(), id="istrip"),
        pytest.param("iuclc", b"SECRET\r", b"SECRET", id="iuclc"),
        pytest.param("xcase", b"SECRET\r", b"SECRET", id="xcase"),
        pytest.param("parmrk -istrip", b"a\xffb\r", b"a\xffb", id="parmrk"),
        pytest.param("igncr", b"secret\r", b"secret", id="igncr"),
        pytest.param("inlcr", b"secret\n", b"secret", id="inlcr"),
    ],
)
def test_keys_are_read_as_they_are_typed(words: str, keys: bytes, password: bytes) -> None:
    status, screen = typed_at(words, keys)
    assert status == 0 and screen.split()[-1] == hashed(password), (status, screen)


@pytest.mark.parametrize(
    ("words", "keys"),
    [
        pytest.param("erase ^H", b"seccc\x7fret\r", id="an erase key that isn't set"),
        pytest.param("sane", b"secret\x1b[D\r", id="an arrow"),
        pytest.param("sane", b"\x1b[200~secret\x1b[201~\r", id="bracketed paste"),
        pytest.param("sane", b"secret\x16\x01\r", id="Ctrl-V Ctrl-A"),
        pytest.param("sane", b"sec\tret\r", id="a tab"),
        pytest.param("sane", "sec\u200bret\r".encode(), id="a zero-width space"),
        pytest.param("sane", "sec\u3164ret\r".encode(), id="a filler"),
    ],
)
def test_characters_that_a_terminal_adds_are_not_hashed(words: str, keys: bytes) -> None:
    status, screen = typed_at(words, keys)
    assert status == 2 and b"$1$" not in screen and b"sec" not in screen, (status, screen)
    assert b"invisible" in screen, screen


def test_a_typed_password_that_is_not_utf8_is_named() -> None:
    status, screen = typed_at("sane", b"caf\xe9\r")
    assert status == 0 and screen.split()[-1] == hashed(b"caf\xe9") and b"UTF-8" in screen, screen


@pytest.mark.parametrize(
    "typed",
    [
        pytest.param([b"TopSecret\xc3\r", b"TopSecret\xfc\r"], id="two that differ"),
        pytest.param([b"TopSecret\xfc\x00\r"] * 2, id="a zero byte"),
        pytest.param([b"TopSecret\xfc" + b"x" * 1100 + b"\r"] * 2, id="too long"),
        pytest.param([b"TopSecret\xfc" + CTRL_D + CTRL_D], id="Ctrl-D after it"),
        pytest.param([b"TopSecret\xfc" + CTRL_C], id="Ctrl-C after it"),
    ],
)
def test_no_message_shows_the_typed_password(typed: list[bytes]) -> None:
    script = f"exec {PWHASH} {shlex.join(MD5CRYPT)} 2> log"
    child = pexpect.spawn("/bin/sh", ["-c", script], timeout=60)
    screen = b""
    for keys in typed:
        child.expect(rb": ")
        screen += child.before
        child.send(keys)
    child.expect(pexpect.EOF)
    screen += child.before
    child.close()
    for text in screen, read("log"):
        # No text may show the password, or Python's form of a value or an error that contains it.
        assert not re.search(rb"Secret|\\x|Error\(", text), (screen, read("log"))


@pytest.mark.parametrize(
    ("keys", "kill", "status"),
    [
        pytest.param([b"secret\r", b"secret\r"], None, 0, id="success"),
        pytest.param([b"secret\r", b"other\r"], None, 2, id="two that differ"),
        pytest.param([CTRL_D], None, 2, id="Ctrl-D"),
        pytest.param([b"secret\r", CTRL_C], None, -signal.SIGINT, id="Ctrl-C"),
        pytest.param([CTRL_BACKSLASH], None, -signal.SIGQUIT, id="Ctrl-backslash"),
        pytest.param([], signal.SIGTERM, -signal.SIGTERM, id="SIGTERM"),
        pytest.param([], signal.SIGQUIT, -signal.SIGQUIT, id="SIGQUIT"),
    ],
)
def test_the_terminal_shows_keys_again_after(
    keys: list[bytes], kill: int | None, status: int
) -> None:
    terminal = at_terminal(MD5CRYPT, keys, kill)
    assert terminal.status == status and terminal.shows_keys_afterwards, terminal
    assert not terminal.shows_keys_at_prompt and b"secret" not in terminal.screen, terminal
    assert not list(pathlib.Path().glob("core*"))


@pytest.mark.parametrize(
    "keys",
    [
        pytest.param([CTRL_D], id="at the first prompt"),
        pytest.param([b"secret\r", CTRL_D], id="at the second prompt"),
        pytest.param([b"secret" + CTRL_D + CTRL_D], id="after a password"),
    ],
)
def test_ctrl_d_at_a_prompt_is_named(keys: list[bytes]) -> None:
    terminal = at_terminal(MD5CRYPT, keys)
    assert terminal.status == 2 and b"Ctrl-D" in terminal.screen, terminal
    assert b"empty" not in terminal.screen and b"$1$" not in terminal.screen, terminal


def test_a_prompt_that_was_stopped_and_continued_hides_the_password() -> None:
    child = pexpect.spawn(PWHASH, list(MD5CRYPT), timeout=60)
    child.expect(rb"Password: ")
    child.kill(signal.SIGSTOP)
    wait_for(lambda: state_of(child.pid) == "T")
    flags = termios.tcgetattr(child.child_fd)
    flags[LOCAL_MODES] |= termios.ECHO  # as a shell does
    termios.tcsetattr(child.child_fd, termios.TCSANOW, flags)
    child.kill(signal.SIGCONT)
    wait_for(lambda: not shows_keys(child.child_fd))
    screen = type_secret(child)
    assert b"secret" not in screen and hashed(b"secret") in screen


def test_two_passwords_that_differ_are_refused() -> None:
    terminal = at_terminal(MD5CRYPT, [b"secret\r", b"other\r"])
    assert terminal.status == 2 and b"$1$" not in terminal.screen, terminal


def test_a_wrong_option_is_named_before_anything_is_typed() -> None:
    terminal = at_terminal(("-S", "a-b"), [])
    assert terminal.status == 2 and b"Password" not in terminal.screen, terminal


def test_ctrl_z_at_a_prompt_shows_keys_until_fg(monkeypatch: pytest.MonkeyPatch) -> None:
    monkeypatch.setenv("PS1", "shell> ")
    child = pexpect.spawn("/bin/sh", ["-i"], timeout=60)
    child.expect_exact("shell> ")
    child.send(f"{PWHASH} {shlex.join(MD5CRYPT)}\r")
    child.expect_exact("Password: ")
    child.send(b"half" + CTRL_Z)
    child.expect_exact("shell> ")
    screen = bytes(child.before)
    wait_for(lambda: shows_keys(child.child_fd))
    child.send("fg\r")
    child.expect_exact("Password: ")
    screen += bytes(child.before)
    assert not shows_keys(child.child_fd)
    child.send(b"secret\r")
    child.expect_exact("Again: ")
    screen += bytes(child.before)
    child.send(b"secret\r")
    child.expect_exact("shell> ")
    screen += bytes(child.before)
    child.close()
    assert hashed(b"secret") in screen.split(), screen
    assert b"half" not in screen and b"secret" not in screen, screen


def test_ctrl_z_without_a_shell_that_could_continue_asks_again() -> None:
    child = pexpect.spawn(PWHASH, list(MD5CRYPT), timeout=60)
    child.expect_exact("Password: ")
    child.send(b"half" + CTRL_Z)
    child.expect_exact("Password: ")
    screen = bytes(child.before) + type_secret(child)
    assert hashed(b"secret") in screen.split(), screen
    assert b"half" not in screen and b"secret" not in screen, screen


def test_a_stopped_prompt_can_be_ended(monkeypatch: pytest.MonkeyPatch) -> None:
    monkeypatch.setenv("PS1", "shell> ")
    child = pexpect.spawn("/bin/sh", ["-i"], timeout=60)
    child.expect_exact("shell> ")
    child.send(f"{PWHASH} {shlex.join(MD5CRYPT)}\r")
    child.expect_exact("Password: ")
    child.send(CTRL_Z)
    child.expect_exact("shell> ")
    child.send("jobs -p > job; kill %1; bg; wait\r")
    wait_for(lambda: os.path.exists("job") and read("job") != b"")
    process = int(read("job"))
    wait_for(lambda: state_of(process) == "")
    assert shows_keys(child.child_fd)
    child.close()


def takes_output(process: int) -> bool:
    """Returns whether a process can write to its terminal, whose output Ctrl-S may have stopped."""
    with open(f"/proc/{process}/fd/0", "wb", buffering=0) as terminal:
        return bool(select.select([], [terminal], [], 0)[1])


@pytest.mark.parametrize("keys", [b"", b"secret\r"], ids=["at the prompt", "after a password"])
@pytest.mark.parametrize("kill", [signal.SIGTERM, signal.SIGHUP, signal.SIGQUIT])
def test_a_signal_ends_a_prompt_whose_terminal_is_stopped(kill: int, keys: bytes) -> None:
    child = pexpect.spawn(PWHASH, list(MD5CRYPT), timeout=60)
    child.expect_exact("Password: ")
    child.send(CTRL_S)
    wait_for(lambda: not takes_output(child.pid))
    child.send(keys)
    child.kill(kill)
    wait_for(lambda: state_of(child.pid) in ("Z", ""))
    assert shows_keys(child.child_fd)
    child.close()
    assert child.signalstatus == kill, child


def test_a_prompt_continues_after_its_terminal_was_stopped() -> None:
    child = pexpect.spawn(PWHASH, list(MD5CRYPT), timeout=60)
    child.expect_exact("Password: ")
    child.send(CTRL_S)
    wait_for(lambda: not takes_output(child.pid))
    child.send(b"secret\r" + CTRL_Q)
    child.expect_exact("Again: ")
    child.send(b"secret\r")
    child.expect_exact(hashed(b"secret"))
    child.close()


def test_keys_after_the_password_are_not_left_for_the_shell() -> None:
    save("script", f'{PWHASH} {shlex.join(MD5CRYPT)}\nread -r line\necho "[$line]"\n'.encode())
    child = pexpect.spawn("/bin/sh", ["script"], timeout=60)
    child.expect(rb"Password: ")
    child.send(b"secret\r" * 3)
    child.expect_exact(hashed(b"secret"))
    child.send(b"typed later\r")
    place = child.expect_exact([b"[typed later]", b"[secret]"])
    child.close()
    assert place == 0, "the shell has read what was typed to pwhash"


def test_a_generated_password_is_shown_with_its_hash() -> None:
    terminal = at_terminal(("--generate", *MD5CRYPT), [])
    password, stored = terminal.screen.split()[-2:]
    assert terminal.status == 0 and len(password) == 20, terminal
    assert stored == hashed(password), terminal


def test_no_password_is_generated_without_a_terminal() -> None:
    done = pwhash("--generate", *MD5CRYPT)
    assert (done.status, done.out) == (3, b""), done
