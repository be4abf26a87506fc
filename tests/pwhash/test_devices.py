"""pwhash where /dev has no terminal: it creates no file there, and takes none for the terminal."""
from __future__ import annotations

import shlex

import pytest
from support.needs import needed
from support.pwhash_runs import MD5CRYPT, PWHASH, hashed, in_namespace, shows_keys, type_secret

with needed("python3-pexpect"):
    import pexpect

EMPTY_DEV = """
    mount -t tmpfs none /dev
    mknod -m 666 /dev/null c 1 3
    mknod -m 666 /dev/urandom c 1 9
    ln -s /proc/self/fd /dev/fd
"""


def test_pwhash_creates_no_dev_tty() -> None:
    """If pwhash created a file /dev/tty, the next program would take it for the terminal."""
    script = f"""
        {EMPTY_DEV}
        "$@" || echo status $?
        ls /dev
    """
    done = in_namespace(script, "--generate", *MD5CRYPT)
    assert b"status 3" in done.out and b"tty" not in done.out and b"terminal" in done.err, done


def test_a_file_with_the_name_of_the_terminal_gets_no_password() -> None:
    script = f"""
        {EMPTY_DEV}
        : > /dev/tty
        "$@" || echo status $?
        cat /dev/tty
    """
    done = in_namespace(script, "--generate", *MD5CRYPT)
    assert done.out == b"status 3\n", done


@pytest.mark.needs("namespaces")
def test_a_prompt_without_dev_tty_hides_the_password() -> None:
    """Standard input is the terminal, whatever is in /dev."""
    script = f"""
        {EMPTY_DEV}
        : > /dev/tty
        exec {PWHASH} {shlex.join(MD5CRYPT)}
    """
    child = pexpect.spawn("unshare", ["--mount", "/bin/sh", "-c", script], timeout=60)
    child.expect(rb"Password: ")
    is_shown = shows_keys(child.child_fd)
    screen = type_secret(child)
    assert not is_shown and b"secret" not in screen and hashed(b"secret") in screen, screen
