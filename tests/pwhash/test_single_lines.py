"""One password on standard input: pwhash reports what may be a mistake."""
from __future__ import annotations

import pytest
from support.pwhash_runs import MD5CRYPT, hashed, pwhash, save, shell


@pytest.mark.parametrize("script", ['exec "$@" < list', 'cat list | "$@"'], ids=["file", "pipe"])
def test_further_lines_are_named(script: str) -> None:
    save("list", b"secret\nother\n")
    done = shell(script, *MD5CRYPT)
    assert (done.status, done.out) == (0, hashed(b"secret") + b"\n"), done
    assert b"only the first line" in done.err and b"secret" not in done.err, done


@pytest.mark.parametrize("end", [b"", b"\n", b"\n\n"], ids=["no line feed", "one", "a blank line"])
def test_one_line_alone_is_hashed_without_a_message(end: bytes) -> None:
    done = pwhash(*MD5CRYPT, stdin=b"secret" + end)
    assert (done.status, done.out, done.err) == (0, hashed(b"secret") + b"\n", b""), done


def test_pwhash_does_not_wait_for_further_lines() -> None:
    """The process that writes the password ends only after pwhash does."""
    script = '{ echo secret; read -r end < pipe; } | { "$@"; echo end > pipe; }'
    done = shell(f"mkfifo pipe; {script}", *MD5CRYPT)
    assert (done.status, done.out, done.err) == (0, hashed(b"secret") + b"\n", b""), done


def test_a_blank_within_a_password_is_hashed_without_a_message() -> None:
    done = pwhash(*MD5CRYPT, stdin=b"sec ret\n")
    assert (done.status, done.out, done.err) == (0, hashed(b"sec ret") + b"\n", b""), done
