"""Lines that are probably mistakes: decomposed accents, lost characters, repeated names."""

from __future__ import annotations

import re
import unicodedata

import pytest
from support.pwhash_runs import (
    ANN,
    BOB,
    MD5CRYPT,
    Ended,
    at_terminal,
    hashed,
    lines_named_in,
    pwhash,
    read,
    save,
)


def test_a_lost_character_is_doubtful_and_no_other_encoding_is_guessed() -> None:
    """Programs save U+FFFD for bytes that they can't decode. The file is still valid UTF-8."""
    done = pwhash("file", *MD5CRYPT, save("list", "ann:Gr\ufffdn\n".encode()))
    assert (done.status, done.out) == (1, b"") and lines_named_in(done.err) == [1], done
    assert b"FFFD" in done.err and b"iconv" not in done.err, done


# ---- Decomposed accents: the letter and its accent are two characters

DECOMPOSED = unicodedata.normalize("NFD", "Grüße").encode()


@pytest.mark.parametrize(
    "line",
    [
        pytest.param(b"ann:" + DECOMPOSED, id="a password"),
        pytest.param(unicodedata.normalize("NFD", "zoë").encode() + b":x", id="a name"),
        pytest.param("ann:5 k\u2126".encode(), id="a sign that NFC replaces"),
        pytest.param(unicodedata.normalize("NFD", "ann:한국").encode(), id="Korean"),
    ],
)
def test_a_line_with_decomposed_accents_is_doubtful(line: bytes) -> None:
    by_pipe = pwhash("file", *MD5CRYPT, stdin=line + b"\nbob:pw2\n")
    assert (by_pipe.status, by_pipe.out, lines_named_in(by_pipe.err)) == (1, BOB, [1]), by_pipe
    from_file = pwhash("file", *MD5CRYPT, save("list", line + b"\nbob:pw2\n"))
    assert (from_file.status, from_file.out) == (1, b"") and b"NFC" in from_file.err, from_file


def test_a_line_with_decomposed_accents_can_be_accepted() -> None:
    done = pwhash("file", *MD5CRYPT, "--accept-doubtful", stdin=b"ann:" + DECOMPOSED + b"\n")
    assert (done.status, done.out) == (0, b"ann:" + hashed(DECOMPOSED) + b"\n"), done


@pytest.mark.parametrize("password", ["Grüße", "한국", "日本語", "\u0e01\u0e33"])
def test_a_line_with_composed_accents_is_hashed(password: str) -> None:
    data = unicodedata.normalize("NFC", password).encode()
    done = pwhash("file", *MD5CRYPT, stdin=b"ann:" + data + b"\n")
    assert (done.status, done.out) == (0, b"ann:" + hashed(data) + b"\n"), done


def test_a_piped_password_with_decomposed_accents_is_refused() -> None:
    done = pwhash(*MD5CRYPT, stdin=DECOMPOSED + b"\n")
    assert (done.status, done.out) == (2, b"") and b"NFC" in done.err, done
    assert b"Gru" not in done.err, done


def test_a_typed_password_with_decomposed_accents_is_reported_and_hashed() -> None:
    """A keyboard that sends decomposed accents now will send them at every login."""
    terminal = at_terminal(MD5CRYPT, [DECOMPOSED + b"\r"] * 2)
    assert terminal.status == 0 and b"NFC" in terminal.screen, terminal
    assert terminal.screen.split()[-1] == hashed(DECOMPOSED), terminal
    assert b"Gru" not in terminal.screen, terminal


# ---- Repeated names


def skipped(lines: bytes) -> Ended:
    """Hashes a list, without the doubtful lines."""
    return pwhash("file", *MD5CRYPT, save("list", lines), "-o", "hashes", "--skip-doubtful")


def test_the_first_line_of_a_repeated_name_stays() -> None:
    done = skipped(b"ann:pw1\nbob:pw2\nann:other\n")
    assert done.status == 1 and read("hashes") == ANN + BOB, done
    assert re.findall(rb"line (\d+): .*after line (\d+)", done.err) == [(b"3", b"1")], done


@pytest.mark.parametrize("first", [b"", b"pw1 ", b"pw\t1"], ids=["empty", "a blank", "a tab"])
def test_a_name_whose_first_line_is_doubtful_gets_no_hash(first: bytes) -> None:
    """pwhash can't know which line is right, so its messages name both."""
    done = skipped(b"ann:" + first + b"\nbob:pw2\nann:other\n")
    assert done.status == 1 and read("hashes") == BOB, done
    assert re.search(rb"line 1: ", done.err), done
    again = re.search(rb"line 3: .*after line 1(.*)", done.err)
    assert again and b"neither" in again[1], done
