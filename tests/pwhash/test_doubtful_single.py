"""A single doubtful password, typed or piped: pwhash refuses it unless it gets --accept-doubtful.

test_terminals.py has more about typed passwords, and test_one_password_of_a_pipe.py about piped
ones.
"""
from __future__ import annotations

import os

import pytest
from support.pwhash_runs import (
    BOM,
    MD5,
    MD5CRYPT,
    at_terminal,
    hashed,
    lines_named_in,
    pwhash,
    read,
    save,
)

SET = ("set", *MD5CRYPT, "passwords", "ann")
BEFORE = b"ann:x\n"
LONGEST_OF_CRYPT = 511  # bytes: libxcrypt's CRYPT_MAX_PASSPHRASE_SIZE without the zero byte
YESCRYPT = b"$y$j9T$abcdefghijklmnopqrstu.$abc"
SHOWN = 20  # how many lines of each kind a run that stops shows
MANY = 30  # more lines than SHOWN
# Each contains "secret", which no message may show.
TYPED = [
    pytest.param(b"secret ", b"blank", id="a trailing blank"),
    pytest.param(b" secret", b"blank", id="a leading blank"),
    pytest.param("secret\u3000".encode(), b"invisible", id="a wide blank"),
    pytest.param(b"$6$rounds=1000$secretsalt$" + b"x" * 86, b"stored hash", id="sha512crypt"),
    pytest.param(b"$2y$05$secret" + b"x" * 47, b"stored hash", id="bcrypt"),
    pytest.param(YESCRYPT + b"secret", b"stored hash", id="yescrypt"),
    pytest.param(b"{SSHA}secretsecretsecret", b"stored hash", id="an LDAP scheme"),
    pytest.param(b"secret:$1$x$y:19000:0:9:7:::", b"stored hash", id="a line from shadow"),
    pytest.param(
        b"secret".ljust(LONGEST_OF_CRYPT + 1, b"x"), b"511 bytes", id="one byte too long for crypt"
    ),
]
PIPED = [
    *TYPED,
    pytest.param(b"secret\r", b"carriage return", id="a carriage return"),
    pytest.param(BOM + b"secret", b"byte order mark", id="a mark"),
    pytest.param(b"secret\t", b"control character", id="a tab"),
    pytest.param(b"secret\xe4", b"UTF-8", id="Latin-1"),
    pytest.param("secreta\u0308".encode(), b"NFC", id="decomposed accents"),
]


@pytest.mark.parametrize(("password", "reason"), PIPED)
def test_a_doubtful_password_from_a_pipe_is_refused_or_accepted(
    password: bytes, reason: bytes
) -> None:
    save("passwords", BEFORE)
    for words in MD5CRYPT, SET:
        done = pwhash(*words, stdin=password + b"\n")
        assert (done.status, done.out) == (2, b"") and reason in done.err, done
        assert b"--accept-doubtful" in done.err and b"secret" not in done.err, done
    assert read("passwords") == BEFORE
    done = pwhash(*MD5CRYPT, "--accept-doubtful", stdin=password + b"\n")
    assert done.status == 0 and done.out.startswith(b"$1$xxxxxxxx$"), done
    if len(password) <= LONGEST_OF_CRYPT:
        assert done.out == hashed(password) + b"\n", done
    new_line = b"ann:" + done.out
    done = pwhash(*SET, "--accept-doubtful", stdin=password + b"\n")
    assert (done.status, read("passwords")) == (0, new_line), done


@pytest.mark.parametrize(("password", "reason"), TYPED)
def test_a_doubtful_typed_password_is_refused(password: bytes, reason: bytes) -> None:
    save("passwords", BEFORE)
    for words in MD5CRYPT, SET:
        terminal = at_terminal(words, [password + b"\r"] * 2)
        assert terminal.status == 2 and reason in terminal.screen, terminal
        assert b"$1$" not in terminal.screen and b"secret" not in terminal.screen, terminal
    assert read("passwords") == BEFORE


def test_a_doubtful_typed_password_can_be_accepted() -> None:
    save("passwords", BEFORE)
    terminal = at_terminal((*MD5CRYPT, "--accept-doubtful"), [b"secret \r"] * 2)
    assert terminal.status == 0 and terminal.screen.split()[-1] == hashed(b"secret "), terminal
    terminal = at_terminal((*SET, "--accept-doubtful"), [MD5.encode() + b"\r"] * 2)
    expected = b"ann:" + hashed(MD5.encode()) + b"\n"
    assert (terminal.status, read("passwords")) == (0, expected), terminal


@pytest.mark.parametrize("data", [b"", b"\n"], ids=["nothing", "an empty line"])
def test_an_empty_password_is_never_accepted(data: bytes) -> None:
    done = pwhash(*MD5CRYPT, "--accept-doubtful", stdin=data)
    assert (done.status, done.out) == (2, b"") and b"empty" in done.err, done


@pytest.mark.parametrize(
    "password",
    [
        pytest.param(b"x" * LONGEST_OF_CRYPT, id="the longest for crypt"),
        pytest.param(b"sec ret", id="a blank inside"),
        pytest.param(b"note: secret", id="a colon and a blank"),
        pytest.param(b"$ecret", id="a dollar"),
        pytest.param(b"password", id="a word that heads columns"),
        pytest.param(b"NULL", id="what databases export"),
    ],
)
def test_a_password_that_only_looks_doubtful_is_hashed_without_a_message(password: bytes) -> None:
    done = pwhash(*MD5CRYPT, stdin=password + b"\n")
    assert (done.status, done.out, done.err) == (0, hashed(password) + b"\n", b""), done


@pytest.mark.parametrize("words", [(), ("-m", "sha256crypt")], ids=["sha512crypt", "sha256crypt"])
def test_a_password_over_the_budget_is_refused_at_once(words: tuple[str, ...]) -> None:
    done = pwhash(*words, stdin=b"x" * (LONGEST_OF_CRYPT + 1))
    assert done.status == 2 and b"over budget" in done.err, done


# ---- Passwords in a file


def test_a_password_too_long_for_crypt_is_doubtful_in_a_file() -> None:
    longest = b"ann:" + b"x" * LONGEST_OF_CRYPT + b"\n"
    save("list", longest + b"eve:" + b"y" * (LONGEST_OF_CRYPT + 1) + b"\n")
    done = pwhash("file", *MD5CRYPT, "list", "-o", "hashes")
    assert done.status == 1 and b"list, line 2: more than 511 bytes" in done.err, done
    assert b"line 1" not in done.err and b"yyy" not in done.err, done
    done = pwhash("file", *MD5CRYPT, "list", "-o", "hashes", "--skip-doubtful")
    expected = b"ann:" + hashed(b"x" * LONGEST_OF_CRYPT) + b"\n"
    assert (done.status, read("hashes")) == (1, expected), done


def test_the_advice_for_many_doubtful_lines_is_printed_once() -> None:
    save("list", b"".join(b"user%d:p\xe4ss\n" % number for number in range(MANY)))
    done = pwhash("file", *MD5CRYPT, "list", "-o", "hashes")
    assert done.status == 1 and done.err.count(b"not UTF-8") == SHOWN, done
    assert done.err.count(b"iconv") == 1, done


REFUSED_LINES = b"".join(b":pw%d\n" % number for number in range(MANY))
DOUBTFUL_LINES = b"".join(b"user%d:\n" % number for number in range(MANY))
SKIPS = ("--skip-refused", "--skip-doubtful")


def test_a_run_that_stops_says_how_many_lines_it_does_not_show() -> None:
    save("list", REFUSED_LINES + DOUBTFUL_LINES + b"ann:pw1\n")
    done = pwhash("file", *MD5CRYPT, "list", "-o", "hashes")
    assert (done.status, len(lines_named_in(done.err))) == (1, 2 * SHOWN), done
    assert b"%d more like these aren't shown" % (2 * (MANY - SHOWN)) in done.err, done
    assert b"--look --skip-refused --skip-doubtful" in done.err, done
    assert not os.path.exists("hashes"), done


@pytest.mark.parametrize(
    "words",
    [
        pytest.param((*SKIPS, "-o", "hashes"), id="a run"),
        pytest.param((*SKIPS, "--look"), id="a look"),
        pytest.param((*SKIPS, "--look", "-o", "hashes"), id="a look with the options of a run"),
    ],
)
def test_every_line_that_is_left_out_is_shown(words: tuple[str, ...]) -> None:
    save("list", REFUSED_LINES + DOUBTFUL_LINES + b"ann:pw1\n")
    done = pwhash("file", *MD5CRYPT, "list", *words)
    assert (done.status, lines_named_in(done.err)) == (1, [*range(1, 2 * MANY + 1)]), done
    assert (
        b"lines left out: %d" % (2 * MANY) in done.err and b"more like these" not in done.err
    ), done
