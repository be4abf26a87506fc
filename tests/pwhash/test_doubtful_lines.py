"""Doubtful lines, which are probably mistakes: none is hashed unless the user accepts it."""
from __future__ import annotations

import os
import re

import pytest
from support.pwhash_runs import BOB, BOM, MD5, MD5CRYPT, hashed, lines_named_in, pwhash, save


@pytest.mark.parametrize(
    "line",
    [
        pytest.param(BOM + b"ann:hunter2", id="a mark that begins a later line"),
        pytest.param(b"an" + BOM + b"n:hunter2", id="a mark in a name"),
        pytest.param(b"ann" + BOM + b":hunter2", id="a mark that ends a name"),
        pytest.param(b"ann:" + BOM + b"hunter2", id="a mark that begins a password"),
        pytest.param(b"ann:hun" + BOM + b"ter2", id="a mark in a password"),
        pytest.param(b"ann:hunter2" + BOM, id="a mark that ends a password"),
        pytest.param(b"\rann:hunter2", id="a carriage return that begins a line"),
        pytest.param(b"an\rn:hunter2", id="a carriage return in a name"),
        pytest.param(b"ann\r:hunter2", id="a carriage return that ends a name"),
        pytest.param(b"ann:\rhunter2", id="a carriage return that begins a password"),
        pytest.param(b"ann:hun\rter2", id="a carriage return in a password"),
        pytest.param(b"ann:hunter2\r", id="a carriage return that ends a password"),
        pytest.param(b"ann:hunter2\r" + BOM, id="a carriage return and a mark at the end"),
    ],
)
def test_a_mark_or_carriage_return_makes_a_line_doubtful(line: bytes) -> None:
    lines = b"bob:hunter2\n" + line + b"\n"
    bob = b"bob:" + hashed(b"hunter2") + b"\n"
    by_pipe = pwhash("file", *MD5CRYPT, stdin=lines)
    assert (by_pipe.status, by_pipe.out, lines_named_in(by_pipe.err)) == (1, bob, [2]), by_pipe
    from_file = pwhash("file", *MD5CRYPT, save("lines", lines), "-o", "hashes")
    assert from_file.status == 1 and not os.path.exists("hashes"), from_file
    assert 2 in lines_named_in(from_file.err) and b"ter2" not in from_file.err, from_file
    accepted = pwhash("file", *MD5CRYPT, "--accept-doubtful", stdin=lines)
    password = line.partition(b":")[2]
    assert accepted.status == 0 and accepted.out.endswith(hashed(password) + b"\n"), accepted


@pytest.mark.parametrize("character", ["\u3164", "\u2800", "\ufe0f", "\u034f", "\uffa0"], ids=ascii)
def test_a_line_with_an_invisible_character_is_doubtful(character: str) -> None:
    done = pwhash("file", *MD5CRYPT, stdin=f"ann:pass{character}word\n".encode())
    assert (done.status, done.out) == (1, b"") and b"invisible" in done.err, done


@pytest.mark.parametrize(
    "field",
    [
        pytest.param(hashed(b"secret"), id="md5crypt"),
        pytest.param(b"$2b$10$abcdefghijklmnopqrstuu", id="bcrypt"),
        pytest.param(b"$apr1$abcdefgh$abcdefghijklmnopqrstuu", id="Apache's"),
        pytest.param(b"{SSHA}abcdefghijklmnop", id="LDAP's"),
        pytest.param(b"pbkdf2_sha256$600000$abcdefgh$MB1BFwTbAyJL2HfLS6GkQ3Qk=", id="Django's"),
        pytest.param(b"bcrypt_sha256$$2b$12$abcdefghijklmnopqrstuu", id="Django's bcrypt"),
        pytest.param(b"scrypt:32768:8:1$abcdefgh$5f4dcc3b5aa765d61d83", id="Werkzeug's scrypt"),
        pytest.param(b"pbkdf2:sha256:600000$abcdefgh$5f4dcc3b5aa7", id="Werkzeug's PBKDF2"),
        pytest.param(b"SCRAM-SHA-256$4096:W22ZaJ0SNY7soEsUEjb6gQ==$WG5d=:wf=", id="PostgreSQL's"),
        pytest.param(b"md55f4dcc3b5aa765d61d8327deb882cf99", id="PostgreSQL's old md5"),
        pytest.param(b"*2470C0C06DEE42FD1618BB99005ADCA2EC9D1E19", id="MySQL's"),
        pytest.param(b"!", id="locked"),
        pytest.param(b"!:1::", id="fields after a lock"),
        pytest.param(b"*:19000:0:99999:7:::", id="fields of a service's account"),
        pytest.param(hashed(b"secret") + b":19000:0:99999:7:::", id="fields after a hash"),
        pytest.param(b":19000:0:99999:7:::", id="fields after no hash"),
        pytest.param(b"x:0:0:root:/root:/bin/bash", id="a line of passwd"),
    ],
)
def test_a_stored_field_is_not_a_password(field: bytes) -> None:
    done = pwhash("file", *MD5CRYPT, stdin=b"eve:%b\nbob:pw2\n" % field)
    assert (done.status, done.out, lines_named_in(done.err)) == (1, BOB, [1]), done
    done = pwhash("file", *MD5CRYPT, "--accept-doubtful", stdin=b"eve:%b\n" % field)
    assert (done.status, done.out) == (0, b"eve:" + hashed(field) + b"\n"), done


@pytest.mark.parametrize(
    "password",
    [
        b"$ecret$password1",
        b"!secret",
        b"a:1:b",
        b"{secret}",
        b"*x*",
        b"md5$ecret",
        b"scrypt:secret",
    ],
    ids=os.fsdecode,
)
def test_a_password_that_resembles_a_hash_is_hashed(password: bytes) -> None:
    done = pwhash("file", *MD5CRYPT, stdin=b"ann:%b\n" % password)
    assert (done.status, done.out) == (0, b"ann:" + hashed(password) + b"\n"), done


# ---- Several at once

LINES = [
    b"name:x",  # a heading
    b"ann:password",
    b"bob:",  # no password
    b"carl:x\r",
    b" dan:x",
    b"eva:x ",
    b"ann:y",  # a repeated name
    b"fay\xe2\x80\x8b:x",  # a zero-width space
    b"gil:x\xc2\xa0",  # a no-break space
]
LIST = b"\n".join(LINES) + b"\n"
DOUBTFUL = [1, 3, 4, 5, 6, 7, 8, 9]  # the numbers of all lines but ann:password


def test_a_doubtful_line_from_a_pipe_is_not_hashed() -> None:
    done = pwhash("file", *MD5CRYPT, stdin=LIST)
    assert (done.status, done.out) == (1, b"ann:" + MD5.encode() + b"\n"), done


def test_each_doubtful_line_from_a_pipe_is_named() -> None:
    """Line 7 is named with line 2, which has the same name."""
    done = pwhash("file", *MD5CRYPT, stdin=LIST)
    assert lines_named_in(done.err) == [1, 3, 4, 5, 6, 7, 2, 8, 9], done


def test_each_doubtful_line_in_a_file_is_named() -> None:
    done = pwhash("file", *MD5CRYPT, save("lines", LIST), "--look")
    # The line of a message, and not an earlier line that it names: a colon or a name follows.
    named = {int(number) for number in re.findall(rb"line (\d)[: ]", done.err)}
    assert done.status == 1 and named == set(DOUBTFUL), done


@pytest.mark.parametrize(
    ("reason", "numbers"),
    [
        pytest.param("blank", [5, 6, 9], id="blank"),
        pytest.param("invisible", [8, 9], id="invisible"),
    ],
)
def test_the_reason_for_a_doubt_is_named(reason: str, numbers: list[int]) -> None:
    done = pwhash("file", *MD5CRYPT, save("lines", LIST), "--look")
    named = re.findall(rf"line (\d)[: ].*{reason}".encode(), done.err)
    assert [int(number) for number in named] == numbers, done


def test_the_option_windows_drops_marks_and_carriage_returns() -> None:
    lines = save("windows", BOM + b"ann:password\r\nbob:password\r\n")
    done = pwhash("file", *MD5CRYPT, lines, "--windows")
    expected = b"".join(name + b":" + MD5.encode() + b"\n" for name in (b"ann", b"bob"))
    assert (done.status, done.out, done.err) == (0, expected, b""), done


def test_a_list_from_windows_is_doubtful_without_the_option() -> None:
    lines = save("windows", BOM + b"ann:password\r\nbob:password\r\n")
    done = pwhash("file", *MD5CRYPT, lines)
    assert (done.status, done.out) == (1, b""), done
