"""Rows of a table: which fields pwhash reads, and which rows it refuses, naming their lines."""
from __future__ import annotations

import os
import re

import pytest
from support.pwhash_runs import (
    BOB,
    BY_NUMBER,
    BOM,
    MD5,
    MD5CRYPT,
    hashed,
    lines_named_in,
    pwhash,
    read,
    save,
)

TOO_MANY = [
    pytest.param(b"name,password\nann,pa,ss\nbob,password\n", (), 2, id="a comma"),
    pytest.param(b"name;password\nann;pa;ss\nbob;password\n", (), 2, id="a semicolon"),
    pytest.param(b"name\tpassword\nbob\tpassword\nann\tpa\tss\n", (), 3, id="a tab, last"),
    pytest.param(b"bob,password\nann,pa,ss\n", ("--columns", "1,2"), 2, id="columns by number"),
    pytest.param(b"id,password,name\n1,pa,ss,ann\n2,password,bob\n", (), 2, id="before the name"),
    pytest.param(b"name,password\nann,pa,\nbob,password\n", (), 2, id="an empty third"),
    pytest.param(b"name,password\n\nbob,password\nann,a,b\n", (), 4, id="after a blank line"),
]


@pytest.mark.parametrize(("table", "words", "number"), TOO_MANY)
def test_a_row_with_more_fields_than_the_first_is_refused(
    table: bytes, words: tuple[str, ...], number: int
) -> None:
    bob = b"bob:" + MD5.encode() + b"\n"
    by_pipe = pwhash("file", "--csv", *MD5CRYPT, *words, stdin=table)
    assert (by_pipe.status, by_pipe.out) == (1, bob), by_pipe
    assert lines_named_in(by_pipe.err) == [number] and b"fields" in by_pipe.err, by_pipe
    from_file = pwhash("file", "--csv", *MD5CRYPT, *words, save("table", table))
    assert (from_file.status, from_file.out) == (1, b""), from_file
    assert lines_named_in(from_file.err) == [number], from_file
    left_out = pwhash("file", "--csv", *MD5CRYPT, *words, "table", "--skip-refused", "-o", "hashes")
    assert left_out.status == 1 and read("hashes") == bob, left_out
    for done in by_pipe, from_file, left_out:
        assert not re.search(rb"\bpa\b|\bss\b", done.err), done


def test_a_row_with_more_fields_is_refused_in_lists_of_known_passwords() -> None:
    save("shadow", b"ann:" + MD5.encode() + b":1:::\n")
    table = b"name,password\nann,password\nann,pass,word\n"
    done = pwhash("check", "--csv", "--shadow", "shadow", stdin=table)
    assert (done.status, done.out, lines_named_in(done.err)) == (1, b"ann:ok\n", [3]), done


@pytest.mark.parametrize(
    ("row", "reason"),
    [
        pytest.param(b'"a:b",secret\n', b"colon", id="a colon in a name"),
        pytest.param(b'ann,"secret\nsecret"\n', b"line feed", id="a line feed in a password"),
        pytest.param(b"ann\n", b"no password field", id="a row that is too short"),
        pytest.param(b"name,password\n", b"heading", id="the heading of a table joined to it"),
        pytest.param(BOM + b"name,password\r\n", b"heading", id="the heading of Notepad's table"),
    ],
)
def test_a_row_that_is_not_an_account_is_refused_by_its_number(row: bytes, reason: bytes) -> None:
    table = b"name,password\nbob,password\n" + row + b"eve,password\n"
    done = pwhash("file", "--csv", *MD5CRYPT, stdin=table)
    expected = b"bob:%b\neve:%b\n" % (MD5.encode(), MD5.encode())
    assert (done.status, done.out) == (1, expected), done
    assert reason in done.err and b"secret" not in done.err, done
    assert lines_named_in(done.err) == [2 + row.count(b"\n")], done


@pytest.mark.parametrize(
    ("table", "words"),
    [
        pytest.param(b"ann,password\0more\nbob,pw2\n", BY_NUMBER, id="in a password"),
        pytest.param(b"\0ann,password\nbob,pw2\n", BY_NUMBER, id="before a name"),
        pytest.param(b"\nann,password\0\nbob,pw2\n", BY_NUMBER, id="after a blank line"),
    ],
)
def test_a_zero_byte_in_the_first_row_cuts_nothing(table: bytes, words: tuple[str, ...]) -> None:
    done = pwhash("file", "--csv", *MD5CRYPT, *words, stdin=table)
    assert done.status == 1 and done.out == BOB, done
    done = pwhash("file", "--csv", *MD5CRYPT, *words, save("table", table), "-o", "hashes")
    assert done.status == 1 and not os.path.exists("hashes"), done


def test_a_known_password_with_a_zero_byte_in_the_first_row_is_not_cut() -> None:
    save("shadow", b"ann:" + MD5.encode() + b":1:::\n")
    table = b"ann,password\0more\n"
    done = pwhash("check", "--csv", *BY_NUMBER, "--shadow", "shadow", stdin=table)
    assert (done.status, done.out) == (1, b"") and b"zero byte" in done.err, done


@pytest.mark.parametrize(
    "table",
    [
        pytest.param(b"name,password\nann,password\nann\n", id="a name alone"),
        pytest.param(b"name,password\nann,password\n,password\n", id="an empty name"),
        pytest.param(
            b"password,name\npassword,ann\npassword,\n", id="an empty name in the last column"
        ),
    ],
)
def test_a_row_without_a_name_or_password_is_tried_for_nobody(table: bytes) -> None:
    save("shadow", b"ann:%b:1:::\nbob:%b:1:::\n" % (MD5.encode(), hashed(b"ann")))
    done = pwhash("check", "--csv", "--shadow", "shadow", stdin=table)
    assert (done.status, done.out, lines_named_in(done.err)) == (1, b"ann:ok\n", [3]), done


def test_rows_joined_by_a_stray_quote_are_refused() -> None:
    """A stray quote joins all lines up to the next quote. Their users must not be lost silently."""
    table = b'name,password,note\nann,password,"\nbob,password,"\ncid,password,\n'
    done = pwhash("file", "--csv", *MD5CRYPT, stdin=table)
    assert done.status == 1 and lines_named_in(done.err) == [3], done
    assert done.out == b"cid:" + MD5.encode() + b"\n", done
    from_file = pwhash("file", "--csv", *MD5CRYPT, save("table", table), "-o", "hashes")
    assert from_file.status == 1 and not os.path.exists("hashes"), from_file


@pytest.mark.parametrize("separator", [b",", b";", b"\t"], ids=["comma", "semicolon", "tab"])
@pytest.mark.parametrize("end", [b"\n", b"\r\n"], ids=["a line feed", "a line end from Windows"])
def test_a_heading_of_two_lines_is_named_and_its_table_read(separator: bytes, end: bytes) -> None:
    heading = separator.join([b'"last' + end + b'login"', b"name", b"password"])
    row = separator.join([b"never", b"bob", b"password"])
    table = save("table", heading + end + row + end)
    done = pwhash("file", "--csv", *MD5CRYPT, table, "--skip-refused")
    assert (done.status, done.out) == (1, b"bob:" + MD5.encode() + b"\n"), done
    assert lines_named_in(done.err) == [2] and b"line feed" in done.err, done


def test_rows_that_a_stray_quote_joins_to_the_heading_are_not_lost_silently() -> None:
    table = b'name,password,"note\nann,password,x\nbob,password,"\ncy,password,y\n'
    done = pwhash("file", "--csv", *MD5CRYPT, save("table", table))
    assert (done.status, done.out) == (1, b""), done
    assert b"lines 1 to here" in done.err and lines_named_in(done.err) == [3], done


def test_a_quote_without_an_end_is_named_as_such() -> None:
    table = save("table", b'name,password\nann,pw1\nbob,"pw2\ncy,pw3\n')
    done = pwhash("file", "--csv", *MD5CRYPT, table, "--skip-refused", "-o", "hashes")
    assert done.status == 3 and not os.path.exists("hashes"), done
    assert b"table, line 3: a quote that begins a field here has no end" in done.err, done


def test_lines_that_end_in_carriage_returns_alone_are_not_a_table() -> None:
    done = pwhash("file", "--csv", *MD5CRYPT, stdin=b"name,password\rann,x\r")
    assert done.status == 3 and b"not CSV" in done.err and b"Error at" not in done.err, done


@pytest.mark.parametrize(
    "table",
    [
        pytest.param(b"name,password\rann,password\rbob,password\r", id="in all rows"),
        pytest.param(b"name,password\nann,password\rbob,password\n", id="in one row"),
    ],
)
def test_rows_that_a_carriage_return_ends_are_refused_without_pythons_message(table: bytes) -> None:
    done = pwhash("file", "--csv", *MD5CRYPT, stdin=table)
    assert (done.status, done.out) == (3, b""), done
    assert b"carriage return" in done.err and b"universal-newline" not in done.err, done
