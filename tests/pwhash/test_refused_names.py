"""Names whose first line is refused get no hash: a later line may hold an old password."""
from __future__ import annotations

import re

import pytest
from support.pwhash_runs import MD5CRYPT, hashed, pwhash, read, save

BOB = b"bob:" + hashed(b"pw2") + b"\n"


LISTS = [
    pytest.param(b"ann:" + b"x" * 2000 + b"\nbob:pw2\nann:old\n", (), id="too long"),
    pytest.param(b"ann:x\0y\nbob:pw2\nann:old\n", (), id="a zero byte"),
    pytest.param(
        b"ann:" + b"x" * 500 + b"\nbob:pw2\nann:old\n", ("--budget", "100000"), id="over budget"
    ),
    pytest.param(
        b"name,password\nann,x,y\nbob,pw2\nann,old\n", ("--csv",), id="too many fields in a row"
    ),
    pytest.param(
        b'name,password\nann,"x\ny"\nbob,pw2\nann,old\n', ("--csv",), id="a line feed in a row"
    ),
    pytest.param(b"name,password\nann\nbob,pw2\nann,old\n", ("--csv",), id="no password field"),
]


@pytest.mark.parametrize(("lines", "options"), LISTS)
def test_a_file_gives_no_hash_of_a_name_whose_first_line_is_refused(
    lines: bytes, options: tuple[str, ...]
) -> None:
    words = ("-o", "hashes", "--skip-refused", "--skip-doubtful")
    done = pwhash("file", *MD5CRYPT, *options, save("list", lines), *words)
    assert (done.status, read("hashes")) == (1, BOB), done
    again = re.search(rb"line [0-9]+: the name again, after line [0-9]+(.*)", done.err)
    assert again and b"refused" in again[1], done


@pytest.mark.parametrize(("lines", "options"), LISTS)
def test_a_pipe_gives_no_hash_of_a_name_whose_first_line_is_refused(
    lines: bytes, options: tuple[str, ...]
) -> None:
    done = pwhash("file", *MD5CRYPT, *options, stdin=lines)
    assert (done.status, done.out) == (1, BOB), done


def test_skipping_only_refused_lines_hashes_no_ambiguous_name() -> None:
    lines = save("list", b"ann:x\0y\nbob:pw2\nann:old\n")
    done = pwhash("file", *MD5CRYPT, lines, "--skip-refused")
    assert (done.status, done.out) == (1, b""), done


def test_a_line_without_a_name_makes_no_name_ambiguous() -> None:
    lines = save("list", b"ann\n:x\nbob:pw2\n")
    done = pwhash("file", *MD5CRYPT, lines, "--skip-refused")
    assert (done.status, done.out) == (1, BOB), done
