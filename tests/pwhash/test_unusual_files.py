"""Files that contain no table, are pipes, or may not grow: each message says what to do."""
from __future__ import annotations

import os

import pytest
from support.pwhash_runs import MD5CRYPT, pwhash, read, save, shell

TABLE = ("file", *MD5CRYPT, "--csv")


@pytest.mark.parametrize("table", [b"", b"\n", b"\r\n\r\n"], ids=["empty", "blank", "of Windows"])
@pytest.mark.parametrize("columns", [(), ("--columns", "1,2")], ids=["named", "numbered"])
def test_a_table_without_rows_is_refused(table: bytes, columns: tuple[str, ...]) -> None:
    done = pwhash(*TABLE, *columns, save("table", table))
    assert (done.status, done.out) == (2, b"") and b"table has no rows" in done.err, done


@pytest.mark.parametrize("columns", [(), ("--columns", "1,2")], ids=["named", "numbered"])
@pytest.mark.parametrize("encoding", ["utf-16", "utf-16-le", "utf-16-be"])
def test_a_table_in_utf16_is_refused_and_its_encoding_named(
    columns: tuple[str, ...], encoding: str
) -> None:
    mark = "" if encoding == "utf-16" else "\ufeff"
    table = f"{mark}name,password\r\nann,x\r\n".encode(encoding)
    done = pwhash(*TABLE, *columns, save("table", table))
    assert (done.status, done.out) == (2, b"") and b"UTF-16" in done.err, done


@pytest.mark.parametrize(
    "words",
    [
        pytest.param(("file", *MD5CRYPT, "pipe", "-o", "hashes"), id="with -o"),
        pytest.param(("file", *MD5CRYPT, "pipe", "--look"), id="with --look"),
        pytest.param(("file", *MD5CRYPT, "pipe"), id="file"),
        pytest.param(("check", "pipe"), id="check"),
        pytest.param(("audit", "pipe"), id="audit"),
    ],
)
def test_no_run_waits_forever_for_the_writer_of_a_pipe(words: tuple[str, ...]) -> None:
    os.mkfifo("pipe")
    done = pwhash(*words)
    assert (done.status, done.out) == (2, b"") and not os.path.exists("hashes"), done


def test_a_pipe_that_somebody_writes_is_read() -> None:
    os.mkfifo("pipe")
    done = shell('printf "ann:!\\n" > pipe & exec "$@"', "audit", "pipe")
    assert done.status == 0 and b"ann" in done.out, done


def test_advice_that_was_followed_is_not_repeated() -> None:
    done = pwhash("file", *MD5CRYPT, "--windows", stdin=b"ann:pw\r\r\n")
    assert (done.status, done.out) == (1, b"") and b"carriage return" in done.err, done
    assert b"--windows" not in done.err, done


def test_a_limit_on_file_size_is_named() -> None:
    save("list", b"ann:pw\n")
    done = shell('ulimit -f 0; exec "$@"', "file", *MD5CRYPT, "list", "-o", "hashes")
    assert done.status == 3 and b"ulimit -f" in done.err, done
    assert not os.path.exists("hashes") and read("list") == b"ann:pw\n", done
