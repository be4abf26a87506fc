"""Table rows that are too long: they end the run, and no part of them is hashed."""
from __future__ import annotations

import contextlib
import os
import time

import pytest
from support.pwhash_runs import MD5, MD5CRYPT, ended, lines_named_in, pwhash, save, shell, started

MOST = 1 << 17  # bytes of a row
BLOCK = 1 << 18  # bytes that pwhash reads at once
LONG = b"x" * 140_000  # more than MOST


@pytest.mark.parametrize(
    ("before", "row", "number"),
    [
        pytest.param(b"", b'ann,"pass' + LONG + b'word",\n', 2, id="a long password"),
        pytest.param(b"", b"ann,password," + LONG + b"\n", 2, id="a long third field"),
        pytest.param(b"", b"ann," + LONG + b",password\n", 2, id="a long second field"),
        pytest.param(
            b"bob,password,\n" * 60_000, b"ann,password," + LONG + b"\n", 60_002, id="late"
        ),
        pytest.param(b"", b"ann,password," + b"y," * 90_000 + b"\n", 2, id="of many fields"),
        pytest.param(b"", b'ann,password,"\n' + b"x\n" * 90_000 + b'"\n', 2, id="of many lines"),
    ],
)
def test_a_row_above_128_kib_ends_the_run_and_is_named(
    before: bytes, row: bytes, number: int
) -> None:
    table = b"name,password,third\n" + before + row + b"eve,password,\n"
    words = ("file", "--csv", *MD5CRYPT)
    done = pwhash(*words, "--budget", "1", stdin=table)  # hashes nothing, so the test is fast
    assert done.status == 3 and lines_named_in(done.err)[-1] == number, done.err[-300:]
    assert done.out == b"", done.out[-300:]
    from_file = pwhash(*words, "--budget", "1", save("table", table), "-o", "hashes")
    assert from_file.status == 3 and not os.path.exists("hashes"), from_file.err[-300:]
    assert f"line {number}:".encode() in from_file.err, from_file.err[-300:]


def test_a_row_of_128_kib_is_hashed() -> None:
    row = b"ann,password,".ljust(MOST, b"x")
    save("table", b"name,password,third\n" + row + b"\n")
    done = pwhash("file", "--csv", *MD5CRYPT, "table")
    assert (done.status, done.out) == (0, f"ann:{MD5}\n".encode()), done


@pytest.mark.parametrize("length", [MOST - 2, MOST - 1, MOST])
def test_the_middle_of_a_long_row_is_never_lost_in_a_pipe(length: int) -> None:
    """pwhash once joined the end of such a row to its first 128 KiB, as part of the password."""
    begin = b"ann," + b"x" * (length - len(b"ann,,real")) + b",real"
    process = started("file", "--csv", *MD5CRYPT)
    assert process.stdin
    with contextlib.suppress(BrokenPipeError):  # the run may end before it has read the row
        process.stdin.write(b"name,third,password,fourth\n" + begin + b"password," + b"y" * 70_000)
        process.stdin.flush()
    time.sleep(1)  # so that pwhash reads the beginning of the row before its end comes
    done = ended(process, b"zz\n")
    assert done.status == 3 and done.out == b"" and lines_named_in(done.err) == [2], done


def test_a_row_whose_line_feed_is_in_the_next_block_is_not_cut() -> None:
    """pwhash once kept 128 KiB of such a row, and took them for the whole row."""
    heading = b"third,name,password\n"
    begin = b"x" * (MOST - 22) + b",ann,password"  # the password crosses MOST
    row = begin.ljust(BLOCK - len(heading), b"y")
    save("table", heading + row + b"\n")
    done = pwhash("file", "--csv", *MD5CRYPT, "table")
    assert (done.status, done.out) == (3, b"") and lines_named_in(done.err) == [2], done


def test_a_row_of_many_lines_has_a_limit() -> None:
    """pwhash once kept all of such a row in memory: one of 30 MB took 480 MiB."""
    row = b'ann,pw1,"x' + b'\nx",",' * 400_000 + b'"\n'
    save("table", b"name,password\n" + row)
    done = shell('ulimit -v 400000; exec "$@"', "file", "--csv", *MD5CRYPT, "table")
    assert done.status == 3 and lines_named_in(done.err) == [2] and b"128 KiB" in done.err, done
