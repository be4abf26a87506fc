"""--resume: pwhash doesn't resume a part that another command made or somebody changed."""
from __future__ import annotations

import os
import shlex
import signal
from collections.abc import Callable

import pytest
from support.pwhash_runs import (
    ANN,
    ESCAPE,
    MD5CRYPT,
    PWHASH,
    SLOW,
    SLOW_COUNT,
    command_to_go_on,
    ended,
    go_on,
    halted,
    hashed,
    pwhash,
    read,
    save,
    save_part,
    shell,
    started_program,
    users,
)

SHA256 = "$5$rounds=1000$"

# What may be stored for bob in the second of three lines.
OTHER_MIDDLES = [
    pytest.param(hashed(b"b", "$1$saltsalt"), id="another method"),
    pytest.param(hashed(b"b", "$5$rounds=1001$saltsaltsaltsalt"), id="other rounds"),
    pytest.param(hashed(b"b", "$5$saltsaltsaltsalt"), id="no rounds"),
    pytest.param(hashed(b"b", SHA256 + "salt"), id="a shorter salt"),
    pytest.param(hashed(b"b", SHA256 + "saltsaltsaltsalt")[:-1], id="a truncated hash"),
    pytest.param(hashed(b"b", SHA256 + "saltsaltsaltsalt") + b":0:", id="more fields"),
    pytest.param(SHA256.encode() + b"$" + b"x" * 43, id="no salt"),
    pytest.param(b"!", id="no hash"),
]


@pytest.mark.parametrize("middle", OTHER_MIDDLES)
def test_resume_refuses_a_forged_line_in_the_middle(middle: bytes) -> None:
    save("passwords", b"ann:a\nbob:b\neve:c\nzoe:d\n")
    words = ("file", "-m", "sha256crypt", "-R", "1000", "passwords", "-o", "hashes")
    setting = SHA256 + "saltsaltsaltsalt"
    ann = b"ann:" + hashed(b"a", setting) + b"\n"
    bob = b"bob:" + hashed(b"b", setting) + b"\n"
    eve = b"eve:" + hashed(b"c", setting) + b"\n"
    save_part("hashes.part", ann + b"bob:" + middle + b"\n" + eve)
    done = pwhash(*words, "--resume")
    assert done.status == 2 and b"hashes.part, line 2" in done.err, done
    assert not os.path.exists("hashes"), done
    save_part("hashes.part", ann + bob + eve)
    done = pwhash(*words, "--resume")
    assert done.status == 0 and read("hashes").startswith(ann + bob + eve + b"zoe:$5$"), done


def test_resume_refuses_a_salt_in_the_middle_that_is_not_the_given_one() -> None:
    save("passwords", b"ann:a\nbob:b\neve:c\nzoe:d\n")
    ann = b"ann:" + hashed(b"a", "$1$xxxxxxxx") + b"\n"
    bob = b"bob:" + hashed(b"b", "$1$yyyyyyyy") + b"\n"
    eve = b"eve:" + hashed(b"c", "$1$xxxxxxxx") + b"\n"
    save_part("hashes.part", ann + bob + eve)
    done = pwhash("file", *MD5CRYPT, "passwords", "-o", "hashes", "--resume")
    assert done.status == 2 and b"hashes.part, line 2" in done.err, done


OTHER_LINES = [
    pytest.param(("--accept-doubtful",), ("--windows",), id="with --windows"),
    pytest.param(("--windows",), ("--accept-doubtful",), id="without --windows"),
    pytest.param(("--csv",), ("--csv", "--columns", "name,old"), id="other columns"),
    pytest.param(("--csv", "--columns", "name,old"), ("--csv",), id="the default columns"),
    pytest.param(("--csv",), ("--accept-doubtful",), id="without --csv"),
]


def users_with_carriage_returns() -> bytes:
    """Returns a list in which every second line ends in a carriage return."""
    ends = (b"", b"\r")
    return b"".join(
        b"user%d:password%d%b\n" % (number, number, ends[number % 2])
        for number in range(SLOW_COUNT)
    )


def table_with_old_passwords() -> bytes:
    """Returns a table with a column `old`."""
    rows = [
        b"user%d,password%d,other%d\n" % (number, number, number if number % 2 == 1 else 0)
        for number in range(SLOW_COUNT)
    ]
    return b"name,password,old\n" + b"".join(rows)


@pytest.mark.parametrize(("first", "second"), OTHER_LINES)
def test_options_that_change_lines_do_not_resume_a_part(
    first: tuple[str, ...], second: tuple[str, ...]
) -> None:
    """The first and last lines, which --resume hashes again, don't tell the options apart."""
    is_table = "--csv" in first
    save("list", table_with_old_passwords() if is_table else users_with_carriage_returns())
    os.utime("list", (1e9, 1e9))  # the list must be older than the part
    words = ("file", *SLOW, "list", "-o", "hashes")
    with halted(PWHASH, *words, *first) as process:
        process.send_signal(signal.SIGTERM)
        go_on(process)
    part = read("hashes.part").splitlines(keepends=True)
    if len(part) % 2 == 0:  # the last line, too, must be one without a carriage return
        part.pop()
    save("hashes.part", b"".join(part))
    done = pwhash(*words, *second, "--resume")
    assert done.status in (1, 2) and not os.path.exists("hashes"), done
    done = pwhash(*words, *first, "--resume")
    assert done.status == 0 and read("hashes").count(b"\n") == SLOW_COUNT, done
    assert sorted(os.listdir()) == ["hashes", "list"], done


def test_options_saved_by_another_program_are_not_used() -> None:
    save("list", b"ann,pw1\nbob,pw2\n")
    save_part("hashes.part", ANN)
    os.utime("list", (1e9, 1e9))  # the list must be older than the part
    words = ("file", *MD5CRYPT, "list", "-o", "hashes", "--csv", "--columns", "1,2", "--resume")
    creators: list[Callable[[], object]] = [
        lambda: save("hashes.part.options", b"--csv --columns=1,2"),
        lambda: os.mkfifo("hashes.part.options"),
    ]
    for create in creators:
        create()
        os.chmod("hashes.part.options", 0o644)
        done = pwhash(*words)
        assert done.status == 2 and b"hashes.part.options" in done.err, done
        os.remove("hashes.part.options")
    save_part("hashes.part.options", b"--csv --columns=1,2")  # says nothing about the list
    done = pwhash(*words)
    assert done.status == 2 and not os.path.exists("hashes"), done


def test_the_command_for_going_on_is_readable_and_works() -> None:
    name = f"pass{ESCAPE}'\nwörds\\"
    save(name, users(SLOW_COUNT))
    out = f"o{ESCAPE}ut"
    with halted(PWHASH, "file", *SLOW, name, "-o", out, part=f"{out}.part") as process:
        process.send_signal(signal.SIGTERM)
        first = go_on(process)
    assert b"\x1b" not in first.err, first
    command = command_to_go_on(first)
    assert "\n" not in command, command
    second = ended(started_program("/bin/bash", "-c", command))
    assert second.status == 0 and read(out).count(b"\n") == SLOW_COUNT, second


# ---- The part's lines

LINES = b"ann:x\nno colon\nbob:y\ncarl:z\n"
RESUMED = ("file", *MD5CRYPT, "lines", "-o", "out", "--resume", "--skip-refused")
WHOLE = b"".join(
    b"%b:%b\n" % (name, hashed(password))
    for name, password in ((b"ann", b"x"), (b"bob", b"y"), (b"carl", b"z"))
)
FIRST, SECOND, _ = WHOLE.splitlines(keepends=True)


@pytest.mark.parametrize(
    "part",
    [
        pytest.param(b"", id="nothing"),
        pytest.param(FIRST, id="a line"),
        pytest.param(FIRST + SECOND[:30], id="a line and a half"),
        pytest.param(WHOLE.removesuffix(b"\n"), id="all but the last line feed"),
        pytest.param(WHOLE, id="all"),
    ],
)
def test_a_part_of_the_same_run_is_resumed(part: bytes) -> None:
    save("lines", LINES)
    save_part("out.part", part)
    done = pwhash(*RESUMED)
    assert done.status == 1 and read("out") == WHOLE, done


@pytest.mark.parametrize(
    "part",
    [
        pytest.param(SECOND, id="another line first"),
        pytest.param(b"ann:$1$xxxxxxxx$wrong\n", id="another hash"),
        pytest.param(FIRST + b"bob:" + hashed(b"other") + b"\n", id="another password last"),
        pytest.param(WHOLE + b"\nx", id="more lines than the run makes"),
        pytest.param(b"Welcome!\n", id="no hash"),
    ],
)
def test_a_part_of_another_run_is_not_resumed(part: bytes) -> None:
    save("lines", LINES)
    save_part("out.part", part)
    done = pwhash(*RESUMED)
    assert done.status == 2 and b"password" in done.err and b"gone" in done.err, done
    assert not os.path.exists("out")


@pytest.mark.parametrize(
    "words",
    [
        pytest.param(("-m", "sha256crypt"), id="another method"),
        pytest.param(("-m", "md5crypt", "-S", "yyyyyyyy"), id="another salt"),
    ],
)
def test_a_part_with_other_hashes_is_not_resumed(words: tuple[str, ...]) -> None:
    save("lines", LINES)
    save_part("out.part", FIRST)
    done = pwhash("file", *words, "lines", "-o", "out", "--resume", "--skip-refused")
    assert done.status == 2 and not os.path.exists("out"), done


def test_a_part_is_not_used_without_resume() -> None:
    save("lines", LINES)
    save_part("out.part", FIRST)
    done = pwhash("file", *MD5CRYPT, "lines", "-o", "out", "--skip-refused")
    assert done.status == 2 and not os.path.exists("out"), done


def test_a_list_newer_than_the_part_is_not_resumed() -> None:
    save_part("out.part", FIRST)
    save("lines", LINES)
    later = os.stat("out.part").st_mtime + 1
    os.utime("lines", (later, later))
    done = pwhash(*RESUMED)
    assert done.status == 2 and not os.path.exists("out"), done


def test_resume_without_a_part_starts_from_the_beginning() -> None:
    save("lines", LINES)
    done = pwhash(*RESUMED)
    assert done.status == 1 and read("out") == WHOLE, done


def test_resume_of_a_whole_run_is_refused() -> None:
    save("lines", LINES)
    save("out", WHOLE)
    done = pwhash(*RESUMED)
    assert done.status == 2 and read("out") == WHOLE, done


# ---- Checks, which can't be resumed


def test_a_check_names_the_part_to_remove() -> None:
    save("out.part", b"ann:locked\n")
    done = pwhash("check", save("lines", b"ann:!:x\n"), "-o", "out")
    assert done.status == 2 and b"out.part already exists: remove it" in done.err, done
    assert b"--resume" not in done.err, done


def test_a_failed_check_says_how_to_start_again() -> None:
    save("lines", b"ann:!:x\n" * 200)
    done = shell('ulimit -f 1; exec "$@"', "check", "lines", "-o", "out")
    assert done.status == 3 and done.err.endswith(b" To start again, remove out.part.\n"), done


def test_a_failed_run_says_how_to_go_on() -> None:
    save("lines", users(200))
    save_part("out.part", b"")
    words = ("file", *MD5CRYPT, "lines", "-o", "out", "--resume")
    done = shell('ulimit -f 1; exec "$@"', *words)
    command = f"  {shlex.join([PWHASH, *words])}\n"
    assert done.status == 3 and done.err.endswith(f" To go on:\n{command}".encode()), done


def test_the_advice_never_removes_what_is_not_a_file() -> None:
    done = pwhash("file", save("lines", b"ann:x\n"), "-o", "/dev/null")
    assert done.status == 2 and b"/dev/null already exists" in done.err, done
    assert b"remove" not in done.err, done
