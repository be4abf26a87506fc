"""pwhash file --resume continues a part only with the file that the part was begun with."""

from __future__ import annotations

import contextlib
import os
import shutil
import signal
import subprocess
from collections.abc import Callable
from pathlib import Path

import pytest
from support.pwhash_runs import (
    Ended,
    SLOW,
    command_to_go_on,
    ended,
    hashed,
    in_namespace,
    pwhash,
    read,
    save,
    save_part,
    shell,
    started,
    started_program,
    users,
    wait_for,
)

COUNT = 120
SETTING = "$6$rounds=20000$saltsalt"
WORDS = ("file", *SLOW, "passwords", "-o", "hashes")
OLD = (1e9, 1e9)  # a time of access and one of change, in seconds since 1970
OLDER = (9e8, 9e8)


@pytest.fixture(autouse=True, name="passwords")
def fixture_passwords(folder: Path) -> None:
    """An old list in the scratch folder."""
    save("passwords", users(COUNT))
    os.utime("passwords", OLD)
    assert (folder / "passwords").is_file()


def interrupted(
    *words: str, part: str = "hashes.part", source: str = os.devnull, begun: bytes = b""
) -> Ended:
    """Runs pwhash until a signal ends it halfway. Repeats a run that ends before the signal.

    If `begun` is given, the part has these lines from the start.
    """
    for _ in range(20):
        if begun:
            save_part(part, begun)
        with open(source, "rb") as stdin:
            done = terminated(started(*words, stdin=stdin), part, len(begun))
        if os.path.exists(part):
            break
        assert done.status == 0, done
        os.remove(part.removesuffix(".part"))
    assert done.status == -signal.SIGTERM and 0 < lines_in(part) < COUNT, done
    return done


def terminated(process: subprocess.Popen[bytes], part: str, size: int) -> Ended:
    """Sends SIGTERM to a run once its part is longer than `size`, unless the run has ended."""
    wait_for(lambda: process.poll() is not None or size_of(part) > size)
    process.send_signal(signal.SIGTERM)
    return ended(process)


def size_of(name: str) -> int:
    with contextlib.suppress(FileNotFoundError):
        return os.path.getsize(name)
    return 0


def lines_in(name: str) -> int:
    return read(name).count(b"\n")


def by_shell(command: str) -> Ended:
    return ended(started_program("/bin/sh", "-c", command))


# ---- Another file


def other_passwords() -> bytes:
    """Returns the list with another password in its second line.

    The size is the same, and --resume hashes only the first and last lines of a part again.
    """
    return users(COUNT).replace(b":password1\n", b":PASSWORD1\n")


def copy_over() -> None:
    """Overwrites the list as `cp -p` from an older list would."""
    save("backup", other_passwords())
    os.utime("backup", OLDER)
    with open("backup", "rb") as backup, open("passwords", "r+b") as passwords:
        shutil.copyfileobj(backup, passwords)
    shutil.copystat("backup", "passwords")


def rename_over() -> None:
    """Replaces the list with a backup of the same size and time."""
    save("backup", other_passwords())
    os.utime("backup", OLD)
    os.rename("backup", "passwords")


def lengthen() -> None:
    with open("passwords", "ab") as passwords:
        passwords.write(b"eve:password\n")
    os.utime("passwords", OLD)


CHANGES = [
    pytest.param(copy_over, id="overwritten by cp -p"),
    pytest.param(rename_over, id="replaced by a backup"),
    pytest.param(lengthen, id="longer"),
    pytest.param(lambda: os.utime("passwords", OLDER), id="only an older time"),
    pytest.param(lambda: os.utime("passwords"), id="touched"),
]


@pytest.mark.parametrize("change", CHANGES)
@pytest.mark.parametrize("source", ["/dev/null", "passwords"], ids=["named", "standard input"])
def test_a_part_of_another_file_is_not_resumed(change: Callable[[], object], source: str) -> None:
    words = [word for word in WORDS if word != source]  # no FILE if standard input is it
    interrupted(*words, source=source)
    part = read("hashes.part")
    change()
    done = shell(f'exec "$@" < {source}', *words, "--resume")
    assert done.status == 2 and not os.path.exists("hashes"), done
    assert b"another file" in done.err and b"remove hashes.part" in done.err.lower(), done
    advice = done.err.replace(b"without --resume", b"")
    assert b"--resume" not in advice and read("hashes.part") == part, done


def test_following_the_advice_after_a_refusal_makes_new_hashes() -> None:
    interrupted(*WORDS)
    copy_over()
    assert pwhash(*WORDS, "--resume").status == 2
    os.remove("hashes.part")
    done = pwhash(*WORDS)
    assert done.status == 0 and sorted(os.listdir()) == ["backup", "hashes", "passwords"], done
    assert read("hashes").splitlines()[1] == b"user1:" + hashed(b"PASSWORD1", SETTING)


def test_a_run_resumes_with_the_same_file_on_standard_input() -> None:
    first = interrupted("file", *SLOW, "-o", "hashes", source="passwords")
    second = by_shell(command_to_go_on(first))
    assert second.status == 0 and lines_in("hashes") == COUNT, second
    assert sorted(os.listdir()) == ["hashes", "passwords"], second


def test_a_part_can_be_resumed_more_than_once() -> None:
    """Each run adds some lines, and needs the same file."""
    interrupted(*WORDS)
    first = read("hashes.part").splitlines(keepends=True)[0]
    interrupted(*WORDS, "--resume", begun=first)
    copy_over()
    done = pwhash(*WORDS, "--resume")
    assert done.status == 2 and not os.path.exists("hashes"), done


def test_a_part_from_another_program_is_bound_to_the_file_once_it_is_resumed() -> None:
    """GNU parallel makes such a part, without saved options beside it."""
    part = b"".join(
        b"user%d:%b\n" % (number, hashed(b"password%d" % number, SETTING)) for number in range(3)
    )
    interrupted(*WORDS, "--resume", begun=part)
    copy_over()
    done = pwhash(*WORDS, "--resume")
    assert done.status == 2 and b"another file" in done.err, done


# ---- The options that are saved beside the part

SAVED_OPTIONS = "hashes.part.options"


def empty_options() -> None:
    os.truncate(SAVED_OPTIONS, 0)


def halve_options() -> None:
    os.truncate(SAVED_OPTIONS, os.path.getsize(SAVED_OPTIONS) // 2)


def cut_last_byte_of_options() -> None:
    os.truncate(SAVED_OPTIONS, os.path.getsize(SAVED_OPTIONS) - 1)


CUTS = [
    pytest.param(empty_options, id="empty"),
    pytest.param(halve_options, id="half of it"),
    pytest.param(cut_last_byte_of_options, id="all but the last byte"),
]


@pytest.mark.parametrize("words", [(), ("--windows",)], ids=["alone", "with --windows"])
@pytest.mark.parametrize("cut", CUTS)
def test_a_part_with_truncated_options_is_not_resumed(
    cut: Callable[[], None], words: tuple[str, ...]
) -> None:
    interrupted(*WORDS, *words)
    cut()
    done = pwhash(*WORDS, *words, "--resume")
    assert done.status == 2 and not os.path.exists("hashes"), done
    assert SAVED_OPTIONS.encode() in done.err and b"remove" in done.err.lower(), done


@pytest.mark.parametrize("cut", CUTS)
def test_an_empty_part_with_truncated_options_loses_nothing(cut: Callable[[], None]) -> None:
    """A power failure at the very beginning can leave such files."""
    interrupted(*WORDS)
    cut()
    save("hashes.part", b"")
    done = pwhash(*WORDS, "--resume")
    assert done.status == 0 and lines_in("hashes") == COUNT, done
    assert sorted(os.listdir()) == ["hashes", "passwords"], done


@pytest.mark.parametrize("words", [(), ("--windows",)], ids=["alone", "with --windows"])
@pytest.mark.parametrize("free", [0, 4], ids=["nothing fits", "a block fits"])
def test_the_printed_command_resumes_after_a_full_disk(words: tuple[str, ...], free: int) -> None:
    """The disk of 64 KiB has as many of these free as the test says."""
    script = f"""
        mkdir full
        mount -t tmpfs -o size=64k none full
        head -c {64 - free}k /dev/zero > full/filler
        "$@" 2> errors || echo status $?
        cat errors >&2
        rm full/filler
        sh -c "$(sed -n 's/^  //p' errors)" || echo status $?
        wc -l < full/hashes
        ls full
    """
    save("passwords", users(200))
    quick = ("-m", "sha512crypt", "-R", "1000", "-S", "saltsalt")
    done = in_namespace(script, "file", *quick, "passwords", "-o", "full/hashes", *words)
    assert done.out == b"status 3\n200\nhashes\n" and b"To go on" in done.err, done


# ---- The command that a run prints for resuming it


@pytest.mark.parametrize(
    ("name", "words"),
    [
        pytest.param("passwords", ("-o", "hashes", "--", "passwords"), id="after --"),
        pytest.param("-my list", ("-o", "hashes", "--", "-my list"), id="a dash and a blank"),
        pytest.param("--resume", ("-o", "hashes", "--", "--resume"), id="the option's own name"),
        pytest.param("it's", ("it's", "--out=hashes"), id="a quote"),
        pytest.param("$HOME;#", ("-ohashes", "$HOME;#"), id="special characters of the shell"),
    ],
)
def test_the_printed_command_works_with_any_name(name: str, words: tuple[str, ...]) -> None:
    os.rename("passwords", name)
    first = interrupted("file", *SLOW, *words)
    second = by_shell(command_to_go_on(first))
    assert second.status == 0 and lines_in("hashes") == COUNT, second


def test_the_printed_command_works_if_out_begins_with_a_dash() -> None:
    first = interrupted("file", *SLOW, "--out=-h", "--", "passwords", part="-h.part")
    second = by_shell(command_to_go_on(first))
    assert second.status == 0 and lines_in("-h") == COUNT, second
