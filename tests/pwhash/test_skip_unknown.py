"""pwhash file --skip-unknown PASSWD skips the names that have no line in PASSWD."""
from __future__ import annotations

import os

import pytest
from support.process import run
from support.pwhash_runs import (
    ANN,
    BOB,
    MD5CRYPT,
    PWHASH,
    SLOW,
    SLOW_COUNT,
    halted,
    pwhash,
    read,
    save,
    shell,
    users,
)

WORDS = ("file", *MD5CRYPT, "--skip-unknown", "passwd")
LIST = b"ann:pw1\neve:pw3\nbob:pw2\n"
PASSWD = b"root:x:0:0::/root:/bin/sh\nann:x:1:1::/:/bin/sh\nbob:x:2:2::/:/bin/sh\n"


@pytest.fixture(autouse=True, name="files")
def fixture_files(folder: os.PathLike[str]) -> None:
    """A file of accounts, and a list of passwords for Ann, Bob, and Eve, who has no account."""
    del folder  # it is the current folder
    save("passwd", PASSWD)
    save("list", LIST)


def test_a_name_of_a_file_without_an_account_is_skipped() -> None:
    done = pwhash(*WORDS, "list", "-o", "hashes")
    assert (done.status, read("hashes")) == (0, ANN + BOB), done
    assert b"list, line 2: not in passwd\n" in done.err and b"pw3" not in done.err, done


def test_a_name_of_a_pipe_without_an_account_is_skipped() -> None:
    done = pwhash(*WORDS, stdin=LIST)
    assert (done.status, done.out) == (0, ANN + BOB), done
    assert b"line 2: not in passwd\n" in done.err and b"pw3" not in done.err, done


@pytest.mark.needs("root", "chpasswd")
def test_chpasswd_accepts_the_remaining_lines() -> None:
    os.makedirs("root/etc")
    os.rename("passwd", "root/etc/passwd")
    save("root/etc/shadow", b"ann:!:1:0:9:7:::\nbob:!:1:0:9:7:::\n")
    words = ("file", *MD5CRYPT, "--skip-unknown", "root/etc/passwd", "list", "-o", "hashes")
    done = pwhash(*words)
    loaded = run("chpasswd", "-R", os.path.realpath("root"), "-e", stdin=read("hashes"))
    assert loaded.status == 0, (done, loaded)
    fields = [line.split(b":")[:2] for line in read("root/etc/shadow").splitlines()]
    assert fields == [line.split(b":") for line in (ANN + BOB).splitlines()], done


@pytest.mark.parametrize(
    "line", [b"ev:x:3\n", b"evee:x:3\n", b"Eve:x:3\n", b"eve :x:3\n", b"eve\n"]
)
def test_a_name_that_only_resembles_an_account_is_skipped(line: bytes) -> None:
    save("passwd", PASSWD + line)
    done = pwhash(*WORDS, stdin=LIST)
    assert (done.status, done.out) == (0, ANN + BOB) and b"line 2: not" in done.err, done


def test_names_of_a_table_are_skipped_and_wrong_rows_are_still_refused() -> None:
    save("table", b"name;password\nann;pw1\neve;pw3\n;x\ndan;x;y\nbob;pw2\n")
    done = pwhash(*WORDS, "--csv", "table", "-o", "hashes")
    assert done.status == 1 and not os.path.exists("hashes"), done
    for message in b"line 3: not in", b"line 4: no name", b"line 5: 3 fields":
        assert message in done.err, done
    done = pwhash(*WORDS, "--csv", "table", "-o", "hashes", "--skip-refused")
    assert (done.status, read("hashes")) == (1, ANN + BOB), done


def test_a_line_that_may_be_a_password_is_still_refused() -> None:
    done = pwhash(*WORDS, stdin=b"secret\nann:pw1\n:x\n")
    assert (done.status, done.out) == (1, ANN) and b"secret" not in done.err, done
    assert b"line 1: no password field" in done.err and b"line 3: no name" in done.err, done


def test_a_name_without_an_account_gets_no_generated_password() -> None:
    save("names", b"ann\neve\n")
    words = ("file", "--generate", "-R", "1000", "--skip-unknown", "passwd", "names")
    done = pwhash(*words, "-o", "hashes", "--passwords", "passwords")
    names = [line.partition(b",")[0] for line in read("passwords").splitlines()]
    assert (done.status, names) == (0, [b"name", b"ann"]), done
    assert b"line 2 (eve): not in passwd" in done.err, done


NEW_NAMES = 60  # without an account, besides Eve


def save_list_with_new_names() -> None:
    new = b"".join(b"new%d:pw\n" % number for number in range(NEW_NAMES))
    save("list", LIST + new)


def test_a_look_shows_everybody_without_an_account() -> None:
    save_list_with_new_names()
    done = pwhash("file", "--look", "--skip-unknown", "passwd", "list")
    assert done.status == 0 and b"line 2: not in passwd" in done.err, done
    for number in range(NEW_NAMES):
        assert b"line %d: not in passwd" % (4 + number) in done.err, done
    assert b"lines left out since their names aren't in passwd: 61." in done.err, done
    assert b"--look" not in done.err, done


def test_a_run_with_many_names_without_an_account_says_how_to_see_them_all() -> None:
    save_list_with_new_names()
    done = pwhash(*WORDS, "list", "-o", "hashes")
    assert (done.status, done.err.count(b": not in passwd")) == (0, 20), done
    assert b"aren't in passwd: 61. The first 20 are shown, and all with --look." in done.err, done


def test_locked_names_can_be_skipped_too() -> None:
    save("shadow", b"ann:!$1$x$y:1\nbob:!:1\n")
    done = pwhash(*WORDS, "--skip-locked", "shadow", "list", "-o", "hashes")
    assert (done.status, read("hashes")) == (0, BOB), done
    assert b"line 2: not in passwd" in done.err and b"(ann): locked in shadow" in done.err, done


@pytest.mark.parametrize(
    ("option", "other"),
    [
        pytest.param("--skip-unknown", b"root:x:0:0::/root:/bin/sh\n", id="unknown"),
        pytest.param("--skip-locked", b"ann:!x\nbob:!x\neve:*\n", id="locked"),
    ],
)
def test_no_out_is_made_if_all_names_are_skipped(option: str, other: bytes) -> None:
    save("passwd", other)
    done = pwhash("file", *MD5CRYPT, option, "passwd", "list", "-o", "hashes")
    assert done.status == 1 and b"no line is left" in done.err, done
    assert sorted(os.listdir()) == ["list", "passwd"], done


@pytest.mark.parametrize(
    ("data", "reason"),
    [
        pytest.param(b"", b"no line name:field", id="an empty file"),
        pytest.param(None, b"No such file", id="no file"),
    ],
)
@pytest.mark.parametrize("words", [(), ("list", "-o", "hashes")], ids=["a pipe", "a file"])
def test_nothing_is_hashed_without_the_file_of_accounts(
    data: bytes | None, reason: bytes, words: tuple[str, ...]
) -> None:
    os.remove("passwd")
    if data is not None:
        save("passwd", data)
    done = pwhash(*WORDS, *words, stdin=LIST)
    assert done.status in (2, 3) and done.out == b"" and reason in done.err, done
    assert not os.path.exists("hashes") and not os.path.exists("hashes.part"), done


def test_the_names_can_come_from_a_pipe() -> None:
    words = ("file", *MD5CRYPT, "--skip-unknown", "/dev/fd/3", "list", "-o", "hashes")
    done = shell('cat passwd | "$@" 3<&0', *words)
    assert (done.status, read("hashes")) == (0, ANN + BOB), done


def test_a_run_does_not_resume_without_the_option() -> None:
    save("passwd", b"".join(b"user%d:x\n" % number for number in range(1, SLOW_COUNT)))
    save("list", users(SLOW_COUNT))
    words = ("file", *SLOW, "list", "-o", "hashes")
    with halted(PWHASH, *words, "--skip-unknown", "passwd") as process:
        process.kill()
    part = read("hashes.part")
    done = pwhash(*words, "--resume")
    assert done.status == 2 and b"--skip-unknown" in done.err, done
    assert read("hashes.part") == part and not os.path.exists("hashes"), done
    done = pwhash(*words, "--resume", "--skip-unknown", "passwd")
    assert done.status == 0 and read("hashes").count(b"\n") == SLOW_COUNT - 1, done
