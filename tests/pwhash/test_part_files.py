"""OUT.part: pwhash writes it only if it is the user's own, and touches no other file."""
from __future__ import annotations

import os
import stat
import time
from collections.abc import Callable

import pytest
from support.needs import need
from support.pwhash_runs import (
    Ended,
    MD5,
    MD5CRYPT,
    MOST_TRIES,
    PWHASH,
    SLOW,
    SLOW_COUNT,
    continued,
    ended,
    go_on,
    halted_run,
    pwhash,
    read,
    save,
    save_part,
    started_program,
    stopped_by_strace,
    users,
    wait_for,
)


def run_in_the_open_folder(*words: str) -> Ended:
    """Runs pwhash in a folder where everybody can make files, as in /tmp."""
    os.chmod(".", 0o1777)
    return pwhash("file", *MD5CRYPT, "passwords", "-o", "hashes", *words)


def link_part() -> None:
    save_part("elsewhere", b"")
    os.symlink("elsewhere", "hashes.part")


def hard_link_part() -> None:
    save_part("elsewhere", b"")
    os.link("elsewhere", "hashes.part")


NOBODY = 65534


def part_of_nobody() -> None:
    need("root")
    save_part("hashes.part", b"")
    os.chown("hashes.part", NOBODY, NOBODY)


def part_for_all() -> None:
    save("hashes.part", b"")
    os.chmod("hashes.part", 0o666)


@pytest.mark.parametrize("words", [(), ("--resume",)], ids=["anew", "with --resume"])
@pytest.mark.parametrize(
    "create_part",
    [
        pytest.param(part_of_nobody, id="somebody else's"),
        pytest.param(part_for_all, id="one that others can write"),
        pytest.param(lambda: os.mkfifo("hashes.part", 0o600), id="a pipe"),
        pytest.param(link_part, id="a symbolic link"),
        pytest.param(hard_link_part, id="one with a second name"),
        pytest.param(lambda: os.mkdir("hashes.part"), id="a folder"),
    ],
)
def test_a_part_that_is_not_only_the_users_is_never_written(
    create_part: Callable[[], None], words: tuple[str, ...]
) -> None:
    """Somebody else could add lines before chpasswd reads the file."""
    save("passwords", b"ann:password\n")
    create_part()
    before = os.lstat("hashes.part")
    done = run_in_the_open_folder(*words)
    assert done.status == 2 and b"hashes.part" in done.err, done
    assert not os.path.lexists("hashes"), done
    after = os.lstat("hashes.part")
    assert (after.st_ino, after.st_uid) == (before.st_ino, before.st_uid), done
    if stat.S_ISREG(after.st_mode):
        assert after.st_size == 0, done
    if os.path.exists("elsewhere"):
        assert read("elsewhere") == b"", done


def test_the_users_own_empty_part_is_not_used_without_resume() -> None:
    save("passwords", b"ann:password\n")
    save_part("hashes.part", b"")
    done = pwhash("file", *MD5CRYPT, "passwords", "-o", "hashes")
    assert done.status == 2 and b"--resume" in done.err and not os.path.exists("hashes"), done
    done = pwhash("file", *MD5CRYPT, "passwords", "-o", "hashes", "--resume")
    assert done.status == 0 and read("hashes") == b"ann:" + MD5.encode() + b"\n", done


def test_the_input_file_is_not_removed() -> None:
    save("hashes.part", users(3))
    done = pwhash("file", *MD5CRYPT, "hashes.part", "-o", "hashes")
    assert done.status == 2 and b"remove it" not in done.err and b"read" in done.err, done
    assert read("hashes.part") == users(3)


def run_with_strangers_part() -> Ended:
    """Runs pwhash, and puts another file in the part's place before pwhash renames the part.

    Without hard links pwhash looks at the part, and then renames it. strace delays the renaming by
    two seconds.
    """
    save("list", users(3))
    command = ["strace", "-f", "-qq", "-o", "log", "-e", "trace=linkat,renameat2"]
    command += ["-e", "inject=linkat:error=EPERM", "-e", "inject=renameat2:delay_enter=2000000"]
    command += [PWHASH, "file", *MD5CRYPT, "list", "-o", "hashes"]
    with started_program(*command) as process:
        wait_for(lambda: os.path.exists("log") and b"linkat" in read("log"))
        time.sleep(1)
        save("other", b"root:strangers\n")
        os.rename("other", "hashes.part")
        return ended(process)


@pytest.mark.needs("strace")
def test_another_users_file_is_not_mistaken_for_out() -> None:
    """On a busy machine the file may come too early or too late, so a single try doesn't count."""
    for _ in range(MOST_TRIES):
        done = run_with_strangers_part()
        if done.status == 3 and b"hashes isn't" in done.err:
            break
        for name in os.listdir():
            os.remove(name)
    assert done.status == 3 and b"hashes isn't" in done.err, done


@pytest.mark.needs("strace")
def test_a_part_that_another_run_made_out_is_left_alone() -> None:
    """Another run may end before this one locks the part. strace stops this run before that."""
    save("list", b"ann:password\n")
    os.utime("list", (1e9, 1e9))  # the list must be older than the part
    save_part("hashes.part", b"ann:" + MD5.encode() + b"\n")
    trace = ["-P", "hashes.part", "-e", "trace=openat", "-e", "inject=openat:signal=STOP"]
    words = ("file", *MD5CRYPT, "list", "-o", "hashes", "--resume")
    with stopped_by_strace(trace, *words) as process:
        assert b'"hashes.part", O_RDWR' in read("log")
        os.rename("hashes.part", "hashes")
        done = continued(process)
    assert done.status == 2 and b"Start again" in done.err, done
    assert sorted(os.listdir()) == ["hashes", "list", "log"], done


def link_options() -> None:
    os.symlink("list", "hashes.part.options")


@pytest.mark.parametrize(
    "create_file",
    [
        pytest.param(lambda: save("hashes.part.options", b"name,password\n"), id="a list"),
        pytest.param(lambda: save_part("hashes.part.options", b"ann:pw1\n"), id="a private list"),
        pytest.param(link_options, id="a symbolic link"),
        pytest.param(lambda: os.mkdir("hashes.part.options"), id="a folder"),
    ],
)
def test_a_file_with_the_name_of_the_saved_options_stays(create_file: Callable[[], object]) -> None:
    save("list", b"name,password\nann,pw1\n")
    create_file()
    before = os.lstat("hashes.part.options")
    done = pwhash("file", *MD5CRYPT, "list", "-o", "hashes", "--csv")
    assert done.status == 2 and b"hashes.part.options" in done.err, done
    assert os.path.samestat(os.lstat("hashes.part.options"), before), done
    assert sorted(os.listdir()) == ["hashes.part.options", "list"], done


def test_two_runs_do_not_share_a_part() -> None:
    with halted_run() as process:
        anew = pwhash("file", *SLOW, "passwords", "-o", "hashes")
        resumed = pwhash("file", *SLOW, "passwords", "-o", "hashes", "--resume")
        done = go_on(process)
    assert anew.status == 2 and b"another run" in anew.err, anew
    assert resumed.status == 2, resumed
    assert done.status == 0 and read("hashes").count(b"\n") == SLOW_COUNT, done
