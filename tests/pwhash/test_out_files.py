"""OUT: it is complete, private, and replaces no other file."""
from __future__ import annotations

import os
import stat

import pytest
from support.needs import not_applicable
from support.pwhash_runs import (
    MD5CRYPT,
    PWHASH,
    SLOW,
    SLOW_COUNT,
    command_to_go_on,
    ended,
    go_on,
    halted,
    halted_run,
    hashed,
    in_namespace,
    pwhash,
    read,
    save,
    started_program,
    users,
)


@pytest.mark.parametrize("umask", [0o000, 0o022, 0o777], ids="{:03o}".format)
def test_only_its_owner_can_read_out(umask: int) -> None:
    save("passwords", b"ann:password\n")
    before = os.umask(umask)
    try:
        done = pwhash("file", *MD5CRYPT, "passwords", "-o", "hashes")
    finally:
        os.umask(before)
    status = os.stat("hashes")
    assert done.status == 0 and stat.S_IMODE(status.st_mode) == 0o600, done
    assert status.st_nlink == 1 and sorted(os.listdir()) == ["hashes", "passwords"], done


def test_an_out_that_appears_during_a_run_stays() -> None:
    with halted_run() as process:
        save("hashes", b"somebody's\n")
        done = go_on(process)
    assert done.status != 0 and read("hashes") == b"somebody's\n", done
    assert read("hashes.part").count(b"\n") == SLOW_COUNT and b"hashes.part" in done.err, done
    os.remove("hashes")
    command = command_to_go_on(done)
    again = ended(started_program("/bin/sh", "-c", command))
    assert again.status == 0 and read("hashes").count(b"\n") == SLOW_COUNT, again
    assert not os.path.exists("hashes.part"), again


def test_an_out_that_appears_during_a_check_stays() -> None:
    numbers = range(SLOW_COUNT)
    fields = [b"user%d:%b:1\n" % (number, hashed(b"password%d" % number)) for number in numbers]
    save("shadow", b"".join(fields))
    save("list", users(SLOW_COUNT))
    words = ("check", "--shadow", "shadow", "--rehash", *SLOW, "list", "-o", "hashes")
    with halted(PWHASH, *words) as process:
        os.symlink("nowhere", "hashes")
        done = go_on(process)
    assert done.status != 0 and os.readlink("hashes") == "nowhere", done
    assert read("hashes.part").count(b"\n") == SLOW_COUNT and b"hashes.part" in done.err, done


NOT_MOUNTED = 77  # the script's status if it can't mount the image


@pytest.mark.needs("mkfs.vfat")
def test_out_on_a_file_system_without_links_replaces_nothing() -> None:
    save("passwords", users(200))
    script = f"""
        mkdir fat
        truncate -s 4M image
        mkfs.vfat image > log
        mount -o loop,umask=077,fmask=177 image fat || exit {NOT_MOUNTED}
        trap 'umount fat' EXIT
        "$@"
        wc -l < fat/hashes
        ls fat
        rm fat/hashes
        "$@" &
        until [ -s fat/hashes.part ]; do sleep 0.01; done
        echo other > fat/hashes
        wait $! || echo status $?
        cat fat/hashes
        ls fat
    """
    done = in_namespace(script, "file", *SLOW, "passwords", "-o", "fat/hashes")
    if done.status == NOT_MOUNTED:
        not_applicable("no loop device can be made")
    left = b"hashes\nhashes.part\nhashes.part.options\n"
    assert done.out == b"200\nhashes\nstatus 3\nother\n" + left, done


def test_no_file_with_the_name_of_standard_output_is_written() -> None:
    done = pwhash("file", *MD5CRYPT, save("list", users(2)), "-o", "-")
    assert done.status == 2 and sorted(os.listdir()) == ["list"], done


def test_a_missing_folder_leaves_nothing_to_resume() -> None:
    done = pwhash("file", *MD5CRYPT, save("lines", b"ann:x\n"), "-o", "nowhere/out")
    assert done.status == 3 and b"nowhere: No such file" in done.err, done
    assert b"--resume" not in done.err, done


def test_a_name_too_long_to_resume_leaves_nothing() -> None:
    longest = os.pathconf(".", "PC_NAME_MAX")
    out = "o" * (longest - len(".part"))
    done = pwhash("file", *MD5CRYPT, save("lines", b"ann:x\n"), "-o", out)
    assert done.status == 3 and b"too long" in done.err and b"--resume" not in done.err, done
    assert os.listdir() == ["lines"], done
