"""The folders of what pwhash writes: OUT, lists and password files get into no other folder.

Otherwise somebody who exchanges a folder, or a link in its path, could make root's pwhash create
and remove files elsewhere.
"""
from __future__ import annotations

import os
from collections.abc import Callable
from pathlib import Path

import pytest
from support.package import LIBRARY, PACKAGE
from support.pwhash_runs import (
    ANN,
    BOB,
    MD5CRYPT,
    PWHASH,
    SLOW,
    SLOW_COUNT,
    Ended,
    ended,
    go_on,
    halted,
    in_namespace,
    pwhash,
    read,
    save,
    started_program,
    users,
)

# Debian's numbers. The user daemon has a group of its own, with the same number.
DAEMON = 1
NOBODY, GAMES = 65534, 60
# The command that bin/pwhash runs. A shell in between would drop the rights of another user.
START = ("/usr/bin/python3", "-I", "-S", str(PACKAGE / "pwhash/start.py"), str(LIBRARY), "pwhash")
HASHES = ANN + BOB
GENERATE = ("file", "--generate", "-R", "1000", "names", "-o", "own/hashes")


@pytest.fixture(autouse=True, name="files")
def fixture_files(folder: Path, monkeypatch: pytest.MonkeyPatch) -> None:
    """A list, names without passwords, hashes, and a folder of the user's own."""
    monkeypatch.delenv("SUDO_UID", raising=False)
    save("passwords", b"ann:pw1\nbob:pw2\n")
    save("names", b"ann\nbob\n")
    save("new", HASHES)
    (folder / "own").mkdir()


def hash_into(out: str) -> Ended:
    return pwhash("file", *MD5CRYPT, "passwords", "-o", out)


def list_into(path: str) -> Ended:
    return pwhash(*GENERATE, "--passwords", path)


def install_as(target: str) -> Ended:
    return pwhash("install", "new", target)


WRITERS = [
    pytest.param(hash_into, id="OUT"),
    pytest.param(list_into, id="a list"),
    pytest.param(install_as, id="a password file"),
]
Writer = Callable[[str], Ended]


def assert_refused(done: Ended, reason: bytes, *folders: str) -> None:
    """Fails unless the run was refused for this reason, and made nothing in these folders."""
    assert done.status == 2 and reason in done.err, done
    for folder in ("own", *folders):
        assert os.listdir(folder) == [], done


def make_folder(path: str, mode: int, user: int = 0, group: int = 0) -> None:
    os.mkdir(path)
    os.chown(path, user, group)
    os.chmod(path, mode)


# ---- Folders of others


@pytest.mark.needs("root")
@pytest.mark.parametrize("write", WRITERS)
def test_the_folder_of_another_user_is_refused(write: Writer) -> None:
    make_folder("theirs", 0o755, NOBODY)
    assert_refused(write("theirs/file"), b"its folder belongs to another user", "theirs")


@pytest.mark.needs("root")
@pytest.mark.parametrize("write", WRITERS)
def test_a_folder_below_one_of_another_user_is_refused(write: Writer) -> None:
    make_folder("theirs", 0o755, NOBODY)
    make_folder("theirs/own", 0o700)
    assert_refused(write("theirs/own/file"), b"a folder above it belongs to", "theirs/own")


@pytest.mark.parametrize("write", WRITERS)
@pytest.mark.parametrize("mode", [0o777, 0o757], ids=["all", "others"])
def test_a_folder_that_others_can_write_is_refused(write: Writer, mode: int) -> None:
    os.mkdir("open")
    os.chmod("open", mode)
    assert_refused(write("open/file"), b"others can write its folder", "open")


@pytest.mark.parametrize("write", WRITERS)
def test_a_folder_below_one_that_others_can_write_is_refused(write: Writer) -> None:
    os.makedirs("open/below")
    os.chmod("open", 0o777)
    assert_refused(write("open/below/file"), b"others can write a folder above", "open/below")


@pytest.mark.parametrize("write", [hash_into, list_into], ids=["OUT", "a list"])
def test_a_folder_such_as_tmp_is_accepted(write: Writer) -> None:
    os.mkdir("tmp")
    os.chmod("tmp", 0o1777)
    done = write("tmp/file")
    assert done.status == 0 and os.listdir("tmp") == ["file"], done


@pytest.mark.needs("root")
@pytest.mark.parametrize("write", [hash_into, list_into], ids=["OUT", "a list"])
def test_only_the_group_of_one_user_may_write_the_folder(
    write: Writer, monkeypatch: pytest.MonkeyPatch
) -> None:
    monkeypatch.setenv("SUDO_UID", str(DAEMON))
    make_folder("alone", 0o775, DAEMON, DAEMON)
    make_folder("shared", 0o775, DAEMON, GAMES)
    assert_refused(write("shared/file"), b"others can write its folder", "shared")
    done = write("alone/file")
    assert done.status == 0 and os.listdir("alone") == ["file"], done


@pytest.mark.needs("root")
def test_a_group_that_is_also_another_users_is_not_the_group_of_one_user() -> None:
    """In the namespace, carl has daemon's group, too."""
    make_folder("shared", 0o775, DAEMON, DAEMON)
    script = """
        cp /etc/passwd users
        echo "carl:x:4242:1::/:/bin/sh" >> users
        mount --bind users /etc/passwd
        export SUDO_UID=1
        exec "$@"
    """
    done = in_namespace(script, "file", *MD5CRYPT, "passwords", "-o", "shared/file")
    assert_refused(done, b"others can write its folder", "shared")


@pytest.mark.needs("root")
def test_a_group_whose_number_is_also_that_of_a_team_is_not_the_group_of_one_user() -> None:
    """In the namespace, the group team has the number of daemon's group, and carl as a member."""
    make_folder("shared", 0o775, DAEMON, DAEMON)
    script = """
        cp /etc/group groups
        echo "team:x:1:carl" >> groups
        mount --bind groups /etc/group
        export SUDO_UID=1
        exec "$@"
    """
    done = in_namespace(script, "file", *MD5CRYPT, "passwords", "-o", "shared/file")
    assert_refused(done, b"others can write its folder", "shared")


@pytest.mark.needs("root", "setfacl")
def test_an_acl_that_lets_another_user_write_the_folder_is_noticed() -> None:
    ended(started_program("setfacl", "-m", "u:nobody:rwx", "own"))
    assert_refused(hash_into("own/hashes"), b"others can write its folder")


# ---- With sudo


@pytest.mark.needs("root")
@pytest.mark.parametrize("write", [hash_into, list_into], ids=["OUT", "a list"])
def test_with_sudo_the_folder_of_the_user_who_runs_it_is_accepted(
    write: Writer, monkeypatch: pytest.MonkeyPatch
) -> None:
    make_folder("theirs", 0o755, NOBODY)
    monkeypatch.setenv("SUDO_UID", "1")
    assert_refused(write("theirs/file"), b"/root", "theirs")
    monkeypatch.setenv("SUDO_UID", str(NOBODY))
    done = write("theirs/file")
    assert done.status == 0 and os.listdir("theirs") == ["file"], done


@pytest.mark.needs("root")
@pytest.mark.parametrize("value", ["", "-1", "x", "65534x", "\u0661"])
def test_another_value_of_sudos_variable_lets_nobody_in(
    value: str, monkeypatch: pytest.MonkeyPatch
) -> None:
    make_folder("theirs", 0o755, NOBODY)
    monkeypatch.setenv("SUDO_UID", value)
    assert_refused(hash_into("theirs/hashes"), b"belongs to another user", "theirs")


@pytest.mark.needs("root")
def test_a_set_user_id_program_believes_nobody_about_sudo() -> None:
    make_folder("theirs", 0o755, NOBODY)
    command = ("setpriv", "--ruid=65534", "--keep-groups", "env", "SUDO_UID=65534", *START)
    done = ended(started_program(*command, "file", *MD5CRYPT, "passwords", "-o", "theirs/hashes"))
    assert_refused(done, b"belongs to another user", "theirs")


# ---- Links in a path


@pytest.mark.parametrize("write", WRITERS)
@pytest.mark.parametrize("is_absolute", [True, False], ids=["absolute", "relative"])
def test_ones_own_link_is_followed(write: Writer, is_absolute: bool) -> None:
    os.makedirs("real/below")
    os.makedirs("own/links")
    os.symlink(os.path.abspath("real") if is_absolute else "../../real", "own/links/link")
    done = write("own/links/../links/./link//below/file")
    assert done.status == 0 and "file" in os.listdir("real/below"), done


@pytest.mark.needs("root")
@pytest.mark.parametrize("write", WRITERS)
def test_the_link_of_another_user_is_refused(write: Writer) -> None:
    os.mkdir("real")
    os.symlink("real", "link")
    os.chown("link", NOBODY, NOBODY, follow_symlinks=False)
    assert_refused(write("link/file"), b"the symbolic link link in its path belongs to", "real")


@pytest.mark.parametrize("write", WRITERS)
def test_a_link_that_others_can_exchange_is_refused(write: Writer) -> None:
    os.mkdir("real")
    os.mkdir("open")
    os.symlink("../real", "open/link")
    os.chmod("open", 0o777)
    assert_refused(write("open/link/file"), b"the symbolic link link in its path: others", "real")


@pytest.mark.parametrize("write", WRITERS)
def test_links_that_lead_nowhere_are_named(write: Writer) -> None:
    os.symlink("link", "link")
    done = write("link/file")
    assert done.status == 3 and b"Too many levels of symbolic links" in done.err, done
    done = write("passwords/file")
    assert done.status == 3 and b"Not a directory" in done.err, done


# ---- A folder that is exchanged during the run


def test_a_run_stays_in_its_folder_if_that_is_exchanged() -> None:
    os.mkdir("elsewhere")
    save("elsewhere/hashes.part", b"somebody's\n")
    save("passwords", users(SLOW_COUNT))
    words = ("file", *SLOW, "passwords", "-o", "own/hashes")
    with halted(PWHASH, *words, part="own/hashes.part") as process:
        os.rename("own", "renamed")
        os.symlink("elsewhere", "own")
        done = go_on(process)
    assert done.status == 0 and read("renamed/hashes").count(b"\n") == SLOW_COUNT, done
    assert os.listdir("renamed") == ["hashes"], done
    assert os.listdir("elsewhere") == ["hashes.part"], done
