"""A umask that takes away all rights, as 0777 does: pwhash works, and can do so again."""
from __future__ import annotations

import os
import stat
import tempfile
from collections.abc import Iterator

import pytest
from support.pwhash_copies import Copy
from support.pwhash_runs import (
    MD5CRYPT,
    PWHASH,
    Ended,
    ended,
    hashed,
    read,
    save,
    started_program,
)

OLD, NEW = b"ann:" + hashed(b"old") + b"\n", b"ann:" + hashed(b"password") + b"\n"
SET = ("set", *MD5CRYPT, "passwords", "ann")
INSTALL = ("install", "-R", "1000", "hashes", "passwords")
LOCK = "passwords.mkpasswd.lock"
OTHER_USER = ("setpriv", "--reuid=65534", "--regid=65534", "--clear-groups")
UMASKS = pytest.mark.parametrize("umask", [0o777, 0o277, 0o077], ids=oct)


def mode(path: str) -> int:
    return stat.S_IMODE(os.lstat(path).st_mode)


def with_umask(umask: int, *command: str) -> Ended:
    """Runs a command that may ask for a password."""
    return ended(started_program(*command, umask=umask), b"password\n")


@UMASKS
@pytest.mark.parametrize("words", [SET, INSTALL], ids=["set", "install"])
def test_a_password_file_keeps_its_mode_and_its_lock_can_be_read(
    umask: int, words: tuple[str, ...]
) -> None:
    save("passwords", OLD)
    os.chmod("passwords", 0o640)
    save("hashes", NEW)
    done = with_umask(umask, PWHASH, *words)
    assert (done.status, read("passwords"), mode("passwords")) == (0, NEW, 0o640), done
    assert mode(LOCK) == 0o600, oct(mode(LOCK))


@UMASKS
def test_a_new_password_file_has_the_mode_that_was_asked_for(umask: int) -> None:
    save("hashes", NEW)
    done = with_umask(umask, PWHASH, *INSTALL, "--mode", "640")
    assert (done.status, read("passwords"), mode("passwords")) == (0, NEW, 0o640), done
    assert mode(LOCK) == 0o600, oct(mode(LOCK))


@UMASKS
def test_hashes_and_lists_can_be_read_by_their_owner(umask: int) -> None:
    save("names", b"name,class\nann,5a\n")
    words = ("file", "names", "--csv", "--generate", "-R", "1000", "--by", "class")
    done = with_umask(umask, PWHASH, *words, "--passwords", "lists", "-o", "hashes")
    assert done.status == 0 and read("hashes").startswith(b"ann:$6$"), done
    assert [mode(path) for path in ("hashes", "lists", "lists/5a.csv")] == [0o600, 0o700, 0o600]


@pytest.fixture(name="folder_of_another")
def fixture_folder_of_another(monkeypatch: pytest.MonkeyPatch) -> Iterator[None]:
    """A scratch folder of another user. It becomes the current one."""
    with tempfile.TemporaryDirectory() as folder:
        os.chown(folder, 65534, 65534)
        monkeypatch.chdir(folder)
        yield
        monkeypatch.undo()


@UMASKS
@pytest.mark.needs("root", "setfattr")
@pytest.mark.usefixtures("folder_of_another")
def test_a_service_can_change_its_file_again(copy: Copy, umask: int) -> None:
    """Unlike the superuser, it can't open a lock or change attributes without the right to."""
    save("passwords", OLD)
    os.setxattr("passwords", "user.comment", b"mine")
    os.chown("passwords", 65534, 65534)
    command = (*OTHER_USER, str(copy.pwhash), "set", "passwords", "ann")
    for action, field in (("--lock", b"!" + hashed(b"old")), ("--unlock", hashed(b"old"))):
        done = with_umask(umask, *command, action)
        assert (done.status, read("passwords")) == (0, b"ann:" + field + b"\n"), done
        assert os.getxattr("passwords", "user.comment") == b"mine"
