"""What is in the way of a new file: pwhash names it, and the old file stays as it was."""
from __future__ import annotations

import contextlib
import os
import subprocess
import tempfile
from collections.abc import Callable, Iterator

import pytest
from support.needs import not_applicable
from support.pwhash_copies import Copy
from support.pwhash_runs import (
    MD5CRYPT,
    Ended,
    ended,
    hashed,
    pwhash,
    read,
    save,
    started_program,
)

OLD, NEW = b"ann:" + hashed(b"old") + b"\n", b"ann:" + hashed(b"password") + b"\n"
LOCK, NEW_FILE = "passwords.mkpasswd.lock", "passwords.mkpasswd.new"
EXCHANGE = "passwords.mkpasswd.exchange"
SET = ("set", *MD5CRYPT, "passwords", "ann")
INSTALL = ("install", "-R", "1000", "hashes", "passwords")
COMMANDS = [pytest.param(SET, id="set"), pytest.param(INSTALL, id="install")]
MAKE = ("--generate", "-R", "1000")
OTHER_USER = ("setpriv", "--reuid=65534", "--regid=65534", "--clear-groups")


def changed_by(words: tuple[str, ...]) -> Ended:
    """Runs a command that turns OLD into NEW."""
    save("hashes", NEW)
    return pwhash(*words, stdin=b"password\n")


@pytest.mark.parametrize("words", COMMANDS)
@pytest.mark.parametrize(
    ("name", "make"),
    [
        pytest.param(NEW_FILE, os.mkdir, id="a folder for the new file"),
        pytest.param(EXCHANGE, os.mkdir, id="a folder for the note"),
        pytest.param(EXCHANGE, lambda name: save(name, b"mine"), id="a file for the note"),
        pytest.param(EXCHANGE, lambda name: os.symlink("mine", name), id="a link for the note"),
        pytest.param(LOCK, lambda name: os.symlink("mine", name), id="a link for the lock"),
    ],
)
def test_what_is_in_the_way_is_named_and_stays(
    name: str, make: Callable[[str], object], words: tuple[str, ...]
) -> None:
    save("passwords", OLD)
    make(name)
    before = os.lstat(name)
    done = changed_by(words)
    assert done.status == 3 and name.encode() in done.err and b"emove it" in done.err, done
    assert read("passwords") == OLD and os.path.samestat(before, os.lstat(name)), done
    if os.path.isdir(name):
        os.rmdir(name)
    else:
        os.remove(name)
    done = changed_by(words)
    assert (done.status, read("passwords")) == (0, NEW), done


@pytest.mark.parametrize("name", [NEW_FILE, EXCHANGE])
def test_nobody_types_a_password_before_that(name: str) -> None:
    save("passwords", OLD)
    os.mkdir(name)
    done = pwhash(*SET, stdin=b"")
    assert done.status == 3 and name.encode() in done.err and b"empty" not in done.err, done
    assert not os.path.exists(LOCK), done


@pytest.mark.parametrize("name", [NEW_FILE, EXCHANGE])
def test_what_is_in_the_way_of_a_first_password_file_is_named(name: str) -> None:
    os.mkdir(name)
    done = changed_by(INSTALL)
    assert done.status == 3 and name.encode() in done.err, done
    assert set(os.listdir()) == {"hashes", name, LOCK}, done


# ---- Attributes of the file system


@pytest.fixture(name="reachable")
def fixture_reachable(monkeypatch: pytest.MonkeyPatch) -> Iterator[None]:
    """A scratch folder that all users can reach. It becomes the current one."""
    with tempfile.TemporaryDirectory() as folder:
        os.chmod(folder, 0o755)
        monkeypatch.chdir(folder)
        yield
        monkeypatch.undo()


@contextlib.contextmanager
def with_attribute(letter: str, path: str) -> Iterator[None]:
    """Gives a file an attribute during the block, if its file system has such attributes."""
    done = subprocess.run(["chattr", f"+{letter}", path], check=False, stderr=subprocess.PIPE)
    if done.returncode != 0:
        not_applicable(done.stderr.decode().strip())
    try:
        yield
    finally:
        subprocess.run(["chattr", f"-{letter}", path], check=True)


@pytest.mark.needs("root", "chattr")
@pytest.mark.parametrize("words", COMMANDS)
@pytest.mark.parametrize("path", ["passwords", "."], ids=["file", "folder"])
@pytest.mark.parametrize("letter", ["a", "i"], ids=["append-only", "immutable"])
def test_an_attribute_that_forbids_the_change_is_a_possible_reason(
    letter: str, path: str, words: tuple[str, ...]
) -> None:
    save("passwords", OLD)
    save("hashes", NEW)
    with with_attribute(letter, path):
        done = pwhash(*words, stdin=b"password\n")
        assert done.status in (2, 3) and b"passwords" in done.err and b"lsattr" in done.err, done
        assert b"only its owner or the superuser" not in done.err, done
        assert read("passwords") == OLD, done
    done = changed_by(words)
    assert (done.status, read("passwords")) == (0, NEW), done


@pytest.mark.needs("root", "chattr")
@pytest.mark.usefixtures("reachable")
def test_the_owner_of_a_file_learns_of_an_attribute_too(copy: Copy) -> None:
    os.chown(".", 65534, 65534)
    save("passwords", OLD)
    os.chown("passwords", 65534, 65534)
    with with_attribute("a", "passwords"):
        done = ended(started_program(*OTHER_USER, str(copy.pwhash), *SET), b"password\n")
        assert done.status == 3 and b"lsattr" in done.err and b"its owner" in done.err, done
        assert read("passwords") == OLD, done


@pytest.mark.needs("root", "chattr")
@pytest.mark.parametrize(
    ("line", "words"),
    [
        pytest.param(b"ann:pw\n", (*MD5CRYPT, "-o", "folder/hashes"), id="OUT"),
        pytest.param(b"ann\n", ("-o", "hashes", *MAKE, "--passwords", "folder/list"), id="LIST"),
    ],
)
def test_a_new_file_in_an_immutable_folder_is_named(line: bytes, words: tuple[str, ...]) -> None:
    os.mkdir("folder")
    save("list", line)
    with with_attribute("i", "folder"):
        done = pwhash("file", "list", *words)
        assert done.status == 3 and b"folder/" in done.err and b"lsattr" in done.err, done
