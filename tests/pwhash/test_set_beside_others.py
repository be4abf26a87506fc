"""pwhash set keeps changes that others make during its run, and copes with limited file systems."""
from __future__ import annotations

import os
import pathlib
import signal
import stat

import pytest
from support.package import LIBRARY, PACKAGE
from support.preload import preload_library
from support.pwhash_runs import MD5CRYPT, Ended, ended, hashed, pwhash, read, save, started_program

pytestmark = pytest.mark.needs("cc")

SET = ("set", *MD5CRYPT, "passwords", "ann")
ANN = b"ann:" + hashed(b"password") + b"\n"
FILES_LEFT = ["passwords", "passwords.mkpasswd.lock"]  # the lock stays for later runs
# The command that bin/pwhash runs, so that no other program loads the library.
START = ("/usr/bin/python3", "-I", "-S", str(PACKAGE / "pwhash/start.py"), str(LIBRARY), "pwhash")


@pytest.fixture(scope="module", name="between")
def fixture_between(tmp_path_factory: pytest.TempPathFactory) -> str:
    """A library for LD_PRELOAD that changes the file, or fails calls, during a run of pwhash."""
    return str(preload_library("between", tmp_path_factory.mktemp("between")))


def set_ann(between: str, *variables: str) -> Ended:
    """Sets Ann's password while the library does what the variables say."""
    command = ("env", f"LD_PRELOAD={between}", *variables, *START, *SET)
    return ended(started_program(*command), b"password\n")


def file_names() -> list[str]:
    """Returns the names of the files in the current folder."""
    return sorted(path.name for path in pathlib.Path().iterdir())


def version(number: int) -> bytes:
    """Returns the file as another user left it. Each version has one more locked name."""
    locked = b"".join(b"other%d:!\n" % place for place in range(number))
    return locked + b"ann:x\n"


@pytest.mark.parametrize("changes", range(6))
def test_the_newest_change_by_somebody_else_stays(between: str, changes: int) -> None:
    save("passwords", version(0))
    for number in range(1, changes + 1):
        save(f"passwords.{number}", version(number))
    done = set_ann(between)
    expected = version(changes).replace(b"ann:x\n", ANN)
    assert (done.status, read("passwords"), file_names()) == (0, expected, FILES_LEFT), done


def test_a_mode_set_by_somebody_else_stays(between: str) -> None:
    save("passwords", version(1))
    os.chmod("passwords", 0o640)
    done = set_ann(between, "CHMOD=1")
    assert (done.status, read("passwords")) == (0, version(1).replace(b"ann:x\n", ANN)), done
    assert stat.S_IMODE(os.stat("passwords").st_mode) == 0o604


def test_a_file_that_somebody_removes_is_not_created_again(between: str) -> None:
    save("passwords", version(1))
    done = set_ann(between, f"REMOVED={os.path.abspath('passwords')}")
    assert (done.status, file_names()) == (3, ["passwords.mkpasswd.lock"]), done


@pytest.mark.parametrize(
    ("variable", "reason"),
    [
        pytest.param("NO_EXCHANGE=1", b"can't exchange", id="no exchange"),
        pytest.param("NO_LOCKS=1", b"passwords.mkpasswd.lock", id="no locks"),
    ],
)
def test_an_unsuitable_file_system_is_named(between: str, variable: str, reason: bytes) -> None:
    save("passwords", version(1))
    done = set_ann(between, variable)
    assert (done.status, read("passwords")) == (3, version(1)) and reason in done.err, done
    assert file_names() == FILES_LEFT, done


def test_set_works_on_a_file_system_without_o_tmpfile(between: str) -> None:
    save("passwords", version(1))
    done = set_ann(between, "NO_TMPFILE=1")
    expected = version(1).replace(b"ann:x\n", ANN)
    assert (done.status, read("passwords"), file_names()) == (0, expected, FILES_LEFT), done


@pytest.mark.parametrize(
    "variables", [(), ("NO_TMPFILE=1",)], ids=["a file without a name", "a named file"]
)
@pytest.mark.parametrize("moment", ["fsync", "exchange", "unlinkat"])
def test_the_next_run_finishes_what_a_killed_one_began(
    between: str, moment: str, variables: tuple[str, ...]
) -> None:
    save("passwords", version(2))
    killed = set_ann(between, f"KILL={moment}", *variables)
    assert killed.status == -signal.SIGKILL, killed
    assert read("passwords") in (version(2), version(2).replace(b"ann:x\n", ANN))
    done = set_ann(between, *variables)
    expected = version(2).replace(b"ann:x\n", ANN)
    assert (done.status, read("passwords"), file_names()) == (0, expected, FILES_LEFT), done


def test_the_next_run_puts_back_the_file_that_a_killed_one_took_out(between: str) -> None:
    save("passwords", version(0))
    save("passwords.1", version(1))
    killed = set_ann(between, "KILL=exchange")
    assert killed.status == -signal.SIGKILL, killed
    done = pwhash("set", *MD5CRYPT, "passwords", "bob", stdin=b"password\n")
    expected = version(1) + ANN.replace(b"ann", b"bob")
    assert (done.status, read("passwords"), file_names()) == (0, expected, FILES_LEFT), done


def test_a_note_that_cannot_be_read_is_named(between: str) -> None:
    save("passwords", version(0))
    save("passwords.1", version(1))
    set_ann(between, "KILL=exchange")
    before = file_names()
    done = set_ann(between, "NO_LINKS=1")
    assert (done.status, file_names()) == (3, before), done
    assert read("passwords.mkpasswd.new") == version(1)
