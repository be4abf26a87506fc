"""pwhash set: which attributes a file keeps, and which files are refused."""
from __future__ import annotations

import os
import pathlib
import stat
import subprocess
import tempfile
from collections.abc import Iterator

import pytest
from support.package import LIBRARY, PACKAGE
from support.pwhash_copies import Copy
from support.pwhash_runs import (
    MD5CRYPT,
    Ended,
    ended,
    hashed,
    in_namespace,
    pwhash,
    read,
    save,
    started,
    started_program,
)

SET = ("set", *MD5CRYPT, "passwords", "ann")
BEFORE, AFTER = b"ann:x:1\n", b"ann:" + hashed(b"password") + b":1\n"
LOCK = "passwords.mkpasswd.lock"
OWNER, GROUP, MODE = 65534, 4242, 0o640
# A line of shadow(5), and one of passwd(5).
SHADOW = b"ann:" + hashed(b"old") + b":19000:0:99999:7:::\n"
PASSWD = b"ann:x:1000:1000:Ann,,,:/home/ann:/bin/sh\n"
# The command that bin/pwhash runs. A shell in between would drop the rights of another user.
START = ("/usr/bin/python3", "-I", "-S", str(PACKAGE / "pwhash/start.py"), str(LIBRARY), "pwhash")
OTHER_USER = ("setpriv", "--reuid=65534", "--regid=65534", "--clear-groups")


def test_a_folder_that_is_exchanged_during_the_run_is_noticed() -> None:
    """A link may lead to the newest version of a site, and be switched at any moment."""
    for folder in ("old", "new"):
        os.mkdir(folder)
        save(f"{folder}/passwords", b"bob:x\n")
    os.symlink("old", "site")
    with started("set", *MD5CRYPT, "site/passwords", "ann") as process:
        assert process.stderr is not None and b"has no ann" in process.stderr.readline()
        os.unlink("site")
        os.symlink("new", "site")
        done = ended(process, b"password\n")
    assert done.status == 3 and b"another folder" in done.err, done
    assert read("old/passwords") == read("new/passwords") == b"bob:x\n"


def set_ann(*words: str) -> Ended:
    """Sets Ann's password, which turns BEFORE into AFTER. Other words may replace SET."""
    return pwhash(*(words or SET), stdin=b"password\n")


def file_names() -> list[str]:
    """Returns the names of the files in the current folder."""
    return sorted(path.name for path in pathlib.Path().iterdir())


@pytest.fixture(name="reachable")
def fixture_reachable(monkeypatch: pytest.MonkeyPatch) -> Iterator[None]:
    """A scratch folder that all users can reach. It becomes the current one."""
    with tempfile.TemporaryDirectory() as folder:
        os.chmod(folder, 0o755)
        monkeypatch.chdir(folder)
        yield
        monkeypatch.undo()


# ---- Attributes that stay


@pytest.mark.needs("root")
def test_the_owner_and_the_mode_stay() -> None:
    save("passwords", BEFORE)
    os.chown("passwords", OWNER, GROUP)
    os.chmod("passwords", MODE)
    done = set_ann()
    status = os.stat("passwords")
    assert (done.status, read("passwords")) == (0, AFTER), done
    found = (stat.S_IMODE(status.st_mode), status.st_uid, status.st_gid)
    assert found == (MODE, OWNER, GROUP)


@pytest.mark.needs("root", "setfacl", "setfattr")
def test_acls_and_attributes_stay_and_none_are_added() -> None:
    save("passwords", BEFORE)
    os.chmod("passwords", MODE)
    subprocess.run(["setfacl", "-d", "-m", "u:games:rwx", "."], check=True)
    subprocess.run(["setfacl", "-m", "u:daemon:r", "passwords"], check=True)
    os.setxattr("passwords", "trusted.other", b"value")
    before = {name: os.getxattr("passwords", name) for name in os.listxattr("passwords")}
    assert {"system.posix_acl_access", "trusted.other"} <= set(before), before
    os.chmod(".", 0o700)  # the default ACL has added rights for a group
    done = set_ann()
    assert (done.status, read("passwords")) == (0, AFTER), done
    after = {name: os.getxattr("passwords", name) for name in os.listxattr("passwords")}
    assert after == before
    assert stat.S_IMODE(os.stat("passwords").st_mode) == MODE


@pytest.mark.needs("root")
def test_the_lock_belongs_to_the_owner_of_the_file_and_nothing_else_is_left() -> None:
    save("passwords", BEFORE)
    os.chown("passwords", OWNER, GROUP)
    done = set_ann()
    status = os.stat(LOCK)
    assert (done.status, file_names()) == (0, ["passwords", LOCK]), done
    found = (stat.S_IMODE(status.st_mode), status.st_uid, status.st_gid)
    assert found == (0o600, OWNER, GROUP)


@pytest.mark.needs("root")
@pytest.mark.usefixtures("reachable")
def test_a_service_can_change_its_own_file(copy: Copy) -> None:
    os.chown(".", OWNER, OWNER)
    save("passwords", BEFORE)
    os.chown("passwords", OWNER, OWNER)
    command = (*OTHER_USER, str(copy.pwhash), *SET)
    done = ended(started_program(*command), b"password\n")
    assert (done.status, read("passwords")) == (0, AFTER), done


@pytest.mark.needs("root")
def test_root_can_change_the_file_of_a_service() -> None:
    os.chown(".", OWNER, OWNER)
    save("passwords", BEFORE)
    os.chown("passwords", OWNER, OWNER)
    done = set_ann()
    assert (done.status, read("passwords")) == (0, AFTER), done


# ---- Refused files


def assert_refused(done: Ended, reason: bytes) -> None:
    """Fails unless the run was refused for this reason before it created the lock file."""
    assert done.status == 2 and reason in done.err, done
    assert not os.path.exists(LOCK), done


def test_a_missing_file_is_named_and_the_printed_command_creates_it() -> None:
    done = set_ann()
    assert_refused(done, b"there is no passwords")
    command = done.err.decode().split("read: ")[1].replace("GROUP", str(os.getgid()))
    subprocess.run(["sh", "-c", command], check=True)
    done = set_ann()
    assert (done.status, read("passwords")) == (0, AFTER.replace(b":1", b"")), done
    assert stat.S_IMODE(os.stat("passwords").st_mode) == 0o640


def test_a_link_is_refused_and_its_target_is_named() -> None:
    save("target", BEFORE)
    os.symlink("target", "passwords")
    assert_refused(set_ann(), os.path.realpath("target").encode())
    assert read("target") == BEFORE


def test_a_file_with_two_names_is_refused() -> None:
    save("passwords", BEFORE)
    os.link("passwords", "other")
    assert_refused(set_ann(), b"another name")


def test_a_folder_is_refused() -> None:
    os.mkdir("passwords")
    assert_refused(set_ann(), b"folder")


def test_an_endless_file_is_refused() -> None:
    save("passwords", BEFORE)
    os.truncate("passwords", 1 << 40)  # without end for a reader, but without blocks on the disk
    assert_refused(set_ann(), b"1 GiB")


@pytest.mark.parametrize("path", [".", "..", "./"])
def test_the_name_of_a_folder_is_refused(path: str) -> None:
    assert_refused(set_ann("set", *MD5CRYPT, path, "ann"), b"folder")


def test_a_pipe_is_refused() -> None:
    os.mkfifo("passwords")
    assert_refused(set_ann(), b"no regular file")


@pytest.mark.parametrize("mode", [0o775, 0o757, 0o1777], ids=["group", "all", "sticky"])
def test_a_folder_that_others_can_write_is_refused(mode: int) -> None:
    os.mkdir("folder")
    save("folder/passwords", BEFORE)
    os.chmod("folder", mode)
    done = set_ann("set", *MD5CRYPT, "folder/passwords", "ann")
    assert_refused(done, b"others can write its folder")
    assert read("folder/passwords") == BEFORE


def test_a_folder_below_one_that_others_can_write_is_refused() -> None:
    os.makedirs("above/folder")
    save("above/folder/passwords", BEFORE)
    os.chmod("above", 0o777)
    done = set_ann("set", *MD5CRYPT, "above/folder/passwords", "ann")
    assert_refused(done, b"a folder above it")
    assert read("above/folder/passwords") == BEFORE


@pytest.mark.needs("root")
def test_a_folder_of_another_user_is_refused() -> None:
    os.mkdir("folder")
    save("folder/passwords", BEFORE)
    os.chown("folder", OWNER, GROUP)
    done = set_ann("set", *MD5CRYPT, "folder/passwords", "ann")
    assert_refused(done, b"belongs to another user")
    assert read("folder/passwords") == BEFORE


@pytest.mark.needs("root")
@pytest.mark.usefixtures("reachable")
@pytest.mark.parametrize(
    ("mode", "reason"),
    [
        pytest.param(0o644, b"aren't allowed to write passwords", id="the file"),
        pytest.param(0o666, b"aren't allowed to make files", id="the folder"),
    ],
)
def test_a_user_who_may_not_write_the_file_gets_a_message(
    copy: Copy, mode: int, reason: bytes
) -> None:
    save("passwords", BEFORE)
    os.chmod("passwords", mode)
    done = ended(started_program(*OTHER_USER, str(copy.pwhash), *SET), b"password\n")
    assert_refused(done, reason)
    assert read("passwords") == BEFORE


@pytest.mark.needs("root")
@pytest.mark.parametrize("option", ["--ruid=65534", "--rgid=65534"], ids=["user", "group"])
def test_a_process_with_the_rights_of_another_user_is_refused(option: str) -> None:
    save("passwords", BEFORE)
    done = ended(started_program("setpriv", option, "--keep-groups", *START, *SET), b"password\n")
    assert_refused(done, b"set-user-ID")
    assert read("passwords") == BEFORE


# ---- Files of the system

# The namespace has its own /etc, so that a failing test can't change the system's.
OWN_ETC = """
    mkdir etc other
    mount -t tmpfs none etc
    cp -p /etc/passwd /etc/group /etc/ld.so.cache etc 2>> log
    printf '%s' "$LINE" > etc/shadow
    cp etc/shadow etc/shadow-
    chmod 755 etc
    mount --bind etc /etc
"""


@pytest.mark.parametrize(
    "path", ["/etc/passwd", "/etc/group", "/etc/shadow", "/etc/shadow-", "etc/shadow"]
)
def test_a_file_of_the_system_is_refused(path: str, monkeypatch: pytest.MonkeyPatch) -> None:
    monkeypatch.setenv("LINE", "ann:!:1:2:3:4:5:6:\n")
    script = f"""
        {OWN_ETC}
        before=$(cat /etc/*)
        if "$@"; then exit 9; fi
        [ "$(cat /etc/*)" = "$before" ]
    """
    done = in_namespace(script, "set", *MD5CRYPT, path, "ann", stdin=b"password\n")
    assert done.status == 0 and b"chpasswd(8)" in done.err and b"passwd(1)" in done.err, done


@pytest.mark.needs("namespaces")
def test_root_is_not_advised_to_use_sudo() -> None:
    save("passwords", BEFORE)
    script = 'mount --bind . .; mount -o remount,ro,bind .; cd "$PWD"; "$@"'
    done = in_namespace(script, *SET, stdin=b"password\n")
    assert done.status == 2 and b"read-only" in done.err and b"sudo" not in done.err, done


def test_a_file_of_the_system_is_refused_under_another_name() -> None:
    save("passwords", PASSWD)
    script = f'{OWN_ETC}\nmount --bind passwords /etc/passwd; "$@"'
    done = in_namespace(script, *SET, stdin=b"password\n")
    assert (done.status, read("passwords")) == (2, PASSWD), done
    assert b"chpasswd(8)" in done.err, done


@pytest.mark.parametrize(
    "path",
    [
        "etc/passwd",
        "root/etc/shadow",
        "etc/gshadow-",
        "etc/group",
        "var/backups/shadow.bak",
        "etc/subuid",
        "etc/subgid",
        "root/etc/subuid-",
        "etc/subgid-",
    ],
)
def test_a_file_of_the_system_below_another_root_is_refused(path: str) -> None:
    folder, name = os.path.split(path)
    os.makedirs(folder)
    save(path, b"ann:x\n")
    detour = f"{folder}/../{os.path.basename(folder)}/{name}"
    for same_file in path, detour:
        done = set_ann("set", *MD5CRYPT, same_file, "ann")
        assert done.status == 2 and b"chpasswd(8)" in done.err, done
    assert read(path) == b"ann:x\n"


@pytest.mark.parametrize("other", [b"", b"bob:!:1::::::\n", b"no line\n"])
def test_a_copy_of_shadow_is_refused_by_its_nine_fields(other: bytes) -> None:
    save("passwords", SHADOW + other)
    assert_refused(set_ann(), b"chpasswd(8)")
    assert read("passwords") == SHADOW + other


@pytest.mark.parametrize(
    "line",
    [
        pytest.param(b"ann:x:1000:1000::/home/ann::user=ann", id="eight fields"),
        pytest.param(
            b"ann:x:1000:1000::/home/ann::mail=maildir:~/Maildir", id="a colon in the extra fields"
        ),
        pytest.param(b"ann:x", id="two fields"),
    ],
)
def test_a_file_of_dovecot_is_not_mistaken_for_a_file_of_the_system(line: bytes) -> None:
    save("passwords", line + b"\n")
    done = set_ann()
    new = line.replace(b":x", b":" + hashed(b"password"))
    assert (done.status, read("passwords")) == (0, new + b"\n"), done
