"""pwhash file --skip-locked SHADOW skips the names that are locked in SHADOW."""
from __future__ import annotations

import os
import re

import pytest
from support.pwhash_copies import Copy
from support.pwhash_runs import (
    ANN,
    BOB,
    MD5,
    MD5CRYPT,
    PWHASH,
    SLOW,
    SLOW_COUNT,
    go_on,
    halted,
    pwhash,
    read,
    save,
    shell,
    users,
)

WORDS = ("file", *MD5CRYPT, "--skip-locked", "shadow")
LIST = b"ann:pw1\neve:pw3\nbob:pw2\n"
LOCKED = [
    pytest.param(b"!" + MD5.encode(), id="usermod -L"),
    pytest.param(b"!!" + MD5.encode(), id="Red Hat's passwd -l"),
    pytest.param(b"*", id="a system account"),
    pytest.param(b"!*", id="a system account of systemd"),
    pytest.param(b"*LK*", id="a lock in words"),
    pytest.param(b"{CRYPT}!" + MD5.encode(), id="a lock after Dovecot's prefix"),
    pytest.param(b"!{SHA512-CRYPT}" + MD5.encode(), id="a lock before Dovecot's prefix"),
    pytest.param(b"{SHA512-CRYPT}!" + MD5.encode(), id="a lock after another prefix"),
    pytest.param(b"{CRYPT}!", id="a lock after a prefix, and no hash"),
    pytest.param(b"{SSHA}!", id="a lock after LDAP's prefix, and no hash"),
    pytest.param(b"{SSHA}!" + b"a" * 28, id="a lock after LDAP's prefix"),
    pytest.param(b"!{SSHA}" + b"a" * 28, id="a lock before LDAP's prefix"),
    pytest.param(b"!!*", id="several marks"),
    pytest.param(b"!$y$j9T$abcdefghijklmnopqrstu.$abc", id="yescrypt"),
]
NOT_LOCKED = [
    pytest.param(MD5.encode(), id="a hash"),
    pytest.param(b"$y$j9T$abcdefghijklmnopqrstu.$abc", id="yescrypt"),
    pytest.param(b"", id="nothing"),
    pytest.param(b"!", id="useradd"),
    pytest.param(b"!!", id="Red Hat's useradd"),
    pytest.param(b"{PLAIN}!secret", id="a plain password that begins with a mark"),
]


def shadow_with_eve(field: bytes) -> None:
    """Saves the list, and a shadow file in which Eve has this field and Bob no hash yet."""
    lines = [b"root:*", b"ann:" + MD5.encode(), b"eve:" + field, b"bob:!"]
    save("shadow", b"".join(line + b":19000:0:99999:7:::\n" for line in lines))
    save("list", LIST)


@pytest.mark.parametrize("field", LOCKED)
def test_a_locked_name_of_a_file_is_skipped(field: bytes) -> None:
    shadow_with_eve(field)
    done = pwhash(*WORDS, "list", "-o", "hashes")
    assert (done.status, read("hashes")) == (0, ANN + BOB), done
    assert b"list, line 2 (eve): locked in shadow\n" in done.err and b"pw3" not in done.err, done


@pytest.mark.parametrize("field", LOCKED)
def test_a_locked_name_of_a_pipe_is_skipped(field: bytes) -> None:
    shadow_with_eve(field)
    done = pwhash(*WORDS, stdin=LIST)
    assert (done.status, done.out) == (0, ANN + BOB), done
    assert b"line 2 (eve): locked in shadow\n" in done.err and b"pw3" not in done.err, done


@pytest.mark.parametrize("field", NOT_LOCKED)
def test_a_name_that_is_not_locked_stays(field: bytes) -> None:
    shadow_with_eve(field)
    done = pwhash(*WORDS, "list", "-o", "hashes")
    assert (done.status, done.err) == (0, b"") and b"eve:$1$" in read("hashes"), done


@pytest.mark.parametrize(
    "lines",
    [
        pytest.param(
            b"eve:%b\neve:!%b\n" % (MD5.encode(), MD5.encode()), id="locked in the last line"
        ),
        pytest.param(
            b"eve:!%b\neve:%b\n" % (MD5.encode(), MD5.encode()), id="locked in the first line"
        ),
    ],
)
def test_a_name_that_is_locked_in_one_of_its_lines_is_skipped(lines: bytes) -> None:
    save("shadow", lines)
    done = pwhash(*WORDS, stdin=LIST)
    assert (done.status, done.out) == (0, ANN + BOB), done


def test_locked_names_of_a_table_are_skipped() -> None:
    shadow_with_eve(b"!" + MD5.encode())
    save("table", b"name;password\r\nann;pw1\r\neve;pw3\r\neve;x;y\r\nbob;pw2\r\n")
    done = pwhash(*WORDS, "--csv", "table", "-o", "hashes")
    assert (done.status, read("hashes")) == (0, ANN + BOB), done
    assert b"left out since their names are locked: 2" in done.err, done


def test_a_line_that_may_be_a_password_is_still_refused() -> None:
    shadow_with_eve(b"!" + MD5.encode())
    done = pwhash(*WORDS, stdin=b"eve\nann:pw1\n")
    assert (done.status, done.out) == (1, ANN) and b"(eve)" not in done.err, done


def test_names_that_begin_like_a_locked_one_stay() -> None:
    save("shadow", b"ann1:!x\nan:!x\nAnn:!x\nann :!x\n")
    done = pwhash(*WORDS, stdin=b"ann:pw1\n")
    assert (done.status, done.out, done.err) == (0, ANN, b""), done


def test_many_locked_names_are_counted() -> None:
    save("shadow", b"".join(b"user%d:!x\n" % number for number in range(1000)))
    save("list", users(1001))
    done = pwhash(*WORDS, "list", "-o", "hashes")
    assert done.status == 0 and read("hashes").startswith(b"user1000:"), done
    # Twenty names, and a summary.
    assert len(done.err.splitlines()) == 20 + 1 and b": 1,000." in done.err, done


def test_other_problems_are_shown_beside_locked_names() -> None:
    shadow_with_eve(b"!" + MD5.encode())
    save("list", LIST + b"no colon\n")
    done = pwhash(*WORDS, "list", "-o", "hashes")
    assert done.status == 1 and not os.path.exists("hashes"), done
    done = pwhash(*WORDS, "list", "-o", "hashes", "--skip-refused")
    assert (done.status, read("hashes")) == (1, ANN + BOB), done


@pytest.mark.parametrize(
    ("name", "data", "reason"),
    [
        pytest.param("shadow", b"", b"no line name:field", id="an empty file"),
        pytest.param("shadow", b"ann\n", b"no line name:field", id="no field"),
        pytest.param("shadow", b"ann:x:1:1::/:\neve:x:1:1::/:\n", b"only says x", id="passwd"),
        pytest.param("elsewhere", b"", b"shadow: No such file", id="no file"),
    ],
)
@pytest.mark.parametrize("words", [(), ("list", "-o", "hashes")], ids=["a pipe", "a file"])
def test_nothing_is_hashed_without_the_locked_names(
    name: str, data: bytes, reason: bytes, words: tuple[str, ...]
) -> None:
    save("list", LIST)
    save(name, data)
    done = pwhash(*WORDS, *words, stdin=LIST)
    assert done.status in (2, 3) and done.out == b"" and reason in done.err, done
    assert set(os.listdir()) == {"list", name}, done


@pytest.mark.needs("root")
def test_nothing_is_hashed_if_the_file_cannot_be_read(copy: Copy) -> None:
    shadow_with_eve(b"!" + MD5.encode())
    os.chmod("shadow", 0)
    os.chmod(".", 0o755)
    done = copy.run(*WORDS, stdin=LIST, before=("setpriv", "--reuid=65534", "--clear-groups"))
    assert (done.status, done.stdout) == (3, b"") and b"Permission denied" in done.stderr, done


def test_the_names_can_come_from_a_pipe() -> None:
    shadow_with_eve(b"!" + MD5.encode())
    words = ("file", *MD5CRYPT, "--skip-locked", "/dev/fd/3", "list", "-o", "hashes")
    done = shell('cat shadow | "$@" 3<&0', *words)
    assert (done.status, read("hashes")) == (0, ANN + BOB), done


def test_a_name_that_is_locked_during_a_run_ends_it() -> None:
    save("shadow", b"user1:" + MD5.encode() + b"\nuser2:!x\n")
    save("passwords", users(SLOW_COUNT))
    words = ("file", *SLOW, "--skip-locked", "shadow", "passwords", "-o", "hashes")
    with halted(PWHASH, *words) as process:
        save("shadow", b"user1:!" + MD5.encode() + b"\nuser2:!x\n")
        done = go_on(process)
    assert done.status == 2 and not os.path.exists("hashes"), done
    assert b"locked in shadow during the run: remove hashes.part" in done.err, done


def test_other_changes_of_the_file_end_no_run() -> None:
    save("shadow", b"user1:" + MD5.encode() + b"\nuser2:!x\n")
    save("passwords", users(SLOW_COUNT))
    words = ("file", *SLOW, "--skip-locked", "shadow", "passwords", "-o", "hashes")
    with halted(PWHASH, *words) as process:
        save("shadow", b"user1:$1$x$y\nuser2:" + MD5.encode() + b"\n")
        done = go_on(process)
    assert done.status == 0 and read("hashes").count(b"\n") == SLOW_COUNT - 1, done


def interrupted() -> None:
    """Starts a run in which user0 is locked, and kills it halfway."""
    save("shadow", b"user0:!x\nuser1:$1$x$y\n")
    save("list", users(SLOW_COUNT))
    words = ("file", *SLOW, "--skip-locked", "shadow", "list", "-o", "hashes")
    with halted(PWHASH, *words) as process:
        process.kill()
    assert os.path.exists("hashes.part")


RESUMED = ("file", *SLOW, "list", "-o", "hashes", "--resume")


def test_a_run_resumes_without_the_locked_names() -> None:
    interrupted()
    done = pwhash(*RESUMED, "--skip-locked", "shadow")
    assert done.status == 0 and read("hashes").count(b"\n") == SLOW_COUNT - 1, done
    assert not re.search(rb"^user0:", read("hashes"), re.MULTILINE), done


def test_a_run_does_not_resume_with_other_locked_names() -> None:
    interrupted()
    part = read("hashes.part")
    done = pwhash(*RESUMED)
    assert done.status == 2 and b"--skip-locked" in done.err, done
    save("shadow", b"user0:!x\nuser1:!$1$x$y\n")
    done = pwhash(*RESUMED, "--skip-locked", "shadow")
    assert done.status == 2 and b"left out" in done.err, done
    assert read("hashes.part") == part and not os.path.exists("hashes"), done
