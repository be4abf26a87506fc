"""pwhash install: which files of hashes it installs, and what it keeps of the replaced file."""
from __future__ import annotations

import base64
import grp
import hashlib
import os
import pwd
import stat
from concurrent.futures import ThreadPoolExecutor
from pathlib import Path

import pytest
from support.costly_hashes import SHA512CRYPT_AT_DEFAULT
from support.libxcrypt import crypt
from support.package import LIBRARY, PACKAGE
from support.preload import preload_library
from support.pwhash_runs import (
    Ended,
    ended,
    hashed,
    in_namespace,
    pwhash,
    read,
    save,
    started_program,
)

INSTALL = ("install", "hashes", "target")
# Hashes by these methods.
MD5CRYPT = hashed(b"one")
SHA512CRYPT = SHA512CRYPT_AT_DEFAULT
HOSTILE = b"$6$rounds=999999999$abcdefgh$" + b"x" * 86
BCRYPT = crypt(b"password", b"$2b$04$abcdefghijklmnopqrstuu")
YESCRYPT = crypt(b"password", b"$y$j75$abcdefghijklmnopqrstu.")
HASHES = (
    b"ann:"
    + MD5CRYPT
    + b"\nbob:"
    + SHA512CRYPT
    + b":1000:1000::/home/bob\neve:!"
    + MD5CRYPT
    + b"\n"
)
OLD = b"ann:" + SHA512CRYPT + b"\n"
ACCEPT_REMOVALS = "--accept-removals"
ACCEPT_OTHERS = "--accept-other-schemes"
BASE64 = b"7ynoyL9XN1Ol2E6qOpoGbBvdFsGTFwmO"  # of a digest of SHA-1, and a salt of four bytes
SALTED_SHA512 = base64.b64encode(hashlib.sha512(b"passwordsalt").digest() + b"salt")
ARGON2 = b"$argon2id$v=19$m=65536,t=3,p=4$c2FsdHNhbHQ$" + b"x" * 43
OWNER, GROUP, MODE = 65534, 4242, 0o640
FILES_LEFT = ["hashes", "target", "target.mkpasswd.lock"]  # the lock stays for later runs
# The command that bin/pwhash runs, so that strace counts only the calls from here on.
START = ("/usr/bin/python3", "-I", "-S", str(PACKAGE / "pwhash/start.py"), str(LIBRARY), "pwhash")


def file_names() -> list[str]:
    """Returns the names of the files in the current folder."""
    return sorted(path.name for path in Path().iterdir())


def rights_of(path: str) -> tuple[int, int, int]:
    """Returns the mode, the owner and the group of a file."""
    status = os.stat(path)
    return stat.S_IMODE(status.st_mode), status.st_uid, status.st_gid


# ---- An existing file


@pytest.mark.needs("root")
def test_an_existing_target_gets_the_lines_and_keeps_owner_and_mode() -> None:
    save("hashes", HASHES)
    save("target", OLD)
    os.chown("target", OWNER, GROUP)
    os.chmod("target", MODE)
    os.setxattr("target", "trusted.other", b"value")
    done = pwhash(*INSTALL)
    assert (done.status, done.out, read("target"), file_names()) == (
        0,
        b"",
        HASHES,
        FILES_LEFT,
    ), done
    assert rights_of("target") == (MODE, OWNER, GROUP)
    assert os.getxattr("target", "trusted.other") == b"value"
    assert read("hashes") == HASHES


@pytest.mark.parametrize("mark", [b"!", b"!!", b"*"])
def test_names_that_are_locked_in_target_stay_locked(mark: bytes) -> None:
    save("hashes", HASHES)
    save("target", b"cid:" + SHA512CRYPT + b"\nbob:" + mark + b"old:7\n")
    done = pwhash(*INSTALL, ACCEPT_REMOVALS)
    expected = HASHES.replace(b"bob:", b"bob:!")
    assert (done.status, read("target")) == (0, expected), done
    assert b"stay locked, as they were: bob." in done.err, done


@pytest.mark.parametrize(
    "line",
    [
        pytest.param(b"#bob:old\n", id="at once"),
        pytest.param(b"# bob:old\n", id="after a blank"),
        pytest.param(b"##bob:!\n", id="after two signs"),
        pytest.param(b"#\tbob:old\n", id="after a tab"),
        pytest.param(b"# left in May bob :old\n", id="after a remark"),
        pytest.param(b"# left: bob:" + MD5CRYPT + b"\n", id="after a remark with a colon"),
        pytest.param(b"# out: !!! bob:" + MD5CRYPT + b"\n", id="after marks in a remark"),
        pytest.param(b"#left,bob: " + MD5CRYPT + b"\n", id="after a comma"),
        pytest.param(b"#-bob:" + MD5CRYPT + b"\n", id="after a minus"),
        pytest.param(b"#//bob:" + MD5CRYPT + b"\n", id="after two slashes"),
        pytest.param(b"#;bob:" + MD5CRYPT + b"\n", id="after a semicolon"),
        pytest.param(b'#"bob":' + MD5CRYPT + b"\n", id="in quotes"),
        pytest.param("#\u201ebob\u201c:x\n".encode(), id="in German quotes"),
        pytest.param(b"#bob:" + MD5CRYPT, id="at the end of the file"),
    ],
)
def test_names_that_are_commented_out_in_target_stay_out(line: bytes) -> None:
    comments = b"# our users: see the wiki\n" + line
    save("hashes", HASHES)
    save("target", OLD + comments)
    done = pwhash(*INSTALL)
    expected = comments.rstrip(b"\n") + b"\n" + HASHES.replace(b"bob:", b"bob:!")
    assert (done.status, read("target")) == (0, expected), done
    assert b"stay locked, as they were: bob." in done.err, done


@pytest.mark.parametrize(
    ("comment", "names", "locked"),
    [
        pytest.param(b"#ann smith:", (b"ann smith", b"bob"), b"ann smith", id="a blank in it"),
        pytest.param(b"#ann smith:", (b"smith", b"ann smith"), b"ann smith", id="only the longest"),
        pytest.param(b"#j\xf6rg:", (b"j\xf6rg", b"bob"), b"j\xf6rg", id="not UTF-8"),
        pytest.param(b"#_bob:", (b"bob", b"_bob"), b"_bob", id="a sign that it begins with"),
        pytest.param(b"#bob:", (b"bob", b"ob", b"b"), b"bob", id="not in a word"),
        pytest.param(b"#joann:", (b"ann", b"bob"), b"", id="at the end of another"),
        pytest.param(b"#jo-ann:", (b"ann", b"bob"), b"", id="after a hyphen of another"),
        pytest.param(b"#eva@example.org:", (b"example.org", b"org"), b"", id="a domain"),
        pytest.param(b"# managed by bob", (b"bob", b"ann"), b"", id="prose without a colon"),
    ],
)
def test_a_comment_locks_the_longest_name_that_stands_before_a_colon(
    comment: bytes, names: tuple[bytes, ...], locked: bytes
) -> None:
    line = comment + (MD5CRYPT if comment.endswith(b":") else b"") + b"\n"
    save("hashes", b"".join(name + b":" + MD5CRYPT + b"\n" for name in names))
    save("target", line)
    done = pwhash(*INSTALL)
    marks = {name: b"!" if name == locked else b"" for name in names}
    expected = [name + b":" + marks[name] + MD5CRYPT + b"\n" for name in names]
    assert (done.status, read("target")) == (0, line + b"".join(expected)), done


def test_what_follows_the_hash_of_a_commented_line_locks_nobody() -> None:
    line = b"#eva:" + MD5CRYPT + b":1000:1000:bob:/home/eva\n"
    save("hashes", b"bob:" + MD5CRYPT + b"\n")
    save("target", line)
    assert pwhash(*INSTALL).status == 0
    assert read("target") == line + b"bob:" + MD5CRYPT + b"\n"


@pytest.mark.parametrize("words", [(), (ACCEPT_REMOVALS,)], ids=["plain", "with removals"])
def test_a_commented_out_name_stays_out_after_a_file_without_it(words: tuple[str, ...]) -> None:
    line, bob = b"#ann:" + MD5CRYPT + b"\n", b"bob:" + MD5CRYPT + b"\n"
    save("target", bob + line)
    save("hashes", bob)
    done = pwhash(*INSTALL, *words)
    assert (done.status, read("target")) == (0, line + bob), done
    save("hashes", bob + b"ann:" + MD5CRYPT + b"\n")
    done = pwhash(*INSTALL, *words)
    assert (done.status, read("target")) == (0, line + bob + b"ann:!" + MD5CRYPT + b"\n"), done
    assert b"stay locked, as they were: ann." in done.err, done


def test_a_comment_beside_a_line_of_the_same_name_locks_nobody() -> None:
    save("hashes", HASHES)
    save("target", b"#bob:old\nbob:" + MD5CRYPT + b"\n")
    assert (pwhash(*INSTALL).status, read("target")) == (0, b"#bob:old\n" + HASHES)


def test_names_that_would_disappear_are_named_and_removed_only_on_demand() -> None:
    save("hashes", HASHES)
    content = b"".join(b"old%d:%b\n" % (number, MD5CRYPT) for number in range(25)) + OLD
    save("target", content)
    done = pwhash(*INSTALL)
    assert (done.status, read("target"), file_names()) == (1, content, ["hashes", "target"]), done
    assert b"old0, old1" in done.err and b"and 5 more" in done.err, done
    assert ACCEPT_REMOVALS.encode() in done.err, done
    done = pwhash(*INSTALL, ACCEPT_REMOVALS)
    assert (done.status, read("target")) == (0, HASHES), done
    assert b"old0, old1" in done.err and b"and 5 more" in done.err, done


@pytest.mark.parametrize(
    "field",
    [
        pytest.param(b"x", id="a letter"),
        pytest.param(b"disabled", id="a word"),
        pytest.param(b"LOCKED" + SHA512CRYPT, id="a word before the hash"),
        pytest.param(SHA512CRYPT[:-1], id="a truncated hash"),
        pytest.param(b"", id="nothing"),
        pytest.param(b"{CRYPT}x", id="a letter after a prefix"),
        pytest.param(b"{SSHA}x", id="a letter after a prefix of another scheme"),
        pytest.param(b"{SSHA}", id="a prefix of another scheme"),
        pytest.param(b"{DISABLED}", id="an unknown prefix"),
        pytest.param(b"{PLAIN}!Secret", id="a plain password, or a locked one"),
    ],
)
def test_nobody_is_let_in_whom_target_may_keep_out(field: bytes) -> None:
    save("hashes", HASHES)
    content = OLD + b"bob:" + field + b":7\n"
    save("target", content)
    done = pwhash(*INSTALL)
    assert (done.status, read("target"), file_names()) == (1, content, ["hashes", "target"]), done
    assert b"bob" in done.err and b"ann" not in done.err and b"--delete" in done.err, done
    shown = done.err.replace(b"fix", b"")  # the message's own word, whose x could be the field
    assert not field or field not in shown, done
    assert pwhash("set", "--delete", "target", "bob").status == 0
    done = pwhash(*INSTALL)
    assert (done.status, read("target")) == (0, HASHES), done


def test_a_name_that_is_locked_in_hashes_may_replace_one_that_target_may_keep_out() -> None:
    save("hashes", HASHES.replace(b"bob:", b"bob:!"))
    save("target", OLD + b"bob:disabled\n")
    done = pwhash(*INSTALL)
    assert (done.status, read("target")) == (0, HASHES.replace(b"bob:", b"bob:!")), done


def test_further_fields_of_a_line_stay_unless_hashes_has_others() -> None:
    hashes = (
        b"ann:"
        + MD5CRYPT
        + b"\nbob:"
        + SHA512CRYPT
        + b":1:1\ncid:"
        + MD5CRYPT
        + b":\neve:"
        + MD5CRYPT
        + b"\n"
    )
    save("hashes", hashes)
    fields = b":1000:1000::/home/ann::userdb_mail=maildir:~/Maildir"
    save(
        "target",
        b"ann:"
        + SHA512CRYPT
        + fields
        + b"\nbob:!"
        + SHA512CRYPT
        + b":7:7\ncid:"
        + SHA512CRYPT
        + b"::7\n",
    )
    done = pwhash(*INSTALL)
    expected = b"ann:" + MD5CRYPT + fields + b"\nbob:!" + SHA512CRYPT + b":1:1\n"
    expected += b"cid:" + MD5CRYPT + b"::7\neve:" + MD5CRYPT + b"\n"
    assert (done.status, read("target")) == (0, expected), done


@pytest.mark.parametrize(
    ("option", "value", "command"),
    [
        pytest.param("--owner", "1", b"chown", id="owner"),
        pytest.param("--group", "1", b"chgrp", id="group"),
        pytest.param("--mode", "600", b"chmod", id="mode"),
    ],
)
def test_another_owner_group_or_mode_for_an_existing_file_is_refused(
    option: str, value: str, command: bytes
) -> None:
    save("hashes", HASHES)
    save("target", OLD)
    os.chmod("target", MODE)
    done = pwhash(*INSTALL, option, value)
    assert (done.status, read("target")) == (2, OLD) and command in done.err, done


def test_the_files_own_owner_group_and_mode_are_accepted() -> None:
    save("hashes", HASHES)
    save("target", OLD)
    os.chmod("target", MODE)
    own = ("--owner", str(os.geteuid()), "--group", str(os.stat("target").st_gid), "--mode", "640")
    done = pwhash(*INSTALL, *own)
    assert (done.status, read("target")) == (0, HASHES), done


# ---- A new file


def test_a_new_target_is_readable_by_its_owner_alone() -> None:
    save("hashes", HASHES)
    done = pwhash(*INSTALL)
    assert (done.status, read("target"), file_names()) == (0, HASHES, FILES_LEFT), done
    assert rights_of("target") == (0o600, os.geteuid(), os.getegid())


@pytest.mark.needs("root")
@pytest.mark.parametrize("is_named", [True, False], ids=["names", "numbers"])
def test_a_new_target_has_the_given_owner_group_and_mode(is_named: bool) -> None:
    save("hashes", HASHES)
    user, group = pwd.getpwnam("daemon").pw_uid, grp.getgrnam("games").gr_gid
    given = ("daemon", "games") if is_named else (str(user), str(group))
    done = pwhash(*INSTALL, "--owner", given[0], "--group", given[1], "--mode", "0640")
    assert (done.status, read("target")) == (0, HASHES), done
    assert rights_of("target") == (0o640, user, group)
    assert rights_of("target.mkpasswd.lock") == (0o600, user, group)


def test_a_last_line_without_a_line_feed_gets_one() -> None:
    save("hashes", HASHES[:-1])
    done = pwhash(*INSTALL)
    assert (done.status, read("target")) == (0, HASHES), done


@pytest.mark.parametrize(
    "words",
    [
        pytest.param(("--owner", "nobody-of-this-name"), id="an unknown user"),
        pytest.param(("--group", "nobody-of-this-name"), id="an unknown group"),
        pytest.param(("--owner", "99999999999"), id="a number that is too large"),
        pytest.param(("--owner", "4294967295"), id="the number by which chown changes nothing"),
        pytest.param(("--group", "4294967295"), id="the same for the group"),
        pytest.param(("--owner", "-1"), id="a negative number"),
        pytest.param(("--mode", "666"), id="a mode by which others can write"),
        pytest.param(("--mode", "755"), id="a program"),
        pytest.param(("--mode", "u=rw"), id="a mode in letters"),
        pytest.param(("--mode", "4600"), id="the setuid bit"),
    ],
)
def test_an_invalid_owner_group_or_mode_is_refused(words: tuple[str, ...]) -> None:
    save("hashes", HASHES)
    done = pwhash(*INSTALL, *words)
    assert (done.status, file_names()) == (2, ["hashes"]), done


# ---- Refused lines


@pytest.mark.parametrize(
    ("line", "reason", "words"),
    [
        pytest.param(b"eva:" + HOSTILE, b"over budget", "", id="a hash that stalls a login"),
        pytest.param(b"eva:" + SHA512CRYPT[:-1], b"dead", "", id="a truncated hash"),
        pytest.param(b"eva:secret", b"no scheme", "", id="a plain password"),
        pytest.param(b"eva:", b"empty field", "", id="an empty field"),
        pytest.param(b"eva:" + BCRYPT, b"--accept-other-schemes", "", id="another scheme"),
        pytest.param(b"eva:{SSHA}" + BASE64, b"--accept-other-schemes", "", id="an LDAP hash"),
        pytest.param(b"eva:{PLAIN}secret", b"prefix", "", id="a prefix for plain passwords"),
        pytest.param(b"eva:{PLAIN}secret", b"prefix", ACCEPT_OTHERS, id="a plain one, with others"),
        pytest.param(b"eva:{CLEARTEXT}secret", b"prefix", ACCEPT_OTHERS, id="LDAP's, with others"),
        pytest.param(b"eva:secret", b"no scheme", ACCEPT_OTHERS, id="a bare one, with others"),
        pytest.param(b"eva:{SSHA}", b"empty", ACCEPT_OTHERS, id="a prefix alone, with others"),
        pytest.param(b"eva:{SSHA}x", b"by its form", ACCEPT_OTHERS, id="no digest, with others"),
        pytest.param(
            b"eva:{SHA}hunter2", b"by its form", ACCEPT_OTHERS, id="a password, with others"
        ),
        pytest.param(b"eva:{MD5}" + BASE64, b"by its form", ACCEPT_OTHERS, id="another length"),
        pytest.param(
            b"eva:{ARGON2ID}hunter2", b"by its form", ACCEPT_OTHERS, id="no argon2, with others"
        ),
        pytest.param(
            b"eva:{BLF-CRYPT}" + BCRYPT[:-1],
            b"by its form",
            ACCEPT_OTHERS,
            id="cut behind a prefix",
        ),
        pytest.param(
            b"eva:$ecret$secret", b"by its form", ACCEPT_OTHERS, id="a dollar sign, with others"
        ),
        pytest.param(
            b"eva:$9$secret", b"by its form", ACCEPT_OTHERS, id="another number, with others"
        ),
        pytest.param(
            b"eva:$2b$secret", b"by its form", ACCEPT_OTHERS, id="bcrypt's sign, with others"
        ),
        pytest.param(
            b"eva:" + BCRYPT[:-1], b"by its form", ACCEPT_OTHERS, id="cut bcrypt, with others"
        ),
        pytest.param(
            b"eva:" + BCRYPT + b"x", b"by its form", ACCEPT_OTHERS, id="longer, with others"
        ),
        pytest.param(b"eva:" + YESCRYPT[:-9], b"by its form", ACCEPT_OTHERS, id="cut yescrypt"),
        pytest.param(
            b"eva:secretsecrets", b"by its form", ACCEPT_OTHERS, id="13 letters, with others"
        ),
        pytest.param(
            b"eva:{CRYPT}$ecret", b"by its form", ACCEPT_OTHERS, id="after {CRYPT}, with others"
        ),
        pytest.param(
            b"eva:" + HOSTILE, b"over budget", ACCEPT_OTHERS, id="a costly one, with others"
        ),
        pytest.param(
            b"eva:" + SHA512CRYPT[:-1], b"dead", ACCEPT_OTHERS, id="a truncated one, with others"
        ),
        pytest.param(
            b"eva:{SSHA}" + BASE64,
            b"prefix",
            f"{ACCEPT_OTHERS} --for apache",
            id="{SSHA} for Apache",
        ),
        pytest.param(
            b"eva:{CRYPT}" + BCRYPT, b"prefix", f"{ACCEPT_OTHERS} --for nginx", id="for nginx"
        ),
        pytest.param(
            b"eva:{MD5-CRYPT}" + BCRYPT, b"another method", ACCEPT_OTHERS, id="unfit, bcrypt"
        ),
        pytest.param(b"eva:{CRYPT}" + MD5CRYPT, b"prefix", "--for nginx", id="a prefix for nginx"),
        pytest.param(
            b"eva:{MD5-CRYPT}" + SHA512CRYPT, b"another method", "", id="the wrong prefix"
        ),
        pytest.param(b"eva:{CRYPT}" + HOSTILE, b"over budget", "", id="after a prefix"),
        pytest.param(b"eva:" + MD5CRYPT + b"\r", b"carriage return", "", id="a line from Windows"),
        pytest.param(b"ann:" + MD5CRYPT, b"after line 1", "", id="a repeated name"),
        pytest.param(b":" + MD5CRYPT, b"no name", "", id="no name"),
        pytest.param(b"", b"no name", "", id="an empty line"),
        pytest.param(b"secret", b"no colon", "", id="no colon"),
        pytest.param(b"#eva:" + MD5CRYPT, b"begins with #", "", id="a comment"),
        pytest.param(b"eva\x01:" + MD5CRYPT, b"invisible", "", id="a control character"),
        pytest.param(b" eva:" + MD5CRYPT, b"blank", "", id="a leading blank"),
        pytest.param(b"Eva:" + MD5CRYPT, b"another, or skips", "--for dovecot", id="for Dovecot"),
        pytest.param(b"e va:" + MD5CRYPT, b"another, or skips", "--for ldap", id="for LDAP"),
        pytest.param(
            b"eva:" + MD5CRYPT + b":" * 2048, b"too long", "", id="a line that is too long"
        ),
        pytest.param(
            b"eva:" + SHA512CRYPT, b"over budget", "--budget 1000", id="over the budget given"
        ),
    ],
)
def test_a_wrong_line_is_named_and_nothing_is_installed(
    line: bytes, reason: bytes, words: str
) -> None:
    save("hashes", HASHES + line + b"\n")
    save("target", OLD)
    done = pwhash(*INSTALL, *words.split())
    assert (done.status, read("target"), file_names()) == (1, OLD, ["hashes", "target"]), done
    assert b"hashes, line 4" in done.err and reason in done.err, done
    assert b"secret" not in done.err and b"\x01" not in done.err, done


@pytest.mark.parametrize("words", ["", "--for dovecot"])
def test_a_hash_after_a_prefix_is_installed(words: str) -> None:
    content = b"ann:{CRYPT}" + MD5CRYPT + b"\nbob:{SHA512-CRYPT}" + SHA512CRYPT + b"\n"
    save("hashes", content)
    done = pwhash(*INSTALL, *words.split())
    assert (done.status, read("target")) == (0, content), done


@pytest.mark.parametrize(
    ("stored", "words"),
    [
        pytest.param(BCRYPT, "--for apache", id="bcrypt for Apache"),
        pytest.param(BCRYPT.replace(b"$2b$", b"$2y$"), "--for nginx", id="bcrypt of htpasswd"),
        pytest.param(b"$apr1$saltsalt$" + b"x" * 22, "--for apache", id="Apache's"),
        pytest.param(YESCRYPT, "", id="yescrypt"),
        pytest.param(YESCRYPT.replace(b"$y$", b"$gy$"), "", id="gost-yescrypt"),
        pytest.param(ARGON2, "", id="argon2"),
        pytest.param(crypt(b"password", b"$sha1$1000$saltsalt"), "", id="NetBSD's"),
        pytest.param(b"{CRYPT}" + BCRYPT, "--for dovecot", id="bcrypt after a prefix"),
        pytest.param(b"{SHA}fEqNCco3Yq9h5ZUglD3CZJT4lBs=", "--for apache", id="{SHA} for Apache"),
        pytest.param(b"{SSHA}" + BASE64, "--for nginx", id="{SSHA} for nginx"),
        pytest.param(b"{ssha512}" + SALTED_SHA512, "--for dovecot", id="{ssha512} for Dovecot"),
        pytest.param(b"{BLF-CRYPT}" + BCRYPT, "--for dovecot", id="Dovecot's prefix for bcrypt"),
        pytest.param(b"{ARGON2ID}" + ARGON2, "--for dovecot", id="argon2 for Dovecot"),
    ],
)
def test_a_hash_of_another_scheme_is_installed_if_others_are_accepted(
    stored: bytes, words: str
) -> None:
    content = HASHES + b"eva:" + stored + b"\n"
    save("hashes", content)
    done = pwhash(*INSTALL, *words.split())
    assert done.status == 1 and b"--accept-other-schemes" in done.err, done
    assert file_names() == ["hashes"], done
    done = pwhash(*INSTALL, ACCEPT_OTHERS, *words.split())
    assert (done.status, read("target")) == (0, content), done


def test_other_problems_give_no_advice_to_accept_other_schemes() -> None:
    save("hashes", HASHES + b"eva:secret\n")
    done = pwhash(*INSTALL)
    assert done.status == 1 and b"--accept-other-schemes" not in done.err, done


def test_only_some_of_many_wrong_lines_are_shown() -> None:
    save("hashes", b"".join(b"user%d:x\n" % number for number in range(1000)))
    done = pwhash(*INSTALL)
    assert done.status == 1 and b"1,000 of 1,000 lines" in done.err, done
    assert done.err.count(b"\n") == 20 + 1, done  # the lines that are shown, and a summary


@pytest.mark.parametrize(
    ("content", "status"),
    [
        pytest.param(None, 3, id="missing"),
        pytest.param(b"", 2, id="empty"),
        pytest.param(b"ann:" + SHA512CRYPT + b":19000:0:99999:7:::\n", 2, id="of shadow"),
    ],
)
def test_a_file_without_hashes_is_refused(content: bytes | None, status: int) -> None:
    if content is not None:
        save("hashes", content)
    save("target", OLD)
    done = pwhash(*INSTALL)
    assert (done.status, read("target")) == (status, OLD), done


# ---- Refused targets


def test_a_link_is_refused_and_its_target_is_named() -> None:
    save("hashes", HASHES)
    save("other", OLD)
    os.symlink("other", "target")
    done = pwhash(*INSTALL)
    assert (done.status, read("other")) == (2, OLD), done
    assert os.path.realpath("other").encode() in done.err, done


def test_a_link_to_nothing_is_refused() -> None:
    save("hashes", HASHES)
    os.symlink("other", "target")
    done = pwhash(*INSTALL)
    assert (done.status, file_names()) == (2, ["hashes", "target"]), done


def test_the_input_file_is_refused_as_target() -> None:
    save("hashes", HASHES)
    done = pwhash("install", "hashes", "./hashes")
    assert (done.status, file_names()) == (2, ["hashes"]), done


@pytest.mark.parametrize("has_target", [True, False], ids=["a file", "a new file"])
def test_a_folder_that_others_can_write_is_refused(has_target: bool) -> None:
    os.mkdir("folder")
    save("hashes", HASHES)
    if has_target:
        save("folder/target", OLD)
    os.chmod("folder", 0o777)
    done = pwhash("install", "hashes", "folder/target")
    assert done.status == 2 and b"others can write" in done.err, done
    expected = ["target"] if has_target else []
    assert os.listdir("folder") == expected


@pytest.mark.parametrize(
    ("content", "reason"),
    [
        pytest.param(b"auth_basic Members;\n", b"no colon", id="a configuration"),
        pytest.param(
            b"# list: of\n\nann:" + SHA512CRYPT + b"\nbob\n",
            b"no colon",
            id="a line without a colon",
        ),
        pytest.param(b"\x7fELF\0\0\n\xff", b"no colon", id="a program"),
        pytest.param(b"ann: " + SHA512CRYPT + b"\n", b"blank", id="YAML"),
        pytest.param(b"users:\n  ann:" + SHA512CRYPT + b"\n", b"blank", id="indented YAML"),
        pytest.param(b"users:x:100:ann,bob\n", b"no line with a hash", id="a file of groups"),
        pytest.param(b"color:red\nann:\n", b"no line with a hash", id="another configuration"),
    ],
)
def test_a_file_that_holds_no_passwords_is_not_replaced(content: bytes, reason: bytes) -> None:
    save("hashes", HASHES)
    save("target", content)
    done = pwhash(*INSTALL, ACCEPT_REMOVALS)
    assert (done.status, done.out) == (2, b"") and reason in done.err, done
    assert read("target") == content and file_names() == ["hashes", "target"], done


@pytest.mark.parametrize(
    ("content", "kept"),
    [
        pytest.param(b"", b"", id="none"),
        pytest.param(b"\n", b"", id="a blank line"),
        pytest.param(b"# none yet\n", b"# none yet\n", id="a comment"),
        pytest.param(OLD + b" \n", b"", id="a line, and a blank one"),
    ],
)
def test_a_password_file_of_few_lines_is_replaced(content: bytes, kept: bytes) -> None:
    save("hashes", HASHES)
    save("target", content)
    done = pwhash(*INSTALL)
    assert (done.status, read("target")) == (0, kept + HASHES), done


def test_a_copy_of_shadow_is_refused_by_its_nine_fields() -> None:
    shadow = b"ann:!:19000:0:99999:7:::\n"
    save("hashes", HASHES)
    save("target", shadow)
    done = pwhash(*INSTALL)
    assert (done.status, read("target")) == (2, shadow) and b"chpasswd(8)" in done.err, done


@pytest.mark.parametrize("name", ["passwd", "shadow", "gshadow-", "group", "subuid", "subgid-"])
def test_a_file_of_the_system_is_not_created_in_any_root(name: str) -> None:
    os.makedirs("root/etc")
    save("hashes", HASHES)
    done = pwhash("install", "hashes", f"root/etc/{name}")
    assert done.status == 2 and b"chpasswd(8)" in done.err, done
    assert os.listdir("root/etc") == []


def test_the_systems_own_file_is_refused() -> None:
    save("hashes", HASHES)
    script = """
        mkdir etc
        mount -t tmpfs -o mode=755 none etc
        cp -p /etc/passwd /etc/group /etc/ld.so.cache etc
        echo ann:x > etc/shadow
        mount --bind etc /etc
        if "$@"; then exit 9; fi
        [ "$(cat /etc/shadow)" = ann:x ]
    """
    done = in_namespace(script, "install", "hashes", "/etc/shadow")
    assert done.status == 0 and b"chpasswd(8)" in done.err, done


# ---- Simultaneous runs, kills and failures


def test_after_simultaneous_runs_one_whole_file_remains() -> None:
    contents = {}
    for first in range(8):
        users = range(first, first + 5000)
        contents[f"hashes{first}"] = b"".join(b"user%d:%b\n" % (user, MD5CRYPT) for user in users)
    for name, content in contents.items():
        save(name, content)
    with ThreadPoolExecutor(4) as pool:
        runs = [
            pool.submit(pwhash, "install", ACCEPT_REMOVALS, name, "target") for name in contents
        ]
    ends = [run.result() for run in runs]
    # If several runs find no file, one of them creates it and the others fail.
    assert all(done.status in (0, 3) for done in ends), "\n".join(map(str, ends))
    assert any(done.status == 0 for done in ends) and read("target") in contents.values()


def traced(inject: str) -> Ended:
    """Installs the hashes while strace injects a failure or a signal at a system call."""
    command = ["strace", "-qq", "-o", "/dev/null", "-e", f"inject={inject}", *START, *INSTALL]
    return ended(started_program(*command))


@pytest.mark.needs("strace")
@pytest.mark.parametrize(
    "call", ["flock", "fchown", "fchmod", "fsync", "linkat", "symlinkat", "renameat2", "unlinkat"]
)
@pytest.mark.parametrize("has_target", [True, False], ids=["a file", "a new file"])
def test_a_killed_installation_leaves_the_old_or_the_new_file(call: str, has_target: bool) -> None:
    save("hashes", HASHES)
    if has_target:
        save("target", OLD)
    traced(f"{call}:signal=KILL:when=1")
    if has_target or os.path.exists("target"):
        assert read("target") in (OLD, HASHES)
    done = pwhash(*INSTALL)
    assert (done.status, read("target"), file_names()) == (0, HASHES, FILES_LEFT), done


@pytest.mark.needs("strace")
@pytest.mark.parametrize(
    ("call", "error"),
    [
        pytest.param("flock", "ENOLCK", id="no lock"),
        pytest.param("fchown", "EPERM", id="no permission to set the owner"),
        pytest.param("fsync", "ENOSPC", id="a full disk"),
        pytest.param("linkat", "EACCES", id="no permission to create a name"),
    ],
)
@pytest.mark.parametrize("has_target", [True, False], ids=["a file", "a new file"])
def test_a_system_call_that_fails_installs_nothing(call: str, error: str, has_target: bool) -> None:
    save("hashes", HASHES)
    if has_target:
        save("target", OLD)
    done = traced(f"{call}:error={error}")
    assert done.status == 3 and done.err.startswith(b"pwhash: "), done
    assert os.path.exists("target") == has_target and set(file_names()) <= set(FILES_LEFT), done
    assert not has_target or read("target") == OLD


@pytest.mark.needs("strace")
@pytest.mark.parametrize("has_target", [True, False], ids=["a file", "a new file"])
def test_a_signal_while_the_file_is_written_undoes_nothing(has_target: bool) -> None:
    save("hashes", HASHES)
    if has_target:
        save("target", OLD)
    done = traced("fsync:signal=TERM:when=1")
    assert (done.status, read("target"), file_names()) == (0, HASHES, FILES_LEFT), done
    assert b"SIGTERM" in done.err, done


@pytest.mark.needs("namespaces")
@pytest.mark.parametrize("has_target", [True, False], ids=["a file", "a new file"])
def test_install_works_without_proc(has_target: bool) -> None:
    save("hashes", HASHES)
    if has_target:
        save("target", OLD)
    done = in_namespace('mount -t tmpfs none /proc; "$@"', *INSTALL)
    assert (done.status, read("target"), file_names()) == (0, HASHES, FILES_LEFT), done


@pytest.mark.needs("cc")
@pytest.mark.parametrize("has_target", [True, False], ids=["a file", "a new file"])
def test_install_works_on_a_file_system_without_o_tmpfile(has_target: bool, folder: Path) -> None:
    library = preload_library("between", folder)
    save("hashes", HASHES)
    if has_target:
        save("target", OLD)
    done = ended(started_program("env", f"LD_PRELOAD={library}", "NO_TMPFILE=1", *START, *INSTALL))
    library.unlink()
    assert (done.status, read("target"), file_names()) == (0, HASHES, FILES_LEFT), done
