"""pwhash set: how a name's line changes, while all other lines stay the same."""
from __future__ import annotations

import re

import pytest
from support.libxcrypt import crypt
from support.pwhash_runs import MD5, MD5CRYPT, at_terminal, hashed, pwhash, read, save

BCRYPT = crypt(b"password", b"$2b$04$abcdefghijklmnopqrstuu")
OLD = hashed(b"old password")
OTHERS_BEFORE = b"# a comment\n\none:x:1:2\0:\xff\n"
OTHERS_AFTER = b"ann2:!\nxann:y\nlast:z"


def in_file(line: bytes) -> bytes:
    """Returns a password file with this line among others."""
    return OTHERS_BEFORE + line + b"\n" + OTHERS_AFTER


# ---- A new password


@pytest.mark.parametrize(
    ("before", "after"),
    [
        pytest.param(b"ann:OLD", b"ann:NEW", id="a hash"),
        pytest.param(
            b"ann:OLD:1000:1000::/home/ann::x=y:z",
            b"ann:NEW:1000:1000::/home/ann::x=y:z",
            id="fields after it",
        ),
        pytest.param(b"ann:", b"ann:NEW", id="an empty field"),
        pytest.param(b"ann::5", b"ann:NEW:5", id="an empty field before others"),
        pytest.param(b"ann:a password", b"ann:NEW", id="a plain password"),
        pytest.param(b"ann:{CRYPT}OLD:7", b"ann:{CRYPT}NEW:7", id="a prefix"),
        pytest.param(b"ann:{crypt}OLD", b"ann:{crypt}NEW", id="a lower-case prefix"),
        pytest.param(b"ann:{MD5-CRYPT}OLD", b"ann:{MD5-CRYPT}NEW", id="the method's prefix"),
    ],
)
def test_a_new_password_changes_only_the_hash(before: bytes, after: bytes) -> None:
    save("passwords", in_file(before.replace(b"OLD", OLD)))
    done = pwhash("set", *MD5CRYPT, "passwords", "ann", stdin=b"password\n")
    assert (done.status, done.out) == (0, b""), done
    assert read("passwords") == in_file(after.replace(b"NEW", MD5.encode())), done


@pytest.mark.parametrize(
    ("before", "after"),
    [
        pytest.param(b"ann:!OLD", b"ann:!NEW", id="a hash"),
        pytest.param(b"ann:!!OLD:1", b"ann:!!NEW:1", id="two marks"),
        pytest.param(b"ann:!", b"ann:!NEW", id="a mark alone"),
        pytest.param(b"ann:*", b"ann:*NEW", id="a star"),
        pytest.param(b"ann:{CRYPT}!OLD", b"ann:{CRYPT}!NEW", id="a mark after a prefix"),
        pytest.param(b"ann:!{CRYPT}OLD", b"ann:!{CRYPT}NEW", id="a mark before a prefix"),
    ],
)
def test_a_new_password_unlocks_nobody(before: bytes, after: bytes) -> None:
    save("passwords", in_file(before.replace(b"OLD", OLD)))
    done = pwhash("set", *MD5CRYPT, "passwords", "ann", stdin=b"password\n")
    assert done.status == 0 and b"stays locked" in done.err, done
    assert read("passwords") == in_file(after.replace(b"NEW", MD5.encode())), done


@pytest.mark.parametrize(
    ("before", "method", "way_out"),
    [
        pytest.param(b"{SHA256-CRYPT}$5$x", b"md5crypt", b"-m sha256crypt", id="another method"),
        pytest.param(b"{SSHA}x", b"md5crypt", b"--for", id="another scheme"),
        pytest.param(b"{PLAIN}x", b"md5crypt", b"--for", id="a plain password"),
    ],
)
def test_a_prefix_that_does_not_fit_the_new_hash_is_refused(
    before: bytes, method: bytes, way_out: bytes
) -> None:
    save("passwords", in_file(b"ann:" + before))
    done = pwhash("set", *MD5CRYPT, "passwords", "ann", stdin=b"password\n")
    assert done.status == 2 and method in done.err and way_out in done.err, done
    assert read("passwords") == in_file(b"ann:" + before), done


@pytest.mark.parametrize("prefix", [b"{SHA}", b"{SSHA}", b"{PLAIN}", b"{SHA256-CRYPT}"])
@pytest.mark.parametrize(
    ("service", "new_prefix"),
    [
        pytest.param("apache", b"", id="Apache"),
        pytest.param("nginx", b"", id="nginx"),
        pytest.param("dovecot", b"{CRYPT}", id="Dovecot"),
        pytest.param("ldap", b"{CRYPT}", id="LDAP"),
    ],
)
def test_the_option_for_replaces_a_wrong_prefix(
    prefix: bytes, service: str, new_prefix: bytes
) -> None:
    save("passwords", in_file(b"ann:" + prefix + b"x:7"))
    words = ("--for", service, "passwords", "ann")
    done = pwhash("set", *MD5CRYPT, *words, stdin=b"password\n")
    expected = in_file(b"ann:" + new_prefix + MD5.encode() + b":7")
    assert (done.status, read("passwords")) == (0, expected), done


@pytest.mark.parametrize("prefix", [b"{CRYPT}", b"{crypt}", b"{MD5-CRYPT}", b""])
def test_the_option_for_keeps_a_right_prefix(prefix: bytes) -> None:
    save("passwords", in_file(b"ann:" + prefix + OLD))
    done = pwhash("set", *MD5CRYPT, "--for", "dovecot", "passwords", "ann", stdin=b"password\n")
    assert (done.status, read("passwords")) == (0, in_file(b"ann:" + prefix + MD5.encode())), done


@pytest.mark.parametrize(
    ("service", "prefix", "new_prefix"),
    [
        pytest.param("apache", b"{CRYPT}", b"", id="{CRYPT} for Apache"),
        pytest.param("nginx", b"{crypt}", b"", id="{crypt} for nginx"),
        pytest.param("nginx", b"{MD5-CRYPT}", b"", id="{MD5-CRYPT} for nginx"),
        pytest.param("ldap", b"{MD5-CRYPT}", b"{CRYPT}", id="{MD5-CRYPT} for LDAP"),
        pytest.param("ldap", b"{crypt}", b"{crypt}", id="{crypt} for LDAP, which knows it"),
    ],
)
def test_a_prefix_that_only_other_services_know_is_replaced(
    service: str, prefix: bytes, new_prefix: bytes
) -> None:
    save("passwords", in_file(b"ann:!" + prefix + OLD))
    words = ("--for", service, "passwords", "ann")
    done = pwhash("set", *MD5CRYPT, *words, stdin=b"password\n")
    expected = in_file(b"ann:!" + new_prefix + MD5.encode())
    assert (done.status, read("passwords")) == (0, expected), done


def test_for_nginx_a_new_name_gets_no_prefix() -> None:
    save("passwords", b"bob:{CRYPT}x\n")
    done = pwhash("set", *MD5CRYPT, "--for", "nginx", "passwords", "ann", stdin=b"password\n")
    assert (done.status, read("passwords")) == (0, b"bob:{CRYPT}x\nann:" + MD5.encode() + b"\n")


def test_the_option_for_keeps_a_locked_name_locked() -> None:
    save("passwords", in_file(b"ann:!{SHA}x"))
    done = pwhash("set", *MD5CRYPT, "--for", "nginx", "passwords", "ann", stdin=b"password\n")
    assert (done.status, read("passwords")) == (0, in_file(b"ann:!" + MD5.encode())), done


@pytest.mark.parametrize(
    ("service", "name"),
    [
        pytest.param("dovecot", "Ann", id="a capital for Dovecot"),
        pytest.param("ldap", "a nn", id="a blank for LDAP"),
        pytest.param("dovecot", "ann+x", id="a plus for Dovecot"),
    ],
)
def test_a_new_name_that_the_service_would_misread_is_refused(service: str, name: str) -> None:
    save("passwords", OTHERS_AFTER)
    done = pwhash("set", *MD5CRYPT, "--for", service, "passwords", name, stdin=b"password\n")
    assert (done.status, read("passwords")) == (2, OTHERS_AFTER), done
    assert service.encode() in done.err, done


@pytest.mark.parametrize(
    ("before", "after"),
    [
        pytest.param(b"", b"ann:NEW\n", id="an empty file"),
        pytest.param(b"bob:x\n", b"bob:x\nann:NEW\n", id="a whole last line"),
        pytest.param(b"bob:x", b"bob:x\nann:NEW\n", id="a last line without a line feed"),
        pytest.param(b"#ann:x\n", b"#ann:x\nann:NEW\n", id="the name in a comment"),
        pytest.param(b"bob:ann:x\n", b"bob:ann:x\nann:NEW\n", id="the name in a field"),
        pytest.param(
            b"#x\nbob:{CRYPT}x\neve:!{CRYPT}x\n",
            b"#x\nbob:{CRYPT}x\neve:!{CRYPT}x\nann:{CRYPT}NEW\n",
            id="the prefix of all others",
        ),
        pytest.param(
            b"bob:{CRYPT}x\neve:x\n",
            b"bob:{CRYPT}x\neve:x\nann:NEW\n",
            id="the prefix of some others",
        ),
        pytest.param(b"bob:{SSHA}x\n", b"bob:{SSHA}x\nann:NEW\n", id="a prefix that doesn't fit"),
    ],
)
def test_a_name_without_a_line_gets_one(before: bytes, after: bytes) -> None:
    save("passwords", before)
    done = pwhash("set", *MD5CRYPT, "passwords", "ann", stdin=b"password\n")
    assert done.status == 0 and b"ann was added" in done.err, done
    assert read("passwords") == after.replace(b"NEW", MD5.encode()), done


def test_a_name_in_utf8_gets_a_line() -> None:
    save("passwords", b"")
    done = pwhash("set", *MD5CRYPT, "passwords", "jürgen", stdin=b"password\n")
    assert done.status == 0, done
    assert read("passwords") == f"jürgen:{MD5}\n".encode()


def test_a_new_hash_has_the_recommended_cost() -> None:
    save("passwords", b"ann:x\n")
    done = pwhash("set", "passwords", "ann", stdin=b"password\n")
    found = re.fullmatch(rb"ann:(\$6\$rounds=656000\$\S+)\n", read("passwords"))
    assert done.status == 0 and found and crypt(b"password", found[1]) == found[1], done


# ---- Deleting


@pytest.mark.parametrize(
    ("before", "after"),
    [
        pytest.param(b"ann:x:1\nbob:y\n", b"bob:y\n", id="first"),
        pytest.param(b"bob:y\nann:x\n", b"bob:y\n", id="last"),
        pytest.param(b"bob:y\nann:x", b"bob:y\n", id="last, without a line feed"),
        pytest.param(b"ann:!x", b"", id="alone, and locked"),
    ],
)
def test_a_deleted_name_has_no_line(before: bytes, after: bytes) -> None:
    save("passwords", before)
    done = pwhash("set", "--delete", "passwords", "ann")
    assert (done.status, done.out) == (0, b"") and read("passwords") == after, done


@pytest.mark.parametrize("option", ["--delete", "--lock", "--unlock"])
def test_a_name_without_a_line_is_named(option: str) -> None:
    save("passwords", OTHERS_AFTER)
    done = pwhash("set", option, "passwords", "ann")
    assert (done.status, read("passwords")) == (1, OTHERS_AFTER), done
    assert b"passwords has no ann" in done.err, done


# ---- Locking


def with_hashes(line: bytes) -> bytes:
    """Returns a password file that has this line, with hashes for OLD and BCRYPT."""
    return in_file(line.replace(b"OLD", OLD).replace(b"BCRYPT", BCRYPT))


@pytest.mark.parametrize(
    ("unlocked", "locked"),
    [
        pytest.param(b"ann:OLD:1", b"ann:!OLD:1", id="a hash"),
        pytest.param(b"ann:{CRYPT}OLD", b"ann:{CRYPT}!OLD", id="a prefix"),
        pytest.param(b"ann:{SSHA}x", b"ann:{SSHA}!x", id="an LDAP hash"),
        pytest.param(b"ann:{ARGON2ID}$argon2id$x", b"ann:{ARGON2ID}!$argon2id$x", id="Argon2"),
        pytest.param(b"ann:{ssha512}YWJj", b"ann:{ssha512}!YWJj", id="Dovecot's, in small letters"),
        pytest.param(b"ann:BCRYPT", b"ann:!BCRYPT", id="bcrypt"),
    ],
)
def test_a_lock_is_undone_by_unlocking(unlocked: bytes, locked: bytes) -> None:
    before, after = with_hashes(unlocked), with_hashes(locked)
    save("passwords", before)
    done = pwhash("set", "--lock", "passwords", "ann")
    assert (done.status, read("passwords")) == (0, after), done
    done = pwhash("set", "--unlock", "passwords", "ann")
    assert (done.status, read("passwords")) == (0, before), done


@pytest.mark.parametrize(
    ("option", "field"),
    [
        pytest.param("--lock", b"!" + OLD, id="locked"),
        pytest.param("--lock", b"*", id="a star"),
        pytest.param("--lock", b"{SSHA}!x", id="a mark behind a prefix"),
        pytest.param("--lock", b"!{PLAIN}x", id="a mark in front of any prefix"),
        pytest.param("--unlock", OLD, id="unlocked"),
    ],
)
def test_locking_or_unlocking_twice_changes_nothing(option: str, field: bytes) -> None:
    content = in_file(b"ann:" + field)
    save("passwords", content)
    done = pwhash("set", option, "passwords", "ann")
    assert (done.status, read("passwords")) == (0, content), done


@pytest.mark.parametrize(
    "field",
    [
        pytest.param(b"a password", id="bare"),
        pytest.param(b"{PLAIN}secret", id="nginx"),
        pytest.param(b"{PLAIN}$1$secret", id="like a hash"),
        pytest.param(b"{PLAIN}!secret", id="like a locked field"),
        pytest.param(b"{CLEARTEXT}*secret", id="like one of Dovecot's"),
    ],
)
def test_locking_does_not_turn_a_plain_password_into_another(field: bytes) -> None:
    content = in_file(b"ann:" + field)
    save("passwords", content)
    done = pwhash("set", "--lock", "passwords", "ann")
    assert (done.status, read("passwords")) == (2, content) and b"secret" not in done.err, done


@pytest.mark.parametrize(
    "field",
    [
        pytest.param(b"!", id="nothing"),
        pytest.param(b"*", id="nothing after an asterisk"),
        pytest.param(b"!secret", id="a plain password"),
        pytest.param(b"!" + OLD[:-1], id="a truncated hash"),
        pytest.param(b"*LK*", id="a word"),
    ],
)
def test_only_a_complete_hash_is_unlocked(field: bytes) -> None:
    content = in_file(b"ann:" + field)
    save("passwords", content)
    done = pwhash("set", "--unlock", "passwords", "ann")
    assert (done.status, read("passwords")) == (2, content) and b"secret" not in done.err, done


# ---- Refusals


@pytest.mark.parametrize(
    ("name", "reason"),
    [
        pytest.param("a:b", b"colon", id="a colon"),
        pytest.param("#ann", b"#", id="a comment"),
        pytest.param("ann\n", b"control character", id="a line feed"),
        pytest.param("ann\x7f", b"control character", id="a control character"),
        pytest.param("ann\u0085", b"control character", id="a control character of Unicode"),
        pytest.param("", b"FILE NAME", id="no name"),
        pytest.param("x" * 65, b"too long", id="65 bytes"),
        pytest.param(" ann", b"blank", id="a leading blank"),
        pytest.param("ann\u200b", b"invisible", id="a zero-width space"),
    ],
)
def test_an_unsuitable_name_is_refused(name: str, reason: bytes) -> None:
    save("passwords", b"bob:x\n")
    done = pwhash("set", *MD5CRYPT, "passwords", name, stdin=b"password\n")
    assert (done.status, read("passwords")) == (2, b"bob:x\n") and reason in done.err, done


@pytest.mark.parametrize("words", [(), ("--delete",), ("--lock",)], ids=["set", "delete", "lock"])
def test_a_repeated_name_is_refused(words: tuple[str, ...]) -> None:
    content = b"ann:x\nbob:y\nann:!z\n"
    save("passwords", content)
    done = pwhash("set", *words, *MD5CRYPT, "passwords", "ann", stdin=b"password\n")
    assert (done.status, read("passwords")) == (2, content), done
    assert b"lines 1 and 3" in done.err, done


@pytest.mark.parametrize("line", [b" ann", b"\tann", b"ann "])
@pytest.mark.parametrize(
    "option",
    [
        pytest.param("--lock", id="lock"),
        pytest.param("--delete", id="delete"),
        pytest.param("-mmd5crypt", id="set"),
    ],
)
def test_a_blank_beside_the_name_is_refused(option: str, line: bytes) -> None:
    """Apache ignores a blank in front of a name, and nginx doesn't."""
    content = line + b":" + MD5.encode() + b"\nann:" + MD5.encode() + b"\n"
    save("file", content)
    done = pwhash("set", option, "file", "ann", stdin=b"password\n")
    assert (done.status, read("file")) == (2, content) and b"line 1 has a blank" in done.err, done


@pytest.mark.parametrize("words", [(), ("--delete",), ("--lock",)], ids=["set", "delete", "lock"])
def test_a_line_that_ends_with_a_carriage_return_is_refused(words: tuple[str, ...]) -> None:
    content = b"ann:" + MD5.encode() + b"\r\n"
    save("file", content)
    done = pwhash("set", *words, *MD5CRYPT, "file", "ann", stdin=b"password\n")
    assert (done.status, read("file")) == (2, content) and b"carriage return" in done.err, done


def test_a_plain_password_that_begins_with_a_mark_is_not_taken_for_a_lock() -> None:
    content = b"ann:{PLAIN}!Secret\n"
    save("file", content)
    done = pwhash("set", "--for", "dovecot", *MD5CRYPT, "file", "ann", stdin=b"password\n")
    assert (done.status, read("file")) == (2, content) and b"--delete" in done.err, done


@pytest.mark.parametrize("action", [(), ("--lock",)], ids=["set", "lock"])
def test_the_realm_of_a_file_of_htdigest_stays(action: tuple[str, ...]) -> None:
    content = b"ann:Members Area:5f4dcc3b5aa765d61d8327deb882cf99\n"
    save("digests", content)
    done = pwhash("set", *action, *MD5CRYPT, "digests", "ann", stdin=b"password\n")
    assert (done.status, read("digests")) == (2, content) and b"another file" in done.err, done


def test_no_line_is_added_to_another_file() -> None:
    save("notes", b"127.0.0.1 localhost\n")
    done = pwhash("set", *MD5CRYPT, "notes", "ann", stdin=b"password\n")
    assert (done.status, read("notes")) == (2, b"127.0.0.1 localhost\n"), done
    assert b"notes, line 1" in done.err, done


@pytest.mark.parametrize(
    "words",
    [
        pytest.param(("--lock", "--unlock"), id="two actions"),
        pytest.param(("--generate", "--delete"), id="a password for nobody"),
        pytest.param(("-R", "10"), id="too few rounds"),
        pytest.param(("ben",), id="an extra argument"),
    ],
)
def test_contradictory_arguments_are_refused(words: tuple[str, ...]) -> None:
    save("passwords", b"ann:x\n")
    done = pwhash("set", "passwords", "ann", *words, stdin=b"password\n")
    assert (done.status, read("passwords")) == (2, b"ann:x\n"), done


@pytest.mark.parametrize(
    "password",
    [
        pytest.param(b"", id="nothing"),
        pytest.param(b"secret\r\n", id="a carriage return"),
        pytest.param(b"secret\0", id="a zero byte"),
        pytest.param(b"secret" * 200, id="too long"),
        pytest.param(b"secret" * 100, id="over the limit"),
    ],
)
def test_a_password_that_is_not_hashed_changes_nothing(password: bytes) -> None:
    save("passwords", b"ann:x\n")
    done = pwhash("set", "passwords", "ann", stdin=password)
    assert (done.status, read("passwords")) == (2, b"ann:x\n"), done
    assert b"secret" not in done.err and done.out == b"", done


# ---- At a terminal

CTRL_C = b"\x03"


def test_a_password_is_asked_for_twice() -> None:
    save("passwords", b"ann:x\n")
    terminal = at_terminal(("set", *MD5CRYPT, "passwords", "ann"), [b"secret\r", b"secret\r"])
    assert terminal.status == 0 and b"secret" not in terminal.screen, terminal
    assert read("passwords") == b"ann:" + hashed(b"secret") + b"\n", terminal


def test_two_passwords_that_differ_change_nothing() -> None:
    save("passwords", b"ann:x\n")
    terminal = at_terminal(("set", *MD5CRYPT, "passwords", "ann"), [b"secret\r", b"other\r"])
    assert (terminal.status, read("passwords")) == (2, b"ann:x\n"), terminal


def test_a_new_name_is_shown_before_its_password_is_asked_for() -> None:
    save("passwords", b"ann:x\n")
    terminal = at_terminal(("set", *MD5CRYPT, "passwords", "anm"), [CTRL_C])
    assert b"passwords has no anm" in terminal.screen, terminal
    assert read("passwords") == b"ann:x\n", terminal


def test_no_line_is_said_to_be_added_for_a_password_over_the_budget() -> None:
    save("passwords", b"ann:x\n")
    done = pwhash("set", "passwords", "eve", stdin=b"x" * 169 + b"\n")
    assert (done.status, read("passwords")) == (2, b"ann:x\n"), done
    assert b"passwords has no eve yet: this would add a line." in done.err, done
    assert b"over budget" in done.err and b"added" not in done.err, done


def test_a_generated_password_is_shown_and_set() -> None:
    save("passwords", b"ann:x\n")
    terminal = at_terminal(("set", "--generate", *MD5CRYPT, "passwords", "ann"), [])
    password = re.search(rb"shown only here: (\w{20})\r", terminal.screen)
    assert terminal.status == 0 and password, terminal
    assert read("passwords") == b"ann:" + hashed(password[1]) + b"\n", terminal


def test_no_password_is_generated_without_a_terminal() -> None:
    save("passwords", b"ann:x\n")
    done = pwhash("set", "--generate", *MD5CRYPT, "passwords", "ann")
    assert (done.status, read("passwords")) == (3, b"ann:x\n"), done
