"""pwhash verify says yes (status 0) or no (status 1) for complete hashes, and otherwise neither.

The tests make their hashes with libxcrypt.
"""
from __future__ import annotations

import os
import signal

import pytest
from support.pwhash_copies import Copy
from support.pwhash_runs import (
    BOM,
    MD5,
    Ended,
    at_terminal,
    hashed,
    least_seconds,
    pwhash,
    read,
    save,
    seconds_to_end,
    shell,
    started,
    wait_for,
    working_threads,
)

YES, NO = b"yes, the password matches\n", b"no, the password doesn't match\n"
SETTINGS = [
    pytest.param("$1$saltsalt", id="md5crypt"),
    pytest.param("$5$rounds=1000$saltsalt", id="sha256crypt"),
    pytest.param("$6$rounds=1000$saltsalt", id="sha512crypt"),
    pytest.param("$7$BU..../....saltsalt", id="scrypt"),
]
SECRET = b"TopSecret"
HASH = hashed(SECRET)
MD5_SETTING, MD5_DIGEST = MD5[:12].encode(), MD5[12:].encode()
CTRL_C, CTRL_D = b"\x03", b"\x04"
COSTLY = b"$6$rounds=999999999$saltsalt$" + b"x" * 85 + b"."
FIELDS = [
    pytest.param(MD5[:-1].encode(), b"cut or changed", id="a truncated hash"),
    pytest.param(MD5[:-1].encode() + b"z", b"cut or changed", id="a changed hash"),
    pytest.param(b"$1$xxxxxxxx$", b"cut or changed", id="a setting"),
    pytest.param(b"", b"empty", id="nothing"),
    pytest.param(b"!", b"locked", id="a lock"),
    pytest.param(b"!" + MD5.encode(), b"locked", id="a locked hash"),
    pytest.param(b"*", b"locked", id="a star"),
    pytest.param(b"{CRYPT}!" + MD5.encode(), b"locked", id="a lock after Dovecot's prefix"),
    pytest.param(b"!{CRYPT}" + MD5.encode(), b"locked", id="a lock before Dovecot's prefix"),
    pytest.param(b"*0", b"locked", id="crypt's token for a failure"),
    pytest.param(b"$y$j9T$abcdefghijklmnopqrstu.$abc", b"yescrypt", id="yescrypt"),
    pytest.param(b"$2y$05$" + b"a" * 53, b"bcrypt", id="bcrypt"),
    pytest.param(b"$apr1$xxxxxxxx$UYCIxa628.9qXjpQCjM4a.", b"another scheme", id="Apache's"),
    pytest.param(b"{SSHA}" + b"a" * 28, b"another scheme", id="LDAP's"),
    pytest.param(b"TopSecret", b"stored as it is", id="the plain password"),
    pytest.param(b"x", b"stored as it is", id="the field of /etc/passwd"),
    pytest.param(b"$6$rounds=12x$salt$abc", b"bad rounds", id="rounds that aren't a number"),
    pytest.param(MD5.encode() + b"$", b"cut or changed", id="more than a hash"),
    pytest.param(COSTLY, b"over budget", id="a hostile hash"),
]


def ann_in_file(field: bytes) -> None:
    """Saves a file in which Ann has this field, among names that resemble hers."""
    save("file", b"an:" + MD5.encode() + b"\nann:" + field + b":1:::\nanna:!\n")


# ---- Yes and no


@pytest.mark.parametrize("setting", SETTINGS)
def test_a_password_is_compared_with_the_second_line(setting: str) -> None:
    stored = hashed(SECRET, setting)
    done = pwhash("verify", stdin=SECRET + b"\n" + stored + b"\n")
    assert (done.status, done.out, done.err) == (0, YES, b""), done
    done = pwhash("verify", stdin=b"topsecret\n" + stored + b"\n")
    assert (done.status, done.out, done.err) == (1, NO, b""), done


@pytest.mark.parametrize("setting", SETTINGS)
def test_a_password_is_compared_with_the_hash_of_a_name(setting: str) -> None:
    ann_in_file(hashed(SECRET, setting))
    done = pwhash("verify", "file", "ann", stdin=SECRET + b"\n")
    assert (done.status, done.out, done.err) == (0, YES, b""), done
    done = pwhash("verify", "file", "ann", stdin=b"TopSecre\n")
    assert (done.status, done.out, done.err) == (1, NO, b""), done


@pytest.mark.parametrize(
    "password",
    [
        pytest.param(b"", id="nothing"),
        pytest.param(b" blanks ", id="blanks"),
        pytest.param(b"with\r", id="a carriage return"),
        pytest.param(b"Gr\xfc\xdfe", id="no UTF-8"),
        pytest.param(b"ann:x", id="a colon"),
        pytest.param(b"x" * 168, id="the longest that a login accepts"),
    ],
)
def test_a_password_is_compared_as_it_is(password: bytes) -> None:
    stored = hashed(password, "$6$rounds=1000$saltsalt")
    ann_in_file(stored)
    assert pwhash("verify", "file", "ann", stdin=password + b"\n").status == 0
    assert pwhash("verify", stdin=password + b"\n" + stored).status == 0
    assert pwhash("verify", stdin=password + b"x\n" + stored).status == 1


@pytest.mark.parametrize(
    "scheme", [b"{CRYPT}", b"{crypt}", b"{SHA512-CRYPT}", b"{SHA256-CRYPT}", b"{MD5-CRYPT}"]
)
def test_a_scheme_may_precede_the_hash(scheme: bytes) -> None:
    ann_in_file(scheme + MD5.encode())
    assert pwhash("verify", "file", "ann", stdin=b"password\n").status == 0
    assert pwhash("verify", stdin=b"password\n" + scheme + MD5.encode()).status == 0
    done = pwhash("verify", stdin=b"password\n" + scheme * 2 + MD5.encode())
    assert done.status == 2 and b"another scheme" in done.err, done


# What people paste. FIRST and REST are the two parts of a hash.
PASTED = [
    pytest.param(b" FIRSTREST", id="a leading blank"),
    pytest.param(b"FIRSTREST \t\r", id="trailing blanks"),
    pytest.param("\u00a0FIRSTREST\u200b".encode(), id="invisible characters from a mail"),
    pytest.param(b"\n  \nFIRSTREST\n", id="leading line breaks"),
    pytest.param(b"FIRST\nREST", id="a line break within"),
    pytest.param(b"FIRST\r\n    REST\r\n\r\n", id="lines from Windows, and blanks"),
    pytest.param(b'"FIRSTREST"', id="quotes"),
    pytest.param(b"ann:FIRSTREST", id="a line from htpasswd"),
    pytest.param(b"ann:FIRSTREST:19000:0:99999:7:::\n", id="a line from shadow"),
    pytest.param(b"ann:FIRST\nREST:19000:\n0:99999:7:::", id="a line from shadow with line breaks"),
    pytest.param(b'password: "FIRSTREST"', id="a line from Ansible"),
    pytest.param(b"ann:{CRYPT}FIRST\n REST", id="a prefix"),
    pytest.param(b"password-hash: FIRSTREST", id="a key of an installer"),
    pytest.param(
        b"d-i passwd/user-password-crypted password FIRSTREST", id="a line for Debian's installer"
    ),
    pytest.param(b"rootpw --iscrypted FIRSTREST", id="a line for Kickstart"),
    pytest.param(b"user --name=ann --password=FIRSTREST --iscrypted", id="a user of Kickstart"),
    pytest.param(b"    passwd: 'FIRSTREST'  # of ann", id="YAML with a comment"),
    pytest.param(b'  "passwordHash": "FIRSTREST",', id="JSON"),
    pytest.param(b'hashedPassword = "FIRSTREST";', id="a line of Nix"),
    pytest.param(b"--password-hash='FIRSTREST'", id="an option"),
    pytest.param(b"usermod -p 'FIRSTREST' ann", id="a command"),
    pytest.param(b"  - FIRSTREST", id="an entry of a list"),
    pytest.param(b"<user_password>FIRSTREST</user_password>", id="a line of AutoYaST"),
    pytest.param(b"userPassword: {CRYPT}FIRSTREST", id="a line of LDIF"),
    pytest.param(b"> > FIRST\n> > REST\n", id="a reply to an e-mail"),
    pytest.param(b"> On Tue, Bob wrote:\n> > ann:FIRSTREST\n", id="who wrote an e-mail"),
    pytest.param(
        b"On Tue, 1 Dec 2026 at 14:18, Bob <bob@example.org> wrote:\r\n> FIRST\r\n> REST",
        id="when somebody wrote an e-mail",
    ),
    pytest.param("Bob a \xe9crit\xa0:\n\n> FIRSTREST".encode(), id="who wrote it, in French"),
    pytest.param(b"the hash of ann: FIRSTREST", id="words before the hash"),
    pytest.param("\u201cFIRSTREST\u201d".encode(), id="quotes of a word processor"),
    pytest.param(b"HOST$:FIRSTREST:19000::::::", id="the account of a machine"),
]


@pytest.mark.parametrize("setting", SETTINGS)
@pytest.mark.parametrize("pasted", PASTED)
def test_a_pasted_hash_may_have_blanks_and_its_line_around_it(pasted: bytes, setting: str) -> None:
    stored = hashed(SECRET, setting)
    pasted = pasted.replace(b"FIRST", stored[:-9]).replace(b"REST", stored[-9:])
    done = pwhash("verify", stdin=SECRET + b"\n" + pasted)
    assert (done.status, done.out) == (0, YES) and done.err.count(b"\n") <= 1, done
    done = pwhash("verify", stdin=b"other\n" + pasted)
    assert (done.status, done.out) == (1, NO), done


@pytest.mark.parametrize("length", [1, 2, 3, 6, 10, 12, 16, 17, 20])
@pytest.mark.parametrize("line_break", [b"\n", b"\r\n", b"\n> "])
def test_a_line_break_may_be_within_the_setting(length: int, line_break: bytes) -> None:
    stored = hashed(SECRET, "$6$rounds=10000$saltsalt")
    pasted = b"ann:" + stored[:length] + line_break + stored[length:] + b":19000:0:99999:7:::\n"
    done = pwhash("verify", stdin=SECRET + b"\n" + pasted)
    assert (done.status, done.out) == (0, YES), done
    done = pwhash("verify", stdin=b"other\n" + pasted)
    assert (done.status, done.out) == (1, NO), done


def test_the_rest_of_a_hash_may_come_later() -> None:
    stored = hashed(SECRET, "$6$rounds=10000$saltsalt").decode()
    first, second, rest = stored[:12], stored[12:50], stored[50:]
    script = f"""
        {{
            echo TopSecret
            echo '{first}'
            sleep 0.2
            echo '{second}'
            sleep 0.2
            echo '{rest}'
        }} | "$@"
    """
    done = shell(script, "verify")
    assert (done.status, done.out) == (0, YES), done


# What is no stored hash of TopSecret, although it contains one. HASH is a hash of it.
AMBIGUOUS = [
    pytest.param(b"ann:HASH:HASH", b"more than one hash", id="two hashes"),
    pytest.param(b"HASH HASH", b"cut or changed", id="two hashes with a blank between"),
    pytest.param(b"HASH\nHASH\n", b"more than one hash", id="two lines with a hash"),
    pytest.param(b"HASH\nbob:!HASH\n", b"more than one hash", id="another user's line after it"),
    pytest.param(b"ann:x:HASH", b"stored as it is", id="a hash in another field"),
    pytest.param(b"ann:x HASH", b"stored as it is", id="a field that ends in a hash"),
    pytest.param(b"ann:xHASH", b"stored as it is", id="a letter before the hash"),
    pytest.param(b"ann HASH", b"stored as it is", id="a name without a colon"),
    pytest.param(b"ann:HASH # old:1", b"cut or changed", id="a comment in the field"),
    pytest.param(b"ann:!HASH:1", b"locked", id="a lock"),
    pytest.param(b"passwd: '!HASH'", b"locked", id="a lock in quotes"),
    pytest.param(b"ann:{CRYPT}!HASH", b"locked", id="a lock after a prefix"),
    pytest.param(b"--password='*HASH'", b"locked", id="a star in an option"),
    pytest.param(b"{CRYPT}{CRYPT}HASH", b"another scheme", id="two prefixes"),
    pytest.param(b"'HASH'x", b"cut or changed", id="a letter after the quote"),
    pytest.param(b"HASHx", b"cut or changed", id="a letter after the hash"),
]


@pytest.mark.parametrize(("pasted", "reason"), AMBIGUOUS)
def test_what_only_contains_a_hash_is_not_compared(pasted: bytes, reason: bytes) -> None:
    save("input", SECRET + b"\n" + pasted.replace(b"HASH", HASH) + b"\n")
    done = shell('"$@" < input', "verify")
    assert (done.status, done.out) == (2, b"") and reason in done.err, done
    digest = HASH.rpartition(b"$")[2]
    assert SECRET not in done.err and digest not in done.err, done


def test_pwhash_does_not_wait_for_more_after_a_complete_hash() -> None:
    """The process that writes the hash ends only after pwhash does."""
    save("input", b"password\n" + MD5.encode() + b"\n")
    script = '{ cat input; read -r end < pipe; } | { "$@" verify; echo end > pipe; }'
    done = shell(f"mkfifo pipe; {script}")
    assert (done.status, done.out, done.err) == (0, YES, b""), done


@pytest.mark.parametrize(
    ("password", "reason"),
    [
        pytest.param(b"password\r", b"carriage return", id="a carriage return"),
        pytest.param(BOM + b"password", b"byte order mark", id="a mark"),
        pytest.param(b"password ", b"blank", id="a blank"),
        pytest.param(b"pass\x1b[Dword", b"control character", id="an arrow"),
        pytest.param(b"p\xe4ssword", b"UTF-8", id="Latin-1"),
        pytest.param("pa\u0308ssword".encode(), b"NFC", id="decomposed accents"),
        pytest.param("p\xe4ssword".encode(), b"another encoding", id="an accent in UTF-8"),
    ],
)
def test_a_no_says_what_is_odd_about_the_password(password: bytes, reason: bytes) -> None:
    done = pwhash("verify", stdin=password + b"\n" + MD5.encode())
    assert (done.status, done.out) == (1, NO) and reason in done.err, done
    shown = done.err.replace(b"password", b"")  # the messages' own word
    assert b"word\n" not in done.err and b"ssword" not in shown, done


def test_ignored_lines_are_reported() -> None:
    done = pwhash("verify", stdin=b"password\n" + MD5.encode() + b"\nmore\n")
    assert (done.status, done.out) == (0, YES) and b"after the hash" in done.err, done
    ann_in_file(MD5.encode())
    done = pwhash("verify", "file", "ann", stdin=b"password\nmore\n")
    assert (done.status, done.out) == (0, YES) and b"after the password" in done.err, done


# ---- Neither yes nor no


def assert_refused(done: Ended, reason: bytes) -> None:
    """Fails unless the run said neither yes nor no, gave this reason, and showed no secret."""
    assert done.status in (2, 3) and done.out == b"" and reason in done.err, done
    assert SECRET not in done.err and MD5_DIGEST not in done.err, done


@pytest.mark.parametrize(("field", "reason"), FIELDS)
def test_a_field_that_no_password_matches_is_neither_yes_nor_no(
    field: bytes, reason: bytes
) -> None:
    ann_in_file(field)
    done = pwhash("verify", "file", "ann", stdin=SECRET + b"\n")
    assert_refused(done, reason)
    assert b"file, line 2 (ann): " in done.err, done
    done = pwhash("verify", stdin=SECRET + b"\n" + field + b"\n")
    assert_refused(done, reason)


def test_the_limit_is_that_of_a_login_and_can_be_raised() -> None:
    stored = hashed(SECRET, "$6$rounds=2000000$saltsalt")
    data = SECRET + b"\n" + stored
    assert pwhash("verify", "--budget", "100M", stdin=data).status == 2
    assert pwhash("verify", "--budget", "0", stdin=data).status == 2
    assert pwhash("verify", "-R", "2M", stdin=data).status == 0
    assert pwhash("verify", "--budget", "1000M", stdin=data).status == 0


@pytest.mark.parametrize(
    ("password", "reason"),
    [
        pytest.param(SECRET + b"\0", b"zero byte", id="a zero byte"),
        pytest.param(SECRET * 200, b"too long", id="too long"),
    ],
)
def test_a_password_that_no_hash_can_have_is_refused(password: bytes, reason: bytes) -> None:
    done = pwhash("verify", stdin=password + b"\n" + MD5.encode())
    assert_refused(done, reason)


@pytest.mark.parametrize(
    ("data", "reason"),
    [
        pytest.param(b"", b"empty", id="nothing"),
        pytest.param(SECRET, b"second", id="a password"),
        pytest.param(SECRET + b"\n", b"second", id="a password and a line feed"),
        pytest.param(SECRET + b"\nann::" + MD5.encode(), b"empty", id="a line without a hash"),
        pytest.param(SECRET + b"\n(" + MD5.encode() + b")", b"stored as it is", id="brackets"),
        pytest.param(SECRET + b"\n> On Tue, Bob wrote:\n", b"no hash", id="who wrote an e-mail"),
        pytest.param(SECRET + b"\nann smith:!:1:", b"locked", id="a name of two words"),
        pytest.param(SECRET + b"\nann smith:x:", b"stored as it is", id="a field of one letter"),
        # A search of so many bytes for a hash once took more than a minute.
        pytest.param(SECRET + b"\n" + b"!" * 131000, b"4,096 bytes", id="much too many bytes"),
    ],
)
def test_input_without_a_hash_is_refused(data: bytes, reason: bytes) -> None:
    done = pwhash("verify", stdin=data)
    assert_refused(done, reason)


@pytest.mark.parametrize(
    "first",
    [
        pytest.param(MD5.encode(), id="a hash"),
        pytest.param(b" %b\r" % MD5.encode(), id="a hash with blanks around it"),
        pytest.param(MD5[:-1].encode(), id="a truncated hash"),
        pytest.param(b"$y$j9T$abcdefghijklmnopqrstu.$abc", id="yescrypt"),
    ],
)
@pytest.mark.parametrize("second", [SECRET, b"with:colon", b""])
def test_a_hash_before_the_password_is_named(first: bytes, second: bytes) -> None:
    done = pwhash("verify", stdin=first + b"\n" + second + b"\n")
    assert_refused(done, b"the password first, then the hash")


def test_the_line_of_another_user_after_a_truncated_hash_is_not_compared() -> None:
    done = pwhash("verify", stdin=SECRET + b"\n" + MD5[:-1].encode() + b"\nbob:" + HASH + b"\n")
    assert (done.status, done.out) == (2, b"") and b"cut or changed" in done.err, done


def test_a_hash_after_a_blank_line_may_come_later() -> None:
    script = f"""{{ echo TopSecret; echo; sleep 0.5; echo '{HASH.decode()}'; }} | "$@" """
    done = shell(script, "verify")
    assert (done.status, done.out) == (0, YES), done


def test_fields_after_a_hash_without_a_name_are_left_out() -> None:
    done = pwhash("verify", stdin=SECRET + b"\n" + HASH + b":19000:0:99999:7:::\n")
    assert (done.status, done.out) == (0, YES), done


def test_a_password_that_begins_with_a_dollar_sign_is_not_a_hash() -> None:
    done = pwhash("verify", stdin=b"$ecret\n" + SECRET + b"\n")
    assert_refused(done, b"stored as it is")


def test_a_password_may_be_a_hash() -> None:
    stored = hashed(MD5.encode(), "$6$rounds=1000$saltsalt")
    for prefix in b"", b"{CRYPT}", b" ":
        done = pwhash("verify", stdin=MD5.encode() + b"\n" + prefix + stored + b"\n")
        assert (done.status, done.out) == (0, YES), done


@pytest.mark.parametrize(
    ("words", "reason"),
    [
        pytest.param(["file", "eve"], b"no line of this name", id="an unknown name"),
        pytest.param(["file", "an"], b"cut or changed", id="the beginning of a name"),
        pytest.param(["file", "bob"], b"(lines 3, 5)", id="a repeated name"),
        pytest.param(["file", "dan"], b"no line of this name", id="a line without a colon"),
        pytest.param(["file", "cr"], b"carriage return", id="a line from Windows"),
        pytest.param(["file", "TopSecret"], b"no line of this name", id="the password"),
        pytest.param(["file"], b"FILE and NAME", id="no name"),
        pytest.param([MD5], b"FILE and NAME", id="the hash"),
        pytest.param(["file", "ann", "TopSecret"], b"a word too many", id="the password after it"),
        pytest.param(["file", "#eve"], b"begins with no #", id="a comment"),
        pytest.param(["file", "ann:"], b"no colon", id="a colon"),
        pytest.param(["file", "a\nb"], b"control character", id="a line feed"),
        pytest.param(["file", ""], b"is empty", id="an empty name"),
        pytest.param(["", "ann"], b"is empty", id="an empty file"),
        pytest.param(["-", "ann"], b"standard input", id="standard input"),
        pytest.param([".", "ann"], b"a folder", id="a folder"),
        pytest.param(["/dev/zero", "ann"], b"no file", id="a device"),
        pytest.param(["nowhere", "ann"], b"No such file", id="no file"),
        pytest.param(["pipe", "ann"], b"without a writer", id="a pipe"),
        pytest.param(["void", "ann"], b"no line name:field", id="an empty file"),
    ],
)
def test_invalid_arguments_are_refused(words: list[str], reason: bytes) -> None:
    save("void", b"")
    os.mkfifo("pipe")
    stored = MD5.encode()
    lines = [
        b"an:" + stored[:-1],
        b"ann:" + stored,
        b"bob:" + stored,
        b"#eve:" + stored,
        b"bob:" + stored,
        b"dan",
        b"cr:" + stored + b"\r",
    ]
    save("file", b"".join(line + b"\n" for line in lines))
    done = pwhash("verify", *words, stdin=SECRET + b"\n")
    assert_refused(done, reason)


def test_the_file_can_be_a_pipe_of_the_shell() -> None:
    ann_in_file(MD5.encode())
    save("password", b"password\n")
    done = shell('cat file | { "$@" verify /dev/fd/3 ann 3<&0 < password; }')
    assert (done.status, done.out) == (0, YES), done


@pytest.mark.needs("root")
def test_an_unreadable_file_is_neither_yes_nor_no(copy: Copy) -> None:
    ann_in_file(MD5.encode())
    os.chmod("file", 0)
    os.chmod(".", 0o755)
    nobody = ("setpriv", "--reuid=65534", "--clear-groups")
    done = copy.run("verify", "file", "ann", stdin=b"password\n", before=nobody)
    assert (done.status, done.stdout) == (3, b"") and b"Permission denied" in done.stderr, done


def test_an_answer_that_cannot_be_written_is_neither_yes_nor_no() -> None:
    data = b"password\n" + MD5.encode()
    assert shell('exec "$@" verify > /dev/full', stdin=data).status == 3
    assert shell('exec "$@" verify >&-', stdin=data).status == 3
    done = shell('"$@" verify >> file', stdin=data)
    assert (done.status, read("file")) == (0, YES), done


MOST_SECONDS = 1.0  # from a signal to the end


@pytest.mark.parametrize("number", [signal.SIGINT, signal.SIGTERM, signal.SIGKILL])
def test_a_signal_ends_a_comparison_at_once(number: signal.Signals) -> None:
    def attempt() -> float:
        with started("verify", "--budget", "9999999M") as process:
            assert process.stdin is not None
            process.stdin.write(SECRET + b"\n" + COSTLY + b"\n")
            process.stdin.flush()
            wait_for(lambda: working_threads(process.pid, process.pid) > 0)
            seconds, done = seconds_to_end(process, number)
        assert done.out == b"" and done.status == -number, done
        return seconds

    assert least_seconds(attempt, MOST_SECONDS) <= MOST_SECONDS


@pytest.mark.parametrize("kibibytes", range(4000, 60000, 8000))
def test_with_little_memory_no_answer_is_wrong(kibibytes: int) -> None:
    data = b"password\n" + hashed(b"password", "$7$BU..../....saltsalt")
    done = shell(f'ulimit -v {kibibytes}; exec "$@"', "verify", stdin=data)
    assert done.status in (0, 3) and done.out == (YES if done.status == 0 else b""), done


# ---- At a terminal


@pytest.mark.needs("python3-pexpect")
@pytest.mark.parametrize(
    ("typed", "status", "answer"),
    [
        pytest.param(b"password", 0, YES, id="the password"),
        pytest.param(b"Password", 1, NO, id="another password"),
    ],
)
def test_a_pasted_hash_is_compared_and_not_shown(typed: bytes, status: int, answer: bytes) -> None:
    terminal = at_terminal(["verify"], [typed + b"\r", b" " + MD5.encode() + b" \r"])
    assert terminal.status == status and not terminal.shows_keys_at_prompt, terminal
    assert MD5.encode() not in terminal.screen and terminal.shows_keys_afterwards, terminal
    assert terminal.screen.endswith(answer.replace(b"\n", b"\r\n")), terminal


@pytest.mark.needs("python3-pexpect")
@pytest.mark.parametrize(
    "keys",
    [
        pytest.param([b"\r" + MD5.encode() + b"\r"], id="a leading line break"),
        pytest.param([MD5_SETTING + b"\r" + MD5_DIGEST + b"\r"], id="one inside"),
        pytest.param([MD5_SETTING + b"\r" + MD5_DIGEST, b"\r"], id="Return later"),
        pytest.param([b"ann:" + MD5.encode() + b":1:0:9:7:::\r"], id="a line from shadow"),
        pytest.param(
            [b"> On Tue, Bob wrote:\r", b"> > " + MD5.encode() + b"\r"], id="who wrote an e-mail"
        ),
    ],
)
def test_line_breaks_in_a_pasted_hash_do_not_end_it(keys: list[bytes]) -> None:
    terminal = at_terminal(["verify"], [b"password\r", *keys])
    assert terminal.status == 0 and not terminal.shows_keys_at_prompt, terminal
    assert MD5_DIGEST not in terminal.screen and terminal.shows_keys_afterwards, terminal


@pytest.mark.needs("python3-pexpect")
@pytest.mark.parametrize(
    ("typed", "status"),
    [
        pytest.param(b"password", 0, id="the password"),
        pytest.param(b"", 1, id="nothing"),
        pytest.param(b"p\xe4ssword", 1, id="Latin-1"),
    ],
)
def test_a_name_of_a_file_needs_only_a_password(typed: bytes, status: int) -> None:
    ann_in_file(MD5.encode())
    terminal = at_terminal(["verify", "file", "ann"], [typed + b"\r"])
    assert terminal.status == status and b"Hash" not in terminal.screen, terminal
    assert not terminal.shows_keys_at_prompt and terminal.shows_keys_afterwards, terminal


@pytest.mark.needs("python3-pexpect")
def test_a_locked_name_is_not_asked_for_a_password() -> None:
    ann_in_file(b"!" + MD5.encode())
    terminal = at_terminal(["verify", "file", "ann"], [])
    assert terminal.status == 2 and b"locked" in terminal.screen, terminal
    assert b"Password" not in terminal.screen, terminal


@pytest.mark.needs("python3-pexpect")
@pytest.mark.parametrize(
    ("keys", "status"),
    [
        pytest.param([b"password\r", CTRL_D], 2, id="Ctrl-D"),
        pytest.param([b"password\r", CTRL_C], -signal.SIGINT, id="Ctrl-C"),
        pytest.param([b"password\r", b"\r", CTRL_D], 2, id="Return and Ctrl-D"),
        pytest.param([b"password\r", MD5[:-9].encode() + b"\r", b"\r"], 2, id="a part of a hash"),
    ],
)
def test_without_a_hash_nothing_is_compared(keys: list[bytes], status: int) -> None:
    terminal = at_terminal(["verify"], keys)
    assert terminal.status == status and terminal.shows_keys_afterwards, terminal
    assert YES.strip() not in terminal.screen and NO.strip() not in terminal.screen, terminal


def test_the_help_says_what_a_status_means() -> None:
    done = pwhash("verify", "--help")
    assert done.status == 0 and b"--budget" in done.out and b"status 0" in done.out, done
