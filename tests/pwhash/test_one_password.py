"""One password from standard input: its hash, lines for other programs, and refusals."""
from __future__ import annotations

import re
import time

import pytest
from support.pwhash_runs import MD5, MD5CRYPT, hashed, pwhash

LONGEST = 1024
SECONDS_OF_DAY = 86_400


def test_the_first_line_is_hashed_with_the_recommended_rounds() -> None:
    done = pwhash(stdin=b"correct horse\nmore\n")
    stored = done.out.decode().rstrip("\n")
    assert done.status == 0 and stored.startswith("$6$rounds=656000$"), done
    assert b"only the first line" in done.err, done
    assert done.out == hashed(b"correct horse", stored) + b"\n", done


def test_a_password_without_a_line_feed_is_hashed() -> None:
    assert pwhash(*MD5CRYPT, stdin=b"password").out == MD5.encode() + b"\n"


def test_scrypt_uses_the_given_cost() -> None:
    done = pwhash("-m", "scrypt", "-R", "6", stdin=b"x")
    stored = done.out.decode().rstrip("\n")
    assert stored.startswith("$7$BU..../...."), done
    assert done.out == hashed(b"x", stored) + b"\n", done


# ---- Lines for other programs

CLOUD_INIT = """\
#cloud-config
users:
  - name: "ann"
    lock_passwd: false
    hashed_passwd: HASH"""
WITHOUT_NAME = [
    pytest.param(
        "preseed-root", "d-i passwd/root-password-crypted password HASH", id="Debian's root"
    ),
    pytest.param(
        "preseed-user", "d-i passwd/user-password-crypted password HASH", id="Debian's first user"
    ),
    pytest.param("kickstart", "rootpw --iscrypted HASH", id="Red Hat"),
    pytest.param("ansible", 'password: "HASH"', id="Ansible"),
]
WITH_NAME = [
    pytest.param("cloud-init", CLOUD_INIT, id="cloud-init"),
    pytest.param("htpasswd", "ann:HASH", id="htpasswd"),
]
NAMED_TARGETS = ("cloud-init", "htpasswd", "shadow")
NAMELESS_TARGETS = ("preseed-root", "preseed-user", "kickstart", "ansible")


@pytest.mark.parametrize(("target", "text"), WITHOUT_NAME)
def test_a_line_for_an_installer_has_the_hash(target: str, text: str) -> None:
    done = pwhash(*MD5CRYPT, "--for", target, stdin=b"password\n")
    assert (done.status, done.out.decode()) == (0, text.replace("HASH", MD5) + "\n"), done


@pytest.mark.parametrize(("target", "text"), WITH_NAME)
def test_a_line_for_a_user_has_the_name_and_the_hash(target: str, text: str) -> None:
    done = pwhash(*MD5CRYPT, "--for", target, "--name", "ann", stdin=b"password\n")
    assert (done.status, done.out.decode()) == (0, text.replace("HASH", MD5) + "\n"), done


def test_a_line_for_shadow_has_the_date_of_the_change() -> None:
    before = int(time.time()) // SECONDS_OF_DAY
    done = pwhash(*MD5CRYPT, "--for", "shadow", "--name", "ann", stdin=b"password\n")
    days = range(before, int(time.time()) // SECONDS_OF_DAY + 1)
    assert done.out.decode() in [f"ann:{MD5}:{day}:0:99999:7:::\n" for day in days], done


@pytest.mark.parametrize("target", NAMED_TARGETS)
def test_a_target_with_a_user_needs_a_name(target: str) -> None:
    done = pwhash(*MD5CRYPT, "--for", target, stdin=b"x\n")
    assert (done.status, done.out) == (2, b""), done


@pytest.mark.parametrize("target", NAMELESS_TARGETS)
def test_a_target_without_a_user_accepts_no_name(target: str) -> None:
    done = pwhash(*MD5CRYPT, "--for", target, "--name", "ann", stdin=b"x\n")
    assert (done.status, done.out) == (2, b""), done


@pytest.mark.parametrize("target", [*NAMED_TARGETS, *NAMELESS_TARGETS])
def test_no_target_accepts_a_name_with_a_colon(target: str) -> None:
    done = pwhash(*MD5CRYPT, "--for", target, "--name", "a:b", stdin=b"x\n")
    assert (done.status, done.out) == (2, b""), done


@pytest.mark.needs("python3-yaml")
@pytest.mark.parametrize("name", ["ann", "no", "yes", "null", "on", "y", "true", "_", "A@b.c-d"])
def test_a_name_for_cloud_init_is_a_yaml_string(name: str) -> None:
    import yaml

    done = pwhash(*MD5CRYPT, "--for", "cloud-init", "--name", name, stdin=b"password\n")
    user = {"name": name, "lock_passwd": False, "hashed_passwd": MD5}
    assert yaml.safe_load(done.out) == {"users": [user]}, done


# ---- Passwords that a login would refuse

# The longest passwords whose new hashes cost no more than a login may.
LIMITS = [
    pytest.param((), 168, id="sha512crypt"),
    pytest.param(("-m", "sha256crypt"), 150, id="sha256crypt"),
    pytest.param(("-R", "400000"), 168, id="sha512crypt with fewer rounds"),
]


@pytest.mark.parametrize(("words", "longest"), LIMITS)
def test_the_longest_password_that_a_login_accepts_is_hashed(
    words: tuple[str, ...], longest: int
) -> None:
    done = pwhash(*words, stdin=b"x" * longest)
    assert done.status == 0, done


@pytest.mark.parametrize(("words", "longest"), LIMITS)
def test_a_password_too_long_for_a_login_is_refused(words: tuple[str, ...], longest: int) -> None:
    done = pwhash(*words, stdin=b"x" * (longest + 1))
    assert (done.status, done.out) == (2, b""), done


@pytest.mark.parametrize(
    "words",
    [
        pytest.param((), id="sha512crypt"),
        pytest.param(("-m", "sha256crypt"), id="sha256crypt"),
        pytest.param(("-S", "x"), id="a short salt"),
        pytest.param(("-S", "x", "--budget", "45M"), id="a budget that only a short salt admits"),
    ],
)
def test_a_refusal_names_the_longest_length(words: tuple[str, ...]) -> None:
    refused = pwhash(*words, stdin=b"x" * LONGEST)
    length = re.search(rb"at most (\d+) bytes", refused.err)
    assert (refused.status, refused.out) == (2, b"") and length, refused
    done = pwhash(*words, stdin=b"x" * int(length[1]))
    assert done.status == 0, done
    refused = pwhash(*words, stdin=b"x" * (int(length[1]) + 1))
    assert (refused.status, refused.out) == (2, b"") and length[0] in refused.err, refused


@pytest.mark.parametrize("password", [b"x" * (LONGEST + 1), b"a\0b"], ids=["too long", "zero byte"])
@pytest.mark.parametrize("words", [(), ("-m", "sha256crypt")], ids=["sha512crypt", "sha256crypt"])
def test_the_message_names_no_budget_if_none_admits_the_password(
    words: tuple[str, ...], password: bytes
) -> None:
    done = pwhash(*words, stdin=password)
    assert done.status == 2 and b"--budget" not in done.err, done


@pytest.mark.parametrize(
    ("words", "password", "reason"),
    [
        pytest.param("", b"", "empty", id="nothing"),
        pytest.param("", b"\n", "empty", id="an empty line"),
        pytest.param("", b"x\r\n", "carriage return", id="a carriage return"),
        pytest.param("", b"x" * 1025, "1,024", id="1025 bytes"),
        pytest.param("", b"a\0b", "zero", id="a zero byte"),
        pytest.param("-m yescrypt", b"x", "sha512crypt", id="another method"),
        pytest.param("-m scrypt -R 12", b"x", "-R 12", id="a cost that scrypt doesn't have"),
        pytest.param("-R 10", b"x", "1000", id="too few rounds"),
        pytest.param("-m scrypt -R 9999999999", b"x", "11", id="a cost of ten digits"),
        pytest.param("-R 65x", b"x", "'65x'", id="rounds that aren't a number"),
        pytest.param("-m md5crypt -S 123456789", b"x", "salt length", id="a salt that is too long"),
        pytest.param("--for grub", b"x", "preseed-root", id="an unknown target"),
        pytest.param("-S a-b", b"x", "salt character", id="a character that no salt has"),
        pytest.param("--salt=", b"x", "salt length", id="an empty salt"),
        pytest.param(
            "--for htpasswd --name 1ann", b"x", "begins with a letter", id="a name with a digit"
        ),
    ],
)
def test_each_mistake_is_named(words: str, password: bytes, reason: str) -> None:
    done = pwhash(*words.split(), stdin=password)
    assert (done.status, done.out) == (2, b"") and reason in done.err.decode(), done
