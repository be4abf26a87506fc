"""Hashes in Base64, as LDIF writes the values of userPassword: pwhash says what they are."""
from __future__ import annotations

import base64
import hashlib
import json
import textwrap

import pytest
from support.pwhash_runs import MD5, MD5CRYPT, Ended, hashed, pwhash, read, save

SALTED_SHA1 = base64.b64encode(hashlib.sha1(b"passwordsalt").digest() + b"salt")
FIELDS = [
    pytest.param(b"{SSHA}" + SALTED_SHA1, id="SSHA"),
    pytest.param(b"{ssha}" + SALTED_SHA1, id="SSHA in small letters"),
    pytest.param(b"{CRYPT}" + MD5.encode(), id="MD5 of crypt"),
    pytest.param(b"{CRYPT}" + hashed(b"password", "$6$rounds=1000$saltsalt"), id="SHA-512"),
    pytest.param(b"{CRYPT}!" + MD5.encode(), id="a locked hash"),
    pytest.param(b"{SHA512-CRYPT}" + hashed(b"password", "$6$saltsalt"), id="Dovecot's"),
    pytest.param(b"{ARGON2}$argon2id$v=19$m=7168,t=5,p=1$" + SALTED_SHA1, id="Argon2"),
]
COLUMNS_OF_LDIF = 76


def in_base64(field: bytes) -> bytes:
    return base64.b64encode(field)


def folded(line: bytes) -> list[bytes]:
    """Returns the lines into which ldapsearch and slapcat fold a line of LDIF."""
    pieces = textwrap.wrap(line.decode().replace(" ", "\0"), COLUMNS_OF_LDIF)
    return [piece.replace("\0", " ").encode() for piece in pieces]


def assert_named(done: Ended, status: int, text: bytes, secret: bytes) -> None:
    """Fails unless an output names LDIF, and none shows the value."""
    assert done.status == status and b"LDIF" in text and b"decode it first" in text, done
    assert secret not in done.out and secret not in done.err, done


@pytest.mark.parametrize("field", FIELDS)
def test_an_audit_names_it(field: bytes) -> None:
    value = in_base64(field)
    save("fields", b"ann:" + value + b"\nbob:" + value + b":1:2::\n")
    done = pwhash("audit", "fields")
    assert_named(done, 1, done.out, value)
    rows = [line.split() for line in done.out.splitlines()]
    assert rows[1:3] == [[b"ann", b"encoded"], [b"bob", b"encoded"]], done
    assert b"no scheme" not in done.out, done


@pytest.mark.parametrize("field", FIELDS)
def test_an_audit_names_a_line_of_ldif(field: bytes) -> None:
    value = in_base64(field)
    save("export.ldif", folded(b"userPassword:: " + value)[0] + b"\n")
    done = pwhash("audit", "--json", "export.ldif")
    found = json.loads(done.out)
    assert (found["finding"], found["name"]) == ("encoded", "line 1"), done
    done = pwhash("audit", "export.ldif")
    assert_named(done, 1, done.out, value[:40])
    assert b"no password" not in done.out, done


@pytest.mark.parametrize("field", FIELDS)
@pytest.mark.parametrize("begin", [b"ann:", b"userPassword:: ", b""], ids=["file", "LDIF", "bare"])
def test_verify_names_what_is_pasted(field: bytes, begin: bytes) -> None:
    value = in_base64(field)
    for lines in [begin + value], folded(begin + value):
        done = pwhash("verify", stdin=b"password\n" + b"\n".join(lines) + b"\n")
        assert_named(done, 2, done.err, value[:40])
        assert done.out == b"", done


@pytest.mark.parametrize("field", FIELDS)
def test_verify_names_the_field_of_a_name(field: bytes) -> None:
    value = in_base64(field)
    save("passwords", b"ann:" + value + b":1\nuserPassword:: " + value + b"\n")
    for name in "ann", "userPassword":
        done = pwhash("verify", "passwords", name, stdin=b"password\n")
        assert_named(done, 2, done.err, value)
        assert done.out == b"", done


@pytest.mark.parametrize("field", FIELDS)
def test_a_check_names_the_lines(field: bytes) -> None:
    value = in_base64(field)
    lines = b"bob:" + MD5.encode() + b":password\nann:" + value + b":password\n"
    done = pwhash("check", stdin=lines)
    assert_named(done, 1, done.err, value)
    assert b"pwhash: standard input, line 2: a hash in Base64" in done.err, done
    assert done.out.startswith(b"bob:ok\n"), done


def test_a_check_names_the_lines_of_stored_fields() -> None:
    value = in_base64(b"{SSHA}" + SALTED_SHA1)
    save("fields", b"bob:" + MD5.encode() + b"\nann:" + value + b"\n")
    done = pwhash("check", "--shadow", "fields", stdin=b"ann:password\nbob:password\n")
    assert_named(done, 1, done.err, value)
    assert b"pwhash: fields, line 2: a hash in Base64" in done.err, done


@pytest.mark.parametrize("field", FIELDS)
def test_it_is_not_installed(field: bytes) -> None:
    value = in_base64(field)
    save("hashes", b"ann:" + value + b"\n")
    save("target", b"ann:" + MD5.encode() + b"\n")
    for words in (), ("--accept-other-schemes",):
        done = pwhash("install", "hashes", "target", *words)
        assert_named(done, 1, done.err, value)
    assert read("target") == b"ann:" + MD5.encode() + b"\n"


@pytest.mark.parametrize("field", FIELDS)
def test_it_is_not_hashed_as_a_password(field: bytes) -> None:
    value = in_base64(field)
    done = pwhash("file", *MD5CRYPT, stdin=b"ann:" + value + b"\nbob:password\n")
    assert (done.status, done.out) == (1, b"bob:" + MD5.encode() + b"\n"), done
    assert b"a stored hash" in done.err and value not in done.err, done
    done = pwhash(*MD5CRYPT, stdin=value + b"\n")
    assert (done.status, done.out) == (2, b"") and b"a stored hash" in done.err, done
    assert value not in done.err, done


@pytest.mark.parametrize(
    "field",
    [
        pytest.param(base64.b64encode(b"a password of many bytes"), id="a password in Base64"),
        pytest.param(base64.b64encode(b"{PLAIN}secret"), id="a plain password with its prefix"),
        pytest.param(base64.b64encode(b"{SSHA}"), id="a prefix alone"),
        pytest.param(b"e1NT", id="too few letters"),
        pytest.param(b"TopSecret", id="a password"),
    ],
)
def test_a_password_is_not_taken_for_a_hash_in_base64(field: bytes) -> None:
    save("fields", b"ann:" + field + b":1:::\n")
    done = pwhash("audit", "fields")
    assert done.status == 1 and b"no scheme" in done.out and b"LDIF" not in done.out, done
