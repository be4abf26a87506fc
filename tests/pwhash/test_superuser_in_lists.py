"""The superuser among pupils: a list of people must not change root's password by mistake."""
from __future__ import annotations

import os

import pytest
from support.pwhash_runs import MD5, MD5CRYPT, hashed, in_namespace, pwhash, read, save

MAKE = ("--generate", "-R", "1000", "-o", "hashes", "--passwords", "lists")
TABLE = b"login,class\nann,5a\nroot,5a\nbob,5a\n"
LISTS = [
    pytest.param(TABLE, ("--csv", "--columns", "login", *MAKE), 3, id="a table of names"),
    pytest.param(b"ann\nroot\nbob\n", MAKE, 2, id="a list of names"),
    pytest.param(
        b"login,pw\nann,pw1\nroot,TopSecret\nbob,pw2\n",
        ("--csv", "--columns", "login,pw", *MD5CRYPT, "-o", "hashes"),
        3,
        id="a table of passwords",
    ),
]


def names_in(path: str) -> list[bytes]:
    return [line.partition(b":")[0] for line in read(path).splitlines()]


@pytest.mark.parametrize(("data", "words", "number"), LISTS)
def test_the_superuser_is_named_and_nothing_is_made(
    data: bytes, words: tuple[str, ...], number: int
) -> None:
    save("people", data)
    done = pwhash("file", "people", *words)
    assert (done.status, done.out) == (1, b"") and b"TopSecret" not in done.err, done
    assert f"line {number} (root): the superuser".encode() in done.err, done
    assert os.listdir() == ["people"], done


@pytest.mark.parametrize(("data", "words", "number"), LISTS)
def test_an_option_leaves_out_the_superuser_and_another_one_does_not(
    data: bytes, words: tuple[str, ...], number: int
) -> None:
    save("people", data)
    done = pwhash("file", "people", *words, "--skip-doubtful")
    assert done.status == 1 and f"line {number} (root)".encode() in done.err, done
    assert names_in("hashes") == [b"ann", b"bob"], done
    for path in os.listdir():
        if path != "people":
            os.remove(path)
    done = pwhash("file", "people", *words, "--accept-doubtful")
    assert done.status == 0 and names_in("hashes") == [b"ann", b"root", b"bob"], done


def test_a_row_of_a_pipe_is_left_out() -> None:
    table = b"name,password\nroot,TopSecret\nann,password\n"
    done = pwhash("file", "--csv", *MD5CRYPT, stdin=table)
    assert (done.status, done.out) == (1, b"ann:" + MD5.encode() + b"\n"), done
    assert b"TopSecret" not in done.err, done


def test_a_list_of_passwords_may_have_the_superuser() -> None:
    """An administrator writes such a list, for example for a new machine."""
    save("passwords", b"root:password\n")
    done = pwhash("file", *MD5CRYPT, "passwords", "-o", "hashes")
    assert (done.status, read("hashes")) == (0, b"root:" + MD5.encode() + b"\n"), done


@pytest.mark.needs("namespaces")
def test_another_name_of_the_superuser_is_known() -> None:
    save("people", TABLE.replace(b"root", b"toor"))
    script = """
        { cat /etc/passwd; echo toor:x:0:0::/root:/bin/sh; } > passwd
        mount --bind passwd /etc/passwd
        exec "$@"
    """
    done = in_namespace(script, "file", "people", "--csv", "--columns", "login", *MAKE)
    assert done.status == 1 and b"line 3 (toor): the superuser" in done.err, done
    assert not os.path.exists("lists"), done


@pytest.mark.parametrize("field", [b"!", b"!!", b"*", b"!" + MD5.encode()])
def test_a_superuser_who_is_locked_stays_locked(field: bytes) -> None:
    """Ubuntu locks root by a field of only !, which is that of a new account for other names."""
    shadow = b"root:" + field + b":1:::\nann:!:1:::\n"
    save("shadow", shadow)
    save("passwords", b"root:TopSecret\nann:password\n")
    done = pwhash("file", *MD5CRYPT, "passwords", "--skip-locked", "shadow", "-o", "hashes")
    assert (done.status, read("hashes")) == (0, b"ann:" + hashed(b"password") + b"\n"), done
    assert b"line 1 (root): locked in shadow" in done.err and b"TopSecret" not in done.err, done
