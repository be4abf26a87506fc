"""Tables whose columns are swapped, headings inside tables, and cells that spreadsheets damaged."""

from __future__ import annotations

import os

import pytest
from support.pwhash_runs import (
    ANN,
    BOB,
    MD5,
    MD5CRYPT,
    hashed,
    lines_named_in,
    pwhash,
    read,
    save,
)

# ---- Swapped columns

EXCHANGED = [
    pytest.param("password,name", "name,password", id="both"),
    pytest.param("PASSWORD,Name", "name,password", id="in capitals"),
    pytest.param("Passwort,Benutzername", "Benutzername;Passwort", id="in German"),
    pytest.param("mot de passe,nom", "nom;mot de passe", id="in French"),
    pytest.param("contraseña,usuario", "usuario,contraseña", id="in Spanish"),
    pytest.param("password,mail", "mail,password", id="passwords as names"),
    pytest.param("secret,login", "login,secret", id="names as passwords"),
    pytest.param("2,1", "name,password", id="by number"),
    pytest.param("2,1", "mail,Kennwort", id="passwords as names, by number"),
]


@pytest.mark.parametrize(("columns", "heading"), EXCHANGED)
@pytest.mark.parametrize("words", [(), ("-o", "hashes")], ids=["printed", "into a file"])
def test_columns_that_contradict_their_headings_are_refused(
    columns: str, heading: str, words: tuple[str, ...]
) -> None:
    separator = ";" if ";" in heading else ","
    save("table", f"{heading}\nann{separator}hunter2\n".encode())
    options = ("--csv", "--columns", columns, "--skip-doubtful", "--skip-refused")
    done = pwhash("file", *MD5CRYPT, *options, "table", *words)
    assert (done.status, done.out) == (2, b"") and b"--columns" in done.err, done
    assert b"hunter2" not in done.err and os.listdir() == ["table"], done


def test_known_passwords_are_not_taken_for_names() -> None:
    save("shadow", b"ann:" + MD5.encode() + b":1:::\n")
    table = b"name,password\nann,hunter2\n"
    words = ("--csv", "--columns", "password,name", "--shadow", "shadow")
    done = pwhash("check", *words, stdin=table)
    assert (done.status, done.out) == (2, b"") and b"--columns" in done.err, done
    assert b"hunter2" not in done.err, done


@pytest.mark.parametrize(
    ("columns", "table"),
    [
        pytest.param("name,password", b"password,name\npw1,ann\n", id="in other places"),
        pytest.param("Name,secret", b"secret,Name\npw1,ann\n", id="one known word"),
        pytest.param("mail,password", b"name,password,mail\nx,pw1,ann\n", id="another column"),
        pytest.param("2,1", b"pw1,ann\n", id="by number, without a heading"),
    ],
)
def test_columns_that_fit_their_headings_are_hashed(columns: str, table: bytes) -> None:
    done = pwhash("file", "--csv", *MD5CRYPT, "--columns", columns, stdin=table)
    assert (done.status, done.out) == (0, ANN), done


# ---- Headings of joined tables and lists


@pytest.mark.parametrize(
    "heading",
    [
        b"vorname:passwort",
        "Prénom:mot de passe".encode(),
        "PRÉNOM:x".encode(),
        b"User Name:x",
        b"mot de passe:x",
    ],
    ids=os.fsdecode,
)
@pytest.mark.parametrize("is_table", [False, True], ids=["list", "table"])
def test_a_heading_in_another_language_is_not_a_user(heading: bytes, is_table: bool) -> None:
    lines = b"ann:pw1\n" + heading + b"\nbob:pw2\n"
    words: tuple[str, ...] = ()
    line = 2
    if is_table:
        lines = b"name,password\n" + lines.replace(b":", b",")
        words = ("--csv",)
        line = 3
    done = pwhash("file", *MD5CRYPT, *words, stdin=lines)
    assert (done.status, done.out, lines_named_in(done.err)) == (1, ANN + BOB, [line]), done


@pytest.mark.parametrize("words", [(), ("--csv", "--columns", "1,2")], ids=["list", "table"])
def test_the_first_line_repeated_is_not_a_user(words: tuple[str, ...]) -> None:
    """A repeated first line is a heading even if pwhash doesn't know its words. Both are named."""
    lines = b"konto:geheim\nann:pw1\nkonto:geheim\nbob:pw2\n"
    is_table = "--csv" in words
    save("list", lines.replace(b":", b",") if is_table else lines)
    done = pwhash("file", *MD5CRYPT, *words, "list")
    assert (done.status, done.out) == (1, b"") and lines_named_in(done.err) == [3, 1], done


# ---- Passwords that spreadsheets damaged

ENGLISH_ERRORS = ["#NAME?", "#REF!", "#VALUE!", "#DIV/0!", "#N/A", "#NULL!", "#NUM!"]
GERMAN_ERRORS = ["#BEZUG!", "#WERT!", "#ZAHL!", "#NV"]
OTHER_ERRORS = ["#NOM?", "#VALEUR!", "#¡REF!", "#¿NOMBRE?", "Err:502"]
TOO_WIDE = ["####", "##########"]  # for their columns
NUMBERS = ["1.23E+15", "1,23E+15", "1E+20", "-1.5E-07", "2,5E10"]
TRUTHS = ["TRUE", "FALSE", "WAHR", "FALSCH"]
DAMAGED = ENGLISH_ERRORS + GERMAN_ERRORS + OTHER_ERRORS + TOO_WIDE + NUMBERS + TRUTHS
SOUND = ["#name", "#1 fan!", "true", "wahr", "TRUELOVE", "1.23E+15x", "E+15", "123456", "##", "#A!"]


def table_of(password: str) -> bytes:
    """Returns a table in which Eve, in line 3, has this password."""
    return f'name,password\nann,pw1\neve,"{password}"\nbob,pw2\n'.encode()


@pytest.mark.parametrize("password", DAMAGED)
def test_a_password_that_a_spreadsheet_damaged_is_doubtful(password: str) -> None:
    save("table", table_of(password))
    done = pwhash("file", "--csv", *MD5CRYPT, stdin=table_of(password))
    assert (done.status, done.out, lines_named_in(done.err)) == (1, ANN + BOB, [3]), done
    left_out = pwhash("file", "--csv", *MD5CRYPT, "table", "--skip-doubtful", "-o", "hashes")
    assert left_out.status == 1 and read("hashes") == ANN + BOB, left_out
    assert b"spreadsheet" in left_out.err and password.encode() not in left_out.err, left_out


def test_a_password_that_a_spreadsheet_damaged_can_be_accepted() -> None:
    words = ("file", "--csv", *MD5CRYPT, "--accept-doubtful")
    done = pwhash(*words, stdin=table_of("#NAME?"))
    eve = b"eve:" + hashed(b"#NAME?") + b"\n"
    assert (done.status, done.out) == (0, ANN + eve + BOB), done


def test_a_name_that_a_spreadsheet_damaged_is_doubtful() -> None:
    done = pwhash("file", "--csv", *MD5CRYPT, stdin=b"name,password\n1.23E+11,x\nbob,pw2\n")
    assert (done.status, done.out, lines_named_in(done.err)) == (1, BOB, [2]), done


@pytest.mark.parametrize("password", SOUND)
def test_a_password_that_only_looks_damaged_is_hashed(password: str) -> None:
    done = pwhash("file", "--csv", *MD5CRYPT, stdin=table_of(password))
    eve = b"eve:" + hashed(password.encode()) + b"\n"
    assert (done.status, done.out) == (0, ANN + eve + BOB), done


@pytest.mark.parametrize("password", ["####", "1.23E+15", "TRUE", "FALSCH"])
def test_a_password_in_a_list_that_only_looks_damaged_is_hashed(password: str) -> None:
    done = pwhash("file", *MD5CRYPT, stdin=f"eve:{password}\n".encode())
    assert (done.status, done.out) == (0, b"eve:" + hashed(password.encode()) + b"\n"), done


@pytest.mark.parametrize("password", ["#NAME?", "#BEZUG!"])
def test_a_spreadsheets_error_is_doubtful_in_a_list_too(password: str) -> None:
    done = pwhash("file", *MD5CRYPT, stdin=f"eve:{password}\nbob:pw2\n".encode())
    assert (done.status, done.out, lines_named_in(done.err)) == (1, BOB, [1]), done
