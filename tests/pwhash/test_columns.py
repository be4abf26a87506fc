"""Which columns of a table are the name and the password, and how columns are separated."""
from __future__ import annotations

import pytest
from support.pwhash_runs import (
    ANN,
    BOB,
    BOM,
    BY_NUMBER,
    MD5,
    MD5CRYPT,
    lines_named_in,
    pwhash,
    save,
)


@pytest.mark.parametrize(
    ("columns", "heading"),
    [
        pytest.param("identità,parola", "Identità,Parola", id="a letter whose last byte is A0"),
        pytest.param("IDENTITÀ,PAROLA", "identità,parola", id="in capitals"),
        pytest.param("имя,пароль", "Имя,ПАРОЛЬ", id="Cyrillic"),
        pytest.param("straße,x", "STRASSE,x", id="folded"),
        pytest.param("nàme , x", " nàme,x ", id="blanks around the names"),
    ],
)
def test_a_column_is_found_by_its_name(columns: str, heading: str) -> None:
    table = f"{heading}\nann,password\n".encode()
    done = pwhash("file", "--csv", *MD5CRYPT, "--columns", columns, stdin=table)
    assert (done.status, done.out) == (0, b"ann:" + MD5.encode() + b"\n"), done


def test_a_zero_byte_does_not_end_a_heading() -> None:
    done = pwhash("file", "--csv", *MD5CRYPT, stdin=b"name,password\0x\nann,pw1\n")
    assert (done.status, done.out) == (2, b"") and b"--columns" in done.err, done


@pytest.mark.parametrize("columns", ["name,name", "name,NAME", "1,1"])
def test_one_column_is_not_both_name_and_password(columns: str) -> None:
    table = b"name,password\nann,password\n"
    done = pwhash("file", "--csv", *MD5CRYPT, "--columns", columns, stdin=table)
    assert (done.status, done.out) == (2, b"") and b"--columns" in done.err, done


@pytest.mark.parametrize(
    "row",
    [
        pytest.param(b"smith,j;pw1\n", id="a comma and a semicolon"),
        pytest.param(b"smith\tj,pw1\n", id="a tab and a comma"),
        pytest.param(b"\nann;pa,ss\n", id="after a blank line"),
    ],
)
def test_an_ambiguous_separator_is_not_guessed(row: bytes) -> None:
    done = pwhash("file", "--csv", *MD5CRYPT, *BY_NUMBER, stdin=row)
    assert (done.status, done.out) == (2, b"") and b"between columns" in done.err, done


def test_the_separator_follows_from_a_quoted_field() -> None:
    done = pwhash("file", "--csv", *MD5CRYPT, *BY_NUMBER, stdin=b'"ann";pw1\nbob;pw2\n')
    assert (done.status, done.out) == (0, ANN + BOB), done


@pytest.mark.parametrize(
    "table",
    [
        pytest.param(b"last,first;name;password\nx;ann;pw1\n", id="a semicolon"),
        pytest.param(b"last;first\tname\tpassword\nx\tann\tpw1\n", id="a tab"),
    ],
)
def test_the_separator_is_the_one_between_name_and_password(table: bytes) -> None:
    done = pwhash("file", "--csv", *MD5CRYPT, stdin=table)
    assert (done.status, done.out) == (0, ANN), done


# ---- Tables as programs write them

BOTH = b"".join(name + b":" + MD5.encode() + b"\n" for name in (b"ann", b"bob"))
EXCEL = BOM + b'Room;Password;Name\r\n1;"password";ann\r\n\r\n2;password;bob\r\n'
TABS = b'"a,b"\tname\tpassword\nx,y;z\tann\tpassword\n\tbob\tpassword\n'
SPANISH = "Usuario,Contraseña\nann,password\nbob,password\n".encode()


@pytest.mark.parametrize(
    ("table", "words"),
    [
        pytest.param(EXCEL, (), id="Excel's, with a mark and carriage returns"),
        pytest.param(TABS, (), id="with tabs between columns"),
        pytest.param(SPANISH, ("--columns", "usuario,contraseña"), id="with columns by name"),
        pytest.param(b"ann,password\nbob,password\n", BY_NUMBER, id="without a heading"),
    ],
)
def test_a_table_is_read(table: bytes, words: tuple[str, ...]) -> None:
    done = pwhash("file", *MD5CRYPT, save("table", table), "--csv", *words)
    assert (done.status, done.out, done.err) == (0, BOTH, b""), done


def test_a_table_without_a_heading_needs_columns() -> None:
    done = pwhash("file", *MD5CRYPT, save("table", b"ann,password\nbob,password\n"), "--csv")
    assert done.status == 2 and b"--columns" in done.err and b'password"' not in done.err, done


@pytest.mark.parametrize("number", [2, 98, 99])
def test_a_column_is_found_by_its_number(number: int) -> None:
    fields = ["ann", *["x"] * (number - 2), "password"]
    table = save("table", ",".join(fields).encode() + b"\n")
    done = pwhash("file", *MD5CRYPT, table, "--csv", "--columns", f"1,{number}")
    assert (done.status, done.out) == (0, f"ann:{MD5}\n".encode()), done


def test_a_heading_is_not_a_user_if_columns_are_numbers() -> None:
    table = save("table", b"user,password\nann,x\n")
    done = pwhash("file", *MD5CRYPT, table, "--csv", *BY_NUMBER)
    assert (done.status, done.out) == (1, b""), done


@pytest.mark.parametrize(
    ("table", "words"),
    [
        pytest.param(b"ann,password\n", BY_NUMBER, id="columns without --csv"),
        pytest.param(EXCEL, ("--csv", "--columns", "name"), id="one column"),
        pytest.param("name,password\nann,x\n".encode("utf-16"), ("--csv",), id="UTF-16"),
    ],
)
def test_columns_that_cannot_be_found_are_named(table: bytes, words: tuple[str, ...]) -> None:
    done = pwhash("file", *MD5CRYPT, save("table", table), *words)
    assert done.status == 2 and b"--columns" in done.err and b"line 1" not in done.err, done


HEADINGS = [
    pytest.param(b"Login;Kennwort;Klasse", b"Login, Kennwort, Klasse", id="three headings"),
    pytest.param(b"last,first,login,class", b"login and 3 more", id="one word of headings"),
    pytest.param(b"Name,E-Mail,Room 5", b"Name, E-Mail and 1 more", id="a blank"),
    pytest.param(
        b"user,password,TopSecret1", b"user, password and 1 more", id="perhaps a password"
    ),
    pytest.param(b"name,name,password", b"name, name, password", id="a repeated heading"),
]


@pytest.mark.parametrize(("heading", "named"), HEADINGS)
@pytest.mark.parametrize(
    "words",
    [
        pytest.param(("--columns", "name,secret"), id="of passwords"),
        pytest.param(("--generate", "--look", "--columns", "user-name"), id="of names"),
    ],
)
def test_a_wrong_heading_is_answered_by_the_right_ones(
    heading: bytes, named: bytes, words: tuple[str, ...]
) -> None:
    save("table", heading + b"\nann,bob,hunter2\n")
    done = pwhash("file", "--csv", "table", *words)
    assert (done.status, done.out) == (2, b"") and b"first row has " + named in done.err, done
    assert b"hunter2" not in done.err and b"TopSecret" not in done.err, done


@pytest.mark.parametrize(
    "row",
    [
        pytest.param(b"ann,tulip", id="a name and a word"),
        pytest.param(b"ann,password", id="a name and the password password"),
        pytest.param(b"ann,TopSecret1", id="a name and a password"),
        pytest.param(b"mail,tulip", id="a service's name and a word"),
        pytest.param(b"tulip,ann,room", id="a password first"),
    ],
)
def test_a_first_row_with_a_user_is_not_shown(row: bytes) -> None:
    save("table", row + b"\nbob,hunter2\n")
    for words in ("--columns", "login,secret"), ("--generate", "--look", "--columns", "user"):
        done = pwhash("file", "--csv", "table", *words)
        assert (done.status, done.out) == (2, b"") and b"hunter2" not in done.err, done
        said = done.err.replace(b"by default name,password", b"")
        values = (b"tulip", b"TopSecret", b"password", b" ann")
        assert not any(value in said for value in values), done


def test_a_first_row_that_is_not_csv_is_named_by_line() -> None:
    table = save("table", b"\n\nname\rpassword\rann,x\n")
    done = pwhash("file", *MD5CRYPT, "--csv", table)
    assert done.status == 3 and lines_named_in(done.err) == [3], done


def test_an_unclosed_quote_ends_the_run() -> None:
    done = pwhash("file", *MD5CRYPT, "--csv", save("table", b'name,password\n"a,x\n'))
    assert done.status == 3, done
