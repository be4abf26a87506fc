"""Doubtful lines: fields that a spreadsheet damaged or quoted, headings, and rows of tables."""
from __future__ import annotations

import pytest
from support.pwhash_runs import MD5CRYPT, hashed, lines_named_in, pwhash, read, save

BOB = b"bob:" + hashed(b"pw2") + b"\n"


def assert_doubtful(line: str, *options: str) -> None:
    """Fails unless this line is doubtful, and the next one isn't."""
    is_table = "--csv" in options
    next_line = b"bob,pw2" if is_table else b"bob:pw2"
    save("list", line.encode() + b"\n" + next_line + b"\n")
    done = pwhash("file", *MD5CRYPT, *options, "list", "-o", "hashes", "--skip-doubtful")
    assert (done.status, read("hashes"), set(lines_named_in(done.err))) == (1, BOB, {1}), done


ERRORS = [
    "#ERROR!",
    "#NAAM?",
    "#WAARDE!",
    "#NAZWA?",
    "#ARG!",
    "#ИМЯ?",
    "#ЗНАЧ!",
    "#NAMN?",
    "#NÚM!",
    "#BLOCKED!",
    "#DEEL/0!",
    "#DIV/0!",
    "#¡REF!",
    "#DĚLENÍ_NULOU!",
    "#Н/Д",
    "#N/A",
]


@pytest.mark.parametrize("error", ERRORS)
def test_a_spreadsheets_error_in_any_language_is_not_a_password(error: str) -> None:
    assert_doubtful(f"ann:{error}")


TRUTHS = [
    "VRAI",
    "FAUX",
    "VERDADERO",
    "FALSO",
    "VERO",
    "WAAR",
    "ONWAAR",
    "PRAWDA",
    "FAŁSZ",
    "ИСТИНА",
    "ЛОЖЬ",
    "SANT",
    "FALSKT",
]


@pytest.mark.parametrize("truth", TRUTHS)
def test_true_and_false_in_any_language_are_not_passwords_in_a_table(truth: str) -> None:
    assert_doubtful(f"ann,{truth}", "--csv", "--columns", "1,2")


@pytest.mark.parametrize("password", ["#Fan!", "#2024!", "#ERROR", "ERROR!", "VRAI", "#NAAM?x"])
def test_a_password_that_resembles_an_error_is_hashed(password: str) -> None:
    done = pwhash("file", *MD5CRYPT, stdin=f"ann:{password}\n".encode())
    assert (done.status, done.out) == (0, b"ann:" + hashed(password.encode()) + b"\n"), done


@pytest.mark.parametrize(
    "line",
    [
        pytest.param('ann:"Tr:7""x"', id="around the password"),
        pytest.param('"ann":secret', id="around the name"),
        pytest.param('"ann":"secret"', id="around both"),
        pytest.param('"ann:secret"', id="around the line"),
    ],
)
def test_quotes_in_a_list_are_doubtful(line: str) -> None:
    assert_doubtful(line)


@pytest.mark.parametrize("password", ['"', 'a"b"', '"a'])
def test_quotes_that_enclose_nothing_are_hashed(password: str) -> None:
    done = pwhash("file", *MD5CRYPT, stdin=f"ann:{password}\n".encode())
    assert (done.status, done.out) == (0, b"ann:" + hashed(password.encode()) + b"\n"), done


def test_quotes_in_a_tables_field_are_part_of_the_password() -> None:
    table = b'name,password\nann,"""secret"""\n'
    done = pwhash("file", *MD5CRYPT, "--csv", save("table", table))
    assert (done.status, done.out) == (0, b"ann:" + hashed(b'"secret"') + b"\n"), done


@pytest.mark.parametrize(
    "heading",
    [
        "email:password",
        "E-Mail:Passwort",
        "mail:pw",
        "mitarbeiter:password",
        "Mitarbeiter:password",
        "staff number: Password",
        "staff:Password",
        "who:mot de passe",
    ],
)
def test_a_heading_in_a_list_is_not_an_account(heading: str) -> None:
    assert_doubtful(heading)


@pytest.mark.parametrize("name", ["ann", "ann.lee-2", "zoë", "Яна"])
def test_a_login_name_with_the_password_password_is_hashed(name: str) -> None:
    done = pwhash("file", *MD5CRYPT, stdin=f"{name}:password\n".encode())
    assert (done.status, done.out) == (0, name.encode() + b":" + hashed(b"password") + b"\n"), done


@pytest.mark.parametrize("heading", ["E-Mail,Password", "Mitarbeiter,Kennwort"])
def test_a_heading_is_not_an_account_if_columns_are_numbers(heading: str) -> None:
    assert_doubtful(heading, "--csv", "--columns", "1,2")


@pytest.mark.parametrize(
    "row",
    [
        pytest.param("ann,secret,https://x.org/a", id="commas"),
        pytest.param("ann;secret;https://x.org/a", id="semicolons"),
        pytest.param("ann\tsecret\thttps://x.org/a", id="tabs"),
    ],
)
def test_a_tables_row_is_doubtful_in_a_list(row: str) -> None:
    assert_doubtful(row)
    done = pwhash("file", *MD5CRYPT, save("rows", row.encode()))
    assert done.status == 1 and b"--csv" in done.err, done


def test_a_name_with_a_blank_may_come_from_another_column() -> None:
    table = save("people", b"person,password\nAnn Lee,secret\nbob,pw2\n")
    columns = ("--columns", "person,password")
    done = pwhash("file", *MD5CRYPT, "--csv", *columns, table, "-o", "hashes")
    assert done.status == 1 and b"people, line 2: a blank in the name" in done.err, done
    assert b"--columns" in done.err and b"Lee" not in done.err, done


def test_a_service_that_reads_names_with_blanks_gets_them() -> None:
    table = save("people", b"name,password\nAnn Lee,secret\n")
    done = pwhash("file", *MD5CRYPT, "--csv", table, "-o", "hashes", "--for", "apache")
    assert (done.status, read("hashes")) == (0, b"Ann Lee:" + hashed(b"secret") + b"\n"), done
