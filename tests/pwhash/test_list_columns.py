"""pwhash file --generate --list-columns A,B: lists with people's names beside user names.

Lists are read as CSV, and hashes are compared with libxcrypt's.
"""
from __future__ import annotations

import csv
import io
import os

import pytest
from support.pwhash_runs import (
    BOM,
    PWHASH,
    SLOW_COUNT,
    halted,
    hashed,
    lines_named_in,
    pwhash,
    read,
    save,
)

MAKE = ("file", "--generate", "-R", "1000", "--csv", "table", "-o", "hashes", "--columns", "login")
BY_CLASS = (*MAKE, "--passwords", "lists", "--by", "class")
LOOK = ("file", "--generate", "--csv", "table", "--columns", "login", "--look")
NAMES = ("--list-columns", "last,first")
TABLE = "last;first;login;class\r\nMüller;Ann;ann;5a\r\nXu;Bob;bob;5b\r\n O'Neil ;;cyd;5a\r\n"


def rows_of(path: str, separator: str = ";") -> list[list[str]]:
    """Reads a list as CSV. Its heading is the first row."""
    return list(csv.reader(io.StringIO(read(path).decode("utf-8-sig")), delimiter=separator))


def assert_passwords_fit(rows: list[list[str]]) -> None:
    """Fails unless each row ends with a name and the password whose hash belongs to the name."""
    lines = [line.partition(b":") for line in read("hashes").splitlines()]
    fields = {name: field for name, _, field in lines}
    for *_, name, password in rows:
        field = fields[name.encode()]
        assert hashed(password.encode(), field.decode()) == field, name


def test_a_list_has_the_columns_before_name_and_password() -> None:
    save("table", TABLE.encode())
    done = pwhash(*BY_CLASS, *NAMES)
    assert (done.status, done.out, done.err) == (0, b"", b""), done
    heading, *rows = rows_of("lists/5a.csv")
    assert heading == ["last", "first", "name", "password"]
    assert [row[:3] for row in rows] == [["Müller", "Ann", "ann"], ["O'Neil", "", "cyd"]]
    assert [row[:3] for row in rows_of("lists/5b.csv")[1:]] == [["Xu", "Bob", "bob"]]
    assert_passwords_fit([*rows, *rows_of("lists/5b.csv")[1:]])
    assert read("lists/5a.csv").startswith(BOM) and not read("lists/5b.csv").startswith(BOM)


def test_a_single_list_has_the_columns_too() -> None:
    save("table", TABLE.encode())
    done = pwhash(*MAKE, "--passwords", "list", "--list-columns", "First,class")
    heading, *rows = rows_of("list")
    assert (done.status, heading) == (0, ["First", "class", "name", "password"]), done
    assert [row[:3] for row in rows] == [
        ["Ann", "5a", "ann"],
        ["Bob", "5b", "bob"],
        ["", "5a", "cyd"],
    ]
    assert_passwords_fit(rows)


def test_columns_can_be_given_by_number() -> None:
    save("table", b"M,Ann,ann,5a\nX,Bob,bob,5a\n")
    words = [word if word != "login" else "3" for word in MAKE]
    done = pwhash(*words, "--by", "4", "--list-columns", "2", "--passwords", "lists")
    heading, *rows = rows_of("lists/5a.csv", ",")
    assert (done.status, heading) == (0, ["2", "name", "password"]), done
    assert [row[:2] for row in rows] == [["Ann", "ann"], ["Bob", "bob"]]


@pytest.mark.parametrize(
    ("field", "value"),
    [
        pytest.param(b'"Meyer; Jr."', "Meyer; Jr.", id="the separator"),
        pytest.param(b'"Meyer ""Max"""', 'Meyer "Max"', id="quotes"),
        pytest.param(b"Meyer, Max", "Meyer, Max", id="another separator"),
        pytest.param(b"Meyer-Lang", "Meyer-Lang", id="a hyphen within"),
        pytest.param(b"x" * 1000, "x" * 1000, id="a thousand letters"),
    ],
)
def test_a_value_is_unchanged_in_the_list(field: bytes, value: str) -> None:
    save("table", b"last;login\n" + field + b";ann\n")
    words = (*MAKE, "--passwords", "list", "--list-columns", "last")
    done = pwhash(*words)
    assert done.status == 0 and rows_of("list")[1][:2] == [value, "ann"], done
    assert_passwords_fit(rows_of("list")[1:])


@pytest.mark.parametrize(
    ("field", "reason"),
    [
        pytest.param(b"=1+1", b"formula", id="a formula"),
        pytest.param(b"#WERT!", b"an error of a spreadsheet", id="an error of a spreadsheet"),
        pytest.param(b"+49 123", b"formula", id="a number that begins with plus"),
        pytest.param(b"a,=1", b"formula", id="a formula after a comma"),
        pytest.param(b'"a;=1"', b"formula", id="a formula after a semicolon"),
        pytest.param("＝1".encode(), b"formula", id="a full-width equals sign"),
        pytest.param(b"a\x1b[2Jb", b"invisible", id="an escape"),
        pytest.param("a\u200bb".encode(), b"invisible", id="a zero-width space"),
    ],
)
def test_a_dangerous_value_is_refused(field: bytes, reason: bytes) -> None:
    save("table", b"last;login\nXu;ann\n" + field + b";eve\n")
    words = (*MAKE, "--passwords", "list", "--list-columns", "last")
    done = pwhash(*words)
    assert done.status == 1 and lines_named_in(done.err) == [3] and reason in done.err, done
    assert b"\x1b" not in done.err and os.listdir() == ["table"], done
    done = pwhash(*words, "--skip-refused")
    assert done.status == 1 and [row[1] for row in rows_of("list")[1:]] == ["ann"], done


def test_names_that_are_not_utf8_are_doubtful() -> None:
    save("table", "last;login\nMüller;ann\nXu;bob\n".encode("cp1252"))
    words = (*MAKE, "--passwords", "list", "--list-columns", "last")
    done = pwhash(*words)
    assert done.status == 1 and lines_named_in(done.err) == [2], done
    assert b"iconv -f WINDOWS-1252" in done.err and os.listdir() == ["table"], done
    done = pwhash(*words, "--accept-doubtful")
    assert done.status == 0 and read("list").splitlines()[1].startswith(b"M\xfcller;ann;"), done


@pytest.mark.parametrize(
    ("words", "reason"),
    [
        pytest.param(["--list-columns", "surname"], b"--list-columns", id="unknown"),
        pytest.param(["--list-columns", "last,last"], b"--list-columns", id="twice"),
        pytest.param(["--list-columns", "last,"], b"--list-columns", id="one without a name"),
        pytest.param(["--list-columns="], b"is empty", id="empty"),
        pytest.param(["--list-columns", "password"], b"headed as passwords", id="passwords"),
        pytest.param(["--list-columns", "1"], b"--list-columns", id="a number among names"),
    ],
)
def test_invalid_columns_are_refused(words: list[str], reason: bytes) -> None:
    save("table", b"last;login;password\nXu;ann;x\n")
    done = pwhash(*MAKE, "--passwords", "list", *words)
    assert done.status == 2 and reason in done.err and os.listdir() == ["table"], done


@pytest.mark.parametrize("heading", ["name", "Name", " NAME ", '"name"'])
@pytest.mark.parametrize(
    "words",
    [
        pytest.param((*BY_CLASS, "--list-columns", "name,first"), id="a run"),
        pytest.param((*LOOK, "--list-columns", "Name"), id="a look"),
    ],
)
def test_a_list_does_not_get_two_columns_with_the_heading_name(
    heading: str, words: tuple[str, ...]
) -> None:
    """In such a list, pwhash couldn't tell the user names from the people's."""
    save("table", f"{heading};first;login;class\nXu;Ann;ann;5a\n".encode())
    done = pwhash(*words)
    assert done.status == 2 and b"--list-columns has the column name" in done.err, done
    assert b"rename it" in done.err and os.listdir() == ["table"], done


def test_a_column_that_no_list_gets_can_have_the_heading_name() -> None:
    save("table", b"Name;first;login;class\nXu;Ann;ann;5a\n")
    done = pwhash(*BY_CLASS, "--list-columns", "first")
    assert (done.status, rows_of("lists/5a.csv")[0]) == (0, ["first", "name", "password"]), done


@pytest.mark.parametrize(
    ("words", "reason"),
    [
        pytest.param("file table --csv --list-columns last", b"needs --generate", id="alone"),
        pytest.param(
            "file table --generate -o h --passwords l --list-columns last",
            b"needs --csv",
            id="of names that aren't in a table",
        ),
    ],
)
def test_list_columns_needs_other_options(words: str, reason: bytes) -> None:
    save("table", b"last;login\nXu;ann\n")
    done = pwhash(*words.split())
    assert done.status == 2 and reason in done.err and os.listdir() == ["table"], done


# Runs that take a few seconds, without and with people's names.
COSTLY_WITHOUT_NAMES = ["20000" if word == "1000" else word for word in BY_CLASS]
COSTLY = [*COSTLY_WITHOUT_NAMES, *NAMES]
LONG_AGO = 1e9  # seconds since 1970, so that the list is older than the part


@pytest.fixture(name="interrupted")
def fixture_interrupted() -> None:
    """Starts a run and kills it halfway."""
    numbers = range(SLOW_COUNT)
    rows = [b'"Xu; %d";F;user%d;c%d\n' % (number, number, number % 3) for number in numbers]
    save("table", b"last;first;login;class\n" + b"".join(rows))
    os.utime("table", (LONG_AGO, LONG_AGO))
    with halted(PWHASH, *COSTLY) as process:
        process.kill()


@pytest.mark.usefixtures("interrupted")
def test_a_run_resumes_with_the_passwords_in_such_lists() -> None:
    before = {name: read(f"lists/{name}") for name in os.listdir("lists")}
    done = pwhash(*COSTLY, "--resume")
    assert done.status == 0, done
    assert {name: read(f"lists/{name}") for name in os.listdir("lists")} == before
    rows = [row for name in before for row in rows_of(f"lists/{name}")[1:]]
    assert len(rows) == SLOW_COUNT
    assert_passwords_fit(rows[:3])


@pytest.mark.usefixtures("interrupted")
@pytest.mark.parametrize("columns", [[], ["--list-columns", "last"]], ids=["none", "another"])
def test_a_run_does_not_resume_with_other_columns(columns: list[str]) -> None:
    part = read("hashes.part")
    done = pwhash(*COSTLY_WITHOUT_NAMES, *columns, "--resume")
    assert done.status == 2 and b"--list-columns" in done.err, done
    assert read("hashes.part") == part, done
