"""pwhash file --generate: a new password for each name, in lists to hand out.

Hashes are compared with libxcrypt's.
"""
from __future__ import annotations

import csv
import io
import os
import re
import stat

import pytest
from support.pwhash_runs import BOM, Ended, hashed, lines_named_in, pwhash, read, save, shell

FAST = ("-R", "1000")
WORDS = ("file", "--generate", *FAST, "-o", "hashes")
BY_CLASS = (*WORDS, "--csv", "--passwords", "lists", "--by", "class")
# Matches a password: letters and digits other than 0, O, 1, l and I, with a letter at both ends.
LETTERS = re.compile(rb"[A-HJ-NP-Za-km-z][A-HJ-NP-Za-km-z2-9]*[A-HJ-NP-Za-km-z]")
CHARACTERS = 57  # different letters and digits that a password may have


def rows_of(path: str, separator: str = ",") -> dict[bytes, bytes]:
    """Reads a list as CSV. Returns its passwords by name."""
    text = read(path).decode("utf-8-sig")
    heading, *rows = csv.reader(io.StringIO(text), delimiter=separator)
    assert heading == ["name", "password"], text
    return {name.encode(): password.encode() for name, password in rows}


def assert_hashes_of(passwords: dict[bytes, bytes], path: str = "hashes") -> None:
    """Fails unless a file has a line with the right hash for each name, and no other names."""
    lines = [line.partition(b":") for line in read(path).splitlines()]
    assert {name for name, _, _ in lines} == set(passwords), lines
    for name, _, stored in lines:
        assert hashed(passwords[name], stored.decode()) == stored, name


def mode(path: str) -> int:
    return stat.S_IMODE(os.lstat(path).st_mode)


def assert_refused(done: Ended, reason: bytes, *files: str) -> None:
    """Fails unless a run ended with status 2, this reason and no output, and left these files."""
    assert done.status == 2 and done.out == b"" and reason in done.err, done
    assert set(os.listdir()) == set(files), (os.listdir(), done)


# ---- A list of names


def test_each_name_gets_a_password_of_its_own() -> None:
    save("names", b"ann\nbob\ncyd\n")
    done = pwhash(*WORDS, "names", "--passwords", "list")
    assert (done.status, done.out, done.err) == (0, b"", b""), done
    passwords = rows_of("list")
    assert list(passwords) == [b"ann", b"bob", b"cyd"] and len(set(passwords.values())) == 3
    for password in passwords.values():
        assert len(password) == 20 and LETTERS.fullmatch(password), password
    assert_hashes_of(passwords)
    assert sorted(os.listdir()) == ["hashes", "list", "names"]


@pytest.mark.parametrize("umask", [0o000, 0o022, 0o777], ids="{:03o}".format)
def test_only_its_owner_can_read_a_list(umask: int) -> None:
    save("names", b"ann\n")
    save("table", b"name,class\nann,5a\n")
    script = f'umask {umask:03o}; exec "$@"'
    done = shell(script, *WORDS, "names", "--passwords", "list")
    assert done.status == 0 and mode("list") == mode("hashes") == 0o600, done
    os.remove("hashes")
    done = shell(script, *BY_CLASS, "table")
    assert done.status == 0 and mode("lists") == 0o700 and mode("lists/5a.csv") == 0o600, done


@pytest.mark.parametrize("length", [8, 12, 64])
def test_a_length_can_be_chosen(length: int) -> None:
    save("names", b"".join(b"user%d\n" % number for number in range(200)))
    done = pwhash(*WORDS, "names", "--passwords", "list", "--length", str(length))
    passwords = rows_of("list")
    assert done.status == 0 and {len(each) for each in passwords.values()} == {length}, done
    assert all(LETTERS.fullmatch(each) for each in passwords.values()), passwords
    used = set(b"".join(passwords.values()))
    assert len(used) >= CHARACTERS - 1, "few letters and digits"
    assert_hashes_of(passwords)


def test_names_can_come_from_a_windows_file() -> None:
    save("names", BOM + b"ann\r\nbob\r\n")
    done = pwhash(*WORDS, "names", "--windows", "--passwords", "list")
    assert done.status == 0 and list(rows_of("list")) == [b"ann", b"bob"], done


def test_locked_names_get_no_password() -> None:
    save("shadow", b"ann:!\nbob:!$1$x$y:1\ncyd:$1$x$y\n")
    save("names", b"ann\nbob\ncyd\n")
    done = pwhash(*WORDS, "names", "--skip-locked", "shadow", "--passwords", "list")
    assert done.status == 0 and list(rows_of("list")) == [b"ann", b"cyd"], done
    assert b"line 2 (bob): locked in shadow" in done.err, done
    assert_hashes_of(rows_of("list"))


def test_a_repeated_name_has_one_password() -> None:
    save("table", b"name,class\nann,5a\nbob,5a\nann,5b\n")
    done = pwhash(*BY_CLASS, "table")
    assert done.status == 1 and b"the name again" in done.err and not os.path.exists("lists"), done
    done = pwhash(*BY_CLASS, "table", "--accept-doubtful")
    assert done.status == 0 and rows_of("lists/5a.csv")[b"ann"] == rows_of("lists/5b.csv")[b"ann"]
    assert_hashes_of({**rows_of("lists/5a.csv"), **rows_of("lists/5b.csv")})


# ---- Names that spreadsheets would take for formulas

FORMULAS = [
    pytest.param(b"=1+1", id="equals"),
    pytest.param(b"+1", id="plus"),
    pytest.param(b"-1", id="minus"),
    pytest.param(b"@SUM(A1)", id="at"),
    pytest.param("＝1".encode(), id="a full-width equals sign"),
    pytest.param(b"\t=1", id="after a tab"),
    pytest.param(b" =1", id="after a blank"),
    pytest.param("\u200b=1".encode(), id="after a zero-width space"),
    pytest.param(b"a,=1", id="after a comma"),
    pytest.param(b"a;=1", id="after a semicolon"),
    pytest.param(b"a\t=1", id="after a letter and a tab"),
    pytest.param(b"a\r=1", id="after a carriage return"),
    pytest.param(b'"=1"', id="in quotes"),
    pytest.param(b'a"', id="a quote"),
]


@pytest.mark.parametrize("name", FORMULAS)
def test_no_name_becomes_a_formula(name: bytes) -> None:
    save("names", b"ann\n" + name + b"\nbob\n")
    words = (*WORDS, "names", "--passwords", "list", "--accept-doubtful")
    done = pwhash(*words)
    assert done.status == 1 and lines_named_in(done.err) == [2], done
    assert sorted(os.listdir()) == ["names"], done
    done = pwhash(*words, "--skip-refused")
    assert done.status == 1 and list(rows_of("list")) == [b"ann", b"bob"], done
    assert_hashes_of(rows_of("list"))


@pytest.mark.parametrize("separator", [",", ";", "\t"], ids=["commas", "semicolons", "tabs"])
def test_a_list_has_the_separator_of_its_table(separator: str) -> None:
    table = "name,class\nann,5a\nmüller,5a\n".replace(",", separator)
    save("table", table.encode())
    done = pwhash(*BY_CLASS, "table")
    assert done.status == 0 and read("lists/5a.csv").startswith(BOM), done
    passwords = rows_of("lists/5a.csv", separator)
    assert list(passwords) == [b"ann", "müller".encode()]
    assert_hashes_of(passwords)


def test_pwhash_can_read_its_own_lists() -> None:
    save("table", "name;class\nann;5a\nmüller;5a\n".encode())
    assert pwhash(*BY_CLASS, "table").status == 0
    done = pwhash("check", "--csv", "--shadow", "hashes", "lists/5a.csv")
    assert (done.status, done.out) == (0, "ann:ok\nmüller:ok\n".encode()), done


# ---- A list for each class of a table


def test_a_table_gives_a_list_for_each_class() -> None:
    save("table", b"last;login;class\r\nA;ann;5a\r\nB;bob;5b\r\nC;cyd; 5a \r\n")
    done = pwhash(*BY_CLASS, "table", "--columns", "login")
    assert (done.status, done.out, done.err) == (0, b"", b""), done
    assert sorted(os.listdir("lists")) == ["5a.csv", "5b.csv"]
    first, second = rows_of("lists/5a.csv", ";"), rows_of("lists/5b.csv", ";")
    assert (list(first), list(second)) == ([b"ann", b"cyd"], [b"bob"])
    assert_hashes_of({**first, **second})


def test_columns_can_be_given_by_number() -> None:
    save("table", b"A,ann,5a\nB,bob,5b\n")
    done = pwhash(*WORDS, "--csv", "table", "--columns", "2", "--by", "3", "--passwords", "lists")
    assert done.status == 0 and sorted(os.listdir("lists")) == ["5a.csv", "5b.csv"], done


def test_a_table_without_classes_gives_one_list() -> None:
    save("table", b"last,name\nA,ann\nB,bob\n")
    done = pwhash(*WORDS, "--csv", "table", "--passwords", "list")
    assert done.status == 0 and list(rows_of("list")) == [b"ann", b"bob"], done
    save("single", b"name\nann\nbob\n")
    os.remove("hashes")
    done = pwhash(*WORDS, "--csv", "single", "--passwords", "list2")
    assert done.status == 0 and list(rows_of("list2")) == [b"ann", b"bob"], done


CLASSES = [
    pytest.param(b"", b"nothing", id="nothing"),
    pytest.param(b" ", b"nothing", id="a blank"),
    pytest.param(b"../5a", b"slash", id="a parent folder"),
    pytest.param(b"/etc/5a", b"slash", id="a path"),
    pytest.param(b"5/a", b"slash", id="a slash"),
    pytest.param(b".", b"first dot", id="a dot"),
    pytest.param(b"..", b"first dot", id="two dots"),
    pytest.param(b".5a", b"first dot", id="a hidden file"),
    pytest.param(b"5\x1b[2Ja", b"invisible", id="an escape"),
    pytest.param(b"5\x00a", b"invisible", id="a zero byte"),
    pytest.param("5\u200ba".encode(), b"invisible", id="a zero-width space"),
    pytest.param(b"K\xe4fer", b"WINDOWS-1252", id="Windows-1252"),
    # A file's name has at most 255 bytes, with ".csv".
    pytest.param(b"x" * 252, b"too long", id="too long"),
    pytest.param(b"#NAME?", b"an error of a spreadsheet", id="an error of a spreadsheet"),
]


@pytest.mark.parametrize(("value", "reason"), CLASSES)
def test_a_class_that_cannot_name_a_file_is_refused(value: bytes, reason: bytes) -> None:
    save("table", b"name,class\nann,5a\neve," + value + b"\n")
    done = pwhash(*BY_CLASS, "table", "--accept-doubtful")
    assert done.status == 1 and reason in done.err and lines_named_in(done.err) == [3], done
    assert b"\x1b" not in done.err and sorted(os.listdir()) == ["table"], done
    done = pwhash(*BY_CLASS, "table", "--skip-refused")
    assert done.status == 1 and os.listdir("lists") == ["5a.csv"], done


@pytest.mark.parametrize("value", [b"x" * 251, b"-rf", b"5 a", "5ä".encode(), b"*", b"$(id)"])
def test_a_class_can_have_other_characters(value: bytes) -> None:
    save("table", b"name,class\nann," + value + b"\n")
    done = pwhash(*BY_CLASS, "table")
    assert done.status == 0 and os.listdir(b"lists") == [value + b".csv"], done


ROWS = [
    pytest.param(b"eve\n", "no field", id="a short row"),
    pytest.param(b"eve,5a,x\n", "3 fields", id="a long row"),
    pytest.param(b'eve,"5\na"\n', "line feed", id="a line feed"),
    pytest.param(b",5a\n", "no name", id="no name"),
    pytest.param(b"e:ve,5a\n", "colon", id="a colon"),
    pytest.param(b"name,class\n", "heading", id="the heading again"),
]


@pytest.mark.parametrize(("row", "reason"), ROWS)
def test_a_row_that_is_not_an_account_is_refused(row: bytes, reason: str) -> None:
    save("table", b"name,class\nann,5a\n" + row + b"bob,5a\n")
    done = pwhash(*BY_CLASS, "table")
    assert done.status == 1 and reason.encode() in done.err, done
    done = pwhash(*BY_CLASS, "table", "--skip-refused")
    assert done.status == 1 and list(rows_of("lists/5a.csv")) == [b"ann", b"bob"], done
    assert_hashes_of(rows_of("lists/5a.csv"))


def test_a_row_without_the_column_of_names_is_refused_for_that_reason() -> None:
    save("table", b"class;surname;name\n5a;M\xfcller;ann\n5a;eve\n")
    done = pwhash(*BY_CLASS, "table")
    assert done.status == 1 and b"no field in the column of names" in done.err, done
    assert lines_named_in(done.err) == [3] and sorted(os.listdir()) == ["table"], done


def test_lines_that_have_passwords_are_refused() -> None:
    save("names", b"ann:secret\nbob\n")
    done = pwhash(*WORDS, "names", "--passwords", "list")
    assert done.status == 1 and b"names alone" in done.err and b"secret" not in done.err, done
    assert sorted(os.listdir()) == ["names"], done


def test_the_option_look_makes_no_list() -> None:
    save("names", b"ann\nname\n")
    done = pwhash("file", "--generate", "--look", "names")
    assert done.status == 1 and b"heading" in done.err, done
    assert sorted(os.listdir()) == ["names"], done


# ---- Invalid arguments


@pytest.mark.parametrize(
    ("words", "reason"),
    [
        pytest.param("--generate names", b"-o OUT", id="no list and no OUT"),
        pytest.param("--generate names -o hashes", b"--passwords LIST", id="no list"),
        pytest.param("--generate names --passwords list", b"-o OUT", id="no OUT"),
        pytest.param("names -o hashes --passwords list", b"needs --generate", id="a list alone"),
        pytest.param("names --length 9", b"needs --generate", id="a length alone"),
        pytest.param("table --csv --by class", b"needs --generate", id="a column alone"),
        pytest.param("--generate -o h --passwords h names", b"different", id="one file for both"),
        pytest.param("--generate -o h --passwords h.part names", b"different", id="OUT's part"),
        pytest.param("--generate -o h --passwords - names", b"would write a file", id="a dash"),
        pytest.param(
            "--generate -o h --passwords ./h.part.options names", b"diff", id="OUT's options"
        ),
        pytest.param("--generate -o h --passwords names names", b"already exists", id="FILE"),
        pytest.param(
            "--generate -o h --passwords l --length 7 names", b"8 to 64", id="a short length"
        ),
        pytest.param(
            "--generate -o h --passwords l --length 65 names", b"8 to 64", id="a long length"
        ),
        pytest.param("--generate -o h --passwords l --budget 1 names", b"over budget", id="costly"),
        pytest.param("--generate -o h --passwords l --by class names", b"--csv", id="no table"),
        pytest.param("--generate -o h --passwords= names", b"empty", id="an empty list"),
        pytest.param("--generate -o h --passwords l", b"need a file", id="standard input"),
        pytest.param(
            "--generate --csv -o h --passwords l --columns name,class table",
            b"one column",
            id="two columns",
        ),
        pytest.param(
            "--generate --csv -o h --passwords l --columns nobody table", b"--columns", id="unknown"
        ),
        pytest.param(
            "--generate --csv -o h --passwords l --by name table", b"--by", id="one column twice"
        ),
        pytest.param(
            "--generate --csv -o h --passwords l --by password table",
            b"as passwords are",
            id="files named by passwords",
        ),
    ],
)
def test_invalid_arguments_are_refused(words: str, reason: bytes) -> None:
    save("names", b"ann\n")
    save("table", b"name,class,password\nann,5a,secret\n")
    done = pwhash("file", *words.split(), stdin=b"ann\n")
    assert_refused(done, reason, "names", "table")


@pytest.mark.parametrize("kind", ["file", "folder", "link", "pipe"])
@pytest.mark.parametrize("is_by_class", [False, True], ids=["one list", "a list for each class"])
def test_a_list_overwrites_nothing(kind: str, is_by_class: bool) -> None:
    save("names", b"name,class\nann,5a\n")
    if kind == "file":
        save("lists", b"old")
    elif kind == "folder":
        os.mkdir("lists")
    elif kind == "pipe":
        os.mkfifo("lists")
    else:
        os.symlink("elsewhere", "lists")
    words = BY_CLASS if is_by_class else (*WORDS, "--csv", "--passwords", "lists")
    done = pwhash(*words, "names")
    assert_refused(done, b"lists already exists", "names", "lists")
    done = pwhash(*words, "--resume", "names")
    assert_refused(done, b"lists already exists", "names", "lists")


def test_no_list_is_written_where_anybody_could_remove_it() -> None:
    save("names", b"ann\n")
    os.mkdir("open")
    os.chmod("open", 0o777)
    done = pwhash(*WORDS, "names", "--passwords", "open/list")
    assert_refused(done, b"others can write its folder", "names", "open")
    done = pwhash(*WORDS, "names", "--passwords", "nowhere/list")
    assert done.status == 3 and b"nowhere: No such" in done.err, done
    assert sorted(os.listdir()) == ["names", "open"], done
    os.chmod("open", 0o1777)
    assert pwhash(*WORDS, "names", "--passwords", "open/list").status == 0
