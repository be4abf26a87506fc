"""Lists that other programs exported: rows of tables, stored hashes, and changed cells."""
from __future__ import annotations

import os

import pytest
from support.pwhash_runs import MD5CRYPT, lines_named_in, pwhash, read, save

REFUSED = 1  # the status if lines are refused or doubtful


def assert_doubtful(lines: bytes, line: int, *words: str) -> None:
    """Fails unless only this line is doubtful, no password is shown, and nothing is hashed."""
    done = pwhash("file", *MD5CRYPT, *words, save("list", lines), "-o", "hashes")
    assert (done.status, {*lines_named_in(done.err)}) == (REFUSED, {line}), done
    assert b"secret" not in done.err and not os.path.exists("hashes"), done


@pytest.mark.parametrize(
    "line",
    [
        pytest.param(b"bob,secret,2026-01-02 10:00", id="commas"),
        pytest.param(b"bob;secret;https://example.org/", id="semicolons"),
        pytest.param(b"bob\tsecret\t10:00", id="tabs"),
        pytest.param(b"bob|secret|2026-01-02 10:00:00", id="bars"),
        pytest.param(b"bob secret 10:00", id="blanks"),
    ],
)
def test_a_row_of_a_table_in_a_list_shows_no_password(line: bytes) -> None:
    assert_doubtful(b"ann:pw\n" + line + b"\n", 2)


@pytest.mark.parametrize(
    "field",
    [
        pytest.param(b"secret:1001:1001:Bob:/home/bob:/bin/sh", id="with numbers"),
        pytest.param(b"secret:::Bob Smith:/home/bob:/bin/sh", id="without numbers"),
        pytest.param(b"secret::users:Bob:/home/bob:/bin/sh", id="with the group's name"),
        pytest.param(b"secret:::::", id="empty"),
    ],
)
def test_a_line_for_newusers_is_not_a_password(field: bytes) -> None:
    assert_doubtful(b"ann:pw\nbob:" + field + b"\n", 2)


@pytest.mark.parametrize(
    "stored",
    [
        pytest.param(b"$P$B7oKyTyx.uXoLHJvPRpqfy6NrmmLaG0", id="phpass"),
        pytest.param(b"$S$DxVn7wubSRzoK9X2pkGx4njeDRkLEgdqPphc2ZXkkb8Viy8JEGf3", id="Drupal"),
        pytest.param(b"$wp$2y$10$abcdefghijklmnopqrstuu", id="WordPress"),
        pytest.param(b"$argon2id$v=19$m=65536,t=3,p=4$c2FsdA$aGFzaA", id="Argon2"),
        pytest.param(b"$y$j9T$abcdefgh$abcdefghijklmnop", id="yescrypt"),
    ],
)
def test_a_stored_hash_of_any_program_is_not_a_password(stored: bytes) -> None:
    assert_doubtful(b"ann:pw\nbob:" + stored + b"\n", 2)


@pytest.mark.parametrize(
    "cell",
    [
        pytest.param(b'"=""00123"""', id="a formula that keeps zeros"),
        pytest.param(b"'=secret", id="a formula after an apostrophe"),
        pytest.param(b"NULL", id="NULL"),
        pytest.param(b"null", id="null"),
        pytest.param(rb"\N", id="NULL in PostgreSQL and MySQL"),
        pytest.param("Grün".encode().decode("cp1252").encode(), id="UTF-8 read as Windows-1252"),
    ],
)
def test_a_cell_that_an_export_changed_is_doubtful(cell: bytes) -> None:
    assert_doubtful(b"name,password\nann,pw\nbob," + cell + b"\n", 3, "--csv")


@pytest.mark.parametrize(
    "password", ["null", "Grün", "a b:c", "a:b:c:d:e:f", "'=x", "Ã", "x|y", "$a$123"]
)
def test_a_password_in_a_list_that_resembles_an_export_is_hashed(password: str) -> None:
    lines = f"ann:{password}\n".encode()
    done = pwhash("file", *MD5CRYPT, save("list", lines), "-o", "hashes")
    assert (done.status, read("hashes").count(b"\n")) == (0, 1), done


def test_rows_joined_by_two_stray_quotes_are_named_by_both_lines() -> None:
    table = b'name,password\nann,"abc\nbob,x1\ncarl,x2\neve,def"\nfay,x3\n'
    done = pwhash("file", "--csv", *MD5CRYPT, save("table", table), "-o", "hashes")
    assert done.status == REFUSED and b"line 5: " in done.err, done
    assert b"lines 2 to here" in done.err, done


@pytest.mark.parametrize(
    "tables",
    [
        pytest.param(
            b"name,password,mail\nann,a,m\nuid,name,password\n7,bob,b\n",
            id="each one further right",
        ),
        pytest.param(
            b"uid,name,password\n7,bob,b\nname,password,mail\nann,a,m\n", id="each one further left"
        ),
    ],
)
def test_a_heading_with_its_columns_elsewhere_ends_the_run(tables: bytes) -> None:
    done = pwhash("file", "--csv", *MD5CRYPT, save("table", tables), "-o", "hashes")
    assert done.status == 2 and b"another table begins" in done.err, done
