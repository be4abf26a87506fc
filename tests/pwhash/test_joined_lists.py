"""Joined lists: headings and byte order marks inside them don't become users."""
from __future__ import annotations

import pytest
from support.pwhash_runs import (
    ANN,
    BOB,
    BOM,
    BY_NUMBER,
    MD5,
    MD5CRYPT,
    hashed,
    lines_named_in,
    pwhash,
    save,
)


@pytest.mark.parametrize(
    ("table", "words", "line"),
    [
        pytest.param(
            b"name,password,mail\nann,pw1,a\nname,password\nbob,pw2\n", (), 3, id="fewer columns"
        ),
        pytest.param(b"name,password\nann,pw1\nName, PASSWORD\nbob,pw2\n", (), 3, id="capitals"),
        pytest.param(b"ann,pw1\nname,password\nbob,pw2\n", BY_NUMBER, 2, id="by number"),
    ],
)
def test_the_heading_of_a_joined_table_is_not_a_user(
    table: bytes, words: tuple[str, ...], line: int
) -> None:
    done = pwhash("file", "--csv", *MD5CRYPT, *words, stdin=table)
    assert (done.status, done.out, lines_named_in(done.err)) == (1, ANN + BOB, [line]), done


@pytest.mark.parametrize(
    ("first", "second"),
    [
        pytest.param(b"name,password", b"password,name", id="swapped"),
        pytest.param(b"name,password,mail", b"mail,name,password", id="moved"),
        pytest.param(b"name,password", b"Passwort,Benutzername", id="swapped, in German"),
        pytest.param(b"name,password", b"pin,login", id="swapped, a number"),
        pytest.param(b"name,password", b"secret,user", id="swapped, another word"),
        pytest.param(b"name,password", b"Code,Kennung", id="swapped, a German name"),
        pytest.param(b"name,password,room", b"PIN,Login,Raum", id="swapped, and a third"),
    ],
)
def test_a_joined_table_with_other_columns_ends_the_run(first: bytes, second: bytes) -> None:
    table = first + b"\nann,pw1\n" + second + b"\nsecret2,bob,secret2\n"
    done = pwhash("file", "--csv", *MD5CRYPT, stdin=table)
    assert done.status == 2 and lines_named_in(done.err) == [3], done
    assert ANN.startswith(done.out), done  # the run may end before it has printed Ann's hash
    assert b"secret2" not in done.out + done.err, done


@pytest.mark.parametrize("heading", [b"name:password", b"Benutzer:Kennwort", b"password:name"])
def test_a_heading_on_any_line_is_doubtful(heading: bytes) -> None:
    lines = b"ann:pw1\n" + heading + b"\nbob:pw2\n"
    done = pwhash("file", *MD5CRYPT, stdin=lines)
    assert (done.status, done.out, lines_named_in(done.err)) == (1, ANN + BOB, [2]), done


def test_the_option_windows_drops_marks_of_joined_lists() -> None:
    """`cat` makes such a list out of two lists from Notepad."""
    lists = BOM + b"ann:password\r\n" + BOM + b"bob:password\r\neve:password\n"
    expected = b"".join(name + b":" + MD5.encode() + b"\n" for name in (b"ann", b"bob", b"eve"))
    done = pwhash("file", *MD5CRYPT, "--windows", stdin=lists)
    assert (done.status, done.out, done.err) == (0, expected, b""), done


# ---- The first list has no line feed at its end


@pytest.mark.parametrize(
    "table",
    [
        pytest.param(b"name,password\nann,pw1\ncid,secretname,password\nbob,pw2\n", id="alike"),
        pytest.param(
            b"name,password,mail\nann,pw1,a\ncid,secretname,password\nbob,pw2\n",
            id="a short row, and a narrower table",
        ),
        pytest.param(
            b"name;password;room\nann;pw1;1\ncid;secretlogin;passwort\nbob;pw2\n",
            id="a short row, and other headings",
        ),
        pytest.param(
            b"name,password,mail\nann,pw1,a\ncidname,password,mail\nbob,pw2,b\n",
            id="a row of a name alone",
        ),
        pytest.param(
            b'"name","password"\n"ann","pw1"\n"cid","secret""name","password"\n"bob","pw2"\n',
            id="quotes",
        ),
        pytest.param(
            b"name,password,mail\nann,pw1,a\ncid,secret" + BOM + b"name,password\nbob,pw2\n",
            id="a byte order mark",
        ),
    ],
)
def test_a_heading_behind_a_row_is_refused(table: bytes) -> None:
    done = pwhash("file", "--csv", *MD5CRYPT, stdin=table)
    assert (done.status, done.out, lines_named_in(done.err)) == (1, ANN + BOB, [3]), done
    assert b"secret" not in done.err, done


@pytest.mark.parametrize(
    "table",
    [
        pytest.param(b"room,name,password\n1,ann,pw1\n2,cid,secret", id="a password"),
        pytest.param(b"room,name,password\n1,ann,pw1\n2,cid,", id="an empty field"),
        pytest.param(b"ROOM;Name;Password\r\n1;ann;pw1\r\n2;cid;secret", id="capitals"),
    ],
)
def test_a_table_joined_to_itself_lacks_a_line_feed(table: bytes) -> None:
    done = pwhash("file", "--csv", *MD5CRYPT, stdin=table + table)
    assert done.status == 2 and lines_named_in(done.err) == [3], done
    assert b"a line feed is missing" in done.err and b"secret" not in done.err, done


@pytest.mark.parametrize(
    "heading",
    [
        *(b"name:password", b"Benutzer:Kennwort", b"E-Mail:PASSWORD"),
        *(b"Login:Pwd", b"user:pass", b"name:pw", b"username:pin", b"Login:Code", b"user:secret"),
        *(b"password:name", b"PIN:Login", b"pass:user"),
    ],
)
def test_a_heading_behind_a_password_is_doubtful(heading: bytes) -> None:
    done = pwhash("file", *MD5CRYPT, stdin=b"ann:pw1\ncid:s3cret" + heading + b"\nbob:pw2\n")
    assert (done.status, done.out, lines_named_in(done.err)) == (1, ANN + BOB, [2]), done
    assert b"s3cret" not in done.err, done


@pytest.mark.parametrize("password", [b"a:pw", b"pin:code", b"myname:", b"my:username", b":pass"])
def test_a_password_with_a_colon_is_hashed_if_it_ends_in_no_heading(password: bytes) -> None:
    done = pwhash("file", *MD5CRYPT, stdin=b"ann:" + password + b"\n")
    assert (done.status, done.out, done.err) == (0, b"ann:" + hashed(password) + b"\n", b""), done


@pytest.mark.parametrize(
    "heading",
    [
        pytest.param(b"name\n", id="alike"),
        pytest.param(b"Name\r\n", id="a capital"),
        pytest.param(BOM + b"name\n", id="a byte order mark"),
    ],
)
def test_a_heading_behind_a_row_of_a_single_column_is_refused(heading: bytes) -> None:
    save("names", b"name\nbob\nann" + heading + b"carl\n")
    done = pwhash("file", "names", "--csv", "--generate", "--look")
    assert (done.status, lines_named_in(done.err)) == (1, [3]), done
    assert b"a heading at its end" in done.err, done


def test_a_name_that_ends_unlike_the_heading_of_a_single_column_gets_a_password() -> None:
    save("names", b"login\nsurname\nloginuser\n")
    done = pwhash("file", "names", "--csv", "--columns", "login", "--generate", "--look")
    assert (done.status, done.err) == (0, b""), done


def test_a_password_that_ends_like_a_heading_is_hashed() -> None:
    table = b"name,password\nuser,myname\ndbuser,password\n"
    done = pwhash("file", "--csv", *MD5CRYPT, "--accept-doubtful", stdin=table)
    expected = b"user:" + hashed(b"myname") + b"\ndbuser:" + MD5.encode() + b"\n"
    assert (done.status, done.out, done.err) == (0, expected, b""), done


def test_a_password_like_its_heading_is_hashed_if_the_first_column_has_no_heading() -> None:
    done = pwhash("file", "--csv", *MD5CRYPT, stdin=b",name,password\n0,ann,password\n")
    assert (done.status, done.out, done.err) == (0, b"ann:" + MD5.encode() + b"\n", b""), done
