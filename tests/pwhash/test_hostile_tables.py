"""Tables that aren't what they seem: none is hashed in silence, and no password is shown."""
from __future__ import annotations

import pytest
from support.pwhash_runs import ANN, BOB, BY_NUMBER, MD5CRYPT, lines_named_in, pwhash, save

HEADING = b"name,password\n"
# Rows between two that are right.
ROWS = [
    pytest.param(b"'cid','secret'", id="single quotes"),
    pytest.param("\u201ccid\u201d,\u201csecret\u201d".encode(), id="quotes of a word processor"),
    pytest.param(b'"cid", "secret"', id="a blank before a quote"),
    pytest.param(b'"""cid""","secret"', id="doubled quotes around a name"),
    pytest.param(b"cid ,secret", id="a blank after the name"),
    pytest.param(b"cid,\tsecret", id="a tab before the password"),
    pytest.param(b"cid,secret\xc2\xa0", id="a no-break space after the password"),
    pytest.param("cid,\u3000secret".encode(), id="a full-width blank"),
    pytest.param("\uff43\uff49\uff44,secret".encode(), id="a full-width name"),
    pytest.param("cid,secret\uff11".encode(), id="a full-width digit"),
    pytest.param("cid\uff0csecret".encode(), id="a full-width comma"),
    pytest.param(b"cid,sec,ret", id="an unquoted comma"),
    pytest.param(b"cid;secret", id="another separator"),
    pytest.param(b"cid\tsecret", id="a tab for a comma"),
    pytest.param(b"cid:secret", id="a colon for a comma"),
    pytest.param(b"cid:secret,", id="a colon, and an empty field"),
    pytest.param(b"cid:secret,x", id="a colon in the name"),
    pytest.param(b",cid", id="a row shifted to the right"),
    pytest.param(b"cid", id="a row without a password"),
    pytest.param(b"cid,", id="an empty password"),
    pytest.param(b'cid,"sec\nret"', id="a line feed in the password"),
    pytest.param(b"secret Secret,cid", id="a passphrase in place of the name"),
    pytest.param(b"cid,=CONCATENATE(A1)", id="a formula"),
    pytest.param(b"cid,#NAME?", id="an error"),
    pytest.param(b"cid,$6$secretsecret$secretsecret", id="a hash for a password"),
    pytest.param(b"$6$secretsecret$secretsecret,", id="a hash for a name"),
]


@pytest.mark.parametrize("row", ROWS)
def test_an_odd_row_is_named_by_its_line(row: bytes) -> None:
    table = HEADING + b"ann,pw1\n" + row + b"\nbob,pw2\n"
    done = pwhash("file", "--csv", *MD5CRYPT, stdin=table)
    assert (done.status, done.out) == (1, ANN + BOB), done
    # A row with a line feed may be named by its first or its last line.
    assert set(lines_named_in(done.err)) & {3, 4} and b"secret" not in done.err, done
    done = pwhash("file", "--csv", "--look", save("table.csv", table))
    assert done.status == 1 and b"secret" not in done.err, done


@pytest.mark.parametrize(
    ("table", "words"),
    [
        pytest.param(
            "\uff4e\uff41\uff4d\uff45,password\nann,secret\n".encode(), (), id="full-width"
        ),
        pytest.param("name\uff0cpassword\nann\uff0csecret\n".encode(), (), id="a full-width comma"),
        pytest.param(b"'name','password'\n'ann','secret'\n", (), id="single quotes"),
        pytest.param(b"name password\nann secret\n", (), id="blanks between columns"),
        pytest.param(b"name,password,password\nann,,secret\n", (), id="two columns of passwords"),
        pytest.param(b"password,name\nsecret,ann\n", BY_NUMBER, id="swapped columns by number"),
        pytest.param(b"sep=;\nname;password\nann;secret\n", (), id="Excel's separator line"),
        pytest.param("name,password\nann,secret\n".encode("utf-16"), (), id="UTF-16"),
        pytest.param(b'name,password\nann,"secret\nbob,pw2\n', (), id="a quote without an end"),
        pytest.param(b'name,password\nann,"sec"ret\n', (), id="text after a quote"),
        pytest.param(b"name,password\rann,secret\r", (), id="line ends of an old Mac"),
        pytest.param(b"name,password\npass,user\nsecret,ann\n", (), id="a swapped heading again"),
    ],
)
def test_a_table_that_is_odd_as_a_whole_is_not_hashed(table: bytes, words: tuple[str, ...]) -> None:
    done = pwhash("file", "--csv", *MD5CRYPT, *words, stdin=table)
    assert done.status in (1, 2, 3) and b":$1$" not in done.out, done
    assert done.err and b"secret" not in done.err, done
