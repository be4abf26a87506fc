"""pwhash check --shadow: lists of known passwords, tried against stored hashes."""
from __future__ import annotations

import pytest
from support.pwhash_runs import BOM, MD5, hashed, pwhash, read, save


@pytest.mark.parametrize(
    ("word", "reason"),
    [
        pytest.param(b"x" * 1100, b"password too long", id="too long"),
        pytest.param(b"x" * 3000, b"too long", id="much too long"),
        pytest.param(b"a\0b", b"zero byte", id="a zero byte"),
        pytest.param(b"x" * 500, b"over budget", id="too costly"),
    ],
)
@pytest.mark.parametrize("name", [b"", b"ann:"], ids=["for all", "for one"])
def test_a_refused_password_is_named_by_its_line(name: bytes, word: bytes, reason: bytes) -> None:
    costly = hashed(b"password", "$6$rounds=400000$saltsaltsaltsalt")
    save("shadow", b"ann:%b:1:::\nbob:%b:1:::\n" % (costly, costly))
    tried = b"first\n" + name + word + b"\n" + b"ann:password\n"
    done = pwhash("check", "--shadow", "shadow", stdin=tried)
    assert done.status == 1 and b"ann:ok\n" in done.out, done
    assert done.err.count(b"pwhash: standard input, line 2: not tried") == 1, done
    assert reason in done.err, done
    assert b"ann isn't checked" not in done.err and b"xx" not in done.err, done


@pytest.mark.parametrize(
    ("line", "does_windows_drop_it"),
    [
        pytest.param(BOM + b"ann:password", True, id="a mark before a name"),
        pytest.param(BOM + b"password", True, id="a mark before a lone password"),
        pytest.param(b"password\r", True, id="a carriage return after a password"),
        pytest.param(b"ann:pass" + BOM + b"word", False, id="a mark in a password"),
    ],
)
def test_a_list_of_known_passwords_reports_marks_and_carriage_returns(
    line: bytes, does_windows_drop_it: bool
) -> None:
    save("shadow", b"ann:" + MD5.encode() + b":1:::\n")
    lines = b"ann:other\n" + line + b"\n"
    done = pwhash("check", "--shadow", "shadow", stdin=lines)
    assert done.status == 1 and b"ann:ok" not in done.out, done
    message = b"standard input, line 2: a carriage return or a byte order mark"
    assert message in done.err and b"word" not in done.err, done
    done = pwhash("check", "--windows", "--shadow", "shadow", stdin=lines)
    assert (b"ann:ok" in done.out) == does_windows_drop_it, done
    assert (message in done.err) != does_windows_drop_it, done


# ---- Findings

HASH = MD5.encode()
SHADOW = b"ann:%b:1:::\nbob:%b:1:::\neve:!:1:::\nann:*:1\n" % (HASH, HASH)
LIST = b"ann:password\nbob:other\neve:x\nnobody:x\nann:second\n"


def test_each_password_is_tried_for_its_name() -> None:
    save("shadow", SHADOW)
    done = pwhash("check", "--shadow", "shadow", save("list", LIST))
    assert (done.status, done.out) == (1, b"ann:ok\nbob:no\neve:locked\nann:no\n"), done


def test_a_name_that_is_repeated_among_the_stored_hashes_is_named() -> None:
    save("shadow", b"ann:%b\nbob:%b\n#ann:x\nann:%b\n" % (HASH, HASH, hashed(b"second")))
    done = pwhash("check", "--shadow", "shadow", stdin=b"ann:password\n")
    assert (done.status, done.out) == (1, b"ann:ok\n"), done
    assert b"shadow, line 4 (ann): the name again, after line 1: " in done.err, done


def test_a_name_with_two_hashes_in_a_list_is_named() -> None:
    lines = b"ann:%b:password\nann:%b:second\nann:%b:other\n" % (HASH, hashed(b"second"), HASH)
    done = pwhash("check", stdin=lines)
    assert (done.status, done.out) == (1, b"ann:ok\nann:ok\nann:no\n"), done
    message = b"standard input, line 2: the name has another field in an earlier line"
    assert message in done.err, done


def test_several_passwords_for_one_hash_are_no_mistake() -> None:
    done = pwhash("check", stdin=b"ann:%b:other\nann:%b:password\n" % (HASH, HASH))
    assert (done.status, done.out, done.err) == (1, b"ann:no\nann:ok\n", b""), done


@pytest.mark.parametrize(
    "line",
    [
        pytest.param(b"TopSecret:ann", id="password:name"),
        pytest.param(b"$9$TopSecret:ann", id="hash:name"),
        pytest.param(b"ann,TopSecret:$9$x", id="a row"),
    ],
)
def test_a_password_in_place_of_a_name_is_not_shown(line: bytes) -> None:
    save("shadow", b"bob:%b\n%b\n" % (HASH, line))
    done = pwhash("check", "--shadow", "shadow", stdin=b"password\n")
    assert (done.status, done.out) == (1, b"bob:ok\n"), done
    assert b"isn't checked" in done.err and b"TopSecret" not in done.err, done


@pytest.mark.parametrize(
    ("lines", "where"),
    [
        pytest.param(LIST, b"line 4", id="one"),
        pytest.param(LIST + b"zoe:x\n", b"lines 4, 6", id="two"),
        pytest.param(
            b"nobody:x\n" * 21,
            f"lines {', '.join(map(str, range(1, 21)))} (the first 20)".encode(),
            id="more than are shown",
        ),
    ],
)
def test_names_without_a_stored_hash_are_named_by_their_lines(lines: bytes, where: bytes) -> None:
    save("shadow", SHADOW)
    done = pwhash("check", "--shadow", "shadow", save("list", lines))
    assert done.err.endswith(b"list, " + where + b": no such name in shadow.\n"), done


def test_a_password_that_matches_gets_a_new_hash() -> None:
    save("shadow", SHADOW)
    words = ("--rehash", "-m", "sha256crypt", "-R", "2000", "-S", "ab")
    done = pwhash("check", "--shadow", "shadow", *words, save("list", LIST), "-o", "new")
    assert (done.status, done.out) == (1, b""), done
    assert read("new") == b"ann:" + hashed(b"password", "$5$rounds=2000$ab") + b"\n"


ANN_AND_ANOTHER_METHOD = b"ann:%b:1\nyes:$y$j9T$x$y:1\n" % HASH


def test_a_table_of_known_passwords_is_tried() -> None:
    save("shadow", ANN_AND_ANOTHER_METHOD)
    table = save("list.csv", b"password;name\r\npassword;ann\r\n")
    done = pwhash("check", "--csv", "--shadow", "shadow", table)
    assert (done.status, done.out, done.err) == (0, b"ann:ok\n", b""), done


def test_a_name_without_a_stored_hash_fails_the_check() -> None:
    save("shadow", ANN_AND_ANOTHER_METHOD)
    done = pwhash("check", "--shadow", "shadow", stdin=b"ann:password\nzoe:x\n")
    assert (done.status, done.out) == (1, b"ann:ok\n"), done


def test_a_password_that_is_not_utf8_is_named_by_its_line() -> None:
    save("shadow", ANN_AND_ANOTHER_METHOD)
    done = pwhash("check", "--shadow", "shadow", stdin=b"\xff\n")
    assert done.err.endswith(b"a zero byte: 1.\n"), done


def test_a_password_with_a_lost_character_is_utf8() -> None:
    save("shadow", b"ann:" + HASH + b":1:::\n")
    done = pwhash("check", "--shadow", "shadow", stdin="Gr\ufffdn\npassword\n".encode())
    assert (done.status, done.out, done.err) == (1, b"ann:no\nann:ok\n", b""), done


def test_an_account_without_a_name_is_reported_in_words() -> None:
    save("shadow", b":" + HASH + b":1:::\nann:" + HASH + b":1:::\n")
    done = pwhash("check", "--shadow", "shadow", stdin=b"password\n")
    assert (done.status, done.out) == (1, b"ann:ok\n"), done
    assert done.err == b"pwhash: an account without a name isn't checked: no name\n", done


def test_a_file_without_stored_hashes_is_named() -> None:
    done = pwhash("check", "--shadow", save("lone", HASH + b"\n"), stdin=b"password\n")
    message = b"pwhash: lone has no line name:field.\n"
    assert (done.status, done.out, done.err) == (2, b"", message), done


def test_passwords_without_a_name_are_tried_for_all_names() -> None:
    """Names whose method can't be checked are reported."""
    save("shadow", ANN_AND_ANOTHER_METHOD)
    done = pwhash("check", "--shadow", "shadow", stdin=b"a\npassword\nb\n")
    assert (done.status, done.out) == (1, b"ann:no\nann:ok\nann:no\n"), done
    assert done.err == b"pwhash: yes isn't checked: unknown scheme\n", done


@pytest.mark.parametrize(("words", "hints"), [((), 1), (("--windows",), 0)])
def test_a_carriage_return_is_named_without_a_file_of_fields(
    words: tuple[str, ...], hints: int
) -> None:
    done = pwhash("check", *words, stdin=b"ann:" + MD5.encode() + b":password\r\n")
    assert done.out == (b"ann:no\n" if hints else b"ann:ok\n"), done
    assert done.err.count(b"line 1: a carriage return") == hints, done
