"""A piped password that is probably a mistake: pwhash refuses it and names the reason."""
from __future__ import annotations

import pytest
from support.pwhash_runs import BOM, MD5CRYPT, pwhash


@pytest.mark.parametrize(
    ("data", "reason"),
    [
        pytest.param(b"p\xe4ssword\n", b"UTF-8", id="Latin-1"),
        pytest.param("password\n".encode("utf-16"), b"UTF-8", id="UTF-16"),
        pytest.param("password\n".encode("utf-16-le"), b"zero", id="UTF-16 without a mark"),
        pytest.param(b"pass\tword\n", b"control character", id="a tab"),
        pytest.param(b"\x1b[200~password\n", b"control character", id="bracketed paste"),
        pytest.param("pass\u2800word\n".encode(), b"invisible", id="a blank Braille pattern"),
    ],
)
def test_one_doubtful_password_from_a_pipe_is_not_hashed(data: bytes, reason: bytes) -> None:
    done = pwhash(*MD5CRYPT, stdin=data)
    assert (done.status, done.out) == (2, b"") and reason in done.err, done
    # The messages' own word, as in `the password is`, or in `name:password`, doesn't count.
    shown = done.err.replace(b"password ", b"").replace(b":password", b"")
    assert b"word" not in shown, done


@pytest.mark.parametrize(
    ("password", "reason"),
    [
        pytest.param(BOM + b"hunter2", b"byte order mark", id="a mark"),
        pytest.param(BOM + b"hunter2\n", b"byte order mark", id="a mark, and a line feed"),
        pytest.param(BOM, b"byte order mark", id="a mark alone"),
        pytest.param(b"hunter2\r\n", b"carriage return", id="a carriage return at the end"),
        pytest.param(b"hun\rter2\n", b"carriage return", id="a carriage return within"),
        pytest.param(BOM + b"hunter2\r\n", b"carriage return", id="both"),
    ],
)
def test_one_password_with_a_mark_or_carriage_return_is_refused(
    password: bytes, reason: bytes
) -> None:
    done = pwhash(*MD5CRYPT, stdin=password)
    assert (done.status, done.out) == (2, b"") and reason in done.err, done
    assert b"hunter2" not in done.err, done
