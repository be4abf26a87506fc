"""Names on the command line where the locale isn't of UTF-8: their bytes are what counts."""
from __future__ import annotations

import subprocess
from pathlib import Path

import pytest
from support.pwhash_runs import MD5, MD5CRYPT, hashed, pwhash, read, save

# The second byte of each of these letters is a control character of ISO-8859-1.
NAMES = ["Änne", "Weiß", "Þór", "ann"]
LATIN1 = "Günter".encode("latin-1")
AFTER = hashed(b"password")
CHARACTERS = "/usr/share/i18n/charmaps/ISO-8859-1.gz"


@pytest.fixture(name="locale", params=["C", "POSIX", "en_US.ISO-8859-1"], autouse=True)
def fixture_locale(
    request: pytest.FixtureRequest, monkeypatch: pytest.MonkeyPatch, locales: Path
) -> None:
    """A locale that isn't of UTF-8."""
    monkeypatch.setenv("LOCPATH", str(locales))
    monkeypatch.setenv("LC_ALL", request.param)


@pytest.fixture(name="locales", scope="module")
def fixture_locales(tmp_path_factory: pytest.TempPathFactory) -> Path:
    """A folder with a locale of ISO-8859-1."""
    folder = tmp_path_factory.mktemp("locales")
    command = ["localedef", "-i", "en_US", "-f", "ISO-8859-1", f"{folder}/en_US.ISO-8859-1"]
    subprocess.run(command, check=True, stdout=subprocess.DEVNULL)
    return folder


pytestmark = pytest.mark.needs("localedef", CHARACTERS)


@pytest.mark.parametrize("name", NAMES)
def test_the_line_of_a_name_is_changed(name: str) -> None:
    save("passwords", f"bob:{MD5}\n{name}:{MD5}:1\n".encode())
    done = pwhash("set", *MD5CRYPT, "passwords", name.encode(), stdin=b"other\n")
    expected = f"bob:{MD5}\n{name}:".encode() + hashed(b"other") + b":1\n"
    assert (done.status, read("passwords")) == (0, expected), done
    assert f"{name} has a new password".encode() in done.err, done


@pytest.mark.parametrize("name", NAMES)
def test_a_new_name_is_added(name: str) -> None:
    save("passwords", b"")
    done = pwhash("set", *MD5CRYPT, "passwords", name.encode(), stdin=b"password\n")
    assert (done.status, read("passwords")) == (0, name.encode() + b":" + AFTER + b"\n"), done


@pytest.mark.parametrize("name", [*(each.encode() for each in NAMES), LATIN1])
def test_the_hash_of_a_name_is_found(name: bytes) -> None:
    save("passwords", b"bob:!\n" + name + b":" + AFTER + b"\n")
    done = pwhash("verify", "passwords", name, stdin=b"password\n")
    assert (done.status, done.out) == (0, b"yes, the password matches\n"), done


def test_a_name_of_a_file_in_another_encoding_is_found() -> None:
    save("passwords", LATIN1 + b":" + MD5.encode() + b"\n")
    done = pwhash("set", "passwords", LATIN1, "--lock")
    assert (done.status, read("passwords")) == (0, LATIN1 + b":!" + MD5.encode() + b"\n"), done


def test_a_name_that_is_not_utf8_is_not_added() -> None:
    """The file has it in UTF-8, and the terminal sends ISO-8859-1."""
    before = f"Günter:{MD5}\n".encode()
    save("passwords", before)
    words = ("set", *MD5CRYPT, "passwords", LATIN1)
    for more in (), ("--lock",), ("--delete",):
        done = pwhash(*words, *more, stdin=b"password\n")
        assert done.status in (1, 2) and b"UTF-8" in done.err, done
        assert read("passwords") == before, done
    done = pwhash("verify", "passwords", LATIN1, stdin=b"password\n")
    assert (done.status, done.out) == (2, b"") and b"UTF-8" in done.err, done
    done = pwhash(*words, "--accept-doubtful", stdin=b"password\n")
    assert (done.status, read("passwords")) == (0, before + LATIN1 + b":" + AFTER + b"\n"), done


@pytest.mark.parametrize("name", ["ann\u0085", "ann\u009b", "ann\x7f"])
def test_a_control_character_is_still_refused(name: str) -> None:
    save("passwords", b"bob:!\n")
    done = pwhash("set", *MD5CRYPT, "passwords", name.encode(), stdin=b"password\n")
    assert (done.status, read("passwords")) == (2, b"bob:!\n"), done
    assert b"control character" in done.err, done
