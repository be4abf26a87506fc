"""Options that are given twice: pwhash drops no value silently."""

from __future__ import annotations

import os

import pytest
from support.pwhash_runs import hashed, pwhash, save


@pytest.mark.parametrize(
    ("words", "option"),
    [
        pytest.param(("-R", "x", "-R", "5000"), b"-R", id="not a number first"),
        pytest.param(("-R", "1", "-R", "5000"), b"-R", id="too few rounds first"),
        pytest.param(("-R", "5000", "-R", "1"), b"-R", id="too few rounds last"),
        pytest.param(("-R", "5000", "--rounds=6000"), b"--rounds", id="rounds, both valid"),
        pytest.param(("-m", "descrypt", "-m", "sha512crypt"), b"-m", id="an unknown method first"),
        pytest.param(("-m", "md5crypt", "-m", "sha512crypt"), b"-m", id="methods, both valid"),
        pytest.param(("-S", "b@d", "-S", "good"), b"-S", id="an invalid salt first"),
        pytest.param(("--budget", "1", "--budget", "100M"), b"--budget", id="budgets"),
    ],
)
@pytest.mark.parametrize("command", [(), ("file",)], ids=["one", "file"])
def test_an_option_with_a_value_may_be_given_only_once(
    words: tuple[str, ...], option: bytes, command: tuple[str, ...]
) -> None:
    done = pwhash(*command, *words, stdin=b"ann:x\n")
    assert (done.status, done.out) == (2, b"") and option in done.err, done


@pytest.mark.parametrize(
    "words",
    [
        pytest.param(("check", "--shadow", "list", "--shadow", "other"), id="--shadow"),
        pytest.param(("file", "-o", "hashes", "--out", "others", "list"), id="-o"),
        pytest.param(("file", "--csv", "--columns", "1,2", "--columns", "2,1"), id="--columns"),
        pytest.param(("file", "--for", "apache", "--for", "ldap"), id="--for"),
    ],
)
def test_two_values_for_one_option_are_refused(words: tuple[str, ...]) -> None:
    save("list", b"ann:x\n")
    save("other", b"ann:x\n")
    done = pwhash(*words, "-m", "md5crypt", stdin=b"ann:x\n")
    assert (done.status, done.out) == (2, b"") and b"twice" in done.err, done
    assert sorted(os.listdir()) == ["list", "other"], done


def test_an_option_without_a_value_may_be_repeated() -> None:
    words = ("file", "--quiet", "--quiet", "-m", "md5crypt", "-S", "xxxxxxxx", "--windows")
    done = pwhash(*words, "--windows", stdin=b"ann:x\r\n")
    assert (done.status, done.out) == (0, b"ann:" + hashed(b"x") + b"\n"), done
