"""Options: numbers, empty values, and arguments that may be passwords."""
from __future__ import annotations

import pytest
from support.pwhash_runs import MD5, MD5CRYPT, hashed, pwhash, read, save


@pytest.mark.parametrize(
    "words",
    [
        pytest.param(("-R", "6k5"), id="a k within"),
        pytest.param(("-R", "kkk"), id="no digits"),
        pytest.param(("-R", "2kk"), id="two k"),
        pytest.param(("-R", "1kM"), id="k and M"),
        pytest.param(("-R", "20K"), id="a capital K"),
        pytest.param(("-R", ""), id="nothing"),
        pytest.param(("-R", " 2000"), id="a blank"),
        pytest.param(("-R", "2_000"), id="an underline"),
        pytest.param(("-R", "+2000"), id="a plus"),
        pytest.param(("-R", "٢٠٠٠"), id="other digits"),
        pytest.param(("-R", "1e4"), id="an exponent"),
        pytest.param(("--budget", "-1"), id="a minus"),
        pytest.param(("--budget=-1",), id="a minus after an equals sign"),
        pytest.param(("--budget", "1.5M"), id="a point"),
    ],
)
@pytest.mark.parametrize(
    "command", [(), ("file",), ("check",), ("audit", "-")], ids=["one", "file", "check", "audit"]
)
def test_a_value_that_is_not_a_number_is_refused(
    words: tuple[str, ...], command: tuple[str, ...]
) -> None:
    done = pwhash(*command, "-m", "sha512crypt", *words, stdin=b"x\n")
    option = words[0].partition("=")[0]
    assert (done.status, done.out) == (2, b"") and option.encode() in done.err, done
    assert b"number" in done.err and b"digits" in done.err, done


@pytest.mark.parametrize("number", ["9" * 25, "9" * 5000], ids=["25 digits", "5000 digits"])
def test_a_budget_above_the_greatest_number_is_refused(number: str) -> None:
    done = pwhash("--budget", number, stdin=b"x\n")
    assert (done.status, done.out) == (2, b"") and b"budget" in done.err, done
    assert b"ended" not in done.err, done


def test_thousands_and_millions_are_multiplied() -> None:
    done = pwhash("-m", "sha256crypt", "-R", "2k", "-S", "ab", "--budget", "1M", stdin=b"x\n")
    assert done.out == hashed(b"x", "$5$rounds=2000$ab") + b"\n", done


def test_zero_rounds_are_refused() -> None:
    done = pwhash("-R", "0", stdin=b"x\n")
    assert (done.status, done.out) == (2, b"") and b"1000" in done.err, done


@pytest.mark.parametrize("option", ["-o", "--columns", "--shadow"])
def test_an_option_with_an_empty_value_is_refused(option: str) -> None:
    """A script may pass a variable that isn't set."""
    save("passwords", b"ann:$1$x$x:password\n")
    command = ("check",) if option == "--shadow" else ("file", *MD5CRYPT)
    done = pwhash(*command, "passwords", option, "")
    assert (done.status, done.out) == (2, b"") and b"empty" in done.err, done


@pytest.mark.parametrize("command", ["file", "check", "audit"])
def test_a_file_without_a_name_is_refused(command: str) -> None:
    """A script may pass a variable that isn't set."""
    done = pwhash(command, "")
    assert (done.status, done.out) == (2, b"") and b"FILE is empty" in done.err, done


@pytest.mark.parametrize(
    "words",
    [
        ("hunter2",),
        ("file", "list", "hunter2"),
        ("--password=hunter2",),
        ("--generate=hunter2",),
    ],
    ids=" ".join,
)
def test_no_message_repeats_an_argument_that_may_be_a_password(words: tuple[str, ...]) -> None:
    done = pwhash(*words, stdin=b"x\n")
    assert (done.status, done.out) == (2, b"") and b"hunter2" not in done.err, done


def test_an_argument_after_h_is_not_repeated() -> None:
    """Since Python 3.13, argparse prints the help instead of an error."""
    done = pwhash("-hhunter2", stdin=b"x\n")
    assert b"hunter2" not in done.out + done.err, done


def test_an_unknown_option_is_named() -> None:
    done = pwhash("--rouns", "hunter2", stdin=b"x\n")
    assert done.status == 2 and b"--rouns" in done.err and b"hunter2" not in done.err, done


def test_a_budget_of_0_checks_no_cost() -> None:
    done = pwhash("check", "--budget", "0", stdin=b"ann:" + MD5.encode() + b":password\n")
    assert (done.status, done.out) == (1, b""), done


@pytest.mark.parametrize(
    "words",
    [
        pytest.param(("--accept-doubtful", "users", "ann"), id="before both"),
        pytest.param(("users", "--accept-doubtful", "ann"), id="between"),
        pytest.param(("users", "ann", "--accept-doubtful"), id="after both"),
        pytest.param(("-m", "md5crypt", "users", "--quiet", "--", "ann"), id="before two dashes"),
    ],
)
def test_an_option_may_come_between_file_and_name(words: tuple[str, ...]) -> None:
    save("users", b"ann:" + MD5.encode() + b"\n")
    done = pwhash("set", "-S", "saltsalt", *words, stdin=b"a password of several words\n")
    assert (done.status, done.out) == (0, b""), done
    assert read("users") != b"ann:" + MD5.encode() + b"\n"


@pytest.mark.parametrize("option", ["-R--", "--out=--", "--columns=--"])
def test_two_dashes_are_no_value_of_an_option(option: str) -> None:
    save("list", b"ann:password\n")
    done = pwhash("file", option, "list")
    assert done.status == 2 and b"--" in done.err and b"bug" not in done.err, done


def test_a_word_after_two_dashes_is_not_an_option() -> None:
    done = pwhash("verify", "--quiet", "--", "--budget", "ann", stdin=b"x\n")
    assert done.status == 3 and b"--budget" in done.err and b"No such file" in done.err, done


@pytest.mark.parametrize(
    "words",
    [
        pytest.param(("--", "--lock", "-ann"), id="in front"),
        pytest.param(("--quiet", "--", "--lock", "-ann"), id="behind an option"),
        pytest.param(("./--lock", "--quiet", "--", "-ann"), id="between"),
    ],
)
def test_words_after_two_dashes_are_file_and_name(words: tuple[str, ...]) -> None:
    save("--lock", b"-ann:" + MD5.encode() + b"\n")
    done = pwhash("verify", *words, stdin=b"password\n")
    assert (done.status, done.out) == (0, b"yes, the password matches\n"), done


def test_an_option_after_two_dashes_is_a_word_too_many() -> None:
    save("list", b"ann:password\n")
    done = pwhash("file", "-m", "md5crypt", "--", "list", "--accept-doubtful")
    assert (done.status, done.out) == (2, b"") and b"too many" in done.err, done
