"""The program as a user sees it: what it prints and how it uses the system, beyond the clauses.

Each run must end with the right status, print the expected output on the right stream, and
nothing on the other one. The fixed hashes are libxcrypt's, and passlib's for passwords of 512
bytes and more, which libxcrypt refuses.
"""
from __future__ import annotations

import re
from pathlib import Path

import pytest
from support import ROOT
from support.libxcrypt import crypt
from support.model.methods import BY_NAME
from support.model.work import LONGEST_PASSWORD
from support.process import Result, Word, assert_result, run

Words = list[Word]
A_FOLDER = Path("/")  # can be opened, but not read

MD5_WORDS: Words = ["-m", "md5crypt", "-S", "xxxxxxxx"]
MD5 = b"$1$xxxxxxxx$UYCIxa628.9qXjpQCjM4a."
MD5_OF_513_BYTES = b"$1$xxxxxxxx$jveVzs/NezMzUjhy1v7Fo."
MD5_OF_LONGEST = b"$1$xxxxxxxx$K/D5CvaOI4iV5zX0cnQoW0"
MD5_OF_EMPTY = b"$1$xxxxxxxx$IqF7NosA6k6TofrEZx5/s/"
MD5_OF_DASH_X = b"$1$xxxxxxxx$MWSnubVzT.7B0aCCVf9l0/"
SHA256_AB = b"$5$rounds=1000$ab$1w1vy5uCLDQWfIMwmaMatnSGmBa34fZnvo3JO2w3CP1"
SHA512_TOO_LOW = (
    b"$6$rounds=1000$roundstoolow$kUMsbe306n21p9R.FRkW3IGn.S9NPN0x50YhH1xhLsPu"
    b"WGsUSklZt58jaTfF4ZEQpyUNGc0dqbpBYYBaHHrsX."
)
LONGEST = b"a" * LONGEST_PASSWORD
LONG_WORD = "a" * 100_000  # takes more memory than any valid argument
METHODS = b"Available methods:\nmd5crypt\nsha256crypt\nsha512crypt\nscrypt\n"
DIGIT = rb"[./0-9A-Za-z]"  # of a salt or a digest


def assert_refused_by_option_parser(result: Result, named: str) -> None:
    """Fails unless the option parser ends the run with status 2 and a message that has `named`."""
    message = result.stderr.decode()
    is_refused = result.status == 2 and result.stdout == b"" and named in message
    assert is_refused, f"expected status: 2\nexpected stderr: ..{named}..\n{result}"


def assert_fault(result: Result, status: int, message: str) -> None:
    """Fails unless the program printed this message and ended with this status."""
    assert_result(result, status=status, stderr=f"mkpasswd: {message}\n".encode())


# ---- Arguments


@pytest.mark.parametrize("option", ["-V", "--version"])
def test_the_version_is_that_of_the_source_tree(program: Path, option: str) -> None:
    version = run(ROOT / "tools/version").required().stdout
    assert_result(run(program, option), stdout=b"mkpasswd " + version)


@pytest.mark.parametrize(
    ("words", "named"),
    [
        pytest.param([*MD5_WORDS, "-Q", "password"], "'-Q'", id="an unknown option"),
        pytest.param(["-m", "help", "-Q"], "'-Q'", id="an unknown option beside help"),
        pytest.param(
            ["-5", "secret"],
            "error: unexpected argument '-5' found\n\nUsage: ",
            id="a digit as an option",
        ),
        pytest.param(
            ["--x\ny"],
            "error: unexpected argument '--x\ny' found\n\nUsage: ",
            id="an option with a line feed",
        ),
        pytest.param(["-m"], "'--method <TYPE>'", id="an option without its value"),
        pytest.param(["password", "ab", "third"], "'third'", id="a third argument"),
        pytest.param(["-R", "4294967296", "x"], "'--rounds <NUMBER>'", id="rounds of 33 bits"),
        pytest.param(["-R", "", "x"], "'--rounds <NUMBER>'", id="empty rounds"),
        pytest.param(["-R", "-1", "x"], "'-1'", id="negative rounds"),
        pytest.param(
            ["--check", "--budget", "18446744073709551616"],
            "'--budget <NUMBER>'",
            id="a budget of 65 bits",
        ),
        pytest.param(
            ["--check", "--budget", "few"], "'--budget <NUMBER>'", id="a budget that isn't a number"
        ),
        pytest.param(
            ["--batch", "--first-line", "0"], "'--first-line <NUMBER>'", id="a first line of 0"
        ),
        pytest.param(
            ["--batch", "--first-line", "4294967296"],
            "'--first-line <NUMBER>'",
            id="a first line of 33 bits",
        ),
        pytest.param(
            ["--batch", "--first-line", "x"], "'--first-line <NUMBER>'", id="a first line of x"
        ),
        pytest.param(
            ["--check", "--first-line", "1", "--first-line", "2"],
            "'--first-line <NUMBER>' cannot be used multiple times",
            id="two first lines",
        ),
        pytest.param(
            ["--check"] * 200,
            "'--check' cannot be used multiple times",
            id="an option two hundred times",
        ),
    ],
)
def test_the_option_parser_refuses(program: Path, words: Words, named: str) -> None:
    assert_refused_by_option_parser(run(program, *words), named)


# As many arguments as the command accepts. Two of them are salts.
OPTIONS: Words = ["-m", "md5", "-S", "ab", "-R", "5", "--work", "-s"]
MODES: Words = ["--batch", "--check", "--audit"]
ALL_WORDS: Words = [*OPTIONS, *MODES, "--", "x", "cd"]


def test_all_arguments_are_read(program: Path) -> None:
    assert_fault(run(program, *ALL_WORDS), 2, "two salts")


def test_the_first_excess_argument_is_named(program: Path) -> None:
    result = run(program, *ALL_WORDS, *["--check"] * 200)
    assert_refused_by_option_parser(result, "unexpected argument '--check'")


@pytest.mark.parametrize(
    ("words", "given"),
    [
        pytest.param(["--method", "help", "-S", "ab", "x", "cd"], b"", id="beside two salts"),
        pytest.param(
            ["-m", "help", "-R", "12", "-s", "--work", "x"], A_FOLDER, id="and nothing is read"
        ),
    ],
)
def test_the_methods_are_listed(program: Path, words: Words, given: bytes | Path) -> None:
    assert_result(run(program, *words, stdin=given), stdout=METHODS)


@pytest.mark.parametrize("name", sorted(BY_NAME))
def test_the_longest_salt_is_accepted(program: Path, name: str) -> None:
    method = BY_NAME[name]
    salt = b"a" * method.longest_salt
    result = run(program, "-m", name, "-R", 6, "-S", salt, "x").required()
    cost = rb"(rounds=1000\$|[^$]{11})?"  # SHA-crypt's rounds, scrypt's cost, or none
    form = re.escape(method.prefix) + cost + salt + rb"\$%b+\n" % DIGIT
    assert re.fullmatch(form, result.stdout), result


@pytest.mark.parametrize("name", sorted(BY_NAME))
def test_a_longer_salt_is_refused(program: Path, name: str) -> None:
    salt = b"a" * (BY_NAME[name].longest_salt + 1)
    assert_fault(run(program, "-m", name, "-R", 6, "-S", salt, "x"), 2, "salt length")


@pytest.mark.parametrize(
    ("message", "words"),
    [
        pytest.param(
            "unknown method", ["-m", "sha1", "-S", "ab", "x", "cd"], id="another method first"
        ),
        pytest.param("unknown method", ["-m", "", "x"], id="an empty method"),
        pytest.param("unknown method", ["-m", "MD5", "x"], id="a method in capitals"),
        pytest.param("unknown method", ["-m", "md5cryp", "x"], id="an incomplete method"),
        pytest.param("unknown method", ["-m", LONG_WORD, "x"], id="a long method"),
        pytest.param("two salts", ["-S", "ab", "x", "ab"], id="two equal salts"),
        pytest.param(
            "two salts",
            ["-m", "md5crypt", "-s", "-S", "a-b", "x", "cd"],
            id="two salts before two modes and a wrong character",
        ),
        pytest.param("two salts", ["-S", "ab", LONG_WORD, LONG_WORD], id="a long second salt"),
        pytest.param("two modes", ["-s", "x", "a-b"], id="-s and a password"),
        pytest.param("two modes", ["-s", "--batch"], id="-s and --batch"),
        pytest.param("two modes", ["--batch", "--check"], id="--batch and --check"),
        pytest.param("two modes", ["--check", "x"], id="--check and a password"),
        pytest.param("two modes", ["--audit", "--check"], id="--audit and --check"),
        pytest.param("two modes", ["--audit", "x"], id="--audit and a password"),
        pytest.param(
            "salt length", ["--batch", "-S", "seventeen.letters"], id="a salt of 17 for SHA-crypt"
        ),
        pytest.param(
            "salt length", ["-m", "md5", "password", "nineChars"], id="a salt of 9 for md5crypt"
        ),
        pytest.param(
            "salt length",
            ["-m", "scrypt", "-R", "5", "-S", "", "password"],
            id="an empty salt before a wrong cost",
        ),
        pytest.param(
            "salt length",
            ["-m", "md5", "-S", "a-b-c-d-e", "x"],
            id="a long salt before its wrong characters",
        ),
        pytest.param("salt length", ["-S", LONG_WORD, "x"], id="a very long salt"),
        pytest.param("salt character", ["--check", "-S", "a-b"], id="a salt that isn't needed"),
        pytest.param(
            "salt character",
            ["-m", "scrypt", "-R", "5", "password", "a-b"],
            id="a wrong character before a wrong cost",
        ),
        pytest.param("cost", ["-m", "scrypt", "-R", "12", "x"], id="a cost that is too high"),
        pytest.param(
            "cost", ["--check", "-m", "scrypt", "-R", "12"], id="a cost that isn't needed"
        ),
    ],
)
def test_invalid_arguments_are_refused(program: Path, message: str, words: Words) -> None:
    assert_fault(run(program, *words), 2, message)


def test_a_cost_is_refused_before_the_password_is_read(program: Path) -> None:
    result = run(program, "-m", "scrypt", "-R", "5", "-S", "ab", "-s", stdin=A_FOLDER)
    assert_fault(result, 2, "cost")


def test_an_argument_that_is_not_utf_8_is_a_start_fault(program: Path) -> None:
    assert_fault(run(program, b"\xff"), 3, "start fault")


# ---- Passwords


@pytest.mark.parametrize(
    ("words", "expected"),
    [
        pytest.param([*MD5_WORDS, "a" * 513], MD5_OF_513_BYTES, id="513 bytes"),
        pytest.param([*MD5_WORDS, LONGEST], MD5_OF_LONGEST, id="the most bytes"),
        pytest.param([*MD5_WORDS, ""], MD5_OF_EMPTY, id="none"),
        pytest.param([*MD5_WORDS, "--", "-x"], MD5_OF_DASH_X, id="like an option"),
        pytest.param(
            ["password", "--salt=xxxxxxxx", "--method", "md5"], MD5, id="options after it"
        ),
        pytest.param(
            ["-mmd5", "-Sxxxxxxxx", "--", "password"], MD5, id="options joined to their values"
        ),
        pytest.param(
            ["--method=sha256crypt", "--rounds=1000", "--salt", "ab", "password"],
            SHA256_AB,
            id="long options",
        ),
        pytest.param(
            [*MD5_WORDS, "--work", "password"], MD5 + b":1002:36239:0:0", id="and its work"
        ),
        pytest.param(
            ["-m", "md5", "--budget", "0", "password", "xxxxxxxx"], MD5, id="a budget without lines"
        ),
        pytest.param(
            ["--rehash", "-m", "md5", "password", "xxxxxxxx"], MD5, id="--rehash without lines"
        ),
    ],
)
def test_a_password_in_the_arguments_is_hashed(
    program: Path, words: Words, expected: bytes
) -> None:
    assert_result(run(program, *words), stdout=expected + b"\n")


@pytest.mark.parametrize(
    ("given", "words", "expected"),
    [
        pytest.param(b"password", [*MD5_WORDS, "-s"], MD5, id="without a line feed"),
        pytest.param(b"password\n", [*MD5_WORDS, "-s"], MD5, id="with a line feed"),
        pytest.param(b"password\nmore", [*MD5_WORDS, "-s"], MD5, id="before another line"),
        pytest.param(
            b"password\nmore\0\n" + LONGEST + LONGEST + b"\n",
            MD5_WORDS,
            MD5,
            id="without -s, before lines that are invalid passwords",
        ),
        pytest.param(LONGEST + b"\nb\n", [*MD5_WORDS, "-s"], MD5_OF_LONGEST, id="the most bytes"),
        pytest.param(b"", [*MD5_WORDS, "-s"], MD5_OF_EMPTY, id="none"),
        pytest.param(b"-x\n", [*MD5_WORDS, "-s"], MD5_OF_DASH_X, id="like an option"),
        pytest.param(
            b"the minimum number is still observed",
            ["-R", "10", "-S", "roundstoolow", "-s", "--work"],
            SHA512_TOO_LOW + b":1004:142068:0:0",
            id="with fewer rounds than the minimum",
        ),
    ],
)
def test_a_password_on_standard_input_is_hashed(
    program: Path, given: bytes, words: Words, expected: bytes
) -> None:
    assert_result(run(program, *words, stdin=given), stdout=expected + b"\n")


@pytest.mark.parametrize("length", [512, LONGEST_PASSWORD])
def test_a_long_password_is_hashed_with_a_drawn_salt(program: Path, length: int) -> None:
    result = run(program, "-s", stdin=b"a" * length + b"\nb\n")
    form = rb"\$6\$%b{16}\$%b{86}\n" % (DIGIT, DIGIT)
    assert result.status == 0 and re.fullmatch(form, result.stdout), result


@pytest.mark.parametrize(
    ("message", "words", "given"),
    [
        pytest.param(
            "password too long", ["-m", "md5", "-S", "ab", LONGEST + b"a"], b"", id="a long one"
        ),
        pytest.param(
            "password too long", ["-m", "md5", "-S", "ab", LONG_WORD], b"", id="a very long one"
        ),
        pytest.param("password too long", ["-s"], LONGEST + b"a", id="a long input"),
        pytest.param("password too long", [], LONGEST + b"a\n", id="a long line"),
        pytest.param("password has a zero byte", ["-s"], b"a\0b\n", id="a zero byte within"),
        pytest.param(
            "password has a zero byte", ["-m", "scrypt", "-S", "ab", "-s"], b"\0", id="a zero byte"
        ),
    ],
)
def test_a_password_is_refused(program: Path, message: str, words: Words, given: bytes) -> None:
    assert_fault(run(program, *words, stdin=given), 2, message)


# ---- Devices


@pytest.mark.parametrize(
    "words",
    [
        pytest.param(["-s"], id="with -s"),
        pytest.param(["-m", "md5", "-S", "ab"], id="without a mode"),
        pytest.param(["--batch"], id="with --batch"),
        pytest.param(["--check"], id="with --check"),
        pytest.param(["--audit"], id="with --audit"),
    ],
)
def test_an_input_that_cannot_be_read_is_a_read_fault(program: Path, words: Words) -> None:
    assert_fault(run(program, *words, stdin=A_FOLDER), 3, "read fault")


def test_a_closed_input_is_a_read_fault(program: Path) -> None:
    assert_fault(run("sh", "-c", 'exec "$0" -s <&-', program), 3, "read fault")


@pytest.mark.parametrize(
    "words",
    [
        pytest.param(["-m", "md5", "-S", "ab", "password"], id="of a hash with a given salt"),
        pytest.param(["-m", "md5", "-s"], id="of a hash with a drawn salt"),
        pytest.param(["-m", "help"], id="of the methods"),
        pytest.param(["--batch", "-m", "md5", "-S", "ab"], id="of --batch"),
        pytest.param(["--audit"], id="of --audit"),
        pytest.param(["--help"], id="of help"),
        pytest.param(["-V"], id="of the version"),
    ],
)
def test_a_full_output_is_a_write_fault(program: Path, words: Words) -> None:
    result = run(program, *words, stdin=b"ann:x\n", stdout=Path("/dev/full"))
    assert_fault(result, 3, "write fault")


# ---- Lines

HELLO = b"a:$5$saltstring$5B8vYYiY.CVt1RlTTf8KbXBH3hsxY/GNooZaBBGWEc5:Hello world!\n"
HELLO_NEW = (
    b"$6$rounds=10000$saltstringsaltst$OW1/O6BYHV6BcXZu8QVeXbDWra3Oeqh0sbHbbMCVNSnCM/UrjmM0Dp8v"
    b"OuZeHBy/YTBmSK6H9qs/y3RnOaw5v."
)
EMPTY_SCRYPT = b"$7$2/..../....$rNxJWVHNv/mCNcgE/f6/L4zO6Fos5c2uTzhyzoisI62"
OLD_SCRYPT = b"z:$7$86....E....NaCl$xffjQo7Bm/.SKRS4B2EuynbOLjAmXU5AbDbRXhoBl64:password\n"
REHASH_TO_MD5: Words = ["--check", "--rehash", "--work", *MD5_WORDS]
COST_OF_REHASH = 33693235  # of a check of OLD_SCRYPT, and a new hash by REHASH_TO_MD5


@pytest.mark.parametrize(
    ("words", "given", "answers"),
    [
        pytest.param(
            ["--check", "--work"],
            b"ann:%b:password" % MD5,
            b"ann:ok:1002:36239:0:0\n",
            id="a password of md5crypt, and its work",
        ),
        pytest.param(
            ["--check", "--work"],
            b"s:%b:" % EMPTY_SCRYPT,
            b"s:ok:10:948:32:2048\n",
            id="the empty password of scrypt without a salt, and its work",
        ),
        pytest.param(
            ["--check"], b"b:!:x\nc::x\n", b"b:locked\nc:none\n", id="a locked field and none"
        ),
        pytest.param(
            ["--check", "--rehash", "-R", "10000", "-S", "saltstringsaltst"],
            HELLO,
            b"a:ok:%b\n" % HELLO_NEW,
            id="a new hash",
        ),
        pytest.param(
            [*REHASH_TO_MD5, "--budget", COST_OF_REHASH],
            OLD_SCRYPT,
            b"z:ok:%b:2028:138803:32768:1048576\n" % MD5,
            id="a new hash, the work of both, and their cost as the budget",
        ),
    ],
)
def test_lines_are_answered(program: Path, words: Words, given: bytes, answers: bytes) -> None:
    assert_result(run(program, *words, stdin=given), stdout=answers)


@pytest.mark.parametrize(
    ("words", "given"),
    [
        # Each budget is one less than what the line can cost.
        pytest.param(
            ["--check", "--budget", 89523813983],
            b"h:$6$rounds=999999999$saltstringsaltst$:password",
            id="a check of sha512crypt with the most rounds",
        ),
        pytest.param(
            ["--check", "--budget", 57523813983],
            b"h:$5$rounds=999999999$saltstringsaltst$:password",
            id="a check of sha256crypt with the most rounds",
        ),
        pytest.param(
            ["--check", "--budget", 2147486947],
            b"h:$7$J2..../....$:",
            id="a check of scrypt at its ceiling",
        ),
        pytest.param(
            ["--check", "--budget", 5435818147],
            b"h:$7$/...E./....$:",
            id="a check of scrypt with the greatest r",
        ),
        pytest.param(
            ["--batch", "-R", "4294967295", "--budget", 89523813983],
            b"ann:password",
            id="a hash by sha512crypt with the most rounds",
        ),
        pytest.param(
            ["--batch", "-m", "scrypt", "-R", "11", "--budget", 2147511715],
            b"ann:password",
            id="a hash by scrypt with the highest cost",
        ),
        pytest.param(
            [*REHASH_TO_MD5, "--budget", COST_OF_REHASH - 1],
            OLD_SCRYPT,
            id="a new hash beside the old one",
        ),
    ],
)
def test_a_budget_too_small_by_one_refuses(program: Path, words: Words, given: bytes) -> None:
    """Some of these lines would take minutes if the budget didn't refuse them."""
    result = run(program, *words, stdin=given, timeout=30)
    assert_fault(result, 1, "line 1: over budget")


# ---- Drawn salts


@pytest.mark.parametrize(
    ("words", "before_salt", "length"),
    [
        pytest.param(["-m", "md5crypt", "password"], b"$1$", 8, id="by md5crypt"),
        pytest.param(["-m", "sha256crypt", "password"], b"$5$", 16, id="by sha256crypt"),
        pytest.param(["-m", "sha512crypt", "-s"], b"$6$", 16, id="by sha512crypt with -s"),
        pytest.param([], b"$6$", 16, id="without words"),
        pytest.param(["-R", "1", "password"], b"$6$rounds=1000$", 16, id="with rounds"),
        pytest.param(["-m", "scrypt", "password"], b"$7$CU..../....", 22, id="by scrypt"),
    ],
)
def test_each_run_draws_another_salt(
    program: Path, words: Words, before_salt: bytes, length: int
) -> None:
    """Each hash must be libxcrypt's with the same salt."""
    form = re.escape(before_salt) + rb"(%b{%d})\$%b+\n" % (DIGIT, length, DIGIT)
    salts = []
    for _ in range(2):
        result = run(program, *words, stdin=b"password\n")
        match = re.fullmatch(form, result.stdout)
        assert match is not None, f"expected stdout: {form!r}\n{result}"
        assert_result(result, stdout=crypt(b"password", result.stdout.rstrip(b"\n")) + b"\n")
        salts.append(match[1])
    assert salts[0] != salts[1]


def test_a_thousand_runs_draw_a_thousand_salts(program: Path) -> None:
    """A seed of only sixteen bits would almost always repeat a salt."""
    hashes = {run(program, "-m", "md5crypt", "x").stdout for _ in range(1000)}
    assert len(hashes) == 1000
