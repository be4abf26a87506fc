"""Random passwords and salts: the program and libxcrypt give the same hashes.

Salts come from -S or an argument, passwords from an argument or standard input, with many costs.
Costs that no option can set are tested by checking libxcrypt's hashes. All random values follow
from fixed seeds.
"""
from __future__ import annotations

import enum
import random
from dataclasses import dataclass
from pathlib import Path

import pytest
from support.libxcrypt import crypt
from support.model.methods import ALPHABET
from support.model.settings import ScryptCost
from support.process import Word, assert_result, run

MOST_SALT_OF_MD5CRYPT = 8
MOST_SALT_OF_SHA_CRYPT = 16
MOST_SALT_OF_SCRYPT = 86

LONGEST_OF_LIBXCRYPT = 511  # bytes of a password
# Lengths in bytes: the least and the most, and those around the ends of digests and blocks.
EDGE_LENGTHS = (
    0,
    1,
    15,
    16,
    17,
    31,
    32,
    33,
    63,
    64,
    65,
    127,
    128,
    129,
    255,
    256,
    LONGEST_OF_LIBXCRYPT,
)


class Way(enum.Enum):
    """How the program gets the salt and the password."""

    SALT_OPTION_AND_WORD = "-S SALT PASSWORD"
    TWO_WORDS = "PASSWORD SALT"
    SALT_OPTION_AND_STDIN = "-S SALT -s"
    SALT_OPTION_AND_NOTHING = "-S SALT"

    @property
    def is_word(self) -> bool:
        """Whether the password is an argument, which can contain a line feed."""
        return self in (Way.SALT_OPTION_AND_WORD, Way.TWO_WORDS)

    def words(self, salt: bytes, password: bytes) -> list[Word]:
        """Returns the arguments of the command."""
        if self is Way.SALT_OPTION_AND_WORD:
            return ["-S", salt, "--", password]
        if self is Way.TWO_WORDS:
            return ["--", password, salt]
        if self is Way.SALT_OPTION_AND_STDIN:
            return ["-S", salt, "-s"]
        return ["-S", salt]

    def given(self, password: bytes) -> bytes:
        """Returns the standard input.

        With -s, another line follows the password, which otherwise ends without a line feed. If the
        password is an argument, there is only that other line.
        """
        if self.is_word:
            return b"more\n"
        if self is Way.SALT_OPTION_AND_STDIN:
            return password + b"\nmore\n"
        return password


@dataclass(frozen=True)
class Hashing:
    """A method and a cost as options, libxcrypt's setting for them, and how many cases are tried.

    The program raises rounds below 1000 to 1000. libxcrypt refuses them, so its setting has 1000.
    """

    options: str
    setting: bytes
    longest_salt: int
    cases: int

    def __str__(self) -> str:
        return self.options


HASHINGS = [
    Hashing("md5crypt", b"$1$", MOST_SALT_OF_MD5CRYPT, 102),
    Hashing("md5crypt -R 2000", b"$1$", MOST_SALT_OF_MD5CRYPT, 8),
    Hashing("sha256crypt", b"$5$", MOST_SALT_OF_SHA_CRYPT, 51),
    Hashing("sha256crypt -R 0", b"$5$", MOST_SALT_OF_SHA_CRYPT, 8),
    Hashing("sha256crypt -R 1", b"$5$rounds=1000$", MOST_SALT_OF_SHA_CRYPT, 17),
    Hashing("sha256crypt -R 1001", b"$5$rounds=1001$", MOST_SALT_OF_SHA_CRYPT, 17),
    Hashing("sha256crypt -R 5000", b"$5$rounds=5000$", MOST_SALT_OF_SHA_CRYPT, 8),
    Hashing("sha512crypt", b"$6$", MOST_SALT_OF_SHA_CRYPT, 51),
    Hashing("sha512crypt -R 0", b"$6$", MOST_SALT_OF_SHA_CRYPT, 8),
    Hashing("sha512crypt -R 999", b"$6$rounds=1000$", MOST_SALT_OF_SHA_CRYPT, 17),
    Hashing("sha512crypt -R 1000", b"$6$rounds=1000$", MOST_SALT_OF_SHA_CRYPT, 17),
    Hashing("sha512crypt -R 7321", b"$6$rounds=7321$", MOST_SALT_OF_SHA_CRYPT, 8),
    Hashing("scrypt", b"$7$" + ScryptCost(14, 32, 1).text, MOST_SALT_OF_SCRYPT, 4),
    Hashing("scrypt -R 6", b"$7$" + ScryptCost(13, 32, 1).text, MOST_SALT_OF_SCRYPT, 17),
    Hashing("scrypt -R 8", b"$7$" + ScryptCost(15, 32, 1).text, MOST_SALT_OF_SCRYPT, 1),
]
# With a table of 1 GiB.
HIGHEST_COST = Hashing("scrypt -R 11", b"$7$" + ScryptCost(18, 32, 1).text, MOST_SALT_OF_SCRYPT, 1)


@dataclass(frozen=True)
class Case:
    """A salt, a password, and how the program gets them."""

    salt: bytes
    password: bytes
    way: Way


def random_salt(source: random.Random, length: int) -> bytes:
    """Returns a random salt of this length."""
    return bytes(source.choices(ALPHABET, k=length))


def random_password(source: random.Random, length: int) -> bytes:
    """Returns a random password of this many bytes, whose characters take one to three bytes."""
    password = b""
    while len(password) < length:
        one_byte = bytes([source.randint(1, 127)])
        two_bytes, three_bytes = "\u00e9".encode(), "\u20ac".encode()
        missing = length - len(password)
        password += source.choice([one_byte, two_bytes, three_bytes][:missing])
    return password


def random_case(source: random.Random, longest_salt: int, number: int) -> Case:
    """Returns a case. Every second password has one of the edge lengths, in turn."""
    length = source.randrange(LONGEST_OF_LIBXCRYPT + 1)
    if number % 2 == 0:
        length = EDGE_LENGTHS[number // 2 % len(EDGE_LENGTHS)]
    salt = random_salt(source, source.randint(1, longest_salt))
    password = random_password(source, length)
    way = source.choice(list(Way))
    return Case(salt, password if way.is_word else password.replace(b"\n", b" "), way)


def assert_same_hashes(program: Path, hashing: Hashing) -> None:
    """Fails the test unless the program prints libxcrypt's hashes."""
    source = random.Random(hashing.options)
    for number in range(hashing.cases):
        case = random_case(source, hashing.longest_salt, number)
        words = [*hashing.options.split(), *case.way.words(case.salt, case.password)]
        result = run(program, "-m", *words, stdin=case.way.given(case.password))
        expected = crypt(case.password, hashing.setting + case.salt)
        assert_result(result, stdout=expected + b"\n")


@pytest.mark.parametrize("hashing", HASHINGS, ids=str)
def test_libxcrypt_gives_the_same_hashes(program: Path, hashing: Hashing) -> None:
    assert_same_hashes(program, hashing)


@pytest.mark.slow
def test_libxcrypt_gives_the_same_hash_with_the_highest_cost(program: Path) -> None:
    assert_same_hashes(program, HIGHEST_COST)


@pytest.mark.parametrize(
    ("cost", "salt_length", "password_length"),
    [
        # First many rows in a small table: the most that RFC 7914 allows with r = 1, and more with
        # r = 2.
        pytest.param(ScryptCost(15, 1, 1), 8, 8, id="N = 2^15 and r = 1"),
        pytest.param(ScryptCost(16, 2, 1), 22, 65, id="N = 2^16 and r = 2"),
        pytest.param(ScryptCost(17, 2, 1), 86, 511, id="N = 2^17 and r = 2"),
        pytest.param(ScryptCost(2, 1 << 17, 1), 22, 16, id="r = 2^17"),
        pytest.param(ScryptCost(2, 1, 1 << 17), 22, 16, id="p = 2^17"),
    ],
)
def test_a_password_matches_libxcrypts_hash(
    program: Path, cost: ScryptCost, salt_length: int, password_length: int
) -> None:
    source = random.Random(str(cost))
    salt = random_salt(source, salt_length)
    password = random_password(source, password_length).replace(b"\n", b" ")
    stored = crypt(password, b"$7$" + cost.text + salt)
    given = b"ann:%b:%b\n" % (stored, password)
    assert_result(run(program, "-m", "scrypt", "--check", stdin=given), stdout=b"ann:ok\n")
