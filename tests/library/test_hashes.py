"""mkpasswd_hash and the calls that read a stored hash, for settings of every kind.

The expected hashes are libxcrypt's, an independent implementation.
"""
from __future__ import annotations

import random
from dataclasses import dataclass
from typing import Callable, Iterator

import pytest
from support.driver import Driver
from support.libxcrypt import crypt
from support.model.calls import (
    Bound,
    Call,
    Hash,
    NeedsRehash,
    System,
    Verify,
    in_each_form,
)
from support.model.hashes import hash_of
from support.model.methods import ALPHABET
from support.model.settings import ScryptCost, read_setting
from support.model.work import cost
from support.policies import POLICIES
from support.stored_fields import KNOWN_HASHES, LONGEST_PASSWORD, SCRYPT_WITH_LONGEST_SALT

CHEAP = 500_000  # a cost below which a test makes a hash many times
# Lengths at which a new block of a digest, or a new byte of the encoded length, begins, and their
# neighbours.
LENGTHS = (
    0,
    1,
    7,
    8,
    15,
    16,
    17,
    31,
    32,
    33,
    55,
    56,
    63,
    64,
    65,
    111,
    112,
    127,
    128,
    129,
    200,
)
ODD_SETTINGS = (
    b"$1$a_b~c",
    b"$1$#%&()+",
    b"$6$rounds=1000$(-=-)",
    b"$5$rounds=1001$~",
    b"$5$rounds=1000$~{}[]|<>?@^_`",
    b"$6$rounds=1000$'\",-=",
    b"$5$rounds",
    b"$5$rounds=1000$rounds=5",
    b"$1$rounds=5",
    SCRYPT_WITH_LONGEST_SALT,
)


@dataclass(frozen=True)
class Hashed:
    """A password and its hash."""

    number: int
    password: bytes
    text: bytes

    @property
    def setting(self) -> bytes:
        """The hash up to its last dollar sign."""
        return self.text.rsplit(b"$", 1)[0]

    @property
    def size(self) -> int:
        """The size of the hash with its zero byte."""
        return len(self.text) + 1

    @property
    def other_password(self) -> bytes:
        """The password with one byte changed, or with one more byte."""
        if self.password == b"":
            return b"x"
        place = self.number % len(self.password)
        other = bytearray(self.password)
        bit = 1 if other[place] == 32 else 32  # the one that never makes a zero byte
        other[place] ^= bit
        return bytes(other)

    @property
    def damaged(self) -> list[bytes]:
        """The hash without its last character, and with another last character."""
        other_end = b"/" if self.text.endswith(b".") else b"."
        return [self.text[:-1], self.text[:-1] + other_end]

    @property
    def is_cheap(self) -> bool:
        """Whether a test can afford to make this hash many times."""
        return cost(read_setting(self.text), len(self.password)) < CHEAP


def salts(source: random.Random, lengths: Iterator[int]) -> Iterator[bytes]:
    """Yields random salts of these lengths."""
    for length in lengths:
        yield bytes(source.choices(ALPHABET, k=length))


def settings_of_sha_crypt(prefix: bytes, source: random.Random) -> list[bytes]:
    """Returns settings without rounds, and with 1000 to 1324 rounds."""
    settings = [prefix + salt for salt in salts(source, iter((0, 7, 16)))]
    for number, salt in enumerate(salts(source, iter(range(19)))):
        settings.append(b"%brounds=%d$%b" % (prefix, 1000 + number**2, salt))
    return settings


def settings_of_scrypt(source: random.Random) -> Iterator[bytes]:
    """Yields settings of many costs, with salts of each length."""
    for number, salt in enumerate(salts(source, iter(range(87)))):
        numbers = ScryptCost(2 + number % 7, r=1 + number % 5, p=1 + number % 3)
        yield b"$7$" + numbers.text + salt


def by_libxcrypt(settings: list[bytes]) -> list[Hashed]:
    """Returns libxcrypt's hashes of random passwords with these settings."""
    source = random.Random(26)
    hashes = []
    for number, setting in enumerate(settings):
        if number % 2 == 0:
            length = LENGTHS[number // 2 % len(LENGTHS)]
        else:
            length = source.randrange(201)
        password = bytes(source.choices(range(1, 256), k=length))
        hashes.append(Hashed(number, password, crypt(password, setting)))
    return hashes


def with_the_longest_password() -> list[Hashed]:
    """Returns the model's hashes of passwords of 1,024 bytes, which libxcrypt refuses."""
    hashes = []
    for number, text in enumerate((b"$5$rounds=1000$saltstringsaltst", b"$7$20....0....NaCl")):
        known = hash_of(read_setting(text), LONGEST_PASSWORD)
        assert known is not None
        hashes.append(Hashed(number, LONGEST_PASSWORD, known))
    return hashes


def published() -> list[Hashed]:
    """Returns the published hashes."""
    return [Hashed(number, known.password, known.text) for number, known in enumerate(KNOWN_HASHES)]


def with_odd_characters() -> list[Hashed]:
    """Returns hashes whose salts have characters that no program draws."""
    return by_libxcrypt(list(ODD_SETTINGS))


def of_md5crypt() -> list[Hashed]:
    """Returns hashes with salts of 0 to 12 characters, of which md5crypt uses the first 8."""
    lengths = (number % 13 for number in range(111))
    return by_libxcrypt([b"$1$" + salt for salt in salts(random.Random(1), lengths)])


def of_sha256crypt() -> list[Hashed]:
    """Returns hashes with salts of 0 to 18 characters, of which sha256crypt uses the first 16."""
    return by_libxcrypt(settings_of_sha_crypt(b"$5$", random.Random(5)))


def of_sha512crypt() -> list[Hashed]:
    """Returns hashes with salts of 0 to 18 characters, of which sha512crypt uses the first 16."""
    return by_libxcrypt(settings_of_sha_crypt(b"$6$", random.Random(6)))


def of_scrypt() -> list[Hashed]:
    """Returns scrypt hashes with salts of each length."""
    return by_libxcrypt(list(settings_of_scrypt(random.Random(7))))


GROUPS: dict[str, Callable[[], list[Hashed]]] = {
    "published hashes": published,
    "1024 bytes by the model": with_the_longest_password,
    "odd characters in salts by libxcrypt": with_odd_characters,
    "md5crypt by libxcrypt": of_md5crypt,
    "sha256crypt by libxcrypt": of_sha256crypt,
    "sha512crypt by libxcrypt": of_sha512crypt,
    "scrypt by libxcrypt": of_scrypt,
}


@pytest.fixture(scope="module", params=list(GROUPS), name="hashes")
def fixture_hashes(request: pytest.FixtureRequest) -> list[Hashed]:
    """The hashes of one group."""
    return GROUPS[request.param]()


@pytest.fixture(scope="module", name="cheap_hashes")
def fixture_cheap_rows() -> list[Hashed]:
    """The cheap hashes of all groups."""
    return [hashed for make in GROUPS.values() for hashed in make() if hashed.is_cheap]


def test_the_right_password_matches(driver: Driver, hashes: list[Hashed]) -> None:
    driver.assert_matches_model(
        in_each_form(*(Verify(hashed.password, hashed.text) for hashed in hashes))
    )


def test_a_password_with_another_byte_differs(driver: Driver, hashes: list[Hashed]) -> None:
    driver.assert_matches_model([Verify(hashed.other_password, hashed.text) for hashed in hashes])


def test_a_damaged_hash_matches_no_password(driver: Driver, hashes: list[Hashed]) -> None:
    calls = [Verify(hashed.password, text) for hashed in hashes[::3] for text in hashed.damaged]
    driver.assert_matches_model(calls)


def test_a_setting_gives_the_hash(driver: Driver, hashes: list[Hashed]) -> None:
    calls = [Hash(hashed.password, hashed.setting, out_size=hashed.size + 49) for hashed in hashes]
    answers = driver.assert_matches_model(calls)
    expected = [f'"{hashed.text.decode()}"' for hashed in hashes]
    assert [answer.out for answer in answers] == expected


def test_a_hash_as_the_setting_gives_itself_in_an_out_of_its_size(
    driver: Driver, hashes: list[Hashed]
) -> None:
    driver.assert_matches_model(
        [Hash(hashed.password, hashed.text, out_size=hashed.size) for hashed in hashes]
    )


def test_each_form_of_the_call_gives_the_hash(driver: Driver, hashes: list[Hashed]) -> None:
    driver.assert_matches_model(
        in_each_form(*(Hash(hashed.password, hashed.text) for hashed in hashes))
    )


def test_one_byte_too_few_is_reported(driver: Driver, hashes: list[Hashed]) -> None:
    calls = [Hash(hashed.password, hashed.setting, out_size=hashed.size - 1) for hashed in hashes]
    driver.assert_matches_model(calls)


def test_the_bound_is_reported(driver: Driver, hashes: list[Hashed]) -> None:
    driver.assert_matches_model([Bound(hashed.setting, len(hashed.password)) for hashed in hashes])


def test_a_hash_is_outdated_by_a_policy_for_stronger_hashes(
    driver: Driver, hashes: list[Hashed]
) -> None:
    calls = []
    for hashed in hashes:
        policy = POLICIES[hashed.number % len(POLICIES)]
        calls.append(NeedsRehash(hashed.text, policy.method, policy.rounds))
    driver.assert_matches_model(calls)


def test_the_bound_of_scrypt_at_its_ceiling_is_reported(driver: Driver) -> None:
    driver.assert_matches_model([Bound(b"$7$GU..../....", 8)])


def hashing_calls(hashes: list[Hashed]) -> list[Call]:
    """Returns calls that hash."""
    calls: list[Call] = []
    for hashed in hashes:
        calls += in_each_form(Verify(hashed.password, hashed.text))
        calls += in_each_form(Hash(hashed.password, hashed.setting))
        calls.append(Verify(hashed.other_password, hashed.text))
    return calls


def test_calls_answer_the_same_in_eight_threads(driver: Driver, cheap_hashes: list[Hashed]) -> None:
    calls = hashing_calls(cheap_hashes[::4])
    calls += hashing_calls(
        [hashed for hashed in cheap_hashes if hashed.password == LONGEST_PASSWORD]
    )
    driver.assert_matches_model(calls, threads=8)


@pytest.mark.parametrize("allocation", [1, 2, 3, 4])
def test_a_failed_allocation_of_scrypt_is_reported(
    driver: Driver, cheap_hashes: list[Hashed], allocation: int
) -> None:
    """The other methods don't allocate, so their calls are unaffected."""
    calls = hashing_calls([hashed for hashed in cheap_hashes if hashed.text.startswith(b"$7$")])
    calls += hashing_calls(cheap_hashes[:2])
    calls.append(Hash(b"pleaseletmein", b"$7$C6..../....SodiumChloride"))
    driver.assert_matches_model(calls, System(refused_allocation=allocation))
