"""Random passwords, salts and costs give the same hashes as libxcrypt and hashlib."""
from __future__ import annotations

import hashlib
from collections.abc import Callable
from typing import Any

import pytest
from support.needs import needed
from support.package import crypt, package_under_test

with needed("python3-hypothesis"):
    from hypothesis import configuration, given, settings
    from hypothesis import strategies as st
with package_under_test():
    import mkpasswd
    from mkpasswd.crypt import METHOD_MD5, mksalt
    from mkpasswd.crypt import crypt as crypt_call

ALPHABET = "./0123456789ABCDEFGHIJKLMNOPQRSTUVWXYZabcdefghijklmnopqrstuvwxyz"
QUIETLY = settings(deadline=None, database=None, derandomize=True, max_examples=150)


@pytest.fixture(scope="module", autouse=True, name="home_of_hypothesis")
def fixture_home_of_hypothesis(tmp_path_factory: pytest.TempPathFactory) -> None:
    """A folder for hypothesis's files, which otherwise go into the current folder."""
    home = tmp_path_factory.mktemp("hypothesis")
    set_home: Any = configuration.set_hypothesis_home_dir  # without type hints
    set_home(str(home))


def low_bits_first(number: int, characters: int) -> str:
    """Encodes a number in digits of 6 bits, the lowest bits first."""
    return "".join(ALPHABET[number >> 6 * place & 63] for place in range(characters))


def md5crypt_setting(salt: str) -> str:
    """Returns an md5crypt setting."""
    return f"$1${salt}"


def sha_crypt_setting(number: str, rounds: int | None, salt: str) -> str:
    """Returns a SHA-crypt setting, perhaps without rounds."""
    return f"${number}${salt}" if rounds is None else f"${number}$rounds={rounds}${salt}"


def scrypt_setting(log2_n: int, r: int, p: int, salt: str) -> str:
    """Returns a scrypt setting in the form of crypt(5)."""
    return "$7$" + ALPHABET[log2_n] + low_bits_first(r, 5) + low_bits_first(p, 5) + salt


PASSWORDS = st.one_of(
    st.text(st.characters(min_codepoint=1, blacklist_categories=["Cs"]), max_size=60),
    st.binary(max_size=200).map(lambda word: word.replace(b"\0", b"x")),
)
SALTS = st.text(ALPHABET, max_size=20)
ROUNDS = st.one_of(st.none(), st.integers(1000, 2000))
SETTINGS = st.one_of(
    st.builds(md5crypt_setting, SALTS),
    st.builds(sha_crypt_setting, st.sampled_from("56"), ROUNDS, SALTS),
    st.builds(
        scrypt_setting, st.integers(2, 6), st.integers(1, 8), st.integers(1, 3), SALTS.filter(len)
    ),
)


@pytest.mark.slow
@QUIETLY
@given(PASSWORDS, SETTINGS)
def test_random_hashes_are_libxcrypts(password: str | bytes, setting: str) -> None:
    expected = crypt(password, setting)
    assert crypt_call(password, setting) == expected
    assert crypt_call(password, expected) == expected
    assert mkpasswd.login(password, field=expected) is True


@pytest.mark.parametrize(
    ("log2_n", "r", "p"), [(4, 1, 1), (10, 8, 1), (5, 3, 7), (1, 1, 1), (1, 1, 8193), (14, 8, 1)]
)
@pytest.mark.parametrize(
    "password",
    [b"", b"password", "pässword".encode(), b"x" * 600],
    ids=["nothing", "a word", "UTF-8", "600 bytes"],
)
def test_scrypt_is_hashlibs(password: bytes, log2_n: int, r: int, p: int) -> None:
    setting = scrypt_setting(log2_n, r, p, "SodiumChloride")
    costs = {"n": 2**log2_n, "r": r, "p": p, "dklen": 32, "maxmem": 2**26}
    digest = hashlib.scrypt(password, salt=b"SodiumChloride", **costs)
    groups = (int.from_bytes(digest[i : i + 3], "little") for i in range(0, len(digest), 3))
    packed = "".join(low_bits_first(group, 4) for group in groups)
    needed = packed[:43]  # of 44 characters: the last group has only two bytes
    assert crypt_call(password, setting) == f"{setting}${needed}"


@pytest.mark.parametrize(
    ("draw", "count"),
    [
        pytest.param(lambda: mksalt(METHOD_MD5), 2000, id="mksalt"),
        pytest.param(lambda: mkpasswd.Policy("md5crypt").hash(""), 500, id="hash"),
    ],
)
def test_salts_have_all_characters_and_differ(draw: Callable[[], str], count: int) -> None:
    texts = [draw() for _ in range(count)]
    assert len(set(texts)) == count
    salts = [text.removeprefix("$1$")[:8] for text in texts]
    assert set("".join(salts)) == set(ALPHABET)
