"""The library's documents: each refused login takes the same work, and each call has a manual."""
from __future__ import annotations

import re
from pathlib import Path

import pytest
from support import ROOT
from support.costly_hashes import SHA512CRYPT_AT_DEFAULT
from support.documents import marked
from support.library import SOURCES, Builder, Installed
from support.process import assert_result, run
from support.stored_fields import MD5CRYPT, SCRYPT_OF_NOTHING

CURRENT = SHA512CRYPT_AT_DEFAULT
WITHOUT_MATCH = {
    "the hash of another password": [CURRENT],
    "an unknown name": [],
    "an empty field": [b""],
    "a locked field": [b"!" + MD5CRYPT],
    "an asterisk": [b"*"],
    "another scheme": [b"$y$x"],
    "a hash above the limit": [b"$6$rounds=999999999$ab$x"],
}

# ---- The work of C.md's login


@pytest.fixture(scope="session", name="service")
def fixture_service(builder: Builder, tmp_path_factory: pytest.TempPathFactory) -> Path:
    """A service with the login that C.md shows."""
    login = tmp_path_factory.mktemp("login") / "login.c"
    code = marked("users in C", "c").code + marked("whole login in C", "c").code
    login.write_text(code, encoding="ascii")
    return builder.build(SOURCES / "service.c", "-include", SOURCES / "service.h", login)


@pytest.fixture(scope="session", name="digests_of_a_login")
def fixture_digests_of_a_login(service: Path) -> bytes:
    """The number of digests of a login that succeeds, as the service prints it."""
    result = run(service, b"password", CURRENT)
    assert_result(result, stderr=result.stderr)
    return result.stderr


def test_a_match_is_accepted_after_the_recommended_rounds(digests_of_a_login: bytes) -> None:
    assert int(digests_of_a_login) > 656_000


def test_another_password_does_not_match_the_hash_of_the_empty_one(service: Path) -> None:
    assert run(service, b"password", SCRYPT_OF_NOTHING.text).status == 1


@pytest.mark.parametrize("field", WITHOUT_MATCH.values(), ids=list(WITHOUT_MATCH))
def test_every_other_login_is_refused_after_the_same_work(
    service: Path, digests_of_a_login: bytes, field: list[bytes]
) -> None:
    assert_result(run(service, b"passw0rd", *field), status=1, stderr=digests_of_a_login)


@pytest.mark.parametrize(
    "field", [pytest.param([], id="for an unknown name"), pytest.param([CURRENT], id="for a hash")]
)
@pytest.mark.parametrize(
    "password", [pytest.param(b"null", id="null"), pytest.param(b"a" * 1025, id="1025 bytes")]
)
def test_a_refused_password_takes_no_work(
    service: Path, password: bytes, field: list[bytes]
) -> None:
    assert_result(run(service, password, *field), status=1, stderr=b"0\n")


# ---- Manuals

# Matches an example: what it prints, and its code.
EXAMPLE = re.compile(
    r"^\.\\\" prints: (?P<printed>.*?)\n\.Bd -literal.*?\n(?P<code>.*?)^\.Ed$",
    re.MULTILINE | re.DOTALL,
)


def pages_with_examples() -> list[str]:
    """Returns the names of the manuals that have an example in C."""
    pages = sorted(ROOT.glob("man/*.3"))
    return [page.name for page in pages if EXAMPLE.search(page.read_text(encoding="utf-8"))]


def test_there_is_a_manual_for_each_call(installed: Installed) -> None:
    """libmkpasswd(3) explains which exported function belongs to which call."""
    pages = (installed.root / "usr/share/man/man3").glob("*.3")
    expected = ["libmkpasswd", "mkpasswd_version", *installed.inline()]
    assert sorted(page.stem for page in pages) == sorted(expected)


@pytest.mark.parametrize("name", pages_with_examples())
def test_an_example_of_a_manual_prints_what_it_says(
    installed: Installed, builder: Builder, tmp_path: Path, name: str
) -> None:
    page = installed.root / "usr/share/man/man3" / name
    examples = list(EXAMPLE.finditer(page.read_text(encoding="utf-8")))
    assert examples, f"{page} has no example"
    for number, example in enumerate(examples):
        source = tmp_path / f"{name}.{number}.c"
        code = example["code"].replace(r"\e", "\\").replace(r"\&", "")
        source.write_text(code, encoding="ascii")
        program = builder.build(source)
        result = run(program)
        assert_result(result, stdout=result.stdout)
        printed = example["printed"].replace(r"\n", "\n")
        assert re.fullmatch(printed, result.stdout.decode()), f"expected: {printed}\n{result}"


def test_the_login_and_new_hashes_have_examples() -> None:
    assert {"mkpasswd_login.3", "mkpasswd_new.3"} <= set(pages_with_examples())
