"""mkpasswd.mjs and the page's worker in node, and the WebAssembly module inside both.

node.mjs runs them once, with the tables below and with libxcrypt's hashes of random passwords.
Each test checks one part of its report.
"""
from __future__ import annotations

import json
import random
import re
from collections import Counter
from dataclasses import dataclass
from pathlib import Path

import pytest
from support import ROOT
from support.costly_hashes import SHA512CRYPT_WITH_LONGEST_SALT
from support.libxcrypt import LONGEST_PASSWORD, crypt
from support.model.hashes import hash_of
from support.model.settings import read_setting
from support.model.work import cost
from support.other_hashes import OTHER_HASHES
from support.process import run
from support.reports import Report, report_of_node

# One worker of pytest-xdist runs node.mjs.
pytestmark = pytest.mark.xdist_group("node")

SALT_CHARACTERS = "./0123456789ABCDEFGHIJKLMNOPQRSTUVWXYZabcdefghijklmnopqrstuvwxyz"
SCRYPT_SETTING = "$7$46..../....SodiumChloride"  # N is 64, r is 8


# ---- Tables for node.mjs


@dataclass(frozen=True)
class Refusal:
    """A stored hash, a password, and what verify gives: false, or an error with this reason."""

    title: str
    stored: str
    password: str
    reason: str | bool


REFUSALS = [
    Refusal(
        "a password of 1025 bytes",
        stored="$6$s$x",
        password="x" * 1025,
        reason="MKPASSWD_ERROR_PASSWORD_TOO_LONG",
    ),
    Refusal(
        "a password with a zero byte",
        stored="$6$s$x",
        password="x\0y",
        reason="MKPASSWD_ERROR_PASSWORD_ZERO_BYTE",
    ),
    Refusal(
        "a setting that is too long",
        stored="$6$" + "x" * 400,
        password="x",
        reason="MKPASSWD_ERROR_SETTING_TOO_LONG",
    ),
    Refusal(
        "a non-ASCII character",
        stored="$6$s\u00e4lt$x",
        password="x",
        reason="MKPASSWD_ERROR_BAD_CHARACTER",
    ),
    Refusal(
        "bcrypt",
        stored="$2b$05$x",
        password="x",
        reason="MKPASSWD_ERROR_UNKNOWN_SCHEME",
    ),
    Refusal(
        "rounds without a number",
        stored="$5$rounds=$x",
        password="x",
        reason="MKPASSWD_ERROR_BAD_ROUNDS",
    ),
    Refusal(
        "a hash above the budget",
        stored="$6$rounds=999999999$s$x",
        password="x",
        reason="MKPASSWD_ERROR_OVER_BUDGET",
    ),
    Refusal(
        "scrypt above its ceiling",
        stored="$7$M0..../....s",
        password="x",
        reason="MKPASSWD_ERROR_ABOVE_CEILING",
    ),
    Refusal("a locked field, which no password matches", "!x", "x", reason=False),
    Refusal("an empty field, which no password matches", "", "x", reason=False),
]

OLD_HASH = crypt(b"password", b"$1$xxxxxxxx").decode()
NEW_HASH = SHA512CRYPT_WITH_LONGEST_SALT.decode()
SCRYPT_HASH = "$7$CU..../....LzFEGmON4JIztNMS/Q/mbZ$jf5lUIMYwzPnralpdXTIZjbsGtiybQ9Ao3j4131xzaC"
# Rounds whose lowest 32 bits are 5000.
WRAPPED_ROUNDS = 2**32 + 5000


@dataclass(frozen=True)
class Audit:
    """A field, a policy, and what `describe` gives: a text, or an error with this reason."""

    title: str
    found: str
    field: str
    policy: tuple[str | int, ...] = ()  # method, rounds and budget


# The costs for 1,024 bytes: 1927022 with md5crypt, 1297572512 with 656000 rounds of sha512crypt,
# and 134246820 with scrypt, N = 2^14 and r = 32.
AUDITS = [
    Audit("a recommended hash", "sha512crypt:1297572512:current", NEW_HASH),
    Audit("an md5crypt hash", "md5crypt:1927022:outdated", OLD_HASH),
    Audit(
        "an md5crypt hash with an md5crypt policy",
        "md5crypt:1927022:current",
        OLD_HASH,
        policy=("md5crypt",),
    ),
    Audit(
        "a hash with one round fewer than the policy",
        "sha512crypt:1297572512:outdated",
        NEW_HASH,
        policy=("sha512crypt", 656_001),
    ),
    Audit(
        "a hash that costs one byte more than the budget",
        "md5crypt:1927022:over budget",
        OLD_HASH,
        policy=("md5crypt", 0, 1_927_021),
    ),
    Audit("a truncated hash", "sha512crypt:1297572512:dead", NEW_HASH[:99]),
    Audit("a hash with one more character", "md5crypt:1927022:dead", f"{OLD_HASH}."),
    Audit("a locked hash", "locked", f"!{OLD_HASH}"),
    Audit("an empty field", "none", ""),
    *(Audit(str(other), "unknown", other.text) for other in OTHER_HASHES),
    Audit("a part of a bcrypt hash", "unknown", "$2b$05$x"),
    Audit("Argon2", "unknown", "$argon2id$v=19$x"),
    Audit("a scrypt hash", "scrypt:134246820:outdated", SCRYPT_HASH),
    Audit(
        "a scrypt hash with a scrypt policy",
        "scrypt:134246820:current",
        SCRYPT_HASH,
        policy=("scrypt",),
    ),
    Audit(
        "a scrypt hash with half the policy's rows",
        "scrypt:134246820:outdated",
        SCRYPT_HASH,
        policy=("scrypt", 8),
    ),
    Audit(
        "a scrypt hash that costs one byte more than the budget",
        "scrypt:134246820:over budget",
        SCRYPT_HASH,
        policy=("scrypt", 7, 134_246_819),
    ),
    Audit("a truncated scrypt hash", "scrypt:134246820:dead", SCRYPT_HASH[:-1]),
    Audit("scrypt without a cost", "malformed:bad cost", "$7$x"),
    Audit("a word", "no scheme", "hello"),
    Audit("a word of thirteen characters, like descrypt", "unknown", "battery.horse"),
    Audit("two words", "no scheme", "correct horse"),
    Audit("5000 letters", "no scheme", "x" * 5000),
    Audit("a hash without its prefix", "no scheme", OLD_HASH[3:]),
    Audit("rounds without a number", "malformed:bad rounds", "$5$rounds=$x"),
    Audit("a hash with its line feed", "malformed:bad character", f"{OLD_HASH}\n"),
    Audit("5000 characters after a prefix", "malformed:setting too long", "$6$" + "x" * 5000),
    Audit(
        "rounds that sha512crypt doesn't have",
        "MKPASSWD_ERROR_ROUNDS",
        NEW_HASH,
        policy=("sha512crypt", 12),
    ),
    Audit(
        "rounds that sha512crypt has in their lowest 32 bits",
        "MKPASSWD_ERROR_ROUNDS",
        NEW_HASH,
        policy=("sha512crypt", WRAPPED_ROUNDS),
    ),
    Audit(
        "rounds below 0",
        "MKPASSWD_ERROR_ROUNDS",
        NEW_HASH,
        policy=("sha512crypt", -(2**32)),
    ),
    Audit(
        "rounds that scrypt doesn't have",
        "MKPASSWD_ERROR_ROUNDS",
        SCRYPT_HASH,
        policy=("scrypt", 12),
    ),
    Audit(
        "rounds of md5crypt, which has none",
        "md5crypt:1927022:current",
        OLD_HASH,
        policy=("md5crypt", 12),
    ),
    Audit(
        "a method that new hashes don't have",
        "MKPASSWD_ERROR_UNKNOWN_METHOD",
        NEW_HASH,
        policy=("bcrypt",),
    ),
]


# ---- Random passwords


@dataclass(frozen=True)
class Stored:
    """A password and its hash."""

    password: bytes
    text: bytes

    def __str__(self) -> str:
        return f"{self.password.hex() or '-'}: {self.text.decode()}"

    @property
    def line(self) -> bytes:
        """The line for node.mjs."""
        return f"{self.password.hex()} {self.text.hex()}\n".encode()


# Those without rounds have 5000, and take most of the time.
PREFIXES = (
    *("$1$", "$5$", "$6$", "$5$rounds=1001$", "$6$rounds=1999$", "$7$46..../...."),
    *("$1$", "$5$rounds=1000$", "$6$rounds=1003$", "$5$rounds=1002$", "$6$rounds=1000$"),
    "$7$46..../....",
)


def random_hash(generator: random.Random, number: int) -> Stored:
    """Returns the hash of a random password, mostly short, at most as long as libxcrypt accepts."""
    is_short = number % 9 != 0
    length = generator.randint(0, 39 if is_short else LONGEST_PASSWORD)
    # The byte 1 is reserved for node.mjs, which makes wrong passwords with it.
    password = bytes(generator.randint(2, 255) for _ in range(length))
    prefix = PREFIXES[number % len(PREFIXES)]
    salt = "".join(generator.choices(SALT_CHARACTERS, k=generator.randint(0, 17)))
    return Stored(password, crypt(password, (prefix + salt).encode()))


def longest_hash() -> Stored:
    """Returns the hash of a password of 1,024 bytes, which libxcrypt refuses."""
    password = b"x" * 1024
    text = hash_of(read_setting(b"$6$xxxxxxxx"), password)
    assert text is not None
    return Stored(password, text)


@pytest.fixture(scope="module")
def hashes(seed: int) -> list[Stored]:
    generator = random.Random(seed)
    return [*(random_hash(generator, number) for number in range(1000)), longest_hash()]


@pytest.fixture(scope="module")
def report(
    node: str, web_build: Path, hashes: list[Stored], tmp_path_factory: pytest.TempPathFactory
) -> Report:
    """The report of node.mjs."""
    # The module is in a folder without a package.json, since a user may copy it into one.
    module = tmp_path_factory.mktemp("module") / "mkpasswd.mjs"
    module.write_bytes((web_build / "mkpasswd.mjs").read_bytes())
    words = (
        module,
        web_build / "mkpasswd.html",
        json.dumps([[row.stored, row.password] for row in REFUSALS]),
        SCRYPT_SETTING,
        json.dumps([[row.field, *row.policy] for row in AUDITS]),
    )
    lines = b"".join(stored.line for stored in hashes)
    return report_of_node(node, ROOT / "tests/web/node.mjs", *words, stdin=lines)


# ---- Hashes and checks


@pytest.mark.parametrize(
    ("method", "prefix"),
    [
        ("sha512crypt", "$6$rounds=1234$"),
        ("sha256crypt", "$5$rounds=1234$"),
        ("scrypt", "$7$BU..../...."),
        ("md5crypt", "$1$"),
    ],
)
def test_a_new_hash_is_libxcrypts(report: Report, method: str, prefix: str) -> None:
    stored = report["hashes"][method]
    assert stored.startswith(prefix)
    assert stored == crypt(b"password", stored.encode()).decode()


@pytest.mark.parametrize("checker", ["page", "module"], ids=["the page's worker", "the module"])
@pytest.mark.parametrize(
    ("password", "is_match"),
    [
        pytest.param("right", True, id="the right password"),
        pytest.param("wrong", False, id="a wrong password"),
    ],
)
def test_random_passwords_are_checked(
    report: Report, hashes: list[Stored], seed: int, checker: str, password: str, is_match: bool
) -> None:
    results = [checked[password][checker] for checked in report["checked"]]
    assert len(results) == len(hashes)
    wrong = [str(stored) for stored, got in zip(hashes, results) if got is not is_match]
    assert wrong == [], f"SEED={seed}: the {checker} is wrong about these"


def test_random_passwords_get_libxcrypts_hashes(
    report: Report, hashes: list[Stored], seed: int
) -> None:
    texts = [checked["hash"] for checked in report["checked"]]
    assert len(texts) == len(hashes)
    wrong = [
        f"{stored}, not {text}"
        for stored, text in zip(hashes, texts)
        if str(text) != stored.text.decode()
    ]
    assert wrong == [], f"SEED={seed}"


def test_the_module_works_after_a_stack_overflow_inside_it(report: Report) -> None:
    assert report["after"] is True


# ---- Refusals


def test_a_lone_surrogate_is_refused(report: Report) -> None:
    assert "half of a character" in report["refused"]["loneSurrogate"]


@pytest.mark.parametrize(
    ("call", "reason"),
    [
        pytest.param("bcrypt", "MKPASSWD_ERROR_UNKNOWN_METHOD", id="a bcrypt setting"),
        pytest.param("fewRounds", "MKPASSWD_ERROR_ROUNDS", id="a setting with 12 rounds"),
        pytest.param("mostRounds", "MKPASSWD_ERROR_OVER_BUDGET", id="a hash with the most rounds"),
    ],
)
def test_a_refusal_has_the_headers_name(report: Report, call: str, reason: str) -> None:
    assert report["refused"][call] == reason


@pytest.mark.parametrize("row", REFUSALS, ids=[row.title for row in REFUSALS])
def test_a_check_is_refused(report: Report, row: Refusal) -> None:
    assert len(report["refusedChecks"]) == len(REFUSALS)
    assert report["refusedChecks"][REFUSALS.index(row)] == row.reason


# ---- Defaults


def test_a_hash_has_the_recommended_rounds(report: Report) -> None:
    assert report["defaults"]["hash"] == "$6$rounds=656000$"


def test_a_setting_has_the_recommended_rounds(report: Report) -> None:
    assert report["defaults"]["setting"] == "$6$rounds=656000$"


def test_the_default_budget_admits_a_password_of_168_bytes(report: Report) -> None:
    assert report["defaults"]["longestVerified"] is True


@pytest.mark.parametrize("call", ["longerHashed", "longerVerified"])
def test_the_default_budget_refuses_a_password_of_169_bytes(report: Report, call: str) -> None:
    assert report["defaults"][call] == "MKPASSWD_ERROR_OVER_BUDGET"


# ---- Costs and audits


def test_the_cost_is_read_from_the_report(report: Report) -> None:
    """The test uses scrypt, whose report has a different value in each field."""
    expected = cost(read_setting(SCRYPT_SETTING.encode()), 8)
    assert report["costs"]["module"] == expected


def test_the_pages_worker_reports_what_a_check_can_cost(report: Report) -> None:
    expected = cost(read_setting(b"$1$xxxxxxxx"), len("password"))
    assert report["costs"]["page"] == expected


@pytest.mark.parametrize("row", AUDITS, ids=[row.title for row in AUDITS])
def test_an_audit_describes_a_field(report: Report, row: Audit) -> None:
    assert report["audited"][AUDITS.index(row)] == row.found


# ---- The module

TAKES_ADDRESSES = "load|store|memory"


def opcodes(module: Path) -> Counter[str]:
    """Counts each opcode in a module."""
    listing = run("wasm-objdump", "-d", module).required().stdout.decode()
    # ` 00012f: 20 01                      | local.get 1`
    return Counter(re.findall(r"^ \w+: [^|]*\| +([a-z][\w.]*)(?: |$)", listing, re.MULTILINE))


def arguments_to_wrap(opcode: str) -> int:
    """Returns how many arguments of an opcode are addresses or lengths, which Binaryen wraps."""
    if not re.search(TAKES_ADDRESSES, opcode):
        return 0
    if "copy" in opcode:
        return 3  # target, source and length
    if "fill" in opcode:
        return 2  # target and length
    return 1


@pytest.mark.needs("wasm-objdump")
def test_binaryen_changes_only_addresses(web_build: Path) -> None:
    """Binaryen wraps addresses and lengths, and marks unreachable code."""
    before = opcodes(web_build / "wasm64/mkpasswd.wasm")
    after = opcodes(web_build / "mkpasswd.wasm")
    for opcode, count in list(before.items()):
        before["i32.wrap_i64"] += arguments_to_wrap(opcode) * count
    assert after.pop("unreachable", 0) >= before.pop("unreachable", 0)
    assert after == before
