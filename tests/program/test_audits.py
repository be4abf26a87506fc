"""What an audit reports for each kind of field."""
from __future__ import annotations

from dataclasses import dataclass
from pathlib import Path

import pytest
from support.costly_hashes import SCRYPT_AT_DEFAULT, SHA512CRYPT_AT_DEFAULT
from support.libxcrypt import crypt
from support.model.settings import ScryptCost, read_setting
from support.model.work import LONGEST_PASSWORD, cost
from support.process import Word, assert_result, run

# libxcrypt's hashes of "password".
SHA512 = SHA512CRYPT_AT_DEFAULT
SHA512_FEWER_ROUNDS = (
    b"$6$rounds=655999$ab$eKUSgJQxDIBcWivanZnfhhex9akJpYi1Ylx3ICJTEIlxuBeCUkT9vW49l9P0kg/YUtqfUXVv"
    b"MdRpiNT/Awi0b."
)
SHA512_NO_ROUNDS = (
    b"$6$ab$WfYjcVtm04.lEYV07CdYGA5G9xet7/eU/m3ApNyi7sD.pE7qFDG1ek7dRQpI2KCf9ESl1WoIH04x.DMDvmIed1"
)
SHA256 = b"$5$rounds=656000$ab$OPbOPv7dVBLpN3R.bhm45g.TZiUJo/hpodcbU1pIYG/"
MD5 = b"$1$xxxxxxxx$UYCIxa628.9qXjpQCjM4a."
SCRYPT = SCRYPT_AT_DEFAULT

# Dummy hashes: settings, most of them with a digest that no password has.
DIGEST_OF_SCRYPT = b"a" * 42 + b"."
SCRYPT_EXPENSIVE = b"$7$" + ScryptCost(15, 32, 1).text + b"ab$" + DIGEST_OF_SCRYPT
SCRYPT_AT_LIMIT = b"$7$" + ScryptCost(14, 39, 1).text + b"aaaaa$" + DIGEST_OF_SCRYPT
SCRYPT_MOST_EXPENSIVE = b"$7$" + ScryptCost(18, 32, 1).text + b"a" * 86  # the cost of -R 11
SHA512_MOST_ROUNDS = b"$6$rounds=999999999$ab$x"
SHA512_MOST_ROUNDS_LONGEST_SALT = b"$6$rounds=999999999$aaaaaaaaaaaaaaaa"

# The beginnings of findings. COST stands for the highest cost of a login with the longest password.
OF_SHA512 = "sha512crypt:656000:COST"
OF_SHA256 = "sha256crypt:656000:COST"
OF_MD5 = "md5crypt:1000:COST"
OF_SCRYPT = "scrypt:16384/32/1:COST"
OF_SCRYPT_EXPENSIVE = "scrypt:32768/32/1:268461988"

COST_OF_SHA512 = cost(read_setting(SHA512), LONGEST_PASSWORD)


@dataclass(frozen=True)
class Audit:
    """A field, the options besides --audit, and the finding that the program must print."""

    title: str
    field: bytes
    finding: str
    options: tuple[Word, ...] = ()

    def __str__(self) -> str:
        return self.title

    @property
    def expected(self) -> str:
        """The finding, with the cost filled in."""
        if "COST" not in self.finding:
            return self.finding
        highest = cost(read_setting(self.field), LONGEST_PASSWORD)
        return self.finding.replace("COST", str(highest))


BY_THE_DEFAULT_POLICY = [
    Audit("sha512crypt with the recommended rounds", SHA512, f"{OF_SHA512}:current"),
    Audit("fewer rounds", SHA512_FEWER_ROUNDS, "sha512crypt:655999:COST:outdated"),
    Audit("no rounds", SHA512_NO_ROUNDS, "sha512crypt:5000:COST:outdated"),
    Audit("sha256crypt", SHA256, f"{OF_SHA256}:outdated"),
    Audit("md5crypt", MD5, f"{OF_MD5}:outdated"),
    Audit("scrypt", SCRYPT, f"{OF_SCRYPT}:outdated"),
]
BY_OTHER_POLICIES = [
    Audit("zeros for none", SHA512, f"{OF_SHA512}:current", ("-R", 0, "--budget", 0)),
    Audit("one round more", SHA512, f"{OF_SHA512}:outdated", ("-R", 656001)),
    Audit(
        "fewer rounds as the policy",
        SHA512_FEWER_ROUNDS,
        "sha512crypt:655999:COST:current",
        ("-R", 655999),
    ),
    Audit("sha256crypt as the policy", SHA256, f"{OF_SHA256}:current", ("-m", "sha256crypt")),
    Audit("md5crypt as the policy", MD5, f"{OF_MD5}:current", ("-m", "md5crypt")),
    Audit("scrypt as the policy", SCRYPT, f"{OF_SCRYPT}:current", ("-m", "scrypt")),
    Audit("scrypt with a higher cost", SCRYPT, f"{OF_SCRYPT}:outdated", ("-m", "scrypt", "-R", 8)),
]
# Without --budget, the budget follows from the cost of a hash with the longest salt.
BY_BUDGETS = [
    Audit("the cost as the budget", SHA512, f"{OF_SHA512}:current", ("--budget", COST_OF_SHA512)),
    Audit(
        "a budget too small by one",
        SHA512,
        f"{OF_SHA512}:over budget",
        ("--budget", COST_OF_SHA512 - 1),
    ),
    Audit(
        "the most rounds by the default policy",
        SHA512_MOST_ROUNDS,
        "sha512crypt:999999999:COST:over budget",
    ),
    Audit(
        "the most rounds as the policy",
        SHA512_MOST_ROUNDS_LONGEST_SALT,
        "sha512crypt:999999999:COST:dead",
        ("-R", 999999999),
    ),
    Audit(
        "the highest cost of scrypt by the default policy",
        SCRYPT_MOST_EXPENSIVE,
        "scrypt:262144/32/1:COST:over budget",
    ),
    Audit(
        "the highest cost of scrypt as the policy",
        SCRYPT_MOST_EXPENSIVE,
        "scrypt:262144/32/1:COST:dead",
        ("-m", "scrypt", "-R", 11),
    ),
]
# Without --budget, even checking the empty password must stay within the limit of a login. It costs
# 268460964 with SCRYPT_EXPENSIVE, and 163609376 with SCRYPT_AT_LIMIT, which is the limit for 422664
# rounds.
BY_THE_LIMIT_OF_A_LOGIN = [
    Audit(
        "expensive scrypt by the default policy",
        SCRYPT_EXPENSIVE,
        f"{OF_SCRYPT_EXPENSIVE}:over budget",
    ),
    Audit(
        "expensive scrypt by a policy of low cost",
        SCRYPT_EXPENSIVE,
        f"{OF_SCRYPT_EXPENSIVE}:over budget",
        ("-m", "scrypt", "-R", 6),
    ),
    Audit(
        "expensive scrypt by a policy of the usual cost",
        SCRYPT_EXPENSIVE,
        f"{OF_SCRYPT_EXPENSIVE}:current",
        ("-m", "scrypt"),
    ),
    Audit(
        "expensive scrypt with its cost as the budget",
        SCRYPT_EXPENSIVE,
        f"{OF_SCRYPT_EXPENSIVE}:outdated",
        ("--budget", 268461988),
    ),
    Audit(
        "scrypt that costs the limit",
        SCRYPT_AT_LIMIT,
        "scrypt:16384/39/1:COST:outdated",
        ("-R", 422664),
    ),
    Audit(
        "scrypt that costs more than the limit",
        SCRYPT_AT_LIMIT,
        "scrypt:16384/39/1:COST:over budget",
        ("-R", 422663),
    ),
]
# The last character of a hash encodes only two or four bits of the digest. So several characters
# stand for the same digest, and others for none.
BY_THE_LAST_CHARACTER = [
    Audit("sha512crypt with the last 1", SHA512[:-1] + b"1", f"{OF_SHA512}:current"),
    Audit("sha512crypt with the last 2", SHA512[:-1] + b"2", f"{OF_SHA512}:dead"),
    Audit(
        "sha256crypt with the last D",
        SHA256[:-1] + b"D",
        f"{OF_SHA256}:current",
        ("-m", "sha256crypt"),
    ),
    Audit(
        "sha256crypt with the last E",
        SHA256[:-1] + b"E",
        f"{OF_SHA256}:dead",
        ("-m", "sha256crypt"),
    ),
    Audit("md5crypt with the last 1", MD5[:-1] + b"1", f"{OF_MD5}:current", ("-m", "md5")),
    Audit("md5crypt with the last 2", MD5[:-1] + b"2", f"{OF_MD5}:dead", ("-m", "md5")),
    Audit("scrypt with the last D", SCRYPT[:-1] + b"D", f"{OF_SCRYPT}:current", ("-m", "scrypt")),
    Audit("scrypt with the last E", SCRYPT[:-1] + b"E", f"{OF_SCRYPT}:dead", ("-m", "scrypt")),
]
SETTING, DIGITS = SHA512.rsplit(b"$", 1)
DAMAGED = [
    Audit("cut to sixty characters", SHA512[:60], f"{OF_SHA512}:dead"),
    Audit("cut by a character", SHA512[:-1], f"{OF_SHA512}:dead"),
    Audit("cut before the last dollar sign", SETTING, f"{OF_SHA512}:dead"),
    Audit("cut after the last dollar sign", SETTING + b"$", f"{OF_SHA512}:dead"),
    Audit("one more character", SHA512 + b".", f"{OF_SHA512}:dead"),
    Audit("another part", SHA512 + b"$extra", f"{OF_SHA512}:dead"),
    Audit("a character that is no digit", SETTING + b"$_" + DIGITS[1:], f"{OF_SHA512}:dead"),
    Audit(
        "a salt that is too long for SHA-crypt",
        SHA512.replace(b"$ab", b"$aaaaaaaaaaaaaaaab"),
        f"{OF_SHA512}:dead",
    ),
    Audit("a salt that is too long for md5crypt", MD5.replace(b"x", b"xx", 1), f"{OF_MD5}:dead"),
    Audit(
        "fewer rounds than the minimum",
        SHA512.replace(b"656000", b"999"),
        "sha512crypt:1000:COST:dead",
    ),
]
OTHER_SCHEMES = [
    Audit("yescrypt", crypt(b"password", b"$y$j75$abcd"), "yescrypt:unknown"),
    Audit("gost-yescrypt", crypt(b"password", b"$gy$j75$abcd"), "gost-yescrypt:unknown"),
    Audit("NT", crypt(b"password", b"$3$"), "NT:unknown"),
    Audit("sha1crypt", crypt(b"password", b"$sha1$9$ab"), "sha1crypt:unknown"),
    Audit("SunMD5", crypt(b"password", b"$md5$ab$"), "SunMD5:unknown"),
    Audit("SunMD5 with rounds", crypt(b"password", b"$md5,rounds=1$ab$"), "SunMD5:unknown"),
    Audit("bsdicrypt", crypt(b"password", b"_J...abcd"), "bsdicrypt:unknown"),
    Audit("descrypt", crypt(b"password", b"ab"), "descrypt:unknown"),
    Audit("bcrypt 2a", crypt(b"password", b"$2a$04$" + b"a" * 22), "bcrypt:unknown"),
    Audit("bcrypt 2b", crypt(b"password", b"$2b$04$" + b"a" * 22), "bcrypt:unknown"),
    Audit("bcrypt 2y", crypt(b"password", b"$2y$04$" + b"a" * 22), "bcrypt:unknown"),
    Audit("an underscore", b"_", "bsdicrypt:unknown"),
    Audit("an underscore and any bytes", b"_ \0\xe9" + b"x" * 400, "bsdicrypt:unknown"),
    Audit("a dollar sign", b"$", "unknown"),
    Audit("an incomplete prefix", b"$1", "unknown"),
    Audit("bcrypt 2x", b"$2x$04$ab", "unknown"),
    Audit("an incomplete prefix of yescrypt", b"$y", "unknown"),
    Audit("a number that no scheme has", b"$8$ab$x", "unknown"),
]
NO_SCHEME = [
    Audit("a character", b"x", "no scheme"),
    Audit("words", b"a secret", "no scheme"),
    Audit("a two-byte letter", b"\xc3\xa9", "no scheme"),
    Audit("a hash without its dollar sign", b"1$ab$x", "no scheme"),
    Audit("twelve digits", b"a" * 12, "no scheme"),
    Audit("fourteen digits", b"a" * 14, "no scheme"),
    Audit("twelve digits and a space", b"a" * 12 + b" ", "no scheme"),
    Audit("four hundred letters", b"x" * 400, "no scheme"),
    Audit("nothing", b"", "none"),
]
LOCKED = [
    Audit("an exclamation mark", b"!", "locked"),
    Audit("an asterisk", b"*", "locked"),
    Audit("a hash after an exclamation mark", b"!" + SHA512, "locked"),
]
MALFORMED = [
    Audit("a zero byte", b"$1$a\0b", "malformed:bad character"),
    Audit("a space in yescrypt", b"$y$j9T$a b", "malformed:bad character"),
    Audit("a space after a dollar sign", b"$ ", "malformed:bad character"),
    Audit(
        "a long setting",
        b"$6$rounds=999999999$" + b"x" * 400,
        "malformed:setting too long",
    ),
    Audit("a long yescrypt setting", b"$y$" + b"x" * 400, "malformed:setting too long"),
    Audit("no rounds after rounds=", b"$5$rounds=0$ab$x", "malformed:bad rounds"),
    Audit(
        "an N beyond scrypt's range",
        b"$7$" + ScryptCost(24, 1, 1).text + b"ab$x",
        "malformed:scrypt range",
    ),
    Audit(
        "a cost above the ceiling",
        b"$7$" + ScryptCost(20, 16, 1).text + b"ab$x",
        "malformed:above ceiling",
    ),
    Audit("a salt that scrypt refuses", b"$7$CU..../....a_b$x", "malformed:bad salt"),
]
WITH_STATUS_0 = ("current", "locked", "unknown")


def assert_finding(program: Path, audit: Audit, more_options: list[Word]) -> None:
    """Fails unless an audit has the finding for a bare field, and for longer lines with this field.

    The last line has no line feed.
    """
    field = audit.field
    given = b"ann:%b\nbob:%b:19000:0:99999:7:::\neve:%b:" % (field, field, field)
    answers = [f"{name}:{audit.expected}\n" for name in ("ann", "bob", "eve")]
    status = 0 if audit.finding.endswith(WITH_STATUS_0) else 1
    result = run(program, "--audit", *audit.options, *more_options, stdin=given)
    assert_result(result, status=status, stdout="".join(answers).encode())


@pytest.mark.parametrize(
    "audit",
    [
        *BY_THE_DEFAULT_POLICY,
        *BY_OTHER_POLICIES,
        *BY_BUDGETS,
        *BY_THE_LIMIT_OF_A_LOGIN,
        *BY_THE_LAST_CHARACTER,
        *DAMAGED,
        *OTHER_SCHEMES,
        *NO_SCHEME,
        *LOCKED,
        *MALFORMED,
    ],
    ids=str,
)
def test_an_audit_finds(program: Path, audit: Audit) -> None:
    assert_finding(program, audit, [])
    assert_finding(program, audit, ["--work", "--rehash"])  # these change nothing


def test_an_audit_reports_invalid_lines_by_number(program: Path) -> None:
    given = b"\n".join([b":x", b"n" * 65 + b":!", b"ann", b"ann:" + b"x" * 2045, b"bob:!"])
    refusals = (
        b"mkpasswd: line 7: no name\n"
        b"mkpasswd: line 8: name too long\n"
        b"mkpasswd: line 9: no password field\n"
        b"mkpasswd: line 10: line too long\n"
    )
    result = run(program, "--audit", "--first-line", 7, stdin=given)
    assert_result(result, status=1, stdout=b"bob:locked\n", stderr=refusals)
