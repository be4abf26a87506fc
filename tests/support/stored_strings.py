"""Stored hashes and fields for the Python package, as str, including some that no file can have."""
from __future__ import annotations

from dataclasses import dataclass

from .model.calls import Reason

# libxcrypt's hashes of "password" and "Hello world!".
MD5 = "$1$xxxxxxxx$UYCIxa628.9qXjpQCjM4a."
SHA256 = "$5$saltstring$5B8vYYiY.CVt1RlTTf8KbXBH3hsxY/GNooZaBBGWEc5"
SHA512 = (
    "$6$saltstring$svn8UoSVapNtMuq1ukKS4tPQd8iKwSMHWjl/O817G3uBnIFNjnQJuesI68u4OTLiBFdcbYEdFCoEOfa"
    "S35inz1"
)
SCRYPT = "$7$CU..../....s"
# Checking it takes only a second or two, so that a test ends even if the budget is ignored.
COSTLY = "$6$rounds=2500000$saltstring$" + "x" * 86
# The characters of a field that stand in the id of a test.
LONGEST_SHOWN = 40


@dataclass(frozen=True)
class StoredField:
    """A field without a valid setting, and why it is refused."""

    text: str
    reason: Reason
    is_of_another_scheme: bool = False
    scheme: str | None = None  # the scheme's name in crypt(5)

    def __str__(self) -> str:
        return f"{self.reason.message}: {beginning(self.text)}"


def beginning(text: str) -> str:
    """Returns what an id shows of a field, with escapes for characters outside ASCII."""
    return ascii(text[:LONGEST_SHOWN])[1:-1]  # without the quotes


UNKNOWN = [StoredField(text, Reason.UNKNOWN_SCHEME) for text in ("x", "password")]
OTHER_SCHEMES = [
    StoredField(text, Reason.UNKNOWN_SCHEME, is_of_another_scheme=True, scheme=scheme)
    for text, scheme in (
        ("$", None),
        ("$2b$05$abcdefghijklmnopqrstuu", "bcrypt"),
        ("$y$j9T$abc$x", "yescrypt"),
        ("ab0Z8yq2hBQEo", "descrypt"),
        ("_J9..Xabcsecret", "bsdicrypt"),
    )
]
WITH_BAD_CHARACTERS = [
    StoredField(text, Reason.BAD_CHARACTER)
    for text in (
        *(MD5 + "\n", " " + MD5, "root:" + MD5, MD5 + "\0"),
        *("$1$é$x", "$1$\ud800$x"),
    )
]
INVALID = [
    StoredField("$1$" + "a" * 382, Reason.SETTING_TOO_LONG),
    StoredField("$5$rounds=0$salt$x", Reason.BAD_ROUNDS),
    StoredField("$6$rounds=05000$salt$x", Reason.BAD_ROUNDS),
    StoredField("$6$rounds=x", Reason.BAD_ROUNDS),
    StoredField("$7$CU..../...", Reason.BAD_COST),
    StoredField("$7$" + "." * 11 + "salt", Reason.SCRYPT_RANGE),
    StoredField("$7$JU..../....salt", Reason.ABOVE_CEILING),
    StoredField("$7$CU..../....a_b", Reason.BAD_SALT),
]
REFUSED = [*UNKNOWN, *OTHER_SCHEMES, *WITH_BAD_CHARACTERS, *INVALID]

LOCKED = ["", "!", "*", "!!", "*0", "*1", "*LK*", "!" + MD5, "*" + MD5, "!" + "x" * 500]
# Settings without a hash, and hashes that are cut, too long, or not in their canonical form.
DEAD = [
    *("$6$", "$1$xxxxxxxx", "$1$xxxxxxxx$", "$5$rounds=10$salt$x"),
    *(MD5[:-1], SHA512[:-1], MD5 + "x", MD5 + "$", "$5$" + MD5[3:]),
]
# Fields that no password matches.
NEVER_OPEN = [*LOCKED, *DEAD, *(field.text for field in REFUSED), COSTLY]


def title(text: str) -> str:
    """Returns a field as the id of a test, cut if it is long."""
    shown = beginning(text)
    if len(text) > LONGEST_SHOWN:
        shown += ".."
    return shown or "nothing"
