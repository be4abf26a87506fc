"""Published hashes, and fields of password files that no password matches.

The hashes are from openssl-passwd(1), Drepper's specification of SHA-crypt, libxcrypt's tests and
RFC 7914. Those of 1,024-byte passwords are from passlib, and from hashlib by Drepper's
specification.
"""
from __future__ import annotations

from dataclasses import dataclass

from .model.calls import Reason

LONGEST_PASSWORD = b"a" * 1024
LONGEST_FIELD = 384


@dataclass(frozen=True)
class KnownHash:
    """A password and its hash."""

    title: str
    password: bytes
    text: bytes

    def __str__(self) -> str:
        return self.title


@dataclass(frozen=True)
class Field:
    """A stored field, and the error of checking "password" against it."""

    title: str
    text: bytes
    error: Reason

    def __str__(self) -> str:
        return self.title


OF_PASSWORD = KnownHash(
    "openssl's md5crypt of password", b"password", b"$1$xxxxxxxx$UYCIxa628.9qXjpQCjM4a."
)
MD5CRYPT = OF_PASSWORD.text
SCRYPT_OF_NOTHING = KnownHash(
    "libxcrypt's scrypt of the empty password",
    b"",
    b"$7$2/..../....$rNxJWVHNv/mCNcgE/f6/L4zO6Fos5c2uTzhyzoisI62",
)
SCRYPT_OF_PASSWORD = KnownHash(
    "RFC 7914's scrypt of password",
    b"password",
    b"$7$86....E....NaCl$xffjQo7Bm/.SKRS4B2EuynbOLjAmXU5AbDbRXhoBl64",
)
KNOWN_FOR_LOGINS = (
    OF_PASSWORD,
    KnownHash(
        "Drepper's sha256crypt",
        b"Hello world!",
        b"$5$saltstring$5B8vYYiY.CVt1RlTTf8KbXBH3hsxY/GNooZaBBGWEc5",
    ),
    KnownHash(
        "Drepper's sha512crypt with 10000 rounds",
        b"Hello world!",
        b"$6$rounds=10000$saltstringsaltst$OW1/O6BYHV6BcXZu8QVeXbDWra3Oeqh0sbHbbMCVNSnCM/UrjmM0Dp8v"
        b"OuZeHBy/YTBmSK6H9qs/y3RnOaw5v.",
    ),
    SCRYPT_OF_NOTHING,
    SCRYPT_OF_PASSWORD,
)
KNOWN_HASHES = (
    *KNOWN_FOR_LOGINS,
    KnownHash(
        "sha512crypt of 1024 bytes by hashlib and passlib",
        LONGEST_PASSWORD,
        b"$6$rounds=1000$saltstringsaltst$UITgQYibhtrcIyhgNAv/DDO8/OQE6EKx5rkYTPL4qIsMeLcMgWAzj5DYN"
        b"JhQQ0ExOfR41/mJ0EqVZGWUDvrmO1",
    ),
    KnownHash(
        "md5crypt of 1024 bytes by hashlib and passlib",
        LONGEST_PASSWORD,
        b"$1$xxxxxxxx$K/D5CvaOI4iV5zX0cnQoW0",
    ),
    KnownHash(
        "Drepper's sha512crypt whose salt was cut",
        b"This is just a test",
        b"$6$rounds=5000$toolongsaltstrin$lQ8jolhgVRVhY4b5pZKaysCLi0QBxGoNeKQzQ3glMhwllF7oGDZxUhx1y"
        b"xdYcz/e1JSbq3y6JMxxl8audkUEm0",
    ),
    KnownHash(
        "Drepper's sha512crypt whose rounds were too few",
        b"the minimum number is still observed",
        b"$6$rounds=1000$roundstoolow$kUMsbe306n21p9R.FRkW3IGn.S9NPN0x50YhH1xhLsPuWGsUSklZt58jaTfF4"
        b"ZEQpyUNGc0dqbpBYYBaHHrsX.",
    ),
    KnownHash(
        "RFC 7914's scrypt of pleaseletmein",
        b"pleaseletmein",
        b"$7$C6..../....SodiumChloride$kBGj9fHznVYFQMEn/qDCfrDevf9YDtcDdKvEqHJLV8D",
    ),
)
SCRYPT_WITH_LONGEST_SALT = b"$7$2/..../...." + b"a" * 86

# Fields without a valid setting. A hash in such a field doesn't matter.
EMPTY = Field("an empty field", b"", Reason.NO_HASH)
LOCKED_FIELDS = (
    Field("an exclamation mark", b"!", Reason.LOCKED),
    Field("an asterisk", b"*", Reason.LOCKED),
    Field("two exclamation marks", b"!!", Reason.LOCKED),
    Field("the token of a refused hash", b"*0", Reason.LOCKED),
    Field("the other token of a refused hash", b"*1", Reason.LOCKED),
    Field("a token with more after it", b"*0abc", Reason.LOCKED),
    Field("a hash after an exclamation mark", b"!" + MD5CRYPT, Reason.LOCKED),
    Field("a hash after an asterisk", b"*" + MD5CRYPT, Reason.LOCKED),
    Field("a locked field as long as the longest setting", b"!" + b"a" * 383, Reason.LOCKED),
    Field("a locked field that is longer than a setting", b"!" + b"a" * 384, Reason.LOCKED),
    Field("a long field after an asterisk", b"*" + b"a" * 384, Reason.LOCKED),
)
OF_OTHER_SCHEMES = (
    Field("the one character x", b"x", Reason.UNKNOWN_SCHEME),
    Field("the password itself", b"password", Reason.UNKNOWN_SCHEME),
    Field("descrypt", b"abJnggxhB/yWI", Reason.UNKNOWN_SCHEME),
    Field("an incomplete prefix", b"$1", Reason.UNKNOWN_SCHEME),
    Field("a number that no method has", b"$2$ab", Reason.UNKNOWN_SCHEME),
    Field("bcrypt", b"$2b$05$abcdefghijklmnopqrstuu", Reason.UNKNOWN_SCHEME),
    Field("yescrypt", b"$y$j9T$salt$hash", Reason.UNKNOWN_SCHEME),
    Field("sha1crypt", b"$sha1$1$a$b", Reason.UNKNOWN_SCHEME),
    Field("argon2id", b"$argon2id$v=19$m=8,t=1,p=1$YWI$YWI", Reason.UNKNOWN_SCHEME),
    Field("salted SHA-1 of LDAP", b"{SSHA}abc", Reason.UNKNOWN_SCHEME),
)
WITH_BAD_CHARACTERS = (
    Field("a colon in a salt", b"$1$a:b", Reason.BAD_CHARACTER),
    Field("a colon without a scheme", b"a:c", Reason.BAD_CHARACTER),
    Field("a colon for rounds", b"$6$rounds=:$ab", Reason.BAD_CHARACTER),
    Field("a colon in scrypt's cost", b"$7$C:", Reason.BAD_CHARACTER),
    Field("a line feed after a salt", b"$5$ab\n", Reason.BAD_CHARACTER),
    Field("a delete character in a hash", b"$5$ab$\x7f", Reason.BAD_CHARACTER),
    Field("a two-byte letter", b"$6$\xc3\xa9", Reason.BAD_CHARACTER),
    Field("a line feed after a hash", MD5CRYPT + b"\n", Reason.BAD_CHARACTER),
    Field("a zero byte after a hash", MD5CRYPT + b"\0", Reason.BAD_CHARACTER),
    Field("a zero byte before a hash", b"\0" + MD5CRYPT, Reason.BAD_CHARACTER),
    Field("a colon after a hash", MD5CRYPT + b":", Reason.BAD_CHARACTER),
    Field("the byte ff after a hash", MD5CRYPT + b"\xff", Reason.BAD_CHARACTER),
    Field("a colon in a field of the longest length", b"$1$:" + b"a" * 380, Reason.BAD_CHARACTER),
)
WITH_BAD_NUMBERS = (
    Field("no number after rounds=", b"$5$rounds=$ab", Reason.BAD_ROUNDS),
    Field("a zero before the rounds", b"$6$rounds=01000$ab", Reason.BAD_ROUNDS),
    Field("no dollar sign after the rounds", b"$6$rounds=1000", Reason.BAD_ROUNDS),
    Field("an incomplete scrypt cost", b"$7$C", Reason.BAD_COST),
    Field("a scrypt cost without its last character", b"$7$20....0...", Reason.BAD_COST),
    Field("an N of 1", b"$7$./..../....ab", Reason.SCRYPT_RANGE),
    Field("an r of 0", b"$7$6...../....ab", Reason.SCRYPT_RANGE),
    Field("a p of 0 and a bad salt", b"$7$6/.........a_b", Reason.SCRYPT_RANGE),
    Field("an N that is too large for its r", b"$7$E/..../....ab", Reason.SCRYPT_RANGE),
    Field("twice the ceiling by p", b"$7$GU....0....ab", Reason.ABOVE_CEILING),
    Field("twice the ceiling by N and a bad salt", b"$7$HU..../....a_b", Reason.ABOVE_CEILING),
    Field("a bad scrypt salt", b"$7$20....0....a_b", Reason.BAD_SALT),
    Field("a scrypt salt that is too long", SCRYPT_WITH_LONGEST_SALT + b"a", Reason.BAD_SALT),
)
TOO_LONG = (
    Field("a salt one byte too long", b"$1$a" + b"a" * 381, Reason.SETTING_TOO_LONG),
    Field("a colon in a field that is too long", b"$1$:" + b"a" * 381, Reason.SETTING_TOO_LONG),
    Field("385 letters", b"a" * 385, Reason.SETTING_TOO_LONG),
    Field("a hash with much after it", MD5CRYPT + b"a" * 400, Reason.SETTING_TOO_LONG),
)
WITHOUT_SETTING = (
    EMPTY,
    *LOCKED_FIELDS,
    *OF_OTHER_SCHEMES,
    *WITH_BAD_CHARACTERS,
    *WITH_BAD_NUMBERS,
    *TOO_LONG,
)
# Fields with a setting that aren't hashes of "password", or cost too much.
DIFFERENT = (
    Field("a hash without its last character", MD5CRYPT[:-1], Reason.WRONG_PASSWORD),
    Field("a hash with a dot after it", MD5CRYPT + b".", Reason.WRONG_PASSWORD),
    Field("a hash with a dollar sign after it", MD5CRYPT + b"$", Reason.WRONG_PASSWORD),
    Field("a prefix alone", b"$1$", Reason.WRONG_PASSWORD),
    Field("a setting alone", b"$1$xxxxxxxx", Reason.WRONG_PASSWORD),
    Field("a setting with its dollar sign", b"$1$xxxxxxxx$", Reason.WRONG_PASSWORD),
    Field("fewer rounds than the minimum", b"$6$rounds=10$ab$x", Reason.WRONG_PASSWORD),
    Field("a salt up to the longest field's length", b"$1$" + b"a" * 381, Reason.WRONG_PASSWORD),
)
TOO_DEAR = (
    Field("scrypt at the ceiling", b"$7$GU..../....ab$x", Reason.OVER_BUDGET),
    Field("the most rounds", b"$6$rounds=999999999$saltstringsaltst$x", Reason.OVER_BUDGET),
)
WITH_SETTING = (*DIFFERENT, *TOO_DEAR)
NEVER_OPEN = (*WITHOUT_SETTING, *WITH_SETTING)
