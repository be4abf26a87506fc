"""Stored fields for the PAM module's tests: libxcrypt's hashes of one password."""
from __future__ import annotations

from .libxcrypt import crypt

FILE = "/srv/passwords"
# With these arguments the field SHA512 is current, and hashes are cheap.
CURRENT = f"file={FILE} rounds=1000 budget=1000000"

PASSWORD = b"pass word"
WRONG = b"wrong"
SETTINGS = {
    "md5crypt": b"$1$abcdefgh",
    "sha256crypt": b"$5$rounds=1000$abcdefgh",
    "sha512crypt": b"$6$rounds=1000$abcdefgh",
    "scrypt": b"$7$26..../....abcdefgh",
    "yescrypt": b"$y$j75$abcdefghijklmnopqrstu.",
    "bcrypt": b"$2b$04$abcdefghijklmnopqrstuu",
    "descrypt": b"ab",
    "bsdicrypt": b"_/...abcd",
}
HASHES = {scheme: crypt(PASSWORD, setting) for scheme, setting in SETTINGS.items()}
OURS = ("md5crypt", "sha256crypt", "sha512crypt", "scrypt")
OTHERS = ("yescrypt", "bcrypt", "descrypt", "bsdicrypt")

SHA512 = HASHES["sha512crypt"]
CUT = SHA512[:-1]
HOSTILE = b"$6$rounds=999999999$saltsalt$" + b"a" * 86
# How a hash with the default policy begins, and a whole one, of PASSWORD.
RECOMMENDED = b"$6$rounds=656000$"
SHA512_RECOMMENDED = (
    RECOMMENDED + b"abcdefghijklmnop$fiPLN8PJZDrnKw45jP4lFu5V3YSzxzKd0fzICIEExvMrpKJaHNJay"
    b"Pvu74hObLIPd0yCwhtsoxV0KXVLhy7rQ1"
)
