"""libxcrypt's hashes of crypt(5)'s other schemes, which mkpasswd doesn't support."""
from __future__ import annotations

from dataclasses import dataclass

from .libxcrypt import crypt


@dataclass(frozen=True)
class OtherHash:
    """A hash, and its scheme's name in crypt(5)."""

    scheme: str
    setting: bytes

    @property
    def text(self) -> str:
        """The hash of "password"."""
        return crypt(b"password", self.setting).decode()

    def __str__(self) -> str:
        return f"{self.scheme} ({self.setting[:4].decode()})"


OTHER_HASHES = (
    OtherHash("yescrypt", b"$y$j75$saltsalt$"),
    OtherHash("gost-yescrypt", b"$gy$j75$saltsalt$"),
    OtherHash("bcrypt", b"$2a$04$abcdefghijklmnopqrstuu"),
    OtherHash("bcrypt", b"$2b$04$abcdefghijklmnopqrstuu"),
    OtherHash("bcrypt", b"$2y$04$abcdefghijklmnopqrstuu"),
    OtherHash("NT", b"$3$"),
    OtherHash("sha1crypt", b"$sha1$1000$saltsalt$"),
    OtherHash("SunMD5", b"$md5,rounds=904$saltsalt$"),
    OtherHash("bsdicrypt", b"_J9..salt"),
    OtherHash("descrypt", b"ab"),
)
