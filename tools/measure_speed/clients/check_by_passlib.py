"""Checks lines `name:hash:password` as mkpasswd --check does, but with passlib's code in Python.

passlib's other backend for these hashes is libxcrypt, which is measured separately.
"""
from __future__ import annotations

import sys

from passlib.context import CryptContext
from passlib.hash import md5_crypt, sha256_crypt, sha512_crypt

HANDLERS = (md5_crypt, sha256_crypt, sha512_crypt)


def main() -> None:
    """Prints `name:ok` or `name:no` for each line."""
    for handler in HANDLERS:
        handler.set_backend("builtin")
    context = CryptContext(HANDLERS)
    for line in sys.stdin:
        name, stored, password = line.rstrip("\n").split(":")
        matches = context.verify(password, stored)
        print(name, "ok" if matches else "no", sep=":")


if __name__ == "__main__":
    main()
