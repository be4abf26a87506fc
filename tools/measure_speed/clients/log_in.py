"""Logs in with the Python package. Arguments and output are those of log_in.c."""
from __future__ import annotations

import sys

from mkpasswd import Policy

METHODS = {"1": "md5crypt", "5": "sha256crypt", "6": "sha512crypt", "7": "scrypt"}


def main() -> None:
    """Prints 1 for each login that succeeds and 0 for each that fails."""
    method, rounds, count, password, *stored = sys.argv[1:]
    policy = Policy(METHODS[method], int(rounds))
    field = stored[0] if stored else None
    for _ in range(int(count)):
        print(int(policy.login(password, field=field)))


if __name__ == "__main__":
    main()
