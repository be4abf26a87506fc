"""Password hashes in the schemes of crypt(5): md5crypt, sha256crypt, sha512crypt and scrypt.

>>> import mkpasswd
>>> stored = mkpasswd.hash("correct horse")
>>> mkpasswd.login("correct horse", field=stored)
True
>>> mkpasswd.login("wrong horse", field=stored)
False

These functions use the recommended policy, Policy(): sha512crypt with 656000 rounds. A service with
another method, other rounds or a budget of its own makes one Policy, and calls its methods of the
same names.

The C library of mkpasswd, whose calls are proved, does the hashing. It knows the cost of a hash
beforehand, so a stored hash that would take minutes is refused without hashing.

A password or a stored hash is bytes, or a str, which is encoded as UTF-8. A new hash is always a
str.

A password with a zero byte, with a lone surrogate, or of more than 1,024 bytes can't be hashed:
login() returns False for it, and hash() raises ValueError. No exception contains the password.

Any number of threads may call at once, and other threads run while one hashes.
"""
from __future__ import annotations

from . import _library
from ._calls import Refused, TooCostly
from ._policy import RECOMMENDED, Description, Limit, Policy, State
from ._policy import hash_by_recommended as hash
from ._reasons import Reason

__all__ = [
    "Description",
    "Limit",
    "Policy",
    "Reason",
    "Refused",
    "State",
    "TooCostly",
    "cost",
    "describe",
    "hash",
    "limit",
    "login",
    "needs_rehash",
]

login = RECOMMENDED.login
needs_rehash = RECOMMENDED.needs_rehash
describe = RECOMMENDED.describe
limit = RECOMMENDED.limit
cost = RECOMMENDED.cost

__version__ = _library.version()
