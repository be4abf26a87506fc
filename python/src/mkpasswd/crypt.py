"""A replacement for the standard library's module crypt, which Python 3.13 removed.

>>> from mkpasswd import crypt
>>> crypt.crypt("password", "$1$xxxxxxxx$")
'$1$xxxxxxxx$UYCIxa628.9qXjpQCjM4a.'
"""
from __future__ import annotations

from typing import NamedTuple, Optional, Union

from . import Policy, Reason, Refused, _calls, _library
from ._calls import Text

__all__ = [
    "METHOD_BLOWFISH",
    "METHOD_CRYPT",
    "METHOD_MD5",
    "METHOD_SHA256",
    "METHOD_SHA512",
    "crypt",
    "methods",
    "mksalt",
]


class _Method(NamedTuple):
    """A method of crypt(), with the attributes of the standard library's methods."""

    name: str
    ident: Optional[str]
    salt_chars: int
    total_size: int

    def __repr__(self) -> str:
        return f"<crypt.METHOD_{self.name}>"


METHOD_SHA512 = _Method("SHA512", "6", 16, 106)
METHOD_SHA256 = _Method("SHA256", "5", 16, 63)
METHOD_MD5 = _Method("MD5", "1", 8, 34)

#: Methods of the standard library that this module doesn't support: mksalt() raises Refused.
METHOD_BLOWFISH = _Method("BLOWFISH", "2b", 22, 60)
METHOD_CRYPT = _Method("CRYPT", None, 2, 13)

#: The methods of crypt(), strongest first.
methods = [METHOD_SHA512, METHOD_SHA256, METHOD_MD5]

# The standard library's own message.
_OUT_OF_RANGE = "rounds out of the range 1000 to 999_999_999"

_NAMES = {METHOD_SHA512: "sha512crypt", METHOD_SHA256: "sha256crypt", METHOD_MD5: "md5crypt"}


def mksalt(method: Optional[_Method] = None, *, rounds: Optional[int] = None) -> str:
    """Return a new setting for crypt(), with the recommended rounds unless others are given.

    >>> mksalt(METHOD_SHA256, rounds=20000).startswith("$5$rounds=20000$")
    True

    Raises ValueError for rounds out of range, and for any rounds with METHOD_MD5; Refused, which is
    a ValueError, for a method that isn't in `methods`; OSError if the system has no random bytes.
    """
    method = methods[0] if method is None else method
    if not isinstance(method, _Method):
        raise TypeError(f"method must be one of crypt.methods, not {type(method).__name__}")
    if method not in _NAMES:
        raise Refused(Reason.UNKNOWN_METHOD, "method must be one of crypt.methods")
    if rounds is not None and method == METHOD_MD5:
        raise ValueError(f"{method!r} doesn't support the rounds argument")
    try:
        policy = Policy(_NAMES[method], rounds)
    except Refused:
        raise ValueError(_OUT_OF_RANGE) from None
    # A policy takes 0 for the recommended rounds.
    if policy.rounds == 0:
        raise ValueError(_OUT_OF_RANGE)
    return policy.setting()


def crypt(
    word: Text, salt: Union[Text, _Method, None] = None, *, budget: Optional[int] = None
) -> str:
    """Return the hash of `word` with a setting.

    `salt` is a setting or a stored hash; or one of `methods`, for a new salt; or None, for a new
    salt of the first of them.

    If it isn't a setting of these methods, the result is "*0" ("*1" if the salt begins with "*0"),
    which no password matches. That includes "$2b$" and other schemes that crypt(3) may know.

    >>> crypt("password", "!")
    '*0'

    Unlike the standard library's function, it takes bytes too. The result is always a str, so
    decode a field of bytes before you compare it.

    Raises TooCostly if the hash can cost more than the budget, whose default is that of
    mkpasswd.Policy(); the standard library has no such limit. Raises ValueError if the password
    can't be hashed, or for a budget below 1, and MemoryError if there is too little memory for
    scrypt.
    """
    setting = mksalt(salt) if salt is None or isinstance(salt, _Method) else salt
    secret = _calls.encode_password(word)
    limit = Policy(budget=budget).limit().cost
    answer = _library.hash_by(secret, _calls.encode(setting, "salt"), limit)
    # If there is no valid setting, the text is "*0" or "*1".
    if not answer.is_yes and answer.reason not in _calls.NO_SETTING:
        raise _calls.error_from(answer, limit)
    return answer.text
