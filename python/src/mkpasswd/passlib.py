"""passlib's handlers md5_crypt, sha256_crypt and sha512_crypt, with mkpasswd doing the hashing.

    handlers = [mkpasswd.passlib.sha512_crypt, mkpasswd.passlib.md5_crypt]
    context = passlib.context.CryptContext(handlers, deprecated="auto")

They take passlib's options (`sha512_crypt__rounds`, ..), and make the same hashes. The default is
the recommended rounds, and hashes with fewer are outdated.

A hash may cost as much as mkpasswd.Policy's limit for the handler's rounds. The option `budget`
sets another limit: `sha512_crypt__budget` of a CryptContext, or `sha512_crypt.using(budget=..)`.
verify() returns False for a stored hash that costs more.

hash() accepts every password of up to 1,024 bytes without a zero byte. If its hash would cost more
than the limit, it gets fewer rounds; see mkpasswd.Policy.for_length().

They are registered in place of passlib's own handlers, so that CryptContext.from_string() and other
code that knows only a name finds them.
"""
from __future__ import annotations

import logging
from abc import ABCMeta
from contextlib import suppress
from typing import Any, Optional, Union

from passlib.handlers import md5_crypt as _md5
from passlib.handlers import sha2_crypt as _sha2
from passlib.registry import register_crypt_handler
from passlib.utils.handlers import GenericHandler

from . import Policy, TooCostly, limit
from ._calls import encode_password
from ._library import PASSWORD_LIMIT
from .crypt import crypt

__all__ = ["md5_crypt", "sha256_crypt", "sha512_crypt"]

_LOG = logging.getLogger("mkpasswd")


class _Crypt(GenericHandler, metaclass=ABCMeta):
    """The common part of the three handlers. Each also derives from passlib's handler."""

    name: str
    budget: Optional[int] = None

    # So that passlib's parsehash() doesn't look for a budget in a hash.
    _unparsed_settings = (*getattr(_md5.md5_crypt, "_unparsed_settings", ()), "budget")

    @classmethod
    def using(
        cls, relaxed: bool = False, budget: Union[int, str, None] = None, **options: Any
    ) -> Any:
        """Like passlib's, with the option `budget`, which is a str if it comes from a file.

        Raises ValueError for a budget that isn't a number, or that is too low for passwords of
        1,024 bytes.
        """
        changed: Any = super().using(relaxed=relaxed, **options)
        if budget is not None:
            changed.budget = _parse_budget(budget) if isinstance(budget, str) else budget
        try:
            changed.policy().for_length(PASSWORD_LIMIT)
        except TooCostly:
            raise ValueError("budget is too low for passwords of 1,024 bytes") from None
        return changed

    @classmethod
    def policy(cls) -> Policy:
        """Return a policy with the handler's method, rounds and budget."""
        rounds = getattr(cls, "default_rounds", None)
        return Policy(cls.name.replace("_", ""), rounds, cls.budget)

    @classmethod
    def verify(cls, secret: Any, hash: Any, **context: Any) -> bool:
        """Like passlib's, but False for a password that can't be hashed: anybody can type one."""
        try:
            encode_password(secret)
        except ValueError as error:
            return cls._refuse(error)
        # passlib raises ValueError for a field that isn't a hash of this handler.
        try:
            is_match: bool = super().verify(secret, hash, **context)
        except TooCostly as error:
            return cls._refuse(error)
        return is_match

    @classmethod
    def _refuse(cls, error: ValueError) -> bool:
        _LOG.debug("login refused: %s", error)
        cls.hash("")  # takes as long as dummy_verify() does for an unknown name
        return False

    def _calc_checksum(self, secret: Any) -> str:
        budget = self.policy().limit().cost
        return crypt(secret, self.to_string(), budget=budget).rpartition("$")[2]


def _parse_budget(budget: str) -> int:
    """Returns the budget that a file of options gives."""
    try:
        return int(budget)
    except ValueError:
        raise ValueError("budget must be a whole number") from None


class _Rounds(_Crypt, metaclass=ABCMeta):
    """The common part of the two handlers of SHA-crypt."""

    default_rounds = limit().rounds
    min_desired_rounds: Optional[int]
    vary_rounds: Any
    rounds: int

    def _calc_checksum(self, secret: Any) -> str:
        if self.use_defaults:  # for a new hash, not for a check
            self.rounds = self._rounds_within_limit(secret, self.rounds)
        return super()._calc_checksum(secret)

    @classmethod
    def _rounds_within_limit(cls, secret: Any, rounds: int) -> int:
        """Returns `rounds`, or fewer if the hash of a long password would exceed the limit."""
        policy = Policy(cls.policy().method, rounds, cls.policy().limit().cost)
        return policy.for_length(len(encode_password(secret))).limit().rounds

    def _calc_needs_update(self, secret: Any = None, **options: Any) -> bool:
        # passlib accepts any rounds, unless an option says how many a hash needs.
        has_own_rounds = self.min_desired_rounds is not None or self.vary_rounds is not None
        if not has_own_rounds and self.rounds < self._least_rounds(secret):
            return True
        needs_update: bool = super()._calc_needs_update(secret=secret, **options)
        return needs_update

    @classmethod
    def _least_rounds(cls, secret: Any) -> int:
        """Returns the rounds of a new hash: fewer than the default for a long password.

        A password that isn't known counts as a short one.
        """
        if secret is not None:
            with suppress(ValueError):
                return cls._rounds_within_limit(secret, cls.default_rounds)
        return cls.default_rounds


class md5_crypt(_Crypt, _md5.md5_crypt):
    """passlib.hash.md5_crypt, hashed by mkpasswd."""

    setting_kwds = (*_md5.md5_crypt.setting_kwds, "budget")


class sha256_crypt(_Rounds, _sha2.sha256_crypt):
    """passlib.hash.sha256_crypt, hashed by mkpasswd."""

    setting_kwds = (*_sha2.sha256_crypt.setting_kwds, "budget")


class sha512_crypt(_Rounds, _sha2.sha512_crypt):
    """passlib.hash.sha512_crypt, hashed by mkpasswd."""

    setting_kwds = (*_sha2.sha512_crypt.setting_kwds, "budget")


for _handler in md5_crypt, sha256_crypt, sha512_crypt:
    register_crypt_handler(_handler, force=True)
