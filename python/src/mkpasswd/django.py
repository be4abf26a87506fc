"""A password hasher for Django, with the recommended policy or that of a class of your own:

    class SitePasswordHasher(MkpasswdPasswordHasher):
        rounds = 900000

Django expects the name of the algorithm before the first "$", so a hash is stored as
"mkpasswd$6$..". Put "mkpasswd" before hashes of these methods that come from elsewhere.

When Django renews the hash of a user who logs in, it can't ask for a shorter password. So a
password whose hash would cost more than the policy's limit gets fewer rounds; see
Policy.for_length(). PasswordValidator refuses such passwords when users choose them.
"""
from __future__ import annotations

import re
from contextlib import suppress
from typing import Any, Dict, Optional

from django.contrib.auth import hashers
from django.contrib.auth.hashers import BasePasswordHasher, mask_hash
from django.core.exceptions import PermissionDenied, ValidationError
from django.utils.translation import gettext_noop as _

from . import Policy, Refused, TooCostly, _calls
from ._library import PASSWORD_LIMIT
from .crypt import crypt

__all__ = ["InvalidPassword", "MkpasswdPasswordHasher", "PasswordValidator"]

# User.password has 128 characters, and a digest of sha512crypt 86.
_LONGEST_SETTING = 128 - 86

_METHODS = {"1": "md5crypt", "5": "sha256crypt", "6": "sha512crypt", "7": "scrypt"}
_LEAST_ROUNDS = 1000  # of SHA-crypt

# The method's number, the rounds, the salt and the digest of a whole hash. In a hash of scrypt,
# eleven characters of cost come before the salt, and the group for the rounds is empty.
_FORMS = (
    re.compile(r"\$([156])\$(?:rounds=([0-9]+)\$)?([^$]*)\$([^$]+)\Z"),
    re.compile(r"\$(7)\$.{11}()(.*)\$([^$]+)\Z"),
)


class InvalidPassword(PermissionDenied, ValueError):
    """A password that can't be hashed: it has more than 1,024 bytes, or a zero byte.

    Also raised if scrypt finds no memory.

    For an unknown name, Django's authenticate() hashes the password that was typed. Because this
    is a PermissionDenied, the login just fails there, and no error shows that the name is unknown.
    """


class MkpasswdPasswordHasher(BasePasswordHasher):
    """Hashes and checks passwords by one policy."""

    algorithm = "mkpasswd"
    method = "sha512crypt"
    rounds: Optional[int] = None
    budget: Optional[int] = None

    def __init_subclass__(cls, **options: Any) -> None:
        """Refuses an invalid policy when the class is defined. Raises ValueError."""
        super().__init_subclass__(**options)
        policy = Policy(cls.method, cls.rounds, cls.budget)
        try:
            policy.for_length(PASSWORD_LIMIT)
        except TooCostly:
            raise ValueError("budget is too low for passwords of 1,024 bytes") from None
        is_long = len(cls.algorithm + policy.setting() + "$") > _LONGEST_SETTING
        if cls.method == "sha512crypt" and is_long:
            message = "rounds must be at most 999999, and algorithm of 8 characters"
            raise ValueError(f"{message}: User.password has 128")

    @property
    def policy(self) -> Policy:
        """The policy that the attributes describe."""
        return Policy(self.method, self.rounds, self.budget)

    def salt(self) -> str:
        """Return a new salt."""
        return _calls.new_salt(self.method)

    def encode(self, password: str, salt: str) -> str:
        """Return the hash to store for a password of up to 1,024 bytes. Raises InvalidPassword."""
        try:
            policy = self._policy_for(password)
        except ValueError as error:
            raise InvalidPassword(str(error)) from None
        setting = policy.setting(salt)
        try:
            return self.algorithm + crypt(password, setting, budget=policy.limit().cost)
        except MemoryError as error:
            raise InvalidPassword(str(error)) from None

    def verify(self, password: str, encoded: str) -> bool:
        """Return whether it matches. A hash that can't be checked takes as long as a new one."""
        field = self._field(encoded)
        try:
            policy = self._policy_for(password)
        except ValueError:
            return False
        return policy.login(password, field=field)

    def must_update(self, encoded: str) -> bool:
        """Return whether a new hash should replace this one."""
        with suppress(Refused):
            return self.policy.needs_rehash(self._field(encoded))
        return False

    def harden_runtime(self, password: str, encoded: str) -> None:
        """Make up for a cheaper verify(): both together cost at least as much as a new hash."""
        field = self._field(encoded)
        # A password that can't be hashed costs nothing for an unknown name either.
        with suppress(MemoryError, ValueError):
            policy = self._policy_for(password)
            remaining = self._remaining_policy(policy, len(_calls.encode_password(password)), field)
            if remaining is not None:
                remaining.hash(password)

    def decode(self, encoded: str) -> Dict[str, Any]:
        """Return the parts of a whole hash."""
        field = self._field(encoded)
        for form in _FORMS:
            match = form.match(field)
            if match:
                number, rounds, salt, digest = match.groups()
                return {
                    "algorithm": self.algorithm,
                    "method": _METHODS[number],
                    "rounds": _rounds(number, rounds),
                    "salt": salt,
                    "hash": digest,
                }
        raise ValueError("the hash has none of these methods, or was cut")

    def safe_summary(self, encoded: str) -> Dict[str, Any]:
        """Return what Django's page for a user shows. Accepts any stored field."""
        field = self._field(encoded)
        try:
            decoded = self.decode(encoded)
        except ValueError:
            return {_("algorithm"): self.algorithm, _("hash"): mask_hash(field, show=3)}
        return {
            _("algorithm"): decoded["algorithm"],
            _("method"): decoded["method"],
            _("rounds"): decoded["rounds"],
            _("salt"): mask_hash(decoded["salt"]),
            _("hash"): mask_hash(decoded["hash"]),
        }

    def _field(self, encoded: str) -> str:
        algorithm, dollar, rest = encoded.partition("$")
        if algorithm != self.algorithm:
            raise ValueError("the hash is of another hasher")
        # "mkpasswd$" is an empty field and "mkpasswd$!.." a locked one.
        return rest if rest[:1] in ("", "!", "*") else dollar + rest

    def _policy_for(self, password: str) -> Policy:
        """Returns the policy with which a hash of this password is within the limit."""
        return self.policy.for_length(len(_calls.encode_password(password)))

    @staticmethod
    def _remaining_policy(policy: Policy, password_len: int, field: str) -> Optional[Policy]:
        """Returns a policy whose hash makes up for the rounds that verify() didn't do, or None."""
        if policy.cost(field, password_len) > policy.limit().cost:
            return None  # verify() has made a new hash
        stored = policy.describe(field)
        # The rounds of another method, or of scrypt, can't be subtracted: make a whole new hash.
        if stored.scheme != policy.method or stored.rounds is None or not policy.limit().rounds:
            return policy
        remaining = policy.limit().rounds - stored.rounds
        if remaining <= 0:
            return None
        return Policy(policy.method, max(remaining, _LEAST_ROUNDS), policy.limit().cost)


class PasswordValidator:
    """Refuses new passwords that the site's hasher would hash with fewer rounds, or not at all.

    Name it in AUTH_PASSWORD_VALIDATORS.
    """

    def validate(self, password: str, user: Any = None) -> None:
        """Raise ValidationError if the password is too long for the policy. `user` is ignored."""
        del user
        try:
            length = len(_calls.encode_password(password))
        except ValueError:
            length = PASSWORD_LIMIT + 1
        if length > self._longest_password():
            raise ValidationError(self.get_help_text(), code="password_too_long")

    def get_help_text(self) -> str:
        """Return the sentence that the form shows."""
        return f"Your password can have at most {self._longest_password()} bytes."

    @staticmethod
    def _longest_password() -> int:
        # Tests often use another hasher, which has no policy.
        policy: Policy = getattr(hashers.get_hasher(), "policy", Policy())
        return policy.limit().longest_password


def _rounds(number: str, digits: Optional[str]) -> Optional[int]:
    """Returns the rounds of a hash of SHA-crypt, or None for another method."""
    if digits:
        return int(digits)
    return 5000 if number in ("5", "6") else None  # those of a hash that names none
