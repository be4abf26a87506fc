"""Filters for Ansible. To use them, put this line into a file `filter_plugins/mkpasswd.py`:

    from mkpasswd.ansible import FilterModule
"""
from __future__ import annotations

from typing import Any, Callable, Dict, Optional

from ansible.errors import AnsibleFilterError

from . import Policy, State

__all__ = ["FilterModule"]

# States that can't be checked: a task that asks whether such a field matches has a mistake.
_UNCHECKED = (State.NO_SCHEME, State.UNKNOWN, State.MALFORMED)


def mkpasswd_hash(
    password: Any,
    method: str = "sha512crypt",
    rounds: Optional[int] = None,
    current: Any = None,
    budget: Optional[int] = None,
) -> str:
    """Return a hash of the password: `current` if that matches and is not outdated, else a new one.

    So a task reports no change if nothing has to change. Raises AnsibleFilterError.
    """
    try:
        secret, policy = _decrypt(password), Policy(method, rounds, budget)
        stored: Optional[str] = _decrypt(current)
        if stored is not None and _is_current(policy, secret, stored):
            return stored
        return policy.hash(secret)
    except (TypeError, ValueError) as error:
        raise AnsibleFilterError(f"mkpasswd_hash: {error}") from None


def mkpasswd_verify(password: Any, stored: Any, budget: Optional[int] = None) -> bool:
    """Return whether the password matches the stored hash. Raises AnsibleFilterError."""
    try:
        policy, secret, field = Policy(budget=budget), _decrypt(password), _decrypt(stored)
        description = policy.describe(field)
        if description.state in _UNCHECKED:
            raise ValueError(f"the stored hash is {description}")
        return policy.login(secret, field=field)
    except (TypeError, ValueError) as error:
        raise AnsibleFilterError(f"mkpasswd_verify: {error}") from None


def _is_current(policy: Policy, password: Any, stored: Any) -> bool:
    if policy.describe(stored).state in _UNCHECKED or policy.needs_rehash(stored):
        return False
    return policy.login(password, field=stored)


def _decrypt(value: Any) -> Any:
    # A value from a vault isn't a str until it is decrypted.
    return str(value) if type(value).__name__ == "AnsibleVaultEncryptedUnicode" else value


class FilterModule:
    """The class that Ansible looks for in a file of filters."""

    def filters(self) -> Dict[str, Callable[..., Any]]:
        """Return the filters by their names."""
        return {"mkpasswd_hash": mkpasswd_hash, "mkpasswd_verify": mkpasswd_verify}
