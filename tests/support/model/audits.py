"""What an audit reports for a field of a password file."""
from __future__ import annotations

import re
from dataclasses import dataclass

from .methods import DIGIT, MD5CRYPT, SHA512CRYPT, Method
from .settings import Refused, Setting, read_setting, recommended_setting
from .work import LONGEST_PASSWORD, cost, login_limit

OTHER_SCHEMES = {
    b"$y$": "yescrypt",
    b"$gy$": "gost-yescrypt",
    b"$2a$": "bcrypt",
    b"$2b$": "bcrypt",
    b"$2y$": "bcrypt",
    b"$3$": "NT",
    b"$sha1$": "sha1crypt",
    b"$md5": "SunMD5",
    b"_": "bsdicrypt",
}


@dataclass(frozen=True)
class AuditPolicy:
    """The policy that an audit compares hashes with."""

    setting: Setting  # of new hashes
    budget: int  # for a login with the longest password
    login_limit: int | None  # for a login with the empty password


@dataclass(frozen=True)
class Finding:
    """What an audit prints for a field."""

    text: str
    is_bad: bool = False  # whether it makes the status 1
    cost: int = 0  # of a login with the longest password


def audit_policy(method: Method, rounds: int | None, budget: int | None) -> AuditPolicy:
    """Returns the policy that options describe. Without a budget, it has default limits."""
    setting = recommended_setting(method, rounds, b"a" * method.longest_salt)
    if budget:
        return AuditPolicy(setting, budget, None)
    default = recommended_setting(SHA512CRYPT, None, b"a" * SHA512CRYPT.longest_salt)
    own_budget = max(cost(setting, LONGEST_PASSWORD), cost(default, LONGEST_PASSWORD))
    return AuditPolicy(setting, own_budget, login_limit(method, rounds, 0))


def is_locked(stored: bytes) -> bool:
    """Returns whether a field is locked, so that no password matches it."""
    return stored[:1] in (b"!", b"*")


def is_whole(setting: Setting, stored: bytes) -> bool:
    """Returns whether a field with this setting can be the hash of a password."""
    method = setting.method
    digits = rb"%b{%d}[%b]" % (DIGIT, method.hash_length - 1, method.last_digits)
    return re.fullmatch(re.escape(setting.text) + rb"\$" + digits, stored) is not None


def other_scheme(stored: bytes) -> str | None:
    """Returns the name of the other scheme of crypt(5) whose hash a field looks like, or None."""
    for prefix, name in OTHER_SCHEMES.items():
        if stored.startswith(prefix):
            return name
    return "descrypt" if re.fullmatch(rb"%b{13}" % DIGIT, stored) else None


def rounds_text(setting: Setting) -> str:
    """Returns the rounds of a setting as an audit prints them."""
    if setting.scrypt is not None:
        return f"{1 << setting.scrypt.log_n}/{setting.scrypt.r}/{setting.scrypt.p}"
    return "1000" if setting.method is MD5CRYPT else str(setting.rounds)


def state_of(policy: AuditPolicy, setting: Setting, stored: bytes) -> str:
    """Returns an audit's word for a hash with this setting."""
    if cost(setting, LONGEST_PASSWORD) > policy.budget:
        return "over budget"
    if policy.login_limit is not None and cost(setting, 0) > policy.login_limit:
        return "over budget"
    if not is_whole(setting, stored):
        return "dead"
    return "outdated" if setting.is_replaced_by(policy.setting) else "current"


def finding_of(policy: AuditPolicy, stored: bytes) -> Finding:
    """Returns what an audit reports for a field."""
    if stored == b"":
        return Finding("none", is_bad=True)
    if is_locked(stored):
        return Finding("locked")
    try:
        setting = read_setting(stored)
    except Refused as refusal:
        return finding_of_refused(stored, str(refusal))
    highest = cost(setting, LONGEST_PASSWORD)
    state = state_of(policy, setting, stored)
    text = f"{setting.method.name}:{rounds_text(setting)}:{highest}:{state}"
    return Finding(text, is_bad=state != "current", cost=highest)


def finding_of_refused(stored: bytes, refusal: str) -> Finding:
    """Returns what an audit reports for a field that doesn't begin with a valid setting."""
    has_dollar = stored.startswith(b"$")
    if has_dollar and refusal != "unknown scheme":
        return Finding(f"malformed:{refusal}", is_bad=True)
    scheme = other_scheme(stored)
    if scheme is not None:
        return Finding(f"{scheme}:unknown")
    return Finding("unknown") if has_dollar else Finding("no scheme", is_bad=True)
