"""The limits of policies, by the formulas of docs/FORMATS.md, and random policies to test.

It is independent of the model, except for the numbers of the errors.
"""
from __future__ import annotations

import random
from dataclasses import dataclass, replace
from typing import Iterator

from .model.calls import Reason

LONGEST_PASSWORD = 1024
LIMIT_FLOOR = 150_000_000
USUAL_LONGEST_PASSWORD = 64  # a limit is twice the cost of hashing a password of this length
LONGEST_HMAC_KEY = 64  # bytes; HMAC digests a longer key first
FEWEST_ROUNDS = 1000
MOST_ROUNDS = 999_999_999

MD5CRYPT = 1
SHA256CRYPT = 5
SHA512CRYPT = 6
SCRYPT = 7
METHODS = (MD5CRYPT, SHA256CRYPT, SHA512CRYPT, SCRYPT)
RECOMMENDED_ROUNDS = {MD5CRYPT: 0, SHA256CRYPT: 656_000, SHA512CRYPT: 656_000, SCRYPT: 7}
DIGEST_LENGTH = {MD5CRYPT: 16, SHA256CRYPT: 32, SHA512CRYPT: 64}
SALT_LENGTH = {MD5CRYPT: 8, SHA256CRYPT: 16, SHA512CRYPT: 16, SCRYPT: 22}


@dataclass(frozen=True)
class Policy:
    """A service's arguments for mkpasswd_login() and mkpasswd_new(). The method isn't 0."""

    method: int
    rounds: int
    budget: int

    @property
    def chosen_rounds(self) -> int:
        """The rounds of new hashes."""
        return self.rounds or RECOMMENDED_ROUNDS[self.method]

    @property
    def error(self) -> Reason | None:
        """Why new hashes can't have this method and these rounds, or None if they can."""
        if self.method not in METHODS:
            return Reason.UNKNOWN_METHOD
        if self.method == SCRYPT and self.rounds not in (0, *range(6, 12)):
            return Reason.ROUNDS
        is_sha = self.method in (SHA256CRYPT, SHA512CRYPT)
        if is_sha and self.rounds and not FEWEST_ROUNDS <= self.rounds <= MOST_ROUNDS:
            return Reason.ROUNDS
        return None

    @property
    def limit(self) -> int:
        """The most that a login or a new hash may cost."""
        if self.budget:
            return self.budget
        return max(LIMIT_FLOOR, 2 * self.usual_cost)

    @property
    def usual_cost(self) -> int:
        """The cost of a new hash of a password that is usually the longest."""
        return new_cost(self.method, self.chosen_rounds, USUAL_LONGEST_PASSWORD)


# ---- The formulas of docs/FORMATS.md


def scrypt_cost(rounds: int, length: int) -> int:
    """Returns the cost of a new scrypt hash: N = 2^(rounds + 7), r = 32, p = 1."""
    rows, block_size, parts = 1 << (rounds + 7), 32, 1
    of_key = length if length > LONGEST_HMAC_KEY else 0
    of_tags = 4 * block_size * parts * (164 + SALT_LENGTH[SCRYPT])
    digested = of_key + of_tags + 164 + 128 * block_size * parts
    return digested + 256 * rows * block_size * parts


def md5crypt_cost(length: int) -> int:
    """Returns the cost of a new md5crypt hash."""
    salt = SALT_LENGTH[MD5CRYPT]
    digits = length.bit_length()
    opening = 2 * length + salt + 2 * length + salt + 3 + digits
    return opening + 1000 * (16 + length) + 666 * salt + 857 * length


def opening_of(method: int, length: int) -> int:
    """Returns the most bytes that SHA-crypt digests before its rounds, for a new hash."""
    digest, salt = DIGEST_LENGTH[method], SALT_LENGTH[method]
    ones = bin(length).count("1")
    zeros = length.bit_length() - ones
    pieces = ones * digest + zeros * length
    return 2 * (2 * length + salt) + pieces + length * length + salt * (16 + 255)


def sha_cost(method: int, rounds: int, length: int) -> int:
    """Returns the cost of a new SHA-crypt hash."""
    digest, salt = DIGEST_LENGTH[method], SALT_LENGTH[method]
    thirds = (rounds + 2) // 3
    sevenths = (rounds + 6) // 7
    in_rounds = rounds * (digest + length) + salt * (rounds - thirds) + length * (rounds - sevenths)
    return opening_of(method, length) + in_rounds


def new_cost(method: int, rounds: int, length: int) -> int:
    """Returns the cost of a new hash of a password of this length."""
    if method == MD5CRYPT:
        return md5crypt_cost(length)
    if method == SCRYPT:
        return scrypt_cost(rounds, length)
    return sha_cost(method, rounds, length)


def fitted_rounds(policy: Policy, length: int) -> int | None:
    """Returns the rounds of a new hash within the limit, by the formula of docs/FORMATS.md."""
    if new_cost(policy.method, policy.chosen_rounds, length) <= policy.limit:
        return 0 if policy.method == MD5CRYPT else policy.chosen_rounds
    if policy.method in (MD5CRYPT, SCRYPT):
        return None
    left = max(0, policy.limit - opening_of(policy.method, length))
    longest_round = DIGEST_LENGTH[policy.method] + 2 * length + SALT_LENGTH[policy.method]
    rounds = min(max(left // longest_round, FEWEST_ROUNDS), MOST_ROUNDS)
    return rounds if new_cost(policy.method, rounds, length) <= policy.limit else None


def is_longest(policy: Policy, length: int) -> bool:
    """Returns whether a password of this length is within the limit, and no longer one is."""
    if length > LONGEST_PASSWORD:
        return False
    if new_cost(policy.method, policy.chosen_rounds, length) > policy.limit:
        return False
    if length == LONGEST_PASSWORD:
        return True
    return new_cost(policy.method, policy.chosen_rounds, length + 1) > policy.limit


# ---- Random policies


def random_rounds(source: random.Random, method: int) -> int:
    """Returns rounds of any size, valid in most cases."""
    if source.random() < 0.1:  # edge cases
        return source.choice((0, 1, 999, 1000, 5000, MOST_ROUNDS, MOST_ROUNDS + 1, 2**32 - 1))
    if method == SCRYPT:
        return source.randrange(13)
    return int(10 ** source.uniform(2.9, 9.0))  # 794 to 10^9, small and large ones alike


def random_budget(source: random.Random, policy: Policy) -> int:
    """Returns 0 for the default budget, a number near the cost of a new hash, or any number."""
    kind = source.random()
    if kind < 0.4:
        return 0
    if kind < 0.8 and policy.error is None:
        length = source.randrange(LONGEST_PASSWORD + 1)
        cost = new_cost(policy.method, policy.chosen_rounds, length)
        return max(1, cost + source.randrange(-1, 2))
    return source.randrange(1, 2 ** source.randrange(1, 65))


def random_policies(seed: int, count: int) -> Iterator[Policy]:
    """Yields policies with each method, and some with an unknown one."""
    source = random.Random(seed)
    for _ in range(count):
        method = source.choice(METHODS) if source.random() < 0.97 else source.randrange(1, 2**32)
        rounds = random_rounds(source, method)
        without_budget = Policy(method, rounds, 0)
        yield replace(without_budget, budget=random_budget(source, without_budget))
