"""The longest password that a method and rounds allow, by the formulas of docs/FORMATS.md."""
from __future__ import annotations

import pytest
from support.policy_limits import LONGEST_PASSWORD, SHA256CRYPT, SHA512CRYPT, Policy, new_cost
from support.pwhash_runs import pwhash

NAMES = {SHA256CRYPT: "sha256crypt", SHA512CRYPT: "sha512crypt"}
# Numbers of rounds for which a password of 1,024 bytes is above the limit.
ROUNDS = (656_000, 656_001, 300_007, 1_234_567, 98_765_432, 999_999_999)


def longest_within(policy: Policy) -> int:
    """Returns the length of the longest password whose new hash is within the limit."""
    lengths = range(LONGEST_PASSWORD + 1)
    return max(
        length
        for length in lengths
        if new_cost(policy.method, policy.chosen_rounds, length) <= policy.limit
    )


@pytest.mark.parametrize("rounds", ROUNDS)
@pytest.mark.parametrize("method", NAMES, ids=NAMES.get)
def test_the_message_for_too_long_a_password_names_the_longest_length(
    method: int, rounds: int
) -> None:
    longest = longest_within(Policy(method, rounds, 0))
    done = pwhash("-m", NAMES[method], "-R", str(rounds), stdin=b"x" * LONGEST_PASSWORD + b"\n")
    assert done.status == 2, done
    assert f"at most {longest} bytes".encode() in done.err, done
