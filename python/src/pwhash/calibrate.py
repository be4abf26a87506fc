"""pwhash calibrate: finds rounds and a budget with which no login takes longer than a given time.

The time covers one hash, which is what a login computes. A login that renews a hash computes two,
but only if the password is right, and once for each account.
"""

from __future__ import annotations

import contextlib
import math
from collections.abc import Sequence
from typing import List, NamedTuple

from pwhash import library, speed
from pwhash.console import STDOUT
from pwhash.options import CalibrateOptions
from pwhash.session import Session

# Rounds with at most two significant digits, so that small differences of measurement don't show.
PLAIN_ROUNDS = (
    *range(1, 100),
    *(digits * 10**zeros for zeros in range(1, 9) for digits in range(10, 100)),
)


class CalibratedPolicy(NamedTuple):
    """A method and rounds with a budget."""

    method: str
    rounds: int
    budget: int
    own_limit: int  # the library's limit if no budget is given

    @property
    def needs_budget(self) -> bool:
        """Whether the budget has to be given."""
        return self.budget != self.own_limit

    @property
    def options(self) -> str:
        """The policy as options of pwhash and mkpasswd."""
        return f"-m {self.method} -R {self.rounds} --budget {self.budget}"

    @property
    def code(self) -> str:
        """The policy in C and in Python."""
        numbers = f"{self.rounds}, {self.budget if self.needs_budget else 0}"
        in_c = f"{{MKPASSWD_{self.method.upper()}, {numbers}}}"
        arguments = f'"{self.method}", {numbers if self.needs_budget else self.rounds}'
        return f"in C {in_c}, in Python Policy({arguments})"


def run(options: CalibrateOptions, session: Session) -> bool:
    """Prints a policy for each method that is fast enough. Returns whether none is."""
    console = session.console
    seconds_of_cost = speed.seconds_of_cost(console, options.quiet)
    cost_limit = int(options.seconds / seconds_of_cost)
    policies = [costliest_within(method, cost_limit) for method in options.methods]
    found = [each for each in policies if each.budget <= cost_limit]
    console.write_lines(STDOUT, [each.options.encode() for each in found])
    sentences = describe_slow_methods(policies, cost_limit, seconds_of_cost)
    if found and not options.quiet:
        sentences = describe_policies(options, found, seconds_of_cost) + sentences
    for sentence in sentences:
        console.say(sentence)
    return not found


def costliest_within(method: str, cost_limit: int) -> CalibratedPolicy:
    """Returns the policy with the most rounds within the limit, or the cheapest if none is.

    The library's own limit has a floor. If that is too high, the budget is the limit without it.
    """
    policies: List[CalibratedPolicy] = []
    for rounds in PLAIN_ROUNDS:
        with contextlib.suppress(library.RefusedRounds):
            own_limit = library.limit(method, rounds, None).budget
            without_floor = library.limit_without_floor(method, rounds)
            budget = own_limit if own_limit <= cost_limit else without_floor
            policies.append(CalibratedPolicy(method, rounds, budget, own_limit))
    within = [each for each in policies if each.budget <= cost_limit]
    return within[-1] if within else policies[0]


def describe_policies(
    options: CalibrateOptions, found: Sequence[CalibratedPolicy], seconds_of_cost: float
) -> List[str]:
    """Returns sentences about the policies that are printed."""
    sentences = [
        f"with these, a login takes at most {options.time} of one core here, whatever hash is "
        f"stored: a cost of 1,000,000,000 takes up to {in_words(1e9 * seconds_of_cost)}.",
        "a login that renews a hash makes a second one, so it can take twice as long.",
    ]
    first = found[0]
    if first.needs_budget:
        seconds = in_words(first.own_limit * seconds_of_cost)
        sentences.append(
            f"give the budget, too: without it, a login may cost {first.own_limit:,}, and takes "
            f"up to {seconds} here."
        )
    sentences.append(
        "users whose stored hash costs more than the budget can't log in, so it is never renewed. "
        'Find them first, as GUIDE.md says under "A time for a login".'
    )
    return [*sentences, *(f"{each.method} {each.code}" for each in found)]


def describe_slow_methods(
    policies: Sequence[CalibratedPolicy], cost_limit: int, seconds_of_cost: float
) -> List[str]:
    """Returns a sentence for each method whose fewest rounds take too long."""
    return [
        f"{each.method} takes longer: even with -R {each.rounds}, a login needs a budget of "
        f"{each.budget:,}, and takes up to {in_words(each.budget * seconds_of_cost)} here."
        for each in policies
        if each.budget > cost_limit
    ]


def in_words(seconds: float) -> str:
    """Returns a time in words, rounded up."""
    if seconds < 1:
        return f"{math.ceil(1000 * seconds)} ms"
    return f"{math.ceil(10 * seconds) / 10:,.1f} s"
