"""The statistics of ratios: the median of many pairs, and how certain it is."""
from __future__ import annotations

import math
import random
import statistics
from collections.abc import Sequence
from dataclasses import dataclass

# The page has about fifty intervals. At 95 %, two or three of them would be wrong.
LEVEL = 0.99
RESAMPLES = 10_000
SEED = 1
LARGE = 0.1  # a difference from 1
# All pairs of a ratio are measured within seconds, while the machine is in one state. In another
# state the median can differ by one or two hundredths, which the bootstrap can't know.
BETWEEN_RUNS = 0.01


@dataclass(frozen=True)
class Interval:
    """Two bounds, between which a number probably lies."""

    lower: float
    upper: float

    def contains(self, number: float) -> bool:
        """Returns whether a number lies within the bounds."""
        return self.lower <= number <= self.upper

    def overlaps(self, other: Interval) -> bool:
        """Returns whether the two intervals have a number in common."""
        return self.lower <= other.upper and other.lower <= self.upper


def bootstrap_interval(
    numbers: Sequence[float], level: float = LEVEL, resamples: int = RESAMPLES
) -> Interval:
    """Returns a confidence interval of the median, by the percentile bootstrap.

    A resample draws as many numbers as there are, with replacement. The interval holds the share
    `level` of the medians of all resamples.
    """
    # A fixed seed, so that the same numbers always give the same interval.
    generator = random.Random(SEED)
    medians = sorted(
        statistics.median(generator.choices(numbers, k=len(numbers))) for _ in range(resamples)
    )
    share_below = (1 - level) / 2
    return Interval(
        lower=medians[math.floor(share_below * resamples)],
        upper=medians[math.ceil((1 - share_below) * resamples) - 1],
    )


@dataclass(frozen=True)
class Ratio:
    """The time of something, divided by that of what it is compared with."""

    median: float
    interval: Interval  # of the pairs of one run, by the bootstrap
    pairs: int

    @property
    def bounds(self) -> Interval:
        """The interval, widened by how much two runs may differ besides."""
        return Interval(
            self.interval.lower * (1 - BETWEEN_RUNS), self.interval.upper * (1 + BETWEEN_RUNS)
        )

    @property
    def may_be_one(self) -> bool:
        """Whether the bounds contain 1, when they are rounded to hundredths."""
        return Interval(round(self.bounds.lower, 2), round(self.bounds.upper, 2)).contains(1)

    @property
    def is_clear(self) -> bool:
        """Whether the bounds exclude a large difference from 1."""
        return 1 - LARGE <= self.bounds.lower and self.bounds.upper <= 1 + LARGE


def ratio_of(ratios: Sequence[float]) -> Ratio:
    """Summarizes the ratios of all pairs."""
    return Ratio(statistics.median(ratios), bootstrap_interval(ratios), len(ratios))
