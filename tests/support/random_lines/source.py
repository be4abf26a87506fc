"""A source of random choices."""
from __future__ import annotations

import random
from typing import Callable, Sequence, TypeVar

T = TypeVar("T")

LOWER = b"abcdefghijklmnopqrstuvwxyz"
DECIMAL = b"0123456789"


class Source:
    """Random choices, which a seed determines."""

    def __init__(self, seed: str) -> None:
        self.random = random.Random(seed)

    def chance(self, probability: float) -> bool:
        """Returns True with this probability."""
        return self.random.random() < probability

    def between(self, least: int, most: int) -> int:
        """Returns a number from `least` to `most`."""
        return self.random.randint(least, most)

    def one_of(self, *choices: T) -> T:
        """Returns one of these, all with the same probability."""
        return self.random.choice(choices)

    def by_weight(self, *ways: tuple[float, Callable[[], T]]) -> T:
        """Calls one of these functions, chosen by their weights, and returns its result."""
        weights = [weight for weight, _ in ways]
        makers = [make for _, make in ways]
        chosen: Callable[[], T] = self.random.choices(makers, weights)[0]
        return chosen()

    def shuffled(self, items: Sequence[T]) -> list[T]:
        """Returns the same items in a random order."""
        return self.random.sample(items, len(items))

    def characters(self, length: int, choices: bytes) -> bytes:
        """Returns a string of this length from these characters."""
        return bytes(self.random.choices(choices, k=max(0, length)))

    def pieces(self, count: int, choices: Sequence[bytes]) -> bytes:
        """Returns `count` of these pieces, joined."""
        return b"".join(self.random.choices(choices, k=count))

    def bytes_except(self, length: int, excluded: bytes) -> bytes:
        """Returns a string of this length from all bytes but these."""
        return self.characters(length, bytes(set(range(256)) - set(excluded)))

    def changed_byte(self, old: int, excluded: Sequence[int]) -> int:
        """Returns a byte that isn't `old` or excluded. Often one bit of `old` is flipped."""
        new = old
        while new == old or new in excluded:
            one_bit = old ^ 1 << self.random.randrange(8)
            new = self.one_of(one_bit, self.random.randrange(256))
        return new
