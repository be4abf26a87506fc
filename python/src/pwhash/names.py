"""Remembers the first line of each name. It takes little memory, since there may be millions."""

from __future__ import annotations

from array import array
from typing import Dict, Optional

FIRST_SIZE = 1 << 8  # a power of two, as is each later size
TABLES = 16  # only one grows at a time, so that little is in memory twice
HASH_MASK = (1 << 64) - 1


class Table:
    """A hash table from names to numbers, which stores the hash of a name and not the name.

    Python hashes names with a secret that differs in each process. In one of 37 million runs, two
    of a million names have the same hash of 64 bits; then a line is called doubtful by mistake.
    """

    def __init__(self) -> None:
        self._keys = array("Q", bytes(8 * FIRST_SIZE))  # 0 marks a free slot
        self._numbers = array("I", bytes(4 * FIRST_SIZE))
        self._count = 0

    def first(self, key: int, number: int) -> int:
        """Returns the first number that came with this key. Stores this one if the key is new."""
        slot = self._slot(key)
        if self._keys[slot] == 0:
            self._keys[slot], self._numbers[slot] = key, number
            self._count += 1
            if 3 * self._count > 2 * len(self._keys):
                self._grow()
            return number
        return self._numbers[slot]

    def _slot(self, key: int) -> int:
        """Returns the slot of a key, or the free slot where it belongs."""
        last = len(self._keys) - 1
        slot = (key // TABLES) & last  # the remainder of the key has chosen the table
        while self._keys[slot] not in (0, key):
            slot = (slot + 1) & last
        return slot

    def _grow(self) -> None:
        old = zip(self._keys, self._numbers)
        size = 2 * len(self._keys)
        self._keys = array("Q", bytes(8 * size))
        self._numbers = array("I", bytes(4 * size))
        for key, number in old:
            if key:
                slot = self._slot(key)
                self._keys[slot], self._numbers[slot] = key, number


class FirstNumbers:
    """The number of the line in which each name came first."""

    def __init__(self) -> None:
        self._tables = [Table() for _ in range(TABLES)]

    def first(self, name: bytes, number: int) -> int:
        """Returns the first number that came with this name. Stores this one if it's new."""
        key = (hash(name) & HASH_MASK) or 1  # 0 marks a free slot
        return self._tables[key % TABLES].first(key, number)


class FirstLines:
    """The first line of each name, and whether that is doubtful or refused."""

    def __init__(self) -> None:
        self._numbers = FirstNumbers()
        self._unsure: Dict[int, str] = {}

    def check(self, name: bytes, number: int, is_doubtful: bool) -> Optional[str]:
        """Returns a doubt about a name that an earlier line has, or None."""
        first = self._numbers.first(name, number)
        if first == number:
            if is_doubtful:
                self._unsure[number] = "doubtful too"
            return None
        unsure = self._unsure.get(first)
        why = f", which is {unsure}: neither is sure" if unsure else ""
        return f"the name again, after line {first}{why}"

    def note_refused(self, name: bytes, number: int) -> None:
        """Notes that a line is refused."""
        if self._numbers.first(name, number) == number:
            self._unsure[number] = "refused"


class FirstFields:
    """The first stored field of each name, to find a name that has two."""

    def __init__(self) -> None:
        self._names = FirstNumbers()
        self._names_and_fields = FirstNumbers()

    def is_another(self, name: bytes, field: bytes, number: int) -> bool:
        """Returns whether the first line of this name has another field."""
        first_with_field = self._names_and_fields.first(name + b":" + field, number)
        return first_with_field != self._names.first(name, number)
