"""Random names and passwords of lines."""
from __future__ import annotations

from ..model.work import LONGEST_PASSWORD
from .source import DECIMAL, LOWER, Source

# Lengths around powers of two, and around 56 and 112, from which padding adds a block to a digest.
EDGE_LENGTHS = [
    *(0, 1, 2, 3, 7, 8, 9, 15, 16, 17, 31, 32, 33, 55, 56, 63, 64, 65, 111, 112),
    *(127, 128, 129, 255, 256, 511, 512, 513, 1022, 1023, 1024, 1025, 1026),
]
ODD_PIECES = [
    *("\u00e9".encode(), "\u20ac".encode(), "\U0001f600".encode(), b"\xff\xfe", b"\xc0\x80"),
    *(b"root", b" ", b"\t", b"$", b".", b"\r"),
]
PASSWORD_PIECES = [*ODD_PIECES, b":", b"::", b"$6$", b"!"]
ZERO, LINE_FEED = 0, 10


def name(source: Source) -> bytes:
    """Returns a name, sometimes an invalid one."""
    return source.by_weight(
        (45, lambda: source.characters(source.between(1, 9), LOWER)),
        (30, lambda: source.bytes_except(source.between(1, 64), b":\n")),
        (15, lambda: source.pieces(source.between(1, 12), ODD_PIECES)),
        (6, lambda: source.characters(source.between(63, 66), LOWER + b"\0")),
        (4, lambda: source.one_of(b"", b"\0", b"\r", source.characters(200, b"$!"))),
    )


def password(source: Source) -> bytes:
    """Returns a password, sometimes one that is refused."""
    return source.by_weight(
        (45, lambda: source.characters(source.between(0, 12), LOWER + DECIMAL)),
        (20, lambda: source.bytes_except(source.between(0, 80), b"\0\n")),
        (15, lambda: source.pieces(source.between(0, 12), PASSWORD_PIECES)),
        (15, lambda: source.bytes_except(source.one_of(*EDGE_LENGTHS), b"\0\n")),
        (3, lambda: source.characters(source.between(1, 9), b"a\0")),
        (2, lambda: source.characters(source.between(1000, 1100), source.one_of(b"a\0", b"ab"))),
    )


def wrong_password(source: Source, right: bytes) -> bytes:
    """Returns a password that differs from the right one in one place."""
    if right == b"":
        return source.one_of(b"a", b"\r", b" ")
    last = len(right) - 1
    if len(right) < LONGEST_PASSWORD and source.chance(0.15):
        return right + source.one_of(b"a", b"\r", b" ", right[last:])
    if source.chance(0.15):
        return right[:last]
    place = last if source.chance(0.6) else source.between(0, last)
    new = source.changed_byte(right[place], excluded=[ZERO, LINE_FEED])
    return right[:place] + bytes([new]) + right[place + 1 :]
