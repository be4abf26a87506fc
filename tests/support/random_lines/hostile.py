"""Hostile lines: from the grammar, at the limits, and good lines with changes."""
from __future__ import annotations

import re
from dataclasses import dataclass
from typing import Callable, Sequence

from ..model.answers import Job, Mode
from . import fields, names
from .source import LOWER, Source

FRAGMENTS = [
    *(b":", b"::", b"$", b"$$", b"*", b"!", b"\0", b"\r", b"\xc3\xa9", b"\xff", b"rounds="),
    *(b"rounds=1000$", b"$1$", b"$5$", b"$6$", b"$7$", b"0", b"00", b"9", b"999999999", b" "),
    *(b"\t", b"\x7f", b"\\", b";", b".", b"/"),
]
# Beginnings of fields that a long salt, or a long text in place of a digest, can follow.
LONG_STARTS = [b"$1$", b"$5$", b"$5$rounds=1$", b"$9$", b"$7$2/..../....ab$"]
# Beginnings of fields to fill up to the limit.
REPEATED_STARTS = [b"$1$ab$", b"$6$rounds=1000$ab$", b"$6$rounds=0$", b"$7$", b"*"]
# Costs of scrypt: mostly a valid one, sometimes one out of its range or above the ceiling.
SCRYPT_STARTS = [b"$7$0/..../...."] * 4 + [b"$7$./..../....", b"$7$J6..../...."]
SHORT_LINES = [
    *(b"", b":", b"::", b":::", b":x", b":$1$a:", b"\0", b"\r", b"n", b"n:", b"n::", b"n:::"),
    *(b"n::\0", b"n:!"),
]


@dataclass(frozen=True)
class KnownHash:
    """A hash with its password."""

    text: bytes
    password: bytes


def hostile_line(source: Source, job: Job, hashes: Sequence[KnownHash]) -> bytes:
    """Returns a line for a job. If the line has a good hash, that is one of `hashes`."""
    make = new_line if job.mode is Mode.BATCH else stored_line
    line = source.by_weight(
        (13, lambda: line_at_a_limit(source, job)),
        (3, lambda: junk(source)),
        (84, lambda: make(source, job, hashes)),
    )
    if job.mode is Mode.AUDIT and source.chance(0.3):
        line = re.sub(rb":[^:]*\Z", b"", line)
    return line.replace(b"\n", b"\r")


def new_line(source: Source, _job: Job, _hashes: Sequence[KnownHash]) -> bytes:
    """Returns a line with a name and a password."""
    line = names.name(source) + b":" + names.password(source)
    return mutated(source, line) if source.chance(0.24) else line


def stored_line(source: Source, job: Job, hashes: Sequence[KnownHash]) -> bytes:
    """Returns a line with a name, a stored field and a password."""
    known = source.one_of(*hashes)
    text, password = known.text, known.password
    # An audit looks only at the field, so more of its lines have a changed hash.
    weight_of_changed = 24 if job.mode is Mode.AUDIT else 10
    weight_of_any = 49 - weight_of_changed
    return source.by_weight(
        (15, lambda: mutated_known(source, known)),
        (16, lambda: joined(source, text, password)),
        (4, lambda: joined(source, text, names.wrong_password(source, password))),
        (weight_of_changed, lambda: joined(source, fields.changed_hash(source, text), password)),
        (weight_of_any, lambda: joined(source, any_field(source, text), names.password(source))),
    )


def joined(source: Source, field: bytes, password: bytes) -> bytes:
    """Returns a line of three parts, with a random name."""
    return b":".join([names.name(source), field, password])


def mutated_known(source: Source, known: KnownHash) -> bytes:
    """Returns a good line with a few changes."""
    name = source.characters(source.between(1, 9), LOWER)
    return mutated(source, b":".join([name, known.text, known.password]))


def any_field(source: Source, text: bytes) -> bytes:
    """Returns a field that isn't a good hash."""
    locked = (b"", b"!", b"*", b"!!", b"!" + text, b"*" + text, b"!\0")
    return source.by_weight(
        (13, lambda: source.one_of(*locked)),
        (13, lambda: fields.field_of_other_scheme(source)),
        (74, lambda: fields.field(source)),
    )


# ---- Limits


def line_at_a_limit(source: Source, job: Job) -> bytes:
    """Returns a line at one of the limits on lines that the job reads."""
    if job.mode is Mode.BATCH:
        return any_line_at_a_limit(source, b"")
    if source.chance(0.5):
        return field_at_a_limit(source)
    return any_line_at_a_limit(source, source.one_of(b"!:", b"*:"))


def any_line_at_a_limit(source: Source, field: bytes) -> bytes:
    """Returns a line whose name, password or length is at a limit, with this field."""
    ways: list[Callable[[], bytes]] = [
        # names
        lambda: source.characters(source.between(63, 66), b"n\xc3") + b":" + field + b"x",
        lambda: source.characters(source.between(63, 66), b"n") + source.one_of(b"", b":"),
        # passwords
        lambda: b"n:" + field + source.characters(source.between(1023, 1026), b"p:"),
        lambda: b"n:" + field + b"p" * source.between(1022, 1025) + b"\0",
        # whole lines
        lambda: long_line(source, field, source.one_of(b"p", b":"), source.between(2040, 2050)),
        lambda: long_line(source, field, source.pieces(50, FRAGMENTS), source.between(50, 1500)),
    ]
    return source.one_of(*ways)()


def long_line(source: Source, field: bytes, piece: bytes, count: int) -> bytes:
    """Returns a line in which a piece is repeated after the field."""
    name = source.one_of(b"n", b"", b"n" * 65)
    return name + b":" + field + piece * count


def field_at_a_limit(source: Source) -> bytes:
    """Returns a line whose field is at a limit."""
    ways: list[Callable[[], bytes]] = [
        lambda: b"!" + b"x" * source.between(2035, 2039) + b":password",
        lambda: long_salt(source) + b":p",
        lambda: repeated_to_the_limit(source) + b":p",
        lambda: scrypt_at_the_ceiling(source) + b":p",
        lambda: scrypt_with_a_long_salt(source) + b":p",
        lambda: b"$7$2/..../...." + source.one_of(b"a", b" ", b"!", b"_", b"") + b":p",
    ]
    return b"n:" + source.one_of(*ways)()


def long_salt(source: Source) -> bytes:
    """Returns a setting with a long salt, perhaps with characters that aren't allowed."""
    characters = b"a" + source.one_of(b"b", b" ", b"!")
    return source.one_of(*LONG_STARTS) + source.characters(source.between(367, 385), characters)


def repeated_to_the_limit(source: Source) -> bytes:
    """Returns a field of 382 to 387 bytes. The longest setting has 384."""
    return (source.one_of(*REPEATED_STARTS) + b"ab" * 192)[: source.between(382, 387)]


def scrypt_at_the_ceiling(source: Source) -> bytes:
    """Returns a scrypt setting with numbers from cost_at_the_ceiling()."""
    cost = fields.cost_at_the_ceiling(source)
    return b"$7$" + cost.text + fields.salt(source, source.between(0, 9))


def scrypt_with_a_long_salt(source: Source) -> bytes:
    """Returns a scrypt setting with a salt of 85 to 88 characters."""
    salt = fields.salt(source, source.between(85, 88))
    return source.one_of(*SCRYPT_STARTS) + salt + source.one_of(b"", b"$", b"$x", b"_")


def junk(source: Source) -> bytes:
    """Returns a line of bytes that have nothing to do with the grammar."""
    return source.one_of(
        *SHORT_LINES,
        b"\xff" * source.between(1, 99),
        source.bytes_except(source.between(0, 300), b"\n"),
        source.pieces(source.between(1, 30), FRAGMENTS),
    )


# ---- Changes


def mutated(source: Source, line: bytes) -> bytes:
    """Returns a line with one to three random changes."""
    for _ in range(source.between(1, 3)):
        line = mutated_once(source, line)
    return line


def mutated_once(source: Source, line: bytes) -> bytes:
    """Returns a line with one change."""
    place = source.between(0, len(line))
    length = source.between(1, source.one_of(1, 4, 40))
    before, after = line[:place], line[place:]
    ways: list[Callable[[], bytes]] = [
        lambda: before + with_another_bit(source, after[:1]) + after[1:],  # a flipped bit
        lambda: before + after[length:],  # removed bytes
        lambda: before + source.one_of(*FRAGMENTS) + after,  # an inserted fragment
        lambda: before + after[:length] + after,  # repeated bytes
        lambda: source.one_of(before, after),  # only one end of the line
        lambda: before + source.one_of(*FRAGMENTS) * many(source) + after,  # a repeated fragment
        lambda: line.replace(b":", source.one_of(b"", b"::", b";", b"\0:"), 1),  # the first colon
    ]
    return source.one_of(*ways)()


def with_another_bit(source: Source, byte: bytes) -> bytes:
    """Flips a random bit of a byte. An empty string stays as it is."""
    return bytes(value ^ 1 << source.between(0, 7) for value in byte)


def many(source: Source) -> int:
    """Returns how often a fragment is repeated."""
    return source.between(1, source.one_of(8, 400, 2048))
