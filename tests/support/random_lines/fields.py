"""Random fields of password files: from the grammar, of other schemes, and changed hashes."""
from __future__ import annotations

import re

from ..model.methods import ALPHABET
from ..model.settings import ScryptCost
from .source import Source

PREFIXES = [
    *([b"$1$"] * 4 + [b"$5$"] * 6 + [b"$6$"] * 6 + [b"$7$"] * 9),
    *(b"", b"$", b"$$", b"$1", b"$5", b"$7", b"1$", b"$2b$10$", b"$y$j9T$", b"$gy$", b"$3$$"),
    *(b"$0$", b"$8$", b"$55$", b"$md5$", b"$sha1$", b"_J9..", b"x", b"$a$", b"$ 1$", b"$1\0$"),
]
PREFIXES_OF_OTHER_SCHEMES = [
    *(b"$y$", b"$gy$", b"$2a$", b"$2b$", b"$2y$", b"$3$", b"$sha1$", b"$md5", b"$md5$", b"_"),
    *(b"$y", b"$gy", b"$2", b"$2x$", b"$3", b"$sha1", b"$md", b"$Y$"),
]
STRANGE_CHARACTERS = [
    *(b" ", b"\t", b"\x7f", b"\x80", b"\xc3\xa9", b"\0", b";", b"*", b"!", b"\\", b"\r", b"~"),
]
EDGE_ROUNDS = [
    *("0", "00", "", "0999", "01000", "0000001000", "999", "1000", "1001", "4999", "5000", "5001"),
    *("999999998", "999999999", "1000000000", "1000000001", str(2**31 + 1000), str(2**32 - 1)),
    *(str(2**32), str(2**32 + 1000), str(2**64 - 1), str(2**64)),
]
# Wrong and right ways to write rounds, with N for the digits.
WRONG_ROUNDS = [
    *(b"rounds=N", b"rounds=+N$", b"rounds=-N$", b"rounds= N$", b"rounds=N $", b"rounds=Nx$"),
    *(b"Rounds=N$", b"roundsN$", b"round=N$", b"rounds==N$", b"rounds=N,", b"$rounds=N$"),
    *(b"rounds=0x3e8$", b"rounds=1e3$", b"rounds=1000$rounds=N$"),
]
LOG_OF_CEILING = 23
LENGTH_OF_COST = 11  # the length of scrypt's N, r and p in a setting


def salt(source: Source, length: int) -> bytes:
    """Returns a salt of this length."""
    return source.characters(length, ALPHABET)


def with_another_digit(source: Source, text: bytes, start: int) -> bytes:
    """Changes one character of a text, at `start` or after it. Often that is the last one."""
    last = len(text) - 1
    place = last if source.chance(0.3) else source.between(min(start, last), last)
    others = ALPHABET.replace(text[place : place + 1], b"")
    return text[:place] + source.characters(1, others) + text[place + 1 :]


# ---- Rounds


def edge_rounds(source: Source) -> bytes:
    """Returns the digits of rounds, at a limit or anywhere."""
    drawn = [
        str(source.between(1, 999)),
        str(source.between(1000, 20000)),
        source.characters(source.between(1, 12), b"0123456789").decode(),
        source.characters(source.between(20, 390), b"0123456789").decode(),
        "0" * source.between(1, 390) + "1000",
    ]
    return source.one_of(*EDGE_ROUNDS, *drawn).encode()


def few_rounds(source: Source) -> int:
    """Returns rounds for a cheap hash."""
    return source.one_of(1000, 1000, 1000, 1001, source.between(1000, 1100))


def rounds(source: Source) -> bytes:
    """Returns the rounds in a setting, `rounds=N$`: none, valid ones, or something malformed."""
    return source.by_weight(
        (10, lambda: b""),
        (40, lambda: b"rounds=%d$" % few_rounds(source)),
        (35, lambda: b"rounds=%b$" % edge_rounds(source)),
        (15, lambda: source.one_of(*WRONG_ROUNDS).replace(b"N", edge_rounds(source))),
    )


# ---- Scrypt's numbers


def scrypt_cost(source: Source) -> ScryptCost:
    """Returns N, r and p that are cheap, zero, or at the limit of the range or the ceiling."""
    return source.by_weight(
        (45, lambda: cheap_cost(source)),
        (10, lambda: cost_with_zeros(source)),
        (10, lambda: cost_at_the_range(source)),
        (15, lambda: cost_at_the_ceiling(source)),
        (10, lambda: cost_below_the_ceiling(source)),
        (10, lambda: any_cost(source)),
    )


def cheap_cost(source: Source) -> ScryptCost:
    """Returns numbers for a cheap hash: N is at most 32."""
    return ScryptCost(source.between(1, 5), source.between(1, 3), source.between(1, 2))


def cost_with_zeros(source: Source) -> ScryptCost:
    """Returns numbers, some of which may be 0."""
    return ScryptCost(
        source.one_of(source.between(1, 8), 0), source.one_of(1, 0), source.one_of(1, 0)
    )


def cost_at_the_range(source: Source) -> ScryptCost:
    """Returns numbers in which N is the greatest that r allows, or next to it."""
    r = source.between(1, 4)
    log_n = min(63, source.between(16 * r - 1, 16 * r + 1))
    return ScryptCost(log_n, r, source.one_of(1, 1, 2, 2**30 - 1))


def cost_at_the_ceiling(source: Source) -> ScryptCost:
    """Returns numbers whose product is the ceiling, or would be if r or p differed by 1."""
    log_n = source.between(1, LOG_OF_CEILING)
    log_r = source.between(0, LOG_OF_CEILING - log_n)
    r, p = 1 << log_r, 1 << (LOG_OF_CEILING - log_n - log_r)
    beside = source.one_of(-1, 1) if source.chance(0.4) else 0
    if source.chance(0.5):
        return ScryptCost(log_n, r + beside, p)
    return ScryptCost(log_n, r, p + beside)


def cost_below_the_ceiling(source: Source) -> ScryptCost:
    """Returns numbers with the greatest p that is allowed, or one more."""
    log_n = source.between(1, 20)
    most = 1 << (LOG_OF_CEILING - log_n)
    r = source.between(1, most)
    return ScryptCost(log_n, r, most // r + source.between(0, 1))


def any_cost(source: Source) -> ScryptCost:
    """Returns numbers of any size."""
    r, p = (source.between(0, (1 << source.one_of(1, 6, 12, 24, 29, 30)) - 1) for _ in range(2))
    return ScryptCost(source.between(0, 63), r, p)


# ---- Fields


def scrypt_field(source: Source) -> bytes:
    """Returns what follows scrypt's prefix: numbers, perhaps cut or damaged, and a salt."""
    text = scrypt_cost(source).text
    if source.chance(0.06):
        text = text[: source.between(0, LENGTH_OF_COST)]
    elif source.chance(0.08):
        place = source.between(0, LENGTH_OF_COST - 1)
        text = text[:place] + source.characters(1, b"_$-@`~") + text[place + 1 :]
    if source.chance(0.15):
        return text + source.characters(source.one_of(1, 5, 86, 87), ALPHABET + b"_~,")
    return text + salt(
        source, source.between(84, 89) if source.chance(0.2) else source.between(0, 24)
    )


def field(source: Source) -> bytes:
    """Returns a field from the grammar, perhaps with a hash, which no password matches."""
    text = prefix = source.one_of(*PREFIXES)
    if prefix == b"$7$":
        text += scrypt_field(source)
    else:
        is_like_sha_crypt = b"5" in prefix or b"6" in prefix
        if is_like_sha_crypt or source.chance(0.1):
            text += rounds(source)
        length = source.one_of(0, 1, 7, 8, 9, 10, 15, 16, 17, 18, source.between(0, 30))
        text += salt(source, length)
    if source.chance(0.6):
        text += b"$" + salt(source, source.one_of(0, 21, 22, 23, 42, 43, 44, 85, 86, 87))
    if source.chance(0.08):
        text += source.characters(source.between(382, 387) - len(text), b"ab$")
    if source.chance(0.08):
        place = source.between(0, len(text))
        text = text[:place] + source.one_of(*STRANGE_CHARACTERS) + text[place:]
    return text


def field_of_other_scheme(source: Source) -> bytes:
    """Returns a field that begins with another scheme's prefix, or with no scheme's."""
    return source.by_weight(
        (35, lambda: salt(source, source.one_of(12, 13, 13, 13, 14, source.between(1, 30)))),
        (20, lambda: source.characters(source.between(1, 20), ALPHABET + b" \t\xe9_$;\0")),
        (45, lambda: hash_of_other_scheme(source)),
    )


def hash_of_other_scheme(source: Source) -> bytes:
    """Returns the prefix of another scheme with a text after it."""
    length = source.one_of(0, source.between(1, 60), source.between(370, 390))
    between = source.one_of(b"", b"", b" ", b"$", b",", b"\xe9")
    return source.one_of(*PREFIXES_OF_OTHER_SCHEMES) + between + salt(source, length)


def changed_hash(source: Source, text: bytes) -> bytes:
    """Returns a good hash with a change, which may no longer be a hash."""
    setting, digits = text.rsplit(b"$", 1)
    return source.by_weight(
        (20, lambda: with_another_digit(source, text, 3)),
        (12, lambda: text[:-1] + source.characters(1, b".12DEz_")),
        (8, lambda: text[: source.between(1, len(text))]),
        (5, lambda: text[: -source.between(1, 3)]),
        (5, lambda: setting + source.one_of(b"", b"$")),
        (5, lambda: text + source.one_of(b".", b"$", b"$extra", b" ", text[-1:])),
        (15, lambda: re.sub(rb"(?<=rounds=)\d+", changed_rounds(source), text)),
        (3, lambda: re.sub(rb"\A(\$[56]\$)(?!rounds)", rb"\1rounds=5000$", text)),
        (7, lambda: setting + salt(source, source.between(1, 20)) + b"$" + digits),
        (5, lambda: b"$" + source.characters(1, b"15672") + text[2:]),
        (5, lambda: setting + b"$$" + digits),
        (10, lambda: source.one_of(b"!", b"*", b"!!", b" ", b"$") + text),
    )


def changed_rounds(source: Source) -> bytes:
    """Returns the digits of other rounds."""
    many = b"9" * source.between(9, 99)
    return source.one_of(b"01000", b"00", b"1", b"999", b"1001", b"5000", b"999999999", many)
