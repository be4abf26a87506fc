"""Chunks of random lines, with the jobs that read them."""
from __future__ import annotations

import itertools
import math
from dataclasses import dataclass, replace
from typing import Iterator, Literal, Sequence

from ..model.answers import Job, Mode, NewHash, parsed
from ..model.hashes import hash_of
from ..model.methods import BY_NAME, MD5CRYPT, METHODS, SCRYPT, SHA512CRYPT, Method
from ..model.settings import Refused, ScryptCost, Setting
from ..model.work import LONGEST_PASSWORD, cost
from . import fields, names
from .hostile import KnownHash, hostile_line
from .source import LOWER, Source

Kind = Literal["hash", "hostile"]

# How many lines the chunks of each kind have, in rotation.
SIZES: dict[Kind, list[int]] = {"hash": [100], "hostile": [40] * 20 + [800]}
HIGHEST_COST = 500_000  # hostile lines that cost more are not hashed
HIGHEST_AUDIT_BUDGET = 10**13
GOOD_HASHES = 16  # how many hashes the lines of a hostile chunk share


@dataclass(frozen=True)
class Chunk:
    """A chunk's kind, its number, and how many lines it has. With a seed, these give the lines."""

    kind: Kind
    number: int
    lines: int

    def __str__(self) -> str:
        return f"{self.kind} lines, chunk {self.number}"


@dataclass(frozen=True)
class Task:
    """A job for the program, and the lines that it reads."""

    job: Job
    given: bytes


def chunks(kind: Kind, lines: int) -> list[Chunk]:
    """Returns chunks that have this many lines in total."""
    made: list[Chunk] = []
    for size in itertools.cycle(SIZES[kind]):
        if lines <= 0:
            break
        made.append(Chunk(kind, len(made), min(lines, size)))
        lines -= size
    return made


def tasks(seed: int, chunk: Chunk) -> list[Task]:
    """Returns the jobs of a chunk with their lines."""
    hash_of.cache_clear()
    source = Source(f"{seed} {chunk.kind} {chunk.number}")
    if chunk.kind == "hash":
        return list(hash_tasks(source, METHODS[chunk.number % len(METHODS)], chunk.lines))
    return [hostile_task(source, chunk.lines)]


def joined(source: Source, lines: Sequence[bytes], without_line_feed: float) -> bytes:
    """Joins lines. The last one may lack its line feed, unless it is empty."""
    text = b"".join(line + b"\n" for line in lines)
    if lines and lines[-1] != b"" and source.chance(without_line_feed):
        return text[:-1]
    return text


# ---- Hash lines


def hash_tasks(source: Source, method: Method, count: int) -> Iterator[Task]:
    """Yields a task that hashes passwords with one setting, and one that checks the hashes."""
    shows_work = source.chance(0.25)
    batch = None if method is SCRYPT else batch_job(source, method, shows_work)
    named_hashes = []
    for _ in range(count):
        password = source.bytes_except(length_to_hash(source), b"\0\n")
        setting = batch.setting if batch else cheap_scrypt(source)
        text = hash_of(setting, password)
        if text is not None:
            name = source.bytes_except(source.between(1, 64), b":\n")
            named_hashes.append((name, KnownHash(text, password)))
    if batch:
        new_lines = [b"%b:%b\n" % (name, known.password) for name, known in named_hashes]
        yield Task(batch, b"".join(new_lines))
    lines = [line_to_check(source, *named) for named in source.shuffled(named_hashes)]
    given = joined(source, lines, without_line_feed=0.5)
    yield Task(Job(Mode.CHECK, shows_work=shows_work), given)


def batch_job(source: Source, method: Method, shows_work: bool) -> Job:
    """Returns a job that hashes with one method and one salt."""
    rounds: int | None = source.one_of(
        1000, 1000, source.between(1, 999), source.between(1001, 1200)
    )
    if source.chance(0.05):
        rounds = source.one_of(None, 0)
    salt = fields.salt(source, source.between(1, method.longest_salt))
    return Job(Mode.BATCH, NewHash(method.name, rounds, salt), shows_work=shows_work)


def length_to_hash(source: Source) -> int:
    """Returns the length of a password to hash."""
    return source.by_weight(
        (1, lambda: source.between(512, LONGEST_PASSWORD)),
        (25, lambda: source.between(0, 511)),
        (74, lambda: source.between(0, 40)),
    )


def cheap_scrypt(source: Source) -> Setting:
    """Returns a scrypt setting for a cheap hash: N is at most 64."""
    numbers = ScryptCost(source.between(2, 6), source.between(1, 6), source.between(1, 4))
    return Setting(SCRYPT, fields.salt(source, source.between(0, 86)), scrypt=numbers)


def line_to_check(source: Source, name: bytes, known: KnownHash) -> bytes:
    """Returns a line to check: right, with a wrong password, or with a wrong digit in the hash."""
    text, password = known.text, known.password
    parts = source.by_weight(
        (50, lambda: (text, password)),
        (30, lambda: (text, names.wrong_password(source, password))),
        (20, lambda: (fields.with_another_digit(source, text, text.rindex(b"$") + 1), password)),
    )
    return b":".join([name, *parts])


# ---- Hostile lines


def hostile_task(source: Source, count: int) -> Task:
    """Returns a task of any kind with hostile lines."""
    mode = source.by_weight(
        (2, lambda: Mode.BATCH), (3, lambda: Mode.CHECK), (2, lambda: Mode.AUDIT)
    )
    is_rehash = source.chance(0.45)
    new_hash = NewHash()
    if mode is Mode.BATCH or is_rehash:
        new_hash = options_of_new_hash(source)
    job = Job(mode, new_hash, is_rehash=is_rehash, shows_work=source.chance(0.4))
    hashes = [] if mode is Mode.BATCH else good_hashes(source)
    lines = [hostile_line(source, job, hashes) for _ in range(count)]
    job = replace(job, budget=budget(source, job, lines), first_line=source.between(1, 2**32 - 1))
    return Task(job, joined(source, lines, without_line_feed=0.3))


def options_of_new_hash(source: Source) -> NewHash:
    """Returns options -m, -R and -S."""
    usual = [name for name, method in BY_NAME.items() if method is not SCRYPT]
    name = source.one_of(None, *usual, *usual, SCRYPT.name)
    method = SHA512CRYPT if name is None else BY_NAME[name]
    salt = fields.salt(source, source.between(1, method.longest_salt))
    return NewHash(name, cost_option(source, method), salt if source.chance(0.6) else None)


def cost_option(source: Source, method: Method) -> int | None:
    """Returns a value for the option -R, or None."""
    if method is SCRYPT:
        return source.one_of(None, 0, 6, 7, 8, 9, 10, 11)
    if source.chance(0.8):
        return source.one_of(1, 999, 1000, 1000, source.between(1000, 1100))
    return source.one_of(None, 0, 5000, 5001, 999_999_999, 1_000_000_000)


def good_hashes(source: Source) -> list[KnownHash]:
    """Returns hashes of all methods with their passwords."""
    hashes: list[KnownHash] = []
    while not hashes:
        made = [good_hash(source) for _ in range(GOOD_HASHES)]
        hashes = [known for known in made if known is not None]
    return hashes


def good_hash(source: Source) -> KnownHash | None:
    """Returns a hash with its password, or None if it costs too much or isn't known."""
    setting = good_setting(source)
    password = source.by_weight(
        (1, lambda: source.characters(source.between(0, 12), LOWER)),
        (1, lambda: source.bytes_except(source.between(0, 80), b"\0\n")),
        (1, lambda: source.bytes_except(source.one_of(*names.EDGE_LENGTHS), b"\0\n")),
    )[:LONGEST_PASSWORD]
    if cost(setting, len(password)) > HIGHEST_COST:
        return None
    text = hash_of(setting, password)
    return None if text is None else KnownHash(text, password)


def good_setting(source: Source) -> Setting:
    """Returns a cheap setting: SHA-crypt's rounds are at most 5000, and scrypt's N at most 32."""
    md5crypt, sha256crypt, sha512crypt, scrypt = METHODS
    method = source.one_of(md5crypt, *[sha256crypt, sha512crypt, scrypt] * 2)
    if method is SCRYPT:
        numbers = ScryptCost(source.between(1, 5), source.between(1, 3), source.between(1, 3))
        return Setting(method, fields.salt(source, source.one_of(0, 5, 22, 86)), scrypt=numbers)
    salt = fields.salt(source, source.between(0, method.longest_salt))
    if source.chance(0.1):
        salt = source.characters(source.between(1, method.longest_salt), b'#~"=a_-')
    if method is MD5CRYPT or source.chance(0.2):
        return Setting(method, salt)
    return Setting(method, salt, source.one_of(1000, source.between(1000, 1100)))


def budget(source: Source, job: Job, lines: Sequence[bytes]) -> int | None:
    """Returns a budget: a line's cost, one less, or any number. For audits also None."""
    highest = HIGHEST_COST
    if job.mode is Mode.AUDIT:
        highest = HIGHEST_AUDIT_BUDGET
        if source.chance(0.5):
            return source.one_of(None, 0)
    costs = [cost_of_line(job, line) for line in lines]
    below_highest = [line_cost for line_cost in costs if 0 < line_cost <= highest]
    if below_highest and source.chance(0.7):
        return source.one_of(*below_highest) - source.one_of(0, 0, 0, 0, 1, 1, 1)
    if source.chance(0.67):
        return highest
    # From 1 to the highest, with each magnitude equally often.
    return int(math.exp(source.random.random() * math.log(highest)))


def cost_of_line(job: Job, line: bytes) -> int:
    """Returns the cost of a line's hashes, or 0 if it has none."""
    try:
        return parsed(job, line).cost
    except Refused:
        return 0
