"""Hostile lines: pwhash prints exactly the bytes that a single mkpasswd prints."""
from __future__ import annotations

import random
import re
from dataclasses import dataclass
from pathlib import Path

import pytest
from support.process import Result, run
from support.pwhash_runs import MD5, MD5CRYPT, PWHASH, save

COUNT = 10_000  # with long ones among them, 8 MB
BUDGET = "--budget=300000"

NAMES = [b"n" * 64 + b":x", b"n" * 65 + b":x", b"n" * 2049]
PASSWORDS = [b"n:" + b"p" * length for length in (1024, 1025, 2047, 70_000)]
CHARACTERS = [b"n:a\0b", b"\0:a", b"n::", b"n:a\r", b"\xff:\xfe", b"\x1b[2J:x"]
LIKE_ANSWERS = [
    b"mkpasswd: line 3: no name",
    b"mkpasswd: out of memory",
    b"mkpasswd:no",
    b"a:ok",
    b"a:$1$x$y",
]
WITHOUT_PARTS = [b"", b":", b":x", b"no colon", b" "]
ODD_LINES = WITHOUT_PARTS + NAMES + PASSWORDS + CHARACTERS + LIKE_ANSWERS
SHARE_OF_ODD_LINES = 0.3

HASH = MD5.encode()
HASHES = [HASH, HASH[:-1], HASH + b"$x", b"!" + HASH]
NO_HASHES = [b"", b"!", b"*", b"x" * 385, b"\xff", b"secret"]
SETTINGS = [
    b"$1$",
    b"$1$a b",
    b"$5$rounds=0$a",
    b"$6$rounds=999999999$a$b",
    b"$7$E/..../....a",
]
OTHER_SCHEMES = [b"$2b$10$x", b"$y$x", b"_abc", b"abcdefghijklm"]
FIELDS = HASHES + NO_HASHES + SETTINGS + OTHER_SCHEMES
SHARE_OF_LINES_WITHOUT_FIELDS = 0.1


def lines_of_passwords(seed: int) -> list[bytes]:
    """Returns lines for --batch: good, refused and long ones, and some that look like answers."""
    source = random.Random(seed)
    lines = []
    for number in range(COUNT):
        if source.random() < SHARE_OF_ODD_LINES:
            lines.append(source.choice(ODD_LINES))
        else:
            lines.append(b"user%d:password%d" % (number, number))
    return lines


def lines_of_fields(seed: int) -> list[bytes]:
    """Returns lines for --check: stored fields of each kind, and some malformed lines."""
    source = random.Random(seed)
    lines = lines_of_passwords(seed + 1)
    for number in range(COUNT):
        if source.random() >= SHARE_OF_LINES_WITHOUT_FIELDS:
            lines[number] = b"u%d:%b:password" % (number, source.choice(FIELDS))
    return lines


@dataclass(frozen=True)
class Job:
    """A command of pwhash, and the mode of mkpasswd that does the same."""

    title: str
    command: str
    mode: str
    words: tuple[str, ...]
    more: tuple[str, ...] = ()  # options that make pwhash hash doubtful lines
    more_of_file: tuple[str, ...] = ()  # further options if the lines are in a file

    def __str__(self) -> str:
        return self.title

    def lines(self) -> bytes:
        """Returns the lines. The last one has no line feed."""
        lines = lines_of_passwords(1) if self.mode == "--batch" else lines_of_fields(2)
        return b"\n".join(lines)

    def by_mkpasswd(self, program: Path) -> Result:
        """Runs a single mkpasswd on the lines."""
        return run(program, self.mode, *self.words, BUDGET, stdin=self.lines())

    def by_pwhash(self, *words: str, stdin: bytes = b"") -> Result:
        """Runs the command of pwhash, with options that let it hash doubtful lines."""
        return run(PWHASH, self.command, *self.words, BUDGET, *self.more, *words, stdin=stdin)


# pwhash check's hint at passwords that end with a carriage return. mkpasswd gives none.
HINT = re.compile(
    rb"^pwhash: [^\n]*: a carriage return or a byte order mark\.[^\n]*\n", re.MULTILINE
)


def without_hint(messages: bytes) -> bytes:
    """Returns pwhash's messages without its hint at carriage returns."""
    return HINT.sub(b"", messages)


REHASH = ("--rehash", "-m", "sha256crypt", "-R", "1000", "-S", "ab")
JOBS = [
    Job(
        "file",
        "file",
        "--batch",
        MD5CRYPT,
        more=("--accept-doubtful",),
        more_of_file=("--skip-refused",),
    ),
    Job("check", "check", "--check", ("-m", "md5crypt")),
    Job("rehash", "check", "--check", REHASH),
]


@pytest.mark.slow
@pytest.mark.parametrize("job", JOBS, ids=str)
def test_lines_of_a_pipe_get_the_answers_of_mkpasswd(program: Path, job: Job) -> None:
    expected, done = job.by_mkpasswd(program), job.by_pwhash(stdin=job.lines())
    assert done.status == expected.status, done
    is_same = (done.stdout, without_hint(done.stderr)) == (expected.stdout, expected.stderr)
    assert is_same, first_difference(expected, done)


@pytest.mark.slow
@pytest.mark.parametrize("job", JOBS, ids=str)
def test_lines_of_a_file_get_the_answers_of_mkpasswd(program: Path, job: Job) -> None:
    expected = job.by_mkpasswd(program)
    done = job.by_pwhash(*job.more_of_file, save("lines", job.lines()))
    assert done.status == expected.status, done
    is_same = done.stdout == expected.stdout
    assert is_same, first_difference(expected, done)


def first_difference(expected: Result, done: Result) -> str:
    """Describes the first line that differs in an output. pytest itself compares megabytes."""
    for name, wanted, came in (
        ("stdout", expected.stdout, done.stdout),
        ("stderr", expected.stderr, done.stderr),
    ):
        pairs = zip(wanted.splitlines() + [b"the end"], came.splitlines() + [b"the end"])
        for number, (line, other) in enumerate(pairs, start=1):
            if line != other:
                return f"{name}, line {number}: expected {line[:200]!r}, got {other[:200]!r}"
    return f"the lines are the same, but one output ends earlier\n{done}"
