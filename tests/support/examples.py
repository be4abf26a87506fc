"""Runs the examples of documents and manuals, and compares their output with the shown output.

If a command without -S prints different output in two runs, it draws salts. Its output must then
have the form that is shown, with other salts. Each hash, in the document and in the output, must be
libxcrypt's hash of a word from the examples so far.
"""
from __future__ import annotations

import re
from collections.abc import Iterator, Sequence
from dataclasses import dataclass
from pathlib import Path

from .documents import Example
from .libxcrypt import crypt_or_none
from .process import Changes, run

# A hash: its method and cost, its salt, its digest.
HASH = re.compile(
    r"(\$1\$|\$[56]\$(?:rounds=[0-9]+\$)?|\$7\$[./0-9A-Za-z]{11})"
    r"([./0-9A-Za-z]+)\$([./0-9A-Za-z]+)"
)
WORD = re.compile(r"[A-Za-z :]{2,}")  # the passwords of examples look like this
SALT_OPTION = re.compile(r"(?:^|\s)(?:-S|--salt)")
COMMAND_NOT_FOUND = re.compile(r": (\S+): command not found$", re.MULTILINE)


@dataclass(frozen=True)
class Played:
    """An example, and what it printed on standard output and standard error together."""

    example: Example
    words: tuple[str, ...]  # possible passwords in the examples up to this one
    output: str
    repeated_output: str | None  # of a second run, if there was one

    @property
    def makes_salts(self) -> bool:
        """Whether the outputs of two runs differ."""
        return self.repeated_output is not None and self.repeated_output != self.output

    @property
    def missing_command(self) -> str | None:
        """The name of a command that the shell didn't find."""
        found = COMMAND_NOT_FOUND.search(self.output)
        return found[1] if found else None


class Player:
    """Runs the examples of one document in order, all in the same folder."""

    def __init__(self, examples: Sequence[Example], folder: Path, environment: Changes) -> None:
        self.examples = examples
        self.folder = folder
        self.environment = environment
        self.words: list[str] = []
        self.played: list[Played] = []

    def play(self, number: int) -> Played:
        """Runs the examples up to this one that haven't run yet, and returns this one."""
        while len(self.played) <= number:
            example = self.examples[len(self.played)]
            self.words += words_of(example.command)
            output = self.output_of(example)
            is_compared = output == example.shown or SALT_OPTION.search(example.command)
            repeated_output = None if is_compared else self.output_of(example)
            self.played.append(Played(example, tuple(self.words), output, repeated_output))
        return self.played[number]

    def output_of(self, example: Example) -> str:
        """Runs a command in a shell, and returns its output."""
        script = f"exec 2>&1\n{example.command}"
        result = run("bash", "-c", script, env=self.environment, cwd=self.folder)
        return result.stdout.decode(errors="backslashreplace")


def words_of(command: str) -> list[str]:
    """Returns the words of a command that may be passwords. The likeliest, in quotes, are last.

    A backslash with an n separates words too: printf prints it as a line feed.
    """
    bare = re.split(r"[\s:'\"|<>;]+|\\n", command)
    quoted = re.split(r"['\":]|\\n|\n", command)
    return [word for word in [*bare, *quoted] if WORD.fullmatch(word)]


def assert_shown(played: Played) -> None:
    """Fails the test if an example's output isn't what the document shows."""
    if played.output == played.example.shown:
        return
    if played.makes_salts:
        problem = next(problems_of_salted(played), None)
    else:
        problem = "the output differs"
    if problem is not None:
        raise AssertionError(f"{problem}\n{describe(played)}")


def describe(played: Played) -> str:
    """Returns the place, the command, the expected output and the received one."""
    lines = [
        f"the document: {played.example.place}",
        f"the command: {played.example.command.rstrip()}",
        f"expected:\n{played.example.shown}",
        f"received:\n{played.output}",
    ]
    return "\n".join(lines)


def problems_of_salted(played: Played) -> Iterator[str]:
    """Yields what is wrong with the output of a command that draws salts."""
    shown = played.example.shown
    if form_of(shown) != form_of(played.output):
        yield "the output has another form"
        return
    for shown_hash, received_hash in zip(hashes_of(shown), hashes_of(played.output)):
        word = word_of(received_hash, played.words)
        if word is None:
            yield f"{received_hash} is not the hash of any word in the examples"
        elif not is_hash_of(shown_hash, word):
            yield f"{shown_hash}, as shown, is not a hash of '{word}'"
        elif shown_hash == received_hash:
            yield f"{received_hash} has the salt that is shown, not a new one"


def form_of(text: str) -> str:
    """Returns a text in which each salt and digest is replaced by its length."""

    def lengths_of(found: re.Match[str]) -> str:
        setting, salt, digest = found.groups()
        return f"{setting}{len(salt)} ${len(digest)} "

    return HASH.sub(lengths_of, text)


def hashes_of(text: str) -> list[str]:
    """Returns the hashes in a text."""
    return [found[0] for found in HASH.finditer(text)]


def is_hash_of(text: str, password: str) -> bool:
    """Returns whether libxcrypt gives this hash for a password."""
    return crypt_or_none(password.encode(), text.encode()) == text.encode()


def word_of(text: str, words: Sequence[str]) -> str | None:
    """Returns the word whose hash this is, trying the last words first."""
    candidates = dict.fromkeys(reversed(words))
    return next((word for word in candidates if is_hash_of(text, word)), None)
