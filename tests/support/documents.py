"""Finds blocks of code in documents, and commands with their output in documents and manuals.

support/examples.py runs the commands. This module runs only mandoc, which renders the manuals.
"""
from __future__ import annotations

import functools
import re
from collections.abc import Iterable, Iterator
from dataclasses import dataclass
from pathlib import Path

from . import ROOT
from .process import run

MARK = re.compile(r"<!-- tested: (?P<name>.+) -->")
FENCE = re.compile(r"(?P<margin> *)```(?P<language>\S*) *")
PROMPT = "$ "
CONTINUATION = "> "
# Characters that manuals escape.
ESCAPES = {r"\-": "-", r"\(aq": "'", r"\e": "\\"}


@dataclass(frozen=True)
class Place:
    """A line of a document or of a manual."""

    path: Path
    line: int  # counted from 1

    def __str__(self) -> str:
        return f"{name_of(self.path)}:{self.line}"


@dataclass(frozen=True)
class Block:
    """A block of code in a document."""

    place: Place  # the first line of its code
    number: int  # within its document, counted from 1
    language: str
    mark: str | None  # the name in `<!-- tested: NAME -->` above the block
    code: str

    def __str__(self) -> str:
        first_line = self.code.partition("\n")[0]
        return f"{name_of(self.place.path)}, block {self.number}: {first_line.strip()}"


@dataclass(frozen=True)
class Example:
    """A command in a document or a manual, with the output that is shown there."""

    place: Place
    command: str
    shown: str


def documents() -> list[Path]:
    """Returns the paths of the tree's documents."""
    return sorted(ROOT.glob("*.md")) + sorted(ROOT.glob("docs/*.md"))


def manuals() -> list[Path]:
    """Returns the paths of the tree's manuals."""
    return sorted(ROOT.glob("man/*.[1-8]"))


def name_of(path: Path) -> str:
    """Returns a path relative to the tree's root."""
    return str(path.relative_to(ROOT))


def lines_of(path: Path) -> list[str]:
    """Returns the lines of a document, or of a manual's source."""
    return path.read_text(encoding="utf-8").splitlines()


# ---- Blocks


@functools.cache
def blocks_of(path: Path) -> list[Block]:
    """Returns the blocks of a document. A block without a closing fence ends with the document."""
    blocks: list[Block] = []
    lines = lines_of(path)
    above = ""  # the last nonempty line before the block
    index = 0  # of the next line
    while index < len(lines):
        line = lines[index]
        index += 1
        fence = FENCE.fullmatch(line)
        if fence is None:
            above = line or above
            continue
        code = code_until_fence(lines[index:], margin=fence["margin"])
        mark = MARK.fullmatch(above.strip())
        blocks.append(
            Block(
                place=Place(path, index + 1),
                number=len(blocks) + 1,
                language=fence["language"],
                mark=mark["name"] if mark else None,
                code="".join(f"{code_line}\n" for code_line in code),
            )
        )
        index += len(code) + 1  # and the closing fence
        above = ""
    return blocks


def code_until_fence(lines: list[str], margin: str) -> list[str]:
    """Returns the lines before a block's closing fence, without the block's margin."""
    code = []
    for line in lines:
        if line.rstrip() == f"{margin}```":
            break
        code.append(line.removeprefix(margin))
    return code


def all_blocks(*languages: str) -> list[Block]:
    """Returns the blocks in these languages, from all documents."""
    blocks = [block for path in documents() for block in blocks_of(path)]
    return [block for block in blocks if block.language in languages]


def marked(mark: str, language: str) -> Block:
    """Returns the block in a language below `<!-- tested: MARK -->`, from any document."""
    for block in all_blocks(language):
        if block.mark == mark:
            return block
    raise AssertionError(f"expected: a {language} block below `<!-- tested: {mark} -->`")


# ---- Examples


@functools.cache
def rendered_manual(path: Path) -> str:
    """Returns a manual as mandoc renders it, without margins."""
    output = run("mandoc", "-T", "utf8", "-O", "width=200", path).required().stdout.decode()
    plain = re.sub(r".\x08", "", output)  # mandoc overstrikes bold and underlined characters
    return re.sub(r"^ +", "", plain, flags=re.MULTILINE)


def prompts_of(path: Path) -> list[Place]:
    """Returns the places of all lines that look like an example's command."""
    lines = enumerate(lines_of(path), start=1)
    return [Place(path, number) for number, line in lines if line.lstrip().startswith(PROMPT)]


def typed_at(place: Place) -> str:
    """Returns the command on a line, without its continuation lines."""
    text = lines_of(place.path)[place.line - 1].strip().removeprefix(PROMPT)
    if is_manual(place.path):
        for escape, character in ESCAPES.items():
            text = text.replace(escape, character)
    return text


def is_manual(path: Path) -> bool:
    """Returns whether this is a manual, not a document."""
    return path.suffix != ".md"


@functools.cache
def examples_of(path: Path) -> list[Example]:
    """Returns the examples of a document's `console` blocks, or of a rendered manual."""
    if is_manual(path):
        return list(examples_of_manual(path))
    blocks = [block for block in blocks_of(path) if block.language == "console"]
    return [example for block in blocks for example in examples_of_console(block)]


def examples_of_console(block: Block) -> Iterator[Example]:
    """Yields the examples of one block."""
    path, number = block.place.path, block.place.line
    for text in texts_of_examples(block.code):
        yield example_of(text, Place(path, number))
        number += text.count("\n")


def examples_of_manual(path: Path) -> Iterator[Example]:
    """Yields the examples of a manual, each with its line in the manual's source."""
    # A block begins with a prompt, and ends before an empty line.
    blocks = re.findall(r"^\$ .*?\n(?=\n|\Z)", rendered_manual(path), re.MULTILINE | re.DOTALL)
    texts = [text for block in blocks for text in texts_of_examples(block)]
    for text, place in zip(texts, prompts_of(path)):
        yield example_of(text, place)


def texts_of_examples(code: str) -> Iterable[str]:
    """Splits a block into parts that each begin with a command."""
    return re.findall(r"^\$ .*?\n(?=\$ |\Z)", code, re.MULTILINE | re.DOTALL)


def example_of(text: str, place: Place) -> Example:
    """Reads an example: a command, whose continuation lines begin with "> ", and its output."""
    first, *others = text.splitlines(keepends=True)
    command = [first.removeprefix(PROMPT)]
    while others and others[0].startswith(CONTINUATION):
        command.append(others.pop(0).removeprefix(CONTINUATION))
    return Example(place, "".join(command), "".join(others))
