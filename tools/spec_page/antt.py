"""The definitions of a file of specs/, which is written in Antt."""

from __future__ import annotations

import re
from collections.abc import Iterator, Mapping, Sequence
from dataclasses import dataclass
from functools import lru_cache

from .imports import IMPORT
from .sources import Entry, Place, Stop, lines_of

# The first line of a definition: `abbrev pub cost_part : Scheme → List ℕ`, `pub record Parts ..`.
# Its other lines are indented further, including any like `record report { error = 0 }`.
DEFINITION = re.compile(
    r"(?P<indent>(?:  )?)(?:pub )?"
    r"(?P<kind>abbrev|unfoldable|record|data) (?:pub )?(?P<name>[^\s{-]\S*)"
)
# The head of a section of indented definitions: `module _ {I O E : Type 0} where`
SECTION = re.compile(r"module _ \{.+\} where")
# `-- The most bytes of a setting or a stored hash.`
COMMENT = re.compile(r" *--")
# A constructor of a `data`: `  help : (text : List ℕ) → ErrorShown error turns`
CONSTRUCTOR = re.compile(r"(?P<indent> +)(?P<name>\S+) : ")


@dataclass(frozen=True)
class Definition:
    """A definition, with the constructors of a `data`."""

    entry: Entry
    constructors: tuple[str, ...]


@lru_cache(maxsize=None)
def definitions_of(path: str) -> Mapping[str, Entry]:
    """Returns a file's definitions in order, by name, and those of data also by constructor."""
    entries: dict[str, Entry] = {}
    for definition in read_definitions(path):
        entry = definition.entry
        for name in (entry.name, *definition.constructors):
            if name in entries:
                raise Stop(f"{entry.place}: {name} is defined in line {entries[name].place.line}")
            entries[name] = entry
    return entries


def read_definitions(path: str) -> Iterator[Definition]:
    """Yields the definitions of a file. Stops at a line that may not stand between definitions."""
    lines = lines_of(path)
    section = ""
    comment: list[str] = []
    index = 0
    while index < len(lines):
        line = lines[index]
        begin = DEFINITION.match(line)
        if begin:
            code = code_at(lines, index)
            head = [section] if begin["indent"] else []
            text = "\n".join([*head, *code])
            entry = Entry(Place(path, index + 1), begin["name"], "\n".join(comment), text)
            yield Definition(entry, constructors_in(code) if begin["kind"] == "data" else ())
            comment = []
            index += len(code)
            continue
        if COMMENT.match(line):
            comment.append(line)
        elif not line or IMPORT.match(line):
            comment = []
        elif SECTION.fullmatch(line):
            section = line
        else:
            place = Place(path, index + 1)
            raise Stop(f"{place}: neither a definition nor an import, a section or a comment")
        index += 1


def code_at(lines: Sequence[str], first: int) -> list[str]:
    """Returns the lines of a definition, up to an empty line, a comment or another definition."""
    code = [lines[first]]
    for line in lines[first + 1 :]:
        if not line or COMMENT.match(line) or DEFINITION.match(line):
            break
        code.append(line)
    return code


def constructors_in(code: Sequence[str]) -> tuple[str, ...]:
    """Returns the names of a `data`'s constructors, which are less indented than their types."""
    found = [match for match in map(CONSTRUCTOR.match, code[1:]) if match]
    least = min((len(match["indent"]) for match in found), default=0)
    return tuple(match["name"] for match in found if len(match["indent"]) == least)


def heading_comment(path: str) -> str:
    """Returns the comment at the beginning of a file."""
    comment = []
    for line in lines_of(path):
        if not COMMENT.match(line):
            break
        comment.append(line)
    return "\n".join(comment)
