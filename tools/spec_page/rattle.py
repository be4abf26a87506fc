"""Reads the types, constants and public calls of the code, which is written in Rattle."""

from __future__ import annotations

import re
from collections import defaultdict
from collections.abc import Iterator, Mapping, Sequence
from functools import lru_cache

from .imports import IMPORT
from .sources import Entry, Place, Stop, code_files, crates, is_file, lines_of

# A type or a constant: `pub(crate) enum Outcome {`, `pub const VERSION_NUMBER: u32 = 20001;`
TYPE = re.compile(r"pub(?:\(\w+\))? (?:struct|enum|const) (?!fn\b)(?P<name>\w+)")
# Types that a signature may name but no page shows: `pub trait Counted: Drop {`, `struct Piece {`
UNSHOWN = re.compile(
    r"(?:pub(?:\(\w+\))? )?(?:type|trait|union|static) (?P<name>\w+)"
    r"|(?:struct|enum|const) (?!fn\b)(?P<private>\w+)"
)
# A type that may have a view, even a private one: `pub struct Input<I: Read> {`, `struct Piece {`
STRUCT = re.compile(r"(?:pub(?:\(\w+\))? )?(?:struct|enum) (?P<name>\w+)")
# The first line of a view, which says how clauses see a type: `impl<I: Read> Model for Input<I> {`
VIEW = re.compile(r"impl\b.* Model for ")
VIEW_OF_TYPE = re.compile(r"impl\b.* Model for (?P<name>\w+)\b.*\{")
# A line of a view: `    ghost view = { λ p. p.bytes.items };`
MEMBER = re.compile(r"    ghost (?P<name>\w+) = \{ .+ \};")
SHOWN_MEMBERS = ("Value", "view", "invariant")
# The encoding of a value, and the inverse of its view, which clauses never mention.
OTHER_MEMBERS = ("coded", "inverse")
# `    // Each piece raises the meter.`, `    #[error("{0}")]`
COMMENT_OR_ATTRIBUTE = re.compile(r" *(?://|#\[)")
# What ends a type of several lines: `}`, `];`
END = re.compile(r"[}\])]+;?")
# A call for C: `pub extern "C" fn mkpasswd_version() -> u32`
EXPORT = re.compile(r'pub extern "C" fn (?P<name>\w+)\b')
# The same in any form: `pub unsafe extern "C" fn mkpasswd_version() -> u32`
ANY_EXPORT = re.compile(r'[^/]*\bextern "C" fn\b')


# Types and constants


@lru_cache(maxsize=None)
def types_of(path: str) -> Mapping[str, Entry]:
    """Returns a file's types and constants that other files can name, each with its view."""
    lines = lines_of(path)
    views = views_of(path)
    types = {}
    for index, line in enumerate(lines):
        found = TYPE.match(line)
        if found:
            name = found["name"]
            code = [line for line in type_at(lines, index, path) if is_code(line)]
            text = "\n".join([*code, *views.get(name, [])])
            comment = comment_above(lines, index, path)
            types[name] = Entry(Place(path, index + 1), name, comment, text)
    return types


def is_code(line: str) -> bool:
    """Returns whether a line of a type has code."""
    return COMMENT_OR_ATTRIBUTE.match(line) is None


def type_at(lines: Sequence[str], first: int, path: str) -> Sequence[str]:
    """Returns the lines of a type or a constant."""
    if lines[first].endswith((";", "}")):
        return lines[first : first + 1]
    for index in range(first + 1, len(lines)):
        line = lines[index]
        if END.fullmatch(line):
            return lines[first : index + 1]
        if line and not line.startswith(" "):
            break
    raise Stop(f"{Place(path, first + 1)}: a type or a constant has no end")


def comment_above(lines: Sequence[str], item: int, path: str) -> str:
    """Returns the comment of a type, without its attributes."""
    first = item
    while first > 0 and lines[first - 1].startswith(("///", "#[")):
        first -= 1
    if first > 0 and lines[first - 1] in (")]", "]"):
        raise Stop(f"{Place(path, first)}: an attribute has more than one line")
    return "\n".join(line for line in lines[first:item] if line.startswith("///"))


def views_of(path: str) -> Mapping[str, list[str]]:
    """Returns the views of a file's types, by name: what clauses see of them."""
    lines = lines_of(path)
    types = {found["name"] for found in map(STRUCT.match, lines) if found}
    views = {}
    for index, line in enumerate(lines):
        if not VIEW.match(line):
            continue
        found = VIEW_OF_TYPE.fullmatch(line)
        if not found or found["name"] not in types:
            place = Place(path, index + 1)
            raise Stop(f"{place}: a view begins with a line `impl Model for T {{` in the file of T")
        views[found["name"]] = view_at(lines, index, path)
    return views


def view_at(lines: Sequence[str], first: int, path: str) -> list[str]:
    """Returns the lines of a view that clauses see."""
    view = [lines[first]]
    for index in range(first + 1, len(lines)):
        line = lines[index]
        member = MEMBER.fullmatch(line)
        if line == "}":
            return [*view, line]
        if member and member["name"] in SHOWN_MEMBERS:
            view.append(line)
        elif member and member["name"] in OTHER_MEMBERS:
            continue
        elif line and not IMPORT.match(line) and is_code(line):
            known = ", ".join((*SHOWN_MEMBERS, *OTHER_MEMBERS))
            raise Stop(f"{Place(path, index + 1)}: a view has a line each of {known}, and no more")
    raise Stop(f"{Place(path, first + 1)}: a view has no end")


@lru_cache(maxsize=None)
def all_types() -> Mapping[str, tuple[Entry, ...]]:
    """Returns the types and constants of all crates by name, with the lowest crate's first."""
    types: dict[str, tuple[Entry, ...]] = defaultdict(tuple)
    for crate in crates():
        for path in code_files(crate):
            for name, entry in types_of(path).items():
                types[name] += (entry,)
    return dict(types)


@lru_cache(maxsize=None)
def unshown_types() -> Mapping[str, Place]:
    """Returns what else a signature could name: traits, type aliases, and private types."""
    unshown = {}
    for crate in crates():
        for path in code_files(crate):
            for number, line in enumerate(lines_of(path), start=1):
                found = UNSHOWN.match(line)
                if found:
                    unshown[found["name"] or found["private"]] = Place(path, number)
    return unshown


# Calls


def public_calls(name: str) -> list[Entry]:
    """Returns the calls that a name in the frame means.

    It is a function of a module, as `setting/read::Setting::read`, or `extern` for all calls for C.
    """
    module, *names = name.split("::")
    if name == "extern":
        return [call for path in files_named("lib") for call in exported_calls(path)]
    if len(names) == 1:
        (function,) = names
        return list(functions(module, function))
    if len(names) == 2:
        type_name, method = names
        return list(methods(module, type_name, method))
    return []


def files_named(module: str) -> list[str]:
    """Returns the files of this module, in any crate."""
    paths = (f"crates/{crate}/src/{module}.rt" for crate in crates())
    return [path for path in paths if is_file(path)]


def exported_calls(path: str) -> Iterator[Entry]:
    """Yields the calls for C of a file."""
    for index, line in enumerate(lines_of(path)):
        found = EXPORT.match(line)
        if found:
            yield call_at(path, index, found["name"])
        elif ANY_EXPORT.match(line):
            raise Stop(f'{Place(path, index + 1)}: a call begins with `pub extern "C" fn`')


def functions(module: str, name: str) -> Iterator[Entry]:
    """Yields the public functions of this name in a module."""
    for path in files_named(module):
        for index, line in enumerate(lines_of(path)):
            if re.match(rf"pub fn {name}\b", line):
                yield call_at(path, index, name)


def methods(module: str, type_name: str, name: str) -> Iterator[Entry]:
    """Yields the public functions of this name that a type has in a module."""
    for path in files_named(module):
        header = ""
        for index, line in enumerate(lines_of(path)):
            if line.startswith("impl"):
                header = line
            is_of_type = re.search(rf"\b{type_name}\b", header) is not None
            if is_of_type and re.match(rf"    pub fn {name}\b", line):
                yield call_at(path, index, f"{type_name}::{name}")


def call_at(path: str, first: int, name: str) -> Entry:
    """Returns the signature and the clauses of a call, up to the brace of its body."""
    lines = lines_of(path)
    indent = " " * (len(lines[first]) - len(lines[first].lstrip()))
    place = Place(path, first + 1)
    code = [lines[first][len(indent) :]]
    for line in lines[first + 1 :]:
        if line == indent + "{":
            return Entry(place, name, "", "\n".join(code).rstrip())
        if line and not line.startswith((f"{indent}    ", f"{indent})", f"{indent}where")):
            break
        code.append(line[len(indent) :])
    raise Stop(f"{place}: after the clauses of {name} comes no line `{{`")
