"""Fills the placeholders of the page's frame, tools/specification.md.

A placeholder is a paragraph in double braces: a word for the content, and names.

calls      the public calls of these names
types      the types and constants that the page needs
modules    the definitions of these modules of specs/, in any crate or in the one before a slash
outside    what the definitions use from the toolchain
"""

from __future__ import annotations

import re
from collections import defaultdict
from collections.abc import Iterable, Iterator, Mapping
from dataclasses import dataclass
from typing import Union

from .antt import definitions_of, heading_comment
from .markdown import Piece, Item, page_of, prose
from .meanings import Outside, Reached, reached
from .rattle import public_calls, types_of
from .sources import Entry, Place, Stop, code_files, crates, is_file, read

FRAME = "tools/specification.md"
# `{{modules Alphabet Cycle run_core/Audits}}`, on one line or several
SLOT = re.compile(r"\{\{(?P<kind>\w+)(?P<names>[^{}]*)\}\}")


@dataclass(frozen=True)
class Slot:
    """A placeholder of the frame."""

    place: Place
    kind: str
    names: tuple[str, ...]

    def stop(self, reason: str) -> Stop:
        """Returns the error for this placeholder."""
        return Stop(f"{self.place}: {reason}")


def specification() -> str:
    """Returns the page of the specification: the frame with its placeholders filled."""
    parts = list(parts_of(read(FRAME)))
    slots = [part for part in parts if isinstance(part, Slot)]
    found = reached(call for slot in slots for call in calls_of(slot))
    require_places(slots, found.entries)
    pieces: list[Piece] = []
    for part in parts:
        pieces += filled(part, found) if isinstance(part, Slot) else [part]
    return page_of(pieces)


def parts_of(text: str) -> Iterator[Union[str, Slot]]:
    """Yields the text of the frame and its placeholders, in order."""
    end = 0
    for found in SLOT.finditer(text):
        yield without_braces(text, end, found.start())
        yield Slot(place_at(text, found.start()), found["kind"], tuple(found["names"].split()))
        end = found.end()
    yield without_braces(text, end, len(text))


def without_braces(text: str, start: int, end: int) -> str:
    """Returns a part of the frame, and stops if a placeholder in it isn't well formed."""
    braces = text.find("{{", start, end)
    if braces != -1:
        raise Stop(f"{place_at(text, braces)}: what these braces begin is no place of the page")
    return text[start:end]


def place_at(text: str, offset: int) -> Place:
    """Returns the line of a character in the frame."""
    return Place(FRAME, text.count("\n", 0, offset) + 1)


def require_places(slots: Iterable[Slot], entries: Iterable[Entry]) -> None:
    """Stops if the page would show an entry twice, or not at all."""
    places: dict[str, Place] = {}
    for slot in slots:
        for path in files_of(slot):
            if path in places:
                line = places[path].line
                raise slot.stop(f"{path} stands in line {line} too; name a crate, as `low/Sums`")
            places[path] = slot.place
    for entry in sorted(entries, key=lambda entry: entry.place):
        if entry.place.path not in places:
            raise Stop(f"{entry.place}: {entry.name} has no place in {FRAME}; add its module there")


# The content of placeholders


def filled(slot: Slot, found: Reached) -> list[Piece]:
    """Returns the content of a placeholder."""
    if slot.kind == "calls":
        return [Item(call, level=3) for call in calls_of(slot)]
    if slot.kind in ("types", "modules"):
        return [piece for path in files_of(slot) for piece in pieces_of_file(path, found)]
    if slot.kind == "outside":
        return [list_of(found.outside)]
    raise slot.stop(f"{slot.kind} is none of calls, types, modules and outside")


def calls_of(slot: Slot) -> list[Entry]:
    """Returns the calls of a placeholder, if it has any."""
    calls = []
    for name in slot.names if slot.kind == "calls" else ():
        named = public_calls(name)
        if not named:
            raise slot.stop(f"there is no public call {name}")
        if len(named) > 1 and name != "extern":
            raise slot.stop(f"{name} is in {' and in '.join(str(call.place) for call in named)}")
        calls += named
    return calls


def files_of(slot: Slot) -> list[str]:
    """Returns the files of a placeholder, if it has any, whether or not the page needs them."""
    if slot.kind == "types":
        return [path for crate in crates() for path in code_files(crate)]
    if slot.kind == "modules":
        return [path for name in slot.names for path in module_files(name, slot)]
    return []


def module_files(name: str, slot: Slot) -> list[str]:
    """Returns a module's files: of each crate for `Work`, of one crate for `call_core/Audits`."""
    crate, slash, module = name.partition("/")
    if slash:
        paths = [f"crates/{crate}/specs/{module}.antt"]
    else:
        paths = [f"crates/{each}/specs/{name}.antt" for each in crates()]
    files = [path for path in paths if is_file(path)]
    if not files:
        raise slot.stop(f"there is no module {name}")
    return files


def pieces_of_file(path: str, found: Reached) -> Iterator[Piece]:
    """Yields the entries of a file that the page needs, below a heading if there are any."""
    is_definitions = path.endswith(".antt")
    own: Mapping[str, Entry] = definitions_of(path) if is_definitions else types_of(path)
    needed = [entry for entry in dict.fromkeys(own.values()) if entry in found.entries]
    if needed:
        yield f"### {path}"
        yield prose(heading_comment(path))
        yield from (Item(entry, level=4) for entry in needed)


def list_of(names: Iterable[Outside]) -> str:
    """Returns the list of the toolchain's names, by module."""
    modules: dict[str, list[str]] = defaultdict(list)
    for outside in sorted(names):
        modules[outside.module].append(f"`{outside.name or 'all'}`")
    return "\n".join(f"- `{module}`: {', '.join(names)}" for module, names in modules.items())
