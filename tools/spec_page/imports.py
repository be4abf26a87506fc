"""Reads the imports of a file: the names of definitions and types for its clauses."""

from __future__ import annotations

import re
from collections import defaultdict
from collections.abc import Mapping
from dataclasses import dataclass
from functools import lru_cache

from .sources import Place, Stop, lines_of

# Any import, in specs/ or for the clauses of code: `ghost use Rattle.`
IMPORT = re.compile(r"\s*(?:pub |ghost )?use Rattle\b")
# Names of a module: `ghost use Rattle.crypt_core.specs.Settings.{SettingValue, Spells};`
NAMES = re.compile(r"\s*(?:pub |ghost )?use Rattle\.(?P<module>\w+(?:\.\w+)+)\.\{(?P<names>.+)\};?")
# A module by another name: `use Rattle.run_core.specs.declared.line.Kind.TheVariants as kinds`
MODULE = re.compile(r"\s*(?:pub |ghost )?use Rattle\.(?P<module>\w+(?:\.\w+)+) as (?P<here>\w+);?")
# A name in a list, perhaps with its local name: `Holds as HoldsMd5`, `◌≡◌`
NAME = re.compile(r"(?P<name>[^\s{},]+)(?: as (?P<here>\w+))?")


@dataclass(frozen=True)
class Import:
    """An imported name and its module. The import of a whole module has no name."""

    place: Place
    module: str
    name: str


@lru_cache(maxsize=None)
def imports_of(path: str) -> Mapping[str, tuple[Import, ...]]:
    """Returns a file's imports by their local names. One name can mean several."""
    imports: dict[str, tuple[Import, ...]] = defaultdict(tuple)
    for number, line in enumerate(lines_of(path), start=1):
        if not IMPORT.match(line):
            continue
        for here, imported in imports_in(line, Place(path, number)):
            if imported not in imports[here]:
                imports[here] += (imported,)
    return dict(imports)


def imports_in(line: str, place: Place) -> list[tuple[str, Import]]:
    """Returns the imports in a line, each with its local name."""
    module = MODULE.fullmatch(line)
    if module:
        return [(module["here"], Import(place, module["module"], ""))]
    names = NAMES.fullmatch(line)
    if not names:
        raise Stop(f"{place}: an import has the form `use Rattle.A.B.{{c, d as e}}` or `.. as f`")
    imports = []
    for text in names["names"].split(", "):
        name = NAME.fullmatch(text)
        if not name:
            raise Stop(f"{place}: `{text}` in an import is no name")
        imports.append((name["here"] or name["name"], Import(place, names["module"], name["name"])))
    return imports
