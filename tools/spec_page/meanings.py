"""Finds what the names in a definition, a type or a call mean."""

from __future__ import annotations

import re
from collections.abc import Iterable, Iterator, Mapping
from dataclasses import dataclass
from functools import lru_cache
from typing import Union

from .antt import definitions_of
from .imports import Import, imports_of
from .rattle import all_types, types_of, unshown_types
from .sources import Entry, Stop, crates, is_file

# A name that doesn't follow a dot: only `job` in `job.maker`
WORD = re.compile(r"(?<![\w.'])[^\W\d][\w']*")
# Comments and strings, which contain no names: `-- The salt.`, `// The salt.`, `"rounds="`
COMMENT_OR_STRING = re.compile(r' *(?:--|//).*|"(?:[^"\\\n]|\\.)*"')
# Where the clauses of a call or the view of a type begin: `    ensures { IsReady turns input.old }`
CLAUSES = re.compile(r"^(?:impl| +requires| +ensures)", re.MULTILINE)
# The name of a field, an argument or a variant: `    pub maker` of `    pub maker: Maker,`
FIELD = re.compile(r"^    (?:pub )?\w+", re.MULTILINE)
# A type of the code, as clauses name it: `specs.declared.setting.fault.SettingFault.TheVariants`
DECLARED = re.compile(
    r"specs\.(?:declared|contracts)\."
    r"(?P<module>[a-z]\w*(?:\.[a-z]\w*)*)\.(?P<name>[A-Z]\w*)(?:\.TheVariants)?"
)


@dataclass(frozen=True, order=True)
class Outside:
    """A name in a module of the toolchain. An empty name stands for the whole module."""

    module: str
    name: str


Meaning = Union[Entry, Outside]


@dataclass(frozen=True)
class Reached:
    """Everything that some entries lead to."""

    entries: frozenset[Entry]
    outside: frozenset[Outside]


def reached(start: Iterable[Entry]) -> Reached:
    """Returns what these entries use, what that uses, and so on."""
    seen: set[Meaning] = set()
    left = list(start)
    while left:
        for meanings in names_of(left.pop()).values():
            for meaning in meanings:
                if meaning not in seen and isinstance(meaning, Entry):
                    left.append(meaning)
                seen.add(meaning)
    return Reached(
        frozenset(meaning for meaning in seen if isinstance(meaning, Entry)),
        frozenset(meaning for meaning in seen if isinstance(meaning, Outside)),
    )


@lru_cache(maxsize=None)
def names_of(entry: Entry) -> Mapping[str, tuple[Meaning, ...]]:
    """Returns what the words of an entry mean, other than the entry itself.

    Every word that the entry's file declares or imports counts, even if it is only an argument's
    name. So the page may have a definition too many, but lacks none.
    """
    pairs = names_of_definition(entry) if entry.is_definition else names_of_code(entry)
    names: dict[str, tuple[Meaning, ...]] = {}
    for word, meaning in pairs:
        known = names.get(word, ())
        if meaning != entry and meaning not in known:
            names[word] = (*known, meaning)
    return names


def words_of(text: str) -> list[str]:
    """Returns the distinct words of a text."""
    return list(dict.fromkeys(WORD.findall(text)))


def names_of_definition(entry: Entry) -> Iterator[tuple[str, Meaning]]:
    """Yields the words that a definition's file defines or imports."""
    own = definitions_of(entry.place.path)
    imports = imports_of(entry.place.path)
    for word in words_of(COMMENT_OR_STRING.sub("", entry.code)):
        if word in own:
            yield word, own[word]
        else:
            yield from ((word, followed(imported)) for imported in imports.get(word, ()))


def names_of_code(entry: Entry) -> Iterator[tuple[str, Meaning]]:
    """Yields the types that a type or a call names, and what its clauses import."""
    code = COMMENT_OR_STRING.sub("", entry.code)
    clauses = CLAUSES.search(code)
    border = clauses.start() if clauses else len(code)
    for word in words_of(FIELD.sub("", code[:border])):
        if not word.isupper():  # a parameter such as R, or the length of an array
            yield from ((word, meaning) for meaning in types_named(word, entry))
    imports = imports_of(entry.place.path)
    for word in words_of(code[border:]):
        if word in imports:
            yield from ((word, followed(imported)) for imported in imports[word])
        else:
            yield from ((word, meaning) for meaning in types_named(word, entry))


def types_named(word: str, entry: Entry) -> list[Entry]:
    """Returns the one type that has this name, as a list, which is empty if there is none."""
    types = all_types().get(word, ())
    if not types and word in unshown_types():
        place = unshown_types()[word]
        raise Stop(f"{entry.place}: {entry.name} uses {word} of {place}, which the page can't show")
    if len(types) > 1:
        places = " or ".join(str(found.place) for found in types)
        raise Stop(f"{entry.place}: {entry.name} uses {word}, which may be that of {places}")
    return list(types)


def followed(imported: Import) -> Meaning:
    """Returns what an imported name means."""
    crate, _, module = imported.module.partition(".")
    if crate not in crates():
        return Outside(imported.module, imported.name)
    declared = DECLARED.fullmatch(module)
    if declared:
        return declared_type(imported, crate, declared["module"], declared["name"])
    path = f"crates/{imported.module.replace('.', '/')}.antt"
    if is_file(path):
        definition = definitions_of(path).get(imported.name)
        passed_on = imports_of(path).get(imported.name, ())
        if definition:
            return definition
        if len(passed_on) == 1:
            return followed(passed_on[0])
    raise unfollowed(imported)


def declared_type(imported: Import, crate: str, module: str, name: str) -> Entry:
    """Returns a type of the code, which clauses import by its module."""
    path = f"crates/{crate}/src/{module.replace('.', '/')}.rt"
    declared = types_of(path).get(name) if is_file(path) else None
    if not declared:
        raise unfollowed(imported)
    return declared


def unfollowed(imported: Import) -> Stop:
    """Returns the error for a name whose definition isn't found."""
    what = f"{imported.name} of {imported.module}" if imported.name else imported.module
    return Stop(f"{imported.place}: {what} has no definition that the page can show")
