"""Formats the entries of the page, and the links to them."""

from __future__ import annotations

import re
from collections import Counter
from collections.abc import Iterable, Iterator, Mapping, Sequence
from dataclasses import dataclass
from typing import Union

from .imports import imports_of
from .meanings import followed, names_of
from .sources import Entry, Stop

# The mark of a line of a comment: `  -- `, `/// `
MARK = re.compile(r"^ *(?:--|///) ?", re.MULTILINE)
# rustdoc's links: [`Scheme::made`](crypt_core::scheme::Scheme::made), [`Params`]
RUSTDOC_LINK = re.compile(r"\[(?P<name>`[^`]*`)\](?:\(.*?\))?")
# The lines of a comment that are a table: `  Hashed    there is no field`
TABLE = re.compile(r"(?:^  .*(?:\n|\Z))+", re.MULTILINE)
# `## The calls`
HEADING = re.compile(r"#+ (?P<title>.*)")
FENCE = "```"


@dataclass(frozen=True)
class Item:
    """A piece of the page with an entry, below a heading of this level."""

    entry: Entry
    level: int


Piece = Union[str, Item]  # a piece of the page: Markdown as it is, or an entry


def prose(comment: str) -> str:
    """Returns a comment without its marks. Its indented lines become a table."""
    text = RUSTDOC_LINK.sub(r"\g<name>", MARK.sub("", comment)).strip()
    return TABLE.sub(rf"\n{FENCE}text\n\g<0>\n{FENCE}\n", text)


def page_of(pieces: Sequence[Piece]) -> str:
    """Returns the page of these pieces, with links between its entries."""
    anchors = anchors_in(pieces)
    texts = (text_of(piece, anchors) for piece in pieces)
    page = "\n\n".join(text.strip("\n") for text in texts)
    return re.sub(r"\n{3,}", "\n\n", page).rstrip() + "\n"


def text_of(piece: Piece, anchors: Mapping[Entry, str]) -> str:
    """Returns a piece of the page."""
    if isinstance(piece, str):
        return piece
    entry = piece.entry
    code = f"{FENCE}text\n{entry.code}\n{FENCE}"
    parts = ["#" * piece.level + f" {entry.name}", prose(entry.comment), code]
    links = list(links_of(entry, anchors))
    if links:
        parts.append(f"Uses {'; '.join(links)}.")
    return "\n\n".join(parts)


def links_of(entry: Entry, anchors: Mapping[Entry, str]) -> Iterator[str]:
    """Yields links to the entries that an entry uses, in the order of their names."""
    used = [
        (meaning.name, meaning.place.path, word, meaning)
        for word, meanings in names_of(entry).items()
        for meaning in meanings
        if isinstance(meaning, Entry)
    ]
    links = (link_to(meaning, word, entry, anchors) for _, _, word, meaning in sorted(used))
    yield from dict.fromkeys(links)


def link_to(used: Entry, word: str, entry: Entry, anchors: Mapping[Entry, str]) -> str:
    """Returns a link to the definition of a word in an entry. Adds the word if it is an alias."""
    if used not in anchors:
        raise Stop(f"{entry.place}: {entry.name} uses {used.name}, which the page doesn't show")
    link = f"[`{used.name}`](#{anchors[used]})"
    imports = imports_of(entry.place.path).get(word, ())
    renamed = [followed(imported) for imported in imports if imported.name != word]
    return f"{link}, here `{word}`" if used in renamed else link


def anchors_in(pieces: Iterable[Piece]) -> dict[Entry, str]:
    """Returns the anchor that renderers of Markdown give to the heading of each entry."""
    anchors: dict[Entry, str] = {}
    seen: Counter[str] = Counter()
    for piece in pieces:
        if isinstance(piece, Item):
            anchors[piece.entry] = anchor(piece.entry.name, seen)
        for title in titles_in(piece if isinstance(piece, str) else prose(piece.entry.comment)):
            anchor(title, seen)
    return anchors


def titles_in(text: str) -> Iterator[str]:
    """Yields the headings of a text. Blocks of code have none."""
    is_code = False
    for line in text.split("\n"):
        found = HEADING.match(line)
        if line.startswith(FENCE):
            is_code = not is_code
        elif found and not is_code:
            yield found["title"]


def anchor(title: str, seen: Counter[str]) -> str:
    """Returns the anchor of a heading, with a number if earlier ones have the same."""
    slug = re.sub(r"[^\w -]", "", title.lower()).replace(" ", "-")
    number = seen[slug]
    seen[slug] += 1
    return f"{slug}-{number}" if number else slug
