"""Commented-out lines of TARGET, by which somebody may keep a user out.

There is no rule for what such a line looks like: it may have signs, quotes or a remark in front of
the name, and names may have blanks. So the names of HASHES are looked for.
"""

from __future__ import annotations

import re
from collections.abc import Container, Iterable, Iterator
from typing import List, Optional, Set

from pwhash.field import field_of
from pwhash.lines import LONGEST_NAME

# What may be inside a name: "ann" isn't the name in "#joann:" or "#jo-ann:". This includes
# accents of decomposed letters, and bytes that aren't UTF-8.
INSIDE = r"\w.@+\\\-\u0300-\u036f\udc80-\udcff"
# Where a name may begin: after a blank or a sign such as a quote, and after any of these signs.
BEGINNING = re.compile(rf"(?<![{INSIDE}])[_.@+\\-]*")
# A name may end before any of these characters, such as quotes and blanks.
END = re.compile(r"(?:[^\w\udc80-\udcff]|_)*\Z")
LONGEST_END = 2 * LONGEST_NAME  # characters at the end of a text: a name, and signs around it


def is_comment(line: bytes) -> bool:
    """Returns whether a line of a password file is a comment."""
    return line.startswith(b"#")


def commented_out(comments: Iterable[bytes], names: Container[bytes]) -> Set[bytes]:
    """Returns those of the names that stand before a colon in a comment, as in "# left ann:".

    Prose without a colon has none.
    """
    found: Set[bytes] = set()
    for comment in comments:
        for text in texts_before_colons(comment):
            name = name_at_end(text, names)
            if name is not None:
                found.add(name)
    return found


def texts_before_colons(comment: bytes) -> List[str]:
    """Returns what a comment has before each colon, but not behind the first hash."""
    parts = comment.split(b":")
    texts: List[str] = []
    for text, behind in zip(parts, parts[1:]):
        texts.append(text.decode(errors="surrogateescape"))
        if field_of(behind.strip()).unlocked().looks_whole:
            break
    return texts


def name_at_end(text: str, names: Container[bytes]) -> Optional[bytes]:
    """Returns the longest of the names that stands at the end of a text, or None."""
    for candidate in candidates(text[-LONGEST_END:]):
        name = candidate.encode(errors="surrogateescape")
        if name in names:
            return name
    return None


def candidates(text: str) -> Iterator[str]:
    """Yields what may be a name at the end of a text. Those that begin earlier come first."""
    end = END.search(text)
    first_end = len(text) if end is None else end.start()
    for beginning in BEGINNING.finditer(text, 0, first_end):
        for start in range(beginning.start(), beginning.end() + 1):
            for stop in range(len(text), first_end - 1, -1):
                yield text[start:stop]
