"""Makes bytes from outside safe to print on a terminal, and to paste into a shell."""

from __future__ import annotations

import os
import re
import shlex

# Characters that Python calls printable, but that show nothing: fillers, variation selectors, the
# empty Braille pattern.
SHOWS_NOTHING = re.compile(
    "[\u034f\u115f\u1160\u17b4\u17b5\u180b-\u180f\u2800\u3164\ufe00-\ufe0f\uffa0"
    "\U000e0100-\U000e01ef]"
)
DECOMPOSED = "letters and accents apart (not Unicode NFC), as few keyboards send them"
# What $'..' has as an octal number: all but printable ASCII, its quote and its backslash.
NEEDS_NUMBER = re.compile(rb"[^\x20-\x7e]|['\\]")


def is_utf8(data: bytes) -> bool:
    """Returns whether bytes are UTF-8."""
    try:
        data.decode()
    except UnicodeDecodeError:
        return False
    return True


def encoding_hint(name: bytes) -> str:
    """Returns a blank and a sentence about a name that isn't UTF-8, or nothing if it is."""
    if is_utf8(name):
        return ""
    return " NAME isn't UTF-8: the terminal may have another encoding than the file."


def is_visible(text: str) -> bool:
    """Returns whether each character shows something, or is a blank."""
    return text.isprintable() and not SHOWS_NOTHING.search(text)


def printable(data: bytes) -> str:
    """Returns bytes as text that can't control a terminal, with escapes such as \\x1b."""
    text = data.decode("utf-8", "backslashreplace")
    if text.isprintable():
        return text
    # ascii() puts an escape between quotes.
    return "".join(each if each.isprintable() else ascii(each)[1:-1] for each in text)


def printable_text(text: str) -> str:
    """Does what printable() does, for text that may contain the bytes of a file's name."""
    return printable(text.encode("utf-8", "surrogateescape"))


def display_name(path: str) -> str:
    """Returns the name of a file for a message."""
    return printable(os.fsencode(path))


def shell_quoted(word: str) -> str:
    """Quotes a word for a shell, without characters that control a terminal.

    Such bytes are written as numbers in $'..', which bash, zsh and ksh read.
    """
    if display_name(word) == word:
        return shlex.quote(word)
    numbered = NEEDS_NUMBER.sub(lambda found: b"\\%03o" % found[0][0], os.fsencode(word))
    return f"$'{numbered.decode('ascii')}'"
