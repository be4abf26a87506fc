"""Reads one new password, at the terminal or from the first line of standard input.

Passwords that are probably mistakes are refused, as pwhash file refuses them, without
--accept-doubtful.
"""

from __future__ import annotations

import os
import unicodedata
from typing import Optional

from pwhash import exports, library
from pwhash.console import STDIN, Console
from pwhash.doubts import LONGEST_OF_CRYPT, TOO_LONG_FOR_CRYPT
from pwhash.errors import UsageError
from pwhash.field import is_encoded
from pwhash.library import Policy
from pwhash.lines import BYTE_ORDER_MARK
from pwhash.piped import PipedLines
from pwhash.prompt import ask_password
from pwhash.text import DECOMPOSED, is_utf8, is_visible

AS_IT_IS = "To hash it as it is, add --accept-doubtful."


def read_new_password(policy: Policy, accepts_doubtful: bool, console: Console) -> bytes:
    """Reads the password to hash. Refuses one that is probably a mistake."""
    is_typed = os.isatty(STDIN)
    password = ask_password() if is_typed else first_line(console)
    if not password:
        raise UsageError("the password is empty. Give another.")
    if not accepts_doubtful:
        refuse_doubtful(policy, password, is_typed)
    if is_typed:
        warn_about_bytes(password, console)
    return password


def first_line(console: Console) -> bytes:
    """Returns the first line of standard input. Warns if further ones are there already."""
    lines = PipedLines(console)
    password = lines.password()
    if lines.next_at_once():
        console.say("only the first line was hashed; pwhash file hashes lines name:password.")
    return password


def refuse_doubtful(policy: Policy, password: bytes, is_typed: bool) -> None:
    """Refuses a password that is probably a mistake."""
    doubt = find_marks(password) or find_stored(password) or find_odd_characters(password)
    if doubt is None and not is_typed:
        doubt = find_odd_bytes(password)
    if doubt is None and not library.is_over_budget(policy, len(password)):
        doubt = find_excess_length(password)
    if doubt is not None:
        raise UsageError(f"{doubt} {AS_IT_IS}")


def find_marks(password: bytes) -> Optional[str]:
    """Finds carriage returns and byte order marks, as files from Windows have."""
    if b"\r" in password:
        return (
            "the password has a carriage return in it, with which lines of Windows end. "
            "Leave it out: tr -d '\\r'."
        )
    if BYTE_ORDER_MARK in password:
        return (
            "the password has a byte order mark in it, as files of Windows begin with one. "
            "Save it without."
        )
    return None


def find_stored(password: bytes) -> Optional[str]:
    """Recognizes a stored hash, or a line with one, in place of a password."""
    behind_name = password.partition(b":")[2]
    is_line = behind_name.startswith(b"$") and exports.is_stored(behind_name)
    is_field = exports.is_stored(password) or is_encoded(password)
    if not is_line and not is_field:
        return None
    return (
        "the password is a stored hash, or a field of a password file. Give the password that the "
        "hash was made of."
    )


def find_odd_characters(password: bytes) -> Optional[str]:
    """Finds characters that nobody can see."""
    text = password.decode(errors="replace")
    if not is_visible(text.replace("\0", "")):  # a zero byte is refused later
        return (
            "the password has a control character or an invisible one in it: a tab, an arrow key, "
            "something pasted? Give it without."
        )
    if text != text.strip():
        return "the password begins or ends with a blank: was it pasted? Give it without."
    return None


def find_odd_bytes(password: bytes) -> Optional[str]:
    """Finds characters that logins send as other bytes."""
    text = password.decode(errors="replace")
    if not unicodedata.is_normalized("NFC", text):
        return f"the password has {DECOMPOSED}. Give it in NFC."
    if not is_utf8(password):
        return (
            "the password isn't UTF-8, as logins send it. If it is Windows-1252: "
            "iconv -f WINDOWS-1252 -t UTF-8."
        )
    return None


def find_excess_length(password: bytes) -> Optional[str]:
    """Returns a message if the password is too long for most logins, or None."""
    if len(password) <= LONGEST_OF_CRYPT:
        return None
    return f"the password has {TOO_LONG_FOR_CRYPT}. Give a shorter one."


def warn_about_bytes(password: bytes, console: Console) -> None:
    """Warns about unusual bytes. They are hashed, since a login on this terminal sends them too."""
    if not unicodedata.is_normalized("NFC", password.decode(errors="replace")):
        console.say(f"the password has {DECOMPOSED}. Its bytes are hashed.")
    if not is_utf8(password):
        console.say(
            "the password isn't UTF-8: the terminal has another encoding, or half a character "
            "was erased. Its bytes are hashed."
        )
