"""Doubts about lines that mkpasswd accepts, but that are probably mistakes."""

from __future__ import annotations

import re
import unicodedata
from collections.abc import Iterator
from typing import FrozenSet, List

from pwhash import exports, headings
from pwhash.field import is_encoded
from pwhash.lines import BYTE_ORDER_MARK, Line
from pwhash.names import FirstLines
from pwhash.options import FileOptions, Service
from pwhash.superuser import superuser_names
from pwhash.text import DECOMPOSED, is_utf8, is_visible

SEPARATOR = re.compile(rb"[,;\t| ]")
# A line without unusual characters: only what its name and password say can be doubtful.
PLAIN_LINE = re.compile(rb"[!-9;-~]+:[!-~]+")

LONGEST_OF_CRYPT = 511
TOO_LONG_FOR_CRYPT = (
    "more than 511 bytes, and no login by PAM or crypt(3) takes as many, as those of sshd and nginx"
)

# The names that each service reads as they are. A service takes any other name for somebody else's,
# as Apache does with a leading blank, or skips the line, as Apache does after a leading #.
WEB_SERVER_NAME = rb"[^#\s\0-\x1f\x7f][^\0-\x1f\x7f]*"
SERVICE_NAMES = {
    Service.APACHE: re.compile(WEB_SERVER_NAME),
    Service.NGINX: re.compile(WEB_SERVER_NAME),
    Service.DOVECOT: re.compile(rb"[a-z0-9_.@-]+"),
    Service.LDAP: re.compile(rb"[a-z0-9_-]+"),
}
ODD_QUOTES = "'`\u2018\u2019\u201a\u201b\u201c\u201d\u201e\u201f\xab\xbb"
FULL_WIDTH = re.compile("[\uff01-\uff5e]")  # letters and signs as wide as Chinese ones
NOT_UTF8 = (
    "not UTF-8; if FILE is all Windows-1252: "
    "umask 077; iconv -f WINDOWS-1252 -t UTF-8 FILE > NEW"
)


class Doubts:
    """Finds doubts about lines, in the order of the file, and remembers their names."""

    def __init__(self, options: FileOptions) -> None:
        self._service_name = SERVICE_NAMES[options.service] if options.service else None
        self._is_table = options.input.columns is not None
        self._windows = options.input.windows
        self._names = FirstLines()
        # A table, or a list of names that get new passwords, is of people such as pupils.
        is_of_people = self._is_table or options.generate is not None
        self._superusers: FrozenSet[bytes] = superuser_names() if is_of_people else frozenset()

    def find(self, line: Line) -> List[str]:
        """Returns all doubts about a line that mkpasswd accepts."""
        name, _, password = line.data.partition(b":")
        found: List[str] = []
        if not PLAIN_LINE.fullmatch(line.data):
            found += find_marks(line.data, password, self._windows)
            found += find_odd_text(line.data)
        if NOT_UTF8 not in found and not all(is_utf8(each) for each in line.others):
            found.append(NOT_UTF8)
        found += find_odd_fields(name, password, self._is_table)
        if not self._is_table:
            found += find_signs_of_table(line.data, name, password)
        else:
            found += find_signs_of_wrong_columns(name, self._service_name is not None)
        if name in self._superusers:
            found.append("the superuser: whoever has this password could change everything")
        if self._service_name and not self._service_name.fullmatch(name):
            found.append("the service takes the name for another, or skips it")
        again = self._names.check(name, line.number, bool(found))
        return [*found, again] if again else found

    def note_refused(self, line: Line) -> None:
        """Notes a refused line. A later line of the same name may be outdated: it is doubtful."""
        name, colon, _ = line.data.partition(b":")
        if name and (colon or line.refused_row):
            self._names.note_refused(name, line.number)


def find_marks(data: bytes, password: bytes, windows: bool) -> Iterator[str]:
    """Yields doubts about an empty password, carriage returns and byte order marks."""
    if password in (b"", b"\r"):
        yield "an empty password: Return alone logs in"
    if password.endswith(b"\r") and not windows:
        yield "a carriage return ends the password; --windows leaves it out"
    # Without --windows the last character was reported above.
    if b"\r" in (data if windows else data[:-1]):
        yield "a carriage return inside"
    if data.startswith(BYTE_ORDER_MARK):
        yield "a byte order mark begins the line; --windows leaves it out"
    if BYTE_ORDER_MARK in data[1:]:
        yield "a byte order mark inside"


def find_odd_text(data: bytes) -> Iterator[str]:
    """Yields doubts about characters that are invisible, or that nobody types in this form."""
    # find_marks() reports carriage returns and byte order marks.
    text = data.decode(errors="replace").replace("\r", "").replace("\ufeff", "")
    if any(each != each.strip() for each in text.split(":", 1)):
        yield "a blank at an end of name or password"
    if not is_visible(text):
        yield "an invisible character"
    if not unicodedata.is_normalized("NFC", text):
        yield DECOMPOSED
    if FULL_WIDTH.search(text):
        yield "full-width letters or signs, which only keyboards of East Asia send"
    if exports.is_misread(text):
        yield "UTF-8 that was read as Windows-1252, and saved so"
    if not is_utf8(data):
        yield NOT_UTF8
    elif "\ufffd" in text:
        yield "U+FFFD, which programs save in place of what they can't read"


def find_odd_fields(name: bytes, password: bytes, is_table: bool) -> Iterator[str]:
    """Yields doubts about a heading, or a value that a program has put in place of another."""
    if headings.is_heading_of_names(name):
        yield "a heading, not a user"
    if headings.is_heading_of_passwords(name, password):
        yield "a heading, not a password"
    if headings.ends_in_heading(password):
        yield "a heading at the end: was a list joined without a line feed before it?"
    if exports.is_damaged(name, is_table) or exports.is_damaged(password, is_table):
        yield "an error or a changed value of a spreadsheet or another export"
    if exports.is_stored(password) or is_encoded(password):
        yield "a stored hash or field, not a password"
    if exports.is_digest(password):
        yield "a digest, as databases store it in place of a password"
    if len(password) > LONGEST_OF_CRYPT:
        yield TOO_LONG_FOR_CRYPT


def find_signs_of_table(data: bytes, name: bytes, password: bytes) -> Iterator[str]:
    """Yields doubts about a line of a list that looks like a row of a table."""
    if SEPARATOR.search(name.strip()):
        yield "a separator of tables in the name: is it a table? See --csv"
    if any(is_quoted(field) for field in (data, name, password)) or is_in_odd_quotes(name):
        yield "quotes around it, as in a table: save that with commas, and see --csv"


def find_signs_of_wrong_columns(name: bytes, has_service: bool) -> Iterator[str]:
    """Yields doubts about a row whose name is that of a person, or whose quotes aren't CSV's."""
    if b" " in name.strip() and not has_service:
        yield "a blank in the name: is it the column of user names? See --columns"
    if is_quoted(name) or is_in_odd_quotes(name):
        yield "quotes around the name that aren't those of a table: save that with double quotes"


def is_quoted(field: bytes) -> bool:
    """Returns whether a field begins and ends with a quote."""
    field = field[:-1] if field.endswith(b"\r") else field
    return len(field) > 1 and field.startswith(b'"') and field.endswith(b'"')


def is_in_odd_quotes(name: bytes) -> bool:
    """Returns whether a name is between quotes that no CSV has: single or typographic ones."""
    text = name.decode(errors="replace").strip()
    return len(text) > 1 and text[0] in ODD_QUOTES and text[-1] in ODD_QUOTES
