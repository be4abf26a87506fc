"""Finds the hash in what somebody pastes: a bare hash, or the line of a file that it stands in.

No hash has blanks in it, so those that an e-mail puts between its parts can be left out. If it
isn't clear where a hash begins, the second field of the line is taken, as in a password file, and
pwhash verify refuses that unless it is a hash: pwhash never guesses which hash is meant.
"""

from __future__ import annotations

import re
from typing import NamedTuple

from mkpasswd import State

from pwhash import library
from pwhash.console import Console
from pwhash.errors import UsageError
from pwhash.field import encoded_value, without_prefix
from pwhash.piped import PipedLines
from pwhash.prompt import Ask

PASSWORD_PROMPT, HASH_PROMPT = b"Password: ", b"Hash (not shown either): "
REST_PROMPT = b"It isn't whole. The rest, or just Return: "
MAX_PASTED = 4096  # bytes of the lines with a hash; the longest hash has 144
SECONDS_FOR_REST = 5  # that a pipe may take to bring the rest of a hash
# Characters that nobody sees in what was pasted, such as a soft hyphen or a byte order mark.
SHOWS_NOTHING = {ord(each): None for each in "\u00ad\u200b\u200c\u200d\u2060\ufeff"}
# The quotes of word processors, as shells and configurations write them.
AS_ASCII = {
    **dict.fromkeys(map(ord, "\u201c\u201d\u201e\u201f\xab\xbb"), '"'),
    **dict.fromkeys(map(ord, "\u2018\u2019\u201a\u201b"), "'"),
}
QUOTES = b"'\"`"
MARKS = b"!*"  # that lock a hash
REPLY_MARKS = re.compile(rb"(?:\s*>)+")  # in front of each line of a quoted e-mail
# The beginning of a hash, with the marks and prefixes in front of it. A letter there, as in x$6$,
# would be a part of the stored field, and make it one that no password matches.
BEGINNING = re.compile(
    rb"(?:^|(?<=[\s:=>'\"`]))[!*]*(?:(?:\{[A-Za-z0-9.-]+\})+[!*]*)?\$[A-Za-z0-9-]{1,16}[$,]"
)
# What may stand in front of a hash.
BEFORE_HASH = re.compile(
    rb"[^:]*:\s*"  # a user's name, as in shadow(5), or a key, as in YAML and JSON
    rb"|[^:]*=>?\s*"  # a variable, or an option with its value
    rb"|(?:[^:]*\s)?-[\w-]*\s+"  # an option of a command, or the hyphen of a list
    rb"|(?:[\w-]+\s+)?passwd/[\w-]+-crypted\s+password\s+"  # Debian's installer
    rb"|<[\w:-]+>\s*"  # AutoYaST
)
# What ends a hash without quotes, by the character in front of it: the next field of a line, the
# end of an element of XML. After anything else an option or a comment may follow a blank.
ENDS = {b":": re.compile(rb":"), b">": re.compile(rb"<")}
OTHER_END = re.compile(rb":|\s+[-#]")
# What may follow the quote behind a hash, as in JSON.
AFTER_QUOTE = re.compile(rb"$|[\s:,;)}\]]")
# The beginning of a hash that isn't a setting yet: the rest may follow.
CUT_EARLY = re.compile(rb"\$[1567]?|\$[56]\$rounds=[0-9]*|\$7\$[./0-9A-Za-z]{0,11}")


class Pasted(NamedTuple):
    """A password, and the field with the hash to compare it with."""

    password: bytes
    field: bytes


def ask_for_both(ask: Ask) -> Pasted:
    """Asks for a password and a hash at a terminal.

    A line break in a pasted text ends an answer. The rest of the text answers the next prompt.
    """
    password = ask(PASSWORD_PROMPT)
    pasted = b""
    while not pasted:
        pasted = without_introduction(ask(HASH_PROMPT))
    rest = pasted
    while rest and is_cut(pasted):
        rest = cleaned(ask(REST_PROMPT))
        pasted += rest
    return Pasted(password, field_of_pasted(pasted))


def piped_both(console: Console) -> Pasted:
    """Reads a password and a hash from standard input, the hash perhaps in several lines."""
    lines = PipedLines(console)
    password = lines.password()
    lines.limit(MAX_PASTED, long_hash_error())
    line = lines.next()
    if line is None:
        raise no_hash_error()
    pasted = without_introduction(line)
    while not pasted and line is not None:  # after blank lines, a hash may take a while to come
        line = lines.next()
        pasted = without_introduction(line or b"")
    while is_cut(pasted):
        more = lines.next_within(SECONDS_FOR_REST)
        if more is None:
            break
        pasted += cleaned(more)
    extra = lines.next_at_once()
    if extra and has_hash(extra):
        raise several_hashes_error()
    if extra:
        console.say("lines of standard input after the hash are ignored.")
    return Pasted(password, field_of_pasted(pasted))


def no_hash_error() -> UsageError:
    """Returns the error for an input that ends before a hash."""
    return UsageError(
        "standard input has one line, the password. The hash has to be the second, or type "
        "pwhash verify FILE NAME."
    )


def long_hash_error() -> UsageError:
    """Returns the error for lines that are much too long for a hash."""
    return UsageError(f"the lines with the hash have more than {MAX_PASTED:,} bytes.")


def several_hashes_error() -> UsageError:
    """Returns the error for two hashes where there should be one."""
    return UsageError("there is more than one hash. Give only the one to compare with.")


def cleaned(line: bytes) -> bytes:
    """Returns a pasted line without an e-mail's marks, invisible characters and blanks around.

    Refuses a line that is much too long for a hash, on which a search could take hours.
    """
    if len(line) > MAX_PASTED:
        raise long_hash_error()
    text = line.decode("utf-8", "surrogateescape").translate(SHOWS_NOTHING).translate(AS_ASCII)
    words = " ".join(text.split()).encode("utf-8", "surrogateescape")
    marks = REPLY_MARKS.match(words)
    return words[marks.end() :].strip() if marks else words


def without_introduction(line: bytes) -> bytes:
    """Returns a pasted line, cleaned, or nothing if it only introduces what follows."""
    pasted = cleaned(line)
    return b"" if is_introduction(pasted) else pasted


def is_introduction(line: bytes) -> bool:
    """Returns whether a line has no hash and introduces a quoted e-mail, as "Tue, Bob wrote:" does.

    A time in it has colons too. In a line of a password file, a name or a field has no blanks.
    """
    fields = line.split(b":")
    if len(fields) == 1 or fields[-1] or BEGINNING.search(line):
        return False
    return b" " in fields[0] and b" " in fields[-2]


def field_of_pasted(pasted: bytes) -> bytes:
    """Returns the field with the hash from a pasted hash or line. Refuses two hashes."""
    line = cleaned(pasted)
    found = BEGINNING.search(line)
    if found is None or not is_plain_before(line[: found.start()]):
        return second_field(line)
    begin = found.start()
    end = end_of_hash(line, begin)
    field = without_blanks(line[begin:end]).strip(QUOTES)
    if is_whole(field) and BEGINNING.search(line, end):
        raise several_hashes_error()
    return field


def is_plain_before(text: bytes) -> bool:
    """Returns whether it is plain that a hash begins after this text, with or without a quote."""
    without_quote = text[:-1] if text[-1:] in (b"'", b'"', b"`") else text
    return not without_quote or BEFORE_HASH.fullmatch(without_quote) is not None


def end_of_hash(line: bytes, begin: int) -> int:
    """Returns where the hash that begins here ends: at the closing quote, if it is in quotes."""
    before = line[begin - 1 : begin]
    if before and before in QUOTES:
        end = line.find(before, begin)
        if end >= 0 and AFTER_QUOTE.match(line, end + 1):
            return end
    found = ENDS.get(before, OTHER_END).search(line, begin)
    return found.start() if found else len(line)


def second_field(line: bytes) -> bytes:
    """Returns what follows the first colon of a line, up to the next; or all without a colon."""
    bare = without_blanks(line).strip(QUOTES)
    name, colon, rest = bare.partition(b":")
    if not colon or begins_like_hash(without_prefix(name)):
        return name
    return encoded_value(rest) or rest.partition(b":")[0].strip(QUOTES)


def without_blanks(text: bytes) -> bytes:
    """Removes all blanks."""
    return b"".join(text.split())


def has_hash(pasted: bytes) -> bool:
    """Returns whether a hash of a known scheme, perhaps locked or cut, begins in a pasted line."""
    line = cleaned(pasted)
    found = BEGINNING.search(line)
    if found is None:
        return False
    return begins_like_hash(without_prefix(line[found.start() :].lstrip(MARKS)).lstrip(MARKS))


def begins_like_hash(field: bytes) -> bool:
    """Returns whether a field begins like a hash of a known scheme, such as $6$."""
    return field.startswith(b"$") and library.describe(field).scheme is not None


def is_whole(field: bytes) -> bool:
    """Returns whether a field has a whole hash of a method that pwhash knows."""
    return library.describe(without_prefix(field)).state in (State.CURRENT, State.OUTDATED)


def is_cut(pasted: bytes) -> bool:
    """Returns whether only the beginning of a hash was pasted, so that the rest may follow."""
    field = without_prefix(field_of_pasted(pasted))
    return CUT_EARLY.fullmatch(field) is not None or library.describe(field).state is State.DEAD
