"""pwhash file --generate: makes a password for each name of a list or a table.

The lines are checked with a placeholder in place of the password. Then all passwords are written to
lists, and only then is the first one hashed, so that no password is lost.
"""

from __future__ import annotations

import os
import re
from typing import Dict, List, NamedTuple, Optional, Tuple

from pwhash import lists, resume_state
from pwhash.console import Console
from pwhash.doubts import NOT_UTF8
from pwhash.errors import UsageError
from pwhash.exports import is_damaged
from pwhash.folders import FileInFolder
from pwhash.lines import Line, LineGroups, name_of
from pwhash.lists import ListWriter, Row
from pwhash.options import FileOptions, Generate
from pwhash.part import Part, refuse_changed
from pwhash.session import Session
from pwhash.shown_names import list_names
from pwhash.single import random_letter_or_digit
from pwhash.source import Source
from pwhash.text import display_name, is_utf8, is_visible

PLACEHOLDER = b"x"
# What begins a formula in a spreadsheet. Some also accept the fullwidth forms of East Asia.
FORMULA = re.compile("[\\s\ufeff\u200b]*[-=+@\uff1d\uff0b\uff0d\uff20]")
# A spreadsheet may take each of these for the end of a field, after which a formula can begin.
BEFORE_FORMULA = re.compile('[,;|"]')
# Separators of tables, quotes and control characters, which no name in a list may contain.
IN_NO_LIST = re.compile(rb"[,;|\"\0-\x1f\x7f]")
LONGEST_FILE_NAME = 255


class Names(NamedTuple):
    """The names that get passwords, and the list in which each name is."""

    passwords: Dict[bytes, bytes]
    groups: Dict[bytes, List[Row]]  # rows without passwords, by list; without --by its name is b""


def with_placeholders(groups: LineGroups, generate: Generate) -> LineGroups:
    """Makes lines name:password from names, with a placeholder that is never hashed."""
    placeholder = PLACEHOLDER * generate.length
    for group in groups:
        yield [with_placeholder(line, placeholder, generate.has_groups) for line in group]


def with_placeholder(line: Line, placeholder: bytes, has_groups: bool) -> Line:
    """Returns a line with a placeholder, or a refused line."""
    if line.refused_row is not None:
        return line
    reason = check_name(line.data) or (check_group(line.group) if has_groups else None)
    reason = reason or check_others(line.others)
    if reason is not None:
        return line._replace(data=name_of(line), refused_row=reason)
    return line._replace(data=line.data + b":" + placeholder)


def check_name(name: bytes) -> Optional[str]:
    """Says why a list of passwords can't contain a name, or returns None."""
    if not name:
        return "no name"
    if b":" in name:
        return "a colon: with --generate, lines are names alone"
    if IN_NO_LIST.search(name):
        return "a separator of tables, a quote or a control character in the name (a table? --csv)"
    if FORMULA.match(name.decode(errors="replace")):
        return "a name that a spreadsheet would take for a formula"
    return None


def check_group(group: bytes) -> Optional[str]:
    """Says why a value in the column of --by can't name a file, or returns None."""
    if not group:
        return "nothing in the column of --by, which names the list"
    if is_damaged(group, is_of_table=True):
        return "an error of a spreadsheet in the column of --by, which names the list"
    if not is_utf8(group):
        return f"in the column of --by, {NOT_UTF8}"
    if not is_visible(group.decode()):
        return "an invisible character in the column of --by, which names the list"
    return check_file_name(group)


def check_file_name(group: bytes) -> Optional[str]:
    """Says why a file can't have this name, or returns None."""
    if b"/" in group or group.startswith(b"."):
        return "a slash or a first dot in the column of --by, which names the list"
    if len(group) + len(lists.SUFFIX) > LONGEST_FILE_NAME:
        return "too long a value in the column of --by, which names the list"
    return None


def check_others(fields: Tuple[bytes, ...]) -> Optional[str]:
    """Says why a list can't contain these fields of --list-columns, or returns None."""
    for field in fields:
        text = field.decode(errors="replace")
        if not is_visible(text):
            return "an invisible character in a column of --list-columns"
        if is_damaged(field, is_of_table=True):
            return "an error of a spreadsheet in a column of --list-columns"
        if any(FORMULA.match(piece) for piece in BEFORE_FORMULA.split(text)):
            return "a field of --list-columns that a spreadsheet would take for a formula"
    return None


def with_passwords(groups: LineGroups, passwords: Dict[bytes, bytes], source: Source) -> LineGroups:
    """Replaces the placeholders in the lines with passwords."""
    for group in groups:
        yield [with_password(line, passwords, source) for line in group]


def with_password(line: Line, passwords: Dict[bytes, bytes], source: Source) -> Line:
    """Returns a line with its password."""
    name = name_of(line)
    if name not in passwords:  # the earlier run had another FILE, or other locked names
        raise UsageError(
            f"{source.name}, line {line.number}: the name has no password in the lists. Remove "
            "them and OUT.part, and run the command without --resume."
        )
    return line._replace(data=name + b":" + passwords[name])


def store_passwords(
    groups: LineGroups, part: Part, source: Source, options: FileOptions, session: Session
) -> Dict[bytes, bytes]:
    """Returns the password of each name, once all lists are on disk."""
    generate = options.generate
    assert generate is not None
    with lists.opened_target(generate.passwords) as target:
        if options.resume and target.status() is not None:
            passwords = saved_passwords(target, generate, part)
            report_useless_passwords(passwords, groups, generate, session.console)
            return passwords
        if os.fstat(part.fd).st_size:
            raise UsageError(
                f"{part.name} has hashes of passwords that were in {target.display_name}, "
                f"which is gone. Remove {part.name}, and run the command without --resume."
            )
        names = new_passwords(groups, generate)
        refuse_changed(source, part)
        with session.signals.postponed():
            write_lists(names, target, source.separator, part, options)
        return names.passwords


def saved_passwords(target: FileInFolder, generate: Generate, part: Part) -> Dict[bytes, bytes]:
    """Returns the passwords in the lists of the run that --resume continues."""
    state = resume_state.read(part.file)
    if state is None or not state.lists:
        raise leftover_list_error(target, part)
    return lists.read(target, generate.has_groups, set(state.lists.split()))


def report_useless_passwords(
    passwords: Dict[bytes, bytes], groups: LineGroups, generate: Generate, console: Console
) -> None:
    """Reports names in a list whose password gets no hash, such as accounts locked since then."""
    hashed_names = {name_of(line) for group in groups for line in group}
    useless = [name for name in passwords if name not in hashed_names]
    if not useless:
        return
    console.say(
        f"{display_name(generate.passwords)} has passwords that get no hash, since their lines "
        f"are left out now: {list_names(useless)}."
    )


def leftover_list_error(target: FileInFolder, part: Part) -> UsageError:
    """Returns the error for a list that may be incomplete, since its run ended too early."""
    name = target.display_name
    return UsageError(
        f"{name} already exists, and {part.name} has no hash yet. If a run that ended early left "
        f"{name}, remove it, and type the command again; else name another after --passwords."
    )


def new_passwords(groups: LineGroups, generate: Generate) -> Names:
    """Makes a password for each name. A name in several lines gets one password."""
    names = Names({}, {})
    for group in groups:
        for line in group:
            name = name_of(line)
            if name not in names.passwords:
                names.passwords[name] = new_password(generate.length)
            names.groups.setdefault(line.group, []).append((*line.others, name))
    return names


def new_password(length: int) -> bytes:
    """Makes a password of letters and digits, with letters at both ends for spreadsheets."""
    while True:
        password = "".join(random_letter_or_digit() for _ in range(length))
        if password[0].isalpha() and password[-1].isalpha():
            return password.encode("ascii")


def write_lists(
    names: Names, target: FileInFolder, separator: str, part: Part, options: FileOptions
) -> None:
    """Writes all lists, and what --resume needs. After an error none of these files remains."""
    assert options.generate is not None
    writer = ListWriter(target)
    heading = list_heading(options)
    try:
        if options.generate.has_groups:
            writer.make_folder()
        for group, members in names.groups.items():
            rows = [(*member, names.passwords[member[-1]]) for member in members]
            writer.write(group, separator, [heading, *rows])
        part.save_state(options, writer.identities)
    except BaseException:
        writer.remove()
        raise
    finally:
        writer.close()


def list_heading(options: FileOptions) -> Row:
    """Returns the first row of a list."""
    columns = options.input.list_columns
    others = [] if columns is None else os.fsencode(columns).split(b",")
    return (*(each.strip() for each in others), b"name", b"password")
