"""Turns the rows of a CSV table from a spreadsheet into lines name:password, or into names."""

from __future__ import annotations

import csv
import itertools
import os
import re
from collections.abc import Sequence
from typing import Iterator, List, NamedTuple, Optional, Protocol, Tuple

from pwhash import headings
from pwhash.errors import Stop, UsageError
from pwhash.lines import Line, LineGroups
from pwhash.shown_names import list_headings
from pwhash.source import LONGEST_LINE, Source

LONGEST_ROW = LONGEST_LINE  # also if the row has several lines
SEPARATORS = {",": "a comma", ";": "a semicolon", "\t": "a tab"}
NAME_IN_LISTS = "name"  # the heading of user names in a list of new passwords
NUMBERS = [str(number) for number in range(1, 100)]  # that options take in place of names
# Maps each byte to the character of that number and back, so that the encoding doesn't matter.
BYTES = "latin-1"
IN_QUOTES = re.compile('"[^"]*"')
# A quote that begins a field, in a row from which the quoted parts (IN_QUOTES) were removed. So the
# field goes on in the next text.
OPEN_QUOTE = re.compile('(?:^|[,;\t])"')
UTF16_MARKS = ("\xff\xfe", "\xfe\xff")

Row = List[str]


class Reader(Protocol):
    """What csv.reader() returns."""

    line_num: int

    def __next__(self) -> Row:
        ...

    def __iter__(self) -> Iterator[Row]:
        ...


class Columns(NamedTuple):
    """The columns of a table that are read, by their indexes."""

    headings: Row  # of all columns; empty if columns are chosen by number
    name: int
    second: Optional[int]  # the password, or in a table of names the group, if there is one
    others: Tuple[int, ...]  # those of --list-columns
    width: int  # the number of fields in the first row

    def wanted_in(self, row: Row) -> Row:
        """Returns the fields of a row in the columns `name` and `second`."""
        indexes = [self.name] if self.second is None else [self.name, self.second]
        return [cell(row, index) for index in indexes]


def lines_of(source: Source) -> LineGroups:
    """Yields the lines of a source, or if it is a table, lines made from its rows."""
    groups = source.lines() if source.input.columns is None else Table(source).lines()
    for group in groups:
        source.has_lines = source.has_lines or bool(group)
        yield group


class Table:
    """A table, read row by row."""

    def __init__(self, source: Source) -> None:
        self._name = source.name
        self._source = source
        self._names_only = source.input.names_only
        self._wanted = wanted_columns(source.input.columns or "")
        self._others = wanted_columns(source.input.list_columns)
        self._texts = Texts(source)
        self._row_begin, self._row_size = 1, 0

    def lines(self) -> LineGroups:
        """Yields the rows as lines."""
        allowed_counts = (1, 2) if self._names_only else (2,)
        is_any_twice = any(has_duplicates(columns) for columns in (self._wanted, self._others))
        if len(self._wanted) not in allowed_counts or is_any_twice:
            raise self._no_columns()
        head = self._first_row_with_blank_ones()
        separator = self._source.separator = self._separator(head)
        texts = self._limited(itertools.chain(head, self._texts))
        reader = csv.reader(texts, delimiter=separator, strict=True)
        first = self._next_row(reader) or []
        columns = self._columns(first)
        refusal = self._joined_lines(first)
        if columns.headings and refusal is not None:
            yield [Line(reader.line_num, b"", refusal)]
        row = self._next_row(reader) if columns.headings else first
        while row is not None:
            yield [self._line(reader.line_num, row, columns)]
            while not self._texts.is_ready():
                yield []
            row = self._next_row(reader)

    def _has_names(self) -> bool:
        """Returns whether columns are chosen by name, and not by number."""
        return not self._wanted[0].isdecimal()

    def _first_row_with_blank_ones(self) -> List[str]:
        """Reads the texts of leading blank rows, and of the first row that isn't blank."""
        head = [next(self._texts, "")]
        while head[-1] == "\n":
            head.append(next(self._texts, ""))
        self._row_begin = len(head)
        is_utf16 = head[-1].startswith(UTF16_MARKS)
        # UTF-16 without a byte order mark has zero bytes. If columns are numbered, the first row is
        # a line, and a zero byte in its password is refused as in any other row.
        if is_utf16 or (self._has_names() and "\0" in head[-1]):
            raise self._no_columns()
        if not head[-1]:
            raise UsageError(f"{self._name} has no rows.")
        return [*head, *self._rest_of_row(head[-1])]

    def _rest_of_row(self, first: str) -> Iterator[str]:
        """Yields the further texts of a row whose headings contain line feeds, up to the limit."""
        is_open = OPEN_QUOTE.search(IN_QUOTES.sub("", first)) is not None
        size = len(first)
        while is_open and size <= LONGEST_ROW:
            text = next(self._texts, "")
            if not text:
                return
            yield text
            size += len(text)
            is_open = text.count('"') % 2 == 0  # an odd number of quotes closes the open one

    def _separator(self, head: List[str]) -> str:
        """Finds the separator: the one that yields the wanted names, or the only one there."""
        bare = IN_QUOTES.sub("", "".join(head))
        found = sorted((each for each in SEPARATORS if each in bare), key=bare.index)
        if self._has_names():
            with_names = [each for each in found if self._finds_names(head, each)]
            return [*with_names, *found, ","][0]
        if len(found) > 1:
            names = " or ".join(SEPARATORS[each] for each in found)
            raise UsageError(
                f"{self._name}: {names} may be between columns. In the first row, quote "
                "fields that have one in them, or give the columns names."
            )
        return found[0] if found else ","

    def _finds_names(self, head: List[str], separator: str) -> bool:
        reader: Iterator[Row] = csv.reader(head, delimiter=separator)
        try:
            row: Row = next((each for each in reader if each), [])
        except csv.Error as error:
            raise Stop(
                f"{self._name}, line {self._row_begin}: {describe_csv_error(error)}."
            ) from None
        return {*self._wanted, *self._others} <= set(fold_row(row))

    def _columns(self, first: Row) -> Columns:
        names = fold_row(first)
        known = names if self._has_names() else NUMBERS
        if any(known.count(each) != 1 for each in [*self._wanted, *self._others]):
            raise self._no_columns([field.encode(BYTES) for field in first])
        wanted = [known.index(each) for each in self._wanted]
        name = wanted[0]
        second = wanted[1] if len(wanted) > 1 else None
        # If columns are numbered, the second field may be a password such as "name", so it isn't
        # judged.
        above = self._wanted if self._has_names() else [cell(names, name), ""]
        if self._names_only:
            self._refuse_passwords([*above, *self._others])
            self._refuse_second_name()
        elif above[0] in headings.PASSWORDS or above[-1] in headings.NAMES:
            raise UsageError(
                "--columns names the column of names, then that of passwords. Here the first is "
                "headed as passwords are, or the second as names are. Correct the order."
            )
        others = tuple(known.index(each) for each in self._others)
        return Columns(names if self._has_names() else [], name, second, others, len(first))

    def _refuse_passwords(self, above: Row) -> None:
        """Refuses a column of passwords where names are needed."""
        if any(each in headings.PASSWORDS for each in above):
            raise UsageError(
                "--columns, --by or --list-columns names a column that is headed as passwords are. "
                "Correct that."
            )

    def _refuse_second_name(self) -> None:
        """Refuses a column of --list-columns with the heading that user names have in a list.

        With two such columns, nobody could read the list as a table again.
        """
        if NAME_IN_LISTS in self._others:
            raise UsageError(
                f"--list-columns has the column {NAME_IN_LISTS}, and in a list that is the column "
                f"of user names. In the first row of {self._name}, rename it, for example to "
                "surname, or leave it out."
            )

    def _no_columns(self, first_row: Sequence[bytes] = ()) -> UsageError:
        found = list_headings(first_row)
        there = f" Its first row has {found}." if found else ""
        if self._names_only:
            return UsageError(
                "--columns, by default name, --by and --list-columns need names that are once in "
                f"the first row of {self._name}, or if that has no names, numbers, as 1.{there} "
                "Save UTF-16 and Windows-1252 as UTF-8."
            )
        return UsageError(
            "--columns, by default name,password, needs two names, each once in the first row of "
            f"{self._name}, or if that has no names, numbers, as 1,2.{there} Save UTF-16 as UTF-8."
        )

    def _limited(self, texts: Iterator[str]) -> Iterator[str]:
        """Yields the texts, and stops the run if a row is longer than 128 KiB."""
        for text in texts:
            self._row_size += len(text)
            if self._row_size > LONGEST_ROW + 1:  # with its line feed
                raise Stop(
                    f"{self._name}, line {self._row_begin}: a row is longer than 128 KiB, "
                    "or a quote in it has no end."
                )
            yield text

    def _next_row(self, reader: Reader) -> Optional[Row]:
        """Returns the next row that isn't blank, or None after the last one."""
        row: Optional[Row] = []
        try:
            while row is not None and not row:
                self._row_begin, self._row_size = reader.line_num + 1, 0
                row = next(reader, None)
        except csv.Error as error:
            raise Stop(
                f"{self._name}, line {self._row_begin}: {describe_csv_error(error)}."
            ) from None
        return row

    def _line(self, number: int, row: Row, columns: Columns) -> Line:
        """Returns a row as a line, marked as refused if the row breaks a rule."""
        name = cell(row, columns.name)
        reason = self._refused(row, columns)
        if reason is not None:
            return Line(number, name.encode(BYTES), reason)
        second = "" if columns.second is None else row[columns.second]
        if self._names_only:
            return Line(
                number,
                name.encode(BYTES),
                group=second.encode(BYTES).strip(),
                others=tuple(cell(row, index).encode(BYTES).strip() for index in columns.others),
            )
        return Line(number, f"{name}:{second}".encode(BYTES))

    def _refused(self, row: Row, columns: Columns) -> Optional[str]:
        if self._is_heading(row, columns):
            return "the heading again"
        if is_joined_with_heading(fold_row(row), columns):
            return "a heading at its end: was a table joined without a line feed before it?"
        if len(row) > columns.width:
            return (
                f"{len(row)} fields, where the first row has {columns.width}: "
                "a separator in a field needs quotes"
            )
        return self._joined_lines(row) or self._refused_fields(row, columns)

    def _refused_fields(self, row: Row, columns: Columns) -> Optional[str]:
        """Says what is wrong with the fields of a row that are used, or returns None."""
        if columns.second is not None and columns.second >= len(row):
            return "no field in the column of --by" if self._names_only else "no password field"
        if columns.name >= len(row):
            return "no field in the column of names"
        name = cell(row, columns.name)
        if not name:
            return "no name"
        return "a colon in the name" if ":" in name else None

    def _joined_lines(self, row: Row) -> Optional[str]:
        """Says why a row of several lines is refused, or returns None for a row of one line.

        A stray quote may have joined the lines, up to the next quote, in any field or heading.
        """
        if any("\n" in field for field in row):
            return f"a line feed in a field: lines {self._row_begin} to here are one row"
        return None

    def _is_heading(self, row: Row, columns: Columns) -> bool:
        """Returns whether a row is the heading again, perhaps because another table was appended.

        Ends the run if that table has its columns in another order.
        """
        fields = fold_row(row)
        if columns.headings and columns.wanted_in(fields) == columns.wanted_in(columns.headings):
            return True
        if is_heading_of_others(fields, columns):
            raise self._another_table(is_row_and_heading(fields, columns.headings))
        return False

    def _another_table(self, is_joined: bool) -> UsageError:
        where = f"{self._name}, line {self._row_begin}"
        if is_joined:
            return UsageError(
                f"{where}: a row and then the heading again, so a line feed is missing between two "
                "tables. Put it in front of the heading."
            )
        return UsageError(
            f"{where}: another table begins, with other columns. Hash each by itself."
        )


def is_heading_of_others(fields: Row, columns: Columns) -> bool:
    """Returns whether a row is the heading of a table with names or passwords in other columns."""
    wanted = columns.wanted_in(fields)
    if headings.is_of_passwords(wanted[0]) and wanted[-1] in headings.NAMES:
        return True
    if not columns.headings:
        return False
    has_all_headings = set(columns.wanted_in(columns.headings)) <= set(fields)
    are_headings = set(wanted) <= set(columns.headings) - {""}
    return has_all_headings or are_headings


def is_row_and_heading(fields: Row, own: Row) -> bool:
    """Returns whether this is a row joined with the heading, as in 1,ann,pw1room,name,password.

    The last value of the row and the first heading are one field, since no line feed is between
    them. The heading of another table hardly has so many fields.
    """
    if len(fields) != 2 * len(own) - 1:
        return False
    end = fields[-len(own) :]
    return end[0].endswith(own[0]) and end[1:] == own[1:]


def is_joined_with_heading(fields: Row, columns: Columns) -> bool:
    """Returns whether a row ends in the heading of another table, as in ann,pw1name,password.

    `cat` joins tables like this if the last line of the first one has no line feed.
    """
    own = columns.headings
    if own and fields[1:] == own[1:] and fields[0].endswith(own[0]):
        return True
    joined = len(fields) - 1  # the field that has a value and a heading in it
    while joined > 0 and is_heading(fields[joined], own):
        joined -= 1
    # A value such as "name" can be a heading by chance, so one of passwords, or the last one of
    # this table, has to be among them.
    others = fields[joined + 1 :]
    if joined == 0 or not any(each in headings.PASSWORDS or each in own[-1:] for each in others):
        return False
    first_headings = {*headings.NAMES, *headings.PASSWORDS, *own[:1]} - {""}
    return fields[joined].endswith(tuple(first_headings))


def is_heading(field: str, own: Row) -> bool:
    """Returns whether a field is a heading of this table, or one that many tables have."""
    return field in headings.NAMES or field in headings.PASSWORDS or (field in own and field != "")


class Texts(Iterator[str]):
    """The lines of a source, one after the other, as csv needs them."""

    def __init__(self, source: Source) -> None:
        self._arrivals = source.lines()
        self._waiting: Iterator[Line] = iter(())
        self._next: Optional[Line] = None
        self._is_end = False

    def __next__(self) -> str:
        while self._next is None:
            self._take_next()
            if self._is_end:
                raise StopIteration
        line, self._next = self._next, None
        return line.data.decode(BYTES) + "\n"

    def is_ready(self) -> bool:
        """Waits a moment for the next text or the end, and returns whether it is there."""
        if self._next is None and not self._is_end:
            self._take_next()
        return self._next is not None or self._is_end

    def _take_next(self) -> None:
        """Takes the next line, if it is there already."""
        self._next = next(self._waiting, None)
        if self._next is not None:
            return
        group = next(self._arrivals, None)
        self._is_end = group is None
        self._waiting = iter(group or ())
        self._next = next(self._waiting, None)


def describe_csv_error(error: csv.Error) -> str:
    """Says what is wrong with a row."""
    if "field limit" in str(error):
        return "a field is longer than 128 KiB, or the quote that begins it has no end"
    if "new-line" in str(error):
        return "this is not CSV: a carriage return ends no row. Save the file with line feeds"
    if "unexpected end" in str(error):
        return "a quote that begins a field here has no end, so the rows behind it can't be read"
    return f"this is not CSV: {error}"


def wanted_columns(names: Optional[str]) -> Row:
    """Returns the names of columns in the value of an option, ready to be compared."""
    return [] if names is None else fold_all(os.fsencode(names).split(b","))


def has_duplicates(columns: Row) -> bool:
    """Returns whether a column is named twice."""
    return len(set(columns)) != len(columns)


def fold_all(fields: Sequence[bytes]) -> Row:
    """Returns names of columns, ready to be compared."""
    return [headings.fold(field) for field in fields]


def fold_row(row: Row) -> Row:
    """Returns the fields of a row, ready to be compared with names of columns."""
    return fold_all([field.encode(BYTES) for field in row])


def cell(row: Row, index: int) -> str:
    """Returns a field of a row. It is empty if the row is too short."""
    return row[index] if index < len(row) else ""
