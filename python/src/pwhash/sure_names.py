"""Which lines name:password surely begin with a name, so that messages may show it.

Somebody may have swapped the columns, or a row of a table may have moved by a column. Then what
stands in the place of the name is a password, and looks like a name if it is a word.
"""

from __future__ import annotations

from pwhash.lines import Line, name_of
from pwhash.options import Input
from pwhash.superuser import account_names


class SureNames:
    """Finds the names that a message may show."""

    def __init__(self, wanted: Input) -> None:
        self._has_names_alone = wanted.names_only and wanted.columns is None
        self._accounts = account_names()

    def find(self, line: Line) -> bytes:
        """Returns the name of a line, or nothing if it may be a password.

        It is surely one if the list has only names, or if it is in /etc/passwd.
        """
        name = name_of(line)
        return name if self._has_names_alone or name in self._accounts else b""
