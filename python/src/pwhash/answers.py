"""The answers to lines, which are written in the order of the lines."""

from __future__ import annotations

import os
from collections.abc import Sequence
from typing import List, NamedTuple, Optional

from pwhash.console import STDERR, STDOUT, Console
from pwhash.errors import errors_named
from pwhash.library import Refusal
from pwhash.lines import Line
from pwhash.text import printable


class Answer(NamedTuple):
    """The answer to a line: a text for standard output or OUT, or a message for standard error."""

    line: Line
    text: Optional[bytes] = None
    message: Optional[str] = None
    refusal: Optional[Refusal] = None  # of a line that breaks a rule
    is_wrong_password: bool = False
    renewed: Optional[bytes] = None  # the line name:hash, if a check has made a new hash


def refusal_answer(line: Line, refusal: Refusal) -> Answer:
    """Returns the answer to a line that breaks a rule of mkpasswd, with mkpasswd's message."""
    return Answer(line, None, f"mkpasswd: line {line.number}: {refusal.message}", refusal)


def refused_row_answer(line: Line) -> Answer:
    """Returns the answer to a row that pwhash refuses."""
    return Answer(line, message=f"pwhash: line {line.number}: {line.refused_row}")


class Writer:
    """Writes answers to standard output or to a file, and messages to standard error."""

    def __init__(self, console: Console, fd: int = STDOUT, name: Optional[str] = None) -> None:
        self._console = console
        self._fd = fd
        self._name = name
        self._is_terminal = os.isatty(fd)

    def write(self, answers: Sequence[Answer]) -> None:
        """Writes answers and messages in the order of their lines."""
        texts: List[bytes] = []
        for answer in answers:
            if answer.text is not None:
                texts.append(answer.text)
            if answer.message is not None:
                self._write_texts(texts)
                texts = []
                self._console.write_lines(STDERR, [answer.message.encode()])
        self._write_texts(texts)

    def _write_texts(self, texts: List[bytes]) -> None:
        if self._is_terminal:
            texts = [printable(text).encode() for text in texts]
        if self._name is None:
            self._console.write_lines(self._fd, texts)
            return
        with errors_named(self._name):
            self._console.write_lines(self._fd, texts)
