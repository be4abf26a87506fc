"""Runs a command from the words of its command line to its exit status."""

from __future__ import annotations

import importlib
import os
import signal
import sys
from collections.abc import Sequence
from typing import NoReturn, Protocol

from pwhash import process, unforeseen
from pwhash.cli import PrintAndExit, read_options
from pwhash.console import STDOUT
from pwhash.errors import Status, Stop, reason_of
from pwhash.options import (
    AuditOptions,
    CalibrateOptions,
    CheckOptions,
    FileOptions,
    InstallOptions,
    Options,
    SetOptions,
    SingleOptions,
    VerifyOptions,
)
from pwhash.session import Session
from pwhash.signals import die_of
from pwhash.text import display_name


MODULES = {
    SingleOptions: "pwhash.single",
    FileOptions: "pwhash.file",
    CheckOptions: "pwhash.check",
    AuditOptions: "pwhash.audit",
    SetOptions: "pwhash.set",
    InstallOptions: "pwhash.install",
    VerifyOptions: "pwhash.verify",
    CalibrateOptions: "pwhash.calibrate",
}


class Command(Protocol):
    """The module of a command."""

    def run(self, options: Options, session: Session) -> bool:
        """Runs the command. Returns whether there is a problem."""


def main() -> NoReturn:
    """Runs pwhash from a script that pip installs. The process ends."""
    run(sys.argv[0], sys.argv[1:])


def run(command: str, arguments: Sequence[str]) -> NoReturn:
    """Runs a command line. `command` is how pwhash was called. The process ends."""
    unforeseen.watch()
    process.prepare()
    session = Session(command, arguments)
    session.signals.watch()
    # os._exit skips Python's own cleanup, which can fail and then change the status.
    os._exit(status_of(session, arguments))


def status_of(session: Session, arguments: Sequence[str]) -> Status:
    """Runs a command, and returns its exit status. Dies of SIGPIPE if nobody reads the output."""
    try:
        return answer(session, arguments)
    except Stop as stop:
        return session.fail(stop)
    except BrokenPipeError:  # by `| head`, for example: end quietly, as other programs do
        session.console.clear_progress()
        die_of(signal.SIGPIPE)
    except OSError as error:
        name = f"{display_name(error.filename)}: " if isinstance(error.filename, str) else ""
        return session.fail(Stop(f"{name}{reason_of(error)}."))
    except MemoryError:
        return session.fail(Stop("out of memory (ulimit -v)."))


def answer(session: Session, arguments: Sequence[str]) -> Status:
    """Reads the options, and runs the command."""
    try:
        session.options = read_options(arguments)
    except PrintAndExit as printed:
        session.console.write_lines(STDOUT, [str(printed).encode()])
        return Status.OK
    return Status.PROBLEM if has_problem(session.options, session) else Status.OK


def has_problem(options: Options, session: Session) -> bool:
    """Runs the command to which the options belong. Returns whether there is a problem."""
    # Only its module is loaded, since each imports others that load slowly, such as json or csv.
    command: Command = importlib.import_module(MODULES[type(options)])
    return command.run(options, session)
