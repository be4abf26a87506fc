"""Starts pwhash from its private folder, as bin/pwhash does:

    python3 -I -S FOLDER/pwhash/start.py LIBRARY COMMAND WORDS..

LIBRARY is the absolute path of the C library, and COMMAND is how pwhash was called. Modules and
libraries are loaded from nowhere else, since root may run this in anybody's folder.
"""

from __future__ import annotations

import contextlib
import importlib
import os
import signal
import sys
from typing import NoReturn

STDERR = 2
FAILED = 3


def start(library: str, command: str, arguments: "list[str]") -> NoReturn:
    """Runs pwhash. The process ends."""
    try:
        # The package mkpasswd loads the library by its name, and gets the one loaded here.
        importlib.import_module("ctypes").CDLL(library)
        sys.path.insert(0, os.path.dirname(os.path.dirname(os.path.realpath(__file__))))
        # From here on an error in a module that is being loaded ends the process with status 3.
        watch_unforeseen()
        run = importlib.import_module("pwhash.run").run
    except PermissionError as error:  # of a module: ctypes raises plain OSError
        fail(f"{error.filename} can't be read. Install pwhash so that every user can read it.")
    except OSError:
        fail(
            f"{library} is missing, is of another processor or C library, or can't be loaded, "
            "since memory or open files are limited (ulimit -a). Run make lib, or install it."
        )
    except ImportError as error:
        fail(describe_import_error(error))
    except MemoryError:
        fail("out of memory (ulimit -v).")
    try:
        run(command, arguments)
    except ImportError as error:  # of the module of the command, which run loads
        fail(describe_import_error(error))
    raise AssertionError


def watch_unforeseen() -> None:
    """Loads the module that reports unforeseen exceptions, such as those of damaged modules."""
    name = "pwhash.unforeseen"
    try:
        importlib.import_module(name).watch()
    except (AttributeError, SyntaxError, ValueError):  # it is empty, or isn't Python
        fail(describe_import_error(ImportError(name=name)))


def describe_import_error(error: ImportError) -> str:
    """Says why a module can't be loaded."""
    if error.name is None:  # the package mkpasswd says what is wrong with the library
        return f"{error}."
    package = error.name.partition(".")[0]
    if package in ("pwhash", "mkpasswd"):
        folder = os.path.join(os.path.dirname(os.path.dirname(__file__)), package)
        return f"the module {error.name} can't be loaded: {folder} is damaged."
    return (
        f"{sys.executable} can't load its own module {error.name}. Install all of Python "
        "(Debian: apt install python3)."
    )


def fail(sentence: str) -> NoReturn:
    """Ends the process, and says why on standard error if that works."""
    with contextlib.suppress(OSError):
        os.write(STDERR, os.fsencode(f"pwhash: {sentence}\n"))
    os._exit(FAILED)


if __name__ == "__main__":
    # Until pwhash handles Ctrl-C, it ends the process by the signal, without a KeyboardInterrupt.
    if signal.getsignal(signal.SIGINT) is signal.default_int_handler:
        signal.signal(signal.SIGINT, signal.SIG_DFL)
    start(sys.argv[1], sys.argv[2], sys.argv[3:])
