"""Reports exceptions that no other module handles: their type, and where they were raised.

It never shows their messages, which can contain data, and data can be a password.
"""

from __future__ import annotations

import contextlib
import os
import sys
import threading
from types import TracebackType
from typing import Optional, Type

STDERR = 2
FAILED = 3


def watch() -> None:
    """From here on, an exception that nothing handles ends the process with a sentence.

    Only one that Python can't raise, as in a __del__, is just reported.
    """
    sys.excepthook = end
    threading.excepthook = end_in_thread
    sys.unraisablehook = report_unraisable


def end(
    kind: Type[BaseException], _: Optional[BaseException], trace: Optional[TracebackType]
) -> None:
    """Ends the process, and reports the exception."""
    say(f"{describe(kind, trace)}: pwhash is damaged, or has a bug.")
    os._exit(FAILED)


def end_in_thread(arguments: threading.ExceptHookArgs) -> None:
    """Ends the process after an exception in another thread."""
    end(arguments.exc_type, arguments.exc_value, arguments.exc_traceback)


def report_unraisable(arguments: "sys.UnraisableHookArgs") -> None:
    """Reports an exception that Python can't raise, such as one in a __del__."""
    say(f"{describe(arguments.exc_type, arguments.exc_traceback)}. The run continues.")


def describe(kind: Type[BaseException], trace: Optional[TracebackType]) -> str:
    """Returns the type of an exception, and where it was raised."""
    if trace is None:
        return kind.__name__
    while trace.tb_next:
        trace = trace.tb_next
    module = os.path.basename(trace.tb_frame.f_code.co_filename)
    return f"{kind.__name__} at {module}:{trace.tb_lineno}"


def say(sentence: str) -> None:
    """Writes a sentence to standard error, if that works."""
    with contextlib.suppress(OSError):
        os.write(STDERR, f"pwhash: {sentence}\n".encode())
