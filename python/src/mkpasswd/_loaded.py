"""Loads the C library, and declares its calls."""
from __future__ import annotations

import ctypes
import os
from typing import Any, Sequence

SONAME = "libmkpasswd.so.3"

# The size of a buffer for any hash, setting, message or name, as in the header.
TEXT_SIZE = 145

# A pointer to bytes and their number, as most calls take them.
STRING = [ctypes.c_char_p, ctypes.c_size_t]


def _load() -> ctypes.CDLL:
    """Loads the library beside the package (a wheel's), or else the system's.

    If the process has loaded a library of this name from any path, the loader returns that one.
    """
    beside = os.path.join(os.path.dirname(os.path.abspath(__file__)), SONAME)
    try:
        return ctypes.CDLL(beside if os.path.exists(beside) else SONAME)
    except OSError as error:
        raise _import_error(error) from None


def _import_error(error: Exception) -> ImportError:
    return ImportError(f"mkpasswd needs its C library, {SONAME}, and could not load it: {error}")


LIBRARY = _load()


def declare(name: str, arguments: Sequence[Any], result: Any = ctypes.c_int32) -> Any:
    """Returns a call of the library, with the types of its arguments and of its result."""
    try:
        call = getattr(LIBRARY, name)
    except AttributeError as error:
        raise _import_error(error) from None
    call.argtypes, call.restype = arguments, result
    return call


def read_text(call: Any, number: int) -> str:
    """Returns the string that a call writes for a number."""
    out = ctypes.create_string_buffer(TEXT_SIZE)
    call(number, out, TEXT_SIZE)
    return out.value.decode("ascii")
