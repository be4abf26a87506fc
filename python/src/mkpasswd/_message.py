"""The library's messages for its errors."""
from __future__ import annotations

import ctypes

from ._loaded import STRING, declare, read_text

_CALL = declare("mkpasswd_message_bytes", [ctypes.c_uint32, *STRING])


def message(error: int) -> str:
    """Returns the message for the number of an error. The library has one for every number."""
    return read_text(_CALL, error)


class HasMessage:
    """The base class of Reason, which adds messages to names and numbers."""

    value: int

    @property
    def message(self) -> str:
        """The library's message, such as "bad rounds"."""
        return message(self.value)
