"""Makes the hashes of crypt(5) with libxcrypt, an independent implementation."""
from __future__ import annotations

import ctypes
import errno

LONGEST_PASSWORD = 511  # bytes
SIZE_OF_CRYPT_DATA = 32768  # bytes of struct crypt_data, from crypt.h

_library = ctypes.CDLL("libcrypt.so.1", use_errno=True)
_library.crypt_rn.argtypes = [ctypes.c_char_p, ctypes.c_char_p, ctypes.c_void_p, ctypes.c_int]
_library.crypt_rn.restype = ctypes.c_char_p


def crypt_or_none(password: bytes, setting: bytes) -> bytes | None:
    """Returns the hash of a password, or None if libxcrypt refuses the password or the setting.

    Each call has its own memory, so several threads may call this at once.
    """
    assert b"\0" not in password + setting, "a C string has no zero byte"
    data = ctypes.create_string_buffer(SIZE_OF_CRYPT_DATA)
    ctypes.set_errno(0)
    text: bytes | None = _library.crypt_rn(password, setting, data, SIZE_OF_CRYPT_DATA)
    if text is None and ctypes.get_errno() == errno.ENOMEM:
        raise MemoryError
    return text


def crypt(password: bytes, setting: bytes) -> bytes:
    """Returns the hash of a password with a setting that libxcrypt accepts."""
    text = crypt_or_none(password, setting)
    assert text is not None, f"libxcrypt refuses the setting {setting!r} or the password"
    return text
