"""Passwords at limits of the Python package."""
from __future__ import annotations

# The recommended policy admits passwords of at most 168 bytes.
LONGEST_BY_DEFAULT = "x" * 168
TOO_COSTLY = "x" * 169
# No policy admits more than 1024 bytes.
LONGEST = "x" * 1024
TOO_LONG = "x" * 1025
