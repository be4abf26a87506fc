"""Counts the instructions of a command with valgrind's cachegrind.

The count of a binary is the same in every run, however busy the machine is. Valgrind emulates a
processor that has AVX2 if the machine's has it, but neither AVX-512 nor instructions for SHA-256.
Code that would use those runs as it does on a processor without them.
"""
from __future__ import annotations

import re

CACHEGRIND = ("valgrind", "--tool=cachegrind", "--cache-sim=no", "--cachegrind-out-file=/dev/null")

# The environment for counts that are compared with those of another machine. glibc chooses its
# memcpy and memset by the processor, and cachegrind counts each byte that `rep movsb` moves. With
# this variable glibc uses neither AVX nor `rep movsb`.
EVERY_PROCESSOR = {
    "GLIBC_TUNABLES": "glibc.cpu.hwcaps=-AVX_Fast_Unaligned_Load,-AVX2,-AVX512F,-AVX512VL,-ERMS,"
    "-FSRM"
}


def instructions_in(stderr: bytes) -> int | None:
    """Returns the count of instructions that cachegrind printed, or None if it printed none."""
    found = re.search(rb"I +refs: +([\d,]+)", stderr)
    return int(found[1].replace(b",", b"")) if found else None
