"""The mutant in a block under `<!-- tested: mutant -->`.

test_administration.py tests the blocks for administrators, and tests/services those for services.
"""
from __future__ import annotations

import re

from support import ROOT
from support.documents import marked
from support.process import run


def test_the_mutant_of_the_document_is_one_that_the_gate_refuses() -> None:
    block = marked("mutant", "sh")
    edit = ROOT / "crates/crypt_core/must-fail/refused-at-the-budget.edit"
    change = re.search(r"^new: (.*)", edit.read_text(encoding="utf-8"), re.MULTILINE)
    command = re.search(r"^sed .*", block.code, re.MULTILINE)
    assert change and command, f"{block.place}: expected a command sed\n{block.code}"
    # Without -i, sed leaves the file alone and prints the result.
    result = run("sh", "-c", command[0].replace(" -i ", " "), cwd=ROOT)
    is_changed = change[1] in result.stdout.decode()
    message = f"{block.place}: expected a file with {change[1]!r}, from {edit.name}"
    assert is_changed, f"{message}\nthe command: {command[0]}\nits stderr: {result.stderr!r}"
