"""The package as a whole: its numbers, examples, types and imports."""
from __future__ import annotations

import ctypes
import doctest
import re
from pathlib import Path
from types import ModuleType

import pytest
from support import ROOT
from support.package import PACKAGE, run_python, package_under_test
from support.process import Result, assert_result, run

with package_under_test():
    import mkpasswd
    from mkpasswd import _calls, _library, _loaded, _policy, crypt

HEADER = (ROOT / "c/mkpasswd.h").read_text(encoding="ascii")
# The size of struct mkpasswd_report: eight numbers of 32 bits and six of 64.
BYTES_OF_REPORT = 8 * 4 + 6 * 8


# ---- The header's numbers


def defined() -> dict[str, int]:
    """Returns the numbers that the header defines, by name without the prefix."""
    pattern = r"^#define MKPASSWD_(\w+) (\d+)"
    return {name: int(number) for name, number in re.findall(pattern, HEADER, re.MULTILINE)}


def test_the_sizes_are_the_headers() -> None:
    assert defined()["TEXT_SIZE"] == _loaded.TEXT_SIZE
    assert defined()["PASSWORD_LIMIT"] == _library.PASSWORD_LIMIT


def test_the_recommended_rounds_are_those_of_new_salts() -> None:
    assert crypt.mksalt().split("$")[2] == f"rounds={mkpasswd.limit().rounds}"


def test_the_reasons_are_the_headers() -> None:
    """Their names, numbers and messages agree."""
    # `/* bad rounds: an explanation */`, and in the next line `MKPASSWD_ERROR_BAD_ROUNDS = 6`
    pattern = r"/\* ([a-z ]+?)(?:: .*)? \*/\n +MKPASSWD_ERROR_(\w+) = (\d+)"
    found = re.findall(pattern, HEADER)
    expected = {(name, int(number), message) for message, name, number in found}
    assert expected
    assert {(each.name, each.value, each.message) for each in mkpasswd.Reason} == expected


def test_the_numbers_of_methods_are_the_headers() -> None:
    expected = {name: defined()[name.upper()] for name in _calls.METHODS}
    assert _calls.METHODS == expected


def test_the_fields_of_a_report_are_the_headers() -> None:
    found = re.search(r"struct mkpasswd_report \{(.*?)\};", HEADER, re.DOTALL)
    assert found
    names = re.findall(r"^    (?:\w+_t|struct \w+) (\w+);", found[1], re.MULTILINE)
    fields: list[tuple[str, object]] = getattr(_library.Report, "_fields_")
    assert [name for name, *_ in fields] == names
    assert ctypes.sizeof(_library.Report) == BYTES_OF_REPORT


def test_the_package_has_the_version_of_the_repository() -> None:
    version = run(ROOT / "tools/version").required().stdout.decode().strip()
    assert mkpasswd.__version__ == version


# ---- Examples


@pytest.mark.parametrize(
    ("module", "fewest_examples"),
    [
        pytest.param(mkpasswd, 4, id="mkpasswd"),
        pytest.param(_policy, 15, id="its calls"),
        pytest.param(crypt, 3, id="mkpasswd.crypt"),
    ],
)
def test_the_examples_of_a_module_are_right(module: ModuleType, fewest_examples: int) -> None:
    result = doctest.testmod(module, extraglobs={"mkpasswd": mkpasswd})
    assert result.failed == 0 and result.attempted >= fewest_examples


# ---- Types

RIGHT = """
from concurrent.futures import Future
from typing import Optional
import mkpasswd
from mkpasswd import crypt
from mkpasswd.fixed_time import FixedTime
policy = mkpasswd.Policy("scrypt", 6, budget=2**42)
stored: str = policy.hash(b"x")
is_in: bool = policy.login("x", field=None)
is_outdated: bool = mkpasswd.needs_rehash(stored) and policy.for_length(1024).needs_rehash(stored)
limit: mkpasswd.Limit = mkpasswd.limit()
numbers: int = limit.cost + limit.longest_password + limit.rounds + mkpasswd.cost(stored, 1)
found: mkpasswd.Description = policy.describe(None)
scheme: Optional[str] = found.scheme
reason: Optional[mkpasswd.Reason] = found.reason
print(found.state is mkpasswd.State.DEAD, crypt.crypt("x", crypt.methods[0]), policy.setting("a"))
logins = FixedTime(seconds=5, threads=2, queued=10, failed=100)
answer: "Future[bool]" = logins.submit(policy.login, "x", field=None)
"""
# Careless code, and calls of earlier versions.
WRONG = [
    "mkpasswd.hash(5)",
    'mkpasswd.login("x", stored)',
    'mkpasswd.login("x")',
    'mkpasswd.login(stored, "x", field=stored)',
    'mkpasswd.login("x", field=stored, budget=150000000)',
    'mkpasswd.login("x", field=stored).new',
    'matches, new = mkpasswd.login("x", field=stored)',
    'mkpasswd.verify("x", field=stored)',
    'mkpasswd.hash("x", rounds=5000)',
    "mkpasswd.needs_rehash(None)",
    "mkpasswd.Policy(budget=1.3e9)",
    "mkpasswd.Policy(rounds=5e3)",
    "mkpasswd.Policy(656000)",
    "policy.rounds = 5000",
    'mkpasswd.verify_and_update("x", stored)',
    'mkpasswd.crypt("x", stored)',
    "mkpasswd.mksalt()",
    'if found.state == "current": pass',
    "if mkpasswd.login: pass",
    "FixedTime(5, 2, 10, 100)",
]
USER = "user.py"


def run_mypy(folder: Path, *words: str | Path) -> Result:
    """Runs mypy without python3-typeshed's hints for passlib, which contradict themselves."""
    mypy = ("/usr/bin/mypy", "--strict", "--no-site-packages", "--cache-dir", folder / "cache")
    return run(*mypy, *words, cwd=folder, env={"MYPYPATH": str(PACKAGE)})


@pytest.mark.needs("mypy")
def test_the_package_has_right_types(tmp_path: Path) -> None:
    words = ("--ignore-missing-imports", "--allow-subclassing-any", "--follow-imports=silent")
    run_mypy(tmp_path, *words, PACKAGE / "mkpasswd").required()


@pytest.mark.needs("mypy")
def test_mypy_finds_each_careless_line_and_no_other(tmp_path: Path) -> None:
    (tmp_path / USER).write_text(RIGHT + "\n".join(WRONG) + "\n", encoding="ascii")
    result = run_mypy(tmp_path, USER)
    first = RIGHT.count("\n") + 1
    found = {int(number) for number in re.findall(rb"user.py:(\d+): error", result.stdout)}
    assert result.status == 1, result
    assert sorted(found) == list(range(first, first + len(WRONG))), result


# ---- The cost of an import

SLOW = ("asyncio", "concurrent.futures", "dataclasses", "inspect", "logging", "secrets")


def test_importing_the_package_imports_no_slow_module() -> None:
    """Each of these takes as long to import as everything that the package needs."""
    script = f"import sys, mkpasswd\nprint([name for name in {SLOW!r} if name in sys.modules])"
    assert_result(run_python(script), stdout=b"[]\n")
