"""Compilers warn about careless callers, and not about careful ones.

The careless callers are tests/c/warned_*.c, which mark each line that a compiler must warn about,
and statements in this file that no compiler may accept.
"""
from __future__ import annotations

import re
from dataclasses import dataclass
from pathlib import Path

import pytest
from support.library import SOURCES, Installed
from support.process import Result, Word, assert_result, run

MARK = "/* NOLINT: warns */"
COMPILERS = ("gcc", "clang", "g++", "clang++")
ALL_COMPILERS = pytest.mark.parametrize(
    "compiler", [pytest.param(name, marks=pytest.mark.needs(name)) for name in COMPILERS]
)


@dataclass(frozen=True)
class Caller:
    """A file of statements, and the warning that each marked one must get."""

    title: str
    name: str
    warning: str

    def __str__(self) -> str:
        return self.title

    @property
    def path(self) -> Path:
        """The path of the file."""
        return SOURCES / self.name

    @property
    def marked_lines(self) -> list[int]:
        """The numbers of the lines that a compiler must warn about."""
        lines = self.path.read_text(encoding="ascii").splitlines()
        return [number for number, line in enumerate(lines, 1) if line.endswith(MARK)]


IGNORED_RESULTS = Caller("an ignored result", "warned_results.c", "unused-result")
NULL_POINTERS = Caller("a null pointer", "warned_nulls.c", "nonnull")
COMPARISONS = Caller(
    "a comparison that never or always holds",
    "warned_comparisons.c",
    "comparison of constant",
)
SMALL_OUT = Caller(
    "an out that is too small",
    "warned_sizes.c",
    "writing 145 bytes into a region of size 64",
)


def compiled(
    compiler: str, source: Path, installed: Installed, program: Path, *words: Word
) -> Result:
    """Compiles a program with the static library, and returns the compiler's result."""
    language = "c++" if "+" in compiler else "c"
    library: list[Word] = ["-x", "none", *installed.static]
    return run(compiler, *words, "-x", language, source, *library, "-o", program)


def compiled_with_warnings(
    compiler: str, source: Path, installed: Installed, program: Path
) -> Result:
    """Compiles a program with the usual warnings, in C++ also those about old-style casts."""
    words = ["-Wall", "-Wextra", "-O1"]
    if "+" in compiler:
        words.append("-Wold-style-cast")
    return compiled(compiler, source, installed, program, *words)


def warnings_by_line(result: Result, source: Path) -> dict[int, str]:
    """Returns a compiler's warning for each line of a file."""
    found: dict[int, str] = {}
    # A compiler begins its message with the file, the line and the column.
    pattern = rf"^{re.escape(str(source))}:(\d+):\d+: (?:warning|error): (.*)$"
    for number, text in re.findall(pattern, result.stderr.decode(), re.MULTILINE):
        found[int(number)] = found.get(int(number), "") + text + "\n"
    return found


def assert_warned(caller: Caller, result: Result) -> None:
    """Fails the test unless exactly the marked lines got the warning."""
    assert caller.marked_lines
    lines = caller.path.read_text(encoding="ascii").splitlines()
    found = warnings_by_line(result, caller.path)
    wrong = []
    for number in sorted({*caller.marked_lines, *found}):
        warning = found.get(number, "")
        expected = caller.warning if number in caller.marked_lines else "no warning"
        if number not in caller.marked_lines or caller.warning not in warning:
            wrong.append(f"of {lines[number - 1].strip()}\nexpected: {expected}\nits: {warning}")
    assert not wrong, "\n".join([*wrong, str(result)])


@ALL_COMPILERS
@pytest.mark.parametrize("caller", [IGNORED_RESULTS, NULL_POINTERS, COMPARISONS], ids=str)
def test_a_compiler_warns_about(
    installed: Installed, tmp_path: Path, compiler: str, caller: Caller
) -> None:
    assert_warned(
        caller, compiled_with_warnings(compiler, caller.path, installed, tmp_path / "caller")
    )


@pytest.mark.parametrize(
    "compiler", [pytest.param(name, marks=pytest.mark.needs(name)) for name in ("gcc", "g++")]
)
def test_gcc_warns_about_an_out_that_is_too_small(
    installed: Installed, tmp_path: Path, compiler: str
) -> None:
    assert_warned(
        SMALL_OUT,
        compiled_with_warnings(compiler, SMALL_OUT.path, installed, tmp_path / "caller"),
    )


# Calls that only return a message, a name, a number or a struct.
MAY_BE_IGNORED = {
    "mkpasswd_message",
    "mkpasswd_message_bytes",
    "mkpasswd_scheme_name",
    "mkpasswd_scheme_name_bytes",
    "mkpasswd_version",
    "mkpasswd_password",
    "mkpasswd_password_bytes",
    "mkpasswd_field",
    "mkpasswd_field_bytes",
}


def test_the_file_of_ignored_results_has_each_call_that_can_fail(installed: Installed) -> None:
    text = IGNORED_RESULTS.path.read_text(encoding="ascii")
    ignored = re.findall(rf"(mkpasswd_\w+)\(.*{re.escape(MARK)}", text)
    calls = {*installed.exported(), *installed.inline()}
    assert sorted(ignored) == sorted(calls - MAY_BE_IGNORED)


@ALL_COMPILERS
def test_the_inline_calls_accept_null_pointers(
    installed: Installed, tmp_path: Path, compiler: str
) -> None:
    """No compiler warns, and the program returns 0 if each call does what the header says."""
    program = tmp_path / "caller"
    assert_result(compiled_with_warnings(compiler, SOURCES / "null_pointers.c", installed, program))
    assert_result(run(program))


@ALL_COMPILERS
def test_a_compiler_keeps_a_callers_own_test_for_null(
    installed: Installed, tmp_path: Path, compiler: str
) -> None:
    program = tmp_path / "caller"
    source = SOURCES / "null_test.c"
    assert_result(compiled(compiler, source, installed, program, "-O2"))
    assert_result(run(program))


# ---- Statements that no compiler accepts

FUNCTION = """\
#include <mkpasswd.h>

bool answer_of(struct mkpasswd_password password, struct mkpasswd_field field,
    const char *typed, const char *stored, struct mkpasswd_report *report);

bool answer_of(struct mkpasswd_password password, struct mkpasswd_field field,
    const char *typed, const char *stored, struct mkpasswd_report *report)
{
    char out[MKPASSWD_TEXT_SIZE];

    (void)password, (void)field, (void)typed, (void)stored, (void)out;
    return STATEMENT;
}
"""
RIGHT_ORDER = {
    "mkpasswd_login": "mkpasswd_login(password, field, NULL, report)",
    "mkpasswd_verify": "mkpasswd_verify(password, field, 1, report)",
    "mkpasswd_hash": "mkpasswd_hash(password, field, 1, out, sizeof out, report)",
    "mkpasswd_new": "mkpasswd_new(password, NULL, out, sizeof out, report)",
    "mkpasswd_audit": "mkpasswd_audit(field, NULL, report)",
}
REFUSED = {
    "exchanged password and field of a login": "mkpasswd_login(field, password, NULL, report)",
    "exchanged password and field of a check": "mkpasswd_verify(field, password, 1, report)",
    "exchanged arguments of a hash": "mkpasswd_hash(field, password, 1, out, sizeof out, report)",
    "two passwords": "mkpasswd_login(password, password, NULL, report)",
    "two fields": "mkpasswd_login(field, field, NULL, report)",
    "a field as a new password": "mkpasswd_new(field, NULL, out, sizeof out, report)",
    "a password as a stored hash": "mkpasswd_audit(password, NULL, report)",
    "strings": "mkpasswd_login(typed, stored, NULL, report)",
    "a string as the password": "mkpasswd_login(typed, field, NULL, report)",
    "a string as the field": "mkpasswd_login(password, stored, NULL, report)",
}


def compiled_statement(compiler: str, statement: str, installed: Installed, folder: Path) -> Result:
    """Compiles a function with this statement, and returns the compiler's result."""
    source = folder / "caller.c"
    source.write_text(FUNCTION.replace("STATEMENT", statement), encoding="ascii")
    words = ["-Wall", "-Wextra", "-fsyntax-only", f"-I{installed.include}"]
    return run(compiler, *words, "-x", "c++" if "+" in compiler else "c", source)


@ALL_COMPILERS
@pytest.mark.parametrize("statement", RIGHT_ORDER.values(), ids=list(RIGHT_ORDER))
def test_a_compiler_accepts_arguments_in_the_right_order(
    installed: Installed, tmp_path: Path, compiler: str, statement: str
) -> None:
    assert_result(compiled_statement(compiler, statement, installed, tmp_path))


@ALL_COMPILERS
@pytest.mark.parametrize("statement", REFUSED.values(), ids=list(REFUSED))
def test_no_compiler_accepts(
    installed: Installed, tmp_path: Path, compiler: str, statement: str
) -> None:
    result = compiled_statement(compiler, statement, installed, tmp_path)
    line = FUNCTION.splitlines().index("    return STATEMENT;") + 1
    errors = re.findall(
        rf"^\S+caller\.c:{line}:\d+: error: .*", result.stderr.decode(), re.MULTILINE
    )
    assert result.status != 0 and errors, f"expected an error in line {line}\n{result}"
