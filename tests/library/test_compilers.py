"""A caller, built by each compiler, for each standard and way of linking, makes all calls.

The caller is tests/c/calls.c. The sanitizers of clang and gcc watch it and the library's memory.
"""
from __future__ import annotations

from dataclasses import dataclass
from pathlib import Path

import pytest
from support.careless_logins import calls_of_each_kind
from support.driver import COUNTS_SHARED, COUNTS_STATIC, SOURCE, Driver
from support.library import SOURCES, WARNINGS, Installed
from support.model.calls import System
from support.needs import built
from support.process import Word, assert_result, run

RANDOM_BYTES = b"".join(number.to_bytes(8, "little") for number in (1, 2, 3))
# Systems with enough memory, with each allocation refused in turn, and without random numbers.
SYSTEMS = (*(System(number, RANDOM_BYTES) for number in range(5)), System())
ARM = "aarch64-linux-gnu-gcc"


@dataclass(frozen=True)
class Compiler:
    """A compiler, its language, and the language's standards."""

    name: str
    language: str
    standards: tuple[str, ...]  # the oldest first

    @property
    def words(self) -> list[Word]:
        """The compiler's arguments. Old C++ has no long long, which uint64_t may be."""
        return [self.name, *WARNINGS, "-Wno-long-long", "-x", self.language]


C = ("c99", "c11", "c17", "c2x")
CPP = ("c++98", "c++11", "c++17", "c++20", "c++2b")
COMPILERS = (
    Compiler("gcc", "c", C),
    Compiler("clang", "c", C),
    Compiler("g++", "c++", CPP),
    Compiler("clang++", "c++", CPP),
)
# Warnings that a caller may enable for its own sources, which include the header.
STRICTER = ("-Wconversion", "-Wsign-conversion", "-Wcast-qual", "-Wundef")
# g++ would warn that mkpasswd_password() hides the constructor of the struct of that name.
OF_LANGUAGES = {"c": ("-Wshadow", "-Wstrict-prototypes"), "c++": ("-Wold-style-cast",)}
SANITIZERS = ("-fsanitize=address,undefined", "-fno-sanitize-recover=all")
# glibc's macros for declarations, which musl doesn't have.
WITHOUT_GLIBC = ("-static", "-D__THROW=", "-D__NTH(call)=call")


@dataclass(frozen=True)
class Linking:
    """How the caller is linked and optimized."""

    title: str
    is_shared: bool
    words: tuple[str, ...]

    def __str__(self) -> str:
        return self.title


LINKINGS = (
    Linking("with the static library", is_shared=False, words=("-O2", *COUNTS_STATIC)),
    Linking("with the shared library", is_shared=True, words=("-O0", *COUNTS_SHARED)),
    Linking(
        "with sanitizers",
        is_shared=False,
        words=("-g", "-O1", "-DSANITIZED", *SANITIZERS, *COUNTS_STATIC),
    ),
)


def assert_makes_all_calls(driver: Driver) -> None:
    """Fails the test unless the driver's answers in eight threads are those of the model."""
    calls = calls_of_each_kind()
    for system in SYSTEMS:
        driver.assert_matches_model(calls, system, threads=8)


EACH_STANDARD = pytest.mark.parametrize(
    ("compiler", "standard"),
    [
        pytest.param(
            compiler,
            standard,
            id=f"{compiler.name} as {standard}",
            marks=pytest.mark.needs(compiler.name),
        )
        for compiler in COMPILERS
        for standard in compiler.standards
    ],
)


@EACH_STANDARD
def test_a_compiler_has_no_strict_warning_about_the_header(
    installed: Installed, compiler: Compiler, standard: str
) -> None:
    words = [f"-std={standard}", f"-I{installed.include}", "-O2", "-c", "-o", "/dev/null"]
    stricter = (*STRICTER, *OF_LANGUAGES[compiler.language])
    assert_result(run(*compiler.words, *stricter, *words, SOURCES / "declarations.c"))


@pytest.mark.parametrize("name", ["calls.c", "declarations.c"])
@EACH_STANDARD
def test_a_compiler_accepts_the_header_without_a_warning(
    installed: Installed, compiler: Compiler, standard: str, name: str
) -> None:
    words = [f"-std={standard}", f"-I{installed.include}", "-fsyntax-only"]
    assert_result(run(*compiler.words, *words, SOURCES / name))


@pytest.mark.parametrize("linking", LINKINGS, ids=str)
@pytest.mark.parametrize(
    "compiler",
    [
        pytest.param(compiler, id=compiler.name, marks=pytest.mark.needs(compiler.name))
        for compiler in COMPILERS
    ],
)
def test_a_caller_in_the_oldest_standard_makes_all_calls(
    installed: Installed, tmp_path: Path, compiler: Compiler, linking: Linking
) -> None:
    program = tmp_path / "caller"
    # "-x none" ends the language of the sources, which the static library doesn't have.
    library = installed.shared if linking.is_shared else ["-x", "none", *installed.static]
    words: list[Word] = [*compiler.words, SOURCE, f"-std={compiler.standards[0]}"]
    assert_result(run(*words, *linking.words, *library, "-o", program))
    assert_makes_all_calls(Driver((program,)))


@pytest.mark.needs("musl-gcc")
def test_a_static_caller_with_musl_makes_all_calls(installed: Installed, tmp_path: Path) -> None:
    program = tmp_path / "caller"
    words: list[Word] = ["-std=c99", *WARNINGS, *WITHOUT_GLIBC, *COUNTS_STATIC, SOURCE]
    assert_result(run("musl-gcc", *words, *installed.static, "-o", program))
    assert_makes_all_calls(Driver((program,)))


@pytest.mark.needs(ARM, "qemu-aarch64-static")
def test_a_static_caller_for_arm_makes_all_calls(installed: Installed, tmp_path: Path) -> None:
    library = built("build/aarch64/libmkpasswd.a", "TARGET=aarch64")
    program = tmp_path / "caller"
    words = ["-std=c99", *WARNINGS, *WITHOUT_GLIBC, *COUNTS_STATIC, f"-I{installed.include}"]
    assert_result(run(ARM, *words, SOURCE, library, "-o", program))
    assert_makes_all_calls(Driver(("qemu-aarch64-static", program)))
