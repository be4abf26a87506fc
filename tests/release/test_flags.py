"""make compiles and links the C code with a packager's flags, and hardens it by default.

The tests compile the C code in a copy of the tree, with this tree's objects of the proved code.
"""
from __future__ import annotations

import functools
import os
import shutil
from dataclasses import dataclass
from pathlib import Path

import pytest
from support import ROOT
from support.careless_logins import calls_of_each_kind
from support.driver import COUNTS_STATIC, SOURCE, Driver
from support.library import WARNINGS
from support.model.calls import System
from support.needs import built
from support.process import Result, Word, assert_result, run

PROCESSOR = "x86-64-v2"
PROVED = ("program.o", "libcrypt_c.a")
# make's options by which it never builds the proved objects.
UP_TO_DATE = [word for name in PROVED for word in ("-o", f"build/{PROCESSOR}/{name}")]
FILES = ("mkpasswd", "libmkpasswd.a", "libmkpasswd.so.3", "pam_mkpasswd.so")
STATIC = f"build/{PROCESSOR}/mkpasswd"
# Variables by which a make that runs the tests would influence the make that they run.
NOTHING_OF_MAKE: dict[str, str | None] = {
    name: None
    for name in ("CC", "CFLAGS", "CPPFLAGS", "LDFLAGS", "CPU", "MAKEFLAGS", "MAKELEVEL", "TARGET")
}
SANITIZERS = "-fsanitize=address,undefined"
# blhc reads the commands after this line.
BEGIN_OF_A_LOG = b"dpkg-buildpackage: info: source package mkpasswd\n"

pytestmark = pytest.mark.needs("cc", "make", "/usr/include/security/pam_modules.h")


@dataclass(frozen=True)
class Tree:
    """A copy of the files that make needs to compile the C code."""

    folder: Path

    def make(self, *words: Word) -> Result:
        """Runs make in a way that takes the proved objects as up to date."""
        return run("make", *UP_TO_DATE, *words, cwd=self.folder, env=NOTHING_OF_MAKE)

    def commands(self, *words: Word) -> list[str]:
        """Returns make's commands that compile and link, each in one line."""
        lines = self.make("--always-make", "--dry-run", *words, *FILES).required().stdout.decode()
        return lines.replace("\\\n", " ").splitlines()


def copied(folder: Path) -> Tree:
    """Copies the files that make needs."""
    for name in ("c", "tools"):
        shutil.copytree(ROOT / name, folder / name)
    shutil.copy(ROOT / "Makefile", folder)
    version = Path("crates/crypt_core/src/version.rt")  # tools/version reads it
    for path in (version, Path("crates.txt"), Path("build/cpu")):
        (folder / path).parent.mkdir(parents=True, exist_ok=True)
        shutil.copy(ROOT / path, folder / path)
    (folder / "build/cpu").write_text("\n", encoding="ascii")
    objects = folder / "build" / PROCESSOR
    objects.mkdir()
    for name in PROVED:
        shutil.copy(built(f"build/{PROCESSOR}/{name}", "gate lib"), objects)
    return Tree(folder)


@pytest.fixture(scope="module", name="tree")
def fixture_tree(tmp_path_factory: pytest.TempPathFactory) -> Tree:
    """A copy in which make only prints its commands."""
    return copied(tmp_path_factory.mktemp("tree"))


# ---- A packager's flags


def test_each_command_has_the_compiler_and_the_flags_of_a_packager(tree: Tree) -> None:
    commands = tree.commands(
        "CC=gcc -pipe", "CPPFLAGS=-DOURS", "CFLAGS=-O3 -Wundef", "LDFLAGS=-Wl,-O2"
    )
    compiled = [command for command in commands if ".c" in command and "gcc" in command]
    linked = [command for command in commands if " -o " in command and "-Wl," in command]
    assert len(compiled) >= len(COMPILED) and len(linked) == len(LINKED), commands
    for command in {*compiled, *linked}:
        assert command.startswith("gcc -pipe ") and "-O3 -Wundef" in command
        assert "-fstack-protector" not in command and "-z,relro" not in command
    assert all("-DOURS" in command for command in compiled)
    assert all("-Wl,-O2" in command for command in linked)


def test_flags_in_the_environment_are_used(tree: Tree) -> None:
    changes = NOTHING_OF_MAKE | {"CFLAGS": "-O1 -DFROM_ENVIRONMENT"}
    words = ("make", *UP_TO_DATE, "--always-make", "--dry-run", "libmkpasswd.a")
    commands = run(*words, cwd=tree.folder, env=changes).required().stdout
    sources = 2  # calls.c and heap.c
    assert commands.count(b"-DFROM_ENVIRONMENT") == sources, commands


@pytest.mark.needs("objdump")
def test_the_library_is_machine_code_with_flags_for_link_time_optimization(tmp_path: Path) -> None:
    """Several distributions build their packages with -flto."""
    tree = copied(tmp_path / "tree")
    tree.make("CFLAGS=-O2 -flto=auto", "LDFLAGS=-flto=auto", *FILES).required()
    sections = run("objdump", "--section-headers", tree.folder / "libmkpasswd.a").required().stdout
    assert b".text" in sections and b".gnu.lto" not in sections
    printed = b"$1$xxxxxxxx$UYCIxa628.9qXjpQCjM4a.\n"  # libxcrypt's hash
    words = ("-m", "md5crypt", "-S", "xxxxxxxx", "password")
    assert_result(run(tree.folder / "mkpasswd", *words), stdout=printed)


# ---- Changed flags

FIRST_FLAGS = "CFLAGS=-g -O1"
# The files that make compiles from C code, and what each belongs to.
COMPILED = (
    "heap-of-program.o",  # the program
    "calls.o",  # the libraries and the PAM module
    "heap-of-library.o",  # the libraries and the PAM module
    "pam_mkpasswd.so",  # the PAM module itself: one command compiles and links it
)
LINKED = ("mkpasswd", "libmkpasswd.so.3", "pam_mkpasswd.so")


@pytest.fixture(scope="module", name="compiled_tree")
def fixture_compiled_tree(tmp_path_factory: pytest.TempPathFactory) -> Tree:
    """A copy whose C code is compiled with the first flags."""
    tree = copied(tmp_path_factory.mktemp("compiled"))
    tree.make(FIRST_FLAGS, *FILES).required()
    return tree


def commands_left(tree: Tree, *words: Word) -> list[str]:
    """Returns the commands that make would run, also those by which rt proves something."""
    result = run("make", "--dry-run", *words, *FILES, cwd=tree.folder, env=NOTHING_OF_MAKE)
    return result.required().stdout.decode().replace("\\\n", " ").splitlines()


def outputs_of(commands: list[str]) -> set[str]:
    """Returns the names of the files that these commands compile or link."""
    words = [command.split() for command in commands if " -o " in command]
    return {Path(of_command[of_command.index("-o") + 1]).name for of_command in words}


def test_make_does_nothing_again_with_the_same_flags(compiled_tree: Tree) -> None:
    lines = commands_left(compiled_tree, FIRST_FLAGS)
    assert lines == [f"make: '{name}' is up to date." for name in FILES]


@pytest.mark.parametrize(
    "changed",
    [
        pytest.param((FIRST_FLAGS, "CC=gcc -pipe"), id="another compiler"),
        pytest.param((FIRST_FLAGS, "CPPFLAGS=-DOURS"), id="flags of the preprocessor"),
        pytest.param(("CFLAGS=-O2 '-DQUOTED=a b'",), id="flags of the compiler"),
        pytest.param((FIRST_FLAGS, "LDFLAGS=-Wl,-rpath,$$ORIGIN"), id="flags of the linker"),
        pytest.param((), id="the usual flags"),
    ],
)
def test_make_compiles_and_links_all_c_code_again_with_other_flags(
    compiled_tree: Tree, changed: tuple[str, ...]
) -> None:
    commands = commands_left(compiled_tree, *changed)
    assert {*COMPILED, *LINKED} <= outputs_of(commands), commands
    assert "for-cpu" not in "\n".join(commands), "expected: nothing is proved again"


def test_make_compiles_once_after_a_change(compiled_tree: Tree, tmp_path: Path) -> None:
    tree = Tree(tmp_path / "changed")
    shutil.copytree(compiled_tree.folder, tree.folder, symlinks=True)
    changed = ("CFLAGS=-g -O2 '-DQUOTED=a b'", "LDFLAGS=-Wl,-rpath,$$ORIGIN")
    before = (tree.folder / "mkpasswd").read_bytes()
    tree.make(*changed, *FILES).required()
    assert (tree.folder / "mkpasswd").read_bytes() != before
    assert commands_left(tree, *changed) == [f"make: '{name}' is up to date." for name in FILES]


# ---- Hardening


@pytest.mark.needs("blhc")
def test_blhc_finds_no_flag_missing(tree: Tree, tmp_path: Path) -> None:
    """With --debian, since Debian's gcc makes position-independent programs by default."""
    log = tmp_path / "log"
    lines = "\n".join(tree.commands(STATIC)).encode() + b"\n"
    log.write_bytes(BEGIN_OF_A_LOG + lines)
    assert_result(run("blhc", "--debian", "--bindnow", "--arch", "amd64", log))


# Protections that hardening-check misses and that aren't needed: the proved code writes within
# bounds, and the toolchain's compiler doesn't mark the targets of jumps. A program's few C
# functions have no array on the stack, and copy only objects whose size the compiler doesn't know.
PROVED_CODE = ("--nocfprotection",)
NO_ARRAYS = ("--nostackprotector", "--nofortify")


@pytest.mark.needs("hardening-check")
@pytest.mark.parametrize(
    ("name", "without"),
    [
        pytest.param("mkpasswd", (*PROVED_CODE, *NO_ARRAYS), id="the program"),
        pytest.param(STATIC, (*PROVED_CODE, *NO_ARRAYS), id="the static program"),
        pytest.param("libmkpasswd.so.3", (*PROVED_CODE, "--nofortify"), id="the library"),
        pytest.param("pam_mkpasswd.so", PROVED_CODE, id="the PAM module"),
    ],
)
def test_hardening_check_finds_nothing(tree: Tree, name: str, without: tuple[str, ...]) -> None:
    tree.make(name).required()
    result = run("hardening-check", *without, *without_protections_of_arm(), tree.folder / name)
    assert result.status == 0, result


@functools.cache
def without_protections_of_arm() -> tuple[str, ...]:
    """Returns the option that newer versions of hardening-check need for x86-64."""
    option = "--nobranchprotection"
    return (option,) if option in str(run("hardening-check", "--help")) else ()


# ---- Sanitizers


@pytest.fixture(scope="module", name="sanitized")
def fixture_sanitized(tmp_path_factory: pytest.TempPathFactory) -> Tree:
    """A copy whose C code is compiled with gcc's sanitizers, and stops at an error."""
    tree = copied(tmp_path_factory.mktemp("sanitized"))
    flags = f"CFLAGS=-g -O1 {SANITIZERS} -fno-sanitize-recover=all"
    result = tree.make(flags, "CPPFLAGS=", *FILES)
    assert b"warning" not in result.required().stderr, result
    return tree


def test_the_program_hashes_with_sanitizers(sanitized: Tree) -> None:
    words = ("-m", "md5crypt", "-S", "xxxxxxxx", "password")
    printed = b"$1$xxxxxxxx$UYCIxa628.9qXjpQCjM4a.\n"  # libxcrypt's hash
    assert_result(run(sanitized.folder / "mkpasswd", *words), stdout=printed)


# Scrypt allocates memory three times, and no other method does. So 0 and 4 refuse nothing.
REFUSED_ALLOCATIONS = range(5)


@pytest.mark.parametrize("refused", REFUSED_ALLOCATIONS)
def test_the_library_makes_all_calls_with_sanitizers(
    sanitized: Tree, tmp_path: Path, refused: int
) -> None:
    """Once with enough memory, and once with each allocation failing."""
    program = tmp_path / "caller"
    words: list[Word] = ["gcc", "-std=c99", *WARNINGS, "-g", "-DSANITIZED", SANITIZERS]
    library = sanitized.folder / "libmkpasswd.a"
    included = sanitized.folder / "c"
    assert_result(
        run(*words, *COUNTS_STATIC, f"-I{included}", SOURCE, library, "-o", program), status=0
    )
    random_bytes = b"".join(number.to_bytes(8, "little") for number in (1, 2, 3))
    driver = Driver((program,))
    driver.assert_matches_model(calls_of_each_kind(), System(refused, random_bytes), threads=8)


def test_the_module_loads_with_sanitizers(sanitized: Tree) -> None:
    """`make fuzz` tests the module's calls with clang's sanitizers."""
    script = "import ctypes, sys; ctypes.CDLL(sys.argv[1]).pam_sm_authenticate"
    runtime = run("gcc", "-print-file-name=libasan.so").required().stdout.decode().strip()
    changes = {"LD_PRELOAD": os.path.realpath(runtime), "ASAN_OPTIONS": "detect_leaks=0"}
    module = sanitized.folder / "pam_mkpasswd.so"
    assert_result(run("/usr/bin/python3", "-c", script, module, env=changes))
