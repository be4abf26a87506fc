"""The archive's libraries: Python and C programs find them where they are unpacked."""
from __future__ import annotations

import re
from pathlib import Path

import pytest
from support import ROOT, libxcrypt
from support.library import COMPILER, SOURCES
from support.needs import not_applicable
from support.process import Changes, Word, assert_result, run
from support.release import Archive, processor_of_build

pytestmark = pytest.mark.xdist_group("archive")  # so that it is packed once

FIELD = "$1$xxxxxxxx$UYCIxa628.9qXjpQCjM4a."  # libxcrypt's hash of "password"
SOURCE = SOURCES / "log_in.c"
IN_PYTHON = "import sys, mkpasswd; sys.exit(not mkpasswd.login(sys.argv[1], field=sys.argv[2]))"
STRICT = ("-Wall", "-Wextra", "-Werror")
SHARED = "libmkpasswd.so.3"
NEWER = "glibc-hwcaps/x86-64-v3"  # where glibc looks first on such a processor
WITHOUT_AVX2 = "glibc.cpu.hwcaps=-AVX2"
PASSWORDS = [
    pytest.param("password", 0, id="the right password"),
    pytest.param("passwort", 1, id="a wrong password"),
]
SETTINGS = [
    pytest.param(b"$1$xxxxxxxx", id="md5crypt"),
    pytest.param(b"$5$rounds=1000$xxxxxxxx", id="sha256crypt"),
    pytest.param(b"$6$rounds=1000$xxxxxxxx", id="sha512crypt"),
    pytest.param(b"$7$6U..../....xxxxxxxx", id="scrypt"),
]


def environment(archive: Archive) -> dict[str, str]:
    """Returns the README's environment, by which programs find the libraries."""
    return {
        "PKG_CONFIG_PATH": str(archive.tree / "lib/pkgconfig"),
        "LD_LIBRARY_PATH": str(archive.tree / "lib"),
    }


# ---- Python


@pytest.mark.parametrize(("password", "status"), PASSWORDS)
def test_python_logs_in_with_the_library(archive: Archive, password: str, status: int) -> None:
    changes = {**environment(archive), "PYTHONPATH": str(ROOT / "python/src")}
    command = ("/usr/bin/python3", "-B", "-c", IN_PYTHON, password, FIELD)
    assert_result(run(*command, env=changes), status=status)


# ---- pkg-config


def pkg_config(archive: Archive, *words: str) -> list[str]:
    """Returns what pkg-config prints about the library."""
    result = run("pkg-config", *words, "mkpasswd", env=environment(archive)).required()
    return result.stdout.decode().split()


@pytest.mark.needs("pkg-config")
def test_pkg_config_has_the_version(archive: Archive, version: str) -> None:
    assert pkg_config(archive, "--modversion") == [version]


@pytest.mark.needs("pkg-config")
def test_pkg_config_finds_the_unpacked_tree(archive: Archive) -> None:
    (prefix,) = pkg_config(archive, "--variable=prefix")
    assert Path(prefix).resolve() == archive.tree.resolve()


@pytest.mark.needs("cc", "pkg-config")
@pytest.mark.parametrize("library", ["libmkpasswd.so", "libmkpasswd.a"])
def test_a_program_builds_over_a_library_and_logs_in(
    archive: Archive, library: str, tmp_path: Path
) -> None:
    words: list[Word] = [archive.tree / "lib/libmkpasswd.a"]
    if library == "libmkpasswd.so":
        words = [*pkg_config(archive, "--libs")]
    program = tmp_path / "login"
    flags = pkg_config(archive, "--cflags")
    assert_result(run(COMPILER, *STRICT, "-o", program, SOURCE, *flags, *words))
    assert_result(run(program, "password", FIELD, env=environment(archive)))
    assert_result(run(program, "passwort", FIELD, env=environment(archive)), status=1)


# ---- The library for x86-64-v3, which glibc chooses by itself, unless AVX2 is hidden


@pytest.fixture(scope="module", name="program")
def fixture_program(archive: Archive, tmp_path_factory: pytest.TempPathFactory) -> Path:
    """A program that uses the shared library."""
    program = tmp_path_factory.mktemp("login") / "login"
    include = f"-I{archive.tree}/include"
    run(COMPILER, include, "-o", program, SOURCE, archive.tree / "lib" / SHARED).required()
    return program


def assert_loads(
    archive: Archive, program: Path, library: Path, setting: bytes, tunables: str | None
) -> None:
    """Fails the test unless glibc loads this library, which then verifies a hash."""
    changes: Changes = {
        **environment(archive),
        "LD_DEBUG": "libs",
        "GLIBC_TUNABLES": tunables,
    }
    result = run(program, "password", libxcrypt.crypt(b"password", setting), env=changes)
    # `calling init: /usr/local/lib/libmkpasswd.so.3`
    loaded = re.findall(r"calling init: (\S*/libmkpasswd\S*)", result.stderr.decode())
    assert (result.status, loaded) == (0, [str(library)])


@pytest.mark.skipif(processor_of_build() == "x86-64-v3", reason="both are for x86-64-v3")
def test_the_library_for_newer_processors_has_other_code(archive: Archive) -> None:
    folder = archive.tree / "lib"
    assert (folder / SHARED).read_bytes() != (folder / NEWER / SHARED).read_bytes()


@pytest.mark.needs("cc")
@pytest.mark.parametrize("setting", SETTINGS)
def test_the_default_library_is_loaded_without_avx2(
    archive: Archive, program: Path, setting: bytes
) -> None:
    library = archive.tree / "lib" / SHARED
    assert_loads(archive, program, library, setting, tunables=WITHOUT_AVX2)


@pytest.mark.needs("cc")
@pytest.mark.parametrize("setting", SETTINGS)
def test_the_library_for_newer_processors_is_loaded_with_avx2(
    archive: Archive, program: Path, setting: bytes
) -> None:
    processor = Path("/proc/cpuinfo").read_text(encoding="utf-8")
    if not re.search(r"^flags\s*:.*\bavx2\b", processor, re.MULTILINE):
        not_applicable("this processor has no AVX2")
    library = archive.tree / "lib" / NEWER / SHARED
    assert_loads(archive, program, library, setting, tunables=None)
