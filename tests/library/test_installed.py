"""The installed library: names and versions of its symbols, processors, pkg-config, linking."""
from __future__ import annotations

import re
from pathlib import Path

import pytest
from support import ROOT
from support.driver import Driver
from support.library import COMPILER, Installed
from support.model.calls import Version
from support.process import Changes, assert_result, run

SYMBOL_VERSION = "MKPASSWD_3"
# Matches a line of `objdump -T`: an address, flags, section and size, the version, the name.
SYMBOL = re.compile(r"^[0-9a-f]{16} (.*) (MKPASSWD_[\d.]+) +(mkpasswd_\w+)$", re.MULTILINE)
# Matches a command in a manual's source that compiles and links.
LINKS = re.compile(r"^\.Dl ((?:musl-gcc|cc) .*)$", re.MULTILINE)
PRINTED_BY_LOGIN = b"$6$rounds=656000\n"
# Here $CC is the compiler, and cc may be missing.
LOGIN_BY_PKG_CONFIG = """\
cc() { command "$CC" "$@"; }
cc -o login examples/login.c $(pkg-config --cflags --libs mkpasswd); ./login"""


def version_of(installed: Installed) -> str:
    """Returns the version in mkpasswd.pc."""
    path = installed.libraries / "pkgconfig/mkpasswd.pc"
    found = re.search(r"^Version: (.*)$", path.read_text(encoding="ascii"), re.MULTILINE)
    assert found is not None, f"{path} has no version"
    return found[1]


def number_of(version: str) -> int:
    """Returns a version as the number that the header defines."""
    major, minor, patch = (int(part) for part in version.split("."))
    return 10_000 * major + 100 * minor + patch


def pkg_config_environment(installed: Installed) -> Changes:
    """Returns the environment in which pkg-config, and programs, find the installed library."""
    return {
        "PKG_CONFIG_SYSROOT_DIR": str(installed.root),
        "PKG_CONFIG_LIBDIR": str(installed.libraries / "pkgconfig"),
        "PKG_CONFIG_ALLOW_SYSTEM_CFLAGS": "1",
        "PKG_CONFIG_ALLOW_SYSTEM_LIBS": "1",
        "CC": COMPILER,
        "LD_LIBRARY_PATH": str(installed.libraries),
    }


# ---- Symbols


@pytest.mark.needs("objdump")
def test_the_shared_library_has_each_exported_call_in_one_version(installed: Installed) -> None:
    result = run("objdump", "-T", installed.libraries / "libmkpasswd.so").required()
    symbols = SYMBOL.findall(result.stdout.decode())
    found = {name: version for flags, version, name in symbols if "*UND*" not in flags}
    expected = dict.fromkeys(installed.exported(), SYMBOL_VERSION)
    assert found == expected, str(result)


@pytest.mark.needs("objdump")
def test_the_static_library_has_only_the_exported_calls(installed: Installed) -> None:
    result = run("nm", "-g", "--defined-only", installed.libraries / "libmkpasswd.a").required()
    # A line of nm: an address, the kind of the symbol, and its name.
    found = re.findall(r"^\S+ \w (\S+)$", result.stdout.decode(), re.MULTILINE)
    assert sorted(found) == installed.exported(), str(result)


@pytest.mark.needs("objdump")
def test_the_shared_library_has_its_name_and_needs_only_the_c_library(
    installed: Installed,
) -> None:
    result = run("objdump", "-p", installed.libraries / "libmkpasswd.so").required()
    found = re.findall(r"(SONAME|NEEDED) +(\S+)", result.stdout.decode())
    assert sorted(found) == [("NEEDED", "libc.so.6"), ("SONAME", "libmkpasswd.so.3")]


# ---- Processors


@pytest.mark.needs("readelf")
@pytest.mark.parametrize("name", ["libmkpasswd.so.3", "libmkpasswd.a"])
def test_a_library_states_which_processor_it_needs(installed: Installed, name: str) -> None:
    result = run("readelf", "-n", installed.libraries / name).required()
    assert re.search(r"x86 ISA needed: .*x86-64-v2", result.stdout.decode()), str(result)


@pytest.mark.needs("qemu-x86_64-static")
def test_a_processor_below_x86_64_v2_is_refused(installed: Installed) -> None:
    program = installed.root / "usr/bin/mkpasswd"
    result = run("qemu-x86_64-static", "-cpu", "core2duo", program, "-V")
    assert result.status == 127, str(result)
    assert result.stderr.endswith(b": CPU ISA level is lower than required\n"), str(result)


# ---- Versions


def test_the_header_has_the_version_of_pkg_config(installed: Installed) -> None:
    assert installed.defined("VERSION") == number_of(version_of(installed))


def test_the_library_has_the_version_of_pkg_config(installed: Installed, driver: Driver) -> None:
    assert driver.answers([Version()])[0].result == number_of(version_of(installed))


def test_the_program_has_the_version_of_pkg_config(installed: Installed) -> None:
    expected = f"mkpasswd {version_of(installed)}\n".encode()
    assert_result(run(installed.root / "usr/bin/mkpasswd", "-V"), stdout=expected)


# ---- pkg-config


@pytest.mark.needs("pkg-config")
def test_pkg_config_prints_the_compilers_arguments(installed: Installed) -> None:
    environment = pkg_config_environment(installed)
    result = run("pkg-config", "--cflags", "--libs", "mkpasswd", env=environment).required()
    expected = f"-I{installed.include} -L{installed.libraries} -lmkpasswd"
    assert result.stdout.decode().strip() == expected, str(result)


@pytest.mark.needs("pkg-config")
def test_the_installed_example_builds_with_pkg_config(installed: Installed, tmp_path: Path) -> None:
    (tmp_path / "examples").symlink_to(installed.root / "usr/share/doc/mkpasswd/examples")
    environment = pkg_config_environment(installed)
    result = run("bash", "-euc", LOGIN_BY_PKG_CONFIG, env=environment, cwd=tmp_path)
    assert_result(result, stdout=PRINTED_BY_LOGIN)


# ---- The commands of libmkpasswd(3)


def linking_commands() -> list[str]:
    """Returns the manual's commands that link login.c."""
    return LINKS.findall((ROOT / "man/libmkpasswd.3").read_text(encoding="utf-8"))


def test_the_manual_links_shared_and_static_programs_and_those_for_musl() -> None:
    commands = linking_commands()
    assert [command.split()[0] for command in commands] == ["cc", "cc", "cc", "musl-gcc"]
    assert ["-static" in command for command in commands] == [False, True, False, True]


@pytest.mark.needs("pkg-config", "musl-gcc")
@pytest.mark.parametrize("command", linking_commands())
def test_a_command_of_the_manual_links_a_login(
    installed: Installed, tmp_path: Path, command: str
) -> None:
    """The manual's prefix is replaced by the one of this installation."""
    example = installed.root / "usr/share/doc/mkpasswd/examples/login.c"
    (tmp_path / "login.c").symlink_to(example)
    here = command.replace("/usr/local/include", str(installed.include))
    here = here.replace("/usr/local/lib", str(installed.libraries))
    script = f'cc() {{ command "$CC" "$@"; }}\n{here}\n./a.out'
    environment = pkg_config_environment(installed)
    result = run("bash", "-euc", script, env=environment, cwd=tmp_path)
    assert_result(result, stdout=PRINTED_BY_LOGIN)
