"""Completions in bash, zsh and fish, as a user who presses Tab sees them.

A shell offers the options that the help lists and the names of methods. It offers no other values,
and files only after a redirection or where pwhash reads or writes one.
"""
from __future__ import annotations

import os
import re
from collections.abc import Iterator
from contextlib import AbstractContextManager
from dataclasses import dataclass
from pathlib import Path
from typing import Callable

import pytest
from support import ROOT
from support.model.methods import METHODS
from support.process import Result, assert_result, run
from support.shells import BASH_COMPLETION, Surroundings, Shell, bash, bash_with_package, fish, zsh

pytestmark = pytest.mark.xdist_group("completions")  # so that each shell starts once

Start = Callable[[Surroundings], AbstractContextManager[Shell]]

FILES = ["logins", "sha256sums"]  # in the shells' current folder
METHOD_NAMES = [method.name for method in METHODS]


# ---- The completions, and the shells that read them


@dataclass(frozen=True)
class Written:
    """A folder with the completions, and the result of the command that wrote them."""

    folder: Path
    result: Result


@pytest.fixture(scope="module", name="written")
def fixture_written(program: Path, tmp_path_factory: pytest.TempPathFactory) -> Written:
    folder = tmp_path_factory.mktemp("completions")
    result = run(ROOT / "tools/completions", program, ROOT / "bin/pwhash", folder)
    return Written(folder, result)


@pytest.fixture(scope="module", name="surroundings")
def fixture_surroundings(
    written: Written, commands: Path, tmp_path_factory: pytest.TempPathFactory
) -> Surroundings:
    """The folder and environment of the shells."""
    written.result.required()
    scratch = tmp_path_factory.mktemp("shells")
    folder = scratch / "folder"
    folder.mkdir()
    for name in FILES:
        (folder / name).touch()
    installed = scratch / "share/bash-completion/completions"
    installed.mkdir(parents=True)
    for path in written.folder.glob("*.bash"):
        (installed / path.name).symlink_to(path)
    environment = {
        "HOME": str(scratch),
        "PATH": f"{commands}:{os.environ['PATH']}",
        # Since bash-completion 2.12 only this folder precedes the system's, in which whois has
        # completions for its own mkpasswd.
        "BASH_COMPLETION_USER_DIR": f"{scratch}/share/bash-completion",
        "INPUTRC": None,
        "XDG_DATA_HOME": None,
    }
    return Surroundings(written.folder, folder, scratch, environment)


def in_shell(start: Start, name: str, *needed: str) -> object:
    """Returns a shell as a parameter, whose tests are skipped without the packages it needs."""
    return pytest.param(start, id=name, marks=pytest.mark.needs("python3-pexpect", *needed))


@pytest.fixture(
    scope="module",
    name="shell",
    params=[
        in_shell(bash, "bash"),
        in_shell(bash_with_package, "bash-completion", BASH_COMPLETION),
        in_shell(zsh, "zsh", "zsh"),
        in_shell(fish, "fish", "fish"),
    ],
)
def fixture_shell(request: pytest.FixtureRequest, surroundings: Surroundings) -> Iterator[Shell]:
    """A shell that runs until its tests are done."""
    with request.param(surroundings) as shell:
        yield shell


def offered(shell: Shell, line: str) -> list[str]:
    """Returns the words that a shell offers at the end of a line, sorted.

    Zsh puts "=" after an option that takes a value, and all but bash repeat "--method=".
    """
    words = [re.sub(r"\A--method=(?=.)|=\Z", "", word) for word in shell.offered(line)]
    return sorted(words)


def assert_offered(shell: Shell, line: str, expected: list[str]) -> None:
    """Fails the test unless a shell offers exactly these words."""
    found = offered(shell, line)
    message = f"typed before Tab: '{line}'\nexpected: {sorted(expected)}\noffered: {found}"
    assert found == sorted(expected), message


def test_completions_are_written_and_nothing_is_printed(written: Written) -> None:
    assert_result(written.result)


# ---- Options


def option_rows(program: Path) -> list[str]:
    """Returns the rows of mkpasswd's help, each with all names of an option."""
    text = run(program, "--help").required().stdout.decode()
    # Two blanks, or the end of the line, follow the names.
    return re.findall(r"^ +(-.*?)(?:  |$)", text, re.MULTILINE)


def names_in(rows: list[str]) -> list[str]:
    """Returns the names of options."""
    return [name for row in rows for name in re.findall(r"(?<!\S)--?[A-Za-z][\w-]*", row)]


def names_with_value(rows: list[str]) -> list[str]:
    """Returns the names of options whose value can be anything."""
    rows_with_value = [row for row in rows if row.endswith(">") and "--method" not in row]
    return names_in(rows_with_value)


def test_a_hyphen_offers_all_options_of_the_help(shell: Shell, program: Path) -> None:
    assert_offered(shell, "mkpasswd -", names_in(option_rows(program)))


def test_two_hyphens_offer_the_long_options_of_the_help(shell: Shell, program: Path) -> None:
    names = names_in(option_rows(program))
    assert_offered(shell, "mkpasswd --", [name for name in names if name.startswith("--")])


@pytest.mark.parametrize("form", ["OPTION ", "OPTION lo", "OPTION=lo"])
def test_no_file_is_a_value_of_an_option(shell: Shell, program: Path, form: str) -> None:
    options = names_with_value(option_rows(program))
    assert options != [], "mkpasswd's help has no option with a value"
    lines = [f"mkpasswd {form.replace('OPTION', option)}" for option in options]
    words = {line: offered(shell, line) for line in lines}
    problems = [f"'{line}' offers {found}" for line, found in words.items() if found]
    assert not problems, "expected no words\n" + "\n".join(problems)


# For what is typed before Tab, the words that a shell offers.
RESTS_OF_OPTIONS = {
    "mkpasswd --check --meth": ["--method"],
    "mkpasswd.proved --check --reh": ["--rehash"],
    "pwhash --gen": ["--generate"],
    "pwhash file --skip-r": ["--skip-refused"],
    "pwhash file --gen": ["--generate"],
    "pwhash audit --o": ["--only-problems"],
    "pwhash set --del": ["--delete"],
    "pwhash file --list": ["--list-columns"],
    "pwhash install --acc": ["--accept-other-schemes", "--accept-removals"],
}


@pytest.mark.parametrize("line", RESTS_OF_OPTIONS)
def test_an_option_is_completed(shell: Shell, line: str) -> None:
    assert_offered(shell, line, RESTS_OF_OPTIONS[line])


@pytest.mark.parametrize("line", ["pwhash check --gen", "pwhash audit --reh"])
def test_an_option_of_another_command_of_pwhash_is_not_offered(shell: Shell, line: str) -> None:
    assert_offered(shell, line, [])


# ---- Values and commands

METHODS_OFFERED = {
    "mkpasswd -m ": [*METHOD_NAMES, "help"],
    "mkpasswd --batch --method sha": ["sha256crypt", "sha512crypt"],
    "mkpasswd --method=sc": ["scrypt"],
    "pwhash -m ": METHOD_NAMES,
    "pwhash -m sc": ["scrypt"],
}


@pytest.mark.parametrize("line", METHODS_OFFERED)
def test_methods_are_offered(shell: Shell, line: str) -> None:
    assert_offered(shell, line, METHODS_OFFERED[line])


WORDS_OF_PWHASH = {
    "pwhash au": ["audit"],
    "pwhash ca": ["calibrate"],
    "pwhash se": ["set"],
    "pwhash install --for ": ["apache", "dovecot", "ldap", "nginx"],
    "pwhash set --for ": ["apache", "dovecot", "ldap", "nginx"],
    "pwhash ve": ["verify"],
    "pwhash file --for ": ["apache", "dovecot", "ldap", "nginx"],
    "pwhash --for pre": ["preseed-root", "preseed-user"],
}


@pytest.mark.parametrize("line", WORDS_OF_PWHASH)
def test_commands_and_values_of_pwhash_are_offered(shell: Shell, line: str) -> None:
    assert_offered(shell, line, WORDS_OF_PWHASH[line])


# ---- Files

FILES_OFFERED = {
    "mkpasswd --check < lo": ["logins"],
    "mkpasswd -m md5crypt < ": FILES,
    "mkpasswd --batch < logins > sha": ["sha256sums"],
    "pwhash audit lo": ["logins"],
    "pwhash set lo": ["logins"],
    "pwhash install lo": ["logins"],
    "pwhash check --shadow sha": ["sha256sums"],
    "pwhash verify lo": ["logins"],
    "pwhash file --skip-locked sha": ["sha256sums"],
    "pwhash file --skip-unknown sha": ["sha256sums"],
    "pwhash file --passwords lo": ["logins"],
}


@pytest.mark.parametrize("line", FILES_OFFERED)
def test_files_are_offered_if_one_is_read_or_written(shell: Shell, line: str) -> None:
    assert_offered(shell, line, FILES_OFFERED[line])


@pytest.mark.parametrize(
    "line",
    [
        "mkpasswd ",
        "mkpasswd lo",
        "mkpasswd --check lo",
        "pwhash check -R ",
        "pwhash calibrate ",
        "pwhash calibrate lo",
    ],
)
def test_no_file_is_offered_if_none_is_read(shell: Shell, line: str) -> None:
    assert_offered(shell, line, [])
