"""Manuals: their form, and that they agree with the commands' help and with the model."""
from __future__ import annotations

import re
from pathlib import Path

import pytest
from support import ROOT
from support.documents import lines_of, manuals, name_of, rendered_manual
from support.libxcrypt import crypt
from support.model.answers import LINE_REFUSALS
from support.model.methods import BY_NAME, METHODS, Method
from support.process import assert_result, run

MKPASSWD = ROOT / "man/mkpasswd.1"
PWHASH = ROOT / "man/pwhash.1"

# Matches an option in a help, or in a rendered manual: its long name, and its description up to the
# next option or an empty line.
OPTION = re.compile(
    r"""^\ *(?:-\w,\ )? (?P<name>--[a-z][\w-]*)
    (?:\ <?[A-Z]+>?)? (?:\ {2,}|\n)
    (?P<purpose>.*?) (?=^\ *(?:-\w,\ )?--[a-z]|^\n|\Z)""",
    re.MULTILINE | re.DOTALL | re.VERBOSE,
)

# What ends a run, in the manual's order.
ENDINGS = [
    "2 unknown method",
    "2 two salts",
    "2 two modes",
    "2 salt length",
    "2 salt character",
    "2 cost",
    "2 password too long",
    "2 password has a zero byte",
    "3 read fault",
    "3 write fault",
    "3 out of memory",
    "3 too many turns",
    "3 start fault",
]


@pytest.mark.parametrize("path", manuals(), ids=name_of)
@pytest.mark.parametrize(
    "command",
    [
        pytest.param(
            ["mandoc", "-T", "lint", "-W", "warning"],
            id="mandoc",
            marks=pytest.mark.needs("mandoc"),
        ),
        pytest.param(
            ["groff", "-mandoc", "-ww", "-z"], id="groff", marks=pytest.mark.needs("groff")
        ),
    ],
)
def test_a_formatter_accepts_a_manual_without_a_message(command: list[str], path: Path) -> None:
    assert_result(run(*command, path))


# ---- Options


def purposes_in(text: str) -> dict[str, str]:
    """Returns a text's description of each option, in one line and without quotes."""
    purposes = {}
    for option in OPTION.finditer(text):
        bare = re.sub(r"[‘’']", "", option["purpose"])
        purposes[option["name"]] = " ".join(bare.split())
    return purposes


def options_in_source(path: Path) -> list[str]:
    """Returns the long names of the options in a manual's source."""
    source = "\n".join(lines_of(path))
    # mdoc's macro for an item, perhaps with the option's short name first.
    items = re.findall(r"^\.It Fl (?:\w , Fl )?-([a-z][\w-]*)", source, re.MULTILINE)
    return [f"--{name}" for name in items]


def help_of(*command: str | Path) -> str:
    """Returns a command's help."""
    return run(*command, "--help").required().stdout.decode()


@pytest.mark.needs("mandoc")
def test_the_manual_of_mkpasswd_has_the_options_of_its_help(program: Path) -> None:
    expected = set(purposes_in(help_of(program)))
    found = set(purposes_in(rendered_manual(MKPASSWD)))
    assert (expected - found, found - expected) == (set(), set()), (
        f"{name_of(MKPASSWD)}: expected: the options of mkpasswd --help\n"
        f"missing: {sorted(expected - found)}\nunexpected: {sorted(found - expected)}"
    )


@pytest.mark.needs("mandoc")
@pytest.mark.parametrize("option", options_in_source(MKPASSWD))
def test_the_manual_of_mkpasswd_describes_an_option_in_the_words_of_its_help(
    program: Path, option: str
) -> None:
    expected = purposes_in(help_of(program)).get(option, f"{option} in mkpasswd --help")
    found = purposes_in(rendered_manual(MKPASSWD)).get(option, "")
    message = f"{name_of(MKPASSWD)}: {option}\nexpected: {expected} ..\nfound: {found}"
    assert found.startswith(expected), message


@pytest.mark.needs("mandoc")
@pytest.mark.parametrize(
    "words",
    [
        pytest.param([], id="pwhash"),
        pytest.param(["file"], id="pwhash file"),
        pytest.param(["check"], id="pwhash check"),
        pytest.param(["audit"], id="pwhash audit"),
        pytest.param(["set"], id="pwhash set"),
        pytest.param(["install"], id="pwhash install"),
        pytest.param(["verify"], id="pwhash verify"),
        pytest.param(["calibrate"], id="pwhash calibrate"),
    ],
)
def test_the_manual_of_pwhash_has_the_options_of_each_help(words: list[str]) -> None:
    in_help = set(re.findall(r"(?<!\S)--[a-z][\w-]*", help_of(ROOT / "bin/pwhash", *words)))
    text = rendered_manual(PWHASH)
    # An item of the manual may begin with the option's short name.
    in_manual = set(re.findall(r"^ *(?:-\w, )?(--[a-z][\w-]*)", text, re.MULTILINE))
    absent = sorted(in_help - in_manual)
    assert in_help and not absent, f"{name_of(PWHASH)}: expected: {absent or 'options in the help'}"


# ---- Methods


def title_of(method: Method) -> str:
    """Returns the name of a method, for the names of tests."""
    return method.name


def row_of(method: Method) -> re.Match[str] | None:
    """Returns a method's row in the table of mkpasswd's manual. It may include a short name."""
    prefix = re.escape(method.prefix.decode())
    salts = rf"1 to {method.longest_salt} +{method.drawn_salt} characters"
    row = rf"^{method.name} +(?P<short>\S+ +)?{prefix} +{salts}$"
    return re.search(row, rendered_manual(MKPASSWD), re.MULTILINE)


@pytest.mark.needs("mandoc")
@pytest.mark.parametrize("method", METHODS, ids=title_of)
def test_the_manual_has_the_prefix_and_the_salts_of_a_method(method: Method) -> None:
    expected = f"{method.prefix.decode()}, 1 to {method.longest_salt}, {method.drawn_salt}"
    assert row_of(method), f"{name_of(MKPASSWD)}: expected: {method.name} with {expected}"


LONG_NAMES = [method.name for method in METHODS]


@pytest.mark.needs("mandoc")
@pytest.mark.parametrize("name", [name for name in BY_NAME if name not in LONG_NAMES])
def test_the_short_name_of_a_method_in_the_manual_works(program: Path, name: str) -> None:
    method = BY_NAME[name]
    row = row_of(method)
    found = (row["short"] or "").strip() if row else "no row"
    assert found == name, f"{name_of(MKPASSWD)}: {method.name}"
    expected = crypt(b"x", method.prefix + b"y")
    assert_result(run(program, "-m", found, "x", "y"), stdout=expected + b"\n")


# ---- Refusals and statuses


@pytest.mark.needs("mandoc")
@pytest.mark.parametrize(
    ("heading", "expected"),
    [
        pytest.param("Refused lines", list(LINE_REFUSALS), id="refusals of lines"),
        pytest.param("EXIT STATUS", ENDINGS, id="what ends a run"),
    ],
)
def test_the_manual_lists_in_order(heading: str, expected: list[str]) -> None:
    _, _, section = rendered_manual(MKPASSWD).partition(f"\n{heading}\n")
    wanted = {" ".join(text.split()) for text in expected}
    # The first column of a table, before two blanks or more.
    cells = re.findall(r"^(\S.*?) {2,}", section, re.MULTILINE)
    found = [cell for cell in (" ".join(cell.split()) for cell in cells) if cell in wanted]
    column = f"{name_of(MKPASSWD)}: the first column of {heading}"
    assert found == expected, f"{column}\nexpected: {expected}\nfound: {found}"
