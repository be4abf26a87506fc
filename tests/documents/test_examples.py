"""The examples in documents and manuals are right: commands, their output, and costs.

The commands of a document's `console` blocks run in one folder, in order. A failure names the
document and the line. test_marked_blocks.py tests blocks under `<!-- tested: NAME -->`.
"""
from __future__ import annotations

import re
from collections.abc import Callable, Iterator
from dataclasses import dataclass
from pathlib import Path

import pytest
from support import ROOT
from support.documents import (
    Block,
    Place,
    all_blocks,
    blocks_of,
    documents,
    examples_of,
    is_manual,
    lines_of,
    manuals,
    name_of,
    prompts_of,
    typed_at,
)
from support.examples import HASH, Played, Player, assert_shown
from support.libxcrypt import crypt
from support.model.methods import BY_NAME
from support.model.settings import setting_of_options
from support.needs import need, package_of
from support.process import Changes, Result, assert_result, run, printable

Play = Callable[[Place], Played]

HISTORY = "CHANGELOG.md"  # it may name former targets of make


# ---- Console blocks


def sentence_of(place: Place) -> str:
    """Describes the command at a place: its document, its block or else its line, and its text."""
    name, number = name_of(place.path), place.line
    where = f"line {number}"
    if not is_manual(place.path):
        for block in blocks_of(place.path):
            if block.place.line <= number < block.place.line + block.code.count("\n"):
                where = f"block {block.number}"
    return f"{name}, {where}: {typed_at(place)}"


def examples() -> Iterator[object]:
    """Yields a parameter for each command that a document or a manual shows."""
    for path in documents() + manuals():
        marks = [pytest.mark.xdist_group(f"examples of {name_of(path)}")]
        if is_manual(path):
            marks.append(pytest.mark.needs("mandoc"))
        for place in prompts_of(path):
            yield pytest.param(place, id=sentence_of(place), marks=marks)


@pytest.fixture(scope="session", name="play")
def fixture_play(environment: Changes, tmp_path_factory: pytest.TempPathFactory) -> Play:
    """A function that runs the example at a place, after those above it in the document."""
    players: dict[Path, Player] = {}

    def play(place: Place) -> Played:
        of_document = examples_of(place.path)
        places = [example.place for example in of_document]
        problem = f"{place}: this command isn't in a `console` block, so nothing runs it"
        assert place in places, problem
        if place.path not in players:
            folder = tmp_path_factory.mktemp("examples")
            players[place.path] = Player(of_document, folder, environment)
        return players[place.path].play(places.index(place))

    return play


@pytest.mark.parametrize("place", examples())
def test_a_command_prints_what_is_shown(play: Play, place: Place) -> None:
    played = play(place)
    if played.missing_command in package_of():
        need(played.missing_command)
    assert_shown(played)


@pytest.mark.parametrize("block", all_blocks("console"), ids=str)
def test_a_console_block_begins_with_a_command(block: Block) -> None:
    assert block.code.startswith("$ "), f"{block.place}: expected: a command after `$ `"


# ---- Commands that don't run here


@pytest.mark.parametrize("block", all_blocks("sh", "bash"), ids=str)
def test_a_shell_parses_a_block(block: Block) -> None:
    result = run(block.language, "-n", stdin=block.code.encode())
    is_parsed = result.status == 0 and result.stdout + result.stderr == b""
    expected = f"{block.place}: a shell must parse this without a message"
    assert is_parsed, f"{expected}\n{block.code}{result}"


def targets_named(path: Path) -> dict[str, Place]:
    """Returns the targets of make that a document names, with the line of the first mention."""
    # A command in backquotes or at the start of a line. Variables may precede the target.
    mention = re.compile(r"(?:`|^)make (?:\w+=[^\s`]+ )*([a-z]\w*)")
    places: dict[str, Place] = {}
    for number, line in enumerate(lines_of(path), start=1):
        for target in mention.findall(line):
            places.setdefault(target, Place(path, number))
    return places


def mentions() -> Iterator[object]:
    """Yields a parameter for each target of make that each document names."""
    for path in documents():
        if name_of(path) != HISTORY:
            for target, place in targets_named(path).items():
                yield pytest.param(target, place, id=f"{name_of(path)}: make {target}")


def targets_in_makefile() -> set[str]:
    """Returns the targets of the Makefile's rules."""
    text = "\n".join(lines_of(ROOT / "Makefile"))
    # A rule begins with its targets and a colon. `:=` would set a variable.
    rules = re.findall(r"^([^\s:=#][^:=#\n]*):(?!=)", text, re.MULTILINE)
    return {target for rule in rules for target in rule.split()}


@pytest.mark.parametrize(("target", "place"), mentions())
def test_the_makefile_has_a_target_that_a_document_names(target: str, place: Place) -> None:
    assert target in targets_in_makefile(), f"{place}: the Makefile has no target {target}"


# ---- Tables of costs: the cost of a hash is the least budget that admits it


@dataclass(frozen=True)
class CostRow:
    """A row of a table: options, and the cost of hashing a password of eight bytes with them."""

    place: Place
    options: str
    cost: int

    def __str__(self) -> str:
        return f"{name_of(self.place.path)}: {self.options}"

    @property
    def libxcrypt_hash(self) -> bytes:
        """libxcrypt's hash of the password, with a salt as long as a drawn one."""
        words = self.options.split()
        values = dict(zip(words[::2], words[1::2]))  # every second word is an option
        rounds = int(values["-R"]) if "-R" in values else None
        setting = setting_of_options(BY_NAME[values["-m"]], rounds, salt=None)
        return crypt(PASSWORD, setting.text)


PASSWORD = b"password"


def cost_rows() -> list[CostRow]:
    """Returns those rows of tables in all documents that have options with -m and a cost."""
    # Options in backquotes, and the cost alone in the next column.
    row = re.compile(r"\|.*?`(?P<options>-m [^`]*)`[^|]*\| (?P<cost>\d+) \|.*")
    rows = []
    for path in documents():
        for number, line in enumerate(lines_of(path), start=1):
            match = row.fullmatch(line)
            if match is not None:
                rows.append(CostRow(Place(path, number), match["options"], int(match["cost"])))
    return rows


def expected_at(row: CostRow, expected: str, result: Result) -> str:
    """Returns the message of an assertion about a row."""
    return f"{row.place} says that a hash costs {row.cost}\nexpected: {expected}\n{result}"


def test_a_document_says_what_hashes_cost() -> None:
    assert cost_rows() != [], "no document has a table with options and costs"


@pytest.mark.parametrize("row", cost_rows(), ids=str)
def test_a_budget_below_the_cost_is_too_low(program: Path, row: CostRow) -> None:
    words = ["--batch", *row.options.split()]
    result = run(program, *words, "--budget", row.cost - 1, stdin=b"x:%b\n" % PASSWORD)
    assert_result(result, status=1, stderr=b"mkpasswd: line 1: over budget\n")


@pytest.mark.parametrize("row", cost_rows(), ids=str)
def test_a_budget_of_the_cost_admits_a_new_hash(program: Path, row: CostRow) -> None:
    words = ["--batch", *row.options.split()]
    result = run(program, *words, "--budget", row.cost, stdin=b"x:%b\n" % PASSWORD)
    is_hashed = re.fullmatch(rf"x:{HASH.pattern}\n", result.stdout.decode())
    assert is_hashed, expected_at(row, "x:HASH", result)


@pytest.mark.parametrize("row", cost_rows(), ids=str)
def test_a_budget_of_the_cost_admits_a_check(program: Path, row: CostRow) -> None:
    line = b"x:%b:%b\n" % (row.libxcrypt_hash, PASSWORD)
    budget = f"--budget=+00{row.cost}"  # a number may have a plus sign, and zeros in front
    result = run(program, "--check", budget, stdin=line)
    is_right = (result.status, result.stdout, result.stderr) == (0, b"x:ok\n", b"")
    assert is_right, expected_at(row, f"x:ok for the line {printable(line)}", result)
