"""Rules for the proved sources that no clause can state.

No work bypasses the meter, only listed files allocate memory, and nothing prints a password. Each
rule is a search of the text: it finds mistakes, but can be evaded. Comments and tests are exempt.
Tests are files tests.rt and test_*.rt, folders tests, and what follows `mod tests {` in a file.
"""
from __future__ import annotations

import re
from dataclasses import dataclass
from pathlib import Path
from typing import Iterator

import pytest
from support import ROOT

CRATES = ROOT / "crates"
LIST_OF_CRATES = re.sub(r"#.*", "", (ROOT / "crates.txt").read_text(encoding="utf-8"))
DIGESTS = r"(md5|sha1|sha2)"
IMPLEMENTATIONS_OF_COUNTED = "prims_core/src/counted/counted_"
EXPORTED_CALL = 'extern "C" fn '


@dataclass(frozen=True)
class Line:
    """A line of code, without its comment."""

    path: str  # below the folder of the crates
    number: int
    code: str

    def __str__(self) -> str:
        return f"{self.path}:{self.number}: {self.code.strip()}"


def without_comments(text: str) -> str:
    """Returns source text without its comments."""
    return re.sub(r"//.*", "", text)


def read(path: Path) -> str:
    """Returns the content of a source file."""
    return path.read_text(encoding="utf-8")


def source_files() -> list[Path]:
    """Returns all source files of the crates."""
    crates = re.findall(r"^\w+", LIST_OF_CRATES, re.MULTILINE)
    return sorted(path for crate in crates for path in (CRATES / crate / "src").rglob("*.rt"))


def name_of(path: Path) -> str:
    """Returns the path of a source file below the folder of the crates."""
    return str(path.relative_to(CRATES))


def lines_of_code() -> Iterator[Line]:
    """Yields the lines that aren't tests."""
    for path in source_files():
        if re.search(r"/tests/|/tests\.rt$|/test_", name_of(path)):
            continue
        for number, line in enumerate(read(path).split("\n"), 1):
            if "mod tests {" in line:
                break
            yield Line(name_of(path), number, without_comments(line))


@pytest.fixture(scope="module", name="code")
def fixture_code() -> list[Line]:
    return list(lines_of_code())


def files_with_exported_calls() -> list[str]:
    """Returns the files with the calls that are exported for C, the page and node."""
    names = {name_of(path): read(path) for path in source_files()}
    exporting = ("crypt_c/src/", "crypt_web/src/")
    return [
        name for name, text in names.items() if name.startswith(exporting) and EXPORTED_CALL in text
    ]


# ---- Names that only some files may use

ARGUMENTS = ["mkpasswd/src/command.rt", "mkpasswd/src/options.rt"]
SCRYPT = "kdf_core/src/scrypt.rt"
TABLES = ["prims_core/src/table.rt", "prims_core/src/scratch.rt"]
ON_THE_WAY_TO_SCRYPT = [
    "crypt_c/src/",
    "crypt_core/src/hash.rt",
    "crypt_core/src/memory.rt",
    "crypt_core/src/fits.rt",
    "run_core/src/one.rt",
    "run_core/src/lines.rt",
    "run_core/src/answer.rt",
]


@pytest.mark.parametrize(
    ("pattern", "places"),
    [
        pytest.param(
            rf"\b{DIGESTS}::|\buse {DIGESTS}\b|\b(Digest|Md5)\b",
            [IMPLEMENTATIONS_OF_COUNTED],
            id="only the implementations of Counted name a digest",
        ),
        pytest.param(
            r"\bsalsa\b",
            ["prims_core/src/lib.rt", "prims_core/src/salsa.rt", "prims_core/src/mix.rt"],
            id="only counting functions mix blocks",
        ),
        pytest.param(
            r"\bMeter::new\b",
            ["program/src/main.rt", *files_with_exported_calls()],
            id="only the program and the calls create a meter",
        ),
        # Code that gets no allocator can't allocate: for example, what reads, prices and refuses a
        # line.
        pytest.param(
            r"\bGlobal\b",
            [*TABLES, SCRYPT, *ON_THE_WAY_TO_SCRYPT, *ARGUMENTS],
            id="only what leads to scrypt or to arguments gets the allocator",
        ),
        pytest.param(
            r"\bin (\w+\.)?alloc\b|::\w+\(alloc\b|\.alloc\(\)",
            [*TABLES, SCRYPT, *ARGUMENTS, "program/src/main.rt"],
            id="memory is allocated only for scrypt and for arguments",
        ),
        # Types that hold a password can't be printed, and a meter can't be copied.
        pytest.param(
            r"\bimpl\b.*\b(Debug|Display) for (Password|PasswordFrom|Arguments|RoundStrings)\b",
            [],
            id="nothing that has a password implements Debug or Display",
        ),
        pytest.param(
            r"\bimpl\b.*\b(Clone|Copy|Default) for Meter\b",
            [],
            id="a meter doesn't implement Clone, Copy or Default",
        ),
    ],
)
def test_a_name_is_used_only_in_its_files(
    code: list[Line], pattern: str, places: list[str]
) -> None:
    found = [line for line in code if re.search(pattern, line.code)]
    elsewhere = [str(line) for line in found if not line.path.startswith(tuple(places))]
    assert elsewhere == [], f"{pattern} may occur only in {places}"


LINES_OF_ATTRIBUTES = 2  # the most in front of a type


@pytest.mark.parametrize(
    ("traits", "types"),
    [
        pytest.param(
            r"Debug|Display",
            r"Password|PasswordFrom|Arguments|RoundStrings",
            id="nothing that has a password derives Debug or Display",
        ),
        pytest.param(
            r"Clone|Copy|Default", r"Meter", id="a meter doesn't derive Clone, Copy or Default"
        ),
    ],
)
def test_traits_are_not_derived(traits: str, types: str) -> None:
    definition = re.compile(rf"(struct|enum) ({types})\b")
    derivation = re.compile(rf"derive.*\b({traits})\b")
    found = []
    for path in source_files():
        lines = read(path).split("\n")
        for number, line in enumerate(lines):
            if definition.search(line):
                with_attributes = lines[max(0, number - LINES_OF_ATTRIBUTES) : number + 1]
                derived = filter(derivation.search, with_attributes)
                found += [f"{name_of(path)}: {attribute}" for attribute in derived]
    assert found == []


def test_only_prims_core_depends_on_digests() -> None:
    dependents = re.findall(rf"^(\w+).*:.*\b{DIGESTS}\b", LIST_OF_CRATES, re.MULTILINE)
    assert {crate for crate, _ in dependents} <= {"prims_core"}


def test_implementations_of_counted_export_only_their_types() -> None:
    found = []
    for path in sorted(CRATES.glob(IMPLEMENTATIONS_OF_COUNTED + "*")):
        for line in without_comments(read(path)).split("\n"):
            if re.search(r"\bpub\b(?! struct Counted)", line):
                found.append(f"{path.name}: {line}")
    assert found == []


def test_2_to_the_40_reads_and_writes_are_allowed() -> None:
    assert "\nconst IO_CALL_LIMIT: u64 = 1 << 40;\n" in read(CRATES / "program/src/main.rt")


def test_runs_call_inspect_for_each_complete_line(code: list[Line]) -> None:
    """The clauses alone would also allow a second function with the same rules."""
    inspection = "if let Some(fault) = inspect(kind, bytes) {"
    found = [line.path for line in code if inspection in line.code]
    assert found == ["run_core/src/answer.rt"]


# ---- Mixings and meters

# Functions that do one step of a mixing. Their caller counts the mixing.
UNCOUNTED_STEPS = ("mix_blocks", "mixed_block")


@dataclass(frozen=True)
class Function:
    """A function in the sources. Names may repeat."""

    name: str
    body: str

    def __str__(self) -> str:
        return self.name


def functions_of_mix() -> list[Function]:
    """Returns the functions of mix.rt, without clauses and tests."""
    text = without_comments(read(CRATES / "prims_core/src/mix.rt"))
    # A clause, with the deeper lines on which it goes on.
    text = re.sub(r"^ *(requires|ensures) .*(\n {8,}.*)*", "", text, flags=re.MULTILINE)
    text = re.sub(r"^mod tests.*", "", text, flags=re.MULTILINE | re.DOTALL)
    # A function's name, and the text up to the next function.
    found = re.findall(r"\bfn (\w+)(.*?)(?=\bfn |\Z)", text, re.DOTALL)
    return [Function(name, body) for name, body in found]


@pytest.mark.parametrize("function", functions_of_mix(), ids=str)
def test_a_mixing_is_counted_once(function: Function) -> None:
    """Each function that counts a mixing does exactly one. The others do a step of one, or none.

    No clause notices a mixing whose result is dropped, or one that is done twice.
    """
    mixings = re.findall(r"\b(?:block_mix|mix_\w+|mixed_block|salsa8\w*)\(", function.body)
    counted = re.findall(r"\bcount_mix\(", function.body)
    takes_meter = re.search(r"\bMeter\b", function.body) is not None
    is_step = function.name in UNCOUNTED_STEPS
    assert len(mixings) == (1 if is_step or takes_meter else 0)
    assert len(counted) == (1 if takes_meter and not is_step else 0)


def exported_calls() -> Iterator[Function]:
    """Yields the calls exported for C, the page and node, and each file's code before the first."""
    for name in files_with_exported_calls():
        before, *calls = without_comments(read(CRATES / name)).split(EXPORTED_CALL)
        yield Function(f"the code before the calls of {name}", before)
        for call in calls:
            name_of_call, _, _ = call.partition("(")
            yield Function(name_of_call, call)


@pytest.mark.parametrize("call", [pytest.param(call, id=call.name) for call in exported_calls()])
def test_a_call_creates_at_most_one_meter(call: Function) -> None:
    assert len(re.findall(r"\bMeter::new\b", call.body)) <= 1
