"""The library's machine code: properties that no clause can state.

Each function that hashes must call only the proved function of its name, and the time of a
comparison of hashes must not depend on where they differ.
"""
from __future__ import annotations

import re
from pathlib import Path

import pytest
from support import ROOT
from support.needs import not_applicable
from support.process import run

USUAL_LEVEL = "x86-64-v2"
LEVELS = ("x86-64", USUAL_LEVEL, "x86-64-v3")
# The calls of each function that isn't proved, sorted.
CALLED = {
    "hash_anew": ["getentropy", "mkpasswd_proved_new_from", "mkpasswd_proved_new_from"],
    "mkpasswd_new_bytes": ["hash_anew", "wipe_stack"],
    "mkpasswd_verify_bytes": ["mkpasswd_proved_verify", "wipe_stack"],
    "mkpasswd_login_bytes": ["mkpasswd_proved_login", "wipe_stack"],
    "mkpasswd_hash_bytes": ["mkpasswd_proved_hash", "wipe_stack"],
}
# Matches a call of another object's function, or of a static function of this object.
CALL = re.compile(r"PLT32\s+(\w+)|\t(?:call|jmp) .*<(wipe_stack|hash_anew)>$", re.MULTILINE)
# Matches a function: its name, and its instructions up to an empty line.
FUNCTION = re.compile(r"^\w+ <(\S+)>:\n(.*?)\n(?=\n|\Z)", re.MULTILINE | re.DOTALL)
# Matches the call that hashes.
HASHED = re.compile(r"^.*\bcrypt_core::hash::hash_by\b.*\n", re.MULTILINE)
# Matches the comparison of a byte with one of the stored hash, by an exclusive or.
BYTE_COMPARED = re.compile(r"\txor +[^\n]*\([^\n]*,1\),%\w+\n")
# Matches a test or a comparison on whose result the next instruction jumps.
JUMP_ON_A_TEST = re.compile(r"\t((?:test|cmp)\w* [^\n]*)\n[^\n]*\tj")
# An instruction that tests a 64-bit register, or compares with a number above 0, tests a length.
OF_A_LENGTH = re.compile(r"[ ,]%r(?:[a-d]x|[sd]i|[sb]p|\d+)\b| \$0x[1-9a-f]\w*,")
# Matches functions and instructions that compare several bytes at once.
COMPARES_WORDS = re.compile(r"memcmp|bcmp|repz|pmovmsk|ptest")

pytestmark = pytest.mark.needs("objdump")


@pytest.fixture(scope="module", params=LEVELS, name="folder")
def fixture_folder(request: pytest.FixtureRequest) -> Path:
    """The folder of the build for a level of x86-64."""
    folder = ROOT / "build" / str(request.param)
    if not (folder / "mkpasswd.o").exists():
        not_applicable(f"build/{request.param} has no library")
    return folder


@pytest.fixture(scope="module", name="functions")
def fixture_functions(folder: Path) -> dict[str, str]:
    """The instructions of each function, by name."""
    result = run("objdump", "-dr", "--no-show-raw-insn", folder / "mkpasswd.o").required()
    return dict(FUNCTION.findall(result.stdout.decode()))


@pytest.fixture(scope="module", name="comparisons")
def fixture_comparisons(functions: dict[str, str]) -> dict[str, str]:
    """The instructions of each function that compares hashes, after the call that hashes."""
    found = {}
    for name, body in functions.items():
        _, *after_calls = HASHED.split(body)
        if after_calls and BYTE_COMPARED.search(after_calls[-1]):
            found[name] = after_calls[-1]
    assert found, "no function compares hashes"
    return found


def sections_of(file: Path) -> str:
    """Returns a dump of an object's sections, without the name of the file."""
    text = run("objdump", "-s", file).required().stdout.decode()
    return re.sub(r"^.*file format.*\n", "", text, flags=re.MULTILINE)


def test_the_default_library_is_built() -> None:
    level = (ROOT / "build/cpu").read_text(encoding="ascii").strip() or USUAL_LEVEL
    assert (ROOT / "build" / level / "mkpasswd.o").exists()


def test_only_names_differ_from_the_proved_object(folder: Path, tmp_path: Path) -> None:
    run("ar", "x", folder / "libcrypt_c.a", "crypt_c.o", cwd=tmp_path).required()
    proved = sections_of(tmp_path / "crypt_c.o")
    assert proved != ""
    assert sections_of(folder / "crypt_c.o") == proved


@pytest.mark.parametrize("name", CALLED)
def test_a_function_calls_its_proved_one_and_wipes_the_stack(
    functions: dict[str, str], name: str
) -> None:
    calls = [of_another or own for of_another, own in CALL.findall(functions[name])]
    # The stack protector calls __stack_chk_fail only to end the process.
    calls = [called for called in calls if called != "__stack_chk_fail"]
    assert sorted(calls) == CALLED[name], f"the instructions of {name}:\n{functions[name]}"


def test_a_comparison_branches_only_on_lengths_and_on_its_result(
    comparisons: dict[str, str]
) -> None:
    """A comparison tests whether there is a hash, and at the end whether any byte differs."""
    for name, body in comparisons.items():
        tests = [test for test in JUMP_ON_A_TEST.findall(body) if not OF_A_LENGTH.search(test)]
        assert len(tests) == 2, "\n".join([name, *tests, body])


def test_a_comparison_compares_single_bytes(comparisons: dict[str, str]) -> None:
    for name, body in comparisons.items():
        assert COMPARES_WORDS.findall(body) == [], name
