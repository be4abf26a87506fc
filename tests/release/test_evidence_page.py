"""docs/EVIDENCE.md as tools/evidence writes it from the results of a tiny repository."""
from __future__ import annotations

import json
import os
import re
import subprocess
from pathlib import Path

import pytest
from support.measured_tree import PLANT, MeasuredTree, measured_tree
from support.process import run

pytestmark = pytest.mark.needs("git")

SOAK = ("--only", "soak-hash-01")
MIRROR = ("--mirror", "http://mirror.invalid")
FAMILIES = {
    *("gate", "check-12", "check-13", "artifacts", "soak-hostile", "soak-hash", "fuzz-hash"),
    *("plant-low", "bench"),
}


@pytest.fixture(name="tree")
def fixture_tree(tmp_path: Path) -> MeasuredTree:
    return measured_tree(tmp_path)


def stamp_of(tree: MeasuredTree, part: str) -> str:
    """Returns the date, the commit and the machine of a part, if there is one machine."""
    result = tree.result(part)
    return f"{result['ended'][:10]}, {result['commit'][:8]}, A"


def measured_on(tree: MeasuredTree, part: str, processor: str) -> None:
    """Changes a result so that it is of another machine."""
    result = tree.result(part)
    result["machine"]["processor"] = processor
    tree.write(f"docs/evidence/{part}.json", json.dumps(result))


# ---- All parts


def test_the_page_says_what_is_not_measured(tree: MeasuredTree) -> None:
    tree.evidence("--page").required()
    rows = re.findall(r"^\| ([\w-]+) \| .* \| not measured \|$", tree.page(), re.MULTILINE)
    assert set(rows) == FAMILIES


def test_the_page_says_when_and_where_each_block_was_measured(tree: MeasuredTree) -> None:
    tree.evidence("--only", "fuzz-hash-01", "--only", "fuzz-hash-02").required()
    measured_on(tree, "fuzz-hash-02", "Another")
    tree.evidence("--page").required()
    date_and_commit = stamp_of(tree, "fuzz-hash-01").removesuffix(", A")
    row = f"1: {date_and_commit}, A; 2: {date_and_commit}, B; 3: not measured |\n"
    assert row in tree.page()
    assert f"- B: {len(os.sched_getaffinity(0))} cores of Another, " in tree.page()


def test_the_page_is_the_same_after_its_own_commit(tree: MeasuredTree) -> None:
    tree.evidence(*SOAK, "--only", "gate", "--only", "bench").required()
    page = tree.page()
    tree.commit()
    tree.write("docs/EVIDENCE.md", "")
    tree.evidence("--page").required()
    assert tree.page() == page


def without_times(page: str) -> str:
    """Returns a page without the parts' times and dates."""
    return re.sub(r"\d+ s \(\d+ s of processors\)|\d{4}-\d\d-\d\d", "", page)


def test_another_measurement_of_the_commit_differs_only_in_times(tree: MeasuredTree) -> None:
    words = (*SOAK, "--only", "gate", "--only", "plant", "--only", "bench")
    tree.evidence(*words).required()
    page = tree.page()
    for result in tree.folder.glob("docs/evidence/*.json"):
        result.unlink()
    tree.evidence(*words).required()
    assert without_times(tree.page()) == without_times(page)


COMMITS = """
cd "$fakes/../tree" && git add --all
git -c user.name=a -c user.email=a@a.invalid commit --quiet --allow-empty --message=a
cd "$OLDPWD"
"""


def test_the_page_is_written_though_results_were_committed_meanwhile(tree: MeasuredTree) -> None:
    tree.prepare("fuzz.script", COMMITS)
    tree.evidence(*SOAK, "--only", "fuzz-hash-01").required()
    assert "the program answered 500,000 lines" in tree.page()
    assert "345 calls in 1,200 s" in tree.page()
    assert tree.git("status", "--porcelain").split() == [
        *("M", "docs/EVIDENCE.md", "??", "docs/evidence/fuzz-hash-01.json")
    ]


def test_the_page_is_not_written_for_another_commit(tree: MeasuredTree) -> None:
    tree.prepare("soak.script", f'echo changed > "$fakes/../tree/README.md"; {COMMITS}')
    result = tree.evidence(*SOAK).required()
    assert b"another commit is checked out" in result.stdout, result
    assert tree.page() == ""
    tree.evidence("--page").required()
    assert "the program answered 500,000 lines" in tree.page()


# ---- Proofs, random inputs, wrong bodies and speed


def test_the_page_says_what_the_gate_proved(tree: MeasuredTree) -> None:
    tree.evidence("--only", "gate").required()
    proved = "proved 5 functions and those of the crates' tests, and refused 7 mutants"
    counts = f"9 passed, 0 failed ({stamp_of(tree, 'gate')})"
    assert f"{proved}: {counts}.\n" in tree.page()


def test_the_blocks_of_a_soak_add_up(tree: MeasuredTree) -> None:
    tree.evidence("--only", "soak-hostile", "--lines", 1000).required()
    first = tree.result("soak-hostile-01")["found"]["seed"]
    seeds = f"250 lines with each of the seeds {first} to {first + 3}"
    assert (
        "- soak-hostile: the program answered 1,000 lines as [FORMATS](FORMATS.md) says, with 0 "
        f"differences: {seeds} ({stamp_of(tree, 'soak-hostile-01')})\n"
    ) in tree.page()
    assert "| `make soak KIND=hostile LINES=250 SEED=N` in a clone, 4 times |" in tree.page()


def test_the_blocks_of_a_fuzzer_add_up(tree: MeasuredTree) -> None:
    tree.evidence("--only", "fuzz", "--fuzz-seconds", 30).required()
    assert (
        "- fuzz-hash: 1,035 calls in 30 s, without a fault: 10 s with each of the seeds 12, 12, "
        f"12 ({stamp_of(tree, 'fuzz-hash-01')})\n"
    ) in tree.page()


def test_the_page_has_instructions_and_ratios(tree: MeasuredTree) -> None:
    tree.evidence("--only", "bench").required()
    assert f"These are of {stamp_of(tree, 'bench')}.\n" in tree.page()
    assert "| md5crypt | libxcrypt 1.20 (1.09 to 1.31) |\n" in tree.page()


def test_the_page_lists_wrong_bodies_by_function_with_the_reason(tree: MeasuredTree) -> None:
    rows = (
        "not-judged  src/lib.rt:9 Hash::new: { Err(..) }  (the tactics met a limit)\n"
        "not-judged  src/lib.rt:9 Hash::new: { Ok(a | b) }  (the tactics met a limit)\n"
        "proves      src/lib.rt:7 give: { if a { b } else { c } }\n"
        "untested    src/lib.rt:8 take()\n"
    )
    last = PLANT.replace("not-judged=0", "not-judged=2").replace("proves=0", "proves=1")
    tree.prepare("plant", rows + last.replace("untested=0", "untested=1"))
    tree.evidence("--only", "plant").required()
    page = tree.page()
    reason = (
        "low, `src/lib.rt:9 Hash::new`: the tactics met a limit: `{ Err(..) }`, `{ Ok(a | b) }`"
    )
    assert f"Not judged:\n\n- {reason}\n" in page
    assert "- low, `src/lib.rt:7 give`: `{ if a { b } else { c } }`\n" in page
    assert "- low, `src/lib.rt:8 take`\n" in page
    assert f"| low | 1 | 1 | 0 | 1 | 0 | 2 | 0 | {stamp_of(tree, 'plant-low')} |\n" in page


# ---- Roots and artifacts


@pytest.mark.needs("root")
def test_the_page_explains_skipped_tests_by_reason(tree: MeasuredTree) -> None:
    tree.evidence("--only", "check", *MIRROR).required()
    page = tree.page()
    counts = "9 passed, 0 failed | 600 passed, 0 failed | 3"
    assert f"| Debian 13 | {counts} | {stamp_of(tree, 'check-13')} |\n" in page
    others = "[python/test_others.py](../tests/python/test_others.py): The tests of somebody else."
    out = "[pwhash/test_out.py](../tests/pwhash/test_out.py): Files that pwhash writes."
    assert f"| {others} | no samples present | 2 | 2 |\n" in page
    assert "On Debian 13, `make lint` leaves out what finds other things there: black.\n" in page
    assert f"| {out} | not applicable: no loop device can be made | 1 | 1 |\n" in page


@pytest.mark.needs("root")
def test_the_command_on_the_page_prints_the_hash_of_all_files(tree: MeasuredTree) -> None:
    tree.evidence("--only", "check-13", *MIRROR).required()
    tree.commit()
    page = tree.page()
    found = re.search(r"```sh\n(.*)\n```", page)
    assert found, page
    printed = run("sh", "-c", found[1], cwd=tree.folder).required().stdout.decode().strip()
    name = "all files but docs/EVIDENCE.md and docs/evidence"
    assert f"| {name} | `{printed}` | check-13 |\n" in page


@pytest.mark.needs("root")
def test_a_skipped_test_without_a_reason_fails_the_check(tree: MeasuredTree) -> None:
    tree.prepare("check", "9 passed, 0 failed\n600 passed, 0 failed, 3 skipped\n")
    assert tree.evidence("--only", "check-13", *MIRROR).status == 1
    assert tree.states()["check-13"].endswith(": 3 tests were skipped, and 0 with a reason")


@pytest.mark.needs("root")
def test_artifacts_that_two_clones_build_identically_are_kept(tree: MeasuredTree) -> None:
    tree.evidence("--only", "artifacts").required()
    (folder,) = tree.folder.glob("build/evidence/*/artifacts")
    checked = subprocess.run(["sha256sum", "--quiet", "-c", "SHA256SUMS"], cwd=folder, check=False)
    assert checked.returncode == 0
    sum_of_file = (folder / "SHA256SUMS").read_text(encoding="ascii").split()[0]
    size = len("an archive\n")
    assert f"| mkpasswd-1.tar.gz | {size} | `{sum_of_file}` |\n" in tree.page()


@pytest.mark.needs("root")
def test_artifacts_that_differ_are_named(tree: MeasuredTree) -> None:
    script = "pwd > mkpasswd-1.tar.gz; sha256sum mkpasswd-1.tar.gz > SHA256SUMS; exit\n"
    tree.prepare("dist.script", script)
    assert tree.evidence("--only", "artifacts").status == 1
    reason = ": the two clones built a different mkpasswd-1.tar.gz"
    assert tree.states()["artifacts"].endswith(reason)
    assert tree.saved("artifacts") == []
