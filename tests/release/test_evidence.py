"""tools/evidence: what it measures again, side by side, after interruptions and on other machines.

It measures a tiny repository, in which rt and make are scripts. test_evidence_page.py tests the
page.
"""
from __future__ import annotations

import os
import signal
from pathlib import Path

import pytest
from support import ROOT
from support.measured_tree import DIFFERENCES, GATE, PLANT, MeasuredTree, measured_tree, wait_for
from support.process import run, started
from support.pwhash_runs import state_of

pytestmark = pytest.mark.needs("git")

PROCESSORS = len(os.sched_getaffinity(0))
# The parts that only root can measure.
AS_ROOT = {"check-12", "check-13", "artifacts"}
OF_PROOFS = {"gate", "plant-low"}
OF_PROGRAMS = {"soak-hash-01", "fuzz-hash-01", "bench"}
BY_ANYBODY = [word for part in sorted(OF_PROOFS | OF_PROGRAMS) for word in ("--only", part)]
# The first block stands for all of a soak and of a fuzzer, to save time.
OTHER_BLOCKS = {
    *(f"soak-hostile-{block:02}" for block in range(1, 5)),
    *(f"soak-hash-{block:02}" for block in range(2, 21)),
    *(f"fuzz-hash-{block:02}" for block in range(2, 4)),
}
PARTS = AS_ROOT | OF_PROOFS | OF_PROGRAMS | OTHER_BLOCKS
SOAK = ("--only", "soak-hash-01")
FUZZ = ("--only", "fuzz-hash-01")
SOAKED = "make soak KIND=hash LINES=500000 SEED=N"
FUZZED = "make fuzz FUZZERS=build/fuzz/hash FUZZ_SECONDS=1200"


@pytest.fixture(name="tree")
def fixture_tree(tmp_path: Path) -> MeasuredTree:
    return measured_tree(tmp_path)


# ---- What is measured


def test_a_tree_without_results_has_all_parts_to_measure(tree: MeasuredTree) -> None:
    assert tree.not_measured() == PARTS


def test_a_measured_part_is_not_measured_again(tree: MeasuredTree) -> None:
    tree.evidence(*SOAK).required()
    tree.evidence(*SOAK).required()
    assert tree.measurements() == [SOAKED]


def test_the_next_run_measures_what_is_missing(tree: MeasuredTree) -> None:
    tree.evidence(*SOAK).required()
    tree.evidence(*BY_ANYBODY).required()
    assert tree.measurements() == [
        SOAKED,
        "make gate ANEW=1",
        FUZZED,
        "rt plant --max 100000 --minutes 600 --jobs N --all in low",
        "make bench",
    ]


def test_a_failed_part_is_measured_again_and_others_go_on(tree: MeasuredTree) -> None:
    tree.prepare("soak", "soak: 2 differences\n")
    tree.prepare("soak.script", 'echo "soak: 2 differences"; exit 1\n')
    result = tree.evidence(*SOAK, *FUZZ)
    assert result.status == 1, result
    states = tree.states()
    assert states["soak-hash-01"].startswith("failed on ")
    assert "LINES=500000 SEED=" in states["soak-hash-01"]
    assert states["soak-hash-01"].endswith("` ended with status 1")
    assert states["fuzz-hash-01"].startswith("measured on ")
    assert "failed on " in tree.page()
    (tree.fakes / "soak.script").unlink()
    tree.prepare("soak", DIFFERENCES)
    tree.evidence(*SOAK, *FUZZ).required()
    assert tree.states()["soak-hash-01"].startswith("measured on ")
    assert tree.measurements() == [SOAKED, FUZZED, SOAKED]


def test_a_part_whose_build_fails_is_measured_again(tree: MeasuredTree) -> None:
    tree.prepare("mkpasswd.script", "exit 1\n")
    assert tree.evidence(*SOAK).status == 1
    assert tree.states()["soak-hash-01"].endswith("`make mkpasswd` ended with status 1")
    (tree.fakes / "mkpasswd.script").unlink()
    tree.evidence(*SOAK).required()
    assert tree.calls()[:2] == ["make mkpasswd", "make mkpasswd"]


def test_the_input_that_stops_a_fuzzer_is_kept(tree: MeasuredTree) -> None:
    stops = "mkdir -p build/fuzz/hash.corpus && echo input > build/fuzz/hash.crash-1234; exit 1\n"
    tree.prepare("fuzz.script", stops)
    assert tree.evidence(*FUZZ).status == 1
    assert tree.saved("fuzz-hash.crash-*") == ["fuzz-hash.crash-1234"]


def test_a_part_is_measured_again_only_with_a_larger_size(tree: MeasuredTree) -> None:
    for lines in (2000, 1000, 4000):
        tree.evidence(*SOAK, "--lines", lines).required()
    soaked = [f"make soak KIND=hash LINES={lines} SEED=N" for lines in (100, 200)]
    assert tree.measurements() == soaked
    assert tree.states()["soak-hash-01"].startswith("measured too little on ")


def test_the_blocks_of_a_soak_have_different_seeds(tree: MeasuredTree) -> None:
    tree.evidence("--only", "soak-hostile", "--lines", 1000).required()
    seeds = {tree.result(part)["found"]["seed"] for part in tree.results("soak-hostile-*")}
    assert tree.measurements() == ["make soak KIND=hostile LINES=250 SEED=N"] * 4
    assert len(seeds) == 4


def test_a_gate_that_reused_earlier_proofs_fails(tree: MeasuredTree) -> None:
    tree.prepare("gate.log", GATE.format(share="done in this run: 2 of the 9 proofs"))
    assert tree.evidence("--only", "gate").status == 1
    assert tree.states()["gate"].endswith(": the gate took what earlier runs had proved")


@pytest.mark.parametrize(
    ("count", "reason"),
    [
        pytest.param("not-run", "4 wrong bodies weren't tried in time", id="not tried"),
        pytest.param("not-judged", "counts 4 bodies as not-judged, and lists 0", id="not listed"),
    ],
)
def test_wrong_bodies_that_are_missing_fail_the_part(
    tree: MeasuredTree, count: str, reason: str
) -> None:
    tree.prepare("plant", PLANT.replace(f"{count}=0", f"{count}=4"))
    assert tree.evidence("--only", "plant").status == 1
    assert reason in tree.states()["plant-low"]


# ---- Results, and other machines


def test_a_result_has_its_commit_times_machine_toolchain_and_files(tree: MeasuredTree) -> None:
    tree.evidence("--only", "gate").required()
    result = tree.result("gate")
    assert result["commit"] == tree.git("rev-parse", "HEAD")
    assert result["begun"] <= result["ended"]
    assert result["machine"]["cores"] == PROCESSORS
    assert result["machine"]["memory_gb"] >= 1
    assert result["machine"]["kernel"] == os.uname().release
    assert result["toolchain"] == "a toolchain"
    assert result["rests_on"]["crates"] == tree.git("rev-parse", "HEAD:crates")


def test_a_log_is_kept_beside_no_result(tree: MeasuredTree) -> None:
    tree.evidence(*SOAK).required()
    (log,) = tree.folder.glob("build/evidence/*/soak-hash-01.log")
    seed = tree.result("soak-hash-01")["found"]["seed"]
    assert log.read_text(encoding="utf-8") == (
        f"$ make mkpasswd\n$ make soak KIND=hash LINES=500000 SEED={seed}\n"
        f"soak: seed {seed}, 500000 hash lines\n{DIFFERENCES}"
    )
    assert tree.results() == ["soak-hash-01"]


def test_another_machine_measures_the_rest(tree: MeasuredTree, tmp_path: Path) -> None:
    tree.evidence(*SOAK).required()
    tree.commit()
    other = tree.elsewhere(tmp_path / "other")
    other.evidence(*SOAK, *FUZZ).required()
    assert tree.measurements() == [SOAKED, FUZZED]
    other.commit()
    assert other.not_measured() == PARTS - {"soak-hash-01", "fuzz-hash-01"}
    assert other.result("soak-hash-01") == tree.result("soak-hash-01")


def test_a_result_that_no_longer_counts_is_replaced(tree: MeasuredTree) -> None:
    tree.evidence(*SOAK).required()
    before = tree.result("soak-hash-01")
    tree.write("c/heap.c", "changed\n")
    tree.commit()
    assert tree.states()["soak-hash-01"].startswith("outdated: measured on ")
    tree.evidence(*SOAK).required()
    after = tree.result("soak-hash-01")
    assert after["commit"] == tree.git("rev-parse", "HEAD") != before["commit"]
    assert after["found"]["seed"] != before["found"]["seed"]
    assert tree.results() == ["soak-hash-01"]


def test_results_of_parts_that_no_longer_exist_are_removed(tree: MeasuredTree) -> None:
    tree.write("docs/evidence/fuzz-old-01.json", "{}")
    tree.evidence(*SOAK).required()
    assert tree.results() == ["soak-hash-01"]


def test_a_damaged_result_is_named(tree: MeasuredTree) -> None:
    tree.write("docs/evidence/soak-hash-01.json", "{}")
    result = tree.evidence("--page")
    assert result.status == 1 and b"soak-hash-01.json is no result" in result.stderr, result


def test_the_list_says_how_long_parts_take(tree: MeasuredTree) -> None:
    estimate = "not measured; takes about 20 min"
    assert tree.states()["fuzz-hash-01"] == tree.states()["fuzz-hash-02"] == estimate
    tree.evidence("--only", "fuzz").required()
    assert ", in 0 s" in tree.states()["fuzz-hash-01"]
    result = tree.evidence("--list", "--only", "fuzz", "--only", "gate").required()
    total = b"evidence: 1 of 4 parts are to be measured, in about 1 h 15 min\n"
    assert result.stdout.endswith(total), result


# ---- Refusals


@pytest.mark.parametrize(
    "path", [pytest.param("README.md", id="changed"), pytest.param("c/new.c", id="new")]
)
def test_a_tree_with_uncommitted_files_is_refused(tree: MeasuredTree, path: str) -> None:
    tree.write(path, "new")
    result = tree.evidence(*SOAK)
    assert result.status == 1 and path in result.stderr.decode(), result
    assert tree.calls() == []


def test_the_page_and_results_may_differ_from_the_commit(tree: MeasuredTree) -> None:
    tree.evidence(*SOAK).required()
    tree.evidence(*FUZZ).required()
    assert tree.not_measured() == PARTS - {"soak-hash-01", "fuzz-hash-01"}


def test_an_unknown_part_is_refused(tree: MeasuredTree) -> None:
    result = tree.evidence("--only", "soap")
    assert result.status == 1 and b"there is no part soap" in result.stderr, result


# ---- Side by side

# A script for the fake make, in which a measurement waits for another one.
WAITS_FOR_OTHER = """
touch "$fakes/$1.begun"
for second in $(seq 300); do
    [ ! -e "$fakes/OTHER.begun" ] || break
    sleep 0.1
done
[ -e "$fakes/OTHER.begun" ] || exit 1
"""
# Fails if another measurement with this script runs.
IS_ALONE = 'mkdir "$fakes/busy" || exit 1; sleep 0.3; rmdir "$fakes/busy"\n'
SAYS_PROCESSORS = 'nproc >> "$fakes/processors"\n'


def test_parts_are_measured_side_by_side(tree: MeasuredTree) -> None:
    tree.prepare("soak.script", WAITS_FOR_OTHER.replace("OTHER", "fuzz"))
    tree.prepare("fuzz.script", WAITS_FOR_OTHER.replace("OTHER", "soak"))
    tree.evidence(*SOAK, *FUZZ, "--jobs", 2).required()
    assert tree.results() == ["fuzz-hash-01", "soak-hash-01"]


def test_parts_that_are_timed_are_measured_alone(tree: MeasuredTree) -> None:
    for target in ("gate", "soak", "bench"):
        tree.prepare(f"{target}.script", IS_ALONE)
    tree.evidence("--only", "gate", *SOAK, "--only", "bench", "--jobs", 3).required()
    assert tree.results() == ["bench", "gate", "soak-hash-01"]


def test_each_of_several_jobs_has_its_share_of_the_processors(tree: MeasuredTree) -> None:
    tree.prepare("gate.script", SAYS_PROCESSORS)
    tree.prepare("soak.script", SAYS_PROCESSORS)
    tree.evidence("--only", "gate", *SOAK, "--jobs", PROCESSORS).required()
    said = (tree.fakes / "processors").read_text(encoding="ascii").split()
    assert said == [str(PROCESSORS), "1"]
    assert tree.result("soak-hash-01")["machine"]["cores"] == PROCESSORS


# ---- Interruptions

NAMED = 'echo {} > "$fakes/$1.part"; mv "$fakes/$1.part" "$fakes/$1.sleeper"'
# Scripts for the fake make. They leave a file and then wait, in a child or in the script itself.
WAITS = f"touch half-built; sleep 300 & {NAMED.format('$!')}; wait\n"
WAITS_ITSELF = f"touch half-built; {NAMED.format('$$')}; exec sleep 300\n"


def sleeps(tree: MeasuredTree, target: str) -> bool:
    """Returns whether the waiting process of a target still runs.

    In a container, the first process may leave dead ones as zombies.
    """
    number = (tree.fakes / f"{target}.sleeper").read_text(encoding="ascii").strip()
    return state_of(int(number)) not in ("", "Z")


def interrupt(tree: MeasuredTree, number: int, *words: str, targets: tuple[str, ...]) -> int:
    """Sends a signal to a run whose targets have begun to wait, and returns the run's status."""
    with started(tree.command, *words, env=tree.environment) as process:
        for target in targets:
            wait_for((tree.fakes / f"{target}.sleeper").exists)
        process.send_signal(number)
        return process.wait(60)


@pytest.mark.parametrize("number", [signal.SIGINT, signal.SIGTERM, signal.SIGHUP])
def test_an_interrupted_part_leaves_nothing(tree: MeasuredTree, number: int) -> None:
    tree.prepare("soak.script", WAITS)
    assert interrupt(tree, number, *SOAK, targets=("soak",)) == 128 + number
    assert tree.saved("soak*") == tree.results() == []
    wait_for(lambda: not sleeps(tree, "soak"))


def test_all_parts_side_by_side_are_interrupted(tree: MeasuredTree) -> None:
    tree.prepare("soak.script", WAITS)
    tree.prepare("fuzz.script", WAITS)
    words = (*SOAK, *FUZZ, "--jobs", "2")
    status = interrupt(tree, signal.SIGINT, *words, targets=("soak", "fuzz"))
    assert status == 128 + signal.SIGINT
    assert tree.saved("*.log*") == tree.results() == []
    wait_for(lambda: not sleeps(tree, "soak") and not sleeps(tree, "fuzz"))


def test_the_run_after_an_interruption_measures_the_rest(tree: MeasuredTree) -> None:
    tree.prepare("soak.script", WAITS)
    interrupt(tree, signal.SIGINT, "--only", "gate", *SOAK, targets=("soak",))
    (tree.fakes / "soak.script").unlink()
    tree.evidence("--only", "gate", *SOAK).required()
    assert tree.measurements() == ["make gate ANEW=1", SOAKED, SOAKED]
    assert tree.results() == ["gate", "soak-hash-01"]


@pytest.mark.parametrize(
    ("part", "target"),
    [
        pytest.param("soak-hash-01", "mkpasswd", id="while the program is built"),
        pytest.param("bench", "bench", id="while a part builds"),
    ],
)
def test_a_half_built_clone_is_not_used(tree: MeasuredTree, part: str, target: str) -> None:
    tree.prepare(f"{target}.script", WAITS)
    interrupt(tree, signal.SIGINT, "--only", part, targets=(target,))
    tree.prepare(f"{target}.script", "[ ! -e half-built ] || exit 1\n")
    tree.evidence("--only", part).required()


def test_an_interrupted_soak_leaves_the_build_to_the_next_run(tree: MeasuredTree) -> None:
    tree.prepare("mkpasswd.script", "touch built\n")
    tree.prepare("soak.script", WAITS)
    interrupt(tree, signal.SIGINT, *SOAK, targets=("soak",))
    tree.prepare("mkpasswd.script", "[ -e built ] || exit 1\n")
    (tree.fakes / "soak.script").unlink()
    tree.evidence(*SOAK).required()


def test_the_commands_of_a_killed_run_end(tree: MeasuredTree) -> None:
    tree.prepare("soak.script", WAITS_ITSELF)
    assert interrupt(tree, signal.SIGKILL, *SOAK, targets=("soak",)) == -signal.SIGKILL
    wait_for(lambda: not sleeps(tree, "soak"))


def test_leftovers_of_a_killed_run_do_not_disturb_the_next_one(tree: MeasuredTree) -> None:
    tree.prepare("gate.script", WAITS_ITSELF)
    interrupt(tree, signal.SIGKILL, "--only", "gate", targets=("gate",))
    (tree.fakes / "gate.script").unlink()
    wait_for(lambda: tree.evidence("--only", "gate").status == 0)
    assert tree.saved("gate*") == ["gate.log"]


def test_a_second_run_is_refused_while_the_first_one_measures(tree: MeasuredTree) -> None:
    tree.prepare("soak.script", WAITS_ITSELF)
    with started(tree.command, *SOAK, env=tree.environment):
        wait_for((tree.fakes / "soak.sleeper").exists)
        result = tree.evidence(*FUZZ)
    assert result.status == 1 and b"another run measures in this tree" in result.stderr, result


# ---- Which changes count


@pytest.mark.parametrize(
    ("path", "lost"),
    [
        pytest.param("crates/low/src/lib.rt", OF_PROOFS | OF_PROGRAMS, id="a crate"),
        pytest.param("c/heap.c", OF_PROGRAMS, id="C"),
        pytest.param("tests/c/fuzz_hash.c", {"fuzz-hash-01"}, id="a fuzzer"),
        pytest.param("tests/support/process.py", {"soak-hash-01", "bench"}, id="a helper of soak"),
        pytest.param("tests/support/others.py", {"bench"}, id="another helper of tests"),
        pytest.param("python/setup.py", {"bench"}, id="Python"),
        pytest.param("README.md", set(), id="a document"),
        pytest.param("CHANGELOG.md", set(), id="the changelog"),
        pytest.param("docs/EVIDENCE.md", set(), id="the page"),
        pytest.param("docs/evidence/other.txt", set(), id="the results"),
    ],
)
def test_a_change_invalidates_the_parts_that_depend_on_it(
    tree: MeasuredTree, path: str, lost: set[str]
) -> None:
    tree.evidence(*BY_ANYBODY).required()
    tree.write(path, "changed\n")
    tree.commit()
    assert tree.not_measured() == AS_ROOT | OTHER_BLOCKS | lost


def test_another_toolchain_invalidates_all_parts(tree: MeasuredTree) -> None:
    tree.evidence(*BY_ANYBODY).required()
    tree.prepare("version", "another toolchain\n")
    assert tree.not_measured() == PARTS


SAYS_IMPORTED_FILES = """
import runpy, sys
sys.dont_write_bytecode = True
runpy.run_path("tools/soak")
print(*[module.__file__ for module in sys.modules.values() if getattr(module, "__file__", None)])
"""


def test_the_soak_depends_on_the_files_that_it_imports(tree: MeasuredTree) -> None:
    imported = run("/usr/bin/python3", "-c", SAYS_IMPORTED_FILES, cwd=ROOT).required()
    paths = [Path(word) for word in imported.stdout.decode().split()]
    helpers = [path.relative_to(ROOT) for path in paths if path.is_relative_to(ROOT / "tests")]
    tree.evidence(*SOAK).required()
    known = tree.result("soak-hash-01")["rests_on"]
    assert helpers
    assert [path for path in helpers if not any(map(path.is_relative_to, known))] == []


@pytest.mark.needs("root")
@pytest.mark.parametrize(
    ("path", "lost"),
    [
        pytest.param("CHANGELOG.md", AS_ROOT, id="a document, which tests read"),
        pytest.param("docs/EVIDENCE.md", set(), id="the page"),
        pytest.param("docs/evidence/other.txt", set(), id="the results"),
    ],
)
def test_checks_and_artifacts_depend_on_all_files_that_measurements_do_not_write(
    tree: MeasuredTree, path: str, lost: set[str]
) -> None:
    words = [word for part in sorted(AS_ROOT) for word in ("--only", part)]
    tree.evidence(*words, "--mirror", "http://mirror.invalid").required()
    tree.write(path, "changed\n")
    tree.commit()
    assert tree.not_measured() & AS_ROOT == lost
