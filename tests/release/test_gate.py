"""tools/gate: what its user sees, what fails it, its signals, and its times."""
from __future__ import annotations

import os
import re
import signal
import subprocess
from pathlib import Path

import pytest
from support.needs import need, not_applicable
from support.process import Result, kill_group, run, started, status_of
from support.pwhash_runs import GROUP_VERSION_1, GROUP_VERSION_2, available
from support.tool_trees import ToolTree, tool_tree, wait_for

# Some of the thousands of lines that rt ci prints.
PROVED = b"""\
== prims_core
empty contracts: 0 found; tried 91 of 91 functions
fn prims_core::table::fill: proved
logic=proved functions=91 sum=dac8208d650f15bf native=nat,char,string logic-built=trusted
rt: prims_core proved
rt: prims_core: trying its must-fail edits (2)
== kdf_core
logic=proved functions=39 sum=dac8208d650f15bf native=nat,char,string logic-built=trusted
rt: kdf_core proved
"""
TRIED = b"""\
rt: must-fail prims_core/adds.edit: refused, as it must be: proofs/A.antt:1:2: error: no
rt: must-fail prims_core/forgets.edit: refused, as it must be
rt: program ran, and wrote what its file stdout has
rt: ok; handles allowed: none; must-fail edits: 2 refused
12 passed, 0 failed
"""
BAD_EDIT = b"""\
rt: must-fail kdf_core/old.edit: BAD EDIT: an 'old:' text is in src/lib.rs 0 times, and not once
rt: note: bad must-fail edits, as told above: 1. They fail nothing here
12 passed, 0 failed
"""
LOG = "build/log/gate.log"
COLUMNS = 50  # of a terminal
ERASES_LINE = "\r\033[K"  # how a text replaces the last one at a terminal


@pytest.fixture(name="tree")
def fixture_tree(tmp_path: Path) -> ToolTree:
    return tool_tree(tmp_path / "tree")


def lines_of(result: Result) -> list[str]:
    """Returns the lines that a command printed."""
    return result.stdout.decode().splitlines()


# ---- Output


def subject_of(line: str) -> str:
    """Returns the beginning of a line, which says what it is about: `must-fail` or a crate."""
    return re.split("[: ]", line)[0]


def test_each_crate_has_a_line_without_a_terminal(tree: ToolTree) -> None:
    tree.rt_prints(PROVED + TRIED)
    result = tree.run("gate").required()
    subjects = [subject_of(line) for line in lines_of(result)]
    assert subjects == ["prims_core", "kdf_core", "must-fail", "12"], result
    assert result.stdout.endswith(b"\n12 passed, 0 failed\n"), result


@pytest.mark.needs("python3-pexpect")
def test_each_crate_has_a_line_that_changes_at_a_terminal(tree: ToolTree) -> None:
    import pexpect

    tree.rt_prints(PROVED + TRIED)
    environment = tree.full_environment()
    environment.pop("COLUMNS", None)  # newer versions of pytest-xdist set it
    child = pexpect.spawn(
        str(tree.path("tools/gate")), env=environment, dimensions=(24, COLUMNS), timeout=60
    )
    child.expect(pexpect.EOF)
    screen = child.before.decode()
    # In a line, each text erases the one before it.
    texts_by_line = [line.split(ERASES_LINE) for line in screen.split("\r\n")]
    assert max(len(text) for texts in texts_by_line for text in texts) < COLUMNS, screen
    subjects = [subject_of(texts[-1]) for texts in texts_by_line]
    assert subjects == ["prims_core", "kdf_core", "must-fail", "12", ""], screen
    assert "kdf_core: 39 functions proved" in screen, screen


def test_a_character_outside_the_encoding_stops_nothing(tree: ToolTree) -> None:
    tree.rt_prints("src/lib.rt:1:1: error: a \u2264 b\n".encode() + PROVED)
    result = tree.run("gate", env={"PYTHONIOENCODING": "ascii"}).required()
    assert b"src/lib.rt:1:1: error: a \\u2264 b\n" in result.stdout, result


def test_bytes_that_are_not_utf_8_are_shown_and_kept(tree: ToolTree) -> None:
    lines = b"src/lib.rt:1:1: error: \xff\xfe\n== kdf_core\nno line end \xff"
    tree.rt_prints(lines, status=1)
    result = tree.run("gate")
    assert result.status == 1, result
    assert b"src/lib.rt:1:1: error: " in result.stdout, result
    assert tree.path(LOG).read_bytes() == lines


SHOWN = 20  # lines of a failed run


def test_the_first_lines_that_fail_are_shown(tree: ToolTree) -> None:
    failing = [f"src/lib.rt:{number}:1: error: no proof" for number in range(1, 31)]
    tree.rt_prints("\n".join([*failing, "0 passed, 1 failed"]).encode(), status=1)
    result = tree.run("gate")
    assert [line for line in lines_of(result) if "error" in line] == failing[:SHOWN], result
    assert b"0 passed, 1 failed\n" in result.stdout, result
    assert LOG.encode() in result.stdout, result


def test_the_last_lines_are_shown_if_none_says_what_fails(tree: ToolTree) -> None:
    lines = [f"line {number}" for number in range(1, 31)]
    tree.rt_prints("\n".join(lines).encode(), status=1)
    result = tree.run("gate")
    assert lines_of(result)[:SHOWN] == lines[-SHOWN:], result
    assert LOG.encode() in result.stdout, result


# ---- The log


def test_the_log_has_everything_that_rt_writes(tree: ToolTree) -> None:
    tree.path("rt.lines").write_bytes(PROVED + TRIED)
    tree.rt_is('cat "$0.lines"; echo "an error of rt" >&2')
    tree.run("gate").required()
    assert tree.path(LOG).read_bytes() == PROVED + TRIED + b"an error of rt\n"


def test_a_full_disk_only_truncates_the_log(tree: ToolTree) -> None:
    tree.path(LOG).parent.mkdir(parents=True)
    tree.path(LOG).symlink_to("/dev/full")
    tree.rt_prints(PROVED + TRIED)
    result = tree.run("gate").required()
    assert b"\n12 passed, 0 failed\n" in result.stdout, result
    assert LOG.encode() in result.stdout and b"No space left on device" in result.stdout, result


def test_a_log_that_cannot_be_made_is_named_before_rt_runs(tree: ToolTree) -> None:
    tree.path("build").write_bytes(b"")  # in place of the folder
    tree.rt_is('> "$0.ran"')
    result = tree.run("gate")
    assert result.status == 1 and b"build/log" in result.stderr, result
    assert b"Traceback" not in result.stderr, result
    assert not tree.path("rt.ran").exists()


def test_a_full_standard_output_ends_rt(tree: ToolTree) -> None:
    tree.path("rt.lines").write_bytes(PROVED)
    tree.rt_is(
        "trap 'echo it still writes; touch \"$0.ended\"; exit 143' TERM\n"
        'cat "$0.lines"\n'
        "while kill -0 $PPID; do sleep 0.05; done"
    )
    command = (tree.path("tools/gate"),)
    result = run(*command, stdout=Path("/dev/full"), env=tree.environment())
    assert result.status == 1, result
    assert result.stderr == b"gate: standard output: No space left on device\n", result
    assert tree.path("rt.ended").exists()


# ---- Failures


@pytest.mark.parametrize("status", [1, 2, 3])
def test_the_status_is_rts(tree: ToolTree, status: int) -> None:
    tree.rt_prints(PROVED, status)
    result = tree.run("gate")
    assert result.status == status, result


def test_a_mutant_that_cannot_be_tried_is_a_failure_even_if_rt_passes(tree: ToolTree) -> None:
    tree.rt_prints(PROVED + BAD_EDIT)
    result = tree.run("gate")
    assert result.status == 1, result
    assert b"kdf_core/old.edit: BAD EDIT" in result.stdout, result
    assert result.stderr.startswith(b"gate: 1 "), result


def test_a_killed_rt_is_a_failure_that_names_the_signal(tree: ToolTree) -> None:
    tree.rt_is("echo '== prims_core'; kill -KILL $$")
    result = tree.run("gate")
    assert result.status == 128 + signal.SIGKILL, result
    assert b"signal 9 (Killed)" in result.stdout, result


@pytest.mark.parametrize(
    ("program", "reason"),
    [
        pytest.param("/no/such/rt", b"/no/such/rt", id="a path that leads nowhere"),
        pytest.param("no-such-rt", b"no-such-rt", id="a name that isn't on the PATH"),
    ],
)
def test_a_missing_rt_is_named(tree: ToolTree, program: str, reason: bytes) -> None:
    result = tree.run("gate", env={"RT": program})
    assert result.status == 1 and result.stdout == b"", result
    assert result.stderr.startswith(b"gate: " + reason) and result.stderr.count(b"\n") == 1, result


def test_an_rt_that_the_system_cannot_run_is_named(tree: ToolTree) -> None:
    tree.rt_is("")
    tree.program.write_bytes(b"\x7fELF")
    result = tree.run("gate")
    assert result.status == 1, result
    assert result.stderr == f"gate: {tree.program}: Exec format error\n".encode(), result


# ---- Signals

STATUS_OF_RT = 3
# A fake rt that records each signal, and ends when the test allows it or its gate is gone.
RECORDS_SIGNALS = f"""\
for name in INT TERM HUP QUIT TSTP CONT; do
    trap "echo $name >> '$0.signals'" $name
done
echo '== prims_core'
while [ ! -e "$0.may-end" ] && kill -0 $PPID; do sleep 0.05; done
exit {STATUS_OF_RT}
"""


def has_begun(tree: ToolTree) -> bool:
    """Returns whether the gate has read a line from rt."""
    return tree.path(LOG).exists() and tree.path(LOG).read_bytes() != b""


def noted(tree: ToolTree) -> str:
    """Returns the signals that rt has received."""
    path = tree.path("rt.signals")
    return path.read_text(encoding="ascii") if path.exists() else ""


@pytest.mark.parametrize("name", ["INT", "TERM", "HUP", "QUIT"])
def test_the_gate_forwards_a_signal_to_rt_and_ends_after_it(tree: ToolTree, name: str) -> None:
    tree.rt_is(RECORDS_SIGNALS)
    number = signal.Signals[f"SIG{name}"]
    with started(tree.path("tools/gate"), env=tree.environment()) as process:
        wait_for(lambda: has_begun(tree))
        process.send_signal(number)
        wait_for(lambda: noted(tree) != "")
        assert process.poll() is None, "the gate ended before rt"
        tree.path("rt.may-end").touch()
        process.wait(60)
    assert noted(tree) == f"{name}\n"
    assert status_of(process) == 128 + number
    assert not tree.path("build/log/gate.times").exists()


@pytest.mark.needs("python3-pexpect")
def test_an_interrupt_from_a_terminal_reaches_rt_once(tree: ToolTree) -> None:
    import pexpect

    tree.rt_is(RECORDS_SIGNALS)
    child = pexpect.spawn(str(tree.path("tools/gate")), env=tree.full_environment(), timeout=60)
    wait_for(lambda: has_begun(tree))
    child.sendintr()
    wait_for(lambda: noted(tree) != "")
    tree.path("rt.may-end").touch()
    child.expect(pexpect.EOF)
    child.close()
    assert (noted(tree), child.exitstatus) == ("INT\n", 128 + signal.SIGINT)


def is_stopped(process: int) -> bool:
    """Returns whether a process is stopped, as by ^Z."""
    status = Path(f"/proc/{process}/status").read_text(encoding="utf-8")
    return "State:\tT (stopped)" in status


def test_rt_stops_and_continues_with_the_gate(tree: ToolTree) -> None:
    tree.rt_is(RECORDS_SIGNALS)
    # A process can be stopped only if another one in its session could continue it.
    with subprocess.Popen(
        [tree.path("tools/gate")], env=tree.full_environment(), process_group=0
    ) as gate:
        try:
            wait_for(lambda: has_begun(tree))
            gate.send_signal(signal.SIGTSTP)
            wait_for(lambda: noted(tree) == "TSTP\n" and is_stopped(gate.pid))
            gate.send_signal(signal.SIGCONT)
            wait_for(lambda: noted(tree) == "TSTP\nCONT\n")
            tree.path("rt.may-end").touch()
            gate.wait(60)
        finally:
            kill_group(gate)
    assert status_of(gate) == STATUS_OF_RT


def test_an_ignored_signal_ends_nothing(tree: ToolTree) -> None:
    tree.rt_is(RECORDS_SIGNALS)
    command = ("nohup", tree.path("tools/gate"))
    with started(*command, env=tree.environment()) as process:
        wait_for(lambda: has_begun(tree))
        process.send_signal(signal.SIGHUP)
        tree.path("rt.may-end").touch()
        process.wait(60)
    assert (noted(tree), status_of(process)) == ("", STATUS_OF_RT)


# ---- Arguments of rt


def arguments(tree: ToolTree, *words: str, help_text: str = "", env: str | None = None) -> str:
    """Runs the gate, and returns rt's RT_JOBS and arguments."""
    prints_help = f"[ $1 != --help ] || {{ echo '{help_text}'; exit 2; }}"
    tree.rt_is(f"{prints_help}\necho $RT_JOBS: $* > $0.got")
    tree.run("gate", *words, env={"RT_JOBS": env}).required()
    return tree.path("rt.got").read_text(encoding="ascii").strip()


@pytest.mark.parametrize(
    ("words", "help_text", "expected"),
    [
        pytest.param((), "rt ci [--anew]", "2: ci", id="without the option"),
        pytest.param(("--anew",), "rt ci [--anew]", "2: ci --anew", id="with it"),
        pytest.param(("--anew",), "rt ci", "2: ci", id="an rt without the option"),
    ],
)
def test_rt_proves_everything_again_if_asked_and_able(
    tree: ToolTree, words: tuple[str, ...], help_text: str, expected: str
) -> None:
    assert arguments(tree, *words, help_text=help_text, env="2") == expected


@pytest.mark.parametrize("value", ["0", "-1", "two", "1.5"])
def test_an_invalid_number_of_checks_is_refused(tree: ToolTree, value: str) -> None:
    tree.rt_is('> "$0.ran"')
    result = tree.run("gate", env={"RT_JOBS": value})
    assert result.status == 1 and b"RT_JOBS" in result.stderr, result
    assert not tree.path("rt.ran").exists()


@pytest.mark.parametrize(
    ("script", "expected"),
    [
        pytest.param("", 2, id="two processors by taskset"),
        pytest.param(available(7000), 2, id="memory for two checks"),
        pytest.param(available(2000), 1, id="memory for none"),
        pytest.param(f"{GROUP_VERSION_2} echo 100000 100000 > own/cpu.max", 1, id="a quota of one"),
        pytest.param(
            f"{GROUP_VERSION_1} echo 100000 > cpu/own/cpu.cfs_quota_us", 1, id="a version 1 quota"
        ),
        pytest.param(
            f"{GROUP_VERSION_2} echo 4000000000 > own/memory.max", 1, id="a group's memory for one"
        ),
    ],
)
def test_as_many_checks_run_at_once_as_the_machine_allows(
    tree: ToolTree, tmp_path: Path, script: str, expected: int
) -> None:
    need("unshare", "namespaces")
    processors = sorted(os.sched_getaffinity(0))
    if len(processors) < 3:
        not_applicable("fewer than three processors")
    count = 3 if script else 2
    limit = f"taskset -cp {','.join(map(str, processors[:count]))} $$ > mask"
    tree.rt_is("echo $RT_JOBS > $0.got")
    # Other tests may be using this machine's memory.
    script = f'set -e\n{limit}\n{script or available(20_000)}\nexec "$0"'
    command = ("unshare", "--mount", "/bin/sh", "-c", script, tree.path("tools/gate"))
    run(*command, env=tree.environment(), cwd=tmp_path).required()
    assert tree.path("rt.got").read_text(encoding="ascii") == f"{expected}\n"


def test_a_wrong_option_is_a_usage_error(tree: ToolTree) -> None:
    tree.rt_is('> "$0.ran"')
    result = tree.run("gate", "--new")
    assert result.status == 2 and b"usage: " in result.stderr, result
    assert not tree.path("rt.ran").exists()


# ---- Times

TIMES = "build/log/gate.times"
HEADINGS = ["Proved", "Its tests proved", "First mutant", "Mutants", "Run"]


def shown_times(tree: ToolTree) -> dict[str, dict[str, str]]:
    """Returns the table of the gate's last run: for each crate, the cells by heading."""
    rows = []
    for line in lines_of(tree.run("gate", "--times").required()):
        if line.startswith("|"):
            rows.append([cell.strip(" `") for cell in line.strip("|").split("|")])
    headings, _rule, *of_crates = rows
    assert headings == ["Crate", *HEADINGS]
    return {crate: dict(zip(HEADINGS, cells)) for crate, *cells in of_crates}


def test_the_times_of_a_run_are_shown_by_crate(tree: ToolTree) -> None:
    first, second = PROVED.split(b"== kdf_core\n")
    tree.path("first").write_bytes(first)
    tree.path("second").write_bytes(second + b"rt: kdf_core: its tests are proved\n" + TRIED)
    # The gate has read the first lines once they are in the log.
    until_read = f"until [ -s {LOG} ]; do sleep 0.05; done"
    tree.rt_is(f'cd "$(dirname "$0")"; cat first; {until_read}; sleep 1.2; cat second')
    tree.run("gate").required()
    times = shown_times(tree)
    assert list(times) == ["prims_core", "kdf_core", "program"]
    early = int(times["prims_core"]["Proved"])
    assert int(times["kdf_core"]["Proved"]) > early, times
    assert int(times["kdf_core"]["Its tests proved"]) > early, times
    assert int(times["program"]["Run"]) > early, times
    assert times["prims_core"]["Mutants"] == "2", times
    assert times["kdf_core"]["Mutants"] == times["program"]["Proved"] == "", times


def test_a_crate_that_an_earlier_run_proved_has_no_time(tree: ToolTree) -> None:
    tree.rt_prints(b"rt: kdf_core is kept: an earlier run on this machine proved the same files\n")
    tree.run("gate").required()
    assert shown_times(tree)["kdf_core"]["Proved"] == "kept"


def test_the_times_of_a_failed_run_are_shown_too(tree: ToolTree) -> None:
    tree.rt_prints(b"rt: kdf_core NOT PROVED\n3 passed, 1 failed\n", status=1)
    tree.run("gate")
    assert shown_times(tree)["kdf_core"]["Proved"] != ""
    assert b"3 passed, 1 failed" in tree.run("gate", "--times").stdout


def test_the_processor_time_of_all_processes_is_counted(tree: ToolTree) -> None:
    burns = "import time\nwhile time.process_time() < 1.2:\n    pass"
    tree.rt_is(f"/usr/bin/python3 -c '{burns}' & /usr/bin/python3 -c '{burns}' & wait")
    tree.run("gate").required()
    result = tree.run("gate", "--times").required()
    found = re.search(rb"(\d+) s of processor time", result.stdout)
    assert found and int(found[1]) >= 2, result


@pytest.mark.parametrize(
    "content",
    [
        pytest.param(None, id="none yet"),
        pytest.param(b"", id="empty"),
        pytest.param(b"{}", id="without numbers"),
        pytest.param(b"[1]", id="a list"),
        pytest.param(b"\xff", id="not UTF-8"),
    ],
)
def test_times_that_cannot_be_read_are_named(tree: ToolTree, content: bytes | None) -> None:
    if content is not None:
        tree.path(TIMES).parent.mkdir(parents=True)
        tree.path(TIMES).write_bytes(content)
    result = tree.run("gate", "--times")
    assert (result.status, result.stdout) == (1, b""), result
    assert result.stderr.startswith(f"gate: {TIMES} ".encode()), result
    assert result.stderr.count(b"\n") == 1, result


def test_times_that_cannot_be_saved_fail_no_gate(tree: ToolTree) -> None:
    tree.path(TIMES).mkdir(parents=True)
    tree.rt_prints(PROVED + TRIED)
    result = tree.run("gate")
    assert result.status == 0, result
    assert result.stderr.startswith(f"gate: {TIMES}: ".encode()), result


def test_showing_times_runs_no_rt(tree: ToolTree) -> None:
    tree.rt_prints(PROVED)
    tree.run("gate").required()
    tree.rt_is('> "$0.ran"')
    tree.run("gate", "--times").required()
    assert not tree.path("rt.ran").exists()
