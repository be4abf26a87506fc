"""tools/for-cpu: rt's options, the built files, and that the default build stays."""
from __future__ import annotations

import signal
from pathlib import Path

import pytest
from support.process import started, status_of
from support.tool_trees import ToolTree, tool_tree, wait_for

ARM = "logic=proved functions=3 axioms=14 target=aarch64-unknown-linux-gnu sum=dac8208d650f15bf"
# The first lines of a fake rt: it records its folder, its arguments, and the files in out/.
RECORDS = """\
(basename "$PWD"; echo "$@") > "$0.got"
ls out > "$0.out"
"""
BUILDS = f"{RECORDS}echo new > out/program.o; echo new > out/libcrypt_c.a; echo new > out/stamp\n"


@pytest.fixture(name="tree")
def fixture_tree(tmp_path: Path) -> ToolTree:
    """A tree whose crates have the default build."""
    tree = tool_tree(tmp_path / "tree")
    for crate, file in (("program", "program.o"), ("crypt_c", "libcrypt_c.a")):
        out = tree.path(f"crates/{crate}/out")
        (out / "incremental").mkdir(parents=True)
        (out / "incremental/proof").write_bytes(b"of every processor\n")
        (out / file).write_bytes(b"default\n")
        (out / f"{crate}.stamp").write_bytes(b"default\n")
    return tree


def content(folder: Path) -> dict[str, bytes]:
    """Returns the files below a folder, by name."""
    paths = [path for path in folder.rglob("*") if path.is_file()]
    return {str(path.relative_to(folder)): path.read_bytes() for path in paths}


def recorded(tree: ToolTree) -> list[str]:
    """Returns the folder in which rt ran, and its arguments."""
    return tree.path("rt.got").read_text(encoding="ascii").splitlines()


# ---- Builds


@pytest.mark.parametrize(
    ("cpu", "file", "crate", "arguments"),
    [
        pytest.param(
            *("x86-64-v2", "program.o", "program"),
            "run -- -m md5crypt -S xxxxxxxx password",
            id="the program for the default processor",
        ),
        pytest.param(
            *("x86-64", "program.o", "program"),
            "run --cpu x86-64 -- -m md5crypt -S xxxxxxxx password",
            id="the program for another one",
        ),
        pytest.param(
            *("x86-64-v3", "libcrypt_c.a", "crypt_c", "lib --cpu x86-64-v3"), id="the library"
        ),
        pytest.param(
            *("aarch64", "libcrypt_c.a", "crypt_c", "lib --target aarch64-unknown-linux-gnu"),
            id="the library for ARM",
        ),
    ],
)
def test_rt_builds_for_the_processor(
    tree: ToolTree, cpu: str, file: str, crate: str, arguments: str
) -> None:
    tree.rt_is(BUILDS)
    tree.run("for-cpu", cpu, file).required()
    assert recorded(tree) == [crate, arguments]
    assert content(tree.path("build") / cpu) == {file: b"new\n"}
    assert tree.path(f"build/log/{cpu}-{crate}.log").exists()


def test_the_module_for_the_page_is_built_without_an_earlier_build(tree: ToolTree) -> None:
    tree.rt_is(f"{RECORDS}echo new > out/libcrypt_web.a")
    tree.run("for-cpu", "wasm64", "libcrypt_web.a").required()
    assert recorded(tree) == ["crypt_web", "lib --target wasm64-unknown-unknown"]
    assert content(tree.path("build/wasm64")) == {"libcrypt_web.a": b"new\n"}


@pytest.mark.parametrize(
    "words",
    [
        pytest.param((), id="none"),
        pytest.param(("x86-64",), id="no file"),
        pytest.param(("x86-64-v9", "program.o"), id="an unknown processor"),
        pytest.param(("x86-64", "mkpasswd"), id="an unknown file"),
        pytest.param(("x86-64", "program.o", "libcrypt_c.a"), id="two files"),
    ],
)
def test_wrong_arguments_are_a_usage_error(tree: ToolTree, words: tuple[str, ...]) -> None:
    tree.rt_is(BUILDS)
    result = tree.run("for-cpu", *words)
    assert result.status == 2 and b"usage: for-cpu" in result.stderr, result
    assert not tree.path("rt.got").exists()


def test_an_rt_that_makes_no_file_is_a_failure(tree: ToolTree) -> None:
    tree.rt_is("rm -f out/program.o")
    result = tree.run("for-cpu", "x86-64-v2", "program.o")
    assert result.status == 1, result
    assert b"crates/program/out/program.o: No such file" in result.stderr, result
    assert result.stderr.count(b"\n") == 1, result


def test_an_earlier_file_stays_if_rt_fails(tree: ToolTree) -> None:
    tree.path("build/x86-64").mkdir(parents=True)
    tree.path("build/x86-64/program.o").write_bytes(b"earlier\n")
    tree.rt_is(f"{BUILDS}exit 1")
    assert tree.run("for-cpu", "x86-64", "program.o").status == 1
    assert content(tree.path("build/x86-64")) == {"program.o": b"earlier\n"}


# ---- ARM, for which rt can't link programs


def test_a_program_for_arm_needs_only_its_proof(tree: ToolTree) -> None:
    tree.rt_is(f"{BUILDS}echo '{ARM}'; echo 'ld.lld: error: program.o is incompatible'; exit 1")
    result = tree.run("for-cpu", "aarch64", "program.o").required()
    assert b"error" not in result.stdout, result
    assert content(tree.path("build/aarch64")) == {"program.o": b"new\n"}


@pytest.mark.parametrize(
    ("ending", "status"),
    [
        pytest.param("echo 'logic=not-proved functions=51'; exit 1", 1, id="it isn't proved"),
        pytest.param(f"echo '{ARM}'; kill -KILL $$", 137, id="rt is killed"),
        pytest.param(f"echo 'note: {ARM}'; exit 1", 1, id="the line is about something else"),
    ],
)
def test_a_program_for_arm_needs_its_proof(tree: ToolTree, ending: str, status: int) -> None:
    tree.rt_is(f"{BUILDS}{ending}")
    result = tree.run("for-cpu", "aarch64", "program.o")
    assert result.status == status, result
    assert content(tree.path("build/aarch64")) == {}


# ---- The default build


@pytest.mark.parametrize(
    ("ending", "status"),
    [
        pytest.param("exit 0", 0, id="a build that succeeds"),
        pytest.param("exit 1", 1, id="a build that fails"),
        pytest.param("kill -KILL $$", 137, id="a build that is killed"),
        pytest.param("rm -r out", 1, id="a build that removes the folder"),
    ],
)
def test_the_default_build_is_restored(tree: ToolTree, ending: str, status: int) -> None:
    out = tree.path("crates/program/out")
    before = content(out)
    tree.rt_is(f"{BUILDS}{ending}")
    result = tree.run("for-cpu", "x86-64", "program.o")
    assert result.status == status, result
    left_out = {"incremental/proof"} if ending == "rm -r out" else set()
    assert content(out) == {name: data for name, data in before.items() if name not in left_out}
    assert tree.path("rt.out").read_text(encoding="ascii") == "incremental\n"
    assert [path.name for path in tree.path("build").glob("default-*")] == []


def test_the_default_build_is_restored_if_rt_is_missing(tree: ToolTree) -> None:
    before = content(tree.path("crates"))
    result = tree.run("for-cpu", "x86-64", "program.o", env={"RT": "/no/such/rt"})
    assert result.status == 1 and result.stderr.startswith(b"for-cpu: /no/such/rt "), result
    assert content(tree.path("crates")) == before


def test_the_default_build_reuses_the_files_of_earlier_builds(tree: ToolTree) -> None:
    tree.rt_is(RECORDS)
    tree.run("for-cpu", "x86-64-v2", "program.o").required()
    expected = "incremental\nprogram.o\nprogram.stamp\n"
    assert tree.path("rt.out").read_text(encoding="ascii") == expected
    assert content(tree.path("build/x86-64-v2")) == {"program.o": b"default\n"}


@pytest.mark.parametrize("name", ["INT", "TERM", "HUP", "QUIT"])
def test_the_default_build_is_restored_after_a_signal_ends_rt(tree: ToolTree, name: str) -> None:
    out = tree.path("crates/program/out")
    before = content(out)
    tree.rt_is(
        f"{BUILDS}trap 'echo late > out/late; exit 0' {name}\n"
        '> "$0.began"\n'
        "while kill -0 $PPID; do sleep 0.05; done"
    )
    command = (tree.path("tools/for-cpu"), "x86-64", "program.o")
    with started(*command, env=tree.environment()) as process:
        wait_for(tree.path("rt.began").exists)
        process.send_signal(signal.Signals[f"SIG{name}"])
        process.wait(60)
    assert status_of(process) == 128 + signal.Signals[f"SIG{name}"]
    assert content(out) == before
    assert content(tree.path("build/x86-64")) == {}
