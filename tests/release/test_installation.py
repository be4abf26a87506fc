"""tools/install: where it puts files, their modes, and that it can remove them."""
from __future__ import annotations

import shlex
import stat
import subprocess
from dataclasses import dataclass
from pathlib import Path

import pytest
from support import ROOT
from support.documents import marked
from support.process import Result, Word, assert_result, run
from support.release import Archive, files_below

pytestmark = pytest.mark.xdist_group("archive")  # so that it is packed once

LIBRARIES = "usr/lib/x86_64-linux-gnu"
# Files that are about the archive, and aren't installed.
OF_ARCHIVES = ("share/doc/mkpasswd/README", "share/doc/mkpasswd/SHA256SUMS")
HASHED = ("-m", "md5crypt", "-S", "xxxxxxxx")
HASH = b"$1$xxxxxxxx$UYCIxa628.9qXjpQCjM4a.\n"  # libxcrypt's hash of "password"


def places(**given: str) -> dict[str, str | None]:
    """Returns the variables of tools/install, with all others unset."""
    names = ("DESTDIR", "PREFIX", "LIBDIR", "PAMDIR", "FROM")
    return {**{name: None for name in names}, **given}


@dataclass(frozen=True)
class Destination:
    """A folder below which files are installed, as packagers do it with DESTDIR."""

    folder: Path

    def install(self, *words: Word, mask: str = "022") -> Result:
        """Installs the built files, or removes them with --remove."""
        environment = places(DESTDIR=str(self.folder), PREFIX="/usr", LIBDIR=f"/{LIBRARIES}")
        script = f'umask {mask} && exec "$0" "$@"'
        return run("sh", "-c", script, ROOT / "tools/install", *words, env=environment)


@pytest.fixture(scope="module", name="installation")
def fixture_installation(
    archive: Archive, tmp_path_factory: pytest.TempPathFactory
) -> tuple[Path, Result]:
    """A folder with the installed files, and the result of the command.

    The umask lets no other user read files. Packing the archive first builds all of them.
    """
    assert archive.tree.is_dir()
    destination = Destination(tmp_path_factory.mktemp("installed"))
    return destination.folder, destination.install(mask="077")


@pytest.fixture(scope="module", name="installed")
def fixture_installed(installation: tuple[Path, Result]) -> Path:
    """The folder with the installed files."""
    folder, result = installation
    result.required()
    return folder


def test_installing_prints_nothing(installation: tuple[Path, Result]) -> None:
    _, result = installation
    assert_result(result)


def mode_of(path: Path) -> int:
    """Returns a file's permission bits."""
    return stat.S_IMODE(path.stat().st_mode)


def test_everybody_may_read_each_folder(installed: Path) -> None:
    folders = [path for path in installed.rglob("*") if path.is_dir() and not path.is_symlink()]
    modes = {str(path): oct(mode_of(path)) for path in folders if mode_of(path) != 0o755}
    assert modes == {}, "expected folders with mode 755"


def test_everybody_may_run_each_command(installed: Path) -> None:
    commands = list((installed / "usr/bin").iterdir())
    modes = {path.name: oct(mode_of(path)) for path in commands if mode_of(path) != 0o755}
    assert commands != []
    assert modes == {}, "expected commands with mode 755"


def test_everybody_may_read_each_file(installed: Path) -> None:
    files = [installed / name for name in files_below(installed)]
    modes = {str(path): oct(mode_of(path)) for path in files if mode_of(path) & 0o644 != 0o644}
    assert modes == {}, "expected files that everybody can read"


def test_the_archives_files_are_below_the_prefix_and_the_folder_for_libraries(
    installed: Path, archive: Archive
) -> None:
    expected = []
    for name in files_below(archive.tree):
        if name in OF_ARCHIVES:
            continue
        folder, _, rest = name.partition("/")
        expected.append(f"{LIBRARIES}/{rest}" if folder == "lib" else f"usr/{name}")
    assert files_below(installed) == sorted(expected)


def test_each_manual_is_installed(installed: Path) -> None:
    manuals = [f"man{path.suffix[1:]}/{path.name}" for path in ROOT.glob("man/*.?")]
    found = files_below(installed / "usr/share/man")
    assert manuals != []
    assert [name for name in manuals if name not in found] == []


def test_pkg_config_has_the_installed_paths(installed: Path) -> None:
    lines = (installed / LIBRARIES / "pkgconfig/mkpasswd.pc").read_text("utf-8").splitlines()
    assert lines[:2] == ["prefix=/usr", f"libdir=/{LIBRARIES}"]


def test_removing_leaves_files_that_were_not_installed(tmp_path: Path) -> None:
    destination = Destination(tmp_path)
    destination.install().required()
    notes = "usr/share/doc/mkpasswd/notes"
    (tmp_path / notes).touch()
    assert_result(destination.install("--remove"))
    assert files_below(tmp_path) == [notes]


def test_removing_twice_does_nothing(tmp_path: Path) -> None:
    destination = Destination(tmp_path)
    destination.install().required()
    destination.install("--remove").required()
    assert_result(destination.install("--remove"))


def test_a_program_is_replaced_while_it_runs(tmp_path: Path) -> None:
    destination = Destination(tmp_path)
    destination.install().required()
    command = (tmp_path / "usr/bin/mkpasswd", *HASHED, "-s")
    with subprocess.Popen(command, stdin=subprocess.PIPE, stdout=subprocess.PIPE) as running:
        assert_result(destination.install())
        hashed, _ = running.communicate(b"password\n")
    assert hashed == HASH


# ---- A distribution with another mkpasswd


def test_the_guides_commands_leave_our_program_its_second_name_alone(
    archive: Archive, tmp_path: Path
) -> None:
    assert archive.tree.is_dir()
    destination = Destination(tmp_path / "root")
    destination.install().required()
    assert_result(run("sh", "-euc", marked("second name", "sh").code, cwd=tmp_path))
    program = destination.folder / "usr/bin/mkpasswd.proved"
    assert_result(run(program, *HASHED, "password"), stdout=HASH)
    of_the_first_name = {"mkpasswd", "_mkpasswd", "mkpasswd.fish", "mkpasswd.1"}
    names = files_below(destination.folder)
    assert [name for name in names if Path(name).name in of_the_first_name] == []


# ---- A prefix with characters that are special to shells, pkg-config and sed


@pytest.fixture(scope="module", name="prefix")
def fixture_prefix(archive: Archive, tmp_path_factory: pytest.TempPathFactory) -> Path:
    """Such a prefix, with the files installed there."""
    assert archive.tree.is_dir()
    prefix = tmp_path_factory.mktemp("local") / r"""a "b" & c|d's \1"""
    run(ROOT / "tools/install", env=places(PREFIX=str(prefix))).required()
    return prefix


def test_pwhash_runs_below_a_prefix_with_blanks_and_quotes(prefix: Path) -> None:
    assert_result(run(prefix / "bin/pwhash", *HASHED, stdin=b"password\n"), stdout=HASH)


@pytest.mark.needs("pkg-config")
def test_pkg_config_prints_a_prefix_with_blanks_and_quotes(prefix: Path) -> None:
    folder = str(prefix / "lib/pkgconfig")
    command = ("pkg-config", "--cflags", "--libs", "mkpasswd")
    result = run(*command, env={"PKG_CONFIG_PATH": folder}).required()
    expected = [f"-I{prefix}/include", f"-L{prefix}/lib", "-lmkpasswd"]
    assert shlex.split(result.stdout.decode()) == expected


# ---- Refusals


def test_a_prefix_with_a_line_feed_is_refused(tmp_path: Path) -> None:
    environment = places(DESTDIR=str(tmp_path), PREFIX="/usr\n")
    result = run(ROOT / "tools/install", env=environment)
    assert result.status == 2, str(result)
    assert files_below(tmp_path) == []


def test_installed_files_stay_if_something_is_not_built(tmp_path: Path) -> None:
    destination = Destination(tmp_path / "installed")
    destination.install().required()
    program = destination.folder / "usr/bin/mkpasswd"
    before = program.read_bytes()
    built = tmp_path / "built"  # without the libraries
    built.mkdir()
    (built / "mkpasswd").write_bytes(b"another program")
    environment = places(DESTDIR=str(destination.folder), PREFIX="/usr", FROM=str(built))
    result = run(ROOT / "tools/install", env=environment)
    assert result.status == 1 and b"libmkpasswd.a" in result.stderr, str(result)
    assert program.read_bytes() == before


@pytest.mark.parametrize("name", ["PREFIX", "LIBDIR", "PAMDIR"])
def test_a_relative_path_is_refused(name: str, tmp_path: Path) -> None:
    result = run(ROOT / "tools/install", env={"DESTDIR": str(tmp_path), name: "usr"})
    assert result.status == 2, str(result)
    assert files_below(tmp_path) == []
