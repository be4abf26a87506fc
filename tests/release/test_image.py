"""The container image: it is reproducible, and contains the program."""
from __future__ import annotations

import re
import tempfile
from collections.abc import Iterator
from dataclasses import dataclass
from pathlib import Path

import pytest
from support import ROOT
from support.needs import not_applicable
from support.process import Result, Word, assert_result, run
from support.release import Archive

pytestmark = [
    pytest.mark.needs("skopeo", "umoci"),
    pytest.mark.xdist_group("archive"),  # so that it is packed once
]

NAME = "mkpasswd:test"
LOADED = f"localhost/{NAME}"
HASHED = ("-m", "md5crypt", "-S", "xxxxxxxx", "password")
HASH = b"$1$xxxxxxxx$UYCIxa628.9qXjpQCjM4a.\n"  # libxcrypt's hash
NOTHING_RUNS = rb"^Error: .*OCI (?:permission denied|runtime error)"


def make_image(archive: Archive, file: Path, mask: str = "022", zone: str = "UTC") -> Path:
    """Makes an image of the program in the archive."""
    words = (ROOT / "tools/image", archive.tree / "bin/mkpasswd", NAME, file)
    run("sh", "-c", f'umask {mask} && exec "$0" "$@"', *words, env={"TZ": zone}).required()
    return file


@pytest.fixture(scope="module", name="image")
def fixture_image(archive: Archive, tmp_path_factory: pytest.TempPathFactory) -> Path:
    """The image that tools/image makes of the archive's program."""
    return make_image(archive, tmp_path_factory.mktemp("image") / "image.tar")


def test_another_image_has_the_same_bytes(archive: Archive, image: Path, tmp_path: Path) -> None:
    again = make_image(archive, tmp_path / "again.tar", mask="077", zone="Asia/Tokyo")
    assert again.read_bytes() == image.read_bytes()


def test_it_is_an_image_for_linux_on_amd64(image: Path) -> None:
    template = "{{.Os}} {{.Architecture}}"
    result = run("skopeo", "inspect", "--format", template, f"docker-archive:{image}")
    assert_result(result, stdout=b"linux amd64\n")


def test_a_file_that_is_not_a_program_gives_no_image(tmp_path: Path) -> None:
    file = tmp_path / "image.tar"
    result = run(ROOT / "tools/image", ROOT / "README.md", NAME, file)
    assert result.status == 1 and b"README.md" in result.stderr, str(result)
    assert not file.exists()


# ---- With podman


@dataclass(frozen=True)
class Podman:
    """Podman with its own storage."""

    folder: Path

    def run(self, *words: Word) -> Result:
        """Runs a command of podman."""
        storage = ("--root", self.folder / "storage", "--runroot", self.folder / "run")
        return run("podman", *storage, "--storage-driver", "vfs", *words)


@pytest.fixture(scope="module", name="podman")
def fixture_podman(image: Path) -> Iterator[Podman]:
    """Podman with the image.

    Its folder isn't pytest's, since podman refuses paths of more than 50 characters for its state.
    """
    with tempfile.TemporaryDirectory() as folder:
        podman = Podman(Path(folder))
        podman.run("load", "-i", image).required()
        yield podman
        podman.run("image", "unmount", "--all")


@pytest.mark.needs("podman")
def test_podman_finds_the_program_in_the_image(podman: Podman, archive: Archive) -> None:
    folder = Path(podman.run("image", "mount", LOADED).required().stdout.decode().strip())
    program = folder / "bin/mkpasswd"
    assert program.stat().st_mode & 0o111 == 0o111
    assert program.read_bytes() == (archive.tree / "bin/mkpasswd").read_bytes()


@pytest.mark.needs("podman")
def test_podman_runs_the_program(podman: Podman) -> None:
    options = ("--rm", "--network", "none", "--ulimit", "host")
    result = podman.run("run", *options, LOADED, *HASHED)
    if re.search(NOTHING_RUNS, result.stderr, re.MULTILINE):
        not_applicable("podman can't run anything on this machine")
    assert_result(result, stdout=HASH)
