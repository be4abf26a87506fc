"""Packs the release archives, and unpacks them as a user does."""
from __future__ import annotations

import re
from dataclasses import dataclass
from pathlib import Path

from . import ROOT
from .needs import built
from .process import Changes, Result, run

SUMS = "share/doc/mkpasswd/SHA256SUMS"


def version() -> str:
    """Returns the version of this tree."""
    return run(ROOT / "tools/version").required().stdout.decode().strip()


def processor_of_build() -> str:
    """Returns the processor that make built the archive for."""
    path = ROOT / "build/cpu"
    named = path.read_text(encoding="ascii").strip() if path.exists() else ""
    return named or "x86-64"


def files_below(folder: Path) -> list[str]:
    """Returns the files and links below a folder, without the folders."""
    return sorted(
        str(path.relative_to(folder))
        for path in folder.rglob("*")
        if path.is_symlink() or not path.is_dir()
    )


@dataclass(frozen=True)
class Archive:
    """An archive, and the folder in which it is unpacked."""

    file: Path
    tree: Path

    @property
    def documents(self) -> Path:
        """The folder of the archive's documents."""
        return self.tree / "share/doc/mkpasswd"

    @property
    def readme(self) -> str:
        """The text of the archive's README."""
        return (self.documents / "README").read_text(encoding="utf-8")


def pack(
    processor: str, file: Path, mask: str = "022", environment: Changes | None = None
) -> Result:
    """Packs the build for a processor."""
    for path in ("build/site", "build/mkpasswd.mjs", f"build/{processor}/mkpasswd"):
        built(path, "dist")
    changes: dict[str, str | None] = {"ARCHIVE": str(file), **(environment or {})}
    script = f'umask {mask} && exec "$0" "$1"'
    return run("sh", "-c", script, ROOT / "tools/pack", processor, env=changes)


def packed(processor: str, folder: Path) -> Archive:
    """Packs the archive for a processor, and unpacks it in a folder."""
    # An archive's name has only the architecture. Other processors are kinds of x86_64.
    machine = "aarch64" if processor == "aarch64" else "x86_64"
    archive = Archive(folder / f"mkpasswd-{version()}-{machine}-linux.tar.gz", folder / "tree")
    pack(processor, archive.file).required()
    archive.tree.mkdir()
    run(
        *("tar", "--extract", "--strip-components=1"),
        *("--directory", archive.tree, "--file", archive.file),
    ).required()
    return archive


def oldest_glibc(library: Path) -> str:
    """Returns the oldest version of glibc that a library runs with."""
    found = re.findall(rb"\bGLIBC_([\d.]+)", run("objdump", "-p", library).required().stdout)
    assert found, f"{library} names no version of glibc"
    numbers = [tuple(int(part) for part in text.split(b".")) for text in found]
    return ".".join(str(part) for part in max(numbers))
