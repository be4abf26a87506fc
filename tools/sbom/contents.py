"""Lists the files in an artifact: an archive, a wheel, an npm or Debian package, an image."""

from __future__ import annotations

import io
import json
import subprocess
import tarfile
import zipfile
from collections.abc import Callable, Iterator
from dataclasses import dataclass
from pathlib import Path

from sbom.stop import Stop


@dataclass(frozen=True)
class File:
    """A file in an artifact. Links and folders don't count."""

    name: str  # its path in the artifact
    content: bytes


def files_of_tar(content: bytes) -> Iterator[File]:
    """Yields the files in a tar archive, compressed or not."""
    with tarfile.open(fileobj=io.BytesIO(content)) as archive:
        for member in archive.getmembers():
            file = archive.extractfile(member) if member.isfile() else None
            if file is not None:
                yield File(member.name.removeprefix("./"), file.read())


def files_of_archive(path: Path) -> Iterator[File]:
    """Yields the files in an archive, or in an npm package."""
    return files_of_tar(path.read_bytes())


def files_of_image(path: Path) -> Iterator[File]:
    """Yields the files that a container sees: those in the image's layers."""
    blobs = {file.name: file.content for file in files_of_archive(path)}
    try:
        layers = json.loads(blobs["manifest.json"])[0]["Layers"]
        for layer in layers:
            yield from files_of_tar(blobs[layer])
    except (KeyError, IndexError, ValueError):
        raise Stop(f"{path}: its manifest.json names no layers that it has") from None


def files_of_wheel(path: Path) -> Iterator[File]:
    """Yields the files in a wheel."""
    with zipfile.ZipFile(path) as archive:
        for entry in archive.infolist():
            if not entry.is_dir():
                yield File(entry.filename, archive.read(entry))


def files_of_debian_package(path: Path) -> Iterator[File]:
    """Yields the files that a Debian package installs."""
    command = ["dpkg-deb", "--fsys-tarfile", str(path)]
    try:
        done = subprocess.run(command, capture_output=True, check=False)
    except FileNotFoundError:
        raise Stop("a Debian package is missing: dpkg") from None
    if done.returncode != 0:
        raise Stop(f"{path}: dpkg-deb says: {done.stderr.decode(errors='replace').strip()}")
    return files_of_tar(done.stdout)


# By the end of an artifact's name. The first match counts.
READERS: dict[str, Callable[[Path], Iterator[File]]] = {
    "-image.tar": files_of_image,
    ".tar.gz": files_of_archive,
    ".tgz": files_of_archive,
    ".whl": files_of_wheel,
    ".deb": files_of_debian_package,
}


def files_of(path: Path) -> list[File]:
    """Returns the files in an artifact, sorted by name."""
    reader = next(read for end, read in READERS.items() if path.name.endswith(end))
    try:
        return sorted(reader(path), key=lambda file: file.name)
    except (OSError, EOFError, tarfile.TarError, zipfile.BadZipFile) as error:
        reason = (
            error.strerror if isinstance(error, OSError) and error.strerror else "it is damaged"
        )
        raise Stop(f"{path}: {reason}") from None
