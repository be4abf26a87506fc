"""The foreign components linked into the files of an artifact: the toolchain's crates, and glibc.

crates.txt names the crates. The toolchain's standard library is one component, which includes all
that those crates use. Only a program without a dynamic linker has glibc.
"""

from __future__ import annotations

import os
import re
import subprocess
import tempfile
from collections.abc import Iterator
from dataclasses import dataclass
from pathlib import Path, PurePath

from sbom.contents import File
from sbom.stop import Stop

# The crate from which a file is built, by the file's name.
CRATES = {
    "mkpasswd": "program",
    "mkpasswd.proved": "program",
    "libmkpasswd.a": "crypt_c",
    "libmkpasswd.so.3": "crypt_c",
    "pam_mkpasswd.so": "crypt_c",
    "mkpasswd.html": "crypt_web",
    "mkpasswd.mjs": "crypt_web",
}
# From elf(5): where an ELF header has two numbers of two bytes, and some of their values.
OFFSET_OF_TYPE = 16
OFFSET_OF_MACHINE = 18
LINKED_ELF = (2, 3)  # a program or a shared library
AARCH64 = 183
LIBC_PACKAGES = {AARCH64: "libc6-dev-arm64-cross"}
LIBC_PACKAGE = "libc6-dev"


@dataclass(frozen=True, order=True)
class Component:
    """A component from somebody else."""

    name: str
    version: str  # empty if this machine doesn't know it
    supplier: str


def output_of(*command: str) -> str:
    """Runs a command, which must succeed, and returns its output."""
    try:
        done = subprocess.run(command, capture_output=True, check=False)
    except OSError as error:
        raise Stop(f"{command[0]}: {error.strerror}") from None
    if done.returncode != 0:
        raise Stop(f"{' '.join(command)}: {done.stderr.decode(errors='replace').strip()}")
    return done.stdout.decode(errors="replace").strip()


def read_crates(path: Path) -> dict[str, list[str]]:
    """Reads crates.txt: the crates that each of ours uses, in lines `name words: crate crate`."""
    crates = {}
    for line in path.read_text(encoding="utf-8").splitlines():
        name, colon, uses = line.partition("#")[0].partition(":")
        if colon:
            crates[name.split()[0]] = uses.split()
    return crates


def number_in_header(content: bytes, offset: int) -> int:
    """Returns a number of an ELF header."""
    return int.from_bytes(content[offset : offset + 2], "little")


def is_dynamic(content: bytes) -> bool:
    """Returns whether a program or a shared library is dynamically linked."""
    with tempfile.NamedTemporaryFile() as file:
        file.write(content)
        file.flush()
        return "(NEEDED)" in output_of("readelf", "--dynamic", "--wide", file.name)


def has_libc(content: bytes) -> bool:
    """Returns whether a file contains the C library."""
    is_elf = content.startswith(b"\x7fELF")
    is_linked = is_elf and number_in_header(content, OFFSET_OF_TYPE) in LINKED_ELF
    return is_linked and not is_dynamic(content)


def libc_of(content: bytes) -> Component:
    """Returns the C library that this machine links into static programs."""
    machine = number_in_header(content, OFFSET_OF_MACHINE)
    package = LIBC_PACKAGES.get(machine, LIBC_PACKAGE)
    try:
        version = output_of("dpkg-query", "--show", "--showformat=${source:Version}", package)
    except Stop:  # another system, on which the version of glibc isn't known
        version = ""
    return Component("glibc", version, "Organization: Debian")


class Components:
    """The components in files that are built from a repository."""

    def __init__(self, root: Path) -> None:
        self.crates = read_crates(root / "crates.txt")
        self.toolchain = output_of(os.environ.get("RT", "rt"), "version")

    def of_file(self, file: File) -> set[Component]:
        """Returns the components in a file. A file without our crates has none."""
        crate = CRATES.get(PurePath(file.name).name)
        if crate is None or not is_code(file):
            return set()
        names = {"rattle", *self.used_by(crate)}
        found = {Component(name, self.toolchain, "NOASSERTION") for name in names}
        if has_libc(file.content):
            found.add(libc_of(file.content))
        return found

    def used_by(self, crate: str) -> Iterator[str]:
        """Yields the toolchain's crates that one of ours uses, itself or through others of ours."""
        for name in self.crates[crate]:
            if name in self.crates:
                yield from self.used_by(name)
            else:
                yield name


def is_code(file: File) -> bool:
    """Returns whether a file is code, not a completion or another file of the same name."""
    is_page = re.search(r"\.(html|mjs)$", file.name) is not None
    return is_page or file.content.startswith((b"\x7fELF", b"!<arch>\n"))
