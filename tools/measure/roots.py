"""New roots of Debian, in which make check runs as on a fresh machine.

A root has the packages of tests/packages.txt, the commit's files and the toolchain. The toolchain's
folder is read-only there, and its saved proofs aren't there, so that the gate proves everything.
"""

from __future__ import annotations

import os
import re
import shutil
from dataclasses import dataclass
from pathlib import Path

from measure.errors import Failed
from measure.repository import Repository
from measure.workplace import Workplace, answer_of, toolchains_command

PACKAGES = "tests/packages.txt"
PLACE = "root/mkpasswd"  # the clone's path in the root
OLDEST_NODE = 20  # the oldest version that mkpasswd.mjs supports
# podman and namespaces don't work in a chroot, so this uses pivot_root. $0 is the root, $1 the
# toolchain's folder, and the other arguments are a command.
ENTER = """
root=$0 kit=$1
shift
mount --bind "$root" "$root"
for place in sys dev; do mount --rbind "/$place" "$root/$place"; done
mount -t proc proc "$root/proc"
mount --bind "$kit" "$root$kit"
mount -o remount,bind,ro "$root$kit"
cp /etc/resolv.conf "$root/etc/"
cd "$root"
mkdir old
pivot_root . old
umount --lazy /old
rmdir /old
exec "$@"
"""
# The namespaces, with their mounts and processes, end with the command, however that ends.
UNSHARE = ("unshare", "--mount", "--pid", "--fork", "--kill-child")
BARE = (
    "env",
    "-i",
    "PATH=/usr/local/bin:/usr/sbin:/usr/bin:/sbin:/bin",
    "HOME=/root",
    "LC_ALL=C.UTF-8",
)


@dataclass(frozen=True)
class Debian:
    """A release of Debian."""

    number: int
    suite: str
    has_node: bool  # whether its node is new enough


RELEASES = (Debian(12, "bookworm", has_node=False), Debian(13, "trixie", has_node=True))


def packages(repository: Repository, commit: str) -> list[str]:
    """Returns the packages that tests need: the first word of each line in tests/packages.txt."""
    text = re.sub(r"#.*", "", repository.text_of(commit, PACKAGES))
    return [line.split()[0] for line in text.splitlines() if line.strip()]


def mirror_of_this_machine() -> str:
    """Returns the first Debian mirror in apt's sources."""
    format_words = ("--format", "$(REPO_URI)", "Created-By: Packages")
    listed = answer_of("apt-get", "indextargets", *format_words).splitlines()
    if not listed:
        raise Failed("apt has no mirror of Debian here: name one by --mirror")
    return listed[0]


def copy_node(root: Path) -> None:
    """Copies this machine's node into a root whose own node is too old."""
    node = shutil.which("node")
    version = answer_of(node, "--version") if node else "v0"
    if node is None or int(version.removeprefix("v").partition(".")[0]) < OLDEST_NODE:
        raise Failed(f"Debian 12 has no node of {OLDEST_NODE} or later, and this machine neither")
    shutil.copy(node, root / "usr/local/bin")


def make_root(place: Workplace, debian: Debian, root: Path) -> None:
    """Makes a root with everything that make check needs."""
    if os.geteuid() != 0:
        raise Failed("only root can make a root of Debian")
    wanted = ",".join(packages(place.repository, place.commit))
    mirror = place.options.mirror or mirror_of_this_machine()
    # The root keeps apt's package lists, for tests that make roots.
    options = ("--variant=minbase", "--skip=cleanup", f"--include={wanted}")
    command = ("mmdebstrap", *options, debian.suite, root, mirror)
    place.run(*UNSHARE, "--mount-proc", *command, cwd=root.parent)
    if not debian.has_node:
        copy_node(root)
    place.new_clone(root / PLACE)


def run_in_root(place: Workplace, root: Path, *command: str) -> None:
    """Runs a command in a root, in namespaces that end with it."""
    kit = Path(answer_of(toolchains_command(), "doc")).parent
    inside = root / kit.relative_to("/")
    inside.mkdir(parents=True)
    (root / "usr/local/bin/rt").symlink_to(kit / "bin/rt")
    entered = ("sh", "-euc", ENTER, root, kit)
    place.run(*UNSHARE, *entered, *BARE, *command, cwd=root.parent)
