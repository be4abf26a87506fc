"""Builds the Debian packages with tools/deb, and installs them in roots of Debian releases.

A root is made once and never changes: each test works in an overlay over it.
"""
from __future__ import annotations

import contextlib
import os
import shutil
from dataclasses import dataclass
from pathlib import Path
from typing import Iterator

import pytest

from . import ROOT
from .needs import built, missing
from .process import Result, Word, run

PACKAGES = (
    "libmkpasswd-dev",
    "libmkpasswd3",
    "libpam-mkpasswd",
    "mkpasswd",
    "pwhash",
    "python3-mkpasswd",
)
# The other packages of a root: those that ours depend on, those that tests need, and those that
# share names with ours.
OTHERS = (
    "autopkgtest",
    "bash-completion",
    "dpkg-dev",
    "gcc",
    "libc6-dev",
    "lintian",
    "libpam-pwdfile",
    "man-db",
    "pamtester",
    "parallel",
    "pkgconf",
    "python3",
    "sse4.2-support",
    "whois",
)
RELEASES = {"bookworm": "Debian 12", "trixie": "Debian 13"}
OLDEST = "bookworm"
# For a second after dpkg has changed something, apt trusts a stale cache, so it runs without one.
APT = "apt-get -q -y --no-install-recommends -o Dir::Cache::pkgcache="
LONGEST_BUILD = 900  # seconds
LONGEST_SCRIPT = 1200  # seconds that a script in a root may take
LONGEST_BOOTSTRAP = 1800  # seconds
LAST_LINES = 60  # lines of a script's output that a failure shows
# Scripts for sh. $0 has the overlay's read-only folders, and $1 is the folder of its layer. ENTER
# runs the script $2 in the root.
LAYER = """
mount -t overlay overlay -o "lowerdir=$0,upperdir=$1/changes,workdir=$1/work" "$1/root"
"""
# GNU parallel warns without /dev/pts, and counts no processors without /sys.
ENTER = f"""{LAYER}
mount -t proc proc "$1/root/proc"
mount --rbind /sys "$1/root/sys"
mount --bind /dev/pts "$1/root/dev/pts"
exec chroot "$1/root" sh -euc "$2"
"""
# Folders that change without an installation, or where dpkg keeps its own state.
UNWATCHED = (
    *("/proc", "/sys", "/dev", "/tmp", "/debs", "/changed", "/source"),
    *("/var/cache", "/var/lib/apt", "/var/lib/dpkg", "/var/log"),
)
# Begins a command that gets nothing of the tests' environment.
BARE = (
    "env",
    "-i",
    "PATH=/usr/sbin:/usr/bin:/sbin:/bin",
    "HOME=/root",
    "LC_ALL=C.UTF-8",
    "DEBIAN_FRONTEND=noninteractive",
)
UNSHARE = ("unshare", "--mount", "--pid", "--fork", "--kill-child")


def release(suite: str) -> object:
    """Returns a Debian release as a parameter of tests.

    One worker runs all tests of a release, so that its root is made once.
    """
    title = RELEASES[suite]
    return pytest.param(suite, id=title, marks=pytest.mark.xdist_group(title))


def need_packages() -> None:
    """Skips the test unless DEB=1 or STRICT=1 is set and packages can be built here."""
    if "1" not in (os.environ.get("DEB"), os.environ.get("STRICT")):
        missing("DEB=1", "tests of the packages take ten minutes and 3 GB")
    for path in ("libmkpasswd.so.3", "build/x86-64-v3/libmkpasswd.so.3"):
        built(path, "deb")
    for path in ("mkpasswd/_reasons.py", "mkpasswd_version.py"):
        built(f"python/src/{path}", "lib")
    built("build/site", "site")
    built("build/mkpasswd.mjs", "web")


@dataclass(frozen=True)
class Packages:
    """The packages in a folder."""

    folder: Path

    def names(self) -> list[str]:
        """Returns the names of the packages."""
        return sorted(path.name.partition("_")[0] for path in self.folder.iterdir())

    def file(self, name: str) -> Path:
        """Returns the path of a package's file."""
        (path,) = self.folder.glob(f"{name}_*.deb")
        return path

    def field(self, name: str, field: str) -> str:
        """Returns a field of a package's control file."""
        result = run("dpkg-deb", "-f", self.file(name), field).required()
        return result.stdout.decode().strip()


def build_packages(folder: Path) -> Packages:
    """Builds the packages of this tree."""
    run(ROOT / "tools/deb", folder, timeout=LONGEST_BUILD).required()
    return Packages(folder)


def change_package(package: Path, folder: Path, script: str, *words: Word) -> Path:
    """Copies a package into a folder, and changes the copy with a script, run in its DEBIAN folder.

    The script gets the words as $0, $1 and so on.
    """
    tree, changed = folder / "tree", folder / "changed.deb"
    folder.mkdir()
    run("dpkg-deb", "-R", package, tree).required()
    run("sh", "-euc", script, *words, cwd=tree / "DEBIAN").required()
    run("dpkg-deb", "-b", tree, changed).required()
    shutil.rmtree(tree)
    return changed


# ---- Roots


def mirror() -> str | None:
    """Returns the URL of a Debian mirror: MIRROR, or the first one in apt's sources."""
    listed = run("apt-get", "indextargets", "--format", "$(REPO_URI)", "Created-By: Packages")
    lines = listed.stdout.decode().splitlines()
    return os.environ.get("MIRROR") or (lines[0] if lines else None)


def make_root(suite: str, folder: Path) -> None:
    """Makes a root of a Debian release in a folder.

    The root keeps apt's package lists, since tests reinstall whois.
    """
    options: list[Word] = ["--variant=minbase", "--skip=cleanup", f"--include={','.join(OTHERS)}"]
    address = mirror()
    source: list[Word] = [address] if address else []
    command = ("mmdebstrap", *options, suite, folder, *source)
    result = run(*command, timeout=LONGEST_BOOTSTRAP)
    if result.status != 0:
        missing(f"a root of {suite}", f"mmdebstrap says: {last_error(result)}")


def last_error(result: Result) -> str:
    """Returns the last line that a command printed on standard error."""
    return result.stderr.decode(errors="replace").strip().rpartition("\n")[2]


@dataclass(frozen=True)
class Root:
    """An overlay: read-only folders, and one folder above them that takes all changes."""

    lower: tuple[Path, ...]  # the read-only folders, topmost first
    layer: Path

    def run(self, script: str) -> Result:
        """Runs a script in the root, in namespaces that end with it."""
        lower = ":".join(str(path) for path in self.lower)
        command = (*BARE, *UNSHARE, "sh", "-euc", ENTER, lower, self.layer, script)
        return run(*command, timeout=LONGEST_SCRIPT)

    def output_of(self, script: str) -> str:
        """Runs a script that must succeed, and returns what it prints."""
        result = self.run(script)
        if result.status != 0 or result.has_timed_out:
            lines = (result.stdout + result.stderr).decode(errors="replace").splitlines()
            expected = f"expected status: 0\nits status: {result.status}\nthe script: {script}"
            raise AssertionError("\n".join([expected, *lines[-LAST_LINES:]]))
        return result.stdout.decode(errors="replace")

    def files(self) -> set[str]:
        """Returns the paths of all files outside the folders in UNWATCHED."""
        pruned = " -o ".join(f"-path {path}" for path in UNWATCHED)
        return set(self.output_of(f"find / \\( {pruned} \\) -prune -o -print").splitlines())


def need_layers(folder: Path) -> None:
    """Skips the test unless overlays can be mounted. Tries that in this folder, which is empty."""
    lower = folder / "lower"
    lower.mkdir()
    with layer_over(lower, folder=folder / "attempt") as root:
        result = run(*UNSHARE, "sh", "-euc", LAYER, root.lower[0], root.layer)
    if result.status != 0:
        missing("overlayfs", last_error(result))


@contextlib.contextmanager
def layer_over(*lower: Path, folder: Path) -> Iterator[Root]:
    """Makes a writable root over others, in an empty or new folder. Removes it after the block."""
    for name in ("changes", "work", "root"):
        (folder / name).mkdir(parents=True)
    (folder / "changes").chmod(0o755)  # which is the mode of / in the root
    try:
        yield Root(lower, folder)
    finally:
        shutil.rmtree(folder)


def above(root: Root, folder: Path) -> contextlib.AbstractContextManager[Root]:
    """Makes a writable root over another one, which must not change any more."""
    return layer_over(root.layer / "changes", *root.lower, folder=folder)
