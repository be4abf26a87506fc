"""Helpers for the tools that install and pack: version, time, archives, requirements of code.

These tools run by `python3 -B`, so that root leaves no compiled modules in a user's clone.
"""

from __future__ import annotations

import contextlib
import enum
import os
import re
import shutil
import signal
import subprocess
import sys
import tarfile
import tempfile
from collections.abc import Callable, Iterator, Mapping
from datetime import datetime, timezone
from pathlib import Path
from types import FrameType

ROOT = Path(__file__).resolve().parent.parent
DATED_MANUAL = ROOT / "man/mkpasswd.1"
ELF_MAGIC = b"\x7fELF"  # how a file of machine code begins
MACHINE_OFFSET = 18  # of the two bytes of e_machine in the header
PLACE = re.compile(r"@([A-Z_]+)@")  # a placeholder in a template, such as @VERSION@


class Stop(Exception):
    """A tool stops. The text says why."""


class Machine(enum.Enum):
    """A family of processors. The value is its number in an ELF header."""

    X86_64 = 62
    AARCH64 = 183


@contextlib.contextmanager
def naming(file: Path) -> Iterator[None]:
    """Puts a file's name before the reason if the block stops."""
    try:
        yield
    except Stop as stop:
        raise Stop(f"{file}: {stop}") from None


@contextlib.contextmanager
def changing(path: Path) -> Iterator[None]:
    """Stops with a sentence that names a file or folder if the block fails to change it."""
    try:
        yield
    except OSError as error:
        raise Stop(f"{path}: {error.strerror}.") from None


def output_of(*command: str | Path) -> str:
    """Runs a command, and returns its output. Stops the tool if the command fails."""
    try:
        done = subprocess.run(
            command,
            stdin=subprocess.DEVNULL,
            stdout=subprocess.PIPE,
            stderr=subprocess.PIPE,
            env={**os.environ, "LC_ALL": "C"},
            check=False,
        )
    except OSError as error:
        raise Stop(f"{command[0]} can't be run: {error.strerror}.") from None
    if done.returncode != 0:
        message = done.stderr.decode(errors="replace").strip()
        raise Stop(f"{command[0]} ended with status {done.returncode}: {message}")
    return done.stdout.decode(errors="replace")


def read_bytes(file: Path, made_by: str = "make") -> bytes:
    """Returns the content of a file that is built or in the repository."""
    try:
        return file.read_bytes()
    except FileNotFoundError:
        raise Stop(f"there is no {file}: run {made_by} first.") from None
    except OSError as error:
        raise Stop(f"{file}: {error.strerror}.") from None


def version() -> str:
    """Returns the version of the tree."""
    printed = output_of(ROOT / "tools/version").strip()
    if not printed:
        raise Stop("tools/version finds no version.")
    return printed


def time_of_files() -> int:
    """Returns the timestamp for all packed files, in seconds since 1970.

    That is SOURCE_DATE_EPOCH, or else the date of mkpasswd's manual, so that the same files give
    the same bytes whenever they are packed.
    """
    given = os.environ.get("SOURCE_DATE_EPOCH")
    if given:
        if not re.fullmatch("[0-9]+", given):
            raise Stop(f"SOURCE_DATE_EPOCH has to be a number of seconds, and {given} is none.")
        return int(given)
    # `.Dd November 30, 2026`
    found = re.search(r"^\.Dd (.+)$", read_bytes(DATED_MANUAL).decode(), re.MULTILINE)
    if not found:
        raise Stop(f"{DATED_MANUAL} has no line .Dd with its date.")
    try:
        date = datetime.strptime(found[1], "%B %d, %Y")
    except ValueError:
        raise Stop(f"{DATED_MANUAL}: {found[1]} is no date such as January 31, 2026.") from None
    return int(date.replace(tzinfo=timezone.utc).timestamp())


def with_value(text: str, start: str, value: str) -> str:
    """Returns a text with a value in the one line that begins with `start`, such as `modules=`."""
    pattern = rf"^{re.escape(start)}.*$"
    changed, count = re.subn(pattern, lambda _: f"{start}{value}", text, flags=re.MULTILINE)
    if count != 1:
        raise Stop(f"{count} lines begin with {start}, and one has to.")
    return changed


def filled(template: str, values: Mapping[str, str | None]) -> str:
    """Fills a template's placeholders, and removes lines whose placeholder has the value None."""

    def value_of(place: re.Match[str]) -> str:
        return values[place[1]] or ""

    lines = []
    for line in template.splitlines(keepends=True):
        names = PLACE.findall(line)
        unknown = [name for name in names if name not in values]
        if unknown:
            raise Stop(f"nothing fills the place @{unknown[0]}@.")
        if all(values[name] is not None for name in names):
            lines.append(PLACE.sub(value_of, line))
    return "".join(lines)


def machine_of(file: Path) -> Machine:
    """Returns the processors that a file of machine code is for."""
    header = read_bytes(file)[: MACHINE_OFFSET + 2]
    number = int.from_bytes(header[MACHINE_OFFSET:], "little")
    numbers = {machine.value for machine in Machine}
    if not header.startswith(ELF_MAGIC) or number not in numbers:
        raise Stop(f"{file} has no machine code for x86-64 or ARM.")
    return Machine(number)


def oldest_glibc(file: Path) -> str:
    """Returns the oldest version of glibc that has every symbol that a shared library needs."""
    # `0x0020:   Name: GLIBC_2.25  Flags: none  Version: 3`
    found = re.findall(r"\bName: GLIBC_(\S+)", output_of("readelf", "--version-info", file))
    unknown = [name for name in found if not re.fullmatch(r"\d+(\.\d+)+", name)]
    if unknown:
        raise Stop(f"{file} needs GLIBC_{unknown[0]}, which is no version.")
    if not found:
        raise Stop(f"{file} needs no version of glibc.")
    newest = max([int(number) for number in name.split(".")] for name in found)
    return ".".join(map(str, newest))


def files_below(folder: Path) -> list[str]:
    """Returns the names of all files and links below a folder, sorted by bytes."""
    paths = [path for path in folder.rglob("*") if path.is_symlink() or not path.is_dir()]
    return sorted(str(path.relative_to(folder)) for path in paths)


def write_tar(archive: Path, folder: Path, time: int) -> None:
    """Writes all files and links below a folder into an archive, whose bytes depend only on them.

    Python's tarfile writes the same headers on Debian 12 and 13; those of GNU tar differ.
    """

    def same_everywhere(member: tarfile.TarInfo) -> tarfile.TarInfo:
        member.uid = member.gid = 0
        member.uname = member.gname = ""
        member.mtime = time
        member.mode = 0o755 if member.mode & 0o111 else 0o644
        return member

    with changing(archive), tarfile.open(archive, "w", format=tarfile.USTAR_FORMAT) as tar:
        for name in files_below(folder):
            tar.add(folder / name, name, recursive=False, filter=same_everywhere)


def check_python_modules(source: Path) -> None:
    """Stops if a module that make writes for the Python package is missing or outdated."""
    read_bytes(source / "src/mkpasswd/_reasons.py", "make lib")
    module = source / "src/mkpasswd_version.py"
    if f'"{version()}"' not in read_bytes(module, "make lib").decode():
        raise Stop(f"{module} has another version: run make lib.")


def copy_python(folder: Path, *packages: str) -> None:
    """Copies the files that Python's tools need to build these packages into a folder."""
    source = ROOT / "python"
    check_python_modules(source)
    names = ["pyproject.toml", "src/mkpasswd_version.py"]
    for package in packages:
        modules = (source / "src" / package).glob("*.py")
        names += [f"src/{package}/py.typed", *(str(file.relative_to(source)) for file in modules)]
    with changing(folder):
        for name in names:
            (folder / name).parent.mkdir(parents=True, exist_ok=True)
            shutil.copyfile(source / name, folder / name)


def install_below(folder: Path, **places: str) -> None:
    """Installs, below a folder, what make has built: by tools/install, with these variables."""
    environment = {**os.environ, **places, "DESTDIR": str(folder)}
    done = subprocess.run([ROOT / "tools/install"], env=environment, check=False)
    if done.returncode != 0:
        raise Stop("tools/install failed.")


def put_in_place(file: Path, target: Path) -> None:
    """Copies a finished file to its place, where it appears complete or not at all."""
    part = target.with_name(f"{target.name}.part")
    with changing(target):
        target.parent.mkdir(parents=True, exist_ok=True)
        try:
            shutil.copyfile(file, part)
            part.replace(target)
        finally:
            part.unlink(missing_ok=True)


@contextlib.contextmanager
def scratch_folder() -> Iterator[Path]:
    """Makes a folder that is removed at the end of the block."""
    with tempfile.TemporaryDirectory(prefix="mkpasswd-") as folder:
        yield Path(folder)


def end_by_signal(number: int, _frame: FrameType | None) -> None:
    """Ends the tool with the shell's status for the signal, after its blocks have cleaned up."""
    sys.exit(128 + number)


def run_tool(main: Callable[[], None]) -> None:
    """Runs a tool, and prints why it stops. A signal leaves no scratch folder."""
    tool = Path(sys.argv[0]).name
    for number in (signal.SIGINT, signal.SIGTERM, signal.SIGHUP):
        if signal.getsignal(number) is not signal.SIG_IGN:
            signal.signal(number, end_by_signal)
    try:
        main()
    except Stop as stop:
        sys.exit(f"{tool}: {stop}")
    except OSError as error:  # an unexpected one, such as a full disk below /tmp
        place = error.filename or tempfile.gettempdir()
        sys.exit(f"{tool}: {place}: {error.strerror}.")
