"""Results of parts, saved as JSON in docs/evidence/PART.json, one for each part.

They are tracked, so a measurement can be continued on another machine. A result counts for every
commit in which the toolchain and the files that it depends on are the same. It is written to
another file and then renamed, so that it is never incomplete.
"""

from __future__ import annotations

import dataclasses
import json
import os
import re
from collections.abc import Collection, Mapping
from dataclasses import dataclass
from datetime import datetime, timezone
from pathlib import Path
from typing import Any, get_args, get_origin, get_type_hints

from measure.errors import Stop
from measure.facts import Found

TIME = "%Y-%m-%dT%H:%M:%SZ"


@dataclass(frozen=True)
class Machine:
    """The machine on which a part ran."""

    processor: str
    cores: int
    memory_gb: int
    kernel: str
    system: str

    def __str__(self) -> str:
        return (
            f"{self.cores} cores of {self.processor}, {self.memory_gb} GB of memory, "
            f"Linux {self.kernel}, {self.system}"
        )


@dataclass(frozen=True)
class Result:
    """How a part ended: it either failed, or found something."""

    part: str
    commit: str
    begun: str  # in the format TIME, like `ended`
    ended: str
    seconds: float
    processor_seconds: float
    machine: Machine
    toolchain: str
    rests_on: dict[str, str]  # the hashes of files, by name
    sizes: dict[str, int]  # the sizes of the command, by name
    failure: str | None
    found: Found | None

    @property
    def date(self) -> str:
        """The day on which the part ended."""
        return self.ended[:10]

    def has_sizes(self, sizes: Mapping[str, int]) -> bool:
        """Returns whether at least as much was measured as these sizes say."""
        return all(self.sizes.get(name, 0) >= size for name, size in sizes.items())


def now() -> str:
    """Returns the current time."""
    return datetime.now(timezone.utc).strftime(TIME)


def stated(pattern: str, path: str) -> str:
    """Returns what a pattern finds in a file of the system, or "unknown"."""
    try:
        text = Path(path).read_text(encoding="utf-8")
    except OSError:
        text = ""
    match = re.search(pattern, text, re.MULTILINE)
    return match[1] if match else "unknown"


def this_machine() -> Machine:
    """Returns the machine on which this runs, with the processors that are left to this process."""
    memory = os.sysconf("SC_PHYS_PAGES") * os.sysconf("SC_PAGE_SIZE")
    return Machine(
        processor=stated(r"^model name\s*: (.*)", "/proc/cpuinfo"),
        cores=len(os.sched_getaffinity(0)),
        memory_gb=round(memory / 1e9),
        kernel=os.uname().release,
        system=stated(r'^PRETTY_NAME="(.*)"', "/etc/os-release"),
    )


# As JSON


def decoded(kind: Any, value: Any) -> Any:
    """Converts a JSON value to a type: a dataclass, a tuple of one type, or a type of JSON."""
    if dataclasses.is_dataclass(kind):
        types = get_type_hints(kind)
        fields = [field.name for field in dataclasses.fields(kind)]
        return kind(**{name: decoded(types[name], value[name]) for name in fields})
    if get_origin(kind) is tuple:
        return tuple(decoded(get_args(kind)[0], item) for item in value)
    return value


def read_result(path: Path, found_type: type) -> Result:
    """Reads from a file the result of a part that finds facts of this type."""
    try:
        whole = json.loads(path.read_text(encoding="utf-8"))
        found = whole.pop("found")
        whole["found"] = None
        result: Result = decoded(Result, whole)
        if found is None:
            return result
        return dataclasses.replace(result, found=decoded(found_type, found))
    except OSError as error:
        raise Stop(f"{path}: {error.strerror}") from None
    except (ValueError, KeyError, TypeError, AttributeError):
        raise Stop(f"{path} is no result of this tool: remove it") from None


def write_whole(path: Path, text: str) -> None:
    """Writes a file completely or not at all, even if the machine stops."""
    part = path.with_name(f"{path.name}.part")
    try:
        path.parent.mkdir(parents=True, exist_ok=True)
        with part.open("w", encoding="utf-8") as file:
            file.write(text)
            file.flush()
            os.fsync(file.fileno())
        part.replace(path)
    except OSError as error:
        raise Stop(f"{path}: {error.strerror}") from None
    finally:
        part.unlink(missing_ok=True)


class Kept:
    """The saved results in a folder, at most one for each part."""

    def __init__(self, folder: Path) -> None:
        self.folder = folder

    def path(self, part: str) -> Path:
        """Returns the path of a part's result."""
        return self.folder / f"{part}.json"

    def keep(self, result: Result) -> None:
        """Saves a result, in place of an earlier one."""
        whole = dataclasses.asdict(result)
        text = json.dumps(whole, indent=1, ensure_ascii=False)
        write_whole(self.path(result.part), f"{text}\n")

    def last(self, part: str, found_type: type) -> Result | None:
        """Returns the last result of a part, whether it still counts or not, if there is one."""
        path = self.path(part)
        return read_result(path, found_type) if path.exists() else None

    def remove_others(self, parts: Collection[str]) -> None:
        """Removes results of parts that no longer exist, such as those of a fuzzer."""
        for path in self.folder.glob("*.json"):
            if path.stem not in parts:
                path.unlink()
