"""What docs/speed.json holds: the rows of each part of the page, and its date, machine and code.

A part comes from one run. Measuring it again replaces all of it and leaves the other parts, so no
table mixes the numbers of two runs.
"""
from __future__ import annotations

import enum
import json
from collections.abc import Mapping
from dataclasses import asdict, dataclass, field
from pathlib import Path
from typing import Any, TypeVar

from .failure import Stop
from .intervals import Interval, Ratio


class Part(enum.Enum):
    """A part of the page. The value is its name in the file and for --only."""

    INSTRUCTIONS = "instructions"
    RATIOS = "ratios"
    BUILDS = "builds"
    STARTS = "starts"
    CORES = "cores"
    LOGINS = "logins"
    MEMORY = "memory"
    SECONDS = "seconds"


@dataclass(frozen=True)
class Conditions:
    """When and where a part was measured, and which code and packages."""

    date: str
    crates: str  # the hash of that folder in git
    processor: str
    ghz: float
    cores: int
    kernel: str
    versions: dict[str, str]  # of Debian's packages


@dataclass(frozen=True)
class Count:
    """The instructions of a unit of work."""

    unit: str
    program: str
    instructions: float

    def __str__(self) -> str:
        return f"{self.unit:40} {self.program:16} {self.instructions:14,.2f} instructions"


@dataclass(frozen=True)
class Comparison:
    """A ratio: the time of something, divided by the time of what it is compared with."""

    row: str
    name: str
    ratio: Ratio

    def __str__(self) -> str:
        interval = self.ratio.interval
        bounds = f"{interval.lower:.4f} to {interval.upper:.4f}"
        return f"{self.row:40} {self.name:16} {self.ratio.median:10.4f} ({bounds})"


@dataclass(frozen=True)
class Login:
    """The work of a login with one kind of field: instructions, or in node bytes."""

    method: str
    client: str
    field: str
    work: float

    def __str__(self) -> str:
        return f"{self.method:40} {self.client:16} {self.field:17} {self.work:14,.0f}"


@dataclass(frozen=True)
class Memory:
    """The most memory that a command used."""

    row: str
    program: str
    kibibytes: int
    table: int = 0  # KiB of scrypt's table

    def __str__(self) -> str:
        return f"{self.row:40} {self.program:16} {self.kibibytes:10,} KiB"


@dataclass(frozen=True)
class Seconds:
    """The processor time of the fastest run of something."""

    row: str
    fastest: float
    runs: int
    cost: int = 0  # of a hash; 0 if it isn't a hash

    def __str__(self) -> str:
        return f"{self.row:40} {1e3 * self.fastest:27,.5g} ms"


Row = Count | Comparison | Login | Memory | Seconds
AnyRow = TypeVar("AnyRow", Count, Comparison, Login, Memory, Seconds)

ROW_TYPES: Mapping[Part, type[Row]] = {
    Part.INSTRUCTIONS: Count,
    Part.RATIOS: Comparison,
    Part.BUILDS: Comparison,
    Part.STARTS: Comparison,
    Part.CORES: Comparison,
    Part.LOGINS: Login,
    Part.MEMORY: Memory,
    Part.SECONDS: Seconds,
}


@dataclass(frozen=True)
class Measured:
    """A part that was measured."""

    conditions: Conditions
    rows: tuple[Row, ...]


@dataclass
class Results:
    """The parts that were measured."""

    parts: dict[Part, Measured] = field(default_factory=dict)

    def rows(self, part: Part, row_type: type[AnyRow]) -> list[AnyRow]:
        """Returns the rows of a part; none if it wasn't measured."""
        if part not in self.parts:
            return []
        return [row for row in self.parts[part].rows if isinstance(row, row_type)]


# Writing the file


def to_json(value: object) -> str:
    """Formats a value on one line."""
    return json.dumps(value, separators=(",", ":"), ensure_ascii=False)


def format_part(part: Part, measured: Measured) -> str:
    """Formats a part, with a line for each row."""
    conditions = to_json(asdict(measured.conditions))
    rows = ",\n".join(to_json(asdict(row)) for row in measured.rows)
    return f'{to_json(part.value)}:{{"conditions":{conditions},"rows":[\n{rows}]}}'


def format_results(results: Results) -> str:
    """Formats all results, as docs/speed.json has them."""
    parts = [format_part(part, results.parts[part]) for part in Part if part in results.parts]
    return "{" + ",\n".join(parts) + "}\n"


# Reading it


def read_row(row_type: type[Row], values: dict[str, Any]) -> Row:
    """Returns a row of this type from its JSON values."""
    if "ratio" in values:
        ratio = values["ratio"]
        values["ratio"] = Ratio(ratio["median"], Interval(**ratio["interval"]), ratio["pairs"])
    return row_type(**values)


def read_part(part: Part, value: dict[str, Any]) -> Measured:
    """Returns a part's conditions and rows from its JSON value."""
    rows = tuple(read_row(ROW_TYPES[part], row) for row in value["rows"])
    return Measured(Conditions(**value["conditions"]), rows)


def parse_results(text: str) -> Results:
    """Reads what a file holds. Raises ValueError if it isn't as tools/bench writes it."""
    try:
        found = json.loads(text)
        return Results({Part(name): read_part(Part(name), value) for name, value in found.items()})
    except (KeyError, TypeError, AttributeError) as error:
        raise ValueError("not a file of tools/bench") from error


def read_results(path: Path) -> Results:
    """Reads a file of results. No file means that nothing was measured."""
    try:
        return parse_results(path.read_text(encoding="utf-8"))
    except FileNotFoundError:
        return Results()
    except OSError as error:
        raise Stop(f"{path}: {error.strerror}") from None
    except ValueError:
        raise Stop(f"{path} isn't a file that tools/bench wrote: remove it") from None
