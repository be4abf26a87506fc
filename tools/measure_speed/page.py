"""Fills docs/SPEED.md with what docs/speed.json holds.

Each table or list of the page stands below its mark, `<!-- bench: NAME -->`, and ends with an empty
line. Everything else is written by hand.
"""
from __future__ import annotations

import re
from collections import defaultdict
from collections.abc import Callable, Iterable, Sequence
from dataclasses import asdict, dataclass, replace

from . import seconds
from .failure import Stop
from .intervals import Ratio
from .logins import RIGHT, WRONG
from .results import (
    Comparison,
    Conditions,
    Count,
    Login,
    Memory,
    Part,
    Results,
    Seconds,
    to_json,
)

OURS = "mkpasswd"
PROGRAMS = (OURS, "libmkpasswd", "libxcrypt", "OpenSSL", "libsodium")
OTHER_PROGRAMS = ("libxcrypt", "OpenSSL", "libsodium", "passlib")
BUILDS = ("libmkpasswd", "x86-64", "x86-64-v3", "node", "Chromium")
CLIENTS = ("C", "Python", "node")
BILLION = 1e9

# What the page calls the Debian packages whose versions it gives.
SOFTWARE = {
    "libc6": "glibc",
    "libcrypt1": "libxcrypt",
    "openssl": "OpenSSL",
    "libsodium-dev": "libsodium",
    "python3-passlib": "passlib",
    "python3": "Python",
    "nodejs": "node",
    "chromium": "Chromium",
    "valgrind": "valgrind",
}


# Numbers


def format_number(number: float) -> str:
    """Formats a number with three digits, or with all digits before the point."""
    if number < 1:
        return f"{number:,.3f}"
    if number < 10:
        return f"{number:,.2f}"
    return f"{number:,.1f}" if number < 100 else f"{number:,.0f}"


def format_time(time: float) -> str:
    """Formats seconds, as seconds or a smaller unit."""
    if time >= 1:
        return f"{format_number(time)} s"
    if time >= 1e-4:
        return f"{format_number(1e3 * time)} ms"
    return f"{format_number(1e6 * time)} µs"


def decimals_of(ratio: float) -> int:
    """Returns how many decimals to show of a ratio: the fewer, the larger it is."""
    if ratio < 10:
        return 2
    return 1 if ratio < 100 else 0


def format_ratio(ratio: Ratio) -> str:
    """Formats a ratio and its interval, or says that no difference was found."""
    if ratio.may_be_one and ratio.is_clear:
        return "the same"
    places = decimals_of(ratio.median)
    bounds = f"({ratio.bounds.lower:.{places}f} to {ratio.bounds.upper:.{places}f})"
    return f"unclear {bounds}" if ratio.may_be_one else f"{ratio.median:.{places}f} {bounds}"


def enumerate_words(words: Sequence[str]) -> str:
    """Formats words as `a, b and c`."""
    *first, last = words
    return f"{', '.join(first)} and {last}" if first else last


def format_table(head: Sequence[str], rows: Iterable[Sequence[str]]) -> str:
    """Formats a table in Markdown. All columns but the first hold numbers."""
    lines = [f"| {' | '.join(row)} |\n" for row in (head, *rows)]
    lines.insert(1, "|---" + "|---:" * (len(head) - 1) + "|\n")
    return "".join(lines)


def distinct(names: Iterable[str]) -> list[str]:
    """Returns each name once, in the order of the names."""
    return list(dict.fromkeys(names))


# The parts of the page


def instructions(results: Results) -> str:
    """Returns the table with the instructions of a round of each program."""
    rows = results.rows(Part.INSTRUCTIONS, Count)
    counts = {(row.unit, row.program): f"{row.instructions:,.0f}" for row in rows}
    table = [
        [unit, *(counts.get((unit, program), "") for program in PROGRAMS)]
        for unit in distinct(row.unit for row in rows)
    ]
    return format_table(("Instructions for", *PROGRAMS), table)


def table_of_ratios(rows: Sequence[Comparison], head: str, columns: Sequence[str]) -> str:
    """Returns a table of ratios, with a column for each thing that is compared."""
    cells = {(row.row, row.name): format_ratio(row.ratio) for row in rows}
    table = [
        [name, *(cells.get((name, column), "") for column in columns)]
        for name in distinct(row.row for row in rows)
    ]
    return format_table((head, *columns), table)


def ratios(results: Results) -> str:
    """Returns the table with the times of other programs, relative to mkpasswd's."""
    rows = results.rows(Part.RATIOS, Comparison)
    return table_of_ratios(rows, "Time of a hash, mkpasswd's = 1", OTHER_PROGRAMS)


def builds(results: Results) -> str:
    """Returns the table with the times of other builds, relative to mkpasswd's."""
    rows = results.rows(Part.BUILDS, Comparison)
    return table_of_ratios(rows, "Time of a hash, mkpasswd's = 1", BUILDS)


def starts(results: Results) -> str:
    """Returns the table with the times of commands that make one hash, relative to mkpasswd's."""
    rows = results.rows(Part.STARTS, Comparison)
    columns = distinct(row.name for row in rows)
    return table_of_ratios(rows, "Processor time of a command, mkpasswd's = 1", columns)


def cores(results: Results) -> str:
    """Returns the table that compares pwhash on several cores with pwhash on one."""
    rows = results.rows(Part.CORES, Comparison)
    columns = distinct(row.name for row in rows)
    return table_of_ratios(rows, "`pwhash file`, on one core = 1", columns)


def format_work(rows: Sequence[Login]) -> str:
    """Returns the work of a login with a wrong password, and how far other failed logins deviate.

    Returns "" for a client that wasn't measured.
    """
    if not rows:
        return ""
    base = next(row.work for row in rows if row.field == WRONG)
    failed = [row.work for row in rows if row.field != RIGHT]
    deviation = max(abs(work / base - 1) for work in failed)
    return f"{base:,.0f} (± {100 * deviation:.2f} %)"


def logins(results: Results) -> str:
    """Returns the table with the work of a login, by method and client."""
    rows = results.rows(Part.LOGINS, Login)
    table = []
    for method in distinct(row.method for row in rows):
        of_method = [row for row in rows if row.method == method]
        cells = [format_work([row for row in of_method if row.client == name]) for name in CLIENTS]
        table.append([method, *cells])
    units = {"node": "bytes in node"}
    heads = [units.get(name, f"instructions in {name}") for name in CLIENTS]
    return format_table(("A login with", *heads), table)


def memory(results: Results) -> str:
    """Returns the table with the most memory that each command uses."""
    table = []
    for row in results.rows(Part.MEMORY, Memory):
        share = f"{row.kibibytes / row.table:.3f}" if row.table else ""
        table.append([row.row, row.program, f"{row.kibibytes:,} KiB", share])
    return format_table(("", "Command", "Memory", "scrypt's table = 1"), table)


def times(results: Results) -> str:
    """Returns the table with the times of hashes and of an audit."""
    table = []
    for row in results.rows(Part.SECONDS, Seconds):
        if row.row.startswith(seconds.SLOWEST):
            method = row.row.removeprefix(seconds.SLOWEST)
            time = format_time(row.fastest * BILLION / row.cost)
            table.append([f"the slowest {method} of a cost of a billion", f"{BILLION:,.0f}", time])
        else:
            cost = f"{row.cost:,}" if row.cost else ""
            table.append([row.row, cost, format_time(row.fastest)])
    return format_table(("", "Cost", "Processor time"), table)


# Where and when


def machine(conditions: Conditions) -> str:
    """Returns the description of the machine that a part was measured on."""
    processor = re.sub(r"\(R\)| Processor| CPU| @.*", "", conditions.processor)
    kernel = ".".join(conditions.kernel.split(".")[:2])
    return f"{conditions.cores} cores of a {conditions.ghz:g} GHz {processor}, Linux {kernel}"


def upstream_version(version: str) -> str:
    """Returns a version without what Debian adds: epoch and revision."""
    return re.sub(r"[-+~].*", "", re.sub(r"^\d+:", "", version))


def where(results: Results) -> str:
    """Returns when, where and on which code parts were measured, with a line for all that agree."""
    groups = defaultdict(list)
    for part in (part for part in Part if part in results.parts):
        in_common = replace(results.parts[part].conditions, versions={})
        groups[to_json(asdict(in_common))].append(part)
    return "".join(line_of(parts, results) for parts in groups.values())


def line_of(parts: Sequence[Part], results: Results) -> str:
    """Returns the line of parts that were measured on one day and machine, with the same code."""
    conditions = results.parts[parts[0]].conditions
    versions: dict[str, str] = {}
    for part in parts:
        versions.update(results.parts[part].conditions.versions)
    software = [
        f"{name} {upstream_version(versions[package])}"
        for package, name in SOFTWARE.items()
        if package in versions
    ]
    return (
        f"- {enumerate_words([part.value for part in parts])}: {conditions.date}, on "
        f"{machine(conditions)}, {enumerate_words(software)}; `git rev-parse HEAD:crates` begins "
        f"with `{conditions.crates[:8]}`\n"
    )


def machine_of_times(results: Results) -> str:
    """Returns a sentence with the runs and the machine of the times."""
    runs = max(row.runs for row in results.rows(Part.SECONDS, Seconds))
    conditions = results.parts[Part.SECONDS].conditions
    return f"The fastest of {runs} runs each, on {machine(conditions)}.\n"


@dataclass(frozen=True)
class Mark:
    """What stands below a mark, and the part that it shows; None for all parts."""

    part: Part | None
    format: Callable[[Results], str]


MARKS = {
    "instructions": Mark(Part.INSTRUCTIONS, instructions),
    "ratios": Mark(Part.RATIOS, ratios),
    "builds": Mark(Part.BUILDS, builds),
    "starts": Mark(Part.STARTS, starts),
    "cores": Mark(Part.CORES, cores),
    "logins": Mark(Part.LOGINS, logins),
    "memory": Mark(Part.MEMORY, memory),
    "times": Mark(Part.SECONDS, times),
    "machine": Mark(Part.SECONDS, machine_of_times),
    "where": Mark(None, where),
}


def fill(page: str, results: Results) -> str:
    """Returns the page with the results. What shows a part that wasn't measured stays as it is."""

    def filled_mark(found: re.Match[str]) -> str:
        name = found[2]
        if name not in MARKS:
            raise Stop(f"docs/SPEED.md: there is no mark {name}")
        mark = MARKS[name]
        if mark.part is not None and mark.part not in results.parts:
            return found[0]
        return found[1] + mark.format(results)

    return re.sub(r"^(<!-- bench: (\w+) -->\n)(?:.+\n)*", filled_mark, page, flags=re.MULTILINE)
