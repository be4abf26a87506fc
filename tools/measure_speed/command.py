"""The command tools/bench: its options, and what it does in which order."""
from __future__ import annotations

import argparse
import signal
import sys
import tempfile
from collections.abc import Callable, Iterator
from dataclasses import dataclass
from pathlib import Path

from . import counts, logins, memory, pwhash, ratios, seconds
from .conditions import PACKAGE_FOR_PLOTS, conditions_of, versions
from .failure import Stop
from .page import MARKS, fill
from .plots import plot_lengths, plot_methods
from .processes import ROOT
from .programs import LIBRARY, LIBRARY_FOR_V3, MKPASSWD, MODULE, STATIC_PROGRAM, Programs
from .repetition import disagreements, rows_in_both
from .results import Measured, Part, Results, Row, format_results, read_results

DOCUMENTS = ROOT / "docs"
RESULTS = DOCUMENTS / "speed.json"
PAGE = DOCUMENTS / "SPEED.md"
SECONDS_OF_RATIO, SECONDS_IF_SHORT = 5.0, 2.0


@dataclass(frozen=True)
class Options:
    """What the command line says."""

    parts: tuple[Part, ...]
    seconds_of_ratio: float
    builds: dict[str, str]  # paths of programs, by the names that they get in the tables
    writes_documents: bool
    only_writes_page: bool
    compared: Path | None


# The command line


def named_build(text: str) -> tuple[str, str]:
    """Reads NAME=FILE."""
    name, equals, path = text.partition("=")
    if not (name and equals and path):
        raise argparse.ArgumentTypeError(f"{text!r} isn't NAME=FILE")
    return name, path


def argument_parser() -> argparse.ArgumentParser:
    """Returns the parser of the command line."""
    names = ", ".join(part.value for part in Part)
    parser = argparse.ArgumentParser(
        prog="tools/bench",
        description="Measure how fast mkpasswd hashes, and write docs/SPEED.md, its plots, and "
        "docs/speed.json. What is measured has to be built: make bench builds and measures.",
        epilog="Status: 0 if all was measured, or the runs agree; 1 if not; 2 for wrong options. "
        "A run that fails or is interrupted writes nothing.",
    )
    parser.add_argument(
        "--only",
        action="append",
        choices=[part.value for part in Part],
        metavar="PART",
        help=f"measure this part, and leave the others as they are; repeatable. Parts: {names}",
    )
    parser.add_argument(
        "--short",
        action="store_true",
        help=f"measure each ratio for about {SECONDS_IF_SHORT:g} seconds instead of "
        f"{SECONDS_OF_RATIO:g}; print the tables and write nothing",
    )
    parser.add_argument(
        "--build",
        type=named_build,
        action="append",
        default=[],
        metavar="NAME=FILE",
        help="measure one more program in the part builds; print the tables and write nothing; "
        "repeatable",
    )
    instead = parser.add_mutually_exclusive_group()
    instead.add_argument(
        "--page",
        action="store_true",
        help="measure nothing: write the page and its plots from docs/speed.json",
    )
    instead.add_argument(
        "--compare",
        type=Path,
        metavar="FILE",
        help="measure nothing: print the counts and ratios in which docs/speed.json and FILE, a "
        "copy of it from another run, disagree",
    )
    return parser


def read_options() -> Options:
    """Reads the command line. Exits with status 2 if it is wrong."""
    words = argument_parser().parse_args()
    chosen = words.only or [part.value for part in Part]
    return Options(
        parts=tuple(part for part in Part if part.value in chosen),
        seconds_of_ratio=SECONDS_IF_SHORT if words.short else SECONDS_OF_RATIO,
        builds=dict(words.build),
        writes_documents=not (words.short or words.build),
        only_writes_page=words.page,
        compared=words.compare,
    )


# What a run needs


def required_files(options: Options) -> list[Path]:
    """Returns the built files that the parts need."""
    files = [Path(MKPASSWD), LIBRARY]
    if Part.BUILDS in options.parts:
        files += [STATIC_PROGRAM, LIBRARY_FOR_V3, *map(Path, options.builds.values())]
    if {Part.BUILDS, Part.LOGINS} & set(options.parts):
        files.append(MODULE)
    if {Part.STARTS, Part.CORES, Part.LOGINS, Part.MEMORY} & set(options.parts):
        files += [ROOT / "libmkpasswd.so.3", ROOT / "python/src/mkpasswd/_reasons.py"]
    return files


def check_needs(options: Options) -> None:
    """Stops if a file or a package is missing, before anything is measured."""
    for file in required_files(options):
        if not file.exists():
            raise Stop(f"{file} is missing: make bench builds what is measured")
    if options.writes_documents:
        versions([PACKAGE_FOR_PLOTS])
        read_results(RESULTS)


def compile_clients(options: Options, programs: Programs) -> None:
    """Compiles the clients in C that the parts need."""
    if {Part.INSTRUCTIONS, Part.RATIOS, Part.BUILDS} & set(options.parts):
        programs.compile("check", "-lcrypt")
    if Part.BUILDS in options.parts:
        programs.compile_for_v3()
    if {Part.INSTRUCTIONS, Part.RATIOS} & set(options.parts):
        programs.compile("derive", "-lcrypto", "-lsodium")
    if Part.LOGINS in options.parts:
        programs.compile("log_in")


# Measuring


def measure_part(part: Part, options: Options, programs: Programs) -> Iterator[Row]:
    """Measures a part, and yields each row as soon as it is measured."""
    folder, duration = programs.folder, options.seconds_of_ratio
    measures: dict[Part, Callable[[], Iterator[Row]]] = {
        Part.INSTRUCTIONS: lambda: counts.measure(programs),
        Part.RATIOS: lambda: ratios.measure_others(programs, duration),
        Part.BUILDS: lambda: ratios.measure_builds(programs, options.builds, duration, folder),
        Part.STARTS: lambda: pwhash.measure_starts(duration),
        Part.CORES: lambda: pwhash.measure_cores(duration),
        Part.LOGINS: lambda: logins.measure(programs),
        Part.MEMORY: lambda: memory.measure(programs, folder),
        Part.SECONDS: lambda: seconds.measure(programs),
    }
    return measures[part]()


def measure(options: Options, folder: Path) -> Results:
    """Measures the parts, and prints each row as soon as it is measured."""
    check_needs(options)
    conditions = {part: conditions_of(part) for part in options.parts}
    programs = Programs(folder)
    compile_clients(options, programs)
    results = Results()
    for part in options.parts:
        if part is Part.CORES and not pwhash.is_machine_idle():
            print(f"-- {part.value}: not measured, since something else uses the processors")
            continue
        print(f"-- {part.value}", flush=True)
        rows = []
        for row in measure_part(part, options, programs):
            print(row, flush=True)
            rows.append(row)
        results.parts[part] = Measured(conditions[part], tuple(rows))
    return results


# Writing


def print_tables(results: Results) -> None:
    """Prints the tables that the page would get."""
    for mark in MARKS.values():
        if mark.part in results.parts:
            print(f"\n{mark.format(results)}", end="")


def replace_files(texts: dict[Path, str]) -> None:
    """Writes all new files first, then puts them in place of the old ones.

    Signals are blocked meanwhile, so that they don't end the run between two files.
    """
    signals = {signal.SIGINT, signal.SIGTERM}
    with tempfile.TemporaryDirectory(dir=DOCUMENTS) as folder:
        try:
            for path, text in texts.items():
                (Path(folder) / path.name).write_text(text, encoding="utf-8")
            signal.pthread_sigmask(signal.SIG_BLOCK, signals)
            for path in texts:
                (Path(folder) / path.name).replace(path)
        except OSError as error:
            raise Stop(f"{error.filename}: {error.strerror}") from None
        finally:
            signal.pthread_sigmask(signal.SIG_UNBLOCK, signals)


def write_documents(results: Results) -> None:
    """Writes the results, the page and its plots."""
    texts = {
        RESULTS: format_results(results),
        PAGE: fill(PAGE.read_text(encoding="utf-8"), results),
        DOCUMENTS / "speed-lengths.svg": plot_lengths(),
    }
    if Part.RATIOS in results.parts:
        texts[DOCUMENTS / "speed-methods.svg"] = plot_methods(results)
    replace_files(texts)


def compare_with(path: Path) -> int:
    """Prints the numbers in which two runs disagree. Returns 1 if there are any."""
    if not path.exists():
        raise Stop(f"{path} doesn't exist")
    first, second = read_results(path), read_results(RESULTS)
    compared = sum(len(list(rows_in_both(first, second, part))) for part in Part)
    found = list(disagreements(first, second))
    for rows in found:
        print(rows)
    print(f"{compared} rows are in both runs; {len(found)} of them disagree")
    return 1 if found else 0


# The command


def run(options: Options) -> int:
    """Does what the options say, and returns the status."""
    if options.compared is not None:
        return compare_with(options.compared)
    if options.only_writes_page:
        write_documents(read_results(RESULTS))
        return 0
    with tempfile.TemporaryDirectory() as folder:
        results = measure(options, Path(folder))
    if options.writes_documents:
        write_documents(Results({**read_results(RESULTS).parts, **results.parts}))
    else:
        print_tables(results)
    return 0


def main() -> int:
    """Runs the command, and returns its status."""
    options = read_options()
    signal.signal(signal.SIGTERM, signal.default_int_handler)
    try:
        return run(options)
    except Stop as stop:
        print(f"bench: {stop}", file=sys.stderr)
        return 1
    except KeyboardInterrupt:
        return 130
