"""Numbers, times, code and tables, as the page shows them."""

from __future__ import annotations

from collections.abc import Iterable, Sequence


def table(head: Sequence[str], rows: Iterable[Sequence[str]], numbers: bool = False) -> str:
    """Returns a table in Markdown. With `numbers`, all columns but the first are right-aligned."""
    rule = "---:" if numbers else "---"
    lines = [head, ["---", *[rule] * (len(head) - 1)], *rows]
    return "".join(f"| {' | '.join(map(in_cell, line))} |\n" for line in lines)


def in_cell(text: str) -> str:
    """Returns a text for a cell of a table, with bars escaped."""
    return text.replace("|", "\\|").replace("\n", " ")


def code(text: str) -> str:
    """Returns a text as inline code, even if it contains backticks."""
    quotes = "``" if "`" in text else "`"
    space = " " if "`" in text else ""
    return f"{quotes}{space}{text}{space}{quotes}"


def number(count: int) -> str:
    """Returns a number with commas."""
    return f"{count:,}"


def ranges(numbers: Iterable[int]) -> str:
    """Returns numbers in order, with consecutive ones as in `1 to 4, 7`."""
    found: list[list[int]] = []
    for each in sorted(numbers):
        if found and each == found[-1][-1] + 1:
            found[-1].append(each)
        else:
            found.append([each])
    return ", ".join(f"{run[0]} to {run[-1]}" if len(run) > 1 else str(run[0]) for run in found)


def duration(seconds: float) -> str:
    """Returns a time in hours and minutes, or in seconds if it is short."""
    minutes = round(seconds / 60)
    if minutes < 2:
        return f"{seconds:.0f} s"
    if minutes < 60:
        return f"{minutes} min"
    return f"{minutes // 60} h {minutes % 60} min"
