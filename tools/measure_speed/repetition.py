"""Compares two runs: whether the second one measured the same as the first."""
from __future__ import annotations

from collections.abc import Iterator

from .results import Comparison, Count, Login, Part, Results, Row

COUNT_TOLERANCE = 0.001


def key_of(row: Row) -> tuple[str, ...]:
    """Returns what a row is about, which is the same in every run."""
    if isinstance(row, Count):
        return (row.unit, row.program)
    if isinstance(row, Comparison):
        return (row.row, row.name)
    if isinstance(row, Login):
        return (row.method, row.client, row.field)
    return (row.row,)


def rows_in_both(first: Results, second: Results, part: Part) -> Iterator[tuple[Row, Row]]:
    """Yields the two rows of each key that both runs have in a part."""
    if part not in first.parts or part not in second.parts:
        return
    rows_of_first = {key_of(row): row for row in first.parts[part].rows}
    for row in second.parts[part].rows:
        if key_of(row) in rows_of_first:
            yield rows_of_first[key_of(row)], row


def are_close(first: float, second: float) -> bool:
    """Returns whether two counts are equal within the tolerance."""
    return abs(second - first) <= COUNT_TOLERANCE * first


def agree(first: Row, second: Row) -> bool:
    """Returns whether counts are close, or bounds of ratios overlap.

    Seconds and memory may differ.
    """
    if isinstance(first, Count) and isinstance(second, Count):
        return are_close(first.instructions, second.instructions)
    if isinstance(first, Login) and isinstance(second, Login):
        return are_close(first.work, second.work)
    if isinstance(first, Comparison) and isinstance(second, Comparison):
        return first.ratio.bounds.overlaps(second.ratio.bounds)
    return True


def disagreements(first: Results, second: Results) -> Iterator[str]:
    """Yields the two rows of each number in which the runs disagree."""
    for part in Part:
        for old, new in rows_in_both(first, second, part):
            if not agree(old, new):
                yield f"{part.value}: {old}\n{' ' * len(part.value)}  {new}"
