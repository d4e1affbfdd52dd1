"""Rows of text under headings, in columns as wide as they need."""

from __future__ import annotations

from collections.abc import Set as AbstractSet


def columns(
    heads: list[str], rows: list[list[str]], right: AbstractSet[int] = frozenset()
) -> list[str]:
    """The lines of a table; the columns numbered in `right` end on the same character."""
    wide = [max(len(row[at]) for row in [heads, *rows]) for at in range(len(heads))]
    lines = []
    for row in [heads, *rows]:
        cells = [
            cell.rjust(wide[at]) if at in right else cell.ljust(wide[at])
            for at, cell in enumerate(row)
        ]
        lines.append("  ".join(cells).rstrip())
    return lines


def few(names: list[str], most: int = 3) -> str:
    """The first names of a list, and how many more there are."""
    if len(names) <= most:
        return ", ".join(names)
    return ", ".join(names[:most]) + f" and {len(names) - most} more"
