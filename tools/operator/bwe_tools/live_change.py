"""The change text of `bwe-live` ("What it writes", docs/FORMAT.md), and a table that is kept by
changes.
"""

from __future__ import annotations

from dataclasses import dataclass, field

from bwe_tools.document import ToolError
from bwe_tools.table import Closing, GroupAmount, LinkLoad, PathGroupAmount, Table, TaskLimit


class NoChange(ToolError):
    """A text that is no change of a table."""


@dataclass(frozen=True)
class TableChange:
    """What a post changes in the table before it. Amounts, loads and limits are in kb/s, by name.

    `closings` are those of the new table, None where the list stays as it is.
    """

    reports: int
    total: int
    closings: list[Closing] | None = None
    loads: dict[str, int] = field(default_factory=dict)
    groups: dict[str, GroupAmount] = field(default_factory=dict)
    limits: dict[str, int] = field(default_factory=dict)


def parse_change(text: str) -> TableChange:
    """The change of a text, as the program writes it."""
    reports = total = 0
    closings: list[Closing] | None = None
    loads: dict[str, int] = {}
    groups: dict[str, GroupAmount] = {}
    limits: dict[str, int] = {}
    parts: list[PathGroupAmount] = []
    try:
        for row in text.splitlines():
            words = row.split(" ")
            kind = words[0]
            if kind == "place":
                parts.append(PathGroupAmount(int(words[3]), words[6] if len(words) > 5 else None))
            elif kind == "task":
                limits[words[1]] = int(words[3])
            elif kind == "group":
                parts = []
                groups[words[1]] = GroupAmount(words[1], int(words[3]), int(words[5]), parts)
            elif kind == "link":
                loads[words[1]] = int(words[3])
            elif kind == "closing" and closings is not None:
                closings.append(Closing(words[1], int(words[3])))
            elif kind == "closings":
                closings = []
            elif kind == "change":
                reports = int(words[1])
            elif kind == "total":
                total = int(words[1])
            else:
                raise NoChange(f"`{row[:80]}` stands in no change of a table")
    except (IndexError, ValueError):
        raise NoChange(f"`{row[:80]}` is cut short, or has no number where one is due") from None
    return TableChange(reports, total, closings, loads, groups, limits)


def merged(texts: list[str], things: int) -> str:
    """One change text for several, the oldest first: of each link, group and task its last rows.
    `things` is how many of these there are: texts before the last rows of all are not read.
    """
    seen: set[tuple[str, str]] = set()
    rows: list[str] = []
    closings: list[str] = next(filter(None, map(closing_rows, reversed(texts))), [])
    for text in reversed(texts):
        if len(seen) == things:
            break
        is_new = False
        for row in text.splitlines():
            kind, name = row.split(" ", 2)[:2]
            if kind in ("link", "group", "task"):
                is_new = (kind, name) not in seen
                seen.add((kind, name))
            if is_new and kind != "total":
                rows.append(row)
    head, newest = texts[-1].partition("\n")[0], texts[-1]
    return "\n".join([head, *closings, *rows, newest[newest.rindex("total ") :]])


def closing_rows(text: str) -> list[str]:
    """The row `closings` of a change with those behind it; none where the list is as it was."""
    rest = text.partition("\n")[2]
    if not rest.startswith("closings "):
        return []
    count = int(rest[: rest.index("\n")].split(" ")[1])
    return rest.split("\n", count + 1)[: count + 1]


class KeptTable:
    """A table with the changes that came behind it put in."""

    def __init__(self, table: Table) -> None:
        self.reports, self.total, self.closings = table.reports, table.total, table.closings
        self.loads = table.load_of()
        self.groups = {group.name: group for group in table.groups}
        self.limits = table.limit_of()

    @property
    def things(self) -> int:
        """How many links, groups and tasks there are."""
        return len(self.loads) + len(self.groups) + len(self.limits)

    def put_in(self, change: TableChange) -> None:
        self.reports, self.total = change.reports, change.total
        if change.closings is not None:
            self.closings = change.closings
        self.loads.update(change.loads)
        self.groups.update(change.groups)
        self.limits.update(change.limits)

    def table(self) -> Table:
        return Table(
            self.reports,
            self.total,
            list(self.closings),
            [LinkLoad(name, load) for name, load in self.loads.items()],
            list(self.groups.values()),
            [TaskLimit(name, limit) for name, limit in self.limits.items()],
        )
