"""The answers of `bwe-live`, kept as the table that stands and the reports behind it ("What it
writes", docs/FORMAT.md).
"""

from __future__ import annotations

import re
from dataclasses import dataclass, field

from bwe_tools.document import Report, ToolError
from bwe_tools.table import Table, parse_table

REFUSED = re.compile(r"refused line [0-9]+ cause [0-9]")
REPORT = re.compile(r"(demand|capacity) ([^ ]+) ([^ ]+) ([0-9]{1,20})")
STATE = re.compile(r"state ([0-9]{1,20})")
KINDS = ("link", "group", "task")


@dataclass
class Rows:
    """The rows of a table by what they are of: `closings` in their order, and of each group its row
    and those of its path groups.
    """

    reports: str = "0"
    closings: list[str] = field(default_factory=list)
    of: dict[str, dict[str, list[str]]] = field(
        default_factory=lambda: {kind: {} for kind in KINDS}
    )
    total: str = ""

    def text(self) -> str:
        parts = [rows for kind in KINDS for named in [self.of[kind]] for rows in named.values()]
        listed = [row for rows in parts for row in rows]
        return "\n".join([f"table {self.reports}", *self.closings, *listed, self.total, ""])


@dataclass(frozen=True)
class Standing:
    """What stands after an answer: the table, and where `state` was asked for what was reported."""

    table: Table
    reports: tuple[Report, ...] | None
    refused: tuple[str, ...]


class Answers:
    """Takes the rows of the answers one after the other, and says when one is whole."""

    def __init__(self) -> None:
        self.rows, self.last_group = Rows(), ""
        self.said: list[Report] = []
        self.refused: list[str] = []
        self.is_open = False

    def take(self, row: str) -> Standing | None:
        """What stands, where the row ends an answer; None in the middle of one."""
        if REFUSED.fullmatch(row):
            self.refused.append(row)
            return None
        if report := REPORT.fullmatch(row):
            kind, reporter, name, amount = report.groups()
            is_demand = kind == "demand"
            names = (name, None) if is_demand else (None, name)
            self.said.append(Report(reporter, *names, int(amount)))
            return None
        if STATE.fullmatch(row):
            said, self.said = tuple(self.said), []
            return self.standing(said)
        return self.take_of_table(row)

    def take_of_table(self, row: str) -> Standing | None:
        word, _, rest = row.partition(" ")
        name = rest.partition(" ")[0]
        if word in ("table", "change"):
            self.rows.reports, self.is_open = name, True
        elif not self.is_open:
            raise ToolError(f"`{row[:80]}` is no answer of bwe-live")
        elif word == "closings":
            self.rows.closings = []
        elif word == "closing":
            self.rows.closings.append(row)
        elif word in KINDS:
            self.rows.of[word][name] = [row]
            self.last_group = name if word == "group" else self.last_group
        elif word == "place":
            self.rows.of["group"][self.last_group].append(row)
        elif word == "total":
            self.rows.total, self.is_open = row, False
            return self.standing(None)
        else:
            raise ToolError(f"`{row[:80]}` is no answer of bwe-live")
        return None

    def standing(self, reports: tuple[Report, ...] | None) -> Standing:
        refused, self.refused = tuple(self.refused), []
        table = parse_table(self.rows.text(), "the answers of bwe-live")
        return Standing(table, reports, refused)
