"""The table text of docs/FORMAT.md, read into dataclasses and written back byte for byte."""

from __future__ import annotations

import re
from collections.abc import Iterator
from dataclasses import dataclass, field, replace

from bwe_tools.document import ToolError
from bwe_tools.json_text import collector_at_rest

NAME = r"([A-Za-z0-9._-]{1,64})"
NUMBER = r"(0|[1-9][0-9]{0,19})"


def line_form(text: str) -> re.Pattern[str]:
    return re.compile(text.replace("NAME", NAME).replace("NUMBER", NUMBER))


FORMS = {
    "table": line_form("table NUMBER"),
    "tiers": line_form("tiers NUMBER"),
    "tier": line_form("tier NUMBER"),
    "closing": line_form("closing NAME at NUMBER"),
    "link": line_form("link NAME load NUMBER"),
    "group": line_form("group NAME share NUMBER amount NUMBER"),
    "place": line_form("place NUMBER amount NUMBER (?:open|closed by NAME)"),
    "task": line_form("task NAME limit NUMBER"),
    "total": line_form("total NUMBER"),
}


@dataclass(frozen=True, slots=True)
class Closing:
    """A link that closed, and the share at which it did; of a table of tiers the tier in whose
    filling it did.
    """

    link: str
    share: int
    tier: int | None = None

    @property
    def name(self) -> str:
        """The link, and the tier where there is one."""
        return self.link if self.tier is None else f"{self.link} in tier {self.tier}"


@dataclass(frozen=True, slots=True)
class LinkLoad:
    """What all amounts put on a link, in kilobits per second."""

    name: str
    load: int


@dataclass(frozen=True, slots=True)
class PathGroupAmount:
    """What a group has on one of its path groups, and the link that closed it, if one did."""

    amount: int
    closed_by: str | None


@dataclass(frozen=True, slots=True)
class GroupAmount:
    """What a group got, and the share at which it stopped."""

    name: str
    share: int
    amount: int
    path_groups: list[PathGroupAmount]


@dataclass(frozen=True, slots=True)
class TaskLimit:
    """What a task may send, in kilobits per second."""

    name: str
    limit: int


@dataclass(frozen=True, slots=True)
class Table:
    """A whole table, as `bwe solve` or `bwe tiers` writes it. Amounts, loads and limits are in
    kilobits per second; `tiers` is how many tiers there are, None where the table has none.
    """

    reports: int
    total: int
    closings: list[Closing] = field(default_factory=list)
    links: list[LinkLoad] = field(default_factory=list)
    groups: list[GroupAmount] = field(default_factory=list)
    tasks: list[TaskLimit] = field(default_factory=list)
    tiers: int | None = None

    def text(self) -> str:
        """The table as the program writes it."""
        return "".join(line + "\n" for line in self._lines())

    def _lines(self) -> Iterator[str]:
        yield f"table {self.reports}" if self.tiers is None else f"tiers {self.reports}"
        for tier in [None] if self.tiers is None else range(self.tiers):
            if tier is not None:
                yield f"tier {tier}"
            for closing in self.closings:
                if closing.tier == tier:
                    yield f"closing {closing.link} at {closing.share}"
        for link in self.links:
            yield f"link {link.name} load {link.load}"
        for group in self.groups:
            yield f"group {group.name} share {group.share} amount {group.amount}"
            for place, part in enumerate(group.path_groups):
                state = "open" if part.closed_by is None else f"closed by {part.closed_by}"
                yield f"place {place} amount {part.amount} {state}"
        for task in self.tasks:
            yield f"task {task.name} limit {task.limit}"
        yield f"total {self.total}"

    def with_reports(self, reports: int) -> Table:
        """The table, said to be of so many reports."""
        return replace(self, reports=reports)

    def load_of(self) -> dict[str, int]:
        return {link.name: link.load for link in self.links}

    def amount_of(self) -> dict[str, int]:
        return {group.name: group.amount for group in self.groups}

    def limit_of(self) -> dict[str, int]:
        return {task.name: task.limit for task in self.tasks}

    def share_of_closing(self) -> dict[str, int]:
        return {closing.link: closing.share for closing in self.closings}


class _Lines:
    """The lines of a text, taken one after the other."""

    def __init__(self, text: str, source: str) -> None:
        self.source = source
        self.at = 0
        self.lines = text.split("\n")
        if self.lines.pop() != "":
            raise ToolError(f"{source}: the last line does not end with a line feed")

    def fault(self, message: str) -> ToolError:
        return ToolError(f"{self.source}: line {self.at + 1}: {message}")

    def is_next(self, kind: str) -> bool:
        return self.at < len(self.lines) and self.lines[self.at].startswith(kind + " ")

    def take(self, kind: str) -> tuple[str, ...]:
        """What the next line says, empty where it leaves something out."""
        if self.at >= len(self.lines):
            raise self.fault(f"the table ends where a `{kind}` line is due")
        match = FORMS[kind].fullmatch(self.lines[self.at])
        if match is None:
            raise self.fault(f"`{self.lines[self.at][:80]}` is no `{kind}` line")
        self.at += 1
        return match.groups("")

    def take_all(self, kind: str) -> Iterator[tuple[str, ...]]:
        while self.is_next(kind):
            yield self.take(kind)


def _take_group(lines: _Lines) -> GroupAmount:
    name, share, amount = lines.take("group")
    parts: list[PathGroupAmount] = []
    while not parts or lines.is_next("place"):
        place, part, closed_by = lines.take("place")
        if int(place) != len(parts):
            lines.at -= 1
            raise lines.fault(f"place {len(parts)} of group {name} is due, and this is {place}")
        parts.append(PathGroupAmount(int(part), closed_by or None))
    return GroupAmount(name, int(share), int(amount), parts)


def _take_closings(lines: _Lines, tier: int | None) -> list[Closing]:
    return [Closing(link, int(share), tier) for link, share in lines.take_all("closing")]


def _take_tiers(lines: _Lines) -> tuple[list[Closing], int]:
    """The closings of all tiers, and how many tiers there are."""
    closings, tiers = [], 0
    while lines.is_next("tier"):
        (tier,) = lines.take("tier")
        if int(tier) != tiers:
            lines.at -= 1
            raise lines.fault(f"tier {tiers} is due, and this is {tier}")
        closings += _take_closings(lines, tiers)
        tiers += 1
    return closings, tiers


def parse_table(text: str | bytes, source: str = "the table") -> Table:
    """The table of a text; `source` stands before what is wrong with it."""
    if isinstance(text, bytes):
        try:
            text = text.decode("ascii")
        except UnicodeDecodeError:
            raise ToolError(f"{source}: this is no table: it is not plain ASCII text") from None
    with collector_at_rest():
        return _table_of(_Lines(text, source))


def _table_of(lines: _Lines) -> Table:
    has_tiers = lines.is_next("tiers")
    (reports,) = lines.take("tiers" if has_tiers else "table")
    closings, tiers = _take_tiers(lines) if has_tiers else (_take_closings(lines, None), None)
    links = [LinkLoad(name, int(load)) for name, load in lines.take_all("link")]
    groups = []
    while lines.is_next("group"):
        groups.append(_take_group(lines))
    tasks = [TaskLimit(name, int(limit)) for name, limit in lines.take_all("task")]
    (total,) = lines.take("total")
    if lines.at != len(lines.lines):
        raise lines.fault("the table goes on after its total")
    return Table(int(reports), int(total), closings, links, groups, tasks, tiers)
