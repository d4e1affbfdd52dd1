"""A document beside its table: what links carry, what groups and tasks got, and what holds them."""

from __future__ import annotations

from collections.abc import Iterable, Iterator, Mapping
from dataclasses import dataclass
from typing import Protocol

from bwe_tools.document import Document, Group, Job, Path, Task, ToolError, User
from bwe_tools.rate import rate
from bwe_tools.table import Closing, GroupAmount, Table


@dataclass(frozen=True, slots=True)
class LinkView:
    """A link after the script. `closed_at` is the share at which it filled, None if it did not."""

    name: str
    source: str
    target: str
    capacity: int
    load: int
    closed_at: int | None
    owner: str | None

    @property
    def is_drained(self) -> bool:
        return self.capacity == 0

    @property
    def state(self) -> str:
        """`drained`, `full at share 12` or `open`."""
        if self.is_drained:
            return "drained"
        return "open" if self.closed_at is None else f"full at share {self.closed_at}"


@dataclass(frozen=True, slots=True)
class PathGroupView:
    """A path group: paths as weights and links, what its group has on it, and what closed it.

    `also` are those of its other links that the next share would have put over as well: more
    capacity on the one that closed it alone brings nothing.
    """

    paths: list[tuple[int, tuple[str, ...]]]
    amount: int
    closed_by: str | None
    also: tuple[str, ...] = ()


@dataclass(frozen=True, slots=True)
class TaskView:
    name: str
    group: str
    user: str
    job: str
    reporter: str
    demand: int
    limit: int
    held_by: str

    @property
    def is_held(self) -> bool:
        return self.limit < self.demand


@dataclass(frozen=True, slots=True)
class GroupView:
    """A group: its tasks' demands, what its functions allow of them, and what it got."""

    name: str
    source: str
    target: str
    demand: int
    asks: int
    amount: int
    share: int
    path_groups: list[PathGroupView]
    tasks: list[TaskView]

    @property
    def is_held(self) -> bool:
        return self.amount < self.asks


@dataclass(frozen=True, slots=True)
class View:
    top: int
    reports: int
    total: int
    links: list[LinkView]
    groups: list[GroupView]
    closings: list[Closing]

    def tasks(self) -> Iterator[TaskView]:
        return (task for group in self.groups for task in group.tasks)


Over = Mapping[str, frozenset[str]]


def view_of(
    document: Document, table: Table, values_at_top: dict[str, int], over: Over | None = None
) -> View:
    """The view of a document and its table; `values_at_top` has what groups may have at most, and
    `over` for a link that closed the others that were over with it (`holders.also_over`).
    """
    check_that_they_fit(document, table)
    capacities, demands = document.capacities(), document.demands()
    loads, closed_at, limits = table.load_of(), table.share_of_closing(), table.limit_of()
    links = [
        LinkView(
            link.name,
            link.source,
            link.target,
            capacities[link.name],
            loads[link.name],
            closed_at.get(link.name),
            link.owner,
        )
        for link in document.links
    ]
    states = {link.name: link for link in links}
    groups = [
        _group_view(group, amount, values_at_top[group.name], demands, limits, states, over or {})
        for group, amount in zip(document.groups, table.groups)
    ]
    return View(document.top, table.reports, table.total, links, groups, table.closings)


class Named(Protocol):
    @property
    def name(self) -> str: ...


def check_that_they_fit(document: Document, table: Table) -> None:
    names: dict[str, tuple[Iterable[Named], Iterable[Named]]] = {
        "links": (document.links, table.links),
        "groups": (document.groups, table.groups),
        "tasks": (document.tasks(), table.tasks),
    }
    for what, (ours, theirs) in names.items():
        if [one.name for one in ours] != [one.name for one in theirs]:
            raise ToolError(f"the table is of another document: its {what} are not the document's")
    for group, amount in zip(document.groups, table.groups):
        if len(group.paths) != len(amount.path_groups):
            raise ToolError(
                f"the table is of another document: group {group.name} has {len(group.paths)}"
                f" path groups there and {len(amount.path_groups)} in the table"
            )
    if len(document.script) != table.reports:
        raise ToolError(
            f"the table is of {table.reports} reports, and the document's script has"
            f" {len(document.script)}; make the table again"
        )


def _group_view(
    group: Group,
    given: GroupAmount,
    asks: int,
    demands: dict[str, int],
    limits: dict[str, int],
    links: dict[str, LinkView],
    over: Over,
) -> GroupView:
    parts = [
        PathGroupView(
            [(path.weight, path.links) for path in paths],
            part.amount,
            part.closed_by,
            _also(paths, over.get(part.closed_by or "", frozenset())),
        )
        for paths, part in zip(group.paths, given.path_groups)
    ]
    holders = _Holders(group, given.amount < asks, parts, demands, limits, links)
    tasks = [
        TaskView(
            task.name,
            group.name,
            user.name,
            job.name,
            task.reporter,
            demands[task.name],
            limits[task.name],
            holders.of_task(user, job, task),
        )
        for user in group.users
        for job in user.jobs
        for task in job.tasks
    ]
    demand = sum(task.demand for task in tasks)
    return GroupView(
        group.name,
        group.source,
        group.target,
        demand,
        asks,
        given.amount,
        given.share,
        parts,
        tasks,
    )


def _also(paths: tuple[Path, ...], over: frozenset[str]) -> tuple[str, ...]:
    """The links of a path group, in their order, that were over with the one that closed it."""
    return tuple(dict.fromkeys(link for path in paths for link in path.links if link in over))


class _Holders:
    """Says for the tasks of one group what holds each below its demand."""

    def __init__(
        self,
        group: Group,
        is_held: bool,
        parts: list[PathGroupView],
        demands: dict[str, int],
        limits: dict[str, int],
        links: dict[str, LinkView],
    ) -> None:
        self.group, self.demands, self.limits = group, demands, limits
        self.links = self._links(parts, links) if is_held else ""
        self.by_node: dict[int, str | None] = {}

    @staticmethod
    def _links(parts: list[PathGroupView], links: dict[str, LinkView]) -> str:
        names = {part.closed_by: part.also for part in parts if part.closed_by}
        phrases = [
            f"{name} ({links[name].state}" + "".join(f", with {also}" for also in over) + ")"
            for name, over in names.items()
        ]
        return " and ".join([", ".join(phrases[:-1]), phrases[-1]] if len(phrases) > 1 else phrases)

    def of_task(self, user: User, job: Job, task: Task) -> str:
        """A phrase, empty where the task has its demand."""
        demand, limit = self.demands[task.name], self.limits[task.name]
        if limit >= demand:
            return ""
        most = task.weight * job.task_function[-1][1]
        if limit >= most:
            return f"the task function of job {job.name}, at most {rate(most)}"
        by_function = self._of_node("job", job) or self._of_node("user", user)
        if by_function:
            return by_function
        return self.links or self._of_node("group", self.group) or "the functions above it"

    def _of_node(self, kind: str, node: Job | User | Group) -> str | None:
        if id(node) not in self.by_node:
            self.by_node[id(node)] = self._judge(kind, node)
        return self.by_node[id(node)]

    def _judge(self, kind: str, node: Job | User | Group) -> str | None:
        """Whether a node's own function holds what is below it: it is used up, or no link holds."""
        if node.function is None:
            return None
        most = node.function[-1][1]
        tasks = node.tasks if isinstance(node, Job) else tuple(node.tasks())
        given = sum(self.limits[task.name] for task in tasks)
        asked = sum(self.demands[task.name] for task in tasks)
        used_up = given * 1000 >= most * 999
        if most < asked and (used_up or not self.links):
            return f"the function of {kind} {node.name}, at most {rate(most)}"
        return None
