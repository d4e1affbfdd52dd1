"""What differs between two documents, or between two tables."""

from __future__ import annotations

import json
from dataclasses import dataclass

from bwe_tools.document import Document, Function, Group
from bwe_tools.rate import rate
from bwe_tools.table import Table


@dataclass(frozen=True)
class Amount:
    """A rate in kilobits per second."""

    kilobits: int


Value = Amount | str
# Things by kind and name, in their order, each with what is to be said of it.
Things = dict[tuple[str, str], dict[str, Value]]


@dataclass(frozen=True)
class Change:
    """A thing that came (`+`), went (`-`) or changed (`~`), and the lines below it."""

    sign: str
    thing: str
    lines: list[str]


def things_of_document(document: Document) -> Things:
    """A document as things: demands and capacities are those after its whole script."""
    demands, capacities = document.demands(), document.capacities()
    things: Things = {("document", ""): _whole(document)}
    for link in document.links:
        things["link", link.name] = {
            "from": link.source,
            "to": link.target,
            "capacity": Amount(capacities[link.name]),
            "owner": link.owner or "nobody",
        }
        if capacities[link.name] != link.capacity:
            before = {"capacity before the script": Amount(link.capacity)}
            things["link", link.name].update(before)
    for group in document.groups:
        things["group", group.name] = _group(group)
        for user in group.users:
            at = f"{group.name}/{user.name}"
            things["user", at] = {"function": _function(user.function)}
            for job in user.jobs:
                things["job", f"{at}/{job.name}"] = {
                    "function": _function(job.function),
                    "task function": _function(job.task_function),
                }
                for task in job.tasks:
                    things["task", f"{at}/{job.name}/{task.name}"] = {
                        "demand": Amount(demands[task.name]),
                        "weight": str(task.weight),
                        "reporter": task.reporter,
                    }
    return things


def _whole(document: Document) -> dict[str, Value]:
    closings = [f"{closing.link} at {closing.share}" for closing in document.closings]
    return {
        "version": str(document.version),
        "top": str(document.top),
        "reporters": ", ".join(document.reporters),
        "reports": str(len(document.script)),
        "closings": ", ".join(closings) or "none",
    }


def _group(group: Group) -> dict[str, Value]:
    parts = {
        f"path group {place}": ", ".join(
            f"{path.weight} x {'>'.join(path.links)}" for path in paths
        )
        for place, paths in enumerate(group.paths)
    }
    ends = {"from": group.source, "to": group.target}
    return {**ends, "function": _function(group.function), **parts}


def _function(points: Function | None) -> str:
    return "none" if points is None else json.dumps(points, separators=(",", ":"))


def things_of_table(table: Table) -> Things:
    things: Things = {("table", ""): {"reports": str(table.reports), "total": Amount(table.total)}}
    for closing in table.closings:
        things["closing", closing.name] = {"share": str(closing.share)}
    for link in table.links:
        things["link", link.name] = {"load": Amount(link.load)}
    for group in table.groups:
        said: dict[str, Value] = {"amount": Amount(group.amount), "share": str(group.share)}
        for place, part in enumerate(group.path_groups):
            said[f"path group {place}"] = Amount(part.amount)
            said[f"path group {place} closed by"] = part.closed_by or "nothing"
        things["group", group.name] = said
    for task in table.tasks:
        things["task", task.name] = {"limit": Amount(task.limit)}
    return things


def changes_between(old: Things, new: Things) -> list[Change]:
    """What changes from the one to the other, in the order of the new one, what went at the end."""
    changes = []
    for key, said in new.items():
        if key not in old:
            changes.append(Change("+", _name(key), _lines({}, said)))
        elif old[key] != said:
            changes.append(Change("~", _name(key), _lines(old[key], said)))
    changes += [Change("-", _name(key), []) for key in old if key not in new]
    return changes + _orders(old, new)


def _lines(old: dict[str, Value], new: dict[str, Value]) -> list[str]:
    lines = []
    for what in {**old, **new}:
        if what not in new:
            lines.append(f"- {what}: {_text(old[what])}")
        elif what not in old:
            lines.append(f"+ {what}: {_text(new[what])}")
        elif old[what] != new[what]:
            lines.append(f"~ {what}: {_step(old[what], new[what])}")
    return lines


def _orders(old: Things, new: Things) -> list[Change]:
    """Kinds whose things stand in both, in another order: the order decides between equals."""
    common_old = [key for key in old if key in new]
    common_new = [key for key in new if key in old]
    kinds = dict.fromkeys(kind for kind, _ in common_new)
    return [
        Change("~", f"order of {kind}s", [])
        for kind in kinds
        if [key for key in common_old if key[0] == kind]
        != [key for key in common_new if key[0] == kind]
    ]


def _name(key: tuple[str, str]) -> str:
    return " ".join(key).strip()


def _text(value: Value) -> str:
    return rate(value.kilobits) if isinstance(value, Amount) else value


def _step(old: Value, new: Value) -> str:
    """Both values, exactly where they are the same when rounded."""
    if isinstance(old, Amount) and isinstance(new, Amount) and _text(old) == _text(new):
        return f"{old.kilobits} -> {new.kilobits} kbit/s"
    return f"{_text(old)} -> {_text(new)}"
