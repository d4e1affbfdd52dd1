"""What a drain or another change does: the table with it, beside the table without."""

from __future__ import annotations

import os
import threading
from collections.abc import Iterable, Sequence
from concurrent.futures import ThreadPoolExecutor
from dataclasses import dataclass, field
from typing import Any

from bwe_tools.document import Document
from bwe_tools.live import Live
from bwe_tools.live_change import KeptTable
from bwe_tools.progress import Told
from bwe_tools.questions import Question, askable
from bwe_tools.table import Table

FOR_A_CHILD = 20  # questions that are worth a child of their own


@dataclass(frozen=True)
class Loss:
    """A task that may send less than nine tenths of what it might before, in kb/s."""

    task: str
    before: int
    after: int


@dataclass(frozen=True)
class Drain:
    """What is asked about at once, and what is left. Rates are in kilobits per second.

    `load` is what the links carried whose capacities are other ones.
    """

    name: str
    links: list[str]
    load: int
    total: int
    lost: int
    groups_with_nothing: list[str]
    losses: list[Loss]
    capacities: dict[str, int] = field(default_factory=dict)
    demands: dict[str, int] = field(default_factory=dict)


def two_ways(document: Document) -> list[list[str]]:
    """Each link with the one that leads back: of parallel links the first with the first."""
    waiting: dict[tuple[str, str], list[list[str]]] = {}
    fibres: list[list[str]] = []
    for link in document.links:
        back = waiting.get((link.target, link.source))
        if back:
            back.pop(0).append(link.name)
            continue
        fibres.append([link.name])
        waiting.setdefault((link.source, link.target), []).append(fibres[-1])
    return fibres


def drains_of(
    document: Document, questions: Sequence[Question], told: Told = lambda done, of: None
) -> tuple[Table, list[Drain]]:
    """The table without any change, and what each question's changes do by themselves.

    The questions are put to a few children `bwe-live` side by side. `told` is called with the
    number of questions that are answered, and of all.
    """
    asked = askable(document)
    with _Children(asked) as children:
        before = children.here().table
        count = min(os.cpu_count() or 1, 1 + len(questions) // FOR_A_CHILD)
        with ThreadPoolExecutor(count) as workers:
            answers = []
            for answer in workers.map(lambda one: children.ask(before, one), questions):
                answers.append(answer)
                told(len(answers), len(questions))
    return before, answers


class _Children:
    """A child for each thread that asks."""

    def __init__(self, document: Document) -> None:
        self.document = document
        self.demands, self.capacities = document.demands(), document.capacities()
        self.own = threading.local()
        self.all: list[Live] = []

    def __enter__(self) -> _Children:
        return self

    def __exit__(self, *fault: object) -> None:
        for child in self.all:
            child.close()

    def here(self) -> Live:
        """The child of this thread."""
        if not hasattr(self.own, "child"):
            self.own.child = Live(self.document)
            self.all.append(self.own.child)
        child: Live = self.own.child
        return child

    def ask(self, before: Table, question: Question) -> Drain:
        child = self.here()
        self.report(child, question.capacities, question.demands)
        child.post()
        answer = drain_of(before, child.kept, question)
        # What was is reported with the next post.
        capacities = {link: self.capacities[link] for link in question.capacities}
        self.report(child, capacities, {task: self.demands[task] for task in question.demands})
        return answer

    @staticmethod
    def report(child: Live, capacities: dict[str, int], demands: dict[str, int]) -> None:
        for link, capacity in capacities.items():
            child.capacity(link, capacity)
        for task, demand in demands.items():
            child.demand(task, demand)


def drain_of(before: Table, after: KeptTable, question: Question) -> Drain:
    """What a question's changes do; `before` is the table without them."""
    loads = before.load_of()
    nothing = [
        one.name for one in before.groups if one.amount > 0 and after.groups[one.name].amount == 0
    ]
    losses = [
        Loss(task.name, task.limit, after.limits[task.name])
        for task in before.tasks
        if after.limits[task.name] * 10 < task.limit * 9
    ]
    links = list(question.capacities)
    return Drain(
        question.name,
        links,
        sum(loads[link] for link in links),
        after.total,
        before.total - after.total,
        nothing,
        losses,
        question.capacities,
        question.demands,
    )


def drains_to_json(before: Table, drains: Iterable[Drain]) -> dict[str, Any]:
    return {
        "total": before.total,
        "drains": [
            {
                "name": drain.name,
                "links": drain.links,
                "capacities": drain.capacities,
                "demands": drain.demands,
                "load": drain.load,
                "total": drain.total,
                "lost": drain.lost,
                "groups_with_nothing": drain.groups_with_nothing,
                "tasks_that_lose": [
                    {"task": loss.task, "before": loss.before, "after": loss.after}
                    for loss in drain.losses
                ],
            }
            for drain in drains
        ],
    }


def drains_from_json(whole: dict[str, Any]) -> list[Drain]:
    """The drains of their JSON; a KeyError or TypeError where it is not that."""
    return [
        Drain(
            drain["name"],
            drain["links"],
            drain["load"],
            drain["total"],
            drain["lost"],
            drain["groups_with_nothing"],
            [
                Loss(loss["task"], loss["before"], loss["after"])
                for loss in drain["tasks_that_lose"]
            ],
            drain["capacities"],
            drain["demands"],
        )
        for drain in whole["drains"]
    ]
