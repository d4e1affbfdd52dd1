"""What the control plane needs to know of a document: which reporter has which tasks and links."""

from __future__ import annotations

import json
from collections.abc import Callable, Iterator
from dataclasses import dataclass
from typing import Any

from bwe_control.errors import Refused
from bwe_control.keys import is_plain_name


@dataclass(frozen=True)
class Network:
    """What a document says, and its revision.

    `lines` has for each reporter what a line of its report may begin with (`demand TASK`,
    `capacity LINK`), and for that how the line of `bwe-live` begins and what holds without a report.
    """

    revision: int
    reporters: tuple[str, ...]
    tasks: dict[str, tuple[str, ...]]
    lines: dict[str, dict[bytes, tuple[bytes, int]]]
    owners: dict[str, dict[str, str | None]]


def network_of(revision: int, text: bytes, beat: Callable[[], None] = lambda: None) -> Network:
    """The network of a document that `bwe` accepts; Refused where the control plane does not.

    `beat` is called as it goes on: a million tasks take some seconds.
    """
    document = json.loads(text)
    beat()
    if document["script"]:
        raise Refused(
            f"refused script of {len(document['script'])} reports: it has to be empty, since reports"
            " come from reporters"
        )
    reporters = tuple(document["reporters"])
    tasks: dict[str, list[str]] = {name: [] for name in reporters}
    lines: dict[str, dict[bytes, tuple[bytes, int]]] = {name: {} for name in reporters}
    owners: dict[str, dict[str, str | None]] = {"demand": {}, "capacity": {}}
    for number, task in enumerate(_tasks(document)):
        if number % 50_000 == 0:
            beat()
        owner, name = task["reporter"], task["name"]
        owners["demand"][name] = owner
        tasks[owner].append(name)
        lines[owner][f"demand {name}".encode()] = (f"demand {owner} {name} ".encode(), 0)
    for link in document["links"]:
        owner, name = link.get("owner"), link["name"]
        owners["capacity"][name] = owner
        if owner is not None:
            start = f"capacity {owner} {name} ".encode()
            lines[owner][f"capacity {name}".encode()] = (start, link["capacity"])
    of_each = {name: tuple(of_one) for name, of_one in tasks.items()}
    return Network(revision, reporters, of_each, lines, owners)


def _tasks(document: Any) -> Iterator[Any]:
    """All tasks, in the document's order."""
    for group in document["groups"]:
        for user in group["users"]:
            for job in user["jobs"]:
                yield from job["tasks"]


def is_reporter(network: Network, name: str) -> bool:
    """Whether the document has that reporter; a name with odd bytes is none."""
    return is_plain_name(name) and name in network.tasks
