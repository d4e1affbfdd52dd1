"""Reads a report as the specification says, with a reading of its own: what counts, what is refused."""

import json
import re
from dataclasses import dataclass
from typing import Any

MOST = 1_000_000_000_000  # kilobits per second
LONGEST = 255  # bytes of a line of bwe-live before its line feed


@dataclass(frozen=True)
class Names:
    """Who owns what in a document."""

    reporters: tuple[str, ...]
    tasks: dict[str, str]  # a task's owner, in the document's order
    links: dict[str, str | None]
    capacities: dict[str, int]

    def of(self, reporter: str) -> list[str]:
        return [task for task, owner in self.tasks.items() if owner == reporter]


@dataclass(frozen=True)
class Line:
    """A line of a report that counts."""

    kind: str  # demand or capacity
    name: str
    amount: int


@dataclass(frozen=True)
class Refusal:
    """A line of a report that does not count."""

    number: int  # from 1
    cause: int  # of bwe-live
    text: str

    def line(self) -> str:
        return f"{self.number} {self.cause} {self.text}\n"


@dataclass(frozen=True)
class Report:
    lines: tuple[Line, ...]
    refusals: tuple[Refusal, ...]


def names_of(document: dict[str, Any]) -> Names:
    tasks = {
        task["name"]: task["reporter"]
        for group in document["groups"]
        for user in group["users"]
        for job in user["jobs"]
        for task in job["tasks"]
    }
    return Names(
        tuple(document["reporters"]),
        tasks,
        {link["name"]: link.get("owner") for link in document["links"]},
        {link["name"]: link["capacity"] for link in document["links"]},
    )


def names_in(text: bytes) -> Names:
    return names_of(json.loads(text))


def read_report(names: Names, reporter: str, value: bytes) -> Report:
    """The lines of a report that count, and those that are refused with their causes."""
    lines, refusals = [], []
    parts = value.split(b"\n")
    ended, last = parts[:-1], parts[-1]
    for number, part in enumerate(ended, 1):
        found = read_line(names, reporter, part)
        if isinstance(found, Line):
            lines.append(found)
        else:
            refusals.append(Refusal(number, found, shown(part)))
    if last:
        refusals.append(Refusal(len(parts), 1, shown(last)))
    return Report(tuple(lines), tuple(refusals))


def read_line(names: Names, reporter: str, line: bytes) -> Line | int:
    """The line, or the cause for which bwe-live refuses it with the reporter as second word."""
    try:
        words = line.decode("utf-8").split(" ")
    except UnicodeDecodeError:
        return 1
    form = len(words) == 3 and words[0] in ("demand", "capacity") and "" not in words
    too_long = len(line) + len(reporter) + 1 > LONGEST
    if not form or too_long or not re.fullmatch(r"[0-9]{1,20}", words[2], re.ASCII):
        return 1
    kind, name, amount = words[0], words[1], int(words[2])
    known: dict[str, str] | dict[str, str | None] = names.tasks if kind == "demand" else names.links
    if reporter not in names.reporters or name not in known:
        return 2
    if amount > MOST:
        return 3
    return Line(kind, name, amount) if known[name] == reporter else 4


def shown(line: bytes) -> str:
    return "".join(chr(byte) if 32 <= byte < 127 else "?" for byte in line[:80])
