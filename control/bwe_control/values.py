"""The texts of the values: how each is written and read. Each line ends with one line feed."""

from __future__ import annotations

import re
from collections.abc import Sequence
from dataclasses import dataclass

from bwe_control.errors import StoreRefused

POSTED = re.compile(r"prefix ([0-9]{1,20}) document ([0-9]{1,20}) total ([0-9]{1,30})\n?")
HEADER = re.compile(r"prefix ([0-9]{1,20}) document ([0-9]{1,20})")
TASK = re.compile(r"task ([A-Za-z0-9_.-]{1,64}) limit ([0-9]{1,20})")
REVISION = re.compile(r"revision ([0-9]{1,20})")
LINE = re.compile(r"([0-9]{1,20}) ([0-9]{1,3}) (.*)")
MOST_OF_A_LINE = 80
MOST_OF_REFUSALS = 900_000  # bytes of one value; what more there is, its last line counts


@dataclass(frozen=True)
class Posted:
    """Which table is posted: its prefix, the revision of its document, the sum of all groups."""

    prefix: int
    document: int
    total: int

    def text(self) -> str:
        return f"prefix {self.prefix} document {self.document} total {self.total}\n"


@dataclass(frozen=True)
class Slice:
    """The limits of one reporter's tasks, in the document's order, in kilobits per second."""

    prefix: int
    document: int
    limits: dict[str, int]

    def text(self) -> str:
        lines = [f"task {task} limit {limit}\n" for task, limit in self.limits.items()]
        return f"prefix {self.prefix} document {self.document}\n" + "".join(lines)


@dataclass(frozen=True)
class RefusedLine:
    """A line of a report that was refused: its number from 1, its cause, and how it begins."""

    number: int
    cause: int
    text: str


@dataclass(frozen=True)
class Refusals:
    """What was refused of the report of one revision; `more` lines beyond those listed."""

    revision: int
    lines: tuple[RefusedLine, ...]
    more: int = 0

    @property
    def number(self) -> int:
        """How many lines were refused."""
        return len(self.lines) + self.more

    def text(self) -> str:
        lines = [f"{it.number} {it.cause} {it.text}\n" for it in self.lines]
        more = f"more {self.more}\n" if self.more else ""
        return f"revision {self.revision}\n{''.join(lines)}{more}"


def posted_of(value: bytes) -> Posted:
    """What `P/posted` says."""
    found = POSTED.fullmatch(_ascii(value))
    if found is None:
        raise _odd("posted", value)
    prefix, document, total = map(int, found.groups())
    return Posted(prefix, document, total)


def slice_of(value: bytes) -> Slice:
    """What `P/limits/REPORTER` says."""
    head, *lines = _ascii(value).removesuffix("\n").split("\n")
    found, tasks = HEADER.fullmatch(head), [TASK.fullmatch(line) for line in lines]
    if found is None or None in tasks:
        raise _odd("limits/..", value)
    limits = {task[1]: int(task[2]) for task in tasks if task is not None}
    return Slice(int(found[1]), int(found[2]), limits)


def refusals_of(value: bytes) -> Refusals:
    """What `P/refused/REPORTER` says."""
    head, *lines = _ascii(value).removesuffix("\n").split("\n")
    found, more = REVISION.fullmatch(head), 0
    if lines and lines[-1].startswith("more "):
        more = int(lines.pop().removeprefix("more "))
    refused = [LINE.fullmatch(line) for line in lines]
    if found is None or None in refused:
        raise _odd("refused/..", value)
    return Refusals(
        int(found[1]),
        tuple(RefusedLine(int(one[1]), int(one[2]), one[3]) for one in refused if one is not None),
        more,
    )


def refused_document_text(revision: int, line: str) -> str:
    """What `P/refused/:document` says of the document of a revision; `line` has no line feed."""
    return f"revision {revision}\n{line}\n"


def refused_document_of(value: bytes) -> tuple[int, str]:
    """The revision of the document that was refused, and its one refusal line."""
    head, _, line = _ascii(value).partition("\n")
    found = REVISION.fullmatch(head)
    if found is None:
        raise _odd("refused/:document", value)
    return int(found[1]), line.removesuffix("\n")


def accepted_value(revision: int, document: bytes) -> bytes:
    """What `P/accepted` says: the document in force, behind its revision."""
    return b"%d\n%b" % (revision, document)


def accepted_of(value: bytes) -> tuple[int, bytes]:
    """The revision of the document in force, and its text."""
    head, _, document = value.partition(b"\n")
    if not re.fullmatch(rb"[0-9]{1,20}", head):
        raise _odd("accepted", value[:80])
    return int(head), document


def accepted_revision(value: bytes) -> int:
    """The revision of the document in force."""
    return accepted_of(value[:21])[0]


def printable(line: bytes) -> str:
    """The first 80 bytes of a line; each that is not printable ASCII as `?`."""
    return "".join(chr(it) if 32 <= it < 127 else "?" for it in line[:MOST_OF_A_LINE])


def report_text(demands: dict[str, int], capacities: dict[str, int] | None = None) -> bytes:
    """A report: all that a reporter reports now, in kilobits per second."""
    lines: Sequence[str] = [f"demand {task} {amount}\n" for task, amount in demands.items()]
    more = [f"capacity {link} {amount}\n" for link, amount in (capacities or {}).items()]
    return "".join([*lines, *more]).encode()


def _ascii(value: bytes) -> str:
    return value.decode("ascii", "replace")


def _odd(key: str, value: bytes) -> StoreRefused:
    return StoreRefused(
        f"the store's value of {key} is none that an allocator writes: {printable(value)!r}"
    )
