"""The history as one list of reports for each document that was in force."""

from dataclasses import dataclass, field
from typing import Any

from chaos.programs import with_script
from chaos.record import Transaction
from chaos.reports import Line
from chaos.tables import Document, Tables, entry_of
from chaos.values import Posted, posted_of


@dataclass
class Epoch:
    """The time of one document: what was reported, in order, and what was posted."""

    document: Document
    reports: list[tuple[str, Line]]  # with their reporters
    places: dict[int, int] = field(default_factory=dict)  # reports in the prefix, by its revision
    posts: list[Posted] = field(default_factory=list)

    def script(self) -> bytes:
        """The document with all reports as its script."""
        entries: list[dict[str, Any]] = [entry_of(who, line) for who, line in self.reports]
        return with_script(self.document.value, entries)


def epochs_of(tables: Tables, transactions: list[Transaction]) -> list[Epoch]:
    """Cuts the history where another document came into force."""
    found: list[Epoch] = []
    seen: set[int] = set()
    for it in transactions:
        posted = posted_of(it.puts.get("posted", b""))
        document = tables.document(posted.document) if posted else None
        if posted is None or document is None:
            continue
        if not found or found[-1].document.revision != document.revision:
            if document.revision in seen:
                continue  # it fell back, which is a fault by itself
            seen.add(document.revision)
            found.append(Epoch(document, tables.lines(document, posted.prefix)))
            last = posted.prefix
        extend(tables, found[-1], last, posted.prefix)
        last = max(last, posted.prefix)
        found[-1].places[posted.prefix] = len(found[-1].reports)
        found[-1].posts.append(posted)
    return found


def extend(tables: Tables, epoch: Epoch, last: int, prefix: int) -> None:
    """Adds what was reported after one revision, up to another."""
    puts = [
        (revision, reporter)
        for reporter in epoch.document.names.reporters
        for revision in tables.versions.between(f"report/{reporter}", last, prefix)
    ]
    for revision, reporter in sorted(puts):
        epoch.reports += [
            (reporter, line) for line in changes(tables, epoch.document, reporter, revision)
        ]


def changes(tables: Tables, document: Document, reporter: str, revision: int) -> list[Line]:
    """What a new report says, also of what it leaves out: demand 0, the document's capacity."""
    _, before = tables.report(document, reporter, revision - 1)
    _, after = tables.report(document, reporter, revision)
    kept = {(line.kind, line.name) for line in after.lines}
    gone = [it for it in dict.fromkeys((it.kind, it.name) for it in before.lines) if it not in kept]
    ends = [
        Line(kind, name, document.names.capacities[name] if kind == "capacity" else 0)
        for kind, name in gone
    ]
    return [*ends, *after.lines]
