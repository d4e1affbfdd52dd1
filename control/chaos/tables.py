"""The tables that are due: of a document and the reports as they stood at one revision."""

import json
from dataclasses import dataclass, field
from typing import Any

from chaos.programs import Programs, Rejected, Table, with_script
from chaos.record import Transaction, Versions
from chaos.reports import Line, Names, Report, names_of, read_report


@dataclass(frozen=True)
class Document:
    """A document that was put and can be in force."""

    revision: int
    text: bytes
    value: dict[str, Any]
    names: Names


@dataclass
class Tables:
    """Answers what is due, by the history and the proved program."""

    versions: Versions
    programs: Programs
    documents: dict[int, Document | None] = field(default_factory=dict)
    reports: dict[tuple[int, str, int], Report] = field(default_factory=dict)

    def document(self, revision: int) -> Document | None:
        """The document that was put at a revision; None where none was, or it cannot be in force."""
        if revision not in self.documents:
            self.documents[revision] = self.read_document(revision)
        return self.documents[revision]

    def read_document(self, revision: int) -> Document | None:
        written, text = self.versions.at("document", revision)
        if written != revision or text is None:
            return None
        if isinstance(self.programs.solve(text), Rejected):
            return None
        value = json.loads(text)
        return Document(revision, text, value, names_of(value)) if value["script"] == [] else None

    def report(self, document: Document, reporter: str, prefix: int) -> tuple[int, Report]:
        """The report that stands at a revision and the revision that wrote it."""
        written, value = self.versions.at(f"report/{reporter}", prefix)
        key = (document.revision, reporter, written)
        if key not in self.reports:
            self.reports[key] = read_report(document.names, reporter, value or b"")
        return written, self.reports[key]

    def lines(self, document: Document, prefix: int) -> list[tuple[str, Line]]:
        """All lines that count at a revision, with their reporters."""
        found = []
        for reporter in document.names.reporters:
            _, report = self.report(document, reporter, prefix)
            found += [(reporter, line) for line in report.lines]
        return found

    def due(self, document: Document, prefix: int) -> Table:
        """The table of a document and the reports that stand at a revision."""
        script = [entry_of(reporter, line) for reporter, line in self.lines(document, prefix)]
        table = self.programs.solve(with_script(document.value, script))
        assert isinstance(table, Table), f"the judge's own script is refused: {table}"
        return table

    def refusal(self, document: Document, reporter: str, prefix: int) -> bytes | None:
        """The value that is due for what is refused of a reporter, None where nothing is."""
        written, report = self.report(document, reporter, prefix)
        if not report.refusals:
            return None
        return (f"revision {written}\n" + "".join(it.line() for it in report.refusals)).encode()


def entry_of(reporter: str, line: Line) -> dict[str, Any]:
    """The script's entry for a line of a report."""
    what = "task" if line.kind == "demand" else "link"
    return {"reporter": reporter, what: line.name, line.kind: line.amount}


def tables_of(transactions: list[Transaction], programs: Programs) -> Tables:
    return Tables(Versions(transactions), programs)
