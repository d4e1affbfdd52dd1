"""Judges the history of the store: promise 1 at each revision, and that nothing falls (promise 2)."""

from dataclasses import dataclass, field

from chaos.record import Transaction
from chaos.tables import Document, Tables
from chaos.values import Posted, posted_of, slice_of
from chaos.verdict import Verdict


@dataclass
class HistoryJudge:
    """Goes through the transactions in their order."""

    tables: Tables
    verdict: Verdict
    state: dict[str, bytes] = field(default_factory=dict)
    posted: Posted | None = None  # the last one that could be read

    def take(self, it: Transaction) -> None:
        self.state.update(it.puts)
        for key in it.deletes:
            self.state.pop(key, None)
        self.verdict.count("transactions")
        if not it.touches("posted", "limits"):
            return
        if "posted" in it.deletes:
            self.fault(it, "deleted", "the posted table was deleted")
        posted = self.read_posted(it)
        document = self.tables.document(posted.document) if posted else None
        if posted is None or document is None:
            return
        if "posted" in it.puts:
            self.verdict.count("posts")
            self.judge_accepted(it, posted, document)
            self.judge_refusals(it, posted, document)
        self.judge_slices(it, posted, document)
        self.judge_written(it, posted)

    def fault(self, it: Transaction, kind: str, text: str, promise: int = 1) -> None:
        self.verdict.fault(promise, it.revision, kind, text)

    def read_posted(self, it: Transaction) -> Posted | None:
        """What is posted now; its faults are those of itself, and of its place behind the last."""
        value = self.state.get("posted")
        if value is None:
            self.fault(it, "slices", "there are slices and no posted table")
            return None
        posted = posted_of(value)
        if posted is None:
            self.fault(it, "form", f"posted is {value!r}")
            return None
        if posted.prefix >= it.revision:
            self.fault(it, "prefix", f"{posted.prefix} is not before the transaction itself")
        last = self.posted
        if last and posted.prefix < last.prefix:
            text = f"the posted prefix fell from {last.prefix} to {posted.prefix}"
            self.fault(it, "falls", text, promise=2)
        if last and posted.document < last.document:
            text = f"the document in force fell from {last.document} to {posted.document}"
            self.fault(it, "falls", text, promise=2)
        self.posted = posted
        if self.tables.document(posted.document) is None:
            self.fault(it, "document", f"no document in force was put at {posted.document}")
        return posted

    def judge_accepted(self, it: Transaction, posted: Posted, document: Document) -> None:
        """The posted document is the accepted one, and the last that stood and can be in force."""
        if self.state.get("accepted") != b"%d\n%b" % (document.revision, document.text):
            self.fault(it, "accepted", f"accepted is not the document of {document.revision}")
        put, _ = self.tables.versions.at("document", posted.prefix)
        if put != posted.document and self.tables.document(put) is not None:
            self.fault(it, "document", f"{posted.document} is in force, and {put} was put since")
        if put < posted.document:
            self.fault(it, "document", f"{posted.document} is after the prefix {posted.prefix}")
        refused = self.state.get("refused/:document", b"")
        if self.tables.document(put) is not None:
            if refused:
                self.fault(it, "refused", f"the document of {put} is not refused: {refused!r}")
        elif not refused.startswith(b"revision %d\n" % put) or refused.count(b"\n") != 2:
            self.fault(it, "refused", f"the document of {put} is refused, not {refused!r}")

    def judge_refusals(self, it: Transaction, posted: Posted, document: Document) -> None:
        """What is refused of each report stands when its table is posted."""
        keys = {f"refused/{reporter}" for reporter in document.names.reporters}
        others = {key for key in self.state if key.startswith("refused/")} - {"refused/:document"}
        for key in sorted(keys | others):
            reporter = key.removeprefix("refused/")
            due = None
            if key in keys:
                due = self.tables.refusal(document, reporter, posted.prefix)
                self.verdict.count("refusals", due is not None)
            if self.state.get(key) != due and key != "refused/:document":
                self.fault(it, "refused", f"{key} is {self.state.get(key)!r}, due is {due!r}")

    def judge_slices(self, it: Transaction, posted: Posted, document: Document) -> None:
        """All slices together are the table of what is posted."""
        table = self.tables.due(document, posted.prefix)
        self.verdict.count("tables")
        if posted.total != table.total:
            self.fault(it, "total", f"{posted.total} is posted, due is {table.total}")
        for reporter in document.names.reporters:
            value = self.state.get(f"limits/{reporter}")
            found = slice_of(value) if value is not None else None
            due = {task: table.limits[task] for task in document.names.of(reporter)}
            if found is None:
                self.fault(it, "slice", f"limits/{reporter} is {value!r}")
            elif list(found.limits.items()) != list(due.items()):
                text = f"limits/{reporter} has {found.limits}, due at {posted.prefix} is {due}"
                self.fault(it, "table", text)
            elif found.prefix > posted.prefix:
                text = f"limits/{reporter} is of {found.prefix}, after {posted.prefix}"
                self.fault(it, "slice", text)
        for key in sorted(self.state):
            kind, _, reporter = key.partition("/")
            if kind == "limits" and reporter not in document.names.reporters:
                self.fault(it, "slice", f"{key} is of no reporter of the document")

    def judge_written(self, it: Transaction, posted: Posted) -> None:
        """Each slice that is written is that of its own prefix."""
        for key, value in it.puts.items():
            kind, _, reporter = key.partition("/")
            found = slice_of(value) if kind == "limits" else None
            if found is not None:
                judge_slice(self.tables, self.verdict, it.revision, reporter, value)


def judge_slice(
    tables: Tables, verdict: Verdict, revision: int, reporter: str, value: bytes
) -> None:
    """Judges a slice by itself: it is that of its own prefix and document (promise 2)."""
    found = slice_of(value)
    if found is None:
        verdict.fault(2, revision, "form", f"a slice of {reporter} is {value!r}")
        return
    document = tables.document(found.document)
    if document is None:
        verdict.fault(2, revision, "slice", f"{found.document} is no document in force")
        return
    table = tables.due(document, found.prefix)
    due = {task: table.limits[task] for task in document.names.of(reporter)}
    verdict.count("slices")
    if found.limits != due:
        text = f"limits/{reporter} has {found.limits}, due at its {found.prefix} is {due}"
        verdict.fault(2, revision, "slice", text)
