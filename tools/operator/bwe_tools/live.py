"""A document that is kept in a child `bwe-live`, which answers reports in a fraction of the time
that a program started for each takes.
"""

from __future__ import annotations

from collections.abc import Iterable, Iterator, Mapping
from dataclasses import dataclass
from functools import cached_property
from pathlib import Path
from types import TracebackType

from bwe_tools.document import Document, ToolError, document_text
from bwe_tools.live_change import KeptTable, TableChange, merged, parse_change
from bwe_tools.live_program import LiveProgram, RefusedReport
from bwe_tools.table import Table, parse_table
from bwe_tools.units import MOST

AHEAD = 64  # matrices that are sent before the first answer is taken
MOST_UNREAD = 1 << 25  # bytes of changes that wait until the table is asked for


class UnknownName(ToolError):
    """A report names a task or link that the document does not have, or a link without an owner."""


@dataclass(frozen=True)
class Change:
    """What a post changed, read only as far as it is asked for. `total` is in kb/s."""

    text: str

    @cached_property
    def total(self) -> int:
        return int(self.text[self.text.rindex(" ") + 1 :])

    @cached_property
    def parsed(self) -> TableChange:
        return parse_change(self.text)

    @property
    def is_read(self) -> bool:
        return "parsed" in vars(self)


class Live:
    """A child `bwe-live` with a document, and the table that it keeps.

    Reports are sent with the next `post`. Where the child is killed or does not answer within
    `timeout` seconds, the call that waits raises ProgramEnded or TimedOut, and so does each call
    behind it; a new Live begins again from the document. One thread at a time may call.
    """

    def __init__(
        self, document: Document, program: Path | None = None, timeout: float | None = None
    ) -> None:
        self.document = document
        self.demands, self.capacities = document.demands(), document.capacities()
        # Of each task how a row that reports its demand begins.
        self._demand_rows = {
            task.name: f"demand {task.reporter} {task.name} " for task in document.tasks()
        }
        self._link_owners = {link.name: link.owner for link in document.links}
        self._rows: list[str] = []
        self._unread: list[Change] = []
        self._unread_size = 0
        self._child = LiveProgram(document_text(document).encode(), program, timeout)
        self._kept = KeptTable(parse_table(self._child.first, "the answer of `bwe-live`"))

    def __enter__(self) -> Live:
        return self

    def __exit__(
        self,
        kind: type[BaseException] | None,
        fault: BaseException | None,
        trace: TracebackType | None,
    ) -> None:
        self.close()

    def close(self) -> None:
        """Ends the child. What it answered stays."""
        self._child.close()

    def kill(self) -> None:
        """Ends the child at once, whatever it does."""
        self._child.kill()

    @property
    def pid(self) -> int:
        """The number of the child's process."""
        return self._child.child.pid

    @property
    def kept(self) -> KeptTable:
        """The table after the last post, by name; the next one changes it in place."""
        if len(self._unread) == 1 or all(change.is_read for change in self._unread):
            for change in self._unread:
                self._kept.put_in(change.parsed)
        else:
            texts = [change.text for change in self._unread]
            self._kept.put_in(parse_change(merged(texts, self._kept.things)))
        self._unread.clear()
        self._unread_size = 0
        return self._kept

    @property
    def table(self) -> Table:
        """The table after the last post."""
        return self.kept.table()

    def demand(self, task: str, amount: int) -> None:
        """Reports a task's demand in kb/s with the next post."""
        start = self._demand_rows.get(task)
        if start is None:
            raise UnknownName(f"the document has no task {task}")
        if not 0 <= amount <= MOST:
            raise _out_of_range(amount)
        self.demands[task] = amount
        self._rows.append(f"{start}{amount}\n")

    def capacity(self, link: str, amount: int) -> None:
        """Reports a link's capacity in kb/s with the next post; 0 is a drain."""
        if link not in self._link_owners:
            raise UnknownName(f"the document has no link {link}")
        owner = self._link_owners[link]
        if owner is None:
            raise UnknownName(f"link {link} has no owner who could report its capacity")
        if not 0 <= amount <= MOST:
            raise _out_of_range(amount)
        self.capacities[link] = amount
        self._rows.append(f"capacity {owner} {link} {amount}\n")

    def post(self) -> Change:
        """What all reports since the last post change."""
        (change,) = self._posts([self._question()], 1)
        return change

    def changes(self, matrices: Iterable[Mapping[str, int]]) -> Iterator[Change]:
        """The change of each matrix of demands by task in kb/s; a task that one does not name
        keeps its demand.

        Some matrices are sent ahead of the answers, so `demands` may be ahead of the change.
        """
        return self._posts((self._question_of(matrix) for matrix in matrices), AHEAD)

    def tables(self, matrices: Iterable[Mapping[str, int]]) -> Iterator[Table]:
        """The table of each matrix of demands by task in kb/s."""
        for _ in self.changes(matrices):
            yield self.table

    def _question_of(self, matrix: Mapping[str, int]) -> bytes:
        demands = self.demands
        for task, amount in matrix.items():
            if demands.get(task) != amount:
                self.demand(task, amount)
        return self._question()

    def _question(self) -> bytes:
        rows = "".join(self._rows)
        self._rows.clear()
        return f"{rows}post\n".encode()

    def _posts(self, questions: Iterable[bytes], ahead: int) -> Iterator[Change]:
        for text in self._child.answers(questions, ahead):
            if text.startswith("refused"):
                raise RefusedReport(int(text.split("\n", 1)[0].rsplit(" ", 1)[1]))
            change = Change(text)
            self._unread.append(change)
            self._unread_size += len(text)
            if self._unread_size > MOST_UNREAD:
                _ = self.kept
            yield change


def _out_of_range(amount: int) -> ToolError:
    return ToolError(f"{amount} is no rate from 0 to {MOST:,} kb/s")
