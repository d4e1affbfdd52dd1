"""The tables of one document: reports in, the rows of all reporters out, by a `bwe-live` child."""

from __future__ import annotations

import logging
from collections.abc import Callable
from pathlib import Path

from bwe_control.live import ODD, Answer, Live, LiveDied
from bwe_control.network import is_reporter, network_of
from bwe_control.reports import NO_REPORT, Report, changed_lines, next_report
from bwe_control.store.interface import Entry
from bwe_control.values import Refusals

log = logging.getLogger(__name__)


class Tables:
    """Keeps the reports of a document as they were read last, and the rows of their table.

    A row is the text of a slice behind its first line. Where the child dies it is started anew from
    the reports, and what comes is the same.
    """

    def __init__(
        self, program: Path, revision: int, text: bytes, beat: Callable[[], None], stuck: float
    ) -> None:
        """Refused where the document is; LiveDied where the child cannot be had."""
        self._program, self.text, self._beat, self._stuck = program, text, beat, stuck
        self._live: Live | None = Live(program, text, beat, stuck)
        try:
            self.network = network = network_of(revision, text, beat)
        except BaseException:
            self.close()
            raise
        self._reports: dict[str, Report] = {}
        self.refusals: dict[str, tuple[Refusals, bytes]] = {}  # what was refused, and its text
        self._lines: list[bytes] = []  # what the child is still to be told
        self._task_lines = {name: [b""] * len(tasks) for name, tasks in network.tasks.items()}
        self._places = {
            task.encode(): (self._task_lines[name], place, name)
            for name, tasks in network.tasks.items()
            for place, task in enumerate(tasks)
        }
        self._changed = set(network.reporters)  # whose lines are others than in their row
        self._made: set[str] = set()  # whose rows were made anew since they were asked for
        self.rows = {name: b"" for name in network.reporters}
        self.total = 0
        self._start_with(self._live)

    def _start(self) -> Live:
        self._live = Live(self._program, self.text, self._beat, self._stuck)
        self._start_with(self._live)
        return self._live

    def _start_with(self, live: Live) -> None:
        """Takes the first table of a child, which is ended where that is none."""
        try:
            self._take(live.first)
        except BaseException:
            self.close()
            raise

    def put(self, reporter: str, entry: Entry | None) -> None:
        """A report as it stands now; None: there is none any more."""
        if not is_reporter(self.network, reporter):
            return
        network, before = self.network, self._reports.get(reporter, NO_REPORT)
        if entry is None:
            self._reports.pop(reporter, None)
            now, lines = NO_REPORT, changed_lines(network, reporter, before, NO_REPORT)
        else:
            now, lines = next_report(network, reporter, entry.modified, entry.value, before)
            self._reports[reporter] = now
        self._lines += lines
        self._set_refusals(reporter, now)
        self._beat()

    def make(self) -> None:
        """Brings rows and total to the reports of now. LiveDied: the next call starts anew."""
        if self._live is None:
            lines, live = self._all_lines(), self._start()
        else:
            lines, live = self._lines, self._live
        try:
            self._take(live.post(lines))
        except BaseException:
            self.close()
            raise
        self._lines = []
        for name in self._changed:
            self.rows[name] = b"".join(line + b"\n" for line in self._task_lines[name])
        self._made |= self._changed
        self._changed.clear()

    def changed(self) -> set[str]:
        """The reporters whose rows were made anew since the last call."""
        made, self._made = self._made, set()
        return made

    def _all_lines(self) -> list[bytes]:
        return [
            line
            for name, report in self._reports.items()
            for line in changed_lines(self.network, name, NO_REPORT, report)
        ]

    def _take(self, answer: Answer) -> None:
        self.total = answer.total
        for line in answer.task_lines:
            known = self._places.get(line[5 : line.find(b" ", 5)])
            if known is None:
                raise LiveDied(ODD)
            lines, place, name = known
            if lines[place] != line:
                lines[place] = line
                self._changed.add(name)

    def _set_refusals(self, reporter: str, report: Report) -> None:
        if report.refusals is None:
            self.refusals.pop(reporter, None)
        else:
            self.refusals[reporter] = (report.refusals, report.refusals.text().encode())

    def close(self) -> None:
        """Ends the child; `make` starts another one."""
        if self._live is not None:
            self._live.close()
            self._live = None
