"""The agent's side of the control plane: two threads, one that follows limits, one that reports.

Neither ever holds up the loop that measures: it takes the newest limits that came, and leaves the
newest report. While the store is away both go on trying.
"""

from __future__ import annotations

import logging
import threading
import time
from collections.abc import Callable
from dataclasses import dataclass, field
from typing import Protocol

from bwe_control.client import LOOK_EACH, PAUSE, Limits, LimitsFollower, put_report, read_refusals
from bwe_control.errors import ControlError, StoreAway
from bwe_control.keys import Keys
from bwe_control.store.interface import Select, Store
from bwe_control.trouble import Trouble
from bwe_control.values import Refusals, report_text

log = logging.getLogger(__name__)

LOOK_AT_REFUSALS_EACH = 2.0
CAUSES = {
    1: "is no report",
    2: "names a task that the document does not have",
    3: "has an amount above 1,000,000,000,000",
    4: "is of a task that belongs to another reporter",
}


@dataclass(frozen=True)
class Report:
    """All that a reporter reports: demands of tasks, capacities of links."""

    demands: dict[str, int] = field(default_factory=dict)
    capacities: dict[str, int] = field(default_factory=dict)


class Exchange(Protocol):
    """What the agent's loop needs of the control plane."""

    is_connected: bool

    def limits(self) -> Limits | None:
        """The newest limits, None where none came since the last call."""

    def reported(self) -> Report | None:
        """The report that the store had when it answered first, None before."""

    def report(self, report: Report) -> None:
        """Leaves a report, to be put in place of the last one."""


class StoreExchange:
    """Exchange with a store; `wake` is called when limits have come."""

    def __init__(
        self, opens: Callable[[], Store], keys: Keys, reporter: str, wake: Callable[[], None]
    ) -> None:
        self._opens, self._keys, self._reporter, self._wake = opens, keys, reporter, wake
        self._condition = threading.Condition()
        self._is_stopped = False
        self._limits: Limits | None = None
        self._reported: Report | None = None
        self._report: Report | None = None
        self._is_due = False
        self._refusals: Refusals | None = None
        self.is_connected = False
        self._trouble = Trouble()
        self._threads = [
            threading.Thread(target=self._run, args=(work,), name=name, daemon=True)
            for name, work in (("limits", self._follow), ("report", self._put_reports))
        ]

    def start(self) -> None:
        for thread in self._threads:
            thread.start()

    def stop(self) -> None:
        """Ends both threads; one that waits for a store that is away is not waited for."""
        with self._condition:
            self._is_stopped = True
            self._condition.notify_all()
        for thread in self._threads:
            thread.join(2 * LOOK_EACH)

    def limits(self) -> Limits | None:
        with self._condition:
            newest, self._limits = self._limits, None
            return newest

    def reported(self) -> Report | None:
        with self._condition:
            return self._reported

    def report(self, report: Report) -> None:
        with self._condition:
            self._report, self._is_due = report, True
            self._condition.notify_all()

    def _run(self, work: Callable[[Store], None]) -> None:
        """Opens a store and works on it, anew after each fault, until it is told to stop."""
        while not self._is_stopped:
            store = None
            try:
                store = self._opens()
                work(store)
            except ControlError as fault:
                if self._trouble.is_new(str(fault)):
                    log.warning("the store is away, what is in force stays: %s", fault)
            finally:
                if store is not None:
                    store.close()
            with self._condition:
                self._condition.wait_for(lambda: self._is_stopped, PAUSE)

    def _follow(self, store: Store) -> None:
        """Takes in limits as they come; a fault of the store leaves it."""
        follower = LimitsFollower(store, self._keys, self._reporter)
        try:
            self._read_reported(store)
            looked = 0.0
            while not self._is_stopped:
                limits = follower.next(LOOK_EACH)
                self._is_back()
                if limits is not None:
                    with self._condition:
                        self._limits = limits
                    self._wake()
                if time.monotonic() - looked > LOOK_AT_REFUSALS_EACH:
                    looked = time.monotonic()
                    self._say_refusals(read_refusals(store, self._keys, self._reporter))
        except StoreAway:
            self.is_connected = False
            raise
        finally:
            follower.close()

    def _is_back(self) -> None:
        """The store answers: after an absence the last report is put again."""
        if self.is_connected:
            return
        log.info("the store answers")
        self.is_connected = True
        self._trouble.is_over()
        with self._condition:
            self._is_due = self._report is not None
            self._condition.notify_all()

    def _read_reported(self, store: Store) -> None:
        entry = store.read([Select(self._keys.report(self._reporter))]).found[0].one()
        report = report_of(entry.value if entry else b"")
        with self._condition:
            if self._reported is None:
                self._reported = report

    def _say_refusals(self, refusals: Refusals | None) -> None:
        """Says each refused line once, as long as the same lines are refused."""
        known = {line.text for line in self._refusals.lines} if self._refusals else set()
        for line in refusals.lines if refusals else ():
            if line.text not in known:
                cause = CAUSES.get(line.cause, f"is refused by cause {line.cause}")
                log.warning("the report's line %r %s", line.text, cause)
        self._refusals = refusals

    def _put_reports(self, store: Store) -> None:
        """Puts each report that is due; a fault leaves it, and the report stays due."""
        while True:
            with self._condition:
                self._condition.wait_for(lambda: self._is_due or self._is_stopped)
                if self._is_stopped:
                    return
                report, self._is_due = self._report, False
            assert report is not None
            try:
                value = report_text(report.demands, report.capacities)
                put_report(store, self._keys, self._reporter, value)
            except ControlError:
                with self._condition:
                    self._is_due = True
                raise


def report_of(value: bytes) -> Report:
    """What a report says; lines that are none are left out."""
    report = Report()
    for line in value.decode("ascii", "replace").splitlines():
        match line.split(" "):
            case ["demand", name, amount] if amount.isdecimal():
                report.demands[name] = int(amount)
            case ["capacity", name, amount] if amount.isdecimal():
                report.capacities[name] = int(amount)
    return report
