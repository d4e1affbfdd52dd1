"""Keeps the classes of a device at the rates that are due: adopts, applies, sets back.

Nothing here deletes. A class is named by its minor number; rates are in kilobits per second.
"""

from __future__ import annotations

import logging
import time
from collections.abc import Mapping, Sequence
from dataclasses import dataclass
from typing import Protocol

from bwe_control.agent.faults import KernelError
from bwe_control.agent.htb import MOST_RATE, REST, Change, ClassState, Owner, Root
from bwe_control.agent.netlink import Failure

log = logging.getLogger(__name__)


class Kernel(Protocol):
    """What is asked of the kernel for one device."""

    def root(self) -> Root:
        """The root qdisc as it stands."""

    def add_root(self, replace: bool = False) -> None:
        """Makes the root HTB."""

    def add_classes(self, changes: Sequence[Change], leaf: str) -> list[Failure]:
        """Makes classes, each with a leaf of this kind."""

    def change_classes(self, changes: Sequence[Change]) -> list[Failure]:
        """Gives classes new rates, in this order."""

    def classes(self) -> dict[int, ClassState]:
        """All classes by their minor numbers."""


@dataclass
class Counts:
    """What an enforcement has met so far."""

    adopted: int = 0
    errors: int = 0
    drifts: int = 0
    batch_seconds: float = 0.0
    batch_changes: int = 0


class Enforcement:
    """The classes of one device."""

    def __init__(self, kernel: Kernel, leaf: str, take_root: bool) -> None:
        self._kernel, self._leaf, self._take_root = kernel, leaf, take_root
        self._due: dict[int, int] = {}
        self._failed: set[int] = set()
        self.counts = Counts()

    @property
    def is_settled(self) -> bool:
        """Whether each class has the rate that is due, as far as the kernel has said."""
        return not self._failed

    def rate(self, minor: int) -> int:
        """The rate that is due of a class."""
        return self._due[minor]

    def start(self, rates: Mapping[int, int]) -> None:
        """Adopts the classes that are there at their rates, and makes the others at these rates."""
        self._make_root()
        there = self._kernel.classes()
        self._due = {REST: MOST_RATE}
        for minor, rate in rates.items():
            if minor in there:
                self.counts.adopted += 1
            self._due[minor] = there[minor].rate if minor in there else rate
        self._make_missing(there)

    def apply(self, rates: Mapping[int, int]) -> None:
        """Gives classes their new rates in one batch.

        Rates are raised first, and then lowered: a flow that loses its share on one path may then
        have it already on another. What fails is tried again by `keep`.
        """
        changed = {minor: rate for minor, rate in rates.items() if rate != self._due[minor]}
        raised = [Change(m, rate) for m, rate in changed.items() if rate > self._due[m]]
        lowered = [Change(m, rate) for m, rate in changed.items() if rate < self._due[m]]
        self._due.update(changed)
        self._change([*raised, *lowered])

    def keep(self, there: Mapping[int, ClassState]) -> None:
        """Sets back what others changed, and tries again what failed."""
        root = self._kernel.root()
        if root.owner is not Owner.OURS:
            self.counts.drifts += 1
            log.warning("the root qdisc is %s now, not the agent's: it is made again", root.kind)
            self._make_root()
            there = self._kernel.classes()
        self._make_missing(there)
        self._set_back(there)

    def _set_back(self, there: Mapping[int, ClassState]) -> None:
        wrong = [
            Change(minor, rate)
            for minor, rate in self._due.items()
            if minor in there and there[minor].rate != rate
        ]
        drifted = [change for change in wrong if change.minor not in self._failed]
        for change in drifted[:3]:
            now = there[change.minor].rate
            log.warning("class %x had %d kb/s, set back to %d", change.minor, now, change.rate)
        self.counts.drifts += len(drifted)
        self._change(wrong)

    def _make_root(self) -> None:
        root = self._kernel.root()
        if root.owner is Owner.OURS:
            return
        if root.owner is Owner.OTHER and not self._take_root:
            raise KernelError(
                f"the root qdisc {root.kind} {root.handle >> 16:x}: is somebody else's and stays; "
                "take_root = true in the configuration lets the agent take its place"
            )
        self._kernel.add_root(replace=root.owner is Owner.OTHER)

    def _make_missing(self, there: Mapping[int, ClassState]) -> None:
        missing = [Change(m, rate) for m, rate in self._due.items() if m not in there]
        if missing:
            self._failed |= {change.minor for change in missing}
            self._note(missing, self._kernel.add_classes(missing, self._leaf))

    def _change(self, changes: Sequence[Change]) -> None:
        if not changes:
            return
        # Till the kernel has answered, and for good where it does not, they count as failed.
        self._failed |= {change.minor for change in changes}
        start = time.monotonic()
        failures = self._kernel.change_classes(changes)
        self.counts.batch_seconds = time.monotonic() - start
        self.counts.batch_changes = len(changes)
        self._note(changes, failures)

    def _note(self, changes: Sequence[Change], failures: Sequence[Failure]) -> None:
        """Counts what failed, and says the first of it."""
        self._failed -= {change.minor for change in changes}
        self._failed |= {changes[failure.index].minor for failure in failures}
        self.counts.errors += len(failures)
        for failure in failures[:1]:
            change = changes[failure.index]
            log.error(
                "class %x at %d kb/s: %s; %d of %d changes failed and are tried again",
                change.minor,
                change.rate,
                failure.text,
                len(failures),
                len(changes),
            )
