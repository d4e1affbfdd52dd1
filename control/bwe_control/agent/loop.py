"""The agent's loop: a round each period, and new limits in force as soon as they come."""

from __future__ import annotations

import logging
import threading
import time
from collections.abc import Mapping
from dataclasses import dataclass

from bwe_control.agent.classifier import Classifier
from bwe_control.agent.config import Config, Mode
from bwe_control.agent.demand import Meter, sample_of
from bwe_control.agent.enforcement import Enforcement, Kernel
from bwe_control.agent.exchange import Exchange, Report
from bwe_control.agent.faults import KernelError
from bwe_control.agent.htb import MOST_RATE, REST, ClassState
from bwe_control.agent.state import State, read_places
from bwe_control.client import Limits
from bwe_control.values import Slice

log = logging.getLogger(__name__)


@dataclass
class Measured:
    """What a class had sent when it was looked at last, and the limits since, as kb/s * seconds."""

    sent_bytes: int
    at: float
    allowed: float = 0.0
    since: float = 0.0


@dataclass(frozen=True)
class TaskView:
    """A task as the metrics show it; rates in kilobits per second."""

    name: str
    limit: int
    rate: int
    demand: int
    is_held: bool
    sent_bytes: int
    backlog_bytes: int
    drops: int


class Agent:
    """Measures, reports and enforces for the tasks of one device."""

    def __init__(
        self,
        config: Config,
        kernel: Kernel,
        leaf: str,
        classifier: Classifier,
        exchange: Exchange,
        state: State,
        speed: int | None = None,
    ) -> None:
        self._config, self._kernel, self._speed = config, kernel, speed
        self._classifier, self._exchange, self.state = classifier, exchange, state
        self._enforcement = Enforcement(kernel, leaf, config.take_root)
        self._meters = {task.name: Meter(config.window, config.headroom) for task in config.tasks}
        self._measured: dict[str, Measured] = {}
        self._event = threading.Event()
        self._is_stopped = self._is_unknown = False
        self._slice: Slice | None = None
        self._reported: dict[str, int] | None = None
        self._above_speed: frozenset[str] = frozenset()
        self._said = ""
        self.counts = self._enforcement.counts
        self.missing: frozenset[str] = frozenset()
        self.refused_slices = 0
        self.in_force_at: float | None = None
        self.tasks: tuple[TaskView, ...] = ()
        self.unclassified_bytes = 0
        self.round_seconds = 0.0

    @property
    def is_connected(self) -> bool:
        """Whether the store answers."""
        return self._exchange.is_connected

    def wake(self) -> None:
        """Limits have come."""
        self._event.set()

    def stop(self) -> None:
        """Ends the loop; all that is in force stays."""
        self._is_stopped = True
        self._event.set()

    def start(self) -> None:
        """Adopts what is there and makes what misses; a KernelError where that cannot be done."""
        self._enforcement.start(
            {
                self.state.minors[task.name]: self._rate(self._first_limit(task.name))
                for task in self._config.tasks
            }
        )
        self._classifier.keep(read_places(self._config.state))
        self._save()
        if self._config.mode is Mode.OBSERVE:
            self._enforcement.apply(dict.fromkeys(self.state.minors.values(), MOST_RATE))
        adopted, due = self.counts.adopted, len(self._config.tasks)
        log.info("%d of %d classes were there and stay as they are", adopted, due)

    def run(self) -> None:
        """Rounds until `stop`."""
        due = time.monotonic()
        while not self._is_stopped:
            now = time.monotonic()
            if now >= due:
                self._guarded_round()
                # After a pause of the machine periods that are past are left out.
                due = max(due + self._config.every, time.monotonic())
            self._event.wait(max(0.0, due - time.monotonic()))
            self._event.clear()
            self.take_limits()

    def take_limits(self) -> None:
        """Puts limits in force where new ones have come."""
        limits = self._exchange.limits()
        if limits is None or limits.posted is None:
            return
        slice_ = limits.slice
        if slice_ is None:
            if not self._is_unknown:
                reporter = self._config.reporter
                log.warning("the document has no reporter %s: its limits stay", reporter)
        elif self._is_older(slice_):
            self.refused_slices += 1
            log.error(
                "limits of prefix %d are older than those in force, of %d, and are refused",
                slice_.prefix,
                self.state.prefix,
            )
        elif self._slice is None or slice_.prefix != self._slice.prefix:
            self._take_slice(slice_)
        self._is_unknown = slice_ is None

    def _is_older(self, slice_: Slice) -> bool:
        known = [it for it in (self.state.prefix, self._slice and self._slice.prefix) if it]
        return any(slice_.prefix < prefix for prefix in known)

    def _take_slice(self, slice_: Slice) -> None:
        names = [task.name for task in self._config.tasks]
        missing = frozenset(name for name in names if name not in slice_.limits)
        for name in sorted(missing - self.missing):
            log.warning("task %s has no limit in the table: it keeps the one that it has", name)
        self.missing = missing
        limits = {name: slice_.limits[name] for name in names if name in slice_.limits}
        self._slice = slice_
        self._say_above_speed(limits)
        if self._config.mode is Mode.ENFORCE:
            self._put_in_force(limits)
        self._settle()

    def _settle(self) -> None:
        """Notes that the last slice is in force, once the kernel has all of it."""
        slice_, state = self._slice, self.state
        if slice_ is None or not self._enforcement.is_settled:
            return
        if (state.prefix, state.document) != (slice_.prefix, slice_.document):
            self.in_force_at = time.monotonic()
            state.prefix, state.document = slice_.prefix, slice_.document
            known = self.state.minors
            state.limits.update({n: it for n, it in slice_.limits.items() if n in known})
            self._save()
            is_enforced = self._config.mode is Mode.ENFORCE
            log.info("prefix %d is %s", slice_.prefix, "in force" if is_enforced else "seen")

    def _save(self) -> None:
        """Writes the state file. Where that fails, limits are kept, but not over a restart."""
        try:
            self.state.write(self._config.state)
        except OSError as error:
            self.counts.errors += 1
            log.error("%s was not written: %s", self._config.state, error.strerror)

    def _say_above_speed(self, limits: Mapping[str, int]) -> None:
        """A limit above the device's speed holds nothing back: it is said once."""
        speed = self._speed or MOST_RATE
        above = frozenset(name for name, limit in limits.items() if limit > speed)
        for name in sorted(above - self._above_speed):
            log.warning(
                "task %s: its limit of %d kb/s is above the %d of %s, which holds it first",
                name,
                limits[name],
                speed,
                self._config.device,
            )
        self._above_speed = above

    def _put_in_force(self, limits: Mapping[str, int]) -> None:
        now = time.monotonic()
        rates = {}
        for name, limit in limits.items():
            minor, rate = self.state.minors[name], self._rate(limit)
            if rate != self._enforcement.rate(minor):
                self._account(name, now)
            rates[minor] = rate
        try:
            self._enforcement.apply(rates)
        except KernelError as error:
            self._met(error)

    def _guarded_round(self) -> None:
        """A round; what the kernel refuses is said once, counted, and tried again in the next."""
        start = time.thread_time()
        try:
            self.round()
            self._said = ""
        except KernelError as error:
            self._met(error)
        self.round_seconds = time.thread_time() - start

    def _met(self, error: KernelError) -> None:
        self.counts.errors += 1
        if str(error) != self._said:
            self._said = str(error)
            log.error("%s; what is in force stays", error)

    def round(self) -> None:
        """Measures, reports, and sets back what others have changed."""
        there = self._kernel.classes()
        self._measure(there, time.monotonic())
        self._send_report()
        self._enforcement.keep(there)
        self._settle()
        if self._classifier.keep(read_places(self._config.state)):
            self.counts.drifts += 1
            log.warning("the table of nftables had been changed, and is put back")

    def _measure(self, there: Mapping[int, ClassState], now: float) -> None:
        views = []
        is_enforced = self._config.mode is Mode.ENFORCE
        for name, meter in self._meters.items():
            state = there.get(self.state.minors[name])
            if state is None:
                self._measured.pop(name, None)
                continue
            limit = self._enforcement.rate(state.minor)
            last = self._measured.get(name)
            if last is not None and state.sent_bytes >= last.sent_bytes:
                seconds = now - last.at
                mean = (last.allowed + limit * (now - last.since)) / seconds
                sample = sample_of(state.sent_bytes - last.sent_bytes, seconds)
                meter.sampled(sample, mean, state.backlog_bytes, limit)
            self._measured[name] = Measured(state.sent_bytes, now, 0.0, now)
            views.append(
                TaskView(
                    name,
                    limit,
                    meter.sample,
                    meter.asked,
                    meter.is_held and is_enforced,
                    state.sent_bytes,
                    state.backlog_bytes,
                    state.drops,
                )
            )
        self.tasks = tuple(views)
        self.unclassified_bytes = there[REST].sent_bytes if REST in there else 0

    def _account(self, name: str, now: float) -> None:
        """The limit of a task changes now: what it had since the last change is added up."""
        last = self._measured.get(name)
        if last is not None:
            rate = self._enforcement.rate(self.state.minors[name])
            last.allowed += rate * (now - last.since)
            last.since = now

    def _send_report(self) -> None:
        """Reports where a demand has changed, once it is known what was reported before."""
        before = self._exchange.reported()
        if before is None or not self._measured:
            return
        if self._reported is None:
            for name, meter in self._meters.items():
                meter.asked = max(meter.asked, before.demands.get(name, 0))
            self._reported = dict(before.demands)
        demands = {name: meter.asked for name, meter in self._meters.items()}
        if demands != self._reported:
            self._reported = demands
            self._exchange.report(Report(demands))

    def _first_limit(self, name: str) -> int:
        return self.state.limits.get(name, self._config.initial)

    def _rate(self, limit: int) -> int:
        """The rate of a class for a limit: HTB has no rate 0, and the floor is `least`."""
        return max(limit, self._config.least)
