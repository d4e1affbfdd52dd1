"""What an allocator measures of itself, for Prometheus."""

from __future__ import annotations

import threading
import time
from collections.abc import Iterable
from contextlib import contextmanager
from typing import TYPE_CHECKING, Iterator

from bwe_control.errors import InputError

from prometheus_client import (
    CollectorRegistry,
    Counter,
    Gauge,
    Histogram,
    generate_latest,
    start_http_server,
)
from prometheus_client.core import GaugeMetricFamily
from prometheus_client.registry import Collector

if TYPE_CHECKING:
    from bwe_control.desk import Desk
    from bwe_control.status import Status

SECONDS = (0.001, 0.002, 0.005, 0.01, 0.02, 0.05, 0.1, 0.2, 0.5, 1, 2, 5, 10)
TOP = "bwe_control"
LOOK_EACH = 0.5  # seconds between two looks at all reporters


class Metrics:
    """All metrics of one allocator, in a registry of their own."""

    def __init__(self) -> None:
        own = self.registry = CollectorRegistry()
        self.leader = Gauge(f"{TOP}_leader", "Whether this allocator leads.", registry=own)
        self.posts = Counter(f"{TOP}_posts", "Tables posted.", registry=own)
        self.prefix = Gauge(
            f"{TOP}_posted_prefix_revision", "The prefix of the posted table.", registry=own
        )
        self.lag = Gauge(
            f"{TOP}_prefix_lag_revisions",
            "By how many revisions the newest report is ahead of the posted prefix.",
            registry=own,
        )
        self.lag_seconds = Gauge(
            f"{TOP}_prefix_lag_seconds", "For how long a report stands unposted.", registry=own
        )
        self.read = self._histogram("read_seconds", "Time of a reading of the store.")
        self.table = self._histogram("table_seconds", "Time of bwe-live for a table.")
        self.write = self._histogram("write_seconds", "Time of the transactions of a table.")
        self.written = Counter(f"{TOP}_written_bytes", "Bytes of slices written.", registry=own)
        self.slices = Counter(f"{TOP}_written_slices", "Slices written.", registry=own)
        self.refused = Gauge(
            f"{TOP}_refused_lines", "Refused lines of a report.", ["reporter"], registry=own
        )
        self.ignored = Gauge(
            f"{TOP}_ignored_reports", "Reports of no reporter of the document.", registry=own
        )
        self.document = Gauge(
            f"{TOP}_document_revision", "The revision of the document in force.", registry=own
        )
        self.document_refused = Gauge(
            f"{TOP}_document_refused", "Whether the last document is refused.", registry=own
        )
        self.live_restarts = Counter(
            f"{TOP}_live_restarts", "Times that bwe-live had to be started anew.", registry=own
        )
        self.away = Gauge(f"{TOP}_store_away", "Whether the store does not answer.", registry=own)
        self.refuses = Gauge(
            f"{TOP}_store_refuses", "Whether the store refuses to write.", registry=own
        )
        self.faults = Counter(
            f"{TOP}_store_faults", "Calls to the store that failed.", ["kind"], registry=own
        )
        self.campaigns = Counter(f"{TOP}_campaigns", "Times that it became leader.", registry=own)
        self.given_away = Counter(
            f"{TOP}_stuck_leaders", "Leaders whose key was deleted as stuck.", registry=own
        )
        self.namesake = Gauge(
            f"{TOP}_name_taken", "Whether another allocator leads by this name.", registry=own
        )
        self._ages, self._next_look = _Ages(), 0.0
        own.register(self._ages)

    def _histogram(self, name: str, text: str) -> Histogram:
        return Histogram(f"{TOP}_{name}", text, buckets=SECONDS, registry=self.registry)

    @contextmanager
    def timed(self, histogram: Histogram) -> Iterator[None]:
        """Counts the time of what is done inside, where that has an end."""
        since = time.monotonic()
        yield
        histogram.observe(time.monotonic() - since)

    def show(self, prefix: int, desk: Desk, unposted: float) -> None:
        """What stands: the posted prefix, and for how many seconds a report stands unposted.

        What takes a look at each reporter is shown twice a second at most.
        """
        self.prefix.set(prefix)
        self.lag.set(max(0, desk.newest() - prefix))
        self.lag_seconds.set(unposted)
        self.document_refused.set(1 if desk.refusal else 0)
        if desk.tables is not None:
            self.document.set(desk.tables.network.revision)
        if time.monotonic() < self._next_look:
            return
        self._next_look = time.monotonic() + LOOK_EACH
        self.ignored.set(len(desk.ignored()))
        self._ages.take(desk)
        self.refused.clear()
        for name, (refusals, _) in desk.tables.refusals.items() if desk.tables else ():
            self.refused.labels(name).set(refusals.number)

    def serve(self, port: int) -> None:
        """Serves `/metrics` on the loopback from a thread of its own."""
        serve_registry(self.registry, port)


class _Ages(Collector):
    """The age of each report, by the monotonic clock at which this process saw it first."""

    def __init__(self) -> None:
        self._seen: dict[str, float] = {}
        self._lock = threading.Lock()

    def take(self, desk: Desk) -> None:
        seen = desk.seen_at()
        with self._lock:
            self._seen = seen

    def collect(self) -> Iterable[GaugeMetricFamily]:
        with self._lock:
            seen, now = dict(self._seen), time.monotonic()
        family = GaugeMetricFamily(
            f"{TOP}_report_age_seconds",
            "Time since the report of a reporter was new to this allocator.",
            labels=["reporter"],
        )
        for name, at in seen.items():
            family.add_metric([name], now - at)
        yield family


def serve_registry(registry: CollectorRegistry, port: int) -> None:
    """Serves a registry at `/metrics` of the loopback."""
    try:
        start_http_server(port, addr="127.0.0.1", registry=registry)
    except OSError as fault:
        raise InputError(f"port {port} cannot be served: {fault.strerror}") from None


def render(registry: CollectorRegistry) -> bytes:
    """The metrics as text."""
    text: bytes = generate_latest(registry)
    return text


class PageMetrics:
    """What the command `page` says of the deployment that it follows."""

    def __init__(self) -> None:
        own = self.registry = CollectorRegistry()
        self.away = Gauge(f"{TOP}_store_away", "Whether the store does not answer.", registry=own)
        self._has_leader = Gauge(f"{TOP}_has_leader", "Whether anybody leads.", registry=own)
        self._prefix = Gauge(
            f"{TOP}_posted_prefix_revision", "The prefix of the posted table.", registry=own
        )
        self._total = Gauge(
            f"{TOP}_posted_kilobits_per_second", "The sum of all groups' amounts.", registry=own
        )
        self._lag = Gauge(
            f"{TOP}_prefix_lag_revisions",
            "By how many revisions the newest report is ahead of the posted prefix.",
            registry=own,
        )
        self._refused = Gauge(
            f"{TOP}_refused_lines", "Refused lines of a report.", ["reporter"], registry=own
        )
        self._document_refused = Gauge(
            f"{TOP}_document_refused", "Whether the last document is refused.", registry=own
        )
        self._missing = Gauge(
            f"{TOP}_missing_reports", "Reporters of the document without a report.", registry=own
        )
        self._ignored = Gauge(
            f"{TOP}_ignored_reports", "Reports of no reporter of the document.", registry=own
        )

    def show(self, status: Status) -> None:
        """What a reading says."""
        self.away.set(0)
        self._has_leader.set(1 if status.leader else 0)
        self._prefix.set(status.posted.prefix if status.posted else 0)
        self._total.set(status.posted.total if status.posted else 0)
        self._lag.set(status.lag)
        self._document_refused.set(1 if status.refused_document else 0)
        self._missing.set(sum(it.report is None for it in status.reporters))
        self._ignored.set(len(status.ignored))
        self._refused.clear()
        for it in status.reporters:
            if it.refusals:
                self._refused.labels(it.name).set(it.refusals.number)
