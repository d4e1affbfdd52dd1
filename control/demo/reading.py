"""What a recording shows, as numbers: rates, round trips, segments sent again, and reactions."""

from __future__ import annotations

from collections.abc import Callable, Iterable, Sequence
from dataclasses import dataclass

import numpy as np
import numpy.typing as npt

from demo.network import LINES
from demo.recording import Recording
from demo.scenario import TASKS, Event, capacity

Series = npt.NDArray[np.float64]
SETTLED = 8.0  # seconds of a phase after which it counts as steady
ETHERNET_PER_PAYLOAD = 1514 / 1448
TURNING = 1.0  # seconds after which a task that begins to send does so steadily


@dataclass(frozen=True)
class Steady:
    """The steady part of a phase: means in Mbit/s, round trips in milliseconds."""

    label: str
    first: float
    last: float
    received: dict[str, float]
    sent: dict[str, float]
    limits: dict[str, float]
    carried: dict[str, float]
    median: dict[str, float]
    high: dict[str, float]
    segments: int
    again: int


def mean_rate(times: Series, totals: Series, first: float, last: float) -> float:
    """The mean rate in Mbit/s of a total of bytes between two times."""
    at_first, at_last = np.interp([first, last], times, totals)
    return float(at_last - at_first) * 8 / (last - first) / 1e6


def rates(times: Series, totals: Series, grid: Series, window: float) -> Series:
    """Rates in Mbit/s, each over a window about a time of the grid."""
    high = np.interp(grid + window / 2, times, totals)
    low = np.interp(grid - window / 2, times, totals)
    return np.asarray((high - low) * 8 / window / 1e6)


class Reading:
    """A recording, with times counted from its start; each series is times and values.

    `received` has the bytes that came at site c and `sent` those of the class, by task; `limits`
    the rate of the class in Mbit/s; `lines` the bytes that a line has carried; `trips` round trips
    in milliseconds by path; `segments` and `again` what a task has sent and sent again by TCP.
    """

    def __init__(self, recording: Recording) -> None:
        self.recording = recording
        self._start = recording.start
        samples, names = recording.samples, {str(task.port): task.name for task in TASKS}
        classes = samples.classes.items()
        self.received = {
            names[port]: self._series((at, them[0]) for at, them in counts)
            for port, counts in recording.received.items()
        }
        self.sent = {
            name: self._series((it.at, it.sent_bytes) for it in them) for name, them in classes
        }
        self.limits = {
            name: self._series((it.at, it.rate / 1000) for it in them) for name, them in classes
        }
        self.lines = {name: self._series(them) for name, them in samples.lines.items()}
        self.trips = {path: self._series(them) for path, them in samples.trips.items()}
        sent = recording.sent.items()
        self.segments = {name: self._series((at, it[0]) for at, it in them) for name, them in sent}
        self.again = {name: self._series((at, it[1]) for at, it in them) for name, them in sent}

    def event(self, action: str, of: str = "") -> tuple[Event, float, float] | None:
        """The first event of an action, of this argument, and when it began and was done."""
        for event, before, after in self.recording.done:
            if event.action == action and (not of or of in event.arguments):
                return event, before - self._start, after - self._start
        return None

    def idle(self, path: str) -> float:
        """The median round trip before any task sends."""
        times, values = self.trips[path]
        begin = min(times[0] for times, _ in self.segments.values())
        return float(np.median(values[times < begin]))

    def settled(self, task: str, first: float, last: float) -> float:
        """What a task receives at the end of a span, in Mbit/s."""
        return mean_rate(*self.received[task], last - 4, last - 0.5)

    def sent_again(self, first: float, last: float) -> tuple[int, int]:
        """Segments with data and those sent again, of all tasks, between two times."""
        return count(self.segments, first, last), count(self.again, first, last)

    def steady(self, first: float, last: float, label: str) -> Steady:
        """A span in means."""
        inside = {
            path: values[(times >= first) & (times <= last)]
            for path, (times, values) in self.trips.items()
        }
        segments, again = self.sent_again(first, last)
        received, sent, lines = self.received, self.sent, self.lines
        return Steady(
            label=label,
            first=first,
            last=last,
            received={name: mean_rate(*them, first, last) for name, them in received.items()},
            sent={name: mean_rate(*them, first, last) for name, them in sent.items()},
            limits={
                name: float(np.mean(values[(times >= first) & (times <= last)]))
                for name, (times, values) in self.limits.items()
            },
            carried={name: mean_rate(*them, first, last) for name, them in lines.items()},
            median={path: float(np.median(them)) for path, them in inside.items() if len(them)},
            high={
                path: float(np.quantile(them, 0.99)) for path, them in inside.items() if len(them)
            },
            segments=segments,
            again=again,
        )

    def pulses(self, task: str, first: float, last: float) -> list[tuple[float, float]]:
        """The spans between two times in which a task that sends by turns has been sending."""
        spans, since = [], None
        for event, before, _ in self.recording.done:
            at = before - self._start
            if event.arguments == (task,) and event.action == "start":
                since = at
            elif event.arguments == (task,) and event.action == "stop" and since is not None:
                begin, end = max(since + TURNING, first), min(at, last)
                if end - begin > TURNING:
                    spans.append((begin, end))
                since = None
        return spans

    def carried_while(self, task: str, line: str, first: float, last: float) -> float:
        """What a line carries between two times while a task sends, in Mbit/s."""
        spans = self.pulses(task, first, last) or [(first, last)]
        total = sum(mean_rate(*self.lines[line], *span) * (span[1] - span[0]) for span in spans)
        return total / sum(end - begin for begin, end in spans)

    def phases(self) -> list[Steady]:
        """The steady part of each phase with a label."""
        steady = []
        for first, last, label in self.recording.plan.phases():
            skipped = min(SETTLED, (last - first) / 2)
            steady.append(self.steady(first + skipped, last - 0.3, " ".join(label.split())))
        return steady

    def until(
        self, since: float, holds: Callable[[float], bool], step: float = 0.02
    ) -> float | None:
        """The seconds after a time until something holds, None where it never does."""
        for number in range(int(30 / step)):
            if holds(since + number * step):
                return number * step
        return None

    def limits_fit(self, line: str, rate: int, tasks: Sequence[str], since: float) -> float | None:
        """The seconds until the limits of tasks together are at most a line's capacity."""
        limits = self.limits

        def fits(now: float) -> bool:
            total = 0.0
            for name in tasks:
                times, values = limits[name]
                total += values[max(0, int(np.searchsorted(times, now, side="right")) - 1)]
            return round(total * 1000) <= capacity(rate)

        return self.until(since, fits)

    def reaches(self, task: str, level: float, since: float, window: float = 0.2) -> float | None:
        """The seconds until a task receives at so many Mbit/s, over a window that ends then."""
        times, totals = self.received[task]
        return self.until(since, lambda now: mean_rate(times, totals, now - window, now) >= level)

    def empties(self, line: str, since: float, window: float = 0.1) -> float | None:
        """The seconds until a line carries nothing but what is no task's."""
        times, totals = self.lines[line]
        return self.until(since, lambda now: mean_rate(times, totals, now, now + window) < 0.2)

    def _series(self, pairs: Iterable[tuple[float, float]]) -> tuple[Series, Series]:
        array = np.asarray(list(pairs), dtype=np.float64).reshape(-1, 2)
        return array[:, 0] - self._start, array[:, 1]


def count(totals: dict[str, tuple[Series, Series]], first: float, last: float) -> int:
    """By how much totals grow together between two times."""
    grown = [np.interp([first, last], times, values) for times, values in totals.values()]
    return round(float(sum(high - low for low, high in grown)))


def line_rate(name: str) -> int:
    """A line's rate in kilobits per second, as it is at first."""
    return next(line.rate for line in LINES if line.name == name)
