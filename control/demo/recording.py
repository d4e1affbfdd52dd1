"""What one run of the demonstration leaves: everything that was seen, with times."""

from __future__ import annotations

from dataclasses import dataclass, field

from demo.probes import Samples
from demo.scenario import Event, Plan

Counts = dict[str, list[tuple[float, tuple[int, ...]]]]


@dataclass
class Recording:
    """All that one run of a plan has shown. Times are of the monotonic clock."""

    plan: Plan
    store: str
    start: float = 0.0
    clock: float = 0.0  # the time of day less that of the monotonic clock
    machine: str = ""
    samples: Samples = field(default_factory=Samples)
    received: Counts = field(default_factory=dict)
    sent: Counts = field(default_factory=dict)
    done: list[tuple[Event, float, float]] = field(default_factory=list)
    logs: dict[str, str] = field(default_factory=dict)
