"""What a task asks for: an estimate of its samples, and twice its limit while that holds it.

The estimate is the rule of `bwe estimate`: the greatest of the last `window` samples, with a
headroom. Samples, limits and demands are in kilobits per second.
"""

from __future__ import annotations

from collections import deque
from collections.abc import Iterable

from bwe_control.agent.config import MOST_RATE

HELD_PART = 0.9
HELD_PART_WITH_BACKLOG = 0.5


def estimate(samples: Iterable[int], headroom: int) -> int:
    """The greatest sample times the headroom in hundredths, rounded up, at most MOST_RATE."""
    return min(-(-max(samples) * headroom // 100), MOST_RATE)


def sample_of(sent_bytes: int, seconds: float) -> int:
    """The rate at which so many bytes were sent in a period, rounded up to a whole number."""
    microseconds = max(1, round(seconds * 1_000_000))
    return min(-(-sent_bytes * 8000 // microseconds), MOST_RATE)


def is_held(sample: int, limit: float, backlog_bytes: int) -> bool:
    """Whether the limit holds the task: it sent 0.9 of it, or half of it and has packets waiting.

    `limit` is the mean of what was in force in the period of the sample.
    """
    part = HELD_PART_WITH_BACKLOG if backlog_bytes else HELD_PART
    return sample >= part * limit


def step_of(amount: int) -> int:
    """How coarsely an amount is reported: 10 below 1,000, then 100, and from 100,000 on a step of
    its third digit."""
    return 10 if amount < 1000 else max(100, int(10 ** (len(str(amount)) - 3)))


def coarse(amount: int, reported: int) -> int:
    """The amount rounded up to a step; `reported` itself where that is at most a step above.

    So noise about a step reports nothing, and what is reported is never below the amount.
    """
    step = step_of(amount)
    rounded = min(-(-amount // step) * step, MOST_RATE)
    if rounded and rounded <= reported <= rounded + step:
        return reported
    return rounded


class Meter:
    """The samples of one task, and what it asks for."""

    def __init__(self, window: int, headroom: int) -> None:
        self._samples: deque[int] = deque(maxlen=window)
        self._headroom = headroom
        self.sample = 0
        self.is_held = False
        self.asked = 0

    def sampled(self, sample: int, limit: float, backlog_bytes: int, next_limit: int) -> int:
        """Takes a sample in and returns what the task asks for now.

        `limit` is the mean limit in the period, `next_limit` that in force at its end. Before a
        window of samples is there, nothing that was asked for falls: after a restart of the agent a
        task that pauses keeps its share as it would have without.
        """
        self._samples.append(sample)
        self.sample = sample
        self.is_held = is_held(sample, limit, backlog_bytes)
        amount = estimate(self._samples, self._headroom)
        if self.is_held:
            amount = max(amount, min(2 * next_limit, MOST_RATE))
        is_full = len(self._samples) == self._samples.maxlen
        asks = coarse(amount, self.asked)
        self.asked = asks if is_full else max(asks, self.asked)
        return self.asked
