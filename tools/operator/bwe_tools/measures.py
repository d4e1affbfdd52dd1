"""How good amounts are beside those of max-min fairness: throughput, fairness and Jain's index."""

from __future__ import annotations

from dataclasses import dataclass

import numpy

from bwe_tools.curves import Floats

LEAST_PART = 1e-4  # of the greatest capacity: amounts below count as this much


@dataclass(frozen=True)
class Measures:
    """Throughputs in kb/s, and two measures of fairness from 0 to 1 beside exact max-min.

    `fairness` is the geometric mean of min(x/x*, x*/x) over the groups that ask for something,
    where x is a group's amount and x* that of max-min fairness. `jain` is Jain's index of x/x*.
    """

    throughput: float
    fair_throughput: float
    most_throughput: float
    fairness: float
    jain: float

    @property
    def of_most(self) -> float:
        return part(self.throughput, self.most_throughput)

    @property
    def of_fair(self) -> float:
        return part(self.throughput, self.fair_throughput)


def part(amount: float, whole: float) -> float:
    """A part of a whole; all of nothing is 1."""
    return amount / whole if whole > 0 else 1.0


def ratios(amounts: Floats, fair: Floats, capacities: Floats) -> Floats:
    """x/x* of each group; both are raised to a ten-thousandth of the greatest capacity first."""
    least = LEAST_PART * float(capacities.max(initial=1.0))
    beside: Floats = numpy.maximum(amounts, least) / numpy.maximum(fair, least)
    return beside


def measures(
    amounts: Floats, fair: Floats, most: float, asks: Floats, capacities: Floats
) -> Measures:
    """The measures of amounts by group; `most` is the most possible throughput."""
    beside = ratios(amounts, fair, capacities)[asks > 0]
    logs = -numpy.abs(numpy.log(beside))
    jain = float(beside.sum() ** 2 / (len(beside) * (beside**2).sum())) if len(beside) else 1.0
    return Measures(
        throughput=float(amounts.sum()),
        fair_throughput=float(fair.sum()),
        most_throughput=most,
        fairness=float(numpy.exp(logs.mean())) if len(beside) else 1.0,
        jain=min(jain, 1.0),
    )
