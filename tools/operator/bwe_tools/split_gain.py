"""What a split gains: the tables before and behind it, each beside the optimum of its demands."""

from __future__ import annotations

from collections.abc import Sequence
from dataclasses import dataclass

import numpy

from bwe_tools.comparison import Optimum, amounts_of, optimum_of
from bwe_tools.document import Document
from bwe_tools.live import Live
from bwe_tools.matrices import Matrix
from bwe_tools.measures import Measures
from bwe_tools.progress import Told
from bwe_tools.questions import askable
from bwe_tools.splits import Written, split_of_many, split_of_one, with_splits


@dataclass(frozen=True)
class Gain:
    """Measures of the tables of some demand matrices, in their order."""

    before: list[Measures]
    behind: list[Measures]

    @property
    def is_loss(self) -> bool:
        """Whether fairness, or all throughput together, has become less."""
        fairness = [sum(one.fairness for one in side) for side in (self.before, self.behind)]
        through = [sum(one.throughput for one in side) for side in (self.before, self.behind)]
        return fairness[1] < fairness[0] or through[1] < through[0]


def optima_of(document: Document, matrices: Sequence[Matrix], told: Told) -> list[Optimum]:
    optima = []
    for matrix in matrices:
        optima.append(optimum_of(document, matrix))
        told(len(optima), len(matrices))
    return optima


def split(document: Document, optima: Sequence[Optimum], is_worst: bool, least: float) -> Written:
    """The document with the split for the matrices of some optima."""
    network = optima[0].network
    if len(optima) == 1:
        parts = split_of_one(network, optima[0].fair.amounts)
    else:
        parts = split_of_many(network, [one.fair.amounts for one in optima], is_worst)
    return with_splits(document, network, parts, least)


def gain_of(
    before: Document, behind: Document, matrices: Sequence[Matrix], optima: Sequence[Optimum]
) -> Gain:
    return Gain(*(_measures(one, matrices, optima) for one in (before, behind)))


def _measures(
    document: Document, matrices: Sequence[Matrix], optima: Sequence[Optimum]
) -> list[Measures]:
    with Live(askable(document)) as live:
        return [
            optimum.measures(amounts_of(table))
            for optimum, table in zip(optima, live.tables(matrices))
        ]


def mean(measures: Sequence[Measures], of: str) -> float:
    return float(numpy.mean([getattr(one, of) for one in measures]))


def worst(measures: Sequence[Measures], of: str) -> float:
    return float(min(getattr(one, of) for one in measures))
