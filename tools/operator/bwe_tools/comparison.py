"""A table beside the most throughput and exact max-min fairness over the same paths."""

from __future__ import annotations

from dataclasses import dataclass

import numpy

from bwe_tools.curves import Curve, Floats, curves_of
from bwe_tools.document import Document, ToolError
from bwe_tools.losses import GroupLoss, losses_of
from bwe_tools.measures import Measures, measures
from bwe_tools.optimum import MaxMin, max_min, most_throughput, shortest_flows
from bwe_tools.path_network import PathNetwork, path_network
from bwe_tools.progress import Told
from bwe_tools.table import Table


@dataclass(frozen=True)
class Optimum:
    """What the paths of a document allow at best, under its demands. Rates are in kb/s."""

    network: PathNetwork
    curves: list[Curve]
    asks: Floats  # what each group may have at most
    most: float  # the most possible throughput
    fair: MaxMin

    def flows(self) -> Floats:
        """The flow of each path under max-min fairness, over the fewest links."""
        return shortest_flows(self.network, self.fair.amounts)

    def measures(self, amounts: Floats) -> Measures:
        """The measures of amounts by group."""
        capacities = self.network.capacities
        return measures(amounts, self.fair.amounts, self.most, self.asks, capacities)


def optimum_of(
    document: Document,
    demands: dict[str, int] | None = None,
    told: Told = lambda done, of: None,
) -> Optimum:
    """The optimum under demands by task; without them, under those of the document's script."""
    if not document.groups:
        raise ToolError("the document has no groups, so there is nothing to compare")
    network = path_network(document)
    curves = curves_of(document, document.demands() if demands is None else demands)
    asks = numpy.array([curve.most for curve in curves])
    most = float(most_throughput(network, asks).sum())
    return Optimum(network, curves, asks, most, max_min(network, curves, document.top, told))


def amounts_of(table: Table) -> Floats:
    return numpy.array([group.amount for group in table.groups], dtype=float)


@dataclass(frozen=True)
class Comparison:
    optimum: Optimum
    measures: Measures
    losses: list[GroupLoss]


def compare(document: Document, table: Table, told: Told = lambda done, of: None) -> Comparison:
    """A table of a document beside the optimum."""
    found = optimum_of(document, told=told)
    losses = losses_of(document, table, found.network, found.fair.amounts, found.flows())
    return Comparison(found, found.measures(amounts_of(table)), losses)
