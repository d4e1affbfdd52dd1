"""What the paths of a document allow at best: the most throughput, and exact max-min fairness.

Both are linear programs for HiGHS. The answers have fractions, and are compared with tables; no
limit comes of them. A flow is what one path carries, in kb/s.
"""

from __future__ import annotations

from collections.abc import Sequence
from dataclasses import dataclass

import numpy
from numpy.typing import NDArray
from scipy import sparse
from scipy.optimize import linprog

from bwe_tools.curves import Curve, Floats
from bwe_tools.document import ToolError
from bwe_tools.path_network import PathNetwork
from bwe_tools.progress import Told

Bools = NDArray[numpy.bool_]
TINY = 1e-7


@dataclass(frozen=True)
class Answer:
    """The best values of the variables of a linear program, and the price of each of its rows."""

    values: Floats
    prices: Floats


def best(costs: Floats, rows: sparse.spmatrix, most: Floats, bounds: object = (0, None)) -> Answer:
    """The values of least cost with `rows @ values <= most`; the cheapest ones are there."""
    found = linprog(costs, A_ub=rows, b_ub=most, bounds=bounds, method="highs")
    if found.status != 0:
        raise ToolError(f"HiGHS found no optimum of a linear program: {found.message}")
    return Answer(numpy.asarray(found.x), -numpy.asarray(found.ineqlin.marginals))


def unit_of(network: PathNetwork) -> float:
    """What counts as 1 in a linear program, so that its numbers are near 1."""
    return max(float(network.capacities.max(initial=0.0)), 1.0)


def most_throughput(network: PathNetwork, asks: Floats) -> Floats:
    """Flows of the greatest sum, with which no group has more than it asks for."""
    unit = unit_of(network)
    rows = sparse.vstack([network.uses, network.members], format="csr")
    most = numpy.concatenate([network.capacities, asks]) / unit
    return best(-numpy.ones(len(network.paths)), rows, most).values * unit


def shortest_flows(network: PathNetwork, amounts: Floats) -> Floats:
    """Flows that give each group its amount, of those the ones over the fewest links in all."""
    unit = unit_of(network)
    rows = sparse.vstack([network.uses, -network.members], format="csr")
    # What a linear program gave before holds up to its tolerance.
    most = numpy.concatenate([network.capacities / unit + TINY, -amounts / unit + TINY])
    return numpy.maximum(best(network.lengths, rows, most).values * unit, 0.0)


@dataclass(frozen=True)
class MaxMin:
    """What each group has under max-min fairness, in kb/s, and the share at which it stopped.

    The least share is as great as can be, then the second least, and so on; a group has what its
    curve gives at its share. Where all curves are lines, this is max-min fairness weighted by
    their slopes.
    """

    amounts: Floats
    shares: Floats
    rounds: int


def max_min(
    network: PathNetwork, curves: Sequence[Curve], top: int, told: Told = lambda done, of: None
) -> MaxMin:
    """Max-min fairness over paths that may be split at will.

    Each round raises the share of all groups that are not fixed as far as the links allow, by
    linear programs along the lines of their curves, and fixes those that hold it back. `told` is
    called after each round with the number of groups that are fixed, and of all.
    """
    return _MaxMin(network, curves, top, told).run()


class _MaxMin:
    def __init__(self, network: PathNetwork, curves: Sequence[Curve], top: int, told: Told) -> None:
        self.network, self.curves, self.top, self.told = network, curves, float(top), told
        self.unit = unit_of(network)
        self.rows = sparse.vstack([network.uses, -network.members], format="csr")
        self.amounts = numpy.zeros(len(curves))
        self.shares = numpy.full(len(curves), self.top)
        self.open = numpy.array([curve.most > 0 for curve in curves], dtype=bool)
        self.share = 0.0

    def run(self) -> MaxMin:
        rounds = 0
        while self.open.any():
            prices = self.raise_share()
            values = self.at(self.share)
            most = numpy.array([curve.most for curve in self.curves])
            is_full = self.open & (values >= most * (1 - 1e-12))
            is_held = self.open & (prices > TINY)
            if self.share >= self.top or not (is_full | is_held).any():
                is_held = self.open
            self.amounts[is_full | is_held] = values[is_full | is_held]
            self.shares[is_held & ~is_full] = self.share
            self.open &= ~(is_full | is_held)
            rounds += 1
            self.told(int(len(self.open) - self.open.sum()), len(self.open))
        return MaxMin(self.amounts, self.shares, rounds)

    def at(self, share: float) -> Floats:
        return numpy.array([curve.at(share) for curve in self.curves])

    def raise_share(self) -> Floats:
        """Raises the share as far as it goes, and gives the price of each group's growth there.

        A curve that gets flatter is below its line, so a step along the lines is never too far;
        steps end where a curve gets steeper.
        """
        while True:
            at, still = self.share, [curve for curve, ok in zip(self.curves, self.open) if ok]
            limit = min(self.top, *(curve.next_rise(at) for curve in still), self.top)
            step, prices = self.step(limit - at)
            self.share = limit if step >= (limit - at) * (1 - 1e-12) else at + step
            is_short = step <= 1e-10 * self.top
            if self.share >= self.top or (is_short and self.share < limit):
                return prices
            if self.share < limit and not any(one.bends_between(at, self.share) for one in still):
                return prices

    def step(self, longest: float) -> tuple[float, Floats]:
        """How far the share can rise along the lines from where it is, and the groups' prices."""
        values = numpy.where(self.open, self.at(self.share), self.amounts) / self.unit
        slopes = numpy.array(
            [one.slope_after(self.share) if ok else 0.0 for one, ok in zip(self.curves, self.open)]
        )
        if not slopes.any():
            return longest, numpy.zeros(len(slopes))
        scale = float(slopes.max()) / self.unit
        column = numpy.concatenate([numpy.zeros(len(self.network.links)), slopes / slopes.max()])
        rows = sparse.hstack([self.rows, sparse.csr_matrix(column).T], format="csr")
        most = numpy.concatenate([self.network.capacities / self.unit, TINY / 100 - values])
        costs = numpy.append(numpy.zeros(len(self.network.paths)), -1.0)
        bounds = [(0, None)] * len(self.network.paths) + [(0, longest * scale)]
        answer = best(costs, rows, most, bounds)
        return float(answer.values[-1]) / scale, answer.prices[len(self.network.links) :]
