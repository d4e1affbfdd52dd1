"""Other ways to share a network out, to hold tables against: SWAN's and Soroush's.

Amounts are in kb/s, by group; all groups count alike, as in the study's documents.
"""

from __future__ import annotations

from math import ceil, log

import numpy
from numpy.typing import NDArray
from scipy import sparse  # type: ignore[import]

from bwe_tools.curves import Floats
from bwe_tools.optimum import TINY, best, unit_of
from bwe_tools.path_network import PathNetwork

ALPHA = 2.0
WATERFILLINGS = 10


def fits(network: PathNetwork, demands: Floats) -> float:
    """The greatest factor at which all demands fit, each whole ("maximum concurrent flow")."""
    unit = unit_of(network)
    column = numpy.concatenate([numpy.zeros(len(network.links)), demands / demands.max()])
    rows = sparse.hstack(
        [sparse.vstack([network.uses, -network.members]), sparse.csr_matrix(column).T],
        format="csr",
    )
    most = numpy.concatenate([network.capacities / unit, numpy.zeros(len(demands))])
    costs = numpy.append(numpy.zeros(len(network.paths)), -1.0)
    return float(best(costs, rows, most).values[-1] * unit / demands.max())


def swan(network: PathNetwork, asks: Floats) -> Floats:
    """SWAN's approximation of max-min fairness (SIGCOMM 2013, algorithm 2), with alpha 2.

    Each step is one linear program, which gives the groups that are not fixed from the bound before
    to twice that, at the most throughput; a group that stays below its bound is fixed.
    """
    unit = unit_of(network)
    asked = asks / unit
    least = float(asked[asked > 0].min())
    steps = ceil(log(max(float(asked.max()) / least, 1.0), ALPHA)) + 1
    rows = sparse.vstack([network.uses, network.members, -network.members], format="csr")
    amounts, is_open = numpy.zeros(len(asks)), asked > 0
    for step in range(steps):
        low, high = (ALPHA ** (step - 1) if step else 0.0) * least, ALPHA**step * least
        above = numpy.where(is_open, numpy.minimum(asked, high), amounts)
        below = numpy.where(is_open, numpy.minimum(asked, low), amounts)
        # What a linear program gave before holds up to its tolerance.
        most = numpy.concatenate([network.capacities / unit, above + TINY, 10 * TINY - below])
        costs = -1.0 + 1e-4 * network.lengths / network.lengths.max()
        given = network.amounts(best(costs, rows, most).values)
        is_held = is_open & (given < numpy.minimum(asked, high) - 1e-6)
        amounts = numpy.where(is_open, given, amounts)
        is_open &= ~is_held & (asked > high)
    return amounts * unit


def adaptive_waterfilling(network: PathNetwork, asks: Floats) -> Floats:
    """Soroush's adaptive water-filling (NSDI 2024), of ten rounds.

    Each round fills all paths at once, in proportion to their weights, and gives each path as
    weight for the next round the part of its group that it got.
    """
    count = numpy.asarray(network.members.sum(axis=1)).ravel()[network.group_of]
    weights, flows = 1.0 / count, numpy.zeros(len(count))
    for _ in range(WATERFILLINGS):
        flows = waterfilling(network, asks, weights)
        whole = network.amounts(flows)[network.group_of]
        parts = numpy.divide(flows, whole, out=1.0 / count, where=whole > 0)
        weights = numpy.maximum(parts, 1e-9)
    return network.amounts(flows)


def waterfilling(network: PathNetwork, asks: Floats, weights: Floats) -> Floats:
    """Weighted max-min fairness of paths that are filled by themselves; what a group asks for is
    the capacity of a link that all its paths have.
    """
    rows = sparse.vstack([network.uses, network.members], format="csr")
    columns = rows.T.tocsr()
    left, weight = numpy.concatenate([network.capacities, asks]), rows @ weights
    flows, is_open = numpy.zeros(len(weights)), numpy.ones(len(weights), dtype=bool)
    while is_open.any():
        used = weight > 1e-12
        shares = numpy.divide(left, weight, out=numpy.full(len(left), numpy.inf), where=used)
        link = int(shares.argmin())
        share = max(float(shares[link]), 0.0)
        full: NDArray[numpy.int64] = rows.indices[rows.indptr[link] : rows.indptr[link + 1]]
        for path in full[is_open[full]]:
            flows[path], is_open[path] = weights[path] * share, False
            links = columns.indices[columns.indptr[path] : columns.indptr[path + 1]]
            weight[links] -= weights[path]
            left[links] -= flows[path]
        weight[link] = 0.0
        if not numpy.isfinite(share):
            break
    return flows
