"""Splits of groups over their paths, by linear programs, as first path groups of a document.

A split says which part of a group goes over each of its paths. It is a first path group of
weighted paths; the program fills it like any other, and it falls whole where a link of it closes.
"""

from __future__ import annotations

from collections.abc import Sequence
from dataclasses import dataclass, replace
from functools import reduce
from math import gcd

import numpy
from scipy import sparse

from bwe_tools.curves import Floats
from bwe_tools.document import Document, Group, Path
from bwe_tools.optimum import best, shortest_flows
from bwe_tools.path_network import PathNetwork
from bwe_tools.rules import MOST_PATHS, MOST_WEIGHT

# What counts beside the aim: the load above capacities in the mean, and a link of a path.
IN_THE_MEAN, LENGTH = 1e-3, 1e-6


def split_of_one(network: PathNetwork, amounts: Floats) -> Floats:
    """The part of its group that each path has where the groups have these amounts.

    All of them fit, and of the ways to split them it is the one over the fewest links.
    """
    flows = shortest_flows(network, amounts)
    whole = network.amounts(flows)[network.group_of]
    return numpy.divide(flows, whole, out=numpy.zeros(len(flows)), where=whole > 0)


def split_of_many(network: PathNetwork, matrices: Sequence[Floats], is_worst: bool) -> Floats:
    """One split for several matrices of amounts by group, each of which fits by a split of its own.

    With one split for all, a matrix may put more on a link than it carries. What all links have
    above their capacities, as a part of the matrix, is as small as can be: that of the worst
    matrix where `is_worst`, else the mean over all.
    """
    parts = _ManyMatrices(network, [one for one in matrices if one.sum() > 0]).parts(is_worst)
    whole = network.amounts(parts)[network.group_of]
    return numpy.divide(parts, whole, out=numpy.zeros(len(parts)), where=whole > 0)


class _ManyMatrices:
    """A linear program over the part of each path, what each link has above its capacity in each
    matrix, and the greatest sum of these over the links of a matrix.
    """

    def __init__(self, network: PathNetwork, matrices: Sequence[Floats]) -> None:
        self.network, self.matrices = network, matrices
        self.paths, self.links = len(network.paths), len(network.links)
        self.over = self.links * len(matrices)

    def parts(self, is_worst: bool) -> Floats:
        if not self.matrices:
            return numpy.zeros(self.paths)
        rows = sparse.vstack([self.of_links(), self.of_matrices(), self.of_groups()], format="csr")
        most = numpy.concatenate(
            [self.capacities(), numpy.zeros(len(self.matrices)), -self.has_demand()]
        )
        mean = numpy.full(self.over, 1 / len(self.matrices))
        over = mean * IN_THE_MEAN if is_worst else mean
        costs = numpy.concatenate([LENGTH * self.network.lengths, over, [float(is_worst)]])
        bounds = [(0, 1)] * self.paths + [(0, None)] * (self.over + 1)
        parts: Floats = best(costs, rows, most, bounds).values[: self.paths]
        return parts

    def of_links(self) -> sparse.spmatrix:
        """A row a link and matrix: its load in parts of the matrix, and what is above."""
        network = self.network
        loads = [
            network.uses @ sparse.diags(one[network.group_of] / one.sum()) for one in self.matrices
        ]
        greatest = sparse.csr_matrix((self.over, 1))
        return sparse.hstack([sparse.vstack(loads), -sparse.eye(self.over), greatest])

    def of_matrices(self) -> sparse.spmatrix:
        """A row a matrix: what all links have above, beside the greatest such sum."""
        count = len(self.matrices)
        sums = sparse.kron(sparse.eye(count), numpy.ones((1, self.links)))
        paths = sparse.csr_matrix((count, self.paths))
        return sparse.hstack([paths, sums, -numpy.ones((count, 1))])

    def of_groups(self) -> sparse.spmatrix:
        """A row a group: its parts are a whole."""
        others = sparse.csr_matrix((len(self.network.groups), self.over + 1))
        return sparse.hstack([-self.network.members, others])

    def capacities(self) -> Floats:
        parts = [self.network.capacities / one.sum() for one in self.matrices]
        return numpy.concatenate(parts)

    def has_demand(self) -> Floats:
        asked: Floats = (numpy.max(self.matrices, axis=0) > 0).astype(float)
        return asked


def weights_of(parts: Floats, least: float) -> dict[int, int]:
    """The parts of one group's paths as weights of the format, by the number of the path.

    Parts below `least` of the whole are dropped, and all but the greatest sixteen.
    """
    chosen = [at for at in numpy.argsort(-parts, kind="stable") if parts[at] > 0]
    kept = [at for at in chosen if parts[at] >= least * parts.sum()][:MOST_PATHS] or chosen[:1]
    if not kept:
        return {}
    whole = sum(parts[at] for at in kept)
    weights = {int(at): max(1, round(MOST_WEIGHT * parts[at] / whole)) for at in sorted(kept)}
    common = reduce(gcd, weights.values())
    return {at: weight // common for at, weight in weights.items()}


@dataclass(frozen=True)
class Written:
    """A document with splits in front, and what that did to its groups."""

    document: Document
    changed_groups: int  # with another first path group
    split_groups: int  # of these, with several paths in it
    left_out: list[str]  # groups whose last path group had to go


def with_splits(document: Document, network: PathNetwork, parts: Floats, least: float) -> Written:
    """The document with each group's split as its first path group, and its own behind it.

    A path group behind it that has the same paths as one before it would never get anything, and
    goes. Where a group then has more path groups than the format allows, its last one goes.
    """
    groups, left_out, changed, count = [], [], 0, 0
    for at, group in enumerate(document.groups):
        own = numpy.flatnonzero(network.group_of == at)
        weights = weights_of(parts[own], least)
        if not weights:
            groups.append(group)
            continue
        split = tuple(
            Path(weight, network.paths[own[number]]) for number, weight in weights.items()
        )
        paths = _without_repeats((split, *group.paths))
        if len(paths) > MOST_PATHS:
            left_out.append(group.name)
        is_changed = paths[0] != group.paths[0]
        changed, count = changed + is_changed, count + (is_changed and len(split) > 1)
        groups.append(replace(group, paths=paths[:MOST_PATHS]))
    return Written(replace(document, groups=tuple(groups)), changed, count, left_out)


def _without_repeats(path_groups: tuple[tuple[Path, ...], ...]) -> tuple[tuple[Path, ...], ...]:
    """Path groups without those whose links are all those of one before them."""
    kept: list[tuple[Path, ...]] = []
    seen: set[frozenset[str]] = set()
    for paths in path_groups:
        links = frozenset(link for path in paths for link in path.links)
        if links not in seen:
            seen.add(links)
            kept.append(paths)
    return tuple(kept)
