"""The paths of a document's groups over its links, as matrices for linear programs."""

from __future__ import annotations

from collections.abc import Sequence
from dataclasses import dataclass
from functools import cached_property

import numpy
from numpy.typing import NDArray
from scipy import sparse

from bwe_tools.curves import Floats
from bwe_tools.document import Document, Group


@dataclass(frozen=True)
class PathNetwork:
    """Each path once for its group, whatever path groups it is in, to be used by itself.

    Paths stand group by group. Capacities are in kb/s, after the document's script.
    """

    groups: list[str]
    links: list[str]
    capacities: Floats
    group_of: NDArray[numpy.int64]  # of each path
    paths: list[tuple[str, ...]]  # the links of each path

    @cached_property
    def link_numbers(self) -> dict[str, int]:
        return {name: at for at, name in enumerate(self.links)}

    @cached_property
    def uses(self) -> sparse.csr_matrix:
        """A row a link and a column a path: 1 where the path has the link."""
        columns = [at for at, path in enumerate(self.paths) for _ in path]
        rows = [self.link_numbers[link] for path in self.paths for link in path]
        shape = (len(self.links), len(self.paths))
        return sparse.csr_matrix((numpy.ones(len(rows)), (rows, columns)), shape=shape)

    @cached_property
    def members(self) -> sparse.csr_matrix:
        """A row a group and a column a path: 1 where the path is the group's."""
        shape = (len(self.groups), len(self.paths))
        ones = numpy.ones(len(self.paths))
        return sparse.csr_matrix((ones, (self.group_of, range(len(self.paths)))), shape=shape)

    @cached_property
    def lengths(self) -> Floats:
        """How many links each path has."""
        return numpy.array([len(path) for path in self.paths], dtype=float)

    def amounts(self, flows: Floats) -> Floats:
        """What each group has of the flows of its paths."""
        return numpy.asarray(self.members @ flows)

    def loads(self, flows: Floats) -> Floats:
        return numpy.asarray(self.uses @ flows)


def own_paths(group: Group) -> list[tuple[str, ...]]:
    """The paths of all path groups of a group, each once, in the order of their first places."""
    return list(dict.fromkeys(path.links for paths in group.paths for path in paths))


def path_network(document: Document) -> PathNetwork:
    capacities = document.capacities()
    paths = [(at, path) for at, group in enumerate(document.groups) for path in own_paths(group)]
    return PathNetwork(
        groups=[group.name for group in document.groups],
        links=[link.name for link in document.links],
        capacities=numpy.array([capacities[link.name] for link in document.links], dtype=float),
        group_of=numpy.array([at for at, _ in paths], dtype=numpy.int64),
        paths=[path for _, path in paths],
    )


def table_flows(
    network: PathNetwork, document: Document, amounts: Sequence[Sequence[int]]
) -> Floats:
    """The flow of each path in a table; `amounts` are those of each group's path groups."""
    number = {
        (int(group), path): at
        for at, (group, path) in enumerate(zip(network.group_of, network.paths))
    }
    flows = numpy.zeros(len(network.paths))
    for at, (group, parts) in enumerate(zip(document.groups, amounts)):
        for paths, amount in zip(group.paths, parts):
            whole = sum(path.weight for path in paths)
            for path in paths:
                flows[number[at, path.links]] += amount * path.weight / whole
    return flows
