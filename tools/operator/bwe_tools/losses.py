"""Groups that have less than under max-min fairness, the link that stopped each, and the groups
there that had another way.
"""

from __future__ import annotations

from dataclasses import dataclass

import numpy

from bwe_tools.curves import Floats
from bwe_tools.document import Document
from bwe_tools.path_network import PathNetwork, table_flows
from bwe_tools.table import GroupAmount, Table

LEAST_PART = 1e-3  # of a link's capacity: less is no load that had another way


@dataclass(frozen=True)
class OtherWay:
    """A group that loads a link more than under max-min fairness, and a path of it round the link.

    Loads are in kb/s: `load` of the table, `fair_load` of max-min's flows over the fewest links.
    """

    group: str
    load: float
    fair_load: float
    path: tuple[str, ...]


@dataclass(frozen=True)
class GroupLoss:
    """A group that has less than under max-min fairness, in kb/s.

    `stopped_by` is the link that closed its last path group, None where no link did.
    """

    group: str
    amount: int
    fair: float
    share: int
    stopped_by: str | None
    others: list[OtherWay]


def losses_of(
    document: Document, table: Table, network: PathNetwork, fair: Floats, fair_flows: Floats
) -> list[GroupLoss]:
    """The groups that lose, the greatest loss first; a kb/s of rounding is no loss."""
    flows = table_flows(network, document, [_parts(group) for group in table.groups])
    closed_at = table.share_of_closing()
    losers = [at for at, group in enumerate(table.groups) if fair[at] - group.amount > 1]
    losers.sort(key=lambda at: float(table.groups[at].amount - fair[at]))
    losses = []
    for at in losers:
        group = table.groups[at]
        link = stopping_link(group, closed_at)
        others = [] if link is None else other_ways(network, link, at, flows, fair_flows)
        losses.append(
            GroupLoss(group.name, group.amount, float(fair[at]), group.share, link, others)
        )
    return losses


def _parts(group: GroupAmount) -> list[int]:
    return [part.amount for part in group.path_groups]


def stopping_link(group: GroupAmount, closed_at: dict[str, int]) -> str | None:
    """The link that left a group without a path group; None where one is still open."""
    closed_by = [part.closed_by for part in group.path_groups if part.closed_by is not None]
    if len(closed_by) < len(group.path_groups):
        return None
    return max(closed_by, key=closed_at.__getitem__)


def other_ways(
    network: PathNetwork, link: str, loser: int, flows: Floats, fair_flows: Floats
) -> list[OtherWay]:
    """The groups that could leave a link for another path of theirs, and under max-min do."""
    has_link = numpy.array([link in path for path in network.paths])
    load = network.amounts(numpy.where(has_link, flows, 0.0))
    fair_load = network.amounts(numpy.where(has_link, fair_flows, 0.0))
    least = LEAST_PART * network.capacities[network.link_numbers[link]]
    found = []
    for at in numpy.argsort(fair_load - load, kind="stable"):
        if load[at] - fair_load[at] <= least:
            break
        ways = [
            path
            for path, group in zip(network.paths, network.group_of)
            if group == at and link not in path
        ]
        if at != loser and ways:
            name = network.groups[at]
            found.append(OtherWay(name, float(load[at]), float(fair_load[at]), ways[0]))
    return found
