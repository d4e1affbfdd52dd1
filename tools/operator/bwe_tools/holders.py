"""All links that hold groups back, where several do, and what more capacity would bring.

A table names for each path group the link that closed it: of those that the next share would have
put over the lowest one. The others are found by the program itself: with that link's capacity
raised the filling is the same up to the share of its closing, and what closes there then would have
been over as well.
"""

from __future__ import annotations

import os
from collections.abc import Iterable
from concurrent.futures import ThreadPoolExecutor
from dataclasses import dataclass, replace

from bwe_tools.document import Document, document_text
from bwe_tools.program import solve
from bwe_tools.table import Closing, Table
from bwe_tools.units import MOST
from bwe_tools.view import View, view_of

# A table is made for each closing that is asked about.
MOST_CLOSINGS = 64


@dataclass(frozen=True)
class Gain:
    """What a group and all groups gain, in kb/s, where these links carry a tenth more."""

    links: tuple[str, ...]
    group: int
    total: int


def with_capacities(document: Document, capacities: dict[str, int]) -> bytes:
    """The document in which these links have these capacities, whatever was reported of them."""
    links = tuple(
        replace(link, capacity=capacities.get(link.name, link.capacity)) for link in document.links
    )
    script = tuple(
        replace(report, amount=capacities.get(report.link or "", report.amount))
        for report in document.script
    )
    return document_text(replace(document, links=links, script=script)).encode()


def closings_that_hold(table: Table, held: Iterable[str]) -> list[Closing]:
    """The closings that closed a path group of one of these groups."""
    names = set(held)
    links = {
        part.closed_by
        for group in table.groups
        if group.name in names
        for part in group.path_groups
    }
    return [closing for closing in table.closings if closing.link in links]


def also_over(document: Document, table: Table, held: Iterable[str]) -> dict[str, frozenset[str]]:
    """For each link that holds one of these groups the others that its next share would have put
    over. Empty for a table of tiers, and where more than `MOST_CLOSINGS` links hold.
    """
    closings = closings_that_hold(table, held)
    if table.tiers is not None or len(closings) > MOST_CLOSINGS:
        return {}
    with ThreadPoolExecutor(os.cpu_count() or 1) as workers:
        found = workers.map(lambda closing: _over_beside(document, table, closing), closings)
        return {closing.link: links for closing, links in zip(closings, found)}


def _over_beside(document: Document, table: Table, closing: Closing) -> frozenset[str]:
    raised = solve(with_capacities(document, {closing.link: MOST}))
    before = {each.link for each in table.closings[: table.closings.index(closing)]}
    there = {each.link for each in raised.closings if each.share == closing.share}
    return frozenset(there - before - {closing.link})


def held_view(document: Document, table: Table, values_at_top: dict[str, int]) -> View:
    """The view of a document and its table, with all links that hold a group."""
    amounts = table.amount_of()
    held = [name for name, asks in values_at_top.items() if amounts.get(name, asks) < asks]
    return view_of(document, table, values_at_top, also_over(document, table, held))


def gains(document: Document, table: Table, group: str, links: Iterable[str]) -> list[Gain]:
    """What a tenth more capacity on each of these links, and on all together, would bring."""
    named = tuple(dict.fromkeys(links))
    choices = [(link,) for link in named] + ([named] if len(named) > 1 else [])
    with ThreadPoolExecutor(os.cpu_count() or 1) as workers:
        return list(workers.map(lambda choice: _gain(document, table, group, choice), choices))


def _gain(document: Document, table: Table, group: str, links: tuple[str, ...]) -> Gain:
    capacities = document.capacities()
    more = {link: min(MOST, capacities[link] + -(-capacities[link] // 10)) for link in links}
    raised = solve(with_capacities(document, more))
    return Gain(
        links, raised.amount_of()[group] - table.amount_of()[group], raised.total - table.total
    )
