"""The paths of each pair of sites: k shortest ones, by networkx."""

from __future__ import annotations

import os
from collections.abc import Iterable, Iterator, Mapping, Sequence
from concurrent.futures import ProcessPoolExecutor
from functools import partial
from itertools import islice

import networkx

MOST_LINKS = 32
MOST_LOOKS = 64
MANY, AT_ONCE = 2_000, 64  # pairs for which all processors work, and those that one takes at once
Pair = tuple[str, str]
Node = tuple[str, str]  # `site` or `link`, and its name


class Routes:
    """Paths over directed links. A link is a node between its two sites, so parallel links give
    paths of their own.
    """

    def __init__(
        self,
        links: Iterable[tuple[str, str, str]],
        lengths: Mapping[str, float | None] | None = None,
    ) -> None:
        """`links` are pairs of a name and its two ends; `lengths` the lengths by name, None for
        paths of fewest links.
        """
        self.graph = networkx.DiGraph()
        for name, source, target in links:
            length = lengths[name] if lengths else 1
            self.graph.add_edge(("site", source), ("link", name), length=length)
            self.graph.add_edge(("link", name), ("site", target), length=0)
        self.length = "length" if lengths else None

    def between(self, source: str, target: str, most: int) -> list[list[str]]:
        """At most `most` paths, the shortest first, each a list of link names of at most 32.

        Where one link is on all of them, the last one is the shortest of those that meet the fewest
        such links.
        """
        ends = ("site", source), ("site", target)
        try:
            ways = map(link_names, networkx.shortest_simple_paths(self.graph, *ends, self.length))
            found = list(
                islice((way for way in islice(ways, MOST_LOOKS) if len(way) <= MOST_LINKS), most)
            )
        except (networkx.NetworkXNoPath, networkx.NodeNotFound):
            return []
        if most == 1 or not common_links(found):
            return found
        first = found[: most - 1]
        another = self.around(common_links(first), *ends)
        has_gained = len(common_links([*first, another])) < len(common_links(found))
        return [*first, another] if has_gained and len(another) <= MOST_LINKS else found

    def around(self, links: set[str], source: Node, target: Node) -> list[str]:
        """The path that meets the fewest of these links, and of those the shortest."""
        detour = 1 + sum(length for _, _, length in self.graph.edges(data="length"))

        def length_of(_: Node, node: Node, edge: dict[str, float]) -> float:
            is_common = node[0] == "link" and node[1] in links
            return edge["length"] + (float(detour) if is_common else 0)

        return link_names(networkx.shortest_path(self.graph, source, target, length_of))

    def of_all(self, pairs: Sequence[Pair], most: int) -> Iterator[list[list[str]]]:
        """The paths of each pair in turn (`between`); of many pairs on all processors."""
        if len(pairs) <= MANY or os.cpu_count() == 1:
            yield from (self.between(*pair, most) for pair in pairs)
            return
        with ProcessPoolExecutor(initializer=_keep, initargs=(self,)) as pool:
            yield from pool.map(partial(_between_kept, most), pairs, chunksize=AT_ONCE)


_kept: list[Routes] = []  # in a process that works for another one


def _keep(routes: Routes) -> None:
    _kept[:] = [routes]


def _between_kept(most: int, pair: Pair) -> list[list[str]]:
    return _kept[0].between(*pair, most)


def common_links(paths: Sequence[Sequence[str]]) -> set[str]:
    return set(paths[0]).intersection(*paths[1:]) if paths else set()


def link_names(way: Iterable[Node]) -> list[str]:
    return [name for kind, name in way if kind == "link"]
