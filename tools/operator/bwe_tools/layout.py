"""Where the sites of a network stand in a drawing."""

from __future__ import annotations

import math
from collections.abc import Mapping, Sequence

import networkx
import numpy
from numpy.typing import NDArray

from bwe_tools.document import ToolError

Spots = dict[str, tuple[float, float]]
Points = NDArray[numpy.float64]  # a row a site, with its two coordinates


def spots_of(sites: list[str], ends: list[tuple[str, str]], places: Spots) -> Spots:
    """A spot for each site: by its longitude and latitude where each site has them, else as its
    links lie best.
    """
    if sites and all(site in places for site in sites):
        return apart(projected({site: places[site] for site in sites}))
    return positions(sites, ends)


def projected(places: Spots) -> Spots:
    """Longitudes and latitudes on a plane, true to scale in the middle of the sites."""
    middle = sum(latitude for _, latitude in places.values()) / len(places)
    narrow = math.cos(math.radians(middle))
    return {site: (east * narrow, -north) for site, (east, north) in places.items()}


def apart(spots: Spots) -> Spots:
    """The spots with those moved apart that stand closer than a tenth of the drawing."""
    points = numpy.array(list(spots.values()), dtype=float)
    least = float(max(numpy.ptp(points, axis=0), default=0.0)) / 10
    for _ in range(200):
        gaps = points[:, None] - points[None, :]
        lengths = numpy.hypot(gaps[..., 0], gaps[..., 1])
        numpy.fill_diagonal(lengths, numpy.inf)
        if lengths.min() >= 0.99 * least:
            break
        push = numpy.maximum(0, least - lengths) / 2 / numpy.maximum(lengths, 1e-9)
        points += (gaps * push[..., None]).sum(axis=1)
    return {site: (float(x), float(y)) for site, (x, y) in zip(spots, points)}


def positions(sites: list[str], ends: list[tuple[str, str]]) -> Spots:
    """A spot for each site, a link being about one unit long.

    Parts of the network that no link joins stand side by side, the largest first. Links without
    a way back go to the right rather than to the left. The answer depends on nothing but the sites
    and links, so a network looks the same each time.
    """
    graph = networkx.Graph()
    graph.add_nodes_from(sites)
    graph.add_edges_from(ends)
    parts = sorted(networkx.connected_components(graph), key=lambda part: (-len(part), min(part)))
    placed: Spots = {}
    left = 0.0
    for part in parts:
        inside = networkx.Graph()
        inside.add_nodes_from(site for site in sites if site in part)
        inside.add_edges_from(graph.subgraph(part).edges)
        spots = _mirrored(_lay_out(inside), [pair for pair in ends if pair[0] in part])
        least = min(x for x, _ in spots.values())
        placed |= {site: (x - least + left, y) for site, (x, y) in spots.items()}
        left = max(x for x, _ in placed.values()) + 1.2
    return placed


# Where each site stands, in what networkx calls a layout.
Start = Mapping[str, Sequence[float]]


def _lay_out(graph: networkx.Graph) -> Spots:
    if len(graph) == 1:
        return {site: (0.0, 0.0) for site in graph}
    sites = list(graph)
    number = {site: at for at, site in enumerate(sites)}
    edges = [(number[one], number[other]) for one, other in graph.edges if one != other]
    drawings = [_drawn(graph, start, edges) for start in _starts(graph)]
    points = min(drawings, key=lambda points: _crossings(points, edges))
    return {site: (float(x), float(y)) for site, (x, y) in zip(sites, points)}


def _starts(graph: networkx.Graph) -> list[Start]:
    """Where the sites stand before the layout moves them; it ends otherwise from each."""
    starts = [networkx.circular_layout(graph)]
    if len(graph) > 3:
        starts.append(networkx.spectral_layout(graph))
        is_planar, embedding = networkx.check_planarity(graph)
        if is_planar:
            starts.append(networkx.combinatorial_embedding_to_pos(embedding))
    return starts


def _drawn(graph: networkx.Graph, start: Start, edges: list[tuple[int, int]]) -> Points:
    try:
        spots = networkx.kamada_kawai_layout(graph, pos=start)
    except ImportError:
        raise ToolError("a map needs SciPy: apt-get install python3-scipy") from None
    points = _turned(numpy.array([spots[site] for site in graph]))
    points = _spread(points / _link_length(points, edges))
    return points / _link_length(points, edges)


def _crossings(points: Points, edges: list[tuple[int, int]]) -> int:
    """How many pairs of links cross, those that meet at a site left out."""
    ends = numpy.array(edges)
    a, b = points[ends[:, 0]], points[ends[:, 1]]

    def side(p: Points, q: Points, r: Points) -> Points:
        turns: Points = numpy.sign(
            (q[..., 0] - p[..., 0]) * (r[..., 1] - p[..., 1])
            - (q[..., 1] - p[..., 1]) * (r[..., 0] - p[..., 0])
        )
        return turns

    p, q, r, s = a[:, None], b[:, None], a[None, :], b[None, :]
    crosses = (side(p, q, r) * side(p, q, s) < 0) & (side(r, s, p) * side(r, s, q) < 0)
    apart = (ends[:, None, :, None] != ends[None, :, None, :]).all(axis=(2, 3))
    return int((crosses & apart).sum()) // 2


def _mirrored(spots: Spots, ends: list[tuple[str, str]]) -> Spots:
    """The spots, turned over where more of the links would go to the left, or upwards."""
    ways = [
        sum(spots[target][axis] - spots[source][axis] for source, target in ends) for axis in (0, 1)
    ]
    sign_x, sign_y = (-1.0 if way < -1e-6 else 1.0 for way in ways)
    return {site: (sign_x * x, sign_y * y) for site, (x, y) in spots.items()}


def _link_length(points: Points, edges: list[tuple[int, int]]) -> float:
    """The length of a link in the middle of all."""
    return (
        float(numpy.median([math.dist(points[one], points[other]) for one, other in edges])) or 1.0
    )


def _turned(points: Points) -> Points:
    """The points turned so that they reach furthest from left to right."""
    points = points - points.mean(axis=0)
    x, y = points[:, 0], points[:, 1]
    turn = -0.5 * math.atan2(2 * float((x * y).sum()), float((x * x - y * y).sum()))
    cosine, sine = math.cos(turn), math.sin(turn)
    return numpy.column_stack((x * cosine - y * sine, x * sine + y * cosine))


def _spread(points: Points, rounds: int = 60, apart: float = 0.62) -> Points:
    """Crowded points get room, by their rank along each axis, and none stays close to another."""
    count = len(points)
    if count > 8:
        ranks = points.argsort(axis=0, kind="stable").argsort(axis=0, kind="stable") / (count - 1)
        extent = numpy.ptp(points, axis=0)
        points = 0.55 * points + 0.45 * (points.min(axis=0) + ranks * extent)
    for _ in range(rounds):
        steps = points[:, None, :] - points[None, :, :]
        distances = numpy.sqrt((steps**2).sum(axis=2))
        numpy.fill_diagonal(distances, apart)
        push = numpy.clip(apart - distances, 0, None) / 2
        points = (
            points
            + (steps / numpy.maximum(distances, 1e-6)[:, :, None] * push[:, :, None]).sum(axis=1)
            / 2
        )
    return points
