"""The networks of the study: sites, links with capacities in kb/s, and where each comes from."""

from __future__ import annotations

import random
from dataclasses import dataclass
from itertools import combinations
from pathlib import Path

from bwe_tools.commands.from_csv import read_links
from bwe_tools.commands.from_graphml import read_graph
from bwe_tools.document import parse
from bwe_tools.network import Network as Converted
from bwe_tools.program import ROOT

EXAMPLES = ROOT / "examples"
TEN_GIGABIT = 10_000_000


@dataclass(frozen=True)
class Fibre:
    """Two links, one each way, of one capacity in kb/s."""

    one: str
    other: str
    capacity: int


@dataclass(frozen=True)
class Network:
    name: str
    source: str
    sites: tuple[str, ...]
    fibres: tuple[Fibre, ...]

    def pairs(self) -> list[tuple[str, str]]:
        """All pairs of two sites."""
        return [(one, other) for one in self.sites for other in self.sites if one != other]

    def links(self) -> list[tuple[str, str, str, int]]:
        """Name, ends and capacity of each link."""
        return [
            (f"{source}_{target}", source, target, fibre.capacity)
            for fibre in self.fibres
            for source, target in ((fibre.one, fibre.other), (fibre.other, fibre.one))
        ]


def _of_pairs(name: str, source: str, pairs: str) -> Network:
    """A network of links written as `a-b`, each of 10 Gbit/s."""
    ends = [pair.partition("-")[::2] for pair in pairs.split()]
    fibres = [Fibre(one, other, TEN_GIGABIT) for one, other in ends]
    sites = dict.fromkeys(site for fibre in fibres for site in (fibre.one, fibre.other))
    return Network(name, source, tuple(sites), tuple(fibres))


def _of_converted(name: str, source: str, found: Converted) -> Network:
    """A network that a converter has read, with plain names."""
    plain = {key: label.replace(" ", "-") for key, label in found.sites.items()}
    fibres = [
        Fibre(plain[line.source], plain[line.target], line.capacity or TEN_GIGABIT)
        for line in found.lines
    ]
    return Network(name, source, tuple(plain.values()), tuple(fibres))


def _b4_like() -> Network:
    path = EXAMPLES / "b4-like.json"
    document = parse(path.read_bytes(), path.name)
    forth = [link for at, link in enumerate(document.links) if at % 2 == 0]
    fibres = tuple(Fibre(link.source, link.target, link.capacity) for link in forth)
    return Network(
        "b4-like",
        "examples/b4-like.json: as many sites and links as the picture in the B4 paper (SIGCOMM"
        " 2013), which sites and links is invented",
        tuple(document.sites()),
        fibres,
    )


def abilene() -> Network:
    return _of_converted(
        "abilene",
        "examples/abilene.graphml: the backbone of Internet2 as it was from 2004 to 2007",
        read_graph(str(EXAMPLES / "abilene.graphml"), "g"),
    )


def geant() -> Network:
    return _of_converted(
        "geant",
        "examples/geant-links.csv: GÉANT as it was in 2004, after SNDlib's `geant`",
        read_links(str(EXAMPLES / "geant-links.csv"), "k"),
    )


def nsfnet() -> Network:
    return _of_pairs(
        "nsfnet",
        "the NSFNET backbone of 1991 as papers on optical networks draw it, each link 10 Gbit/s",
        "WA-CA1 WA-CA2 WA-IL CA1-CA2 CA1-UT CA2-TX UT-CO UT-MI CO-TX CO-NE TX-GA TX-DC NE-IL IL-PA"
        " PA-GA PA-NY PA-NJ MI-NY MI-NJ NY-DC NJ-DC",
    )


def us24() -> Network:
    return _of_pairs(
        "us24",
        "the USNET of 24 sites as papers on optical networks draw it, each link 10 Gbit/s",
        "1-2 1-6 2-3 2-6 3-4 3-5 3-7 4-5 4-7 5-8 6-7 6-9 6-11 7-8 7-9 8-10 9-10 9-11 9-12 10-13"
        " 10-14 11-12 11-15 11-19 12-13 12-16 13-14 13-17 14-18 15-16 15-20 16-17 16-21 16-22 17-18"
        " 17-22 17-23 18-24 19-20 20-21 21-22 22-23 23-24",
    )


def known() -> dict[str, Network]:
    """The five known networks, the smallest first."""
    return {one.name: one for one in (abilene(), _b4_like(), nsfnet(), geant(), us24())}


def made(sites: int, seed: int) -> Network:
    """A network by chance: sites in a square, each joined to its two nearest, and the parts joined.

    A fifth of the links have 40 Gbit/s, the others 10.
    """
    chance = random.Random(seed)
    names = [f"s{at}" for at in range(sites)]
    places = {name: (chance.random(), chance.random()) for name in names}

    def distance(one: str, other: str) -> float:
        (x0, y0), (x1, y1) = places[one], places[other]
        return (x0 - x1) ** 2 + (y0 - y1) ** 2

    chosen: dict[tuple[str, str], None] = {}
    for name in names:
        near = sorted(
            (other for other in names if other != name), key=lambda it: distance(name, it)
        )
        chosen |= {(min(name, other), max(name, other)): None for other in near[:2]}
    part = {name: name for name in names}

    def root(name: str) -> str:
        while part[name] != name:
            name = part[name]
        return name

    for pair in [*chosen, *sorted(combinations(names, 2), key=lambda pair: distance(*pair))]:
        one, other = map(root, pair)
        if one != other:
            part[one] = other
            chosen[min(pair), max(pair)] = None
    fibres = [Fibre(*pair, TEN_GIGABIT * (4 if chance.random() < 0.2 else 1)) for pair in chosen]
    return Network(f"made{sites}", f"made by chance, seed {seed}", tuple(names), tuple(fibres))
