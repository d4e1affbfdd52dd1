"""The cases of the study, and the document of each.

A case's load says how much is asked for: at load 1 all demands just fit, each whole, over the
eight shortest paths of each pair.
"""

from __future__ import annotations

import random
from collections.abc import Iterator
from dataclasses import dataclass, replace
from functools import lru_cache

from bwe_tools.document import Document, Group, Job, Link, Path, Report, Task, User
from bwe_tools.limits import BEFORE_4, NEWEST, PLAIN
from bwe_tools.routes import Routes
from study.demands import KINDS, Demands, Pair, drifted
from study.networks import Network, known, made

HOSTS, OWNER = "hosts", "noc"
FIT_PATHS = 8
Ways = dict[Pair, list[list[str]]]


@dataclass(frozen=True)
class Traffic:
    """Demands on a network. `seed` gives their shape; how large they are is the case's load.

    `has_drifted` says that each is up to half less or more than it was, by chance.
    """

    network: str
    kind: str
    seed: int
    has_drifted: bool = False

    @property
    def name(self) -> str:
        return f"{self.network} {self.kind} {self.seed}"

    def shape(self) -> Demands:
        shape = KINDS[self.kind](network_of(self.network), self.seed)
        return drifted(shape, self.seed) if self.has_drifted else shape


@dataclass(frozen=True)
class Case:
    """A document of the study: each pair of sites a group, each path a path group.

    `order` is that of the path groups: `shortest` first, `longest` first, or by `chance`. `drained`
    is the number of the fibre that is drained, in the network's list.
    """

    traffic: Traffic
    load: float
    paths: int
    top: int = 1_000_000
    order: str = "shortest"
    drained: int | None = None

    @property
    def name(self) -> str:
        plain = f"{self.traffic.name} load {self.load:g} paths {self.paths}"
        more = {
            f"top {self.top}": self.top != 1_000_000,
            f"order {self.order}": self.order != "shortest",
            f"drained {self.drained}": self.drained is not None,
        }
        return " ".join([plain, *(text for text, is_said in more.items() if is_said)])

    def document(self, fits: float) -> Document:
        """Its document; `fits` is the factor at which the demands of its traffic have load 1."""
        network = network_of(self.traffic.network)
        shape = self.traffic.shape()
        demands = {pair: round(shape[pair] * fits * self.load) for pair in shape}
        return document_of(self, network, demands)


@lru_cache(maxsize=None)
def network_of(name: str) -> Network:
    """A known network, or one made by chance: `made32` has 32 sites."""
    if name.startswith("made"):
        return made(int(name.removeprefix("made")), seed=1)
    return known()[name]


@lru_cache(maxsize=None)
def ways_of(network: str, paths: int) -> Ways:
    """The shortest paths of each pair of sites, by the number of their links."""
    links = network_of(network).links()
    routes = Routes([(name, source, target) for name, source, target, _ in links])
    pairs = network_of(network).pairs()
    return dict(zip(pairs, routes.of_all(pairs, paths)))


def ordered(ways: list[list[str]], order: str, chance: random.Random) -> list[list[str]]:
    if order == "longest":
        return ways[::-1]
    if order == "chance":
        keys = {tuple(way): chance.random() for way in ways}
        return sorted(ways, key=lambda way: keys[tuple(way)])
    return ways


def document_of(case: Case, network: Network, demands: dict[Pair, int]) -> Document:
    """The document: at a share each task may have the same rate, up to its demand."""
    ways, chance = ways_of(case.traffic.network, case.paths), random.Random(case.traffic.seed)
    function = ((0, 0), (case.top, max(demands.values())))
    groups, script = [], []
    for (source, target), demand in demands.items():
        name = f"{source}_{target}"
        paths = [
            (Path(1, tuple(way)),) for way in ordered(ways[source, target], case.order, chance)
        ]
        job = Job("all", None, function, (Task(name, HOSTS),))
        users = (User("all", None, (job,)),)
        groups.append(Group(name, source, target, None, tuple(paths), users))
        script.append(Report(HOSTS, name, None, demand))
    links = tuple(Link(*link, OWNER) for link in network.links())
    if case.drained is not None:
        script += [
            Report(OWNER, None, link.name, 0)
            for link in links[2 * case.drained : 2 * case.drained + 2]
        ]
    version = PLAIN if len(groups) <= BEFORE_4.groups else NEWEST
    return Document(version, case.top, links, tuple(groups), (HOSTS, OWNER), tuple(script))


# ---- the lists of cases

LOADS = (1.0, 1.5, 2.0, 4.0)
PATHS = (1, 2, 4, 8, 16)
TOPS = (100, 1_000, 10_000, 100_000, 1_000_000)
ORDERS = ("shortest", "longest", "chance")
MADE = ("made16", "made32")
LARGE = ("made40", "made64")  # 1,560 and 4,032 groups


SEEDS = (1, 2, 3)


def traffics(networks: tuple[str, ...], seed: int = 1) -> list[Traffic]:
    return [Traffic(network, kind, seed) for network in networks for kind in KINDS]


def stored() -> list[Case]:
    """The ninety cases that `make study` holds against their stored references."""
    return [
        Case(traffic, load, 4)
        for seed in SEEDS
        for traffic in traffics(tuple(known()), seed)
        for load in (1.0, 2.0, 4.0)
    ]


def by_load() -> list[Case]:
    return [Case(traffic, load, 4) for traffic in traffics(tuple(known())) for load in LOADS]


def gravities() -> list[Traffic]:
    return [Traffic(network, "gravity", 1) for network in known()]


def by_paths(traffic: Traffic) -> list[Case]:
    return [Case(traffic, 2.0, paths) for paths in PATHS]


def by_order(traffic: Traffic) -> list[Case]:
    return [Case(traffic, 2.0, 4, order=order) for order in ORDERS]


def by_top(traffic: Traffic) -> list[Case]:
    return [Case(traffic, 2.0, 4, top=top) for top in TOPS]


def by_size() -> list[Case]:
    return [Case(traffic, 2.0, 4) for traffic in traffics(MADE)[::2]]


def large() -> list[Case]:
    """Networks with more groups than a document had before version 4; `make study` holds them too."""
    return [Case(Traffic(network, "gravity", 1), 2.0, 4) for network in LARGE]


def drains(case: Case) -> Iterator[Case]:
    """The case with each fibre drained in turn."""
    for number in range(len(network_of(case.traffic.network).fibres)):
        yield replace(case, drained=number)
