"""Demands between all sites, made from a seed.

Only `Random.random` is called, which gives the same numbers in each version of Python.
"""

from __future__ import annotations

import random
from collections.abc import Callable, Mapping

from study.networks import Network

Pair = tuple[str, str]
Demands = dict[Pair, float]
LARGE = 0.2  # of the pairs, in bimodal demands


def gravity(network: Network, seed: int) -> Demands:
    """Each pair wants the product of its sites' masses: the capacity at a site times a factor by
    chance from 0.5 to 1.5.
    """
    chance = random.Random(seed)
    capacity = dict.fromkeys(network.sites, 0)
    for _, source, _, size in network.links():
        capacity[source] += size
    masses = {site: size * (0.5 + chance.random()) for site, size in capacity.items()}
    return {(one, other): masses[one] * masses[other] for one, other in network.pairs()}


def bimodal(network: Network, seed: int) -> Demands:
    """A fifth of the pairs, by chance, want ten times what the others want; each times a factor by
    chance from 0.5 to 1.5.
    """
    chance = random.Random(seed)
    return {
        pair: (10 if chance.random() < LARGE else 1) * (0.5 + chance.random())
        for pair in network.pairs()
    }


KINDS: Mapping[str, Callable[[Network, int], Demands]] = {"gravity": gravity, "bimodal": bimodal}


def drifted(demands: Demands, seed: int) -> Demands:
    """Demands some time later: each times a factor by chance from 0.5 to 1.5."""
    chance = random.Random(-seed)
    return {pair: demand * (0.5 + chance.random()) for pair, demand in demands.items()}
