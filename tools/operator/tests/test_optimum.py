"""The most throughput and exact max-min fairness, held against what defines them."""

import json
import random

import numpy
import pytest
from scipy import sparse

from bwe_tools.curves import Curve, curve_of, curves_of, group_curve, simplified, together
from bwe_tools.document import of_raw, parse
from bwe_tools.measures import measures, ratios
from bwe_tools.optimum import best, max_min, most_throughput, shortest_flows
from bwe_tools.path_network import own_paths, path_network, table_flows
from tool_runs import EXAMPLES

TOP = 1000


def made(chance: random.Random, is_line: bool):
    """A small document by chance: four sites, all links between them, groups with a few paths."""
    sites = "abcd"
    links = [
        {"name": one + other, "from": one, "to": other, "capacity": chance.randrange(0, 5000, 50)}
        for one in sites
        for other in sites
        if one != other
    ]
    groups, script = [], []
    for number in range(chance.randint(1, 8)):
        source, target = chance.sample(sites, 2)
        via = [site for site in sites if site not in (source, target)]
        ways = [[source + target], *[[source + site, site + target] for site in via]]
        chance.shuffle(ways)
        name = f"g{number}"
        steps = [chance.randint(0, 3000) for _ in range(3)]
        task = (
            [[0, 0], [TOP, chance.randint(1, 9000)]]
            if is_line
            else [[0, 0], [100, steps[0]], [400, steps[0] + steps[1]], [900, sum(steps)]]
        )
        group = {
            "name": name,
            "from": source,
            "to": target,
            "paths": [[{"weight": 1, "links": way}] for way in ways[: chance.randint(1, 3)]],
            "users": [
                {
                    "name": "u",
                    "jobs": [
                        {"name": "j", "task": task, "tasks": [{"name": name, "reporter": "r"}]}
                    ],
                }
            ],
        }
        groups.append(group)
        script.append({"reporter": "r", "task": name, "demand": chance.randint(0, 6000)})
    return of_raw(
        {
            "version": 1,
            "top": TOP,
            "links": links,
            "groups": groups,
            "reporters": ["r"],
            "script": script,
        }
    )


def most_of(network, group, least):
    """The most that a group can have while each group has at least some amount."""
    rows = sparse.vstack([network.uses, -network.members], format="csr")
    limits = numpy.concatenate([network.capacities, -least]) / 1000 + 1e-9
    costs = -(network.group_of == group).astype(float)
    return -float(costs @ best(costs, rows, limits).values) * 1000


@pytest.mark.parametrize("is_line", [True, False])
@pytest.mark.parametrize("seed", range(30))
def test_no_share_of_max_min_can_rise_but_at_the_cost_of_a_lower_one(seed, is_line):
    document = made(random.Random(seed), is_line)
    network, curves = path_network(document), curves_of(document, document.demands())
    fair = max_min(network, curves, TOP)
    loads = network.loads(shortest_flows(network, fair.amounts))
    assert (loads <= network.capacities + 0.01).all()
    for at, curve in enumerate(curves):
        assert fair.amounts[at] <= curve.most + 0.01
        if fair.amounts[at] >= curve.most - 0.01:
            continue
        assert fair.amounts[at] == pytest.approx(curve.at(fair.shares[at]), abs=0.01)
        # Groups at lower shares keep what they have; the others have what they would at this share.
        least = numpy.array(
            [
                min(other.at(fair.shares[at]), fair.amounts[number])
                for number, other in enumerate(curves)
            ]
        )
        assert most_of(network, at, least) <= fair.amounts[at] + 0.1


@pytest.mark.parametrize("seed", range(10))
def test_nothing_carries_more_than_the_most_throughput(seed):
    document = made(random.Random(seed), True)
    network, curves = path_network(document), curves_of(document, document.demands())
    asks = numpy.array([curve.most for curve in curves])
    flows = most_throughput(network, asks)
    assert (network.loads(flows) <= network.capacities + 0.01).all()
    assert (network.amounts(flows) <= asks + 0.01).all()
    assert flows.sum() >= max_min(network, curves, TOP).amounts.sum() - 0.01
