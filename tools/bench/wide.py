"""Large networks of version 4, made from a seed: for measuring, and for comparing where all closes.

`hard(kind, ..)` has networks that were chosen to cost a filling much, whose links all close:

- own: each group on a link of its own, so that as many shares are found as there are links;
- cascade: a group's four path groups are four links in a row, so that each closing sends groups to
  links that close next;
- same: as cascade, with one capacity for all links, so that all close at few shares;
- hub: each group has a narrow link of its own and then the one link that all come to;
- shed: each group goes over one trunk and a link of its own, and leaves the trunk when that closes.

`chains(..)` has few groups over many links, so that one group is asked for very many values.

`wan(..)` is a mesh of sites with all pairs as groups, three path groups each, and functions at users.
"""

import heapq
import json
import random
from collections.abc import Iterator

KINDS = ("own", "cascade", "same", "hub", "shed")
REPORTERS = 16
PAIRED = (",", ":")
Document = dict


def text(given: object) -> bytes:
    return json.dumps(given, separators=PAIRED).encode()


# ---- networks whose links all close


def hard(kind: str, seed: int, links: int, tasks: int, top: int = 1_000_000) -> Document:
    """A network of a kind with so many links, and tasks that want all they can have."""
    dice = random.Random(f"{kind} {seed}")
    groups = {"hub": links - 1, "shed": (links - 1) // 2}.get(kind, links)
    most = 1_000 * top * max(1, tasks // groups)  # of a group, at the top
    ends, ways = _ways(kind, links, groups)
    capacities = _capacities(kind, dice, links, groups, most)
    return {
        "version": 4,
        "top": top,
        "links": [
            {"name": f"l{at}", "from": source, "to": target, "capacity": capacity}
            for at, ((source, target), capacity) in enumerate(zip(ends, capacities))
        ],
        "groups": [_hard_group(at, ways(at), groups, tasks, top) for at in range(groups)],
        "reporters": [f"r{at}" for at in range(REPORTERS)],
        "script": [
            {"reporter": f"r{at % REPORTERS}", "task": f"t{at}", "demand": 10**12}
            for at in range(tasks)
        ],
    }


def _ways(kind, links, groups):
    """The ends of each link, and for a group the links of each of its path groups."""
    if kind == "shed":
        # Link 0 is the trunk from a to b; then one from b to c for each group, and one from a to c.
        ends = [("a", "b"), *[("b", "c")] * groups, *[("a", "c")] * (links - 1 - groups)]
        return ends, lambda at: [[0, 1 + at], [1 + groups + at]]
    ends = [("a", "c")] * links
    if kind == "own":
        return ends, lambda at: [[at]]
    if kind == "hub":
        return ends, lambda at: [[1 + at], [0]]
    many = min(4, links)
    return ends, lambda at: [[(at + step) % links] for step in range(many)]


def _capacities(kind, dice, links, groups, most):
    narrow = [dice.randint(most // 10, most - most // 10) for _ in range(links)]
    if kind == "same":
        return [most // 3] * links
    if kind == "cascade":
        return [most // 3 + at * (most // (3 * links)) for at in range(links)]
    if kind == "hub":
        return [min(10**12, most * groups // 5), *narrow[1:]]
    if kind == "shed":
        return [min(10**12, most * groups // 3), *narrow[1:]]
    return narrow


def _hard_group(at, ways, groups, tasks, top):
    own = [
        {"name": f"t{task}", "reporter": f"r{task % REPORTERS}"}
        for task in range(at, tasks, groups)
    ]
    paths = [[{"weight": 1, "links": [f"l{link}" for link in way]}] for way in ways]
    job = {"name": "j", "task": [[0, 0], [top, 1_000 * top]], "tasks": own}
    ends = {"name": f"g{at}", "from": "a", "to": "c"}
    return {**ends, "paths": paths, "users": [{"name": "u", "jobs": [job]}]}


# ---- few groups over many links


def chains(
    seed: int, groups: int = 8, places: int = 16, paths: int = 16, hops: int = 32
) -> Document:
    """Groups of so many path groups, of so many paths each, of so many links of their own each.

    Functions stand on all three levels, so that a value of a group takes a search.
    """
    dice = random.Random(f"chains {seed}")
    capacities = (1_000_000 // (places * paths), 4_000_000 // paths)
    return {
        "version": 4,
        "top": 1_000_000,
        "links": [
            {
                "name": _hop(path, hop),
                "from": _stop(path, hop, hops),
                "to": _stop(path, hop + 1, hops),
                "capacity": dice.randint(*capacities),
            }
            for path in range(groups * places * paths)
            for hop in range(hops)
        ],
        "groups": [_chained_group(dice, at, places, paths, hops) for at in range(groups)],
        "reporters": [f"r{at}" for at in range(REPORTERS)],
        "script": [
            {
                "reporter": f"r{at % REPORTERS}",
                "task": f"t{at}",
                "demand": dice.randint(10**5, 10**6),
            }
            for at in range(8 * groups)
        ],
    }


def _chained_group(dice, at, places, paths, hops):
    first = at * places * paths
    ways = [
        [
            {"weight": dice.randint(1, 4), "links": [_hop(path, hop) for hop in range(hops)]}
            for path in range(start, start + paths)
        ]
        for start in range(first, first + places * paths, paths)
    ]
    ends = {"name": f"g{at}", "from": "a", "to": "c"}
    return {**ends, "paths": ways, "users": _three_levels(dice, at)}


def _hop(path, hop):
    return f"l{path}.{hop}"


def _stop(path, hop, hops):
    return "a" if hop == 0 else "c" if hop == hops else f"s{path}.{hop}"


def _three_levels(dice, group):
    """Two users of two jobs of two tasks each."""
    return [
        {
            "name": f"u{user}",
            "function": _rising(dice, 5, 3_000_000),
            "jobs": [
                {
                    "name": f"j{job}",
                    "function": _rising(dice, 5, 2_000_000),
                    "task": _rising(dice, 5, 1_000_000),
                    "tasks": [
                        {"name": f"t{at}", "reporter": f"r{at % REPORTERS}"}
                        for at in range(first, first + 2)
                    ],
                }
                for job in range(2)
                for first in [8 * group + 4 * user + 2 * job]
            ],
        }
        for user in range(2)
    ]


# ---- a mesh of sites


def wan(seed: int, sites: int, tasks: int, load: int = 100, trunks: int = 1) -> Iterator[bytes]:
    """The text of a mesh of so many sites, piece by piece.

    `load` is in hundredths what the groups want beside what links can carry; `trunks` is how many
    links stand between two sites that are joined.
    """
    dice = random.Random(f"wan {seed} {sites}")
    ends = _lines(dice, sites)
    pairs = [(one, other) for one in range(sites) for other in range(sites) if one != other]
    ways = _shortest(dice, sites, ends, pairs)
    wanted = [sum(_demand(seed, task) for task in range(at, tasks, len(pairs))) for at in
              range(len(pairs))]  # fmt: skip
    on_line = [0] * len(ends)
    for amount, of_pair in zip(wanted, ways):
        for line in of_pair[0]:
            on_line[line] += amount
    yield b'{"version":4,"top":1000000,"links":'
    yield text([
        {
            "name": f"e{line}.{trunk}",
            "from": f"s{one}",
            "to": f"s{other}",
            "capacity": int(on_line[line] * dice.uniform(40, 160) / load / trunks) + 1_000,
            "owner": f"r{line % REPORTERS}",
        }
        for line, (one, other) in enumerate(ends)
        for trunk in range(trunks)
    ])  # fmt: skip
    yield b',"groups":[\n'
    for at, ((one, other), of_pair) in enumerate(zip(pairs, ways)):
        group = {"name": f"s{one}-s{other}", "from": f"s{one}", "to": f"s{other}"}
        paths = [[{"weight": 1, "links": [f"e{line}.{(at + line) % trunks}" for line in way]}]
                 for way in of_pair]  # fmt: skip
        users = _users(dice, range(at, tasks, len(pairs)))
        yield (b",\n" if at else b"") + text({**group, "paths": paths, "users": users})
    yield b'],\n"reporters":' + text([f"r{at}" for at in range(REPORTERS)]) + b',"script":[\n'
    for start in range(0, tasks, 8_192):
        rows = (
            b'{"reporter":"r%d","task":"t%d","demand":%d}' % (at % REPORTERS, at, _demand(seed, at))
            for at in range(start, min(start + 8_192, tasks))
        )
        yield (b",\n" if start else b"") + b",\n".join(rows)
    yield b"]}\n"


def _demand(seed, task):
    return 1_000 + (task * 7_919 + seed) * 104_729 % 1_999_993


def _lines(dice, sites):
    """Both ways between neighbours on a ring, and from each site to two others by chance."""
    joined = {(at, (at + 1) % sites) for at in range(sites)}
    joined |= {(at, dice.randrange(sites)) for at in range(sites) for _ in range(2)}
    both = {(min(pair), max(pair)) for pair in joined if pair[0] != pair[1]}
    return [ends for one, other in sorted(both) for ends in ((one, other), (other, one))]


def _shortest(dice, sites, ends, pairs):
    """Up to three ways of each pair: the shortest by three lengths of the lines by chance."""
    around = [[] for _ in range(sites)]
    for line, (one, other) in enumerate(ends):
        around[one].append((line, other))
    ways = {pair: [] for pair in pairs}
    for _ in range(3):
        lengths = [dice.uniform(1, 3) for _ in ends]
        for source in range(sites):
            for target, way in _tree(around, lengths, source).items():
                if way not in ways[source, target] and len(way) <= 32:
                    ways[source, target].append(way)
    return [ways[pair] for pair in pairs]


def _tree(around, lengths, source):
    """The shortest way from a site to each other one."""
    found, open_ends = {}, [(0.0, source, ())]
    while open_ends:
        length, site, way = heapq.heappop(open_ends)
        if site in found:
            continue
        found[site] = list(way)
        for line, other in around[site]:
            if other not in found:
                heapq.heappush(open_ends, (length + lengths[line], other, (*way, line)))
    del found[source]
    return found


def _users(dice, numbers):
    """A user with a function and one without, two jobs at most in each."""
    tasks = [
        {"name": f"t{number}", "reporter": f"r{number % REPORTERS}"}
        | ({"weight": dice.randint(2, 8)} if number % 5 == 0 else {})
        for number in numbers
    ]
    parts = [tasks[start :: 4] for start in range(4)]
    users = []
    for at in range(2):
        jobs = [
            {"name": f"j{number}", "task": _rising(dice, 2, 2_000_000), "tasks": part}
            for number, part in enumerate(parts[2 * at : 2 * at + 2])
            if part
        ]
        if jobs:
            own = {"function": _rising(dice, 3, 2_000_000 * len(tasks))} if at == 0 else {}
            users.append({"name": f"u{at}", **own, "jobs": jobs})
    return users


def _rising(dice, points, most):
    shares = sorted(dice.sample(range(1, 1_000_001), points))
    amounts = sorted(dice.randint(most // 10, most) for _ in shares)
    return [[0, 0], *([share, amount] for share, amount in zip(shares, amounts))]
