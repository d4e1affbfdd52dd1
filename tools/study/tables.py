"""The tables of docs/QUALITY.md, each from the rows of a part of the study."""

from __future__ import annotations

from collections.abc import Callable, Iterable, Sequence
from typing import Any

Rows = list[dict[str, Any]]
METHODS = {
    "max-min": "exact max-min, by linear programs",
    "swan": "SWAN's approximation, alpha 2",
    "waterfilling": "adaptive water-filling, 10 rounds",
    "bwe": "**this filling, each path a path group**",
    "shortest alone": "the shortest path alone",
    "even alone": "an even split alone",
    "even in front": "an even split in front of the paths",
    "split of these": "**a split for these demands in front**",
    "split of drifted": "**a split for drifted demands in front**",
    "split of drifted alone": "the same split alone",
}
NETWORKS = ("abilene", "b4-like", "nsfnet", "geant", "us24")


def markdown(heads: Sequence[str], rows: Iterable[Sequence[str]]) -> str:
    lines = [heads, ["---"] + ["---:"] * (len(heads) - 1), *rows]
    return "\n".join("| " + " | ".join(line) + " |" for line in lines)


def mean(rows: Rows, of: str) -> float:
    return float(sum(row[of] for row in rows)) / len(rows)


def mean_and_worst(rows: Rows, of: str) -> str:
    return f"{mean(rows, of):.3f} ({min(row[of] for row in rows):.2f})"


def of_method(rows: Rows, method: str) -> Rows:
    return [row for row in rows if row["method"] == method]


def by_load(part: dict[str, Any], of: str) -> str:
    """A row a method, a column a load: the mean, and the worst behind it."""
    rows: Rows = part["rows"]
    loads = sorted({row["load"] for row in rows})
    heads = ["mean (worst)", *(f"load {load:g}" for load in loads), "all"]
    lines = []
    for method, title in METHODS.items():
        own = of_method(rows, method)
        cells = [mean_and_worst([row for row in own if row["load"] == load], of) for load in loads]
        lines.append([title, *cells, mean_and_worst(own, of)])
    return markdown(heads, lines)


def by_network(part: dict[str, Any]) -> str:
    """A row a network: throughput and fairness of the filling, and behind a split."""
    heads = [
        "mean (worst)",
        "throughput / max-min's",
        "fairness",
        "with a split: throughput",
        "fairness",
    ]
    lines = []
    for network in NETWORKS:
        own = [row for row in part["rows"] if row["network"] == network]
        cells = [
            mean_and_worst(of_method(own, method), of)
            for method in ("bwe", "split of drifted")
            for of in ("of_fair", "fairness")
        ]
        lines.append([network, *cells])
    return markdown(heads, lines)


def by_seed(part: dict[str, Any]) -> str:
    """A row a seed of the stored cases: throughput and fairness of the filling, by load."""
    rows: Rows = list(part.values())
    loads = sorted({row["load"] for row in rows})
    heads = ["mean (worst)"]
    for load in loads:
        heads += [f"load {load:g}: throughput / max-min's", "fairness"]
    lines = []
    for seed in sorted({row["seed"] for row in rows}):
        cells = [f"seed {seed}"]
        for load in loads:
            own = [row for row in rows if (row["seed"], row["load"]) == (seed, load)]
            cells += [mean_and_worst(own, of) for of in ("of_fair", "fairness")]
        lines.append(cells)
    return markdown(heads, lines)


def by_paths(part: dict[str, Any]) -> str:
    rows: Rows = part["rows"]
    heads = [
        "path groups",
        "throughput / the most with 16 paths",
        "/ max-min's over the same paths",
        "fairness",
    ]
    lines = []
    for paths in sorted({row["paths"] for row in rows}):
        own = [row for row in rows if row["paths"] == paths]
        lines.append(
            [
                str(paths),
                mean_and_worst(of_method(own, "bwe beside 16"), "of_most"),
                mean_and_worst(of_method(own, "bwe"), "of_fair"),
                mean_and_worst(of_method(own, "bwe"), "fairness"),
            ]
        )
    return markdown(heads, lines)


def by_method(part: dict[str, Any], head: str, names: dict[str, str]) -> str:
    """A row a method of a part, in the order of `names`."""
    heads = [head, "throughput / max-min's", "fairness"]
    lines = []
    for method, title in names.items():
        own = of_method(part["rows"], method)
        lines.append([title, mean_and_worst(own, "of_fair"), mean_and_worst(own, "fairness")])
    return markdown(heads, lines)


def by_size(part: dict[str, Any]) -> str:
    """Seconds of one processor by network."""
    rows: Rows = part["rows"]
    heads = ["network", "`bwe solve`", "exact max-min", "times", "SWAN", "water-filling"]
    lines = []
    for network in dict.fromkeys(row["network"] for row in rows):
        seconds = {row["method"]: row["seconds"] for row in rows if row["network"] == network}
        lines.append(
            [
                network,
                f"{seconds['bwe']:.3f} s",
                f"{seconds['max-min']:.2f} s",
                f"{seconds['max-min'] / seconds['bwe']:.0f}",
                f"{seconds['swan']:.2f} s",
                f"{seconds['waterfilling']:.2f} s",
            ]
        )
    return markdown(heads, lines)


def by_large(part: dict[str, Any]) -> str:
    """The methods on each large network, with their seconds of one processor."""
    heads = ["network, groups", "method", "throughput / max-min's", "fairness", "seconds"]
    lines = []
    for row in part["rows"]:
        named = f"{row['network']}, {row['groups']:,}"
        parts = [f"{row[of]:.3f}" for of in ("of_fair", "fairness")]
        lines.append([named, METHODS[row["method"]], *parts, f"{row['seconds']:.2f}"])
    return markdown(heads, lines)


def claims(part: dict[str, Any]) -> str:
    """In how many cases each method keeps what B4 and SWAN say of theirs."""
    rows: Rows = part["rows"]
    ratios: dict[str, list[float]] = part["ratios"]
    heads = [
        "method",
        "99 % of max-min's throughput",
        "groups more than 5 % off their fair share",
        "farthest off",
    ]
    lines = []
    for method, title in METHODS.items():
        own = of_method(rows, method)
        met = sum(row["of_fair"] >= 0.99 for row in own)
        off = sum(abs(one - 1) > 0.05 for one in ratios[method]) / len(ratios[method])
        lines.append(
            [
                title,
                f"{met} of {len(own)} cases",
                f"{100 * off:.0f} %",
                f"{ratios[method][0]:.2f} to {ratios[method][-1]:.2f}",
            ]
        )
    return markdown(heads, lines)


ORDERS = {
    "shortest": "shortest path first",
    "chance": "in an order by chance",
    "longest": "longest path first",
}
DRAINS = {
    "bwe": "each path a path group",
    "split of these": "a split for the demands before the drain, and the paths behind it",
    "split of these alone": "the same split alone",
}
TOPS = {
    "100": "100",
    "1000": "1,000",
    "10000": "10,000",
    "100000": "100,000",
    "1000000": "1,000,000",
}

TABLES: dict[str, tuple[str, Callable[[dict[str, Any]], str]]] = {
    "throughput": ("load", lambda part: by_load(part, "of_most")),
    "fairness": ("load", lambda part: by_load(part, "fairness")),
    "networks": ("load", by_network),
    "claims": ("load", claims),
    "seeds": ("stored", by_seed),
    "paths": ("paths", by_paths),
    "order": ("order", lambda part: by_method(part, "order of path groups", ORDERS)),
    "top": ("top", lambda part: by_method(part, "`top`", TOPS)),
    "drains": ("drains", lambda part: by_method(part, "a fibre drained", DRAINS)),
    "size": ("size", by_size),
    "large": ("large", by_large),
}


def with_tables(page: str, parts: dict[str, dict[str, Any]]) -> str:
    """A page with each table between its marks made anew."""
    for name, (part, make) in TABLES.items():
        start, end = f"<!-- table {name} -->\n", f"<!-- end of {name} -->\n"
        before, rest = page.split(start)
        _, behind = rest.split(end)
        page = f"{before}{start}\n{make(parts[part])}\n\n{end}{behind}"
    return page
