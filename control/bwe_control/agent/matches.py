"""Classification by nftables: one table with a map for each kind of match, and no rule a task.

HTB takes a packet's priority for its class where it is one. So the chain sets `meta priority` from
the first map that has the packet: by cgroup, user, port, mark, and by destination alone. In a map
the longest prefix decides: as nftables has no such map, prefixes are cut into ranges that do not
overlap.
"""

from __future__ import annotations

import ipaddress
from collections.abc import Iterable, Mapping
from dataclasses import dataclass

from bwe_control.agent.config import Config, Prefix, Selector
from bwe_control.agent.htb import MAJOR, REST

KEYS = {
    Selector.USER: ("uid", "meta skuid"),
    Selector.PORT: ("inet_proto . inet_service", "meta l4proto . th dport"),
    Selector.MARK: ("mark", "meta mark"),
}
FAMILIES = {4: ("ipv4_addr", "ip daddr"), 6: ("ipv6_addr", "ip6 daddr")}


@dataclass(frozen=True)
class Range:
    """Addresses from `first` to `last`, of one IP version, that are of the class `minor`."""

    first: int
    last: int
    minor: int


@dataclass(frozen=True)
class MapName:
    """One map of the table; `level` counts the parts of a cgroup's path, else it is 0."""

    version: int
    selector: Selector
    level: int

    def __str__(self) -> str:
        level = f"_{self.level}" if self.level else ""
        return f"by_{self.selector.value}{level}_{self.version}"


def table_name(device: str) -> str:
    """The table of a device, by a name that nftables takes."""
    return "bwe_" + "".join(c if c.isascii() and c.isalnum() else "_" for c in device)


def disjoint(prefixes: Iterable[tuple[Prefix, int]]) -> list[Range]:
    """Ranges that do not overlap, in rising order, in which the longest prefix has decided.

    Of two prefixes that overlap one holds the other. So in one walk through all, those that hold
    the place where the walk is are a stack, the innermost on top.
    """
    ranges: list[Range] = []
    around: list[Range] = []
    place = 0

    def until(last: int) -> None:
        nonlocal place
        if place <= last:
            ranges.append(Range(place, last, around[-1].minor))
        place = last + 1

    def leave_before(first: int) -> None:
        while around and around[-1].last < first:
            until(around[-1].last)
            around.pop()

    for prefix, minor in sorted(prefixes, key=lambda it: (int(it[0][0]), it[0].prefixlen)):
        item = Range(int(prefix.network_address), int(prefix.broadcast_address), minor)
        leave_before(item.first)
        if around:
            until(item.first - 1)
        place = item.first
        around.append(item)
    leave_before(1 << 129)
    return ranges


def class_text(minor: int) -> str:
    return f"{MAJOR:x}:{minor:x}"


def ruleset(
    config: Config,
    minors: Mapping[str, int],
    places: Mapping[str, int],
    cgroups: Mapping[str, str],
) -> str:
    """The script for `nft -f` that puts the table of this configuration in place, at once.

    `minors` has the class of each task, `places` the number of the path group by which a task with
    marks goes (0 where it has none), `cgroups` what nftables has to be told for each cgroup that is
    there. A task whose cgroup is not there has no entry.
    """
    name = table_name(config.device)
    maps = entries(config, minors, cgroups)
    marks = [
        f"{class_text(minors[task.name])} : {task.marks[places.get(task.name, 0)]}"
        for task in config.tasks
        if task.marks
    ]
    lines = [f"table inet {name}", f"delete table inet {name}", f"table inet {name} {{"]
    for map_name, elements in maps.items():
        lines += map_lines(map_name, elements)
    if marks:
        lines.append(f"map path {{ type classid : mark; elements = {{ {', '.join(marks)} }} }}")
    lines.append("chain classify {")
    lines += [rule(map_name) for map_name in maps]
    lines += [f"meta priority set {class_text(REST)}", "}"]
    kind, priority = ("route", "mangle") if marks else ("filter", "filter")
    lines += [f"chain output {{ type {kind} hook output priority {priority}; policy accept;"]
    lines += [f'oifname != "{config.device}" accept', "jump classify"]
    lines += ["meta mark set meta priority map @path"] if marks else []
    return "\n".join([*lines, "}", "}", ""])


def entries(
    config: Config, minors: Mapping[str, int], cgroups: Mapping[str, str]
) -> dict[MapName, list[str]]:
    """The elements of each map that has any, in the order in which the maps are asked."""
    grouped: dict[tuple[MapName, str], list[tuple[Prefix, int]]] = {}
    for task in config.tasks:
        match = task.match
        value, level = match.value, 0
        if match.selector is Selector.CGROUP:
            if match.value not in cgroups:
                continue
            value, level = f'"{cgroups[match.value]}"', len(match.value.split("/"))
        for prefix in match.prefixes:
            key = (MapName(prefix.version, match.selector, level), value.replace(" ", " . "))
            grouped.setdefault(key, []).append((prefix, minors[task.name]))
    order = list(Selector)
    maps: dict[MapName, list[str]] = {}
    # Of two cgroups, one in the other, the inner one is asked first.
    for (map_name, value), prefixes in sorted(
        grouped.items(), key=lambda item: (order.index(item[0][0].selector), -item[0][0].level)
    ):
        for item in disjoint(prefixes):
            maps.setdefault(map_name, []).append(element(map_name.version, value, item))
    return maps


def element(version: int, value: str, item: Range) -> str:
    """A range of addresses with the selector's value, and its class."""
    address = ipaddress.IPv4Address if version == 4 else ipaddress.IPv6Address
    first, last = address(item.first), address(item.last)
    addresses = f"{first}" if first == last else f"{first}-{last}"
    key = f"{addresses} . {value}" if value else addresses
    return f"{key} : {class_text(item.minor)}"


def map_lines(name: MapName, elements: list[str]) -> list[str]:
    """The declaration of a map."""
    address = FAMILIES[name.version][0]
    if name.selector is Selector.NOTHING:
        key = address
    elif name.selector is Selector.CGROUP:
        key = f"{address} . cgroupsv2"
    else:
        key = f"{address} . {KEYS[name.selector][0]}"
    return [
        f"map {name} {{ type {key} : classid; flags interval; elements = {{",
        ",\n".join(elements),
        "} }",
    ]


def rule(name: MapName) -> str:
    """The rule that asks a map, and ends the chain where the map has the packet."""
    address = FAMILIES[name.version][1]
    if name.selector is Selector.NOTHING:
        key = address
    elif name.selector is Selector.CGROUP:
        key = f"{address} . socket cgroupv2 level {name.level}"
    else:
        key = f"{address} . {KEYS[name.selector][1]}"
    return f"meta priority set {key} map @{name} return"
