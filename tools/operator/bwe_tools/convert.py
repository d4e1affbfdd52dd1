"""From a network to a document: both directions of each link, a group for each pair of sites with
its paths and tasks.
"""

from __future__ import annotations

import json
from collections import Counter
from collections.abc import Callable, Iterator
from dataclasses import dataclass
from functools import wraps
from itertools import permutations
from pathlib import Path
from typing import Any

import click

from bwe_tools import rules
from bwe_tools.document import ToolError, least_version, text_of
from bwe_tools.limits import OF_4, PLAIN
from bwe_tools.network import Demand, Line, Namer, Network, rate
from bwe_tools.progress import Progress
from bwe_tools.raw import (
    RawDocument,
    RawFunction,
    RawGroup,
    RawJob,
    RawLink,
    RawPath,
    RawReport,
    RawTask,
    RawUser,
    made_task,
)
from bwe_tools.routes import Routes

OWNER, HOSTS = "noc", "hosts"
MOST_WEIGHT = rules.MOST_WEIGHT
Ways = list[list[str]]  # paths, each the names of its links


@dataclass(frozen=True)
class Choices:
    """What the options of a converter say. Rates are in kb/s."""

    capacity: int = 10_000_000
    demand: int = 1_000_000
    paths: int = 3
    is_together: bool = False
    by: str = "hops"
    fairness: str = "equal"
    top: int = 1_000_000
    busiest: int | None = None
    is_one_way: bool = False


def rate_option(_: click.Context, option: click.Parameter, value: str) -> int:
    return rate(value, f"--{option.name}")


OPTIONS = [
    click.option(
        "--capacity",
        default="10G",
        callback=rate_option,
        show_default=True,
        help="Capacity of a link for which the file has none.",
    ),
    click.option(
        "--demand",
        default="1G",
        callback=rate_option,
        show_default=True,
        help="Demand of each pair of sites where no demands are given.",
    ),
    click.option(
        "--busiest",
        type=click.IntRange(2, 256),
        metavar="N",
        help="Where no demands are given: only pairs of the N sites with the most capacity.",
    ),
    click.option(
        "--paths",
        default=3,
        type=click.IntRange(1, 16),
        show_default=True,
        help="Shortest paths of a pair, at most.",
    ),
    click.option(
        "--together",
        "is_together",
        is_flag=True,
        help=(
            "One path group of all paths of a pair, weighted by their narrowest links. It"
            " falls whole where one of its links closes; without this each path is a path"
            " group of its own."
        ),
    ),
    click.option(
        "--by",
        type=click.Choice(["hops", "length"]),
        default="hops",
        show_default=True,
        help="What makes a path short: few links, or little length.",
    ),
    click.option(
        "--fairness",
        type=click.Choice(["equal", "proportional"]),
        default="equal",
        show_default=True,
        help="Tasks get the same rate at a share, or the same part of their demand.",
    ),
    click.option(
        "--top",
        default=1_000_000,
        type=click.IntRange(1, rules.MOST_SHARE),
        show_default=True,
        help="The document's greatest share.",
    ),
    click.option(
        "--one-way",
        "is_one_way",
        is_flag=True,
        help="Links go only the way in which the file has them.",
    ),
    click.option(
        "--map",
        "map_file",
        type=click.Path(dir_okay=False),
        help="Write which name of the document stands for what in the file, as JSON.",
    ),
]


def options(command: Callable[..., None]) -> Callable[..., None]:
    """The options that all converters have; the command gets them as its `choices`, and the name of
    the map's file.
    """
    for option in reversed(OPTIONS):
        command = option(command)

    @wraps(command)
    def with_choices(map_file: str | None, **words: Any) -> None:
        chosen = {name: words.pop(name) for name in Choices.__dataclass_fields__}
        command(choices=Choices(**chosen), map_file=map_file, **words)

    return with_choices


def directed(network: Network, is_one_way: bool) -> Iterator[tuple[Line, str, str]]:
    """The links of a document: each line, and its reverse where the file has no line back."""
    ends = Counter((line.source, line.target) for line in network.lines)
    for line in network.lines:
        yield line, line.source, line.target
        has_back = network.is_directed and ends[line.target, line.source]
        if not is_one_way and not has_back:
            yield line, line.target, line.source


class Conversion:
    """The parts of a document of one network, and the maps of their names."""

    def __init__(self, network: Network, choices: Choices) -> None:
        self.network, self.choices = network, choices
        self.sites: dict[str, str] = {}
        self.links: list[RawLink] = []
        self.lengths: dict[str, float | None] = {}
        labels, self.link_namer = Namer(), Namer()
        counts = Counter(network.sites.values())
        for key, label in network.sites.items():
            original = label if counts[label] == 1 else f"{label} ({key})"
            self.sites[key] = labels.name(label, original)
        self.site_map = labels.texts
        self.add_links()

    def add_links(self) -> None:
        for line, source, target in directed(self.network, self.choices.is_one_way):
            if source == target:
                raise ToolError(
                    f"a link goes from \"{self.network.sites[source]}\" to itself, which no"
                    " document has"
                )
            is_back = (source, target) != (line.source, line.target)
            labels = [self.network.sites[key] for key in (source, target)]
            given = line.name and (f"{line.name}-back" if is_back else line.name)
            text = given or f"{self.sites[source]}_{self.sites[target]}"
            name = self.link_namer.name(
                text, f"{' - '.join(labels)}{f' ({line.name})' if line.name else ''}"
            )
            capacity = self.choices.capacity if line.capacity is None else line.capacity
            self.links.append(
                {
                    "name": name,
                    "from": self.sites[source],
                    "to": self.sites[target],
                    "capacity": capacity,
                    "owner": OWNER,
                }
            )
            self.lengths[name] = self.network.length(line)
        if len(self.links) > OF_4.links:
            raise ToolError(
                f"{len(self.links):,} links in both directions are more than a document's"
                f" {OF_4.links:,}"
            )

    def routes(self) -> Routes:
        links = [(link["name"], link["from"], link["to"]) for link in self.links]
        if self.choices.by == "hops":
            return Routes(links)
        unknown = next((name for name, length in self.lengths.items() if length is None), None)
        if unknown is not None:
            raise ToolError(
                f"the file has no length for link \"{unknown}\", and no places of its sites; use"
                " --by hops"
            )
        return Routes(links, self.lengths)

    def demands(self) -> list[Demand]:
        """The file's demands, else one of the default for each ordered pair."""
        if self.network.demands:
            return self.network.demands
        keys = list(self.network.sites)
        if self.choices.busiest:
            capacity = Counter[str]()
            for link in self.links:
                capacity.update({link["from"]: link["capacity"], link["to"]: link["capacity"]})
            keys = sorted(keys, key=lambda key: -capacity[self.sites[key]])[: self.choices.busiest]
        pairs = len(keys) * (len(keys) - 1)
        if pairs > OF_4.groups:
            raise ToolError(
                f"{len(keys)} sites have {pairs:,} pairs, more than a document's"
                f" {OF_4.groups:,} groups; take some with --busiest 256, or give the demands"
            )
        amount = self.choices.demand
        return [Demand(one, other, amount) for one, other in permutations(keys, 2)]

    def path_groups(self, ways: Ways) -> list[list[RawPath]]:
        if not self.choices.is_together:
            return [[{"weight": 1, "links": way}] for way in ways]
        capacity = {link["name"]: link["capacity"] for link in self.links}
        narrow = [min(capacity[name] for name in way) for way in ways]
        widest = max(*narrow, 1)
        weights = [max(1, round(MOST_WEIGHT * each / widest)) for each in narrow]
        return [[{"weight": weight, "links": way} for weight, way in zip(weights, ways)]]

    def function(self, demands: list[Demand], most: int) -> RawFunction:
        """The function of the tasks of one job: to the greatest demand of all tasks, or to that of
        the job's own.
        """
        own = max(demand.amount for demand in demands)
        return [
            [0, 0],
            [self.choices.top, max(1, most if self.choices.fairness == "equal" else own)],
        ]

    def raw(self) -> RawDocument:
        demands, routes = self.demands(), self.routes()
        by_pair: dict[tuple[str, str], list[Demand]] = {}
        for demand in demands:
            by_pair.setdefault((demand.source, demand.target), []).append(demand)
        most = max((demand.amount for demand in demands), default=1)
        group_names, task_names = Namer(), Namer()
        groups: list[RawGroup] = []
        script: list[RawReport] = []
        unreached: list[tuple[str, str]] = []
        pairs = [(self.sites[source], self.sites[target]) for source, target in by_pair]
        for (source, target), ends, ways in zip(by_pair, pairs, self.all_ways(routes, pairs)):
            of_pair = by_pair[source, target]
            if not ways:
                unreached.append((source, target))
                continue
            name = group_names.name("_".join(ends))
            groups.append(
                {
                    "name": name,
                    "from": ends[0],
                    "to": ends[1],
                    "paths": self.path_groups(ways),
                    "users": self.users(name, of_pair, most, task_names, script),
                }
            )
        self.tell_unreached(unreached)
        raw: RawDocument = {
            "version": PLAIN,
            "top": self.choices.top,
            "links": self.links,
            "groups": groups,
            "reporters": [HOSTS, OWNER],
            "script": script,
        }
        raw["version"] = least_version(raw)
        return raw

    def all_ways(self, routes: Routes, pairs: list[tuple[str, str]]) -> Iterator[Ways]:
        """The paths of each pair in turn; of many pairs it is said how far that is."""
        with Progress("pairs of sites whose paths are found") as told:
            for number, ways in enumerate(routes.of_all(pairs, self.choices.paths), 1):
                told(number, len(pairs))
                yield ways

    def users(
        self,
        group: str,
        demands: list[Demand],
        most: int,
        task_names: Namer,
        script: list[RawReport],
    ) -> list[RawUser]:
        """The users of a group with their jobs and tasks; each task's demand goes to the script."""
        names, made = Namer(), list[RawUser]()
        users: dict[str, dict[str, list[Demand]]] = {}
        for demand in demands:
            users.setdefault(demand.user, {}).setdefault(demand.job, []).append(demand)
        for user, jobs in users.items():
            job_names, of_user = Namer(), list[RawJob]()
            for job, tasks in jobs.items():
                listed = [self.task(group, task, task_names, script) for task in tasks]
                of_user.append(
                    {
                        "name": job_names.name(job),
                        "task": self.function(tasks, most),
                        "tasks": listed,
                    }
                )
            made.append({"name": names.name(user), "jobs": of_user})
        return made

    @staticmethod
    def task(
        group: str, demand: Demand, task_names: Namer, script: list[RawReport]
    ) -> RawTask:
        name = task_names.name(demand.task or group)
        script.append({"reporter": HOSTS, "task": name, "demand": demand.amount})
        return made_task(name, HOSTS, demand.weight)

    def tell_unreached(self, pairs: list[tuple[str, str]]) -> None:
        """A demand of the file without a path is a fault; a pair of the default is left out, and
        told.
        """
        if not pairs:
            return
        source, target = (self.network.sites[key] for key in pairs[0])
        if self.network.demands:
            raise ToolError(
                f"there is no path of at most 32 links from \"{source}\" to \"{target}\" for its"
                " demand"
            )
        click.echo(
            (
                f"bwe-tools: {len(pairs)} pairs without a path of at most 32 links are left out, as"
                f" {source} to {target}"
            ),
            err=True,
        )


def write_document(network: Network, choices: Choices, map_file: str | None) -> None:
    """Writes the document of a network to standard output, and its map where one is wanted."""
    if not network.lines:
        raise ToolError("the file has no links")
    conversion = Conversion(network, choices)
    raw = conversion.raw()
    fault = rules.first_fault(raw)
    if fault is not None:
        raise ToolError(f"this is too much for one document: {fault.sentence}")
    if map_file is not None:
        write_map(map_file, {"sites": conversion.site_map, "links": conversion.link_namer.texts})
    click.echo(text_of(raw), nl=False)


def write_map(path: str, maps: dict[str, dict[str, str]]) -> None:
    try:
        Path(path).write_text(
            json.dumps(maps, indent=1, ensure_ascii=False) + "\n", encoding="utf-8"
        )
    except OSError as fault:
        raise ToolError(f"{path} cannot be written: {fault.strerror}") from None
