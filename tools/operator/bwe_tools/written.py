"""Networks that people write by hand, in TOML, to documents: units, defaults, sites with
coordinates, pairs of sites, shortest paths and alike tasks.
"""

from __future__ import annotations

from collections.abc import Iterator
from dataclasses import dataclass
from itertools import permutations
from typing import Any

from bwe_tools.document import ToolError, least_version
from bwe_tools.limits import OF_4, PLAIN
from bwe_tools.network import Namer, kilometres
from bwe_tools.raw import (
    RawClosing,
    RawDocument,
    RawGroup,
    RawJob,
    RawLink,
    RawPath,
    RawReport,
    RawTask,
    RawUser,
    made_group,
    made_job,
    made_task,
    made_user,
)
from bwe_tools.routes import Routes
from bwe_tools.rules import MOST_PATHS, MOST_SHARE, MOST_WEIGHT
from bwe_tools.sound import is_whole
from bwe_tools.toml_section import Section

MEASURES = ("hops", "metric", "length")
MOST_METRIC = 1_000_000


@dataclass(frozen=True)
class Defaults:
    """What links, groups and tasks have that do not say it. Rates are in kb/s."""

    capacity: int | None
    owner: str
    reporter: str
    demand: int | None
    paths: int
    by: str
    is_disjoint: bool


def defaults_of(section: Section) -> Defaults:
    found = Defaults(
        section.rate("capacity", None),
        section.name("owner", "noc"),
        section.name("reporter", "hosts"),
        section.rate("demand", None),
        section.whole("paths", 1, MOST_PATHS, 3),
        measure_of(section, "hops"),
        switch_of(section, "disjoint", False),
    )
    section.end()
    return found


def measure_of(section: Section, default: str) -> str:
    found: str = section.text("by", default)
    if found not in MEASURES:
        raise section.fault(
            "by", f"paths are short by {', '.join(MEASURES[:-1])} or {MEASURES[-1]}"
        )
    return found


def switch_of(section: Section, key: str, default: bool) -> bool:
    found = section.value(key, default)
    if not isinstance(found, bool):
        raise section.fault(key, "this is true or false")
    return found


class Written:
    """A document in the making: the parts that its groups are made from, and their names."""

    def __init__(self, table: dict[str, Any]) -> None:
        root = Section("", table)
        self.top = root.whole("top", 1, MOST_SHARE, 1_000_000)
        self.defaults = defaults_of(root.section("defaults"))
        self.places = dict(places_of(root.section("sites")))
        self.links: list[RawLink] = []
        self.metrics: dict[str, int] = {}
        self.script: list[RawReport] = []
        self.capacities: list[RawReport] = []
        self.reporters: dict[str, None] = {}
        self.group_names, self.task_names = Namer(), Namer()
        for section in root.sections("links"):
            self.add_link(section)
        self.groups = [
            group for section in root.sections("groups") for group in self.groups_of(section)
        ]
        self.closings = [closing_of(section) for section in root.sections("closings")]
        root.end()

    def raw(self) -> RawDocument:
        owners = dict.fromkeys(link["owner"] for link in self.links if "owner" in link)
        raw: RawDocument = {
            "version": PLAIN,
            "top": self.top,
            "links": self.links,
            "groups": self.groups,
            "reporters": list(self.reporters | owners),
            "script": self.script + self.capacities,
        }
        if self.closings:
            raw["closings"] = self.closings
        raw["version"] = least_version(raw)
        return raw

    # ---- links

    def add_link(self, section: Section) -> None:
        ends, is_both = self.ends_of(section)
        name = section.name("name", None)
        capacity = section.rate("capacity", self.defaults.capacity)
        if capacity is None:
            raise section.fault("capacity", "neither the link nor the defaults have one")
        owner = section.text("owner", self.defaults.owner)
        metric = section.whole("metric", 0, MOST_METRIC, 1)
        reported = section.rate("reported", None)
        section.end()
        for source, target in [ends, ends[::-1]] if is_both else [ends]:
            is_back = (source, target) != ends
            own = f"{name}-back" if name and is_back else name or f"{source}_{target}"
            link: RawLink = {"name": own, "from": source, "to": target, "capacity": capacity}
            if owner:
                link["owner"] = owner
            self.links.append(link)
            self.metrics[own] = metric
            if reported is not None:
                self.capacities.append({"reporter": owner, "link": own, "capacity": reported})

    def ends_of(self, section: Section) -> tuple[tuple[str, str], bool]:
        """The two sites of a link or group, and whether both directions are meant."""
        if section.has("between"):
            return pair_of(section.value("between"), section.place("between")), True
        return (section.name("from"), section.name("to")), False

    # ---- groups

    def groups_of(self, section: Section) -> Iterator[RawGroup]:
        """The groups of a table: one, one each way, or one for each pair of sites."""
        name = section.name("name", None)
        pairs = self.pairs_of(section)
        if name is not None and len(pairs) > 1:
            raise section.fault("name", f"the table stands for {len(pairs)} groups of many names")
        function = section.function("function", None)
        paths = section.value("paths", self.defaults.paths)
        by = measure_of(section, self.defaults.by)
        is_disjoint = switch_of(section, "disjoint", self.defaults.is_disjoint)
        for source, target in pairs:
            own = self.group_names.name(name or f"{source}_{target}")
            ways = self.paths_of(section, paths, (source, target), by, is_disjoint)
            users = self.users_of(section, own)
            yield made_group(own, (source, target), function, ways, users)
        section.end()

    def pairs_of(self, section: Section) -> list[tuple[str, str]]:
        if not section.has("pairs"):
            ends, is_both = self.ends_of(section)
            return [ends, ends[::-1]] if is_both else [ends]
        pairs, where = section.value("pairs"), section.place("pairs")
        if pairs == "all":
            named = [site for link in self.links for site in (link["from"], link["to"])]
            sites = dict.fromkeys([*self.places, *named])
            return [(one, other) for one, other in permutations(sites, 2)]
        if not isinstance(pairs, list):
            raise section.fault("pairs", 'this is "all", or a list of pairs of sites')
        return [pair_of(pair, f"{where}[{at}]") for at, pair in enumerate(pairs)]

    def paths_of(
        self, section: Section, paths: object, ends: tuple[str, str], by: str, is_disjoint: bool
    ) -> list[list[RawPath]]:
        if isinstance(paths, list):
            where = section.place("paths")
            return [path_group_of(entry, f"{where}[{at}]") for at, entry in enumerate(paths)]
        if not is_whole(paths) or not 1 <= paths <= MOST_PATHS:
            sentence = f"this is how many shortest paths, 1 to {MOST_PATHS}, or a list of them"
            raise section.fault("paths", sentence)
        ways = self.disjoint(ends, paths, by) if is_disjoint else self.shortest(ends, paths, by)
        if not ways:
            raise section.fault("paths", f"there is no path of links from {ends[0]} to {ends[1]}")
        return [[{"weight": 1, "links": way}] for way in ways]

    def shortest(self, ends: tuple[str, str], most: int, by: str) -> list[list[str]]:
        return self.routes(self.links, by).between(*ends, most)

    def disjoint(self, ends: tuple[str, str], most: int, by: str) -> list[list[str]]:
        """Shortest paths, each over none of the links of those before it."""
        ways: list[list[str]] = []
        while len(ways) < most:
            used = {link for way in ways for link in way}
            left = [link for link in self.links if link["name"] not in used]
            found = self.routes(left, by).between(*ends, 1)
            if not found:
                break
            ways += found
        return ways

    def routes(self, links: list[RawLink], by: str) -> Routes:
        lengths = None if by == "hops" else {link["name"]: self.length(link, by) for link in links}
        return Routes([(link["name"], link["from"], link["to"]) for link in links], lengths)

    def length(self, link: RawLink, by: str) -> float:
        if by == "metric":
            return self.metrics[link["name"]]
        ends = link["from"], link["to"]
        unknown = next((site for site in ends if site not in self.places), None)
        if unknown is not None:
            raise ToolError(f"sites.{unknown}: paths by length need the coordinates of each site")
        return kilometres(self.places[ends[0]], self.places[ends[1]])

    # ---- users, jobs and tasks

    def users_of(self, section: Section, group: str) -> list[RawUser]:
        users = [self.user_of(user, group) for user in section.sections("users")]
        return users or [{"name": "all", "jobs": [self.job_of(section, group, "all")]}]

    def user_of(self, section: Section, group: str) -> RawUser:
        name = section.name("name")
        function = section.function("function", None)
        jobs = [self.own_job_of(job, f"{group}-{name}") for job in section.sections("jobs")]
        jobs = jobs or [self.job_of(section, f"{group}-{name}", "all")]
        section.end()
        return made_user(name, function, jobs)

    def own_job_of(self, section: Section, prefix: str) -> RawJob:
        """The job of a table of its own."""
        name = section.name("name")
        function = section.function("function", None)
        job = self.job_of(section, f"{prefix}-{name}", name)
        section.end()
        return made_job(name, function, job["task"], job["tasks"])

    def job_of(self, section: Section, prefix: str, name: str) -> RawJob:
        """A job by what a table says of its tasks: that of a job, or of a user or group without
        jobs of their own.
        """
        tasks = list(self.tasks_of(section, prefix))
        most = max((demand or 0 for _, demand in tasks), default=0)
        given = section.function("task", [[0, 0], [self.top, max(1, most)]])
        for task, demand in tasks:
            self.reporters[task["reporter"]] = None
            if demand is not None:
                self.script.append(
                    {"reporter": task["reporter"], "task": task["name"], "demand": demand}
                )
        return {"name": name, "task": given, "tasks": [task for task, _ in tasks]}

    def tasks_of(self, section: Section, prefix: str) -> Iterator[tuple[RawTask, int | None]]:
        """The tasks of a job, each with its demand: as many alike ones, or a table for each."""
        demand = section.rate("demand", self.defaults.demand)
        weight = section.whole("weight", 1, MOST_WEIGHT, 1)
        reporter = section.name("reporter", self.defaults.reporter)
        listed = section.value("tasks", 1)
        if not isinstance(listed, list):
            count = section.whole("tasks", 1, OF_4.tasks, 1)
            for number in range(count):
                text = prefix if count == 1 else f"{prefix}-{number}"
                yield made_task(self.task_names.name(text), reporter, weight), demand
            return
        for task in section.sections("tasks"):
            name = self.task_names.name(task.name("name"))
            own = task.rate("demand", demand)
            of = task.name("reporter", reporter), task.whole("weight", 1, MOST_WEIGHT, weight)
            task.end()
            yield made_task(name, *of), own


def places_of(section: Section) -> Iterator[tuple[str, tuple[float, float]]]:
    """Longitude and latitude of each site that has them; the file has latitude first."""
    for site in section.table:
        found = section.value(site)
        if found == {} or found == []:
            continue
        is_pair = isinstance(found, list) and len(found) == 2
        if not is_pair or not all(type(each) in (int, float) for each in found):
            raise section.fault(site, "a site has its latitude and longitude, as [50.1, 8.7]")
        latitude, longitude = found
        if not (-90 <= latitude <= 90 and -180 <= longitude <= 180):
            raise section.fault(site, "latitudes go from -90 to 90 and longitudes from -180 to 180")
        yield site, (float(longitude), float(latitude))


def pair_of(value: object, where: str) -> tuple[str, str]:
    if (
        not isinstance(value, list)
        or len(value) != 2
        or not all(isinstance(site, str) for site in value)
        or value[0] == value[1]
    ):
        raise ToolError(f'{where}: this is a pair of two sites, as ["fra", "ams"]')
    return value[0], value[1]


def path_group_of(entry: object, where: str) -> list[RawPath]:
    """A path group: the names of the links of its one path, or a table for each weighted path."""
    if isinstance(entry, list) and entry and all(isinstance(link, str) for link in entry):
        return [{"weight": 1, "links": entry}]
    if not isinstance(entry, list) or not entry:
        raise ToolError(f"{where}: this is a list of link names, or of weighted paths")
    return [path_of(Section(f"{where}[{at}]", path)) for at, path in enumerate(entry)]


def path_of(section: Section) -> RawPath:
    weight = section.whole("weight", 1, MOST_WEIGHT, 1)
    links = section.value("links")
    if not isinstance(links, list) or not all(isinstance(link, str) for link in links):
        raise section.fault("links", "this is a list of link names")
    section.end()
    return {"weight": weight, "links": links}


def closing_of(section: Section) -> RawClosing:
    found: RawClosing = {"link": section.name("link"), "share": section.whole("share", 0, MOST_SHARE)}
    section.end()
    return found
