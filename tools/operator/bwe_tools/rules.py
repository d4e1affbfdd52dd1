"""The rules of a document beyond its shape ("Refusals", docs/FORMAT.md), in the order in which bwe
looks at them.
"""

from __future__ import annotations

from collections import Counter
from collections.abc import Iterable, Iterator, Mapping, Sequence
from functools import cached_property
from itertools import chain
from typing import NamedTuple, TypeVar

from bwe_tools import hints, limits, units
from bwe_tools.fault import Fault, pointer
from bwe_tools.json_text import shortened
from bwe_tools.nodes import Nodes
from bwe_tools.raw import (
    Place,
    RawDocument,
    RawFunction,
    RawGroup,
    RawJob,
    RawLink,
    RawPart,
    RawPath,
    RawReport,
    RawTask,
    RawUser,
)
from bwe_tools.sound import (
    AT_ONCE,
    DEMAND_OF,
    FROM_OF,
    LINKS_OF,
    NAME_OF,
    REPORTER_OF,
    TO_OF,
    WEIGHT_OF,
    of_key,
)

MOST_SHARE = 1_000_000_000
MOST_POINTS, MOST_PATHS, MOST_PATH_LINKS, MOST_WEIGHT = 256, 16, 32, 1_000
MOST_HINTS, MOST_HINTS_AMONG_MANY, MANY = 20, 3, 20_000
FEW = 8  # names that are looked at one by one

# A document, or what of one has its shape.
Looked = RawDocument | RawPart
Ends = Mapping[str, tuple[str, str]]  # the two sites of each link
Entry = TypeVar("Entry")


class Name(NamedTuple):
    """A name that refusals 4 to 6 look at. `scope` is where a new name has to be new, `kind` what
    it names.
    """

    place: Place
    text: str
    kind: str
    scope: Place | None = None


class Number(NamedTuple):
    """A number that refusal 4 looks at, and the range in which it has to be."""

    place: Place
    amount: int
    least: int
    most: int


Value = Name | Number


def entries(listed: Iterable[Entry | None]) -> Iterator[tuple[int, Entry]]:
    """The entries of a list of the root with their numbers. One that is not shaped as the format
    says stands as None (`sound.sound_part`), and is passed over.
    """
    return ((at, entry) for at, entry in enumerate(listed) if entry is not None)


def plain_names(names: Iterable[str]) -> frozenset[str]:
    listed = list(names)
    if len(listed) > FEW and are_plain_names(listed):
        return frozenset(listed)
    return frozenset(filter(hints.NAME.match, listed))


def are_plain_names(names: list[str]) -> bool:
    """A quick yes for many names at once."""
    whole = "\n".join(names)
    return (
        bool(names)
        and whole.isascii()
        and whole.encode().translate(None, hints.NAME_LETTERS) == b"\n" * (len(names) - 1)
        and 0 < min(map(len, names)) <= max(map(len, names)) <= hints.MOST_LETTERS
    )


def odd_names(names: list[str]) -> frozenset[str]:
    """Of new names those that a refusal can be of: that are no plain names, or stand twice."""
    plain = plain_names(names)
    if len(plain) == len(names):
        return frozenset()
    twice = [name for name, count in Counter(names).items() if count > 1]
    return frozenset((*twice, *(name for name in names if name not in plain)))


def have_own_names(nodes: list[RawUser] | list[RawJob]) -> bool:
    return len(set(map(NAME_OF, nodes))) == len(nodes)


class Names:
    """The new names of a kind. `unread` are names of entries whose shape is at fault."""

    def __init__(self, listed: list[str], unread: frozenset[str]) -> None:
        self.listed, self.unread = listed, unread
        self.odd = odd_names(listed)

    @cached_property
    def known(self) -> frozenset[str]:
        return self.unread.union(self.listed)

    @cached_property
    def plain(self) -> frozenset[str]:
        return plain_names(self.known) if self.unread or self.odd else self.known


class Walk:
    """The names and numbers of a document, in the order of the walk.

    A reference to a plain name that is there, a plain new name that stands once, and a number in
    its range are no fault of any refusal, and are left out: so many tasks, a long script or many
    paths cost little. `unread` are names of entries whose shape is at fault, which are not missed.
    """

    def __init__(self, raw: Looked, unread: frozenset[str] = frozenset()) -> None:
        self.raw = raw
        self.limits = limits.limits_of(raw["version"])
        self.pieces = list(pieces_of_groups(raw))
        new = {
            "link": [link["name"] for _, link in entries(raw["links"])],
            "group": [group["name"] for _, group in entries(raw["groups"])],
            "reporter": [name for _, name in entries(raw["reporters"])],
            "task": [name for piece in self.pieces for name in map(NAME_OF, piece.nodes.tasks)],
        }
        self.names = {kind: Names(listed, unread) for kind, listed in new.items()}
        reporters = (map(REPORTER_OF, piece.nodes.tasks) for piece in self.pieces)
        self.owners = dict(zip(new["task"], chain.from_iterable(reporters)))
        # The reports of which not all are known to be by the owners of their tasks.
        self.others: list[tuple[int, Script]] = []
        self.values = list(self._values())

    def _values(self) -> Iterator[Value]:
        raw = self.raw
        yield from self._number(("version",), raw["version"], 1, limits.NEWEST)
        yield from self._number(("top",), raw["top"], 1, MOST_SHARE)
        for at, link in entries(raw["links"]):
            place = ("links", at)
            yield from self._thing(place, link, "link")
            if "owner" in link:
                yield from self._name((*place, "owner"), link["owner"], "reporter")
        yield from self._groups()
        for at, name in entries(raw["reporters"]):
            if name in self.names["reporter"].odd:
                yield Name(("reporters", at), name, "reporter", scope=("reporters",))
        yield from self._script()
        for at, closing in entries(raw.get("closings", [])):
            yield from self._name(("closings", at, "link"), closing["link"], "link")
            yield from self._number(("closings", at, "share"), closing["share"], 0, MOST_SHARE)

    def _script(self) -> Iterator[Value]:
        for start, piece in pieces_of_script(self.raw["script"]):
            demands = demands_of(piece)
            if demands is None or not self._are_of_owners(demands):
                self.others.append((start, piece))
                yield from self._reports(start, piece)

    def _are_of_owners(self, demands: Demands) -> bool:
        """A quick yes for reports that are no fault of any refusal."""
        return (
            not self.names["task"].odd
            and self.names["reporter"].plain.issuperset(demands.reporters)
            and tuple(map(self.owners.get, demands.tasks)) == demands.reporters
            and 0 <= min(demands.amounts)
            and max(demands.amounts) <= units.MOST
        )

    def _reports(self, start: int, script: Script) -> Iterator[Value]:
        """The values of some reports, of which the first has a number."""
        plain, most = {kind: names.plain for kind, names in self.names.items()}, units.MOST
        for at, report in enumerate(script, start):
            if report is None:
                continue
            if "link" in report:
                thing, name, key, amount = "link", report["link"], "capacity", report["capacity"]
            else:
                thing, name, key, amount = "task", report["task"], "demand", report["demand"]
            if (
                report["reporter"] not in plain["reporter"]
                or name not in plain[thing]
                or not 0 <= amount <= most
            ):
                place = ("script", at)
                yield from self._name((*place, "reporter"), report["reporter"], "reporter")
                yield from self._name((*place, thing), name, thing)
                yield from self._number((*place, key), amount, 0, most)

    def _thing(self, place: Place, thing: RawLink | RawGroup, kind: str) -> Iterator[Value]:
        if thing["name"] in self.names[kind].odd:
            yield Name((*place, "name"), thing["name"], kind, scope=(kind,))
        for end, site in (("from", thing["from"]), ("to", thing["to"])):
            if not hints.NAME.match(site):
                yield Name((*place, end), site, "site")

    def _groups(self) -> Iterator[Value]:
        for piece in self.pieces:
            if not self._are_plain(piece.nodes):
                for at, group in piece.entries():
                    yield from self._group(("groups", at), group)

    def _are_plain(self, nodes: Nodes) -> bool:
        """A quick yes for groups without a value that a refusal can be of."""
        groups, users, jobs = nodes.groups, nodes.users, nodes.jobs
        sites = [*map(FROM_OF, groups), *map(TO_OF, groups)]
        return (
            are_plain_names([*sites, *map(NAME_OF, users), *map(NAME_OF, jobs)])
            and self.names["group"].odd.isdisjoint(map(NAME_OF, groups))
            and all(have_own_names(group["users"]) for group in groups if len(group["users"]) > 1)
            and all(have_own_names(user["jobs"]) for user in users if len(user["jobs"]) > 1)
            and all(map(self.names["link"].plain.issuperset, map(LINKS_OF, nodes.paths)))
            and self._are_plain_tasks(nodes.tasks)
        )

    def _group(self, place: Place, group: RawGroup) -> Iterator[Value]:
        yield from self._thing(place, group, "group")
        for at, paths in enumerate(group["paths"]):
            for path_at, path in enumerate(paths):
                if not self.names["link"].plain.issuperset(path["links"]):
                    for link_at, link in enumerate(path["links"]):
                        step = (*place, "paths", at, path_at, "links", link_at)
                        yield from self._name(step, link, "link")
        users = group["users"]
        odd = odd_names([user["name"] for user in users])
        for at, user in enumerate(users):
            user_place = (*place, "users", at)
            if user["name"] in odd:
                yield Name((*user_place, "name"), user["name"], "user", scope=place)
            odd_jobs = odd_names([job["name"] for job in user["jobs"]])
            for job_at, job in enumerate(user["jobs"]):
                job_place = (*user_place, "jobs", job_at)
                if job["name"] in odd_jobs:
                    yield Name((*job_place, "name"), job["name"], "job", scope=user_place)
                yield from self._tasks((*job_place, "tasks"), job["tasks"])

    def _are_plain_tasks(self, listed: list[RawTask]) -> bool:
        """The same for tasks."""
        odd, weights = self.names["task"].odd, of_key("weight", listed)
        return (
            (not odd or odd.isdisjoint(map(NAME_OF, listed)))
            and self.names["reporter"].plain.issuperset(map(REPORTER_OF, listed))
            and (not weights or 1 <= min(weights) <= max(weights) <= MOST_WEIGHT)
        )

    def _tasks(self, place: Place, listed: list[RawTask]) -> Iterator[Value]:
        odd, reporters = self.names["task"].odd, self.names["reporter"].plain
        if self._are_plain_tasks(listed):
            return
        for at, task in enumerate(listed):
            if (
                task["name"] in odd
                or task["reporter"] not in reporters
                or ("weight" in task and not 1 <= task["weight"] <= MOST_WEIGHT)
            ):
                yield from self._task((*place, at), task)

    def _task(self, place: Place, task: RawTask) -> Iterator[Value]:
        if task["name"] in self.names["task"].odd:
            yield Name((*place, "name"), task["name"], "task", scope=("task",))
        yield from self._name((*place, "reporter"), task["reporter"], "reporter")
        if "weight" in task:
            yield from self._number((*place, "weight"), task["weight"], 1, MOST_WEIGHT)

    def _name(self, place: Place, name: str, kind: str) -> Iterator[Value]:
        if name not in self.names[kind].plain:
            yield Name(place, name, kind)

    def _number(self, place: Place, number: int, least: int, most: int) -> Iterator[Value]:
        if not least <= number <= most:
            yield Number(place, number, least, most)


class Demands(NamedTuple):
    """Reports of demands by what they say, each in the order of the reports."""

    reporters: tuple[str, ...]
    tasks: tuple[str, ...]
    amounts: tuple[int, ...]


Script = Sequence[RawReport | None]


class Piece(NamedTuple):
    """Groups that are looked at together, of which the first has a number."""

    start: int
    listed: Sequence[RawGroup | None]
    nodes: Nodes

    def entries(self) -> Iterator[tuple[int, RawGroup]]:
        return ((self.start + at, group) for at, group in entries(self.listed))


def pieces_of_groups(raw: Looked) -> Iterator[Piece]:
    """Some groups after the other."""
    for start in range(0, len(raw["groups"]), AT_ONCE):
        listed = raw["groups"][start : start + AT_ONCE]
        yield Piece(start, listed, Nodes([group for _, group in entries(listed)]))


def pieces_of_script(script: Script) -> Iterator[tuple[int, Script]]:
    """Some reports after the other, with the number of the first."""
    return ((start, script[start : start + AT_ONCE]) for start in range(0, len(script), AT_ONCE))


def demands_of(script: Script) -> Demands | None:
    """Some reports where all of them are of demands, so that they can be looked at together."""
    demands = [report for report in script if report is not None and "task" in report]
    return Demands(*zip(*map(DEMAND_OF, demands))) if len(demands) == len(script) else None


def functions(raw: Looked) -> Iterator[tuple[Place, RawFunction]]:
    """All functions with their places, in the order of the walk."""
    for at, group in entries(raw["groups"]):
        place: Place = ("groups", at)
        if "function" in group:
            yield (*place, "function"), group["function"]
        for user_at, user in enumerate(group["users"]):
            user_place = (*place, "users", user_at)
            if "function" in user:
                yield (*user_place, "function"), user["function"]
            for job_at, job in enumerate(user["jobs"]):
                job_place = (*user_place, "jobs", job_at)
                if "function" in job:
                    yield (*job_place, "function"), job["function"]
                yield (*job_place, "task"), job["task"]


def links_of_paths(groups: Iterable[RawGroup]) -> Iterator[list[str]]:
    """The links of each path."""
    return (path["links"] for group in groups for paths in group["paths"] for path in paths)


def hops(raw: Looked) -> int:
    """How many links there are over all paths."""
    return sum(map(len, links_of_paths(group for _, group in entries(raw["groups"]))))


def tasks(raw: Looked) -> Iterator[RawTask]:
    """All tasks in the order of the walk."""
    return chain.from_iterable(
        job["tasks"]
        for _, group in entries(raw["groups"])
        for user in group["users"]
        for job in user["jobs"]
    )


OF_4_BY_NAME = {
    "groups": limits.OF_4.groups,
    "hops": limits.OF_4.hops,
    "reporters": limits.OF_4.reporters,
    "script": limits.OF_4.reports,
    "closings": limits.OF_4.closings,
}


def meant_by_more(walk: Walk, count: int, most_of_4: int) -> str | None:
    """The version whose limits a document of too much was likely meant for."""
    is_older = walk.raw["version"] in (1, 2, 3)
    return f'"version":{limits.NEWEST}' if is_older and count <= most_of_4 else None


def counts_of(raw: Looked) -> tuple[int, ...]:
    """How many there are of what a version limits, in the order of `limits.Limits`."""
    return (
        len(raw["links"]),
        len(raw["groups"]),
        sum(1 for _ in tasks(raw)),
        hops(raw),
        len(raw["reporters"]),
        len(raw["script"]),
        len(raw.get("closings", ())),
    )


# ---- refusals 3 to 11: the faults of each number, in the order of the walk


def counts(walk: Walk) -> Iterator[Fault]:
    raw, most_of = walk.raw, walk.limits
    is_long = any(piece.nodes.longest_function() > MOST_POINTS for piece in walk.pieces)
    long = [found for found in functions(raw) if len(found[1]) > MOST_POINTS] if is_long else []
    found: list[tuple[str, Place, int, int]] = [
        ("groups", ("groups",), len(raw["groups"]), most_of.groups),
        *(("points", place, len(points), MOST_POINTS) for place, points in long),
        ("hops", ("groups",), sum(piece.nodes.hops() for piece in walk.pieces), most_of.hops),
        ("reporters", ("reporters",), len(raw["reporters"]), most_of.reporters),
        ("script", ("script",), len(raw["script"]), most_of.reports),
        ("closings", ("closings",), len(raw.get("closings", [])), most_of.closings),
    ]
    nouns = {
        "script": "reports",
        "hops": "links over all paths",
        "points": "points in one function",
    }
    for what, place, count, most in found:
        if count > most:
            sentence = f"{count:,} {nouns.get(what, what)} are more than {most:,}"
            meant = meant_by_more(walk, count, OF_4_BY_NAME.get(what, 0))
            yield Fault(place, sentence, meant).refused(f"3 limit {what} {count}")


def ranges(walk: Walk) -> Iterator[Fault]:
    for found in walk.values:
        line = f"4 range at {pointer(found.place)}"
        if isinstance(found, Number):
            if not found.least <= found.amount <= found.most:
                sentence = (
                    f'"{found.place[-1]}" is {found.amount}, and has to be from {found.least} to'
                    f" {found.most:,}"
                )
                yield Fault(found.place, sentence).refused(line)
        elif not hints.NAME.match(found.text):
            sentence = (
                f'"{shortened(found.text)}" is no name: those are 1 to 64 of letters, digits, -'
                " _ and ."
            )
            meant = f'"{hints.plain_name(found.text)}"'
            yield Fault(found.place, sentence, meant).refused(line)


def repeated_names(walk: Walk) -> Iterator[Fault]:
    seen: dict[tuple[Place, str], Place] = {}
    for found in walk.values:
        if isinstance(found, Number) or found.scope is None:
            continue
        first = seen.setdefault((found.scope, found.text), found.place)
        if first != found.place:
            sentence = f'{found.kind} "{found.text}" stands before, at {pointer(first)}'
            yield Fault(found.place, sentence).refused(f"5 repeated name at {pointer(found.place)}")


REFERRED = ("link", "reporter", "task")


def unknown_names(walk: Walk) -> Iterator[Fault]:
    hinted = 0
    for found in walk.values:
        if isinstance(found, Number):
            continue
        if found.scope is not None or found.kind not in REFERRED:
            continue
        known = walk.names[found.kind].known
        if found.text not in known:
            hinted += 1
            # To look for a near name among many takes long.
            most = MOST_HINTS if len(known) <= MANY else MOST_HINTS_AMONG_MANY
            meant = hints.near(found.text, known) if hinted <= most else None
            sentence = f'there is no {found.kind} "{found.text}"'
            yield Fault(found.place, sentence, meant and f'"{meant}"').refused(
                f"6 unknown name at {pointer(found.place)}"
            )


def bad_functions(walk: Walk) -> Iterator[Fault]:
    top = walk.raw["top"]
    if all(piece.nodes.have_good_functions(top, units.MOST) for piece in walk.pieces):
        return
    for place, points in functions(walk.raw):
        found = bad_point(points, top)
        if found is not None:
            point, cause, sentence = found
            where = (*place, point) if points else place
            yield Fault(where, sentence).refused(
                f"7 function at {pointer(place)} cause {cause} point {point}"
            )


def bad_point(points: RawFunction, top: int) -> tuple[int, int, str] | None:
    """The first point at fault: its number, the cause and a sentence."""
    if not points:
        return 0, 1, "a function has at least one point, [0,0]"
    if points[0] != [0, 0]:
        return 0, 2, "the first point of a function is [0,0]"
    for at, ((share0, amount0), (share, amount)) in enumerate(zip(points, points[1:]), 1):
        if share <= share0:
            return at, 3, f"the share {share} is not above {share0}, that of the point before"
        if share > top:
            return at, 4, f"the share {share} is above the top, {top}"
        if amount < amount0:
            return at, 5, f"the amount {amount} is below {amount0}, that of the point before"
        if amount > units.MOST:
            return at, 6, f"the amount {amount} is above {units.MOST:,} kb/s"
    return None


def bad_topology(walk: Walk) -> Iterator[Fault]:
    raw = walk.raw
    count, most = len(raw["links"]), walk.limits.links
    if count > most:
        sentence = f"{count:,} links are more than {most:,}"
        meant = meant_by_more(walk, count, limits.OF_4.links)
        yield Fault(("links",), sentence, meant).refused("8 topology cause 1 link 0")
    for at, link in entries(raw["links"]):
        if link["from"] == link["to"]:
            sentence = f"link \"{link['name']}\" goes from {link['from']} to itself"
            yield Fault(("links", at, "to"), sentence).refused(f"8 topology cause 3 link {at}")
        if link["capacity"] > units.MOST:
            sentence = f"the capacity {link['capacity']} is above {units.MOST:,} kb/s"
            yield Fault(("links", at, "capacity"), sentence).refused(
                f"8 topology cause 4 link {at}"
            )


class PathFault(NamedTuple):
    """What is wrong with a path or path group: the cause of refusal 9, the numbers of the path
    group and of the path, and the steps to it from `paths` of the group.
    """

    cause: int
    sentence: str
    place: int = 0
    path: int = 0
    steps: Place = ()
    meant: str | None = None


def bad_paths(walk: Walk) -> Iterator[Fault]:
    """The first path at fault of each group."""
    ends = {link["name"]: (link["from"], link["to"]) for _, link in entries(walk.raw["links"])}
    for piece in walk.pieces:
        if not have_good_paths(piece.nodes, ends):
            yield from bad_paths_of(piece, ends)


def have_good_paths(nodes: Nodes, ends: Ends) -> bool:
    """A quick yes for groups without a path at fault."""
    counts = set(map(len, nodes.path_lists)) | set(map(len, nodes.path_groups))
    weights = set(map(WEIGHT_OF, nodes.paths))
    return (
        (not counts or 1 <= min(counts) <= max(counts) <= MOST_PATHS)
        and (not weights or 1 <= min(weights) <= max(weights) <= MOST_WEIGHT)
        and nodes.have_chains(ends, MOST_PATH_LINKS)
    )


def bad_paths_of(piece: Piece, ends: Ends) -> Iterator[Fault]:
    for number, group in piece.entries():
        found = bad_path_of_group(group, ends)
        if found is not None:
            where: Place = ("groups", number, "paths", *found.steps)
            at = f"cause {found.cause} group {number} place {found.place} path {found.path}"
            yield Fault(where, found.sentence, found.meant).refused(f"9 path {at}")


def bad_path_of_group(group: RawGroup, ends: Ends) -> PathFault | None:
    """The first path at fault."""
    count = len(group["paths"])
    if count > MOST_PATHS:
        return PathFault(1, f"{count} path groups are more than {MOST_PATHS}")
    if count == 0:
        return PathFault(2, f"group \"{group['name']}\" has no path group")
    for at, paths in enumerate(group["paths"]):
        if not paths:
            return PathFault(2, "this path group has no path", at, steps=(at,))
        if len(paths) > MOST_PATHS:
            sentence = f"{len(paths)} paths in one path group are more than {MOST_PATHS}"
            return PathFault(3, sentence, at, steps=(at,))
        for path_at, path in enumerate(paths):
            found = bad_links(group, path, ends)
            if found is not None:
                return found._replace(place=at, path=path_at, steps=(at, path_at, *found.steps))
    return None


def bad_links(group: RawGroup, path: RawPath, ends: Ends) -> PathFault | None:
    """The fault of one path, with the steps from it."""
    links = path["links"]
    if len(links) > MOST_PATH_LINKS:
        sentence = f"a path of {len(links)} links is longer than {MOST_PATH_LINKS}"
        return PathFault(4, sentence, steps=("links",))
    if not 1 <= path["weight"] <= MOST_WEIGHT:
        sentence = f"the weight {path['weight']} is not from 1 to {MOST_WEIGHT:,}"
        return PathFault(5, sentence, steps=("weight",))
    if not links:
        return PathFault(6, "a path has at least one link", steps=("links",))
    if not all(map(ends.__contains__, links)):
        return None
    site = group["from"]
    for at, link in enumerate(links):
        source, target = ends[link]
        if source != site:
            sentence = f'link "{link}" begins at {source}, and the path has come to {site}'
            meant = link_from(site, target, source, ends)
            return PathFault(6, sentence, steps=("links", at), meant=meant)
        site = target
    if site != group["to"]:
        sentence = f"the path ends at {site}, and group \"{group['name']}\" goes to {group['to']}"
        meant = link_from(ends[links[-1]][0], group["to"], site, ends)
        return PathFault(6, sentence, steps=("links", len(links) - 1), meant=meant)
    if len(set(links)) == len(links):
        return None
    twice = next(link for link, count in Counter(links).items() if count > 1)
    return PathFault(7, f'link "{twice}" stands twice in a path', steps=("links",))


def link_from(site: str, target: str, other: str, ends: Ends) -> str | None:
    """A link that would go on from a site: to the target, or to the other site, where there is one."""
    found = [
        name for wanted in (target, other) for name, of in ends.items() if of == (site, wanted)
    ]
    return f'"{found[0]}"' if found else None


def bad_tree(walk: Walk) -> Iterator[Fault]:
    if not all(piece.nodes.have_children() for piece in walk.pieces):
        yield from empty_nodes(walk.raw)
    count, most = sum(len(piece.nodes.tasks) for piece in walk.pieces), walk.limits.tasks
    if count > most:
        sentence = f"{count:,} tasks are more than {most:,}"
        meant = meant_by_more(walk, count, limits.OF_4.tasks)
        yield Fault(("groups",), sentence, meant).refused("10 tree cause 2 node 0")


def empty_nodes(raw: Looked) -> Iterator[Fault]:
    number = 0
    for at, group in entries(raw["groups"]):
        for place, children in nodes_of(at, group):
            if not children:
                sentence = f'the list "{place[-1]}" is empty, and has to have at least one entry'
                yield Fault(place, sentence).refused(f"10 tree cause 1 node {number}")
            number += 1


def nodes_of(at: int, group: RawGroup) -> Iterator[tuple[Place, Sequence[object]]]:
    """The place and the children of each node of a group, in the order of the nodes' numbers."""
    yield ("groups", at, "users"), group["users"]
    for user_at, user in enumerate(group["users"]):
        place: Place = ("groups", at, "users", user_at, "jobs")
        yield place, user["jobs"]
        for job_at, job in enumerate(user["jobs"]):
            yield (*place, job_at, "tasks"), job["tasks"]


def not_owners(walk: Walk) -> Iterator[Fault]:
    links = {link["name"]: link.get("owner") for _, link in entries(walk.raw["links"])}
    for start, piece in walk.others:
        yield from not_owners_of(start, piece, links, walk.owners)


Owners = Mapping[str, str | None]


def not_owners_of(
    start: int, script: Script, links: Owners, of_tasks: Owners
) -> Iterator[Fault]:
    """The faults of some reports, of which the first has a number."""
    for at, report in enumerate(script, start):
        if report is None:
            continue
        is_link = "link" in report
        thing, name = ("link", report["link"]) if is_link else ("task", report["task"])
        owners = links if is_link else of_tasks
        if name not in owners:
            continue
        owner = owners[name]
        if owner != report["reporter"]:
            of = f'owned by "{owner}"' if owner else "without an owner"
            sentence = (
                f"{thing} \"{name}\" is {of}, and \"{report['reporter']}\" may not report it"
            )
            fault = Fault(("script", at, "reporter"), sentence, owner and f'"{owner}"')
            yield fault.refused(f"11 not owner at entry {at}")


PASSES = (
    counts,
    ranges,
    repeated_names,
    unknown_names,
    bad_functions,
    bad_topology,
    bad_paths,
    bad_tree,
    not_owners,
)


def faults(raw: Looked, unread: frozenset[str] = frozenset()) -> Iterator[Fault]:
    """The faults of a document that has its shape: by their numbers, and of one number in the order
    of the walk. The first is the one that bwe refuses the document for.
    """
    walk = Walk(raw, unread)
    return (fault for look in PASSES for fault in look(walk))


def first_fault(raw: Looked) -> Fault | None:
    return next(faults(raw), None)
