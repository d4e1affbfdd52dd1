"""Whether a document has its shape, at once and without a reason; and what of one has it.

The schema's library says what is wrong, and takes minutes for a document of the greatest length.
Most documents are sound, and of one that is not most entries are. So many entries are looked at
together, level by level.
"""

from __future__ import annotations

from collections.abc import Iterable, Iterator
from itertools import chain
from operator import itemgetter
from typing import Any, TypeGuard, TypeVar, cast

from bwe_tools.raw import RawDocument, RawPart

LISTS = ("links", "groups", "reporters", "script", "closings")
ROOT = frozenset(("version", "top", "links", "groups", "reporters", "script"))
LINK = frozenset(("name", "from", "to", "capacity"))
GROUP = frozenset(("name", "from", "to", "paths", "users"))
PATH = frozenset(("weight", "links"))
USER = frozenset(("name", "jobs"))
JOB = frozenset(("name", "task", "tasks"))
TASK = frozenset(("name", "reporter"))
DEMAND = frozenset(("reporter", "task", "demand"))
CAPACITY = frozenset(("reporter", "link", "capacity"))
CLOSING = frozenset(("link", "share"))
FUNCTION = frozenset(("function",))
NONE: frozenset[str] = frozenset()
AT_ONCE = 128  # entries of a list that are looked at together, few enough for a cache
NAME_OF, REPORTER_OF = itemgetter("name"), itemgetter("reporter")
FROM_OF, TO_OF = itemgetter("from"), itemgetter("to")
USERS_OF, JOBS_OF, TASKS_OF = itemgetter("users"), itemgetter("jobs"), itemgetter("tasks")
PATHS_OF, WEIGHT_OF, LINKS_OF = itemgetter("paths"), itemgetter("weight"), itemgetter("links")
FUNCTION_OF, TASK_FUNCTION_OF = itemgetter("function"), itemgetter("task")
LINK_OF, CAPACITY_OF, SHARE_OF = itemgetter("link"), itemgetter("capacity"), itemgetter("share")
DEMAND_OF = itemgetter("reporter", "task", "demand")
Members = dict[str, Any]  # an object of JSON whose values were not looked at
Entry = TypeVar("Entry")
ONLY_OBJECTS, ONLY_LISTS = frozenset((dict,)), frozenset((list,))
ONLY_TEXTS, ONLY_WHOLES = frozenset((str,)), frozenset((int,))


def has(
    value: object, required: frozenset[str], optional: frozenset[str] = NONE
) -> TypeGuard[Members]:
    """Whether it is an object with these keys and no others."""
    return are_objects([value], required, optional)


def are_objects(
    values: list[Any], required: frozenset[str], optional: frozenset[str] = NONE
) -> bool:
    """Whether all are objects with these keys and no others."""
    known = required | optional
    return ONLY_OBJECTS.issuperset(map(type, values)) and all(
        required.issubset(keys) and known.issuperset(keys) for keys in set(map(tuple, values))
    )


def are_texts(values: Iterable[object]) -> bool:
    return ONLY_TEXTS.issuperset(map(type, values))


def are_wholes(values: Iterable[object]) -> bool:
    return ONLY_WHOLES.issuperset(map(type, values))


def is_whole(value: object) -> TypeGuard[int]:
    return type(value) is int


def is_list(value: object) -> TypeGuard[list[Any]]:
    return type(value) is list


def of_key(key: str, values: Iterable[Any]) -> list[Any]:
    """What stands under a key in the objects that have it."""
    return [value[key] for value in values if key in value]


def pieces_of(entries: list[Entry]) -> Iterator[list[Entry]]:
    """Some entries after the other, as many as are looked at together."""
    return (entries[at : at + AT_ONCE] for at in range(0, len(entries), AT_ONCE))


def are_lists(values: list[Any]) -> bool:
    return ONLY_LISTS.issuperset(map(type, values))


def are_functions(values: list[Any]) -> bool:
    """Whether all are functions, whose points may be at fault."""
    if not are_lists(values):
        return False
    points = list(chain.from_iterable(values))
    return (
        are_lists(points)
        and set(map(len, points)) <= {2}
        and are_wholes(chain.from_iterable(points))
    )


def are_paths(values: list[Any]) -> bool:
    """Whether all are lists of path groups."""
    if not are_lists(values) or not are_lists(groups := list(chain.from_iterable(values))):
        return False
    paths = list(chain.from_iterable(groups))
    return (
        are_objects(paths, PATH)
        and are_wholes(map(WEIGHT_OF, paths))
        and are_lists(links := list(map(LINKS_OF, paths)))
        and are_texts(chain.from_iterable(links))
    )


class Shape:
    """The shape of the objects of a version; of version 4 and an unknown one that of version 3."""

    def __init__(self, version: int) -> None:
        self.version = version
        self.link_options = NONE if version == 1 else frozenset(("owner",))
        self.task_options = NONE if version in (1, 2) else frozenset(("weight",))
        self.has_capacities = version != 1

    def are_links(self, links: list[Any]) -> bool:
        return (
            are_objects(links, LINK, self.link_options)
            and all(are_texts(map(value_of, links)) for value_of in (NAME_OF, FROM_OF, TO_OF))
            and are_texts(of_key("owner", links))
            and are_wholes(map(CAPACITY_OF, links))
        )

    def are_groups(self, groups: list[Any]) -> bool:
        return (
            are_objects(groups, GROUP, FUNCTION)
            and all(are_texts(map(value_of, groups)) for value_of in (NAME_OF, FROM_OF, TO_OF))
            and are_functions(of_key("function", groups))
            and are_paths(list(map(PATHS_OF, groups)))
            and are_lists(users := list(map(USERS_OF, groups)))
            and self.are_users(list(chain.from_iterable(users)))
        )

    def are_users(self, users: list[Any]) -> bool:
        return (
            are_objects(users, USER, FUNCTION)
            and are_texts(map(NAME_OF, users))
            and are_functions(of_key("function", users))
            and are_lists(jobs := list(map(JOBS_OF, users)))
            and self.are_jobs(list(chain.from_iterable(jobs)))
        )

    def are_jobs(self, jobs: list[Any]) -> bool:
        return (
            are_objects(jobs, JOB, FUNCTION)
            and are_texts(map(NAME_OF, jobs))
            and are_functions(of_key("function", jobs))
            and are_functions(list(map(TASK_FUNCTION_OF, jobs)))
            and are_lists(tasks := list(map(TASKS_OF, jobs)))
            and self.are_tasks(list(chain.from_iterable(tasks)))
        )

    def are_tasks(self, tasks: list[Any]) -> bool:
        return (
            are_objects(tasks, TASK, self.task_options)
            and are_texts(map(NAME_OF, tasks))
            and are_texts(map(REPORTER_OF, tasks))
            and are_wholes(of_key("weight", tasks))
        )

    def are_reports(self, script: list[Any]) -> bool:
        if are_objects(script, DEMAND):
            return self.are_demands(script)
        if not self.has_capacities or not ONLY_OBJECTS.issuperset(map(type, script)):
            return False
        demands = [report for report in script if "task" in report]
        capacities = [report for report in script if "task" not in report]
        return (
            are_objects(demands, DEMAND)
            and self.are_demands(demands)
            and are_objects(capacities, CAPACITY)
            and are_texts(map(REPORTER_OF, capacities))
            and are_texts(map(LINK_OF, capacities))
            and are_wholes(map(CAPACITY_OF, capacities))
        )

    @staticmethod
    def are_demands(reports: list[Members]) -> bool:
        """Whether the values of reports of demands have their kinds."""
        reporters, tasks, amounts = zip(*map(DEMAND_OF, reports)) if reports else ((), (), ())
        return are_texts(reporters) and are_texts(tasks) and are_wholes(amounts)

    @staticmethod
    def are_closings(closings: list[Any]) -> bool:
        return (
            are_objects(closings, CLOSING)
            and are_texts(map(LINK_OF, closings))
            and are_wholes(map(SHARE_OF, closings))
        )

    def are_sound(self, key: str, entries: list[Any]) -> bool:
        """Whether all are entries of a list of the root."""
        match key:
            case "links":
                return self.are_links(entries)
            case "groups":
                return self.are_groups(entries)
            case "script":
                return self.are_reports(entries)
            case "closings":
                return self.are_closings(entries)
            case _:
                return are_texts(entries)

    def sound_ones(self, key: str, entries: list[Any]) -> Iterator[bool]:
        """Which are entries of a list of the root."""
        for piece in pieces_of(entries):
            if self.are_sound(key, piece):
                yield from (True for _ in piece)
            else:
                yield from (self.are_sound(key, [entry]) for entry in piece)


def is_shaped(raw: object) -> TypeGuard[RawDocument]:
    """Whether the document has the shape of its version ("The document", docs/FORMAT.md)."""
    if not has(raw, ROOT, frozenset(("closings",))):
        return False
    if not (is_whole(raw["version"]) and is_whole(raw["top"])):
        return False
    shape = Shape(raw["version"])
    return all(
        is_list(entries) and all(shape.are_sound(key, piece) for piece in pieces_of(entries))
        for key, entries in ((key, raw.get(key, [])) for key in LISTS)
    )


def unsound_entries(raw: Members) -> Iterable[tuple[str, int]]:
    """The key and number of each entry of a list of the root that has not its shape."""
    shape = Shape(raw["version"] if is_whole(raw.get("version")) else 3)
    for key in LISTS:
        entries = raw[key] if is_list(raw.get(key)) else []
        for at, is_sound in enumerate(shape.sound_ones(key, entries)):
            if not is_sound:
                yield key, at


def sound_part(raw: object) -> tuple[RawPart, frozenset[str]]:
    """The document with None in the place of each entry without its shape, and what is missing or
    of another kind at the root filled in; and the names that stand in the entries left out.
    """
    root: Members = raw if isinstance(raw, dict) else {}
    version, top = root.get("version"), root.get("top")
    shape = Shape(version if is_whole(version) else 3)
    lists: dict[str, list[object]] = {}
    left_out: list[object] = []
    for key in LISTS:
        given = root.get(key, [])
        if not is_list(given):
            left_out.append(given)
            given = []
        are_sound = list(shape.sound_ones(key, given))
        lists[key] = [entry if sound else None for entry, sound in zip(given, are_sound)]
        left_out += [entry for entry, sound in zip(given, are_sound) if not sound]
    part: Members = {"version": shape.version, "top": top if is_whole(top) else 1_000_000_000}
    return cast(RawPart, part | lists), frozenset(names_in(left_out))


def names_in(value: object) -> Iterable[str]:
    """All texts in a value, whatever they stand for."""
    if isinstance(value, str):
        yield value
    elif isinstance(value, (list, dict)):
        for member in value.values() if isinstance(value, dict) else value:
            yield from names_in(member)
