"""What stands in some groups of a document, of each level all one after the other: so the looks of
`rules` at a million tasks take a few steps of Python.
"""

from __future__ import annotations

from collections import defaultdict
from collections.abc import Iterable, Mapping
from itertools import chain
from operator import le, lt
from typing import TypeVar

from bwe_tools.raw import RawFunction, RawGroup, RawJob, RawPath, RawTask, RawUser
from bwe_tools.sound import (
    JOBS_OF,
    LINKS_OF,
    PATHS_OF,
    TASK_FUNCTION_OF,
    TASKS_OF,
    USERS_OF,
    of_key,
)

Entry = TypeVar("Entry")
Way = tuple[str, str, list[str]]  # the ends of a group, and the links of a path of it


def joined(lists: Iterable[list[Entry]]) -> list[Entry]:
    return list(chain.from_iterable(lists))


class Nodes:
    """Groups that have their shape, and their paths, users, jobs, tasks and functions. The
    functions stand in any order.
    """

    def __init__(self, groups: list[RawGroup]) -> None:
        self.groups = groups
        self.path_lists: list[list[list[RawPath]]] = list(map(PATHS_OF, groups))
        self.path_groups = joined(self.path_lists)
        self.paths = joined(self.path_groups)
        self.users: list[RawUser] = joined(map(USERS_OF, groups))
        self.jobs: list[RawJob] = joined(map(JOBS_OF, self.users))
        self.tasks: list[RawTask] = joined(map(TASKS_OF, self.jobs))
        self.functions: list[RawFunction] = [
            *of_key("function", chain(groups, self.users, self.jobs)),
            *map(TASK_FUNCTION_OF, self.jobs),
        ]

    def have_children(self) -> bool:
        """Whether each group has users, each user jobs and each job tasks."""
        return (
            all(map(USERS_OF, self.groups))
            and all(map(JOBS_OF, self.users))
            and all(map(TASKS_OF, self.jobs))
        )

    def hops(self) -> int:
        """How many links there are over all paths."""
        return sum(map(len, map(LINKS_OF, self.paths)))

    def longest_function(self) -> int:
        return max(map(len, self.functions), default=0)

    def have_good_functions(self, top: int, most: int) -> bool:
        """Whether no point of a function is at fault, for amounts of at most so many."""
        by_length: defaultdict[int, list[RawFunction]] = defaultdict(list)
        for points in self.functions:
            by_length[len(points)].append(points)
        return 0 not in by_length and all(
            are_good_functions(alike, count, top, most) for count, alike in by_length.items()
        )

    def have_chains(self, ends: Mapping[str, tuple[str, str]], most: int) -> bool:
        """Whether the links of each path are known, lead from one end of its group to the other,
        stand once in it, and are at least one and at most so many.
        """
        by_length: defaultdict[int, list[Way]] = defaultdict(list)
        for group in self.groups:
            source, target = group["from"], group["to"]
            for paths in group["paths"]:
                for path in paths:
                    links = path["links"]
                    by_length[len(links)].append((source, target, links))
        return max(by_length, default=0) <= most and all(
            are_chains(alike, count, ends) for count, alike in by_length.items()
        )


def are_good_functions(functions: list[RawFunction], count: int, top: int, most: int) -> bool:
    """Whether no point of some functions of so many points is at fault."""
    numbers = joined(chain.from_iterable(functions))
    shares, amounts = (
        [numbers[at :: 2 * count] for at in range(first, 2 * count, 2)] for first in (0, 1)
    )
    return (
        not any(shares[0])
        and not any(amounts[0])
        and all(all(map(lt, before, after)) for before, after in zip(shares, shares[1:]))
        and all(all(map(le, before, after)) for before, after in zip(amounts, amounts[1:]))
        and max(shares[-1]) <= top
        and max(amounts[-1]) <= most
    )


def are_chains(ways: list[Way], count: int, ends: Mapping[str, tuple[str, str]]) -> bool:
    """Whether some paths of so many links lead from one end to the other, over each link once."""
    sites, targets, paths = zip(*ways)
    for links in zip(*paths):
        try:
            sources, reached = zip(*map(ends.__getitem__, links))
        except KeyError:
            return False
        if sources != sites:
            return False
        sites = reached
    return count > 0 and sites == targets and set(map(len, map(set, paths))) == {count}
