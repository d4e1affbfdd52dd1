"""The JSON of a document as types ("The document", docs/FORMAT.md).

`sound.is_shaped` tells whether a value is a `RawDocument`. What is written of the others holds of
JSON that it says yes to, and of what the tools make.
"""

from __future__ import annotations

from typing import NotRequired, Required, TypedDict

# The steps from the root to a value: keys of objects and numbers of entries.
Place = tuple[str | int, ...]
# A function: points of a share and an amount in kb/s.
RawFunction = list[list[int]]

RawLink = TypedDict(
    "RawLink", {"name": str, "from": str, "to": str, "capacity": int, "owner": NotRequired[str]}
)


class RawPath(TypedDict):
    weight: int
    links: list[str]  # names, in their order


class RawTask(TypedDict):
    name: str
    reporter: str
    weight: NotRequired[int]


class RawJob(TypedDict):
    name: str
    function: NotRequired[RawFunction]
    task: RawFunction
    tasks: list[RawTask]


class RawUser(TypedDict):
    name: str
    function: NotRequired[RawFunction]
    jobs: list[RawJob]


RawPaths = list[list[RawPath]]  # path groups, in their order

RawGroup = TypedDict(
    "RawGroup",
    {
        "name": str,
        "from": str,
        "to": str,
        "function": NotRequired[RawFunction],
        "paths": RawPaths,
        "users": list[RawUser],
    },
)


class RawReport(TypedDict, total=False):
    """A report of a task's demand or of a link's capacity, in kb/s."""

    reporter: Required[str]
    task: str
    demand: int
    link: str
    capacity: int


class RawClosing(TypedDict):
    link: str
    share: int


class RawDocument(TypedDict):
    version: int
    top: int
    links: list[RawLink]
    groups: list[RawGroup]
    reporters: list[str]
    script: list[RawReport]
    closings: NotRequired[list[RawClosing]]


class RawPart(TypedDict):
    """A document in which an entry that is not shaped as the format says stands as None."""

    version: int
    top: int
    links: list[RawLink | None]
    groups: list[RawGroup | None]
    reporters: list[str | None]
    script: list[RawReport | None]
    closings: NotRequired[list[RawClosing | None]]


# ---- objects that may have a function of their own, with their keys in the format's order


def made_group(
    name: str,
    ends: tuple[str, str],
    function: RawFunction | None,
    paths: RawPaths,
    users: list[RawUser],
) -> RawGroup:
    source, target = ends
    if function is None:
        return {"name": name, "from": source, "to": target, "paths": paths, "users": users}
    return {
        "name": name,
        "from": source,
        "to": target,
        "function": function,
        "paths": paths,
        "users": users,
    }


def made_user(name: str, function: RawFunction | None, jobs: list[RawJob]) -> RawUser:
    if function is None:
        return {"name": name, "jobs": jobs}
    return {"name": name, "function": function, "jobs": jobs}


def made_job(
    name: str, function: RawFunction | None, task: RawFunction, tasks: list[RawTask]
) -> RawJob:
    if function is None:
        return {"name": name, "task": task, "tasks": tasks}
    return {"name": name, "function": function, "task": task, "tasks": tasks}


def made_task(name: str, reporter: str, weight: int) -> RawTask:
    if weight == 1:
        return {"name": name, "reporter": reporter}
    return {"name": name, "reporter": reporter, "weight": weight}
