"""Documents made of a network and demands."""

from __future__ import annotations

from collections.abc import Iterable, Mapping
from dataclasses import replace

from bwe_tools.document import (
    Document,
    Group,
    Job,
    Link,
    Path,
    Report,
    Task,
    User,
    least_version,
    to_raw,
)
from bwe_tools.routes import Routes

HOSTS, OWNER = "hosts", "noc"
Pair = tuple[str, str]


def path_groups(
    links: Iterable[Link], source: str, target: str, most: int = 4
) -> tuple[tuple[Path, ...], ...]:
    """The shortest paths from site to site by the number of links, each a path group."""
    return _path_groups(_routes(links), source, target, most)


def _routes(links: Iterable[Link]) -> Routes:
    return Routes([(link.name, link.source, link.target) for link in links])


def _path_groups(
    routes: Routes, source: str, target: str, most: int
) -> tuple[tuple[Path, ...], ...]:
    ways = routes.between(source, target, most)
    return tuple((Path(1, tuple(way)),) for way in ways)


def document_of(
    links: Iterable[Link],
    demands: Mapping[Pair, int],
    paths: int = 4,
    top: int = 1_000_000,
) -> Document:
    """A document with a group of one task for each pair of sites with a demand in kb/s.

    At a share each task may have the same rate, up to its demand. Groups and tasks are called
    SOURCE_TARGET. Links without an owner get one, so that `Live` can report their capacities. A
    pair without a path is left out.
    """
    owned = tuple(replace(link, owner=link.owner or OWNER) for link in links)
    routes = _routes(owned)
    function = ((0, 0), (top, max(demands.values(), default=1) or 1))
    groups, script = [], []
    for (source, target), demand in demands.items():
        ways = _path_groups(routes, source, target, paths)
        if ways:
            name = f"{source}_{target}"
            job = Job("all", None, function, (Task(name, HOSTS),))
            users = (User("all", None, (job,)),)
            groups.append(Group(name, source, target, None, ways, users))
            script.append(Report(HOSTS, name, None, demand))
    owners = dict.fromkeys([HOSTS, *(link.owner or OWNER for link in owned)])
    made = Document(3, top, owned, tuple(groups), tuple(owners), tuple(script))
    return replace(made, version=least_version(to_raw(made)))


def with_demands(document: Document, demands: Mapping[str, int]) -> Document:
    """The document with demands by task in kb/s in place of its script's; tasks that they do not
    name have none. Capacities that the script reports stay.
    """
    owners = {task.name: task.reporter for task in document.tasks()}
    capacities = tuple(report for report in document.script if report.link is not None)
    reports = tuple(Report(owners[task], task, None, demand) for task, demand in demands.items())
    return replace(document, script=capacities + reports)
