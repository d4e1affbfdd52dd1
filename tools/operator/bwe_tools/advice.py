"""Warnings on a document that bwe accepts: what is allowed, and likely not meant."""

from __future__ import annotations

import re
from collections import defaultdict
from collections.abc import Iterable, Iterator
from dataclasses import dataclass

from bwe_tools.raw import Place, RawDocument, RawFunction, RawGroup, RawJob, RawPath, RawUser
from bwe_tools.rules import tasks
from bwe_tools.sound import NAME_OF

# The rates of common lines, in kb/s.
WHOLE_LINES = {1_000_000 * gigabits for gigabits in (1, 10, 25, 40, 50, 100, 200, 400, 800)}


@dataclass(frozen=True)
class Advice:
    place: Place
    sentence: str


def unreported_tasks(raw: RawDocument) -> Iterator[Advice]:
    reported = {report["task"] for report in raw["script"] if "task" in report}
    # Each task that is reported is there, and stands once.
    if len(reported) == sum(1 for _ in tasks(raw)):
        return
    for group_at, group in enumerate(raw["groups"]):
        for user_at, user in enumerate(group["users"]):
            for job_at, job in enumerate(user["jobs"]):
                if reported.issuperset(map(NAME_OF, job["tasks"])):
                    continue
                for at, task in enumerate(job["tasks"]):
                    if task["name"] not in reported:
                        place = ("groups", group_at, "users", user_at, "jobs", job_at, "tasks")
                        sentence = (
                            f'task "{task["name"]}" has no report, so its demand is 0 and it gets'
                            " nothing"
                        )
                        yield Advice((*place, at), sentence)


def unused_links(raw: RawDocument) -> Iterator[Advice]:
    used = {
        link
        for group in raw["groups"]
        for paths in group["paths"]
        for path in paths
        for link in path["links"]
    }
    for at, link in enumerate(raw["links"]):
        if link["name"] not in used:
            yield Advice(("links", at), f'link "{link["name"]}" is in no path')


def links_of(paths: list[RawPath]) -> set[str]:
    return {link for path in paths for link in path["links"]}


def path_groups(raw: RawDocument) -> Iterator[Advice]:
    """Groups with one path group, path groups that fall together, and path groups of several paths
    that leave none of them.
    """
    for at, group in enumerate(raw["groups"]):
        place, links = ("groups", at, "paths"), [links_of(paths) for paths in group["paths"]]
        if len(links) == 1:
            yield Advice(
                place,
                (
                    f'group "{group["name"]}" has one path group: where a link of it closes, it gets'
                    " no more"
                ),
            )
        elif common := set.intersection(*links):
            sentence = (
                f'all path groups of group "{group["name"]}" fall together where'
                f" {named(common)} closes"
            )
            yield Advice(place, sentence)
        for number, paths in enumerate(group["paths"]):
            if len(paths) == 1:
                continue
            alone = [any(other <= set(path["links"]) for other in links) for path in paths]
            if not all(alone):
                sentence = (
                    f'path group {number} of group "{group["name"]}" falls whole with any of its'
                    f" links, and its path {alone.index(False)} is no path group by itself"
                )
                yield Advice((*place, number), sentence)


def uneven_paths(raw: RawDocument) -> Iterator[Advice]:
    """Path groups that split evenly over paths of unlike length or capacity."""
    capacities = {link["name"]: link["capacity"] for link in raw["links"]}
    for at, group in enumerate(raw["groups"]):
        for number, paths in enumerate(group["paths"]):
            if len(paths) == 1:
                continue
            is_even = len({path["weight"] for path in paths}) == 1
            lengths = {len(path["links"]) for path in paths}
            narrowest = {min(capacities[link] for link in path["links"]) for path in paths}
            if is_even and (len(lengths) > 1 or len(narrowest) > 1):
                unlike = "lengths" if len(lengths) > 1 else "capacities"
                sentence = (
                    f'path group {number} of group "{group["name"]}" splits evenly over paths of'
                    f" unlike {unlike}, so the poorest of them stops all"
                )
                yield Advice(("groups", at, "paths", number), sentence)


def steps_below_a_function(raw: RawDocument) -> Iterator[Advice]:
    """Task functions that rise by more than half of all that they give within one share, below a
    function of a job, user or group: such a function has no value between the two amounts, and
    gives nothing until it reaches the upper one.
    """
    for at, group in enumerate(raw["groups"]):
        for user_at, user in enumerate(group["users"]):
            for job_at, job in enumerate(user["jobs"]):
                above = function_above(group, user, job)
                step = steepest_step(job["task"]) if above else None
                if step:
                    place = ("groups", at, "users", user_at, "jobs", job_at, "task")
                    sentence = (
                        f'the task function of job "{job["name"]}" rises from {step[0]} to'
                        f" {step[1]} kb/s within one share, so the function of {above} gives its"
                        " tasks nothing in between"
                    )
                    yield Advice(place, sentence)


def function_above(group: RawGroup, user: RawUser, job: RawJob) -> str | None:
    """Whose function stands next above that of a job's tasks."""
    if "function" in job:
        return f'job "{job["name"]}"'
    if "function" in user:
        return f'user "{user["name"]}"'
    return f'group "{group["name"]}"' if "function" in group else None


def steepest_step(points: RawFunction) -> tuple[int, int] | None:
    """The two amounts between which a function rises within one share by more than half of all."""
    for (share0, amount0), (share, amount) in zip(points, points[1:]):
        if share == share0 + 1 and 2 * (amount - amount0) > points[-1][1] > 1:
            return amount0, amount
    return None


def whole_lines(raw: RawDocument) -> Iterator[Advice]:
    """The first link with the whole rate of a common line: packets need some of it for headers."""
    found = [at for at, link in enumerate(raw["links"]) if link["capacity"] in WHOLE_LINES]
    if found:
        link = raw["links"][found[0]]
        others = f" (and {len(found) - 1} more links)" if len(found) > 1 else ""
        sentence = (
            f'link "{link["name"]}" has the whole rate of a line{others}; where hosts keep to'
            " limits, some 97 % of it leave room for headers and keep queues short"
        )
        yield Advice(("links", found[0], "capacity"), sentence)


def named(links: Iterable[str]) -> str:
    first, *others = sorted(links)
    return f'link "{first}"' + (f" (or one of {len(others)} more)" if others else "")


def neighbours(raw: RawDocument) -> dict[str, set[str]]:
    """The sites that a link joins to each site."""
    ends = [(link["from"], link["to"]) for link in raw["links"]]
    ends += [(group["from"], group["to"]) for group in raw["groups"]]
    found: dict[str, set[str]] = {site: set() for pair in ends for site in pair}
    for link in raw["links"]:
        found[link["from"]].add(link["to"])
        found[link["to"]].add(link["from"])
    return found


def is_one_slip(word: str, other: str) -> bool:
    """Whether one letter was left out, doubled, changed or exchanged with the next one. Digits
    count for numbers, not slips.
    """
    if re.findall(r"\d+", word) != re.findall(r"\d+", other) or abs(len(word) - len(other)) > 1:
        return False
    start = next(
        (at for at, (one, two) in enumerate(zip(word, other)) if one != two),
        min(len(word), len(other)),
    )
    rest, others = word[start:], other[start:]
    return (
        rest[1:] in (others, others[1:])
        or rest == others[1:]
        or rest[:2][::-1] + rest[2:] == others
    )


def misspelt_sites(raw: RawDocument) -> Iterator[Advice]:
    """Sites whose names differ in case or separators alone, and sites at an end that are one slip
    away from another.
    """
    around = neighbours(raw)
    sites = list(around)
    first_use: dict[str, Place] = {}
    for at, link in enumerate(raw["links"]):
        for end, name in (("from", link["from"]), ("to", link["to"])):
            first_use.setdefault(name, ("links", at, end))
    alike: defaultdict[Likeness, list[int]] = defaultdict(list)
    for number, site in enumerate(sites):
        keys = set(keys_of_likeness(site))
        for other in map(sites.__getitem__, sorted({at for key in keys for at in alike[key]})):
            is_same = plain(site) == plain(other)
            few = site if len(around[site]) <= len(around[other]) else other
            is_end = len(around[few]) == 1 and len(few) > 2 and other not in around[site]
            if is_same or (is_end and is_one_slip(site.lower(), other.lower())):
                wrong = few if is_end else site
                right = other if wrong == site else site
                yield Advice(first_use[wrong], f'site "{wrong}" looks like a misspelt "{right}"')
        for key in keys:
            alike[key].append(number)


# Numbers of a site's name, and the name without them or a letter of it.
Likeness = tuple[tuple[str, ...], str]


def keys_of_likeness(site: str) -> Iterator[Likeness]:
    """Two sites that differ in case and separators alone, or by one slip, have one of these in
    common: so each site is looked at beside few others.
    """
    word = site.lower()
    numbers = tuple(re.findall(r"\d+", word))
    yield ("plain",), plain(site)
    yield numbers, word
    for at, letter in enumerate(word):
        if not letter.isdigit():
            yield numbers, word[:at] + word[at + 1 :]


def plain(site: str) -> str:
    return re.sub(r"[-_.]", "", site).lower()


def warnings(raw: RawDocument) -> list[list[Advice]]:
    """All warnings, a list for each kind."""
    kinds = (
        unreported_tasks,
        unused_links,
        path_groups,
        uneven_paths,
        steps_below_a_function,
        misspelt_sites,
        whole_lines,
    )
    return [list(kind(raw)) for kind in kinds]
