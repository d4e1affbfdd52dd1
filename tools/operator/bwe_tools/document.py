"""Reading and writing of documents ("The document", docs/FORMAT.md).

`parse` gives a document as dataclasses, and `to_raw` its JSON. What is no document is a ToolError:
one sentence, exit status 2, no trace. `lint` is the tool that says more, and all.
"""

from __future__ import annotations

import json
import sys
from collections.abc import Iterator, Mapping
from dataclasses import dataclass
from itertools import islice
from operator import gt
from typing import IO, Any, Optional, TypeVar

import click

from bwe_tools import json_text, rules, sound
from bwe_tools.fault import Fault
from bwe_tools.limits import BEFORE_4, NEWEST, OF_4, PLAIN, is_4, limits_of, version_of
from bwe_tools.raw import (
    RawClosing,
    RawDocument,
    RawFunction,
    RawGroup,
    RawJob,
    RawLink,
    RawPart,
    RawPath,
    RawReport,
    RawUser,
    made_group,
    made_job,
    made_task,
    made_user,
)

ENTRIES = 4_096  # of a list, to a piece of text

Function = tuple[tuple[int, int], ...]  # points of a share and an amount in kb/s


class ToolError(click.ClickException):
    """A fault that is told in one sentence on standard error, with exit status 2."""

    exit_code = 2

    def show(self, file: Optional[IO[Any]] = None) -> None:
        click.echo(f"bwe-tools: {self.format_message()}", file=file or sys.stderr)


@dataclass(frozen=True, slots=True)
class Link:
    """A directed link. Its capacity is in kb/s, as the document gives it, before any report."""

    name: str
    source: str
    target: str
    capacity: int
    owner: Optional[str] = None


@dataclass(frozen=True, slots=True)
class Path:
    weight: int
    links: tuple[str, ...]  # names, in their order


@dataclass(frozen=True, slots=True)
class Task:
    name: str
    reporter: str
    weight: int = 1


@dataclass(frozen=True, slots=True)
class Job:
    name: str
    function: Optional[Function]
    task_function: Function
    tasks: tuple[Task, ...]


@dataclass(frozen=True, slots=True)
class User:
    name: str
    function: Optional[Function]
    jobs: tuple[Job, ...]

    def tasks(self) -> Iterator[Task]:
        return (task for job in self.jobs for task in job.tasks)


@dataclass(frozen=True, slots=True)
class Group:
    name: str
    source: str
    target: str
    function: Optional[Function]
    paths: tuple[tuple[Path, ...], ...]  # path groups, in their order
    users: tuple[User, ...]

    def tasks(self) -> Iterator[Task]:
        """Its tasks in the order of the table's task lines."""
        return (task for user in self.users for task in user.tasks())


@dataclass(frozen=True, slots=True)
class Report:
    """A report of a task's demand or of a link's capacity; the other of the two names is None."""

    reporter: str
    task: Optional[str]
    link: Optional[str]
    amount: int


@dataclass(frozen=True, slots=True)
class Closing:
    link: str
    share: int


@dataclass(frozen=True, slots=True)
class Document:
    version: int
    top: int
    links: tuple[Link, ...]
    groups: tuple[Group, ...]
    reporters: tuple[str, ...]
    script: tuple[Report, ...] = ()
    closings: tuple[Closing, ...] = ()

    def tasks(self) -> Iterator[Task]:
        """All tasks in the order of the table's task lines."""
        return (task for group in self.groups for task in group.tasks())

    def sites(self) -> list[str]:
        """All sites in the order in which they are first named."""
        ends = [(link.source, link.target) for link in self.links]
        ends += [(group.source, group.target) for group in self.groups]
        return list(dict.fromkeys(site for pair in ends for site in pair))

    def capacities(self) -> dict[str, int]:
        """The capacity of each link by its name, after the whole script."""
        given = {link.name: link.capacity for link in self.links}
        return given | {
            report.link: report.amount for report in self.script if report.link is not None
        }

    def demands(self) -> dict[str, int]:
        """The demand of each task by its name, after the whole script: 0 where nothing was
        reported.
        """
        nothing = {task.name: 0 for task in self.tasks()}
        return nothing | {
            report.task: report.amount for report in self.script if report.task is not None
        }


def read_bytes(path: str) -> bytes:
    """The bytes of a file, or of standard input for `-`."""
    try:
        if path == "-":
            return sys.stdin.buffer.read(OF_4.size + 1)
        with open(path, "rb") as file:
            return file.read(OF_4.size + 1)
    except OSError as fault:
        raise ToolError(f"{path} cannot be read: {fault.strerror}") from None


def parse(data: bytes, path: str = "-") -> Document:
    """The document of some bytes; `path` is how a fault names where they come from."""
    with json_text.collector_at_rest():
        return _of_raw(parse_raw(data, path), is_given_up=True)


def parse_raw(data: bytes, path: str = "-") -> RawDocument:
    """The JSON of some bytes that are a document."""
    if len(data) > OF_4.size:
        raise ToolError(too_long(path, OF_4.size))
    try:
        raw = json_text.value_of(json_text.decoded(data))
    except json_text.NotJson as fault:
        if len(data) > BEFORE_4.size:
            raise ToolError(too_long(path, BEFORE_4.size)) from None
        raise ToolError(f"{path} is not JSON: {fault} (bwe: refused 1 not json)") from None
    if len(data) > limits_of(version_of(raw)).size:
        raise ToolError(too_long(path, BEFORE_4.size))
    first = first_fault(raw)
    if first is not None:
        raise ToolError(
            f"{path} is no document: {first.sentence} (bwe: {first.refusal}); `bwe-tools lint` says"
            " where"
        )
    document: RawDocument = raw
    return document


def too_long(path: str, most: int) -> str:
    """What to say of a document of more than so many bytes."""
    of = "" if most == OF_4.size else f" of a document that is not of version {NEWEST}"
    return f"{path} is longer than {most:,} bytes, the most that bwe reads{of}"


def first_fault(raw: object) -> Optional[Fault]:
    """The first fault of JSON that is no document, or None."""
    return next(iter(faults(raw)), None)


def faults(raw: object) -> Iterator[Fault]:
    """All faults of JSON that is no document, the one that bwe refuses it for first: those of its
    shape, and what the rules say of the entries that have theirs.
    """
    if sound.is_shaped(raw):
        yield from rules.faults(raw)
        return
    # The schema's library is slow to load, and most documents are sound.
    from bwe_tools import shape

    yield from shape.faults(raw)
    yield from rules.faults(*sound.sound_part(raw))


def of_raw(raw: RawDocument) -> Document:
    """The document of JSON that is shaped as one."""
    with json_text.collector_at_rest():
        return _of_raw(raw, is_given_up=False)


def _of_raw(raw: RawDocument, is_given_up: bool) -> Document:
    taken = _given_up if is_given_up else _kept
    return Document(
        version=raw["version"],
        top=raw["top"],
        links=tuple(map(link_of, taken(raw["links"]))),
        groups=tuple(map(group_of, taken(raw["groups"]))),
        reporters=tuple(raw["reporters"]),
        script=tuple(map(report_of, taken(raw["script"]))),
        closings=tuple(
            Closing(closing["link"], closing["share"]) for closing in raw.get("closings", [])
        ),
    )


Entry = TypeVar("Entry")


def _kept(entries: list[Entry]) -> Iterator[Entry]:
    return iter(entries)


def _given_up(entries: list[Entry]) -> Iterator[Entry]:
    """The entries of a list, of which each is given up as it is taken: a great document stands
    once in memory and not twice.
    """
    entries.reverse()
    while entries:
        yield entries.pop()


def function_of(raw: RawFunction) -> Function:
    return tuple((share, amount) for share, amount in raw)


def own_function_of(raw: RawGroup | RawUser | RawJob) -> Optional[Function]:
    return function_of(raw["function"]) if "function" in raw else None


def link_of(raw: RawLink) -> Link:
    return Link(raw["name"], raw["from"], raw["to"], raw["capacity"], raw.get("owner"))


def path_of(raw: RawPath) -> Path:
    return Path(raw["weight"], tuple(raw["links"]))


def user_of(raw: RawUser) -> User:
    return User(raw["name"], own_function_of(raw), tuple(job_of(job) for job in raw["jobs"]))


def group_of(raw: RawGroup) -> Group:
    return Group(
        name=raw["name"],
        source=raw["from"],
        target=raw["to"],
        function=own_function_of(raw),
        paths=tuple(tuple(path_of(path) for path in paths) for paths in raw["paths"]),
        users=tuple(user_of(user) for user in raw["users"]),
    )


def job_of(raw: RawJob) -> Job:
    tasks = tuple(
        Task(task["name"], task["reporter"], task.get("weight", 1)) for task in raw["tasks"]
    )
    return Job(raw["name"], own_function_of(raw), function_of(raw["task"]), tasks)


def report_of(raw: RawReport) -> Report:
    if "link" in raw:
        return Report(raw["reporter"], None, raw["link"], raw["capacity"])
    return Report(raw["reporter"], raw["task"], None, raw["demand"])


def to_raw(document: Document) -> RawDocument:
    """The JSON of a document: what `of_raw` reads back as the same document."""
    with json_text.collector_at_rest():
        raw: RawDocument = {
            "version": document.version,
            "top": document.top,
            "links": [raw_link(link) for link in document.links],
            "groups": [raw_group(group) for group in document.groups],
            "reporters": list(document.reporters),
            "script": [raw_report(report) for report in document.script],
        }
        if document.closings:
            raw["closings"] = raw_closings(document)
        return raw


def _members(document: Document) -> dict[str, object]:
    """The members of a document's JSON, in which long lists are made as they are read."""
    members: dict[str, object] = {
        "version": document.version,
        "top": document.top,
        "links": map(raw_link, document.links),
        "groups": map(raw_group, document.groups),
        "reporters": list(document.reporters),
        "script": map(raw_report, document.script),
    }
    if document.closings:
        members["closings"] = raw_closings(document)
    return members


def raw_closings(document: Document) -> list[RawClosing]:
    return [{"link": closing.link, "share": closing.share} for closing in document.closings]


def raw_link(link: Link) -> RawLink:
    raw: RawLink = {
        "name": link.name,
        "from": link.source,
        "to": link.target,
        "capacity": link.capacity,
    }
    if link.owner is not None:
        raw["owner"] = link.owner
    return raw


def raw_group(group: Group) -> RawGroup:
    paths: list[list[RawPath]] = [
        [{"weight": path.weight, "links": list(path.links)} for path in paths]
        for paths in group.paths
    ]
    users = [raw_user(user) for user in group.users]
    ends = group.source, group.target
    return made_group(group.name, ends, own_raw_function(group.function), paths, users)


def raw_user(user: User) -> RawUser:
    jobs = [raw_job(job) for job in user.jobs]
    return made_user(user.name, own_raw_function(user.function), jobs)


def raw_job(job: Job) -> RawJob:
    tasks = [made_task(task.name, task.reporter, task.weight) for task in job.tasks]
    own, each = own_raw_function(job.function), raw_function(job.task_function)
    return made_job(job.name, own, each, tasks)


def raw_function(function: Function) -> RawFunction:
    return [list(point) for point in function]


def own_raw_function(function: Optional[Function]) -> Optional[RawFunction]:
    return None if function is None else raw_function(function)


def raw_report(report: Report) -> RawReport:
    if report.link is not None:
        return {"reporter": report.reporter, "link": report.link, "capacity": report.amount}
    return {"reporter": report.reporter, "task": report.task or "", "demand": report.amount}


ENCODE = json.JSONEncoder(separators=(",", ":")).encode


def pieces(raw: Mapping[str, object]) -> Iterator[str]:
    """The text of a document, piece by piece: a line for each link, group, reporter list and
    report, so that it can be read and compared.
    """
    before = "{"
    for key, value in raw.items():
        yield f'{before}"{key}":'
        before = ",\n "
        if isinstance(value, map) or (isinstance(value, list) and has_objects(value)):
            yield from _entries(iter(value))
        else:
            yield ENCODE(value)
    yield "}\n"


def has_objects(entries: list[object]) -> bool:
    return bool(entries) and type(entries[0]) is dict


def _entries(entries: Iterator[object]) -> Iterator[str]:
    start = "[\n  "
    while piece := ",\n  ".join(map(ENCODE, islice(entries, ENTRIES))):
        yield start + piece
        start = ",\n  "
    yield "[]" if start[0] == "[" else "]"


def dump(raw: Mapping[str, object]) -> str:
    """The text of a document (`pieces`)."""
    return "".join(pieces(raw))


# ---- versions


def least_version(raw: RawDocument | RawPart) -> int:
    """The version to write for what tools made: 3, and 4 only beyond the limits of version 3."""
    counts = rules.counts_of(raw)
    return NEWEST if any(map(gt, counts, BEFORE_4)) else PLAIN


def text_of(raw: RawDocument) -> str:
    """The text of a document (`dump`); of version 4 where its own version may not be so long."""
    text = dump(raw)
    if len(text) <= limits_of(raw["version"]).size:
        return text
    return dump({**raw, "version": NEWEST})


def document_text(document: Document) -> str:
    """The text of a document (`text_of`), for which its JSON is not made as a whole."""
    text = "".join(pieces(_members(document)))
    if len(text) <= limits_of(document.version).size:
        return text
    return "".join(pieces({**_members(document), "version": NEWEST}))


def at_least_3(document: Document) -> int:
    """The version of a document that gets owners or weights: 4 where it is that already."""
    return NEWEST if is_4(document.version) else PLAIN
