"""bwe-tools to-toml: a document to TOML, as from-toml reads it."""

from __future__ import annotations

from collections.abc import Iterator
from decimal import Decimal

import click

from bwe_tools.document import Document, Function, Group, Job, Link, Path, User
from bwe_tools.files import read_document


@click.command()
@click.argument("document", default="-")
def command(document: str) -> None:
    """Write DOCUMENT as TOML, which `from-toml` makes a document of again: with the same links,
    groups, functions and closings, and with the last report of each task and link, so that its
    table is the same but for its number of reports. Sites have no coordinates: add them by hand.

    Example: bwe-tools to-toml examples/maintenance.json > maintenance.toml
    """
    _, parsed = read_document(document)
    click.echo("\n".join(_lines(parsed)))


def _lines(document: Document) -> Iterator[str]:
    demands, capacities = document.demands(), document.capacities()
    reported = {report.task or report.link for report in document.script}
    yield f"top = {document.top}"
    for link in document.links:
        yield ""
        yield from _link(link, capacities[link.name] if link.name in reported else None)
    asked = {name: amount for name, amount in demands.items() if name in reported}
    for group in document.groups:
        yield ""
        yield from _group(group, asked)
    for closing in document.closings:
        yield from ["", "[[closings]]", f'link = "{closing.link}"', f"share = {closing.share}"]


def _link(link: Link, reported: int | None) -> Iterator[str]:
    yield from ["[[links]]", f'name = "{link.name}"']
    yield from [f'from = "{link.source}"', f'to = "{link.target}"']
    yield f"capacity = {_rate(link.capacity)}"
    if link.owner != "noc":
        yield f'owner = "{link.owner or ""}"'
    if reported is not None:
        yield f"reported = {_rate(reported)}"


def _group(group: Group, asked: dict[str, int]) -> Iterator[str]:
    yield from ["[[groups]]", f'name = "{group.name}"']
    yield from [f'from = "{group.source}"', f'to = "{group.target}"']
    yield from _function("function", group.function)
    yield "paths = ["
    for paths in group.paths:
        yield f"  {_path_group(paths)},"
    yield "]"
    for user in group.users:
        yield from _user(user, asked)


def _path_group(paths: tuple[Path, ...]) -> str:
    if len(paths) == 1 and paths[0].weight == 1:
        return _texts(paths[0].links)
    whole = (f"{{ weight = {path.weight}, links = {_texts(path.links)} }}" for path in paths)
    return f"[{', '.join(whole)}]"


def _user(user: User, asked: dict[str, int]) -> Iterator[str]:
    yield from ["[[groups.users]]", f'name = "{user.name}"']
    yield from _function("function", user.function)
    for job in user.jobs:
        yield from _job(job, asked)


def _job(job: Job, asked: dict[str, int]) -> Iterator[str]:
    yield from ["[[groups.users.jobs]]", f'name = "{job.name}"']
    yield from _function("function", job.function)
    yield from _function("task", job.task_function)
    yield "tasks = ["
    for task in job.tasks:
        parts = [f'name = "{task.name}"', f'reporter = "{task.reporter}"']
        if task.weight != 1:
            parts.append(f"weight = {task.weight}")
        if task.name in asked:
            parts.append(f"demand = {_rate(asked[task.name])}")
        yield f"  {{ {', '.join(parts)} }},"
    yield "]"


def _function(key: str, points: Function | None) -> Iterator[str]:
    if points is not None:
        whole = ", ".join(f"[{share}, {_rate(amount)}]" for share, amount in points)
        yield f"{key} = [{whole}]"


def _texts(names: tuple[str, ...]) -> str:
    return "[" + ", ".join(f'"{name}"' for name in names) + "]"


def _rate(kilobits: int) -> str:
    """A rate as people write it, and exactly: with a unit where it is short so."""
    for unit, size in (("T", 10**9), ("G", 10**6), ("M", 10**3)):
        amount = Decimal(kilobits) / size
        if kilobits >= size and len(f"{amount.normalize():f}") <= 5:
            return f'"{amount.normalize():f}{unit}"'
    return str(kilobits)
