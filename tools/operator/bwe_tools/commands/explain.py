"""A document and its table as a page of text."""

from __future__ import annotations

from collections.abc import Iterator

import click

from bwe_tools.columns import columns, few
from bwe_tools.document import Document, ToolError
from bwe_tools.files import named, read_document, read_table
from bwe_tools.holders import also_over, gains, held_view
from bwe_tools.program import solve, values_at_top
from bwe_tools.rate import percent, rate
from bwe_tools.table import Table
from bwe_tools.view import GroupView, LinkView, PathGroupView, View, view_of


@click.command()
@click.argument("document")
@click.argument("table", required=False)
@click.option("--group", help="Explain this group alone, and what more capacity would bring it.")
def command(document: str, table: str | None, group: str | None) -> None:
    """Say in words what DOCUMENT asks for, what each group got, and which links and functions hold
    it. Where several links hold a group at once all are named, since more capacity on one of them
    brings nothing; of more than 64 links that hold groups, --group names them for one.

    TABLE is the text that `bwe solve` or `bwe tiers` wrote for the document; without it the program
    is run.

    \b
        bwe-tools explain examples/maintenance.json
        bwe-tools explain examples/maintenance.json --group copy
    """
    text, parsed = read_document(document)
    values = values_at_top(text, named(document))
    given = solve(text, named(document)) if table is None else read_table(table)
    if group is None:
        click.echo("\n".join(_page(held_view(parsed, given, values))))
        return
    if group not in values:
        raise ToolError(f"the document has no group {group}")
    click.echo("\n".join(_page_of_group(parsed, given, values, group)))


def _page_of_group(
    document: Document, table: Table, values: dict[str, int], name: str
) -> Iterator[str]:
    view = view_of(document, table, values, also_over(document, table, [name]))
    group = next(each for each in view.groups if each.name == name)
    yield from _group(group)
    links = [
        link
        for part in group.path_groups
        if part.closed_by
        for link in (part.closed_by, *part.also)
    ]
    if not group.is_held or not links or table.tiers is not None:
        return
    yield ""
    yield "With a tenth more capacity on these links:"
    rows = [
        [" and ".join(gain.links), _gained(gain.group), _gained(gain.total)]
        for gain in gains(document, table, name, links)
    ]
    yield from columns(["links", "the group gains", "all groups gain"], rows, {1, 2})


def _gained(amount: int) -> str:
    return rate(amount) if amount >= 0 else f"-{rate(-amount)}"


def _page(view: View) -> Iterator[str]:
    asks = sum(group.asks for group in view.groups)
    part = percent(view.total, asks)
    yield f"{rate(view.total)} of {rate(asks)} asked ({part}), after {view.reports} reports"
    yield ""
    yield from _links(view.links)
    yield ""
    yield "In this order links closed, at these shares of " + str(view.top) + ":"
    yield from [f"  {closing.share:>10}  {closing.name}" for closing in view.closings] or [
        "  none did"
    ]
    for group in view.groups:
        yield ""
        yield from _group(group)
    yield ""
    yield from _held(view)


def _links(links: list[LinkView]) -> list[str]:
    rows = [
        [
            link.name,
            f"{link.source} -> {link.target}",
            rate(link.capacity),
            rate(link.load),
            percent(link.load, link.capacity),
            link.state,
        ]
        for link in links
    ]
    return columns(["link", "from and to", "capacity", "load", "full", "state"], rows, {2, 3, 4})


def _group(group: GroupView) -> Iterator[str]:
    yield f"group {group.name}, {group.source} -> {group.target}"
    below = (
        ""
        if group.demand == group.asks
        else f" (its tasks want {rate(group.demand)}, its functions allow that)"
    )
    yield f"  asks  {rate(group.asks)}{below}"
    of_asks = percent(group.amount, group.asks)
    yield f"  gets  {rate(group.amount)}, {of_asks}, at share {group.share}"
    for place, part in enumerate(group.path_groups):
        yield f"  path group {place}: {rate(part.amount)} by {_paths(part)}, {_state(part, group)}"


def _paths(part: PathGroupView) -> str:
    together = sum(weight for weight, _ in part.paths)
    texts = [
        ">".join(links) + (f" ({weight}/{together})" if len(part.paths) > 1 else "")
        for weight, links in part.paths
    ]
    return few(texts, 4)


def _state(part: PathGroupView, group: GroupView) -> str:
    if part.closed_by is None:
        return "open"
    links = " and ".join((part.closed_by, *part.also))
    return f"{'held' if group.is_held else 'closed'} by {links}"


def _held(view: View) -> Iterator[str]:
    held = [task for task in view.tasks() if task.is_held]
    if not held:
        yield "Every task has its demand."
        return
    yield f"{len(held)} of {sum(1 for _ in view.tasks())} tasks are held below their demand:"
    rows = [
        [
            f"{task.group}/{task.user}/{task.job}/{task.name}",
            rate(task.demand),
            rate(task.limit),
            percent(task.limit, task.demand),
            task.held_by,
        ]
        for task in held
    ]
    yield from columns(["task", "demand", "limit", "gets", "held by"], rows, {1, 2, 3})
