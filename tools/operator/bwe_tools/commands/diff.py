"""What changes from one document or table to another."""

from __future__ import annotations

import sys
from collections import Counter

import click

from bwe_tools.changes import (
    Change,
    Things,
    changes_between,
    things_of_document,
    things_of_table,
)
from bwe_tools.document import ToolError, parse, read_bytes
from bwe_tools.files import named
from bwe_tools.program import check_accepted
from bwe_tools.table import parse_table

COLOURS = {"+": "green", "-": "red", "~": "yellow"}


@click.command()
@click.argument("old")
@click.argument("new")
def command(old: str, new: str) -> None:
    """Say what changes from OLD to NEW, which are two documents or two tables.

    Rows begin with + for what comes, - for what goes and ~ for what changes. Of documents,
    demands and capacities are compared as they are after the script. The exit status is 0
    where nothing changes and 1 where something does.

    \b
        bwe-tools diff today.json tomorrow.json
        bwe-tools diff today.txt tomorrow.txt
    """
    (old_kind, before), (new_kind, after) = _read(old), _read(new)
    if old_kind != new_kind:
        raise ToolError(f"{old} is a {old_kind} and {new} is a {new_kind}: give two of a kind")
    changes = changes_between(before, after)
    for change in changes:
        _show(change)
    click.echo(_summary(changes))
    sys.exit(1 if changes else 0)


def _read(name: str) -> tuple[str, Things]:
    text = read_bytes(name)
    if text.lstrip()[:1] == b"{":
        check_accepted(text, named(name))
        return "document", things_of_document(parse(text, named(name)))
    if text.startswith((b"table ", b"tiers ")):
        return "table", things_of_table(parse_table(text, named(name)))
    raise ToolError(f"{named(name)} is neither a document, which begins with {{, nor a table")


def _show(change: Change) -> None:
    click.echo("  " + click.style(f"{change.sign} {change.thing}", fg=COLOURS[change.sign]))
    for line in change.lines:
        click.echo("      " + click.style(line[0], fg=COLOURS[line[0]]) + line[1:])


def _summary(changes: list[Change]) -> str:
    if not changes:
        return "No changes."
    signs = Counter(change.sign for change in changes)
    return f"\n{signs['+']} to add, {signs['~']} to change, {signs['-']} to remove."
