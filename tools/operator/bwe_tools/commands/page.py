"""A document and its table as an HTML page."""

from __future__ import annotations

import json
from pathlib import Path

import click

from bwe_tools.document import ToolError, read_bytes
from bwe_tools.drains import Drain, drains_from_json
from bwe_tools.files import named, read_document, read_table, write_output
from bwe_tools.holders import held_view
from bwe_tools.network_map import picture
from bwe_tools.page import page
from bwe_tools.program import solve, values_at_top
from bwe_tools.toml_file import read_toml
from bwe_tools.toml_section import Section
from bwe_tools.view import View
from bwe_tools.written import places_of


@click.command()
@click.argument("document")
@click.argument("table", required=False)
@click.option("-o", "--output", default="-", help="The file to write; standard output without it.")
@click.option("--title", help="The page's title; without it the document's name.")
@click.option("--whatif", help="Drains to list: what `whatif --json` wrote for the document.")
@click.option("--tasks", type=click.IntRange(0), default=2000, help="The most tasks in the list.")
@click.option("--sites", help="TOML with coordinates of sites, as from-toml reads it.")
@click.option("--picture", "only_picture", is_flag=True, help="Write the map alone, as SVG.")
def command(
    document: str,
    table: str | None,
    output: str,
    title: str | None,
    whatif: str | None,
    tasks: int,
    sites: str | None,
    only_picture: bool,
) -> None:
    """Draw DOCUMENT and what it is given, as one HTML page that stands alone.

    The page has the network with the load of each link, and the groups, links and tasks with what
    holds each. TABLE is the text that `bwe solve` or `bwe tiers` wrote for the document; without it
    the program is run.

    \b
        bwe-tools whatif --json examples/maintenance.json > drains.json
        bwe-tools page examples/maintenance.json --whatif drains.json -o page.html
    """
    text, parsed = read_document(document)
    values = values_at_top(text, named(document))
    given = solve(text, named(document)) if table is None else read_table(table)
    view = held_view(parsed, given, values)
    places = (
        {} if sites is None else dict(places_of(Section("", read_toml(sites)).section("sites")))
    )
    if only_picture:
        write_output(output, picture(view, places))
        return
    drains = [] if whatif is None else _read_drains(whatif, view)
    write_output(output, page(view, title or _title(document), drains, tasks, places))


def _title(document: str) -> str:
    return "Bandwidth" if document == "-" else Path(document).stem


def _read_drains(name: str, view: View) -> list[Drain]:
    try:
        whole = json.loads(read_bytes(name))
        drains = drains_from_json(whole)
        known = {link.name for link in view.links}
        if whole["total"] != view.total or not all(known.issuperset(one.links) for one in drains):
            raise ToolError(
                f"{named(name)} is of another document: make it again by `whatif --json`"
            )
        return drains
    except (ValueError, KeyError, TypeError, RecursionError):
        raise ToolError(f"{named(name)} is not what `bwe-tools whatif --json` writes") from None
