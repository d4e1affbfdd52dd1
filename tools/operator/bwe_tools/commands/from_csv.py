"""bwe-tools from-csv: spreadsheets of links and demands to a document."""

from __future__ import annotations

import click

from bwe_tools import convert
from bwe_tools.convert import Choices
from bwe_tools.document import ToolError
from bwe_tools.network import Line, Network, rate
from bwe_tools.rows import cell, read_demands, rows


@click.command()
@click.argument("links")
@click.argument("demands", required=False)
@click.option(
    "--unit",
    type=click.Choice(["k", "M", "G", "T"]),
    default="k",
    show_default=True,
    help="What a number without a unit counts: kbit/s, Mbit/s, Gbit/s or Tbit/s.",
)
@convert.options
def command(
    links: str, demands: str | None, unit: str, choices: Choices, map_file: str | None
) -> None:
    """Make a document of two spreadsheets, saved as CSV, and write it to standard output.

    LINKS has the columns from, to and capacity, and may have name and length. DEMANDS has from, to
    and demand, and may have user, job, task and weight. Separators are commas, semicolons or tabs.
    Rates are numbers, or have units, as 10G or 400 Mbit/s. A link gets its reverse, unless the
    sheet has one that way back. Without DEMANDS each pair of sites gets the demand of --demand.

    Example: bwe-tools from-csv links.csv demands.csv > network.json
    """
    network = read_links(links, unit.lower())
    if demands is not None:
        network.demands = read_demands(demands, network, unit.lower())
    convert.write_document(network, choices, map_file)


def read_links(path: str, plain: str) -> Network:
    network = Network()
    for where, row in rows(path, ("from", "to"), ("from", "to", "capacity", "name", "length")):
        source, target = cell(row, "from", where), cell(row, "to", where)
        network.sites |= {source: source, target: target}
        capacity = rate(row["capacity"], where, plain) if "capacity" in row else None
        named, reach = row.get("name"), length(row.get("length"), where)
        network.lines.append(Line(source, target, capacity, named, reach))
    return network


def length(text: str | None, where: str) -> float | None:
    if text is None:
        return None
    try:
        found = float(text)
    except ValueError:
        found = -1
    if not 0 <= found < 1e9:
        raise ToolError(f"{where}: the length \"{text}\" is no number from 0 on")
    return found
