"""bwe-tools from-graphml: a GraphML file, as the Topology Zoo has them, to a document."""

from __future__ import annotations

import io
from collections.abc import Mapping
from math import isfinite
from typing import Any
from xml.etree.ElementTree import ParseError

import click
import networkx

from bwe_tools import convert, units
from bwe_tools.convert import Choices
from bwe_tools.document import ToolError, read_bytes
from bwe_tools.network import Line, Network, Spot, rate
from bwe_tools.rows import read_demands

PLAIN_KEYS = ("capacity", "bandwidth", "speed")


@click.command()
@click.argument("file")
@click.option(
    "--demands", metavar="CSV", help="A spreadsheet of demands with the columns of from-csv."
)
@click.option(
    "--unit",
    type=click.Choice(["b", "k", "M", "G", "T"]),
    default="k",
    show_default=True,
    help=(
        "What a number without a unit counts, in CSV and in edges that are not the Zoo's: bit/s to"
        " Tbit/s."
    ),
)
@convert.options
def command(
    file: str, demands: str | None, unit: str, choices: Choices, map_file: str | None
) -> None:
    """Make a document of a GraphML file and write it to standard output.

    Sites are named by their labels. A link's capacity is the first of LinkSpeedRaw (bit/s),
    LinkSpeed with LinkSpeedUnits, a capacity, bandwidth or speed, and a rate in LinkLabel, as the
    Internet Topology Zoo has them; else that of --capacity. Edges get both directions. Without
    --demands each pair of sites gets the demand of --demand.

    Example: bwe-tools from-graphml examples/abilene.graphml > abilene.json
    """
    plain = unit.lower().replace("b", "")
    network = read_graph(file, plain)
    if demands is not None:
        network.demands = read_demands(demands, network, plain)
    convert.write_document(network, choices, map_file)


def read_graph(path: str, plain: str) -> Network:
    data = read_bytes(path)
    try:
        graph = networkx.read_graphml(io.BytesIO(data), force_multigraph=True)
    except ParseError as fault:
        raise ToolError(f"{path} is not XML: {fault}") from None
    except (networkx.NetworkXError, LookupError, ValueError, TypeError, StopIteration) as fault:
        raise ToolError(f"{path} is no GraphML that networkx reads: {fault}") from None
    network = Network(is_directed=graph.is_directed())
    for key, node in graph.nodes(data=True):
        network.sites[key] = str(node.get("label") or key)
        if place := place_of(node):
            network.places[key] = place
    for source, target, edge in graph.edges(data=True):
        if source == target:
            site = network.sites[source]
            click.echo(f"bwe-tools: {path}: an edge from \"{site}\" to itself is left out", err=True)
            continue
        where = f"{path}, the edge from \"{network.sites[source]}\" to \"{network.sites[target]}\""
        network.lines.append(Line(source, target, capacity_of(edge, where, plain)))
    return network


def place_of(node: Mapping[str, Any]) -> Spot | None:
    """The place of a node, where it has two numbers for it."""
    try:
        east, north = float(node["Longitude"]), float(node["Latitude"])
    except (KeyError, TypeError, ValueError):
        return None
    return (east, north) if isfinite(east) and isfinite(north) else None


def capacity_of(edge: Mapping[str, object], where: str, plain: str) -> int | None:
    """The capacity of an edge in kb/s; None where it says nothing, or 0."""
    if edge.get("LinkSpeedRaw"):
        return rate(str(edge["LinkSpeedRaw"]), where, "")
    if edge.get("LinkSpeed"):
        found = units.kilobits(f"{edge['LinkSpeed']}{edge.get('LinkSpeedUnits', '')}", plain)
        if found is not None:
            return found
    keys = {key.lower(): value for key, value in edge.items()}
    for key in PLAIN_KEYS:
        if keys.get(key):
            return rate(str(keys[key]), where, plain)
    return units.in_words(str(edge.get("LinkLabel", "")))
