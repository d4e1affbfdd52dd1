"""What is left when links are drained, or capacities or demands are other ones."""

from __future__ import annotations

import json

import click

from bwe_tools.columns import columns, few
from bwe_tools.document import Document, ToolError
from bwe_tools.drains import Drain, drains_of, drains_to_json, two_ways
from bwe_tools.files import read_document
from bwe_tools.progress import Progress
from bwe_tools.questions import (
    Question,
    drain,
    other_capacity,
    other_demand,
    pairs,
    read_risk_groups,
    together,
)
from bwe_tools.rate import rate
from bwe_tools.table import Table


@click.command()
@click.argument("document")
@click.argument("links", nargs=-1)
@click.option("--two-ways", "both", is_flag=True, help="Drain a link together with its link back.")
@click.option(
    "--srlg",
    "risks",
    metavar="FILE",
    help="Drain the groups of links that FILE lists, a row NAME LINK LINK .. for each.",
)
@click.option("--capacity", "capacities", multiple=True, metavar="LINK=RATE", help="As LINK=80G.")
@click.option(
    "--demand", "demands", multiple=True, metavar="GROUP=RATE", help="As GROUP=x1.5, or GROUP=12G."
)
@click.option("--pairs", "in_pairs", is_flag=True, help="Ask about each two at once.")
@click.option("--together", "at_once", is_flag=True, help="Ask about all at once.")
@click.option("--most", type=click.IntRange(1), help="Write no more than so many.")
@click.option("--json", "as_json", is_flag=True, help="Write JSON, which `page --whatif` reads.")
def command(
    document: str,
    links: tuple[str, ...],
    both: bool,
    risks: str | None,
    capacities: tuple[str, ...],
    demands: tuple[str, ...],
    in_pairs: bool,
    at_once: bool,
    most: int | None,
    as_json: bool,
) -> None:
    """Drain every link of DOCUMENT in turn, or LINKS, and write what each drain costs.

    With --capacity and --demand, that is asked, and of links only what is named. Each is asked by
    itself, with --pairs each two at once (two failures), with --together all as one. A drain is a
    report of capacity 0.

    Written are the total after it, the groups that had something and get nothing, and the tasks
    whose limit falls by more than a tenth; the greatest loss comes first. The tables are those of
    `bwe-live`, of which some work side by side.

    \b
        bwe-tools whatif examples/maintenance.json
        bwe-tools whatif examples/maintenance.json --together fra-ams-2 par-ams
        bwe-tools whatif examples/geant.json --pairs --two-ways --most 20
        bwe-tools whatif examples/maintenance.json --capacity par-ams=80G --demand copy=x1.5
    """
    _, parsed = read_document(document)
    asked = [other_capacity(parsed, text) for text in capacities]
    asked += [other_demand(parsed, text) for text in demands]
    if links or both or risks is not None or not asked:
        asked += _drains(parsed, list(dict.fromkeys(links)), both, risks)
    if at_once and not links and not capacities and not demands:
        raise ToolError("--together asks about what is named, and nothing is")
    if at_once:
        asked = [_in_order(parsed, together(asked))]
    elif in_pairs:
        asked = pairs(asked)
    with Progress("whatif: questions that are answered") as progress:
        before, drains = drains_of(parsed, asked, progress)
    if most is not None or not as_json:
        drains = sorted(drains, key=lambda drain: -drain.lost)[:most]
    if as_json:
        click.echo(json.dumps(drains_to_json(before, drains), indent=1))
    else:
        click.echo("\n".join(_page(before, drains)))


def _drains(document: Document, links: list[str], both: bool, risks: str | None) -> list[Question]:
    """The drains that are asked about: of each link or fibre, of those that are named, or of the
    groups of a file; of fibres and groups those with a link that is named.
    """
    names = [link.name for link in document.links]
    for link in links:
        if link not in names:
            raise ToolError(f"the document has no link {link}")
    if risks is not None:
        choices = read_risk_groups(risks, document)
    elif both:
        choices = [drain(fibre) for fibre in two_ways(document)]
    else:
        return [drain([link]) for link in links or names]
    return [one for one in choices if not links or one.capacities.keys() & set(links)]


def _in_order(document: Document, question: Question) -> Question:
    """The question with its links in the document's order."""
    capacities = {
        link.name: question.capacities[link.name]
        for link in document.links
        if link.name in question.capacities
    }
    return Question(question.name, capacities, question.demands)


def _page(before: Table, drains: list[Drain]) -> list[str]:
    rows = [
        [
            drain.name,
            rate(drain.load),
            rate(drain.total),
            _change(drain.lost),
            few(drain.groups_with_nothing) or "-",
            _losses(drain),
        ]
        for drain in drains
    ]
    heads = [
        "changed",
        "carried",
        "total after",
        "change",
        "groups with nothing",
        "tasks that lose a tenth",
    ]
    return [f"total without a change: {rate(before.total)}", "", *columns(heads, rows, {1, 2, 3})]


def _change(lost: int) -> str:
    return "0" if lost == 0 else ("-" if lost > 0 else "+") + rate(abs(lost))


def _losses(drain: Drain) -> str:
    if not drain.losses:
        return "-"
    return f"{len(drain.losses)}: {few([loss.task for loss in drain.losses])}"
