"""A table beside the best that its document's paths allow."""

from __future__ import annotations

import json
from collections.abc import Iterator
from typing import Any

import click

from bwe_tools.columns import columns, few
from bwe_tools.comparison import Comparison, Optimum, compare
from bwe_tools.document import Document
from bwe_tools.files import named, read_document, read_table
from bwe_tools.losses import GroupLoss
from bwe_tools.program import solve
from bwe_tools.progress import Progress
from bwe_tools.rate import rate
from bwe_tools.table import Table
from bwe_tools.view import check_that_they_fit

MOST_OTHERS = 3


@click.command()
@click.argument("document")
@click.argument("table", required=False)
@click.option("--groups", default=10, type=click.IntRange(0), help="The most groups to list.")
@click.option("--json", "as_json", is_flag=True, help="Write JSON.")
def command(document: str, table: str | None, groups: int, as_json: bool) -> None:
    """Say how good the table of DOCUMENT is beside the best over the same paths.

    TABLE is the text that `bwe solve` wrote for the document; without it the program is run. It is
    compared with the most possible throughput and with exact max-min fairness, both found by linear
    programs that may split a group over its paths at will: the order of path groups and the
    weights of paths do not bind them. Max-min is in fair shares: the least share is as great as
    can be, then the second least, and so on, and a group has what its functions give at its share.
    Where these are lines, that is max-min weighted by their slopes.

    Written are throughput, fairness (the geometric mean of min(x/x*, x*/x), where x is a group's
    amount and x* that of max-min), Jain's index of x/x*, and the groups that lose most: the link
    that stopped each, and the groups that load it more than under max-min and had another way.

    \b
        bwe-tools quality examples/geant.json
    """
    text, parsed = read_document(document)
    given = solve(text, named(document)) if table is None else read_table(table)
    check_that_they_fit(parsed, given)
    with Progress("max-min: groups that are fixed") as progress:
        found = compare(parsed, given, progress)
    if as_json:
        click.echo(json.dumps(_json(found, groups), indent=1))
    else:
        click.echo("\n".join(_page(parsed, given, found, groups)))


def _page(document: Document, table: Table, found: Comparison, most: int) -> Iterator[str]:
    optimum, measured = found.optimum, found.measures
    yield from columns(
        ["", "throughput", "of the most possible"],
        [
            ["this table", rate(table.total), _percent(measured.of_most)],
            *_optima(optimum, measured.fair_throughput),
            ["asked for", rate(round(optimum.asks.sum())), ""],
        ],
        {1, 2},
    )
    yield ""
    yield from columns(
        ["this table beside exact max-min", ""],
        [
            ["throughput", _percent(measured.of_fair)],
            ["fairness", f"{measured.fairness:.3f}"],
            ["Jain's index", f"{measured.jain:.3f}"],
        ],
        {1},
    )
    yield ""
    yield _what_is_compared(document, optimum)
    yield ""
    yield from _losses(found.losses, most)


def _optima(optimum: Optimum, fair: float) -> list[list[str]]:
    part = fair / optimum.most if optimum.most else 1.0
    return [
        ["exact max-min", rate(round(fair)), _percent(part)],
        ["most possible", rate(round(optimum.most)), _percent(1.0)],
    ]


def _percent(part: float) -> str:
    return f"{100 * part:.1f} %"


def _what_is_compared(document: Document, optimum: Optimum) -> str:
    bent = [
        group.name for group, curve in zip(document.groups, optimum.curves) if not curve.is_line
    ]
    paths = f"Over {len(optimum.network.paths)} paths of {len(document.groups)} groups"
    if not bent:
        return f"{paths}. All groups' functions are lines: max-min is weighted by their slopes."
    return (
        f"{paths}. The functions of {len(bent)} groups, as {bent[0]}, are no lines: max-min is of"
        " shares, and a group has what its functions give at its share."
    )


def _losses(losses: list[GroupLoss], most: int) -> Iterator[str]:
    if not losses:
        yield "No group has less than under max-min."
        return
    has = "1 group has" if len(losses) == 1 else f"{len(losses)} groups have"
    yield f"{has} less than under max-min; what is lost most comes first:"
    rows = [
        [
            loss.group,
            rate(loss.amount),
            rate(round(loss.fair)),
            "no link" if loss.stopped_by is None else f"{loss.stopped_by} at {loss.share}",
            _others(loss),
        ]
        for loss in losses[:most]
    ]
    heads = ["group", "has", "max-min", "stopped by", "had another way than that link"]
    yield from columns(heads, rows, {1, 2})


def _others(loss: GroupLoss) -> str:
    if not loss.others:
        return "-"
    first = loss.others[0]
    text = f"{first.group} ({rate(round(first.load - first.fair_load))} by {'>'.join(first.path)})"
    return few([text, *(other.group for other in loss.others[1:])], MOST_OTHERS)


def _json(found: Comparison, most: int) -> dict[str, Any]:
    optimum, measured = found.optimum, found.measures
    return {
        "asked": round(optimum.asks.sum()),
        "throughput": round(measured.throughput),
        "max_min_throughput": round(measured.fair_throughput),
        "most_throughput": round(measured.most_throughput),
        "fairness": measured.fairness,
        "jain": measured.jain,
        "functions_that_are_no_lines": sum(not curve.is_line for curve in optimum.curves),
        "groups_that_lose": [
            {
                "group": loss.group,
                "amount": loss.amount,
                "max_min": round(loss.fair),
                "share": loss.share,
                "stopped_by": loss.stopped_by,
                "had_another_way": [
                    {
                        "group": other.group,
                        "load": round(other.load),
                        "max_min_load": round(other.fair_load),
                        "path": list(other.path),
                    }
                    for other in loss.others
                ],
            }
            for loss in found.losses[:most]
        ],
    }
