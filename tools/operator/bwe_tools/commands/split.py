"""A split of each group over its paths, in front of its path groups."""

from __future__ import annotations

from collections.abc import Callable, Iterator, Sequence

import click

from bwe_tools.columns import columns, few
from bwe_tools.document import document_text
from bwe_tools.files import read_document, write_output
from bwe_tools.matrices import Matrix, read_matrices
from bwe_tools.measures import Measures
from bwe_tools.progress import Progress
from bwe_tools.rules import MOST_PATHS
from bwe_tools.split_gain import Gain, gain_of, mean, optima_of, split, worst
from bwe_tools.splits import Written

UNITS = ("k", "M", "G", "T")


@click.command()
@click.argument("document")
@click.option(
    "--matrices",
    metavar="FILE",
    help="Demand matrices as CSV: columns matrix, demand, and task or from and to.",
)
@click.option(
    "--unit",
    type=click.Choice(UNITS),
    default="k",
    show_default=True,
    help="What a number of FILE without a unit counts: kbit/s, Mbit/s, Gbit/s or Tbit/s.",
)
@click.option(
    "--best-for",
    type=click.Choice(["worst", "mean"]),
    default="mean",
    show_default=True,
    help="Of several matrices: the one that loses most, or all in the mean.",
)
@click.option(
    "--least",
    type=click.FloatRange(0, 50),
    default=1.0,
    show_default=True,
    help="Drop paths with less than so many percent of their group.",
)
@click.option("-o", "--output", default="-", help="The file to write; standard output without it.")
def command(
    document: str, matrices: str | None, unit: str, best_for: str, least: float, output: str
) -> None:
    """Write DOCUMENT with a split in front of each group's path groups, found by linear programs.

    The split is a path group of the group's own paths, weighted so that the demands get exact
    max-min fairness over them. The path groups that the group has stay behind it, and take over
    where a link of the split closes. Where a group then has more than the 16 path groups of the
    format, its last one is left out, which is said.

    The demands are those after the document's script, or all matrices of a file: then what links
    would have above their capacities is as small as can be, of the worst matrix or in the mean.
    What was gained, by the tables of `bwe-live` before and behind it, stands on standard error.

    \b
        bwe-tools split examples/geant.json -o geant-split.json
    """
    _, parsed = read_document(document)
    named: dict[str, Matrix] = (
        {"script": parsed.demands()}
        if matrices is None
        else read_matrices(matrices, parsed, unit.lower())
    )
    chosen = list(named.values())
    with Progress("split: matrices that are solved by linear programs") as progress:
        optima = optima_of(parsed, chosen, progress)
    written = split(parsed, optima, best_for == "worst", least / 100)
    write_output(output, document_text(written.document))
    gain = gain_of(parsed, written.document, chosen, optima)
    click.echo("\n".join(_page(written, gain, len(parsed.groups))), err=True)


def _page(written: Written, gain: Gain, groups: int) -> Iterator[str]:
    yield (
        f"{written.changed_groups} of {groups} groups have another first path group,"
        f" {written.split_groups} of them one of several paths"
    )
    if written.left_out:
        yield (
            f"with it more than {MOST_PATHS} path groups, so without their last one:"
            f" {few(written.left_out)}"
        )
    many = len(gain.before) > 1
    heads = ["", "before", "with the split"]
    rows = [
        ["throughput beside max-min" + (", mean" if many else ""), *_both(gain, "of_fair", mean)],
        *([["  of the worst matrix", *_both(gain, "of_fair", worst)]] if many else []),
        ["fairness" + (", mean" if many else ""), *_both(gain, "fairness", mean)],
        *([["  of the worst matrix", *_both(gain, "fairness", worst)]] if many else []),
        ["throughput beside the most possible", *_both(gain, "of_most", mean)],
    ]
    yield from columns(heads, rows, {1, 2})
    if gain.is_loss:
        yield "The split loses something: for these demands the document is better without it."


def _both(gain: Gain, of: str, over: Callable[[Sequence[Measures], str], float]) -> list[str]:
    return [f"{over(side, of):.4f}" for side in (gain.before, gain.behind)]
