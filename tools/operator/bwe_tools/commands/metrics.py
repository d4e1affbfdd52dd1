"""A table as Prometheus text."""

from __future__ import annotations

from collections.abc import Iterator

import click

from bwe_tools.document import Document
from bwe_tools.files import named, read_document, read_table
from bwe_tools.holders import held_view
from bwe_tools.program import values_at_top
from bwe_tools.table import Table
from bwe_tools.view import View

Samples = list[tuple[dict[str, str], int]]
# A name, its help and its samples.
Family = tuple[str, str, Samples]


@click.command()
@click.argument("table", default="-")
@click.option(
    "--document",
    help="The table's document: adds capacities, demands, what groups ask and all links that hold.",
)
def command(table: str, document: str | None) -> None:
    """Write TABLE, the text that `bwe solve` writes, as metrics in the text format of Prometheus.

    Rates are in bytes per second, the base unit of Prometheus: 1 kbit/s is 125. TABLE is a file, or - for standard input.

    \b
        bwe solve examples/maintenance.json | bwe-tools metrics \\
            --document examples/maintenance.json > /var/lib/node_exporter/bwe.prom
    """
    given = read_table(table)
    families = metrics_of_table(given)
    if document is not None:
        text, parsed = read_document(document)
        view = held_view(parsed, given, values_at_top(text, named(document)))
        families += _of_document(parsed, view)
    click.echo(metrics_text(families), nl=False)


def metrics_of_table(table: Table) -> list[Family]:
    return list(_of_table(table))


def metrics_text(families: list[Family]) -> str:
    """The text format of Prometheus."""
    return "".join(_family(*family) for family in families)


def _family(name: str, help_text: str, samples: Samples) -> str:
    lines = [f"# HELP {name} {help_text}", f"# TYPE {name} gauge"]
    for labels, value in samples:
        inner = ",".join(f'{label}="{text}"' for label, text in labels.items())
        lines.append(f"{name}{{{inner}}} {value}" if inner else f"{name} {value}")
    return "\n".join(lines) + "\n"


def _bytes(kilobits: int) -> int:
    return kilobits * 125


def _of_table(table: Table) -> Iterator[Family]:
    closed = table.share_of_closing()
    yield "bwe_reports", "Reports that the table covers.", [({}, table.reports)]
    yield "bwe_total_bytes_per_second", "Sum of the amounts of all groups.", [
        ({}, _bytes(table.total))
    ]
    yield (
        "bwe_link_load_bytes_per_second",
        "Load that all amounts put on a link.",
        [({"link": link.name}, _bytes(link.load)) for link in table.links],
    )
    yield (
        "bwe_link_closed",
        "1 where a link closed, since the next share would put it over its capacity.",
        [({"link": link.name}, int(link.name in closed)) for link in table.links],
    )
    yield (
        "bwe_link_closing_share",
        "Fair share at which a link closed, of several tiers in the last that closed it.",
        [({"link": link}, share) for link, share in closed.items()],
    )
    yield from _of_groups(table)
    yield (
        "bwe_task_limit_bytes_per_second",
        "Limit of a task.",
        [({"task": task.name}, _bytes(task.limit)) for task in table.tasks],
    )


def _of_groups(table: Table) -> Iterator[Family]:
    places = [
        ({"group": group.name, "place": str(place)}, part)
        for group in table.groups
        for place, part in enumerate(group.path_groups)
    ]
    yield (
        "bwe_group_share",
        "Fair share at which a group stopped.",
        [({"group": group.name}, group.share) for group in table.groups],
    )
    yield (
        "bwe_group_amount_bytes_per_second",
        "What a group got.",
        [({"group": group.name}, _bytes(group.amount)) for group in table.groups],
    )
    yield (
        "bwe_path_group_amount_bytes_per_second",
        "What a group got on one of its path groups.",
        [(labels, _bytes(part.amount)) for labels, part in places],
    )
    yield (
        "bwe_path_group_closed",
        "1 for each path group that a link closed, which the label names.",
        [({**labels, "link": part.closed_by}, 1) for labels, part in places if part.closed_by],
    )


def _of_document(document: Document, view: View) -> Iterator[Family]:
    yield (
        "bwe_link_capacity_bytes_per_second",
        "Capacity of a link after the script; 0 where it is drained.",
        [({"link": link.name}, _bytes(link.capacity)) for link in view.links],
    )
    yield (
        "bwe_path_group_over",
        "1 for each link that the next share would have put over with the one that closed.",
        [
            ({"group": group.name, "place": str(place), "link": link}, 1)
            for group in view.groups
            for place, part in enumerate(group.path_groups)
            for link in part.also
        ],
    )
    yield (
        "bwe_group_asked_bytes_per_second",
        "What a group may have at most: the demands of its tasks under its functions.",
        [({"group": group.name}, _bytes(group.asks)) for group in view.groups],
    )
    yield (
        "bwe_task_demand_bytes_per_second",
        "Last reported demand of a task.",
        [({"task": task.name}, _bytes(task.demand)) for task in view.tasks()],
    )
    yield (
        "bwe_task_info",
        "1 for each task, with its group, user, job and reporter.",
        [
            (
                {
                    "task": task.name,
                    "group": task.group,
                    "user": task.user,
                    "job": task.job,
                    "reporter": task.reporter,
                },
                1,
            )
            for task in view.tasks()
        ],
    )
