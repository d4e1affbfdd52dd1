"""bwe-tools follow: the table, page and metrics of a `bwe-live`, kept current."""

from __future__ import annotations

import os
import sys
from dataclasses import replace
from pathlib import Path

import click

from bwe_tools.commands.metrics import metrics_of_table, metrics_text
from bwe_tools.document import Document, ToolError, document_text, least_version, to_raw
from bwe_tools.files import named, read_document
from bwe_tools.holders import held_view
from bwe_tools.live_answers import Answers, Standing
from bwe_tools.page import page
from bwe_tools.program import values_at_top


@click.command()
@click.argument("document")
@click.argument("folder", type=click.Path(file_okay=False, path_type=Path))
@click.option("--title", help="The page's title; without it the document's name.")
@click.option("--tasks", type=click.IntRange(0), default=2000, help="The most tasks in the list.")
def command(document: str, folder: Path, title: str | None, tasks: int) -> None:
    """Follow what `bwe-live` writes for DOCUMENT, and keep files in FOLDER current.

    Standard input is what `bwe-live` writes. After each table or change, `table.txt` has the whole
    table and `bwe.prom` its metrics. A page needs to know what was reported: after each answer to
    the input line `state`, `page.html` shows the table with these reports. Each file is written
    beside the one it replaces, so that a reader never sees half of one.

    \b
        (bwe-live network.json | bwe-tools follow network.json /var/www/bwe) < lines
    """
    _, parsed = read_document(document)
    folder.mkdir(parents=True, exist_ok=True)
    answers, name = Answers(), title or Path(named(document)).stem
    for row in sys.stdin:
        standing = answers.take(row.removesuffix("\n"))
        if standing is not None:
            for refused in standing.refused:
                click.echo(f"bwe-tools: {refused}", err=True)
            keep(folder, parsed, standing, name, tasks)


def keep(folder: Path, document: Document, standing: Standing, title: str, tasks: int) -> None:
    put(folder / "table.txt", standing.table.text())
    put(folder / "bwe.prom", metrics_text(metrics_of_table(standing.table)))
    if standing.reports is None:
        return
    # Only the last report of each task and link counts, so these stand for all.
    current = replace(document, script=standing.reports)
    current = replace(current, version=least_version(to_raw(current)))
    table = standing.table.with_reports(len(standing.reports))
    text, what = document_text(current).encode(), "the document with the reports of bwe-live"
    view = held_view(current, table, values_at_top(text, what))
    put(folder / "page.html", page(view, title, [], tasks))


def put(file: Path, text: str) -> None:
    """Puts a text into a file at once."""
    beside = file.with_name(f".{file.name}.new")
    try:
        beside.write_text(text, encoding="utf-8")
        os.replace(beside, file)
    except OSError as fault:
        raise ToolError(f"{file} cannot be written: {fault.strerror}") from None
