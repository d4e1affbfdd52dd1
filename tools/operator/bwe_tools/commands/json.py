"""A table as JSON, and back."""

from __future__ import annotations

import json

import click

from bwe_tools.document import read_bytes
from bwe_tools.files import named, read_table
from bwe_tools.table_json import table_from_json, table_to_json


@click.command()
@click.argument("table", default="-")
@click.option("--back", is_flag=True, help="Read the JSON, and write the table's text.")
def command(table: str, back: bool) -> None:
    """Write TABLE, the text that `bwe solve` writes, as JSON by docs/table.schema.json.

    TABLE is a file, or - for standard input. With --back the JSON gives the very bytes of the
    table again.

    \b
        bwe solve examples/maintenance.json | bwe-tools json | jq .total
    """
    if back:
        click.echo(table_from_json(read_bytes(table), named(table)).text(), nl=False)
    else:
        click.echo(json.dumps(table_to_json(read_table(table)), indent=1))
