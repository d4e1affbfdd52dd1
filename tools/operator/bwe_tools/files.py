"""What a command reads and writes: files, or the standard streams where the name is `-`."""

from __future__ import annotations

from pathlib import Path

import click

from bwe_tools.document import Document, ToolError, parse, read_bytes
from bwe_tools.table import Table, parse_table


def named(name: str) -> str:
    """What to call an input in sentences."""
    return "standard input" if name == "-" else name


def read_table(name: str) -> Table:
    return parse_table(read_bytes(name), named(name))


def read_document(name: str) -> tuple[bytes, Document]:
    """The bytes of a document, for the program, and what they say."""
    text = read_bytes(name)
    return text, parse(text, named(name))


def write_output(name: str, text: str) -> None:
    """Writes a text to a file, or to standard output where the name is `-`."""
    if name == "-":
        click.echo(text, nl=False)
        return
    try:
        Path(name).write_text(text, encoding="utf-8")
    except OSError as fault:
        raise ToolError(f"{name} cannot be written: {fault.strerror}") from None
