"""Rows of spreadsheets: tables of links and of demands with a header line, separated by commas,
semicolons or tabs.
"""

from __future__ import annotations

import csv
import io
from collections.abc import Iterable, Iterator, Sequence

from bwe_tools import hints
from bwe_tools.document import ToolError, read_bytes
from bwe_tools.network import Demand, Network, rate

OTHER_NAMES = {
    "source": "from",
    "src": "from",
    "origin": "from",
    "a": "from",
    "target": "to",
    "dst": "to",
    "destination": "to",
    "b": "to",
    "bandwidth": "capacity",
    "speed": "capacity",
    "rate": "demand",
    "traffic": "demand",
    "link": "name",
    "distance": "length",
    "km": "length",
}


Row = dict[str, str]  # what stands in each column that has something


def rows(
    path: str, needed: Sequence[str], known: Sequence[str]
) -> Iterator[tuple[str, Row]]:
    """The rows of a file, each with what to call it in sentences, under the names of `known`
    columns.
    """
    try:
        text = read_bytes(path).decode("utf-8-sig")
    except UnicodeDecodeError:
        raise ToolError(f"{path} is not UTF-8; save the sheet as CSV in UTF-8") from None
    first = text.partition("\n")[0]
    separator = max(",;\t", key=first.count)
    reader = csv.reader(io.StringIO(text, newline=""), delimiter=separator)
    header = columns(path, next(reader, []), needed, known)
    try:
        for cells in reader:
            if any(cell.strip() for cell in cells):
                yield f"{path} line {reader.line_num}", named_cells(
                    path, reader.line_num, header, cells
                )
    except csv.Error as fault:
        raise ToolError(f"{path} line {reader.line_num}: {fault}") from None


def columns(
    path: str, names: Iterable[str], needed: Iterable[str], known: Sequence[str]
) -> list[str]:
    """The header in the words of `known`; a name that is none of them is a fault."""
    found = [OTHER_NAMES.get(name.strip().lower(), name.strip().lower()) for name in names]
    for name in needed:
        if name not in found:
            meant = hints.near(name, [other for other in found if other not in known])
            hint = f"; is \"{meant}\" meant for it?" if meant else ""
            raise ToolError(f"{path} line 1: there is no column \"{name}\"{hint}")
    for name in found:
        if name not in known:
            raise ToolError(f"{path} line 1: the column \"{name}\" is none of {', '.join(known)}")
        if found.count(name) > 1:
            raise ToolError(f"{path} line 1: the column \"{name}\" stands twice")
    return found


def named_cells(path: str, line: int, header: Sequence[str], cells: Sequence[str]) -> Row:
    if len(cells) > len(header):
        raise ToolError(
            f"{path} line {line}: {len(cells)} cells are more than the header's {len(header)}"
        )
    return {name: cell.strip() for name, cell in zip(header, cells) if cell.strip()}


def cell(row: Row, name: str, where: str) -> str:
    if name not in row:
        raise ToolError(f"{where}: the column \"{name}\" is empty")
    return row[name]


def read_demands(path: str, network: Network, plain: str) -> list[Demand]:
    """The demands of a file, between sites of a network."""
    demands = []
    known = ("from", "to", "demand", "user", "job", "task", "weight")
    for where, row in rows(path, ("from", "to", "demand"), known):
        source, target = (network.site(cell(row, end, where), where) for end in ("from", "to"))
        if source == target:
            raise ToolError(f"{where}: a demand goes from \"{row['from']}\" to itself")
        weight = row.get("weight", "1")
        if not (
            weight.isascii() and weight.isdigit() and len(weight) < 5 and 1 <= int(weight) <= 1000
        ):
            raise ToolError(f"{where}: the weight \"{weight}\" is no whole number from 1 to 1,000")
        amount = rate(cell(row, "demand", where), where, plain)
        demands.append(
            Demand(
                source,
                target,
                amount,
                user=row.get("user", "all"),
                job=row.get("job", "all"),
                task=row.get("task"),
                weight=int(weight),
            )
        )
    if not demands:
        raise ToolError(f"{path} has no demands")
    return demands
