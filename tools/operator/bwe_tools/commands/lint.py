"""bwe-tools lint: the faults of a document, in words, and warnings."""

from __future__ import annotations

import sys
from collections.abc import Iterator
from typing import NoReturn

import click

from bwe_tools import advice, json_text
from bwe_tools.document import faults, read_bytes
from bwe_tools.fault import Fault
from bwe_tools.limits import BEFORE_4, OF_4, limits_of, version_of
from bwe_tools.stages import Stages

MOST_OF_A_KIND = 5
MOST_FAULTS = 20


@click.command()
@click.argument("file", default="-")
@click.option(
    "--all",
    "is_all",
    is_flag=True,
    help=f"Print all that is found, and not the first {MOST_FAULTS} faults and the first"
    f" {MOST_OF_A_KIND} warnings of a kind.",
)
def command(file: str, is_all: bool) -> None:
    """Say why bwe refuses a document: all its faults with line and column and what was likely
    meant. The first is the one that bwe names, with the row that bwe itself prints. Of a document
    that bwe accepts, warn of what is allowed and likely not meant: tasks that are never reported,
    links in no path, groups with one path group, path groups that fall together, even splits over
    unlike paths, steps below a function, sites that look misspelt, the whole rate of a line.

    Each finding is one row, as FILE:LINE:COLUMN: fault: WORDS, which editors can follow.

    Exit status 0 where there is nothing to say, 1 where there are warnings only, 2 where bwe
    refuses it.

    Example: bwe-tools lint examples/maintenance.json
    """
    with json_text.collector_at_rest():
        status = lint(file, is_all)
    # An exit from within would keep the document, and the collector would search it.
    sys.exit(status)


def lint(file: str, is_all: bool) -> int:
    """Prints what is to be said of a document, and gives the exit status."""
    text, size = read_text(file)
    progress = Stages(size)
    progress.stage("reading")
    try:
        look = json_text.look_at(text)
        raw = json_text.value_of(text, look)
    except json_text.NotJson as fault:
        progress.end()
        tell_not_json(file, text, size, fault)
    if size > limits_of(version_of(raw)).size:
        progress.end()
        tell_too_long(file, BEFORE_4.size)
    progress.stage("looking for faults")
    found = faults(raw)
    first = next(found, None)
    if first is not None:
        progress.end()
        places = json_text.Places(text, look)
        tell_faults(file, places, first, found, None if is_all else MOST_FAULTS)
        return 2
    progress.stage("looking for what was likely not meant")
    kinds = advice.warnings(raw)
    progress.end()
    if not any(kinds):
        return 0
    places = json_text.Places(text, look)
    for warnings in kinds:
        tell_warnings(file, places, warnings, len(warnings) if is_all else MOST_OF_A_KIND)
    return 1


def read_text(file: str) -> tuple[str, int]:
    """The text of a file and its bytes, of which none is kept: a text takes as much again."""
    data = read_bytes(file)
    if len(data) > OF_4.size:
        tell_too_long(file, OF_4.size)
    try:
        return json_text.decoded(data), len(data)
    except json_text.NotJson as fault:
        tell_not_json(file, data.decode("utf-8", "replace"), len(data), fault)


def tell_not_json(file: str, text: str, size: int, fault: json_text.NotJson) -> NoReturn:
    if size > BEFORE_4.size:
        tell_too_long(file, BEFORE_4.size)
    places = json_text.Places(text)
    tell(file, places.position(fault.offset), str(fault), None, "refused 1 not json")
    sys.exit(2)


def tell_too_long(file: str, most: int) -> NoReturn:
    sentence = f"longer than {most:,} bytes"
    meant = '"version":4, of which a document may be longer' if most == BEFORE_4.size else None
    tell(file, None, sentence, meant, f"refused input longer than {most} bytes")
    sys.exit(2)


def tell_faults(
    file: str,
    places: json_text.Places,
    first: Fault,
    others: Iterator[Fault],
    most: int | None,
) -> None:
    tell(file, position_of(places, first), first.sentence, first.meant, first.refusal)
    left = 0
    for number, fault in enumerate(others, 2):
        if most is not None and number > most:
            left += 1
        else:
            tell(file, position_of(places, fault), fault.sentence, fault.meant)
    if left:
        click.echo(f"{file}: fault: and {left} more; --all prints them")


def position_of(places: json_text.Places, fault: Fault) -> json_text.Position:
    place = fault.place if fault.key is None else (*fault.place, fault.key)
    return places.position_of(place, fault.key is not None)


def tell(
    file: str,
    where: json_text.Position | None,
    sentence: str,
    meant: str | None,
    refusal: str | None = None,
) -> None:
    hint = f"; did you mean {meant}?" if meant else ""
    line = f" (bwe: {refusal})" if refusal else ""
    position = "" if where is None else f"{where}:"
    click.echo(f"{file}:{position} fault: {sentence}{hint}{line}")


def tell_warnings(
    file: str, places: json_text.Places, found: list[advice.Advice], most: int
) -> None:
    for warning in found[:most]:
        click.echo(f"{file}:{places.position_of(warning.place)}: warning: {warning.sentence}")
    if len(found) > most:
        click.echo(f"{file}: warning: and {len(found) - most} more of this kind; --all prints them")
