"""`python3 -m study check` holds the stored cases against their references, `references [PART ..]`
makes the references anew, and `page` writes the tables and pictures of docs/QUALITY.md.
"""

from __future__ import annotations

import json
import sys
from pathlib import Path
from typing import Any

import click

from bwe_tools.measures import Measures
from bwe_tools.program import ROOT
from study.cases import LARGE
from study.held import all_held
from study.measured import as_json
from study.parts import PARTS
from study.tables import NETWORKS, with_tables

HERE = Path(__file__).resolve().parent


def path_of(part: str) -> Path:
    return HERE / "references" / f"{part}.json"


def told(text: str) -> None:
    print(f"study: {text}", file=sys.stderr, flush=True)


def dumped(found: dict[str, Any]) -> str:
    """JSON with a row a line, so that a change of one number is a change of one line."""
    members = []
    for key, value in found.items():
        if key == "rows":
            rows = ",\n ".join(json.dumps(row) for row in as_json(value))
            members.append(f'"rows": [\n {rows}]')
        else:
            members.append(f"{json.dumps(key)}: {json.dumps(value)}")
    return "{" + ",\n".join(members) + "}\n"


@click.group()
def group() -> None:
    """How good the tables of bwe are beside linear programs."""


@group.command()
@click.argument("parts", nargs=-1, type=click.Choice(list(PARTS)))
def references(parts: tuple[str, ...]) -> None:
    """Make the references anew: all of them, or those of some parts."""
    for part in parts or PARTS:
        found = PARTS[part](told)
        path_of(part).parent.mkdir(exist_ok=True)
        path_of(part).write_text(dumped(found), encoding="utf-8")


@group.command()
def check() -> None:
    """Hold the stored cases against their references: status 1 where a total differs."""
    found = all_held(read("stored") | read("large")["references"], lambda name: None)
    for network in (*NETWORKS, *LARGE):
        own = [one.measures for one in found if one.case.traffic.network == network]
        through, fair = (sum(values) / len(own) for values in zip(*map(_two, own)))
        count = f"{len(own)} case{'s' if len(own) > 1 else ''}"
        click.echo(f"{network:8} {count}: {through:.4f} of max-min, fairness {fair:.4f}")
    faults = [one for one in found if one.fault]
    for one in faults:
        click.echo(f"study: {one.case.name}: {one.fault}", err=True)
    click.echo(f"{len(found) - len(faults)} of {len(found)} cases are as their references")
    sys.exit(1 if faults else 0)


def _two(found: Measures) -> tuple[float, float]:
    return found.of_fair, found.fairness


def read(part: str) -> dict[str, Any]:
    found: dict[str, Any] = json.loads(path_of(part).read_text(encoding="utf-8"))
    return found


@group.command()
def page() -> None:
    """Write the tables and pictures of docs/QUALITY.md from the references."""
    from study.pictures import draw

    docs = ROOT / "docs"
    parts = {part: read(part) for part in PARTS}
    text = docs / "QUALITY.md"
    text.write_text(with_tables(text.read_text(encoding="utf-8"), parts), encoding="utf-8")
    draw(parts, docs)


if __name__ == "__main__":
    group(prog_name="study")
