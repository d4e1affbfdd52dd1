#!/usr/bin/python3
"""How `bwe solve` grows up to the limits of version 4: a table, and a picture with both axes in
powers of ten.

    tools/bench/sizes.py -o docs/sizes.svg >table.md
    tools/bench/sizes.py --program bwe=new/bwe --program plain=other/plain -o sizes.svg

Without --program it is the program of $BWE, or the built one. The documents are those of
tools/bench/wide.py: meshes of 8 to 256 sites with all pairs, 16 tasks a pair and up to 1,048,576 in
all; and networks of 128 to 65,536 links that all close. A time is the least of a few runs, with
reading the document and writing the table; memory is the peak of a run. The slope of a curve is that
of the line of least squares through its larger half. A program that takes longer than --patience
seconds is not asked for more of that curve. --data keeps the numbers as JSON.
"""

from __future__ import annotations

import json
import math
import subprocess
import sys
import tempfile
import time
from collections.abc import Callable, Iterator
from dataclasses import asdict, dataclass
from pathlib import Path

import click
import matplotlib

matplotlib.use("svg")
import matplotlib.pyplot as pyplot  # noqa: E402

sys.path.insert(0, str(Path(__file__).resolve().parents[1] / "operator"))

import wide  # noqa: E402
from bwe_tools.document import ToolError  # noqa: E402
from bwe_tools.program import find_program  # noqa: E402
from growth_plot import COLOURS, MARKS  # noqa: E402

SITES = (8, 16, 32, 64, 128, 256)
LINKS = (128, 512, 2_048, 8_192, 32_768, 65_536)
MOST_TASKS = 1_048_576
# Starts the program anew from a small process, since a child counts the memory of what started it.
STARTER = """
import os, sys
child = os.posix_spawn(sys.argv[1], sys.argv[1:], os.environ)
_, status, used = os.wait4(child, 0)
print(used.ru_maxrss, file=sys.stderr)
sys.exit(os.waitstatus_to_exitcode(status))
"""


@dataclass(frozen=True)
class Size:
    """A document to be made: its curve, its name in the table, and its tasks or links."""

    curve: str
    name: str
    size: int
    make: Callable[[], Iterator[bytes]]


@dataclass(frozen=True)
class Row:
    """One measured document: bytes, the least of the seconds, and the peak of memory in megabytes."""

    program: str
    curve: str
    name: str
    size: int
    length: int
    closings: int
    seconds: float
    megabytes: float


def sizes(word: str) -> Iterator[Size]:
    """The documents whose names have the word."""
    every = [*map(mesh, SITES), *(hard(kind, links) for kind in wide.KINDS for links in LINKS)]
    return (size for size in every if word in size.name)


def mesh(sites: int) -> Size:
    pairs = sites * (sites - 1)
    tasks = MOST_TASKS if sites == SITES[-1] else 16 * pairs
    name = f"{sites} sites, {pairs:,} groups, {tasks:,} tasks"
    return Size("wan", name, tasks, lambda: wide.wan(1, sites, tasks))


def hard(kind: str, links: int) -> Size:
    count = links - (kind == "shed")
    made = lambda: iter([wide.text(wide.hard(kind, 1, count, 2 * links))])  # noqa: E731
    return Size(kind, f"{kind}, {count:,} links", count, made)


def measure(program: str, name: str, size: Size, document: Path, runs: int, patience: float) -> Row:
    """The row of one document; a run that took a quarter of the patience is not repeated."""
    table, megabytes = with_memory(program, document)
    times = [seconds_of(program, document)]
    while len(times) < runs and times[0] < patience / 4:
        times.append(seconds_of(program, document))
    closings = table.count(b"\nclosing ")
    length = document.stat().st_size
    return Row(name, size.curve, size.name, size.size, length, closings, min(times), megabytes)


def seconds_of(program: str, document: Path) -> float:
    begun = time.perf_counter()
    with document.open("rb") as given:
        subprocess.run([program, "solve"], stdin=given, stdout=subprocess.DEVNULL, check=True)
    return time.perf_counter() - begun


def with_memory(program: str, document: Path) -> tuple[bytes, float]:
    """The table, and the peak of memory in megabytes."""
    line = [sys.executable, "-S", "-c", STARTER, program, "solve"]
    with document.open("rb") as given:
        child = subprocess.run(line, stdin=given, capture_output=True, check=True)
    return child.stdout, int(child.stderr.split()[-1]) / 1024


def measured(programs: dict[str, str], word: str, runs: int, patience: float) -> Iterator[Row]:
    slow: set[tuple[str, str]] = set()
    with tempfile.TemporaryDirectory() as folder:
        document = Path(folder) / "document.json"
        for size in sizes(word):
            if all((name, size.curve) in slow for name in programs):
                continue
            with document.open("wb") as sink:
                sink.writelines(size.make())
            for name, program in programs.items():
                if (name, size.curve) not in slow:
                    row = measure(program, name, size, document, runs, patience)
                    if row.seconds > patience:
                        slow.add((name, size.curve))
                    yield row


def line_of(row: Row, is_one: bool) -> str:
    """The row in Markdown, with the program's name where there are several."""
    first = row.name if is_one else f"{row.program}: {row.name}"
    million = f"{row.length / 1e6:.1f} M"
    return (
        f"| {first} | {million} | {row.closings:,} | {row.seconds:.3f} | {row.megabytes:.0f} |"
    )


def slope_of(points: list[tuple[int, float]]) -> float | None:
    """How the logarithm of the time rises with that of the size, over the larger half."""
    logs = [(math.log(size), math.log(seconds)) for size, seconds in points[len(points) // 2 :]]
    if len(logs) < 2:
        return None
    middle, mean = (sum(each) / len(logs) for each in zip(*logs))
    spread = sum((size - middle) ** 2 for size, _ in logs)
    return sum((size - middle) * (seconds - mean) for size, seconds in logs) / spread


def draw(rows: list[Row], path: str) -> None:
    pyplot.rcParams.update({"font.size": 9, "svg.hashsalt": "bwe", "svg.fonttype": "none"})
    figure, (left, right) = pyplot.subplots(1, 2, figsize=(9.2, 3.9), constrained_layout=True)
    programs = list(dict.fromkeys(row.program for row in rows))
    fields = {"wan": left} | dict.fromkeys(wide.KINDS, right)
    for at, (curve, field) in enumerate(fields.items()):
        for number, program in enumerate(programs):
            mine = [row for row in rows if (row.curve, row.program) == (curve, program)]
            points = sorted((row.size, row.seconds) for row in mine)
            if points:
                words = [] if len(programs) == 1 else [program]
                words += [] if curve == "wan" else [curve]
                slope = slope_of(points)
                words += [] if slope is None else [f"slope {slope:.2f}"]
                style = {"color": COLOURS[(at + number) % 5], "marker": MARKS[(at + number) % 5]}
                style["linestyle"] = ("-", "--", ":")[number % 3]
                field.plot(*zip(*points), label=", ".join(words), markersize=4, **style)
    titles = {left: ("A mesh of sites, all pairs", "tasks"), right: ("All links close", "links")}
    for field, (title, axis) in titles.items():
        field.set(xscale="log", yscale="log", xlabel=axis, ylabel="seconds")
        field.set_title(title, fontsize=10, loc="left")
        field.grid(color="#dde2e9", linewidth=0.7)
        field.spines[["top", "right"]].set_visible(False)
        if field.lines:
            field.legend(frameon=False)
    figure.savefig(path, format="svg", metadata={"Date": None, "Creator": "tools/bench/sizes.py"})


@click.command(help=__doc__.replace("\n\n    tools", "\n\n\b\n    tools"))
@click.option(
    "--program", "chosen", multiple=True, metavar="NAME=PATH", help="A program to measure."
)
@click.option("-o", "--output", help="The SVG to write; without it there is the table alone.")
@click.option("--only", "word", default="", help="Only documents whose names have this word.")
@click.option("--data", help="A file for the measured rows, as JSON.")
@click.option("--runs", type=click.IntRange(1), default=3, help="Runs of which the least counts.")
@click.option("--patience", default=60.0, help="Seconds after which a curve ends.")
def main(
    chosen: tuple[str, ...],
    output: str | None,
    word: str,
    data: str | None,
    runs: int,
    patience: float,
) -> None:
    programs = dict(
        item.split("=", 1) if "=" in item else (Path(item).name, item) for item in chosen
    )
    rows: list[Row] = []
    try:
        programs = programs or {"bwe": str(find_program())}
        print("| document | bytes | closings | seconds | MB |\n|---|---:|---:|---:|---:|")
        for row in measured(programs, word, runs, patience):
            rows.append(row)
            print(line_of(row, len(programs) == 1), flush=True)
        if data:
            Path(data).write_text(json.dumps([asdict(row) for row in rows], indent=1) + "\n")
        if output and rows:
            draw(rows, output)
    except (OSError, subprocess.CalledProcessError) as fault:
        raise ToolError(str(fault)) from None


if __name__ == "__main__":
    main()
