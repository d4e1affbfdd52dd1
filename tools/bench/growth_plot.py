#!/usr/bin/python3
"""How the time of `bwe solve` grows with groups, tasks, closings and nested functions, as an SVG.

    tools/bench/growth_plot.py -o growth.svg
    tools/bench/growth_plot.py --program before=old/bwe --program after=new/bwe -o growth.svg

Without --program it is the program of $BWE, or the built one. Each time is the least of a few
runs, with reading the document and writing the table. The documents of the first two curves are
those of `bwe make`. A program that takes longer than --patience seconds for one run is not asked
for larger documents of that curve. --data keeps the numbers as JSON. Where other work runs on the
machine, --processor-time tells more.
"""

from __future__ import annotations

import json
import random
import resource
import subprocess
import sys
import tempfile
import time
from collections.abc import Callable, Iterator
from dataclasses import asdict, dataclass
from pathlib import Path

import click
import matplotlib

matplotlib.use("svg")
import matplotlib.pyplot as pyplot  # noqa: E402

sys.path.insert(0, str(Path(__file__).resolve().parents[1] / "operator"))

from bwe_tools.document import ToolError  # noqa: E402
from bwe_tools.program import find_program  # noqa: E402

Clock = Callable[[], float]

TOP = 1_000_000
TITLES = {
    "groups": "Groups, with 20,000 tasks",
    "tasks": "Tasks, in 256 groups",
    "closings": "Closings, with 1,024 groups and 4,096 tasks",
    "nested": "Tasks under functions at three levels",
}
COLOURS = ("#2f78bd", "#d45f12", "#1d7a4c", "#7b4bb3", "#5b6878")
MARKS = ("o", "s", "^", "D", "v")


@dataclass(frozen=True)
class Point:
    """One measured time: of which program, on which curve, at which size, in seconds."""

    program: str
    curve: str
    size: int
    seconds: float


def made(program: str, groups: int, tasks: int) -> bytes:
    words = [program, "make", "1", str(groups), str(tasks)]
    return subprocess.run(words, stdout=subprocess.PIPE, check=True).stdout


def processor_time() -> float:
    """What all programs that this one ran have used of processors, in seconds."""
    used = resource.getrusage(resource.RUSAGE_CHILDREN)
    return used.ru_utime + used.ru_stime


def solve(program: str, document: Path, clock: Clock) -> tuple[float, bytes]:
    begun = clock()
    with document.open("rb") as given:
        child = subprocess.run([program, "solve"], stdin=given, stdout=subprocess.PIPE, check=True)
    return clock() - begun, child.stdout


def with_links_that_fill(document: bytes, links: int) -> bytes:
    """The document with only so many of its links narrow: the others never fill."""
    whole = json.loads(document)
    for link in whole["links"][links:]:
        link["capacity"] = 10**12
    return json.dumps(whole).encode()


def rising(chance: random.Random, points: int, most: int) -> list[list[int]]:
    """A function from (0,0) of so many points, whose amounts never fall."""
    shares = sorted(chance.sample(range(1, TOP + 1), points - 1))
    amounts = sorted(chance.randint(0, most) for _ in shares)
    return [[0, 0], *(list(pair) for pair in zip(shares, amounts))]


def nested(groups: int) -> bytes:
    """A document whose groups, users and jobs all have functions of their own."""
    chance = random.Random(groups)
    names = (f"t{number}" for number in range(10**6))
    links = [{"name": f"l{at}", "from": "a", "to": "b", "capacity": 24_000} for at in range(groups)]
    script: list[dict] = []
    return json.dumps(
        {
            "version": 1,
            "top": TOP,
            "links": links,
            "groups": [_nested_group(chance, at, groups, names, script) for at in range(groups)],
            "reporters": ["hosts"],
            "script": script,
        }
    ).encode()


def _nested_group(chance, at: int, groups: int, names: Iterator[str], script: list[dict]) -> dict:
    users = []
    for user in range(3):
        jobs = []
        for job in range(3):
            tasks = [{"name": next(names), "reporter": "hosts"} for _ in range(4)]
            script += [
                {"reporter": "hosts", "task": task["name"], "demand": chance.randint(1, 2000)}
                for task in tasks
            ]
            task = rising(chance, 4, 2000)
            own = rising(chance, 8, 5000)
            jobs.append({"name": f"j{job}", "function": own, "task": task, "tasks": tasks})
        users.append({"name": f"u{user}", "function": rising(chance, 8, 14_000), "jobs": jobs})
    paths = [[{"weight": 1, "links": [f"l{(at + step) % groups}"]}] for step in (0, 1)]
    ends = {"name": f"g{at}", "from": "a", "to": "b"}
    return {**ends, "function": rising(chance, 8, 40_000), "paths": paths, "users": users}


def documents(program: str) -> Iterator[tuple[str, int | None, bytes]]:
    """Curve, size and document; closings are counted in the table, so their size is None."""
    for groups in (16, 32, 64, 128, 256, 512, 1024):
        yield "groups", groups, made(program, groups, 20_000)
    for tasks in (256, 625, 1250, 2500, 5000, 10_000, 20_000):
        yield "tasks", tasks, made(program, 256, tasks)
    largest = made(program, 1024, 4096)
    for links in (16, 64, 128, 256, 512, 768, 1024):
        yield "closings", None, with_links_that_fill(largest, links)
    for groups in (3, 7, 14, 28, 56, 112):
        yield "nested", groups * 36, nested(groups)


def measure(
    programs: dict[str, str], runs: int, patience: float, clock: Clock = time.perf_counter
) -> list[Point]:
    points: list[Point] = []
    slow: set[tuple[str, str]] = set()
    with tempfile.TemporaryDirectory() as folder:
        path = Path(folder) / "document.json"
        for curve, size, document in documents(next(iter(programs.values()))):
            path.write_bytes(document)
            for name, program in programs.items():
                if (name, curve) in slow:
                    continue
                seconds, table = solve(program, path, clock)
                if seconds > patience:
                    slow.add((name, curve))
                elif seconds < patience / 4:
                    seconds = min(
                        [seconds, *(solve(program, path, clock)[0] for _ in range(runs - 1))]
                    )
                closings = table.count(b"\nclosing ")
                points.append(Point(name, curve, closings if size is None else size, seconds))
    return points


def draw(points: list[Point], path: str, unit: str = "seconds") -> None:
    pyplot.rcParams.update({"font.size": 9, "svg.hashsalt": "bwe", "svg.fonttype": "none"})
    figure, fields = pyplot.subplots(2, 2, figsize=(9.2, 6.6), constrained_layout=True)
    programs = list(dict.fromkeys(point.program for point in points))
    for field, (curve, title) in zip(fields.flat, TITLES.items()):
        for at, program in enumerate(programs):
            mine = sorted(
                (point.size, point.seconds)
                for point in points
                if (point.program, point.curve) == (program, curve)
            )
            style = {
                "color": COLOURS[at % 5],
                "marker": MARKS[at % 5],
                "markersize": 4,
                "linewidth": 1.4,
            }
            field.plot(*zip(*mine), label=program, **style)
        field.set_title(title, fontsize=10, loc="left")
        field.set_xlabel(
            "closings" if curve == "closings" else "groups" if curve == "groups" else "tasks"
        )
        field.set_ylabel(unit)
        field.set_xlim(left=0)
        field.set_ylim(bottom=0)
        field.grid(color="#dde2e9", linewidth=0.7)
        field.spines[["top", "right"]].set_visible(False)
    if len(programs) > 1:
        fields.flat[0].legend(frameon=False)
    facts = {"Date": None, "Creator": "tools/bench/growth_plot.py"}
    figure.savefig(path, format="svg", metadata=facts)


@click.command(help=__doc__.replace("\n\n    tools", "\n\n\b\n    tools"))
@click.option(
    "--program", "chosen", multiple=True, metavar="NAME=PATH", help="A program to measure."
)
@click.option("-o", "--output", required=True, help="The SVG to write.")
@click.option("--data", help="A file for the measured times, as JSON.")
@click.option("--runs", type=click.IntRange(1), default=5, help="Runs of which the least counts.")
@click.option("--patience", default=6.0, help="Seconds after which a curve ends.")
@click.option(
    "--processor-time", "busy", is_flag=True, help="Time of processors, not of the clock."
)
def main(
    chosen: tuple[str, ...], output: str, data: str | None, runs: int, patience: float, busy: bool
) -> None:
    programs = dict(
        word.split("=", 1) if "=" in word else (Path(word).name, word) for word in chosen
    )
    clock = processor_time if busy else time.perf_counter
    try:
        points = measure(programs or {"bwe": str(find_program())}, runs, patience, clock)
        if data:
            Path(data).write_text(json.dumps([asdict(point) for point in points], indent=1) + "\n")
        draw(points, output, "seconds of a processor" if busy else "seconds")
    except (OSError, subprocess.CalledProcessError) as fault:
        raise ToolError(str(fault)) from None


if __name__ == "__main__":
    main()
