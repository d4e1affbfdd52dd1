#!/usr/bin/python3
"""How long a post of `bwe-live` takes at the size of version 4: a row of a table in Markdown for
each program.

    tools/bench/posts.py
    tools/bench/posts.py --program old=old/bwe_live --program new=new/bwe_live
    tools/bench/posts.py --sites 100 --tasks 200000

Without --program it is the program of $BWE_LIVE, or the built one. The document is a mesh of
tools/bench/wide.py with all pairs as groups. Behind the first table come posts: some after one
changed demand each, one after a hundredth of the demands have changed, and two after the capacity
of a link is 0, each with one after it is back. A time is by the clock, from sending what a post
stands behind to the last line of its answer; the first table's begins with the document. The
programs take turns, --runs times, and a row has the least and the greatest times. Memory is the
peak of a run.
"""

from __future__ import annotations

import contextlib
import json
import random
import subprocess
import sys
import time
from collections import defaultdict
from collections.abc import Iterator
from dataclasses import dataclass, field
from pathlib import Path

import click

sys.path.insert(0, str(Path(__file__).resolve().parents[1] / "operator"))

import wide  # noqa: E402
from bwe_tools.program import find_program  # noqa: E402

COLUMNS = ("first table", "first post after one", "later ones", "a hundredth", "a cut", "back")
LATER, CUTS = 5, 2
MOST_DEMAND = 2_000_000


@dataclass(frozen=True)
class Mesh:
    """A document, and what reports name of it."""

    text: bytes
    tasks: int
    links: list[dict[str, object]]


@dataclass
class Times:
    """The seconds of each column, and the peaks of memory in megabytes."""

    seconds: dict[str, list[float]] = field(default_factory=lambda: defaultdict(list))
    megabytes: list[float] = field(default_factory=list)


class Conversation:
    """A `bwe-live` that runs."""

    def __init__(self, program: str) -> None:
        pipe = subprocess.PIPE
        self.running = subprocess.Popen([program], stdin=pipe, stdout=pipe)

    def seconds_of(self, given: bytes) -> float:
        """How long it takes from here to the end of the table or change that this asks for."""
        source, sink = self.running.stdin, self.running.stdout
        assert source is not None and sink is not None
        begun = time.perf_counter()
        with contextlib.suppress(BrokenPipeError):
            source.write(given)
            source.flush()
        if not any(line.startswith(b"total ") for line in sink):
            raise click.ClickException("the program ended before its answer did")
        return time.perf_counter() - begun

    def peak(self) -> float:
        status = Path(f"/proc/{self.running.pid}/status").read_text()
        return int(status.partition("VmHWM:")[2].split()[0]) / 1024

    def end(self) -> None:
        self.running.communicate()


def mesh(sites: int, tasks: int) -> Mesh:
    pieces = list(wide.wan(1, sites, tasks))
    return Mesh(b"".join(pieces), tasks, json.loads(pieces[1]))


def demands(dice: random.Random, tasks: range | list[int]) -> bytes:
    return b"".join(
        b"demand r%d t%d %d\n" % (task % wide.REPORTERS, task, dice.randint(0, MOST_DEMAND))
        for task in tasks
    )


def questions(dice: random.Random, given: Mesh) -> Iterator[tuple[str, bytes]]:
    """What is sent, with the column of each."""
    yield "first table", b"%d\n%s" % (len(given.text), given.text)
    for at in range(1 + LATER):
        column = "later ones" if at else "first post after one"
        yield column, demands(dice, [dice.randrange(given.tasks)]) + b"post\n"
    some = dice.sample(range(given.tasks), max(1, given.tasks // 100))
    yield "a hundredth", demands(dice, some) + b"post\n"
    for link in dice.sample(given.links, CUTS):
        report = f"capacity {link['owner']} {link['name']}"
        yield "a cut", f"{report} 0\npost\n".encode()
        yield "back", f"{report} {link['capacity']}\npost\n".encode()


def measure(program: str, given: Mesh, seed: int, times: Times) -> None:
    conversation = Conversation(program)
    for column, text in questions(random.Random(f"posts {seed}"), given):
        times.seconds[column].append(conversation.seconds_of(text))
    times.megabytes.append(conversation.peak())
    conversation.end()


def span(numbers: list[float], digits: int) -> str:
    low, high = f"{min(numbers):.{digits}f}", f"{max(numbers):.{digits}f}"
    return low if low == high else f"{low} to {high}"


def row(name: str, times: Times) -> str:
    spans = [f"{span(times.seconds[column], 2)} s" for column in COLUMNS]
    return f"| {' | '.join([name, *spans, f'{span(times.megabytes, 0)} MB'])} |"


@click.command(help=__doc__)
@click.option("--program", "named", multiple=True, metavar="NAME=FILE", help="A program to time.")
@click.option("--sites", default=256, show_default=True, help="Sites of the mesh.")
@click.option("--tasks", default=1_048_576, show_default=True, help="Tasks of the mesh.")
@click.option("--runs", default=2, show_default=True, help="Conversations with each program.")
def main(named: tuple[str, ...], sites: int, tasks: int, runs: int) -> None:
    built = [] if named else [f"bwe-live={find_program('bwe-live')}"]
    programs = dict(it.split("=", 1) for it in [*named, *built])
    given = mesh(sites, tasks)
    times = {name: Times() for name in programs}
    for seed in range(runs):
        for name, program in programs.items():
            measure(program, given, seed, times[name])
    print(f"| version | {' | '.join(COLUMNS)} | peak |")
    print(f"|---{'|---' * (len(COLUMNS) + 1)}|")
    for name in programs:
        print(row(name, times[name]))


if __name__ == "__main__":
    main()
