#!/usr/bin/python3
"""tools/check/hard.py [--full] [PROGRAM]: networks that cost a filling much, against second
implementations.

The networks are those of tools/bench/wide.py: own, cascade, same, hub and shed. In small, tables,
verdicts, levels and tiers are compared with tools/check/compare.py, one share after the other. With
--full each has 65,536 links and 131,072 tasks, and the table is compared with the one that `Steps`
below makes, one share after the other too, which keeps loads as closings come: it takes minutes.
Then `bwe-live`, the built one or that in BWE_LIVE, has to give the table of `solve` for the network
`chains`, in at most four times as long. The last line says how many agreed; the status is 0 where
all did.
"""

import heapq
import os
import random
import subprocess
import sys
import time
from concurrent.futures import ProcessPoolExecutor
from functools import partial
from pathlib import Path

TOP = Path(__file__).resolve().parents[2]
sys.path.append(str(TOP / "tools/bench"))

import compare  # noqa: E402
import wide  # noqa: E402

BWE_LIVE = os.environ.get("BWE_LIVE", TOP / "crates/bwe_live/out/bwe_live")
SMALL, FULL_LINKS, FULL_TASKS, FULL_TOP, SECONDS = 40, 65_536, 131_072, 1_000, 900
MOST_TIMES = 4  # as long as `solve` may `bwe-live` take for its first table


class Steps:
    """The filling of a network of `wide.hard`, one share after the other.

    In such a network a group has one job whose tasks want more than their function gives, each path
    group is one path, and each function is a line: a group's value at a share is what its tasks have
    together there.
    """

    def __init__(self, document):
        self.document, self.top = document, document["top"]
        self.numbers = {link["name"]: at for at, link in enumerate(document["links"])}
        self.capacities = [link["capacity"] for link in document["links"]]
        self.ways = [
            [[self.numbers[link] for link in paths[0]["links"]] for paths in group["paths"]]
            for group in document["groups"]
        ]
        self.jobs = [group["users"][0]["jobs"][0] for group in document["groups"]]
        self.slopes = [len(job["tasks"]) * (job["task"][-1][1] // self.top) for job in self.jobs]
        self.loads, self.over = [0] * len(self.capacities), []
        self.growth = [0] * len(self.capacities)  # of each link, by a share
        self.growing = set()  # the links that some group grows over
        self.users = [[] for _ in self.capacities]  # the groups that may grow there
        self.places = [0] * len(self.ways)
        self.amounts = [[0] * len(ways) for ways in self.ways]
        self.since = [0] * len(self.ways)  # the share from which a group grows on its place
        self.stops = [self.top] * len(self.ways)
        self.closed, self.closings = {}, []

    def fill(self):
        for group in range(len(self.ways)):
            self._come(group, 0)
        for share in range(self.top):
            self.over = [link for link in self.growing if self._is_over(link)]
            heapq.heapify(self.over)
            while self.over:
                link = heapq.heappop(self.over)
                if link not in self.closed and self._is_over(link):
                    self._close(link, share)
            for link in self.growing:
                self.loads[link] += self.growth[link]
        for group, place in enumerate(self.places):
            if place is not None:
                self._leave(group, self.top)

    def _is_over(self, link):
        return self.loads[link] + self.growth[link] > self.capacities[link]

    def _close(self, link, share):
        self.closed[link] = share
        self.closings.append(link)
        for group in self.users[link]:
            place = self.places[group]
            if place is None or link not in self.ways[group][place]:
                continue
            self._leave(group, share)
            following = range(place + 1, len(self.ways[group]))
            self.places[group] = next(
                (at for at in following if self.closed.keys().isdisjoint(self.ways[group][at])), None
            )
            if self.places[group] is None:
                self.stops[group] = share
            else:
                self._come(group, share)

    def _come(self, group, share):
        self.since[group] = share
        for link in self.ways[group][self.places[group]]:
            self.users[link].append(group)
            self.growth[link] += self.slopes[group]
            self.growing.add(link)
            if self._is_over(link):
                heapq.heappush(self.over, link)

    def _leave(self, group, share):
        place = self.places[group]
        self.amounts[group][place] = self.slopes[group] * (share - self.since[group])
        for link in self.ways[group][place]:
            self.growth[link] -= self.slopes[group]
            if not self.growth[link]:
                self.growing.discard(link)

    def lines(self):
        """The table text, line by line; each task has its part of its group's amount."""
        names = [link["name"] for link in self.document["links"]]
        order = {link: at for at, link in enumerate(self.closings)}
        yield f"table {len(self.document['script'])}"
        yield from (f"closing {names[link]} at {self.closed[link]}" for link in self.closings)
        yield from (f"link {name} load {load}" for name, load in zip(names, self.loads))
        limits, total = {}, 0
        for at, group in enumerate(self.document["groups"]):
            amount = sum(self.amounts[at])
            total += amount
            yield f"group {group['name']} share {self.stops[at]} amount {amount}"
            for place, (way, part) in enumerate(zip(self.ways[at], self.amounts[at])):
                by = min((link for link in way if link in order), key=order.get, default=None)
                state = "open" if by is None else f"closed by {names[by]}"
                yield f"place {place} amount {part} {state}"
            tasks = self.jobs[at]["tasks"]
            limits |= {task["name"]: amount // len(tasks) for task in tasks}
        yield from (
            f"task {task['name']} limit {limits[task['name']]}"
            for job in self.jobs
            for task in job["tasks"]
        )
        yield f"total {total}"

    def table(self):
        self.fill()
        return "".join(line + "\n" for line in self.lines())


def fault_in_small(program, item):
    """What is wrong with the answers to a small network, or None."""
    kind, seed = item
    dice = random.Random(f"{kind} {seed}")
    links = dice.randint(2 if kind != "shed" else 3, 12)
    tasks = dice.randint(links, 3 * links)
    document = wide.hard(kind, seed, links, tasks, top=dice.randint(2, 40))
    fault = compare.fault_of(program, document, dice)
    if fault is None and Steps(document).table() != compare.Filling(document).table(tasks):
        fault = "the two second implementations do not agree"
    return fault


def results(program, count):
    """Of each kind some networks of few links, each with what is wrong with the answers."""
    items = [(kind, seed) for kind in wide.KINDS for seed in range(count // len(wide.KINDS))]
    with ProcessPoolExecutor() as pool:
        faults = list(pool.map(partial(fault_in_small, program), items, chunksize=2))
    return [(f"{kind} {seed}", fault) for (kind, seed), fault in zip(items, faults)]


def fault_in_full(program, kind):
    document = wide.hard(kind, 1, FULL_LINKS - (kind == "shed"), FULL_TASKS, FULL_TOP)
    line = [program, "solve"]
    try:
        ran = subprocess.run(
            line, input=wide.text(document), capture_output=True, timeout=SECONDS
        )
    except subprocess.TimeoutExpired:
        return f"no table after {SECONDS} seconds"
    steps = Steps(document)
    wanted = steps.table().encode()
    print(f"{kind}: {len(steps.closings)} closings", flush=True)
    if ran.returncode == 0 and ran.stdout == wanted:
        return None
    pairs = zip(ran.stdout.split(b"\n"), wanted.split(b"\n"))
    return f"status {ran.returncode}, {next((pair for pair in pairs if pair[0] != pair[1]), None)}"


def timed(line, given):
    """What a program writes, and how many seconds it takes."""
    begun = time.perf_counter()
    ran = subprocess.run(line, input=given, capture_output=True, timeout=SECONDS)
    return ran.stdout, time.perf_counter() - begun


def fault_of_live(program):
    """`bwe-live` keeps what it is asked, of each group very much in this network."""
    document = wide.text(wide.chains(1))
    wanted, seconds = timed([program, "solve"], document)
    found, longer = timed([BWE_LIVE], b"%d\n%s" % (len(document), document))
    print(f"chains: solve {seconds:.1f} s, bwe-live {longer:.1f} s", flush=True)
    if not wanted.startswith(b"table ") or found != wanted:
        return "the tables differ"
    return f"{longer / seconds:.1f} times as long" if longer > MOST_TIMES * seconds else None


def main(words):
    if words[:1] == ["--help"]:
        print(__doc__)
        return 0
    is_full = words[:1] == ["--full"]
    words = words[is_full:]
    program = words[0] if words else str(TOP / "crates/bwe/out/bwe")
    if is_full:
        found = [(kind, fault_in_full(program, kind)) for kind in wide.KINDS]
        found.append(("chains", fault_of_live(program)))
    else:
        found = results(program, SMALL)
    faults = [(name, fault) for name, fault in found if fault is not None]
    for name, fault in faults:
        print(f"{name}: {fault}")
    print(f"hard networks: {len(found) - len(faults)} passed, {len(faults)} failed")
    return 1 if faults else 0


if __name__ == "__main__":
    sys.exit(main(sys.argv[1:]))
