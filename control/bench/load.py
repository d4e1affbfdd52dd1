#!/usr/bin/python3
"""control/bench/load.py: how fast the control plane is, on real stores and processes.

It starts a store (three members of etcd on this machine, or a folder of SQLite), one allocator, and
processes that put reports of 64 reporters with 312 tasks each at a rate, or of as many as --size
says; each report changes a twentieth of its demands. For each rate it writes a row: how long a put took, how long it took from
the put to a table that holds it, as a reader sees that, tables a second, and bytes a table writes.

    control/bench/load.py --store etcd --seconds 20 50 200 350 700
    control/bench/load.py --store sqlite --small 50
"""

from __future__ import annotations

import argparse
import itertools
import json
import multiprocessing
import random
import re
import statistics
import subprocess
import sys
import tempfile
import threading
import time
import urllib.request
from collections.abc import Iterator
from contextlib import contextmanager
from pathlib import Path
from typing import Any

HERE = Path(__file__).resolve().parent
ROOT = HERE.parents[1]
sys.path[:0] = [str(ROOT / "control"), str(ROOT / "control/tests"), str(ROOT / "tools/operator")]

from etcd_cluster import Cluster, free_port  # noqa: E402

from bwe_control.client import put_report  # noqa: E402
from bwe_control.keys import Keys  # noqa: E402
from bwe_control.store.interface import Put, Select  # noqa: E402
from bwe_control.store.opening import open_store  # noqa: E402
from bwe_control.values import posted_of, report_text  # noqa: E402

KEYS = Keys("load")
PROCESSES, THREADS = 4, 16
OF_VERSION_3 = (1_024, 20_000, 64)  # groups, tasks and reporters at most


def document(groups: int, tasks: int, reporters: int) -> dict[str, Any]:
    """Groups on links of their own and their neighbours', which hold some of them back."""
    names = [f"r{it}" for it in range(reporters)]
    links = [
        {"name": f"l{it}", "from": "a", "to": "b", "capacity": 1_000 + 37 * it % 2_000}
        for it in range(groups)
    ]
    return {
        "version": 3 if all(a <= b for a, b in zip((groups, tasks, reporters), OF_VERSION_3)) else 4,
        "top": 1_000_000,
        "links": links,
        "groups": [_group(it, groups, tasks, names) for it in range(groups)],
        "reporters": names,
        "script": [],
    }


def _group(number: int, groups: int, tasks: int, names: list[str]) -> dict[str, Any]:
    paths = [[{"weight": 1, "links": [f"l{(number + it) % groups}"]}] for it in range(2)]
    own = [
        {"name": f"t{it}", "reporter": names[it % len(names)]}
        for it in range(number, tasks, groups)
    ]
    job = {"name": "j", "task": [[0, 0], [1_000_000, 400]], "tasks": own}
    users = [{"name": "u", "jobs": [job]}]
    return {"name": f"g{number}", "from": "a", "to": "b", "paths": paths, "users": users}


class Reporters(multiprocessing.get_context("spawn").Process):
    """Some of the reporters, at a rate, in one process: put times, and puts with their revisions."""

    def __init__(
        self, store: str, reports: dict[str, list[str]], rate: float, seconds: float
    ) -> None:
        super().__init__()
        self._store, self._reports, self._rate, self._seconds = store, reports, rate, seconds
        self._out, self._in = multiprocessing.Pipe(duplex=False)

    def run(self) -> None:
        self._puts: list[tuple[int, float, float]] = []
        names = list(self._reports)
        threads = [
            threading.Thread(target=self._report, args=[names[one::THREADS]])
            for one in range(min(THREADS, len(names)))
        ]
        for it in threads:
            it.start()
        for it in threads:
            it.join()
        self._in.send(self._puts)

    def _report(self, names: list[str]) -> None:
        """Puts the reports of some reporters in turn, at their part of the rate."""
        chance, store = random.Random(names[0]), open_store(self._store)
        each = len(self._reports) / self._rate / len(names)
        demands = {it: {task: chance.randint(1, 100) for task in self._reports[it]} for it in names}
        until = time.monotonic() + self._seconds
        due = time.monotonic() + chance.random() * min(each, self._seconds)
        for name in itertools.cycle(names):
            if due >= until:
                break
            time.sleep(max(0.0, due - time.monotonic()))
            own = demands[name]
            for task in chance.sample(list(own), max(1, len(own) // 20)):
                own[task] = chance.randint(1, 100)
            begun = time.monotonic()
            revision = put_report(store, KEYS, name, report_text(own))
            self._puts.append((revision, begun, time.monotonic()))
            due = max(due + each, time.monotonic())
        store.close()

    def puts(self) -> list[tuple[int, float, float]]:
        found: list[tuple[int, float, float]] = self._out.recv()
        return found


class Watcher(threading.Thread):
    """A reader of the posted prefix, and when it saw which."""

    def __init__(self, store: str) -> None:
        super().__init__(daemon=True)
        self._store, self.seen = open_store(store), [(0, 0.0)]
        self.stopped = False

    def run(self) -> None:
        with self._store.bell([Select(KEYS.posted)]) as bell:
            while not self.stopped:
                entry = self._store.read([Select(KEYS.posted)]).found[0].one()
                prefix = posted_of(entry.value).prefix if entry else 0
                if prefix > self.seen[-1][0]:
                    self.seen.append((prefix, time.monotonic()))
                bell.wait(0.2)


@contextmanager
def started(kind: str, folder: Path) -> Iterator[str]:
    """The name of a store that runs."""
    if kind == "sqlite":
        yield f"sqlite:{folder / 'control'}"
        return
    with Cluster(folder, members=3, flags=["--unsafe-no-fsync=false"]) as cluster:
        yield cluster.store


def scraped(port: int) -> dict[str, float]:
    text = urllib.request.urlopen(f"http://127.0.0.1:{port}/metrics").read().decode()
    return {it[0]: float(it[1]) for it in re.findall(r"^(\w+) (\S+)$", text, re.M)}


def measured(store: str, shape: dict[str, Any], rate: float, seconds: float, port: int) -> str:
    """The row of one rate."""
    reports: dict[str, list[str]] = {name: [] for name in shape["reporters"]}
    for group in shape["groups"]:
        for task in group["users"][0]["jobs"][0]["tasks"]:
            reports[task["reporter"]].append(task["name"])
    watcher = Watcher(store)
    watcher.start()
    names = list(reports)
    parts = [{it: reports[it] for it in names[one::PROCESSES]} for one in range(PROCESSES)]
    running = [
        Reporters(store, part, rate * len(part) / len(names), seconds) for part in parts if part
    ]
    before, begun = scraped(port), time.monotonic()
    for it in running:
        it.start()
    puts = sorted(put for it in running for put in it.puts())
    lasted = time.monotonic() - begun
    time.sleep(2)
    watcher.stopped = True
    after = {name: it - before.get(name, 0.0) for name, it in scraped(port).items()}
    return _row(puts, watcher.seen, lasted, after)


def _row(
    puts: list[tuple[int, float, float]],
    seen: list[tuple[int, float]],
    lasted: float,
    after: dict[str, float],
) -> str:
    posted, at = [], 0
    for revision, begun, _ in puts:
        while at < len(seen) and seen[at][0] < revision:
            at += 1
        if at < len(seen):
            posted.append(seen[at][1] - begun)
    tables = after["bwe_control_posts_total"]
    size = after["bwe_control_written_bytes_total"] / max(1.0, tables)
    times = [
        1000
        * after[f"bwe_control_{it}_seconds_sum"]
        / max(1.0, after[f"bwe_control_{it}_seconds_count"])
        for it in ("read", "table", "write")
    ]
    return (
        f"| {len(puts) / lasted:.0f} | {_both([end - begun for _, begun, end in puts])} |"
        f" {_both(posted)} | {tables / lasted:.1f} | {size / 1000:.0f} kB |"
        f" {times[0]:.1f} / {times[1]:.1f} / {times[2]:.1f} ms |"
    )


def _both(times: list[float]) -> str:
    """The median and 99 of 100, in milliseconds."""
    ordered = sorted(times)
    late = ordered[min(len(ordered) - 1, len(ordered) * 99 // 100)]
    return f"{1000 * statistics.median(ordered):.0f} / {1000 * late:.0f} ms"


def main() -> None:
    told = argparse.ArgumentParser(
        description=__doc__, formatter_class=argparse.RawDescriptionHelpFormatter
    )
    told.add_argument("--store", choices=["sqlite", "etcd"], default="etcd")
    told.add_argument("--seconds", type=float, default=20)
    told.add_argument("--every", default="0")
    told.add_argument("--small", action="store_true", help="10 tasks of 2 reporters")
    told.add_argument(
        *["--size"],
        type=int,
        nargs=3,
        metavar=("GROUPS", "TASKS", "REPORTERS"),
        default=list(OF_VERSION_3),
    )
    told.add_argument("rates", type=float, nargs="+", metavar="RATE")
    given = told.parse_args()
    shape = document(*([2, 10, 2] if given.small else given.size))
    with tempfile.TemporaryDirectory() as folder, started(given.store, Path(folder)) as store:
        port = free_port()
        words = ["allocate", "--every", given.every, "--metrics", str(port), "--name", "load"]
        opened = open_store(store, makes_folder=True)
        opened.transact([], [Put(KEYS.document, json.dumps(shape).encode())])
        with open(Path(folder) / "log", "w", encoding="utf-8") as log:
            allocator = subprocess.Popen(
                [ROOT / "bwe-control", "--store", store, "--network", "load", *words],
                stdout=log,
                stderr=log,
            )
        try:
            while opened.read([Select(KEYS.posted)]).found[0].one() is None:
                time.sleep(0.1)
            print(
                "| reports/s | put, median / 99 % | put to posted | tables/s | a table writes |"
                " read / table / write |\n|---|---|---|---|---|---|"
            )
            for rate in given.rates:
                print(measured(store, shape, rate, given.seconds, port), flush=True)
        finally:
            allocator.terminate()
            allocator.wait()


if __name__ == "__main__":
    main()
