#!/usr/bin/python3
"""control/bench/changes.py: the processor time of a table after some of many reports have changed.

It starts a store (one member of etcd, or a folder of SQLite) and an allocator that leads, whose
`bwe-live` is control/bench/echo_live, puts a report for each reporter, and then again and again new
ones of 1, 40 and all reporters, in each of which a twentieth of the demands is another.

    control/bench/changes.py sqlite 1024 20000 4096
    control/bench/changes.py etcd 1024 20000 64
"""

from __future__ import annotations

import json
import os
import random
import subprocess
import sys
import tempfile
import time
from contextlib import ExitStack
from pathlib import Path

HERE = Path(__file__).resolve().parent
sys.path[:0] = [str(HERE.parent / it) for it in ("bench", "tests", "")]

from etcd_cluster import Cluster  # noqa: E402
from load import KEYS, ROOT, document  # noqa: E402

from bwe_control.errors import ControlError  # noqa: E402
from bwe_control.store.interface import Operation, Put, Select, Store  # noqa: E402
from bwe_control.store.opening import open_store  # noqa: E402
from bwe_control.values import posted_of, report_text  # noqa: E402

FLAGS = ["--max-request-bytes=400000000", "--quota-backend-bytes=8000000000"]
AT_ONCE = 60  # reports in a transaction
TICK = os.sysconf("SC_CLK_TCK")


def worked(process: int) -> float:
    """Processor time of a process, in seconds."""
    fields = Path(f"/proc/{process}/stat").read_text().rpartition(")")[2].split()
    return (int(fields[11]) + int(fields[12])) / TICK


def memory(process: int) -> int:
    """What it has in memory, in megabytes."""
    lines = Path(f"/proc/{process}/status").read_text().splitlines()
    return next(int(it.split()[1]) // 1024 for it in lines if it.startswith("VmRSS"))


def put(store: Store, operations: list[Operation]) -> int:
    """Puts reports, again where the store was busy; the revision at which they stand."""
    revision = 0
    for at in range(0, len(operations), AT_ONCE):
        while True:
            try:
                revision = store.transact([], operations[at : at + AT_ONCE]).revision
                break
            except ControlError:
                time.sleep(0.2)
    return revision


def wait_posted(store: Store, revision: int) -> None:
    while True:
        try:
            entry = store.read([Select(KEYS.posted)]).found[0].one()
        except ControlError:
            entry = None
        if entry is not None and posted_of(entry.value).prefix >= revision:
            return
        time.sleep(0.01)


def demands_of(groups: int, tasks: int, reporters: int) -> tuple[bytes, dict[str, dict[str, int]]]:
    """A document, and of each reporter the demands of its tasks."""
    whole, chance = document(groups, tasks, reporters), random.Random(1)
    demands: dict[str, dict[str, int]] = {it: {} for it in whole["reporters"]}
    for group in whole["groups"]:
        for task in group["users"][0]["jobs"][0]["tasks"]:
            demands[task["reporter"]][task["name"]] = chance.randint(1, 100)
    return json.dumps(whole, separators=(",", ":")).encode(), demands


def measure(store: Store, demands: dict[str, dict[str, int]], who: dict[str, int]) -> None:
    chance = random.Random(2)
    for number in (1, min(40, len(demands)), len(demands)):
        times = 5 if number == len(demands) else 40
        before = {name: worked(it) for name, it in who.items()}
        for _ in range(times):
            changed: list[Operation] = []
            for name in chance.sample(list(demands), number):
                own = demands[name]
                for task in chance.sample(list(own), max(1, len(own) // 20)):
                    own[task] = chance.randint(1, 100)
                changed.append(Put(KEYS.report(name), report_text(own)))
            wait_posted(store, put(store, changed))
        spent = {name: 1000 * (worked(it) - before[name]) / times for name, it in who.items()}
        each = ", ".join(f"{name} {it:.1f} ms" for name, it in spent.items())
        print(f"{number} changed: {each}", flush=True)


def main() -> None:
    kind, *sizes = sys.argv[1:]
    with ExitStack() as stack:
        folder = Path(stack.enter_context(tempfile.TemporaryDirectory()))
        who: dict[str, int] = {}
        name = f"sqlite:{folder / 'control'}"
        if kind == "etcd":
            cluster = stack.enter_context(Cluster(folder, members=1, flags=FLAGS))
            name, member = cluster.store, cluster.running[0]
            assert member is not None
            who["etcd"] = member.pid
        store = open_store(name, makes_folder=True)
        text, demands = demands_of(*map(int, sizes))
        store.transact([], [Put(KEYS.document, text)])
        last = put(store, [Put(KEYS.report(it), report_text(own)) for it, own in demands.items()])
        words = ["allocate", "--every", "0", "--lease", "30", "--stuck", "600"]
        allocator = subprocess.Popen(
            [ROOT / "bwe-control", "--store", name, "--network", KEYS.network, *words],
            env={**os.environ, "BWE_LIVE": str(HERE / "echo_live")},
        )
        stack.callback(allocator.wait)
        stack.callback(allocator.terminate)
        wait_posted(store, last)
        who["allocator"] = allocator.pid
        print(
            f"{kind} {' '.join(sizes)}: a document of {len(text) / 1e6:.1f} MB; first table after"
            f" {worked(allocator.pid):.1f} s of the allocator, {memory(allocator.pid)} MB"
        )
        measure(store, demands, who)


if __name__ == "__main__":
    main()
