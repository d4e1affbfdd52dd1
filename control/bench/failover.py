#!/usr/bin/python3
"""control/bench/failover.py [sqlite|etcd] [TIMES]: how long nobody posts when the leader goes.

Two allocators with a lease of 3 seconds; the one that leads is killed (kill -9), then ended (SIGTERM),
so many times each. A row says from the end of the leader to a table that holds a report that was put
right behind it.
"""

from __future__ import annotations

import signal
import statistics
import sys
import tempfile
import time
from contextlib import ExitStack
from pathlib import Path

HERE = Path(__file__).resolve().parent
ROOT = HERE.parents[1]
sys.path[:0] = [str(ROOT / "control"), str(ROOT / "control/tests"), str(ROOT / "tools/operator")]

from deployment import Deployment  # noqa: E402
from etcd_cluster import Cluster  # noqa: E402


def took(deployment: Deployment, how: signal.Signals, number: int) -> float:
    """Seconds from the end of the leader to the next table; then there are two again."""
    leader = (deployment.value(deployment.keys.leader) or b"").decode()
    running = deployment.running.pop(leader)
    running.send_signal(how)
    begun = time.monotonic()
    deployment.wait_posted(deployment.report("hosts", f"demand pages-0 {number}\n"))
    lasted = time.monotonic() - begun
    running.wait()
    deployment.running[f"a{number}"] = deployment.allocate(f"a{number}", "--lease", "3")
    deployment.wait(lambda: "tables are of" in deployment.log(f"a{number}"))
    return lasted


def main() -> None:
    kind, times = (sys.argv[1:] + ["etcd"])[0], int((sys.argv[2:] + ["10"])[0])
    with tempfile.TemporaryDirectory() as name, ExitStack() as stack:
        folder, store = Path(name), f"sqlite:{name}/control"
        if kind == "etcd":
            flags = ["--unsafe-no-fsync=false"]
            store = stack.enter_context(Cluster(folder, members=3, flags=flags)).store
        deployment = Deployment(store, folder)
        stack.callback(deployment.close)
        deployment.init()
        deployment.running = {it: deployment.allocate(it, "--lease", "3") for it in ("a1", "a2")}
        deployment.wait_posted(deployment.report("hosts", "demand pages-0 1\n"))
        deployment.wait(lambda: all("tables are of" in deployment.log(it) for it in ("a1", "a2")))
        for how in (signal.SIGKILL, signal.SIGTERM):
            found = sorted(took(deployment, how, 100 + how * 100 + it) for it in range(times))
            middle = statistics.median(found)
            print(
                f"{how.name}: {found[0]:.2f} to {found[-1]:.2f} s, median {middle:.2f}", flush=True
            )


if __name__ == "__main__":
    main()
