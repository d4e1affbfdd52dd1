#!/usr/bin/python3
"""control/bench/agent.py [TASKS] [SECONDS]: what an agent of a thousand tasks costs its host.

As root. A table a second changes the limits of all tasks, in a store of SQLite; the agent measures
each second. The rows say how long a batch of as many changes took by the clock, and how much of one
processor the agent's process had, all its threads together, while nobody asked for its metrics.
"""

from __future__ import annotations

import os
import statistics
import sys
import tempfile
import time
from collections.abc import Iterator
from pathlib import Path
from urllib.request import urlopen

HERE = Path(__file__).resolve().parent
CONTROL = HERE.parent
sys.path[:0] = [str(CONTROL), str(CONTROL / "tests")]

from agent.control_plane import AgentChild, Leader  # noqa: E402
from agent.hosts import Hosts  # noqa: E402

PORT = 9101


def processor(pid: int) -> float:
    """The seconds that a process has had of processors."""
    words = Path(f"/proc/{pid}/stat").read_text().rpartition(")")[2].split()
    return (int(words[11]) + int(words[12])) / os.sysconf("SC_CLK_TCK")


def batch_seconds() -> float:
    """How long the last batch took, by the agent's metrics."""
    with urlopen(f"http://127.0.0.1:{PORT}/metrics") as page:
        text = page.read().decode()
    return float(text.split("\nbwe_agent_batch_seconds ")[1].split()[0])


def tables(leader: Leader, names: list[str], count: int) -> Iterator[None]:
    """Posts a table a second; each time, near the end of its second, the caller is asked."""
    began = time.monotonic()
    for number in range(count):
        base = leader.prefix * 7 + 2001
        leader.post({name: base + at % 7 for at, name in enumerate(names)})
        time.sleep(max(0.0, began + number + 0.9 - time.monotonic()))
        yield
        time.sleep(max(0.0, began + number + 1 - time.monotonic()))


def main() -> None:
    tasks, seconds = (int(word) for word in (sys.argv[1:] + ["1000", "20"][len(sys.argv) - 1 :]))
    names = [f"t{number}" for number in range(tasks)]
    text = "".join(
        f'[task.{name}]\nto = ["10.{at // 250 + 50}.{at % 250}.0/24"]\n'
        for at, name in enumerate(names)
    )
    with tempfile.TemporaryDirectory() as folder, Hosts() as hosts:
        leader = Leader(Path(folder) / "store")
        agent = AgentChild(hosts, Path(folder), leader, text, metrics=PORT)
        agent.start()
        agent.wait_for(leader.post(dict.fromkeys(names, 2000)))
        pid = hosts.children[-1].pid
        began, used = time.monotonic(), processor(pid)
        for _ in tables(leader, names, seconds):
            pass
        share = (processor(pid) - used) / (time.monotonic() - began)
        batches = [hosts.inside("a", batch_seconds) for _ in tables(leader, names, seconds)]
        in_force = agent.in_force()
    load = Path("/proc/loadavg").read_text().split()[0]
    print(f"{tasks} tasks, {2 * seconds} tables, last one in force: {in_force == leader.prefix}")
    print(f"a batch: {1000 * min(batches):.1f} ms, median {1000 * statistics.median(batches):.1f}")
    print(f"the agent: {100 * share:.1f} % of a processor; load {load}")


if __name__ == "__main__":
    main()
