"""What keeping limits costs a host: a thousand tasks, and HTB's one lock on a device of queues.

Processor time is that of the processes concerned, so that what else the machine does counts less;
of what is measured several times the least is taken.
"""

from __future__ import annotations

import json
import os
import resource
import statistics
import subprocess
import time
from concurrent.futures import ThreadPoolExecutor
from contextlib import suppress
from dataclasses import dataclass, field
from pathlib import Path

from bwe_control.agent.classifier import Classifier
from bwe_control.agent.config import read_config
from bwe_control.agent.exchange import Report
from bwe_control.agent.htb import MOST_RATE, REST, Change, Htb
from bwe_control.agent.loop import Agent
from bwe_control.agent.netlink import Netlink
from bwe_control.agent.state import State, class_numbers
from bwe_control.client import Limits
from bwe_control.values import Posted, Slice
from demo.network import run
from demo.relay import enter

TASKS, BATCHES, ROUNDS, PRIORITY = 1000, 20, 20, 2
QUEUES, STREAMS, SECONDS, TIMES, PORT = 4, 4, 2, 2, 5201
GIGABIT = 1_000_000
WITHOUT, BY_QUEUES, UNHELD, KEPT = SETUPS = (
    "no qdisc",
    "`mq`, a pfifo for each queue",
    "HTB, classes without a limit",
    "HTB, its classes keep the rate",
)


@dataclass(frozen=True)
class ThousandTasks:
    """Times of an agent with a thousand tasks, in seconds: of a batch of as many changes, and the
    processor's for a slice with its batch and for a round."""

    batch_least: float
    batch_median: float
    slice_processor: float
    round_processor: float


@dataclass(frozen=True)
class Throughput:
    """What went over a device: its setup, the rate that was meant in Gbit/s (0: as fast as it
    goes), the rate that it was, and processor seconds a gigabyte."""

    setup: str
    meant: int
    gigabits: float
    processor: float


@dataclass
class Silent:
    """A control plane that has nothing to say but the slices it is given."""

    is_connected: bool = True
    next: Limits | None = None
    reports: list[Report] = field(default_factory=list)

    def limits(self) -> Limits | None:
        limits, self.next = self.next, None
        return limits

    def reported(self) -> Report | None:
        return Report()

    def report(self, report: Report) -> None:
        self.reports.append(report)


class Pair:
    """Two namespaces with a pair of devices `wan` of several queues between them."""

    def __init__(self, mark: str, queues: int) -> None:
        self.names = [f"{mark}-{end}" for end in "ab"]
        self._queues = queues

    def __enter__(self) -> Pair:
        for name in self.names:
            run("ip", "netns", "add", name)
        queues = f"numtxqueues {self._queues} numrxqueues {self._queues}"
        words = f"link add wan {queues} netns {self.names[0]} type veth"
        words += f" peer name wan {queues} netns {self.names[1]}"
        run("ip", *words.split())
        for number, name in enumerate(self.names, 1):
            run("ip", "-n", name, "address", "add", f"10.5.0.{number}/24", "dev", "wan")
            run("ip", "-n", name, "link", "set", "wan", "up")
        return self

    def __exit__(self, *fault: object) -> None:
        for name in self.names:
            run("ip", "netns", "delete", name)

    def thread(self) -> ThreadPoolExecutor:
        """A thread in the first namespace."""
        return ThreadPoolExecutor(1, initializer=enter, initargs=(self.names[0],))


def thousand_tasks(mark: str, folder: Path) -> ThousandTasks:
    """An agent of a thousand tasks, of which each slice changes all and each round measures all."""
    path = folder / "thousand.toml"
    tasks = "".join(
        f'[task.t{n}]\nto = ["10.{n // 250 + 10}.{n % 250}.0/24"]\n' for n in range(TASKS)
    )
    path.write_text('device = "wan"\nreporter = "r"\nmode = "enforce"\nstate = "s"\n' + tasks)
    with Pair(mark, 1) as pair, pair.thread() as thread:
        return thread.submit(_measure_thousand, path).result()


def _measure_thousand(path: Path) -> ThousandTasks:
    """Measures with a real-time priority, where that is allowed."""
    with suppress(PermissionError):
        os.sched_setscheduler(0, os.SCHED_FIFO, os.sched_param(PRIORITY))
    config = read_config(path)
    state = State(class_numbers([task.name for task in config.tasks], {}))
    exchange = Silent()
    classifier = Classifier(config, state.minors)
    agent = Agent(config, Htb(Netlink(), "wan"), "pfifo", classifier, exchange, state)
    agent.start()
    times, processor = [], []
    for number in range(1, BATCHES + 1):
        limits = {task.name: 1000 + number * (1 + at % 7) for at, task in enumerate(config.tasks)}
        exchange.next = Limits(number, Posted(number, 1, 0), Slice(number, 1, limits))
        before = time.thread_time()
        agent.take_limits()
        processor.append(time.thread_time() - before)
        times.append(agent.counts.batch_seconds)
    rounds = []
    for _ in range(ROUNDS):
        before = time.thread_time()
        agent.round()
        rounds.append(time.thread_time() - before)
    return ThousandTasks(
        min(times),
        statistics.median(times),
        statistics.median(processor),
        statistics.median(rounds),
    )


def queues(mark: str) -> list[Throughput]:
    """Streams over a device of queues at several rates: without a qdisc, with `mq`, with HTB.

    At 1 and 10 Gbit/s the senders keep to the rate by themselves, but in the last setup.
    """
    found = []
    with Pair(mark, QUEUES) as pair:
        for setup in SETUPS:
            for gigabits in (1, 10, 0):
                if gigabits or setup != KEPT:
                    limit = gigabits * GIGABIT if setup == KEPT else MOST_RATE
                    _set_up(pair, setup, limit)
                    paced = 0 if setup == KEPT else gigabits
                    runs = [_streams(pair, paced) for _ in range(TIMES)]
                    best = max(rate for rate, _ in runs), min(cost for _, cost in runs)
                    found.append(Throughput(setup, gigabits, *best))
    return found


def _set_up(pair: Pair, setup: str, limit: int) -> None:
    """The root of the sending device; with HTB a class a stream, by the receiver's port."""
    command = ["nsenter", f"--net=/run/netns/{pair.names[0]}"]
    if setup == WITHOUT:
        return
    if setup == BY_QUEUES:
        run(*command, *"tc qdisc replace dev wan root handle 1: mq".split())
        return
    with pair.thread() as thread:
        thread.submit(_classes, limit).result()
    ports = ", ".join(f"tcp . {PORT + n} : b3e:{n + 16:x}" for n in range(STREAMS))
    script = f"""table inet costs
        delete table inet costs
        table inet costs {{
        map ports {{ type inet_proto . inet_service : classid; elements = {{ {ports} }} ; }}
        chain output {{ type filter hook output priority filter;
        meta priority set meta l4proto . th dport map @ports
        }}
        }}
        """
    run(*command, "nft", "-f", "-", given=script)


def _classes(rate: int) -> None:
    htb = Htb(Netlink(), "wan")
    changes = [Change(REST, MOST_RATE)]
    changes += [Change(number + 16, max(1, rate // STREAMS)) for number in range(STREAMS)]
    if htb.root().kind == "htb":
        htb.change_classes(changes)
    else:
        htb.add_root(replace=True)
        htb.add_classes(changes, "pfifo")


def _streams(pair: Pair, paced: int) -> tuple[float, float]:
    """Gbit/s of all streams together, and the processor seconds of a gigabyte."""
    near, far = pair.names
    before = resource.getrusage(resource.RUSAGE_CHILDREN)
    servers, clients = [], []
    for number in range(STREAMS):
        port = str(PORT + number)
        words = ["nsenter", f"--net=/run/netns/{far}", "iperf3", "-s", "-1", "-p", port]
        servers.append(subprocess.Popen(words, stdout=subprocess.DEVNULL))
    time.sleep(0.3)
    for number in range(STREAMS):
        port = str(PORT + number)
        words = ["nsenter", f"--net=/run/netns/{near}", "iperf3", "-J", "-C", "cubic"]
        words += ["-c", "10.5.0.2", "-p", port, "-t", str(SECONDS)]
        words += ["-b", f"{paced * 1000 // STREAMS}M"] if paced else []
        clients.append(subprocess.Popen(words, stdout=subprocess.PIPE, text=True))
    answers = [json.loads(client.communicate()[0]) for client in clients]
    for server in servers:
        server.wait()
    after = resource.getrusage(resource.RUSAGE_CHILDREN)
    received = sum(answer["end"]["sum_received"]["bytes"] for answer in answers)
    seconds = max(answer["end"]["sum_received"]["seconds"] for answer in answers)
    spent = after.ru_utime + after.ru_stime - before.ru_utime - before.ru_stime
    return received * 8 / seconds / 1e9, spent / (received / 1e9)
