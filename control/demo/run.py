#!/usr/bin/python3
"""Runs the demonstration: `make demo`, or `make demo QUICK=1`. As root, on a kernel with HTB."""

from __future__ import annotations

import argparse
import os
import pickle
import shutil
import signal
import subprocess
import sys
import tempfile
import time
from collections.abc import Callable
from contextlib import suppress
from pathlib import Path
from types import FrameType

sys.path[0] = str(Path(__file__).resolve().parents[1])

from bwe_control.agent.netlink import Netlink
from bwe_control.agent.service import require_kernel
from bwe_control.agent.state import read_state
from bwe_control.errors import ControlError
from bwe_control.keys import Keys
from bwe_control.programs import find_program
from demo.costs import ThousandTasks, Throughput, queues, thousand_tasks
from demo.chain import AGENTS, Chain, wait_until
from demo.network import LINES, NICE, SINK, DemoError, Network, real_time
from demo.page import write_page
from demo.probes import Probes, read_counts
from demo.recording import Recording
from demo.scenario import FULL, ONE_PATH, QUICK, TASKS, TWO_PATHS, Event, Plan

HERE = Path(__file__).resolve().parent
TOP = HERE.parents[1]
DOCS = TOP / "docs"
COUNT_EACH = "0.05"
TRAFFIC_PRIORITY = 3
PLACE = {"direct": 0, "by b": 1}


class Demonstration:
    """One run of a plan."""

    def __init__(self, network: Network, folder: Path, plan: Plan, store: str) -> None:
        self._network, self._folder, self._plan = network, folder, plan
        self._chain = Chain(network, folder, store)
        self._senders: dict[str, subprocess.Popen[str]] = {}
        self._killed = ""
        self.recording = Recording(plan, store)
        self._actions: dict[str, Callable[..., None]] = {
            "nothing": lambda: None,
            "enforce": self._enforce,
            "report": lambda line, rate: self._chain.report(line, int(rate)),
            "line": self._change_line,
            "start": self._start_task,
            "stop": lambda name: self._tell(name, "stop", name),
            "second path": self._add_path,
            "drain": self._drain,
            "end of drain": self._end_drain,
            "kill leader": self._kill_leader,
            "start allocator": lambda: self._chain.start_allocator(self._killed),
            "kill agent": lambda: self._chain.end_agent("ha", kills=True),
            "start agent": lambda: self._chain.start_agent("ha"),
        }

    def run(self) -> Recording:
        """Prepares all, plays the events, and gives back what was recorded."""
        self._prepare()
        minors = {host: read_state(self._folder / f"{host}.state").minors for host in AGENTS}
        probes = Probes(self._network, minors)
        probes.start()
        time.sleep(self._plan.idle)
        for task in TASKS:
            self._start_task(task.name)
        time.sleep(self._plan.settling)
        self._play()
        self.recording.samples = probes.stop()
        self.recording.received = read_counts(self._folder / "received")
        for host in AGENTS:
            self.recording.sent.update(read_counts(self._folder / f"sent-{host}"))
        for path in self._folder.glob("*.log"):
            self.recording.logs[path.stem] = path.read_text()
        return self.recording

    def _prepare(self) -> None:
        chain = self._chain
        wait_until(lambda: self._is_put(ONE_PATH), "the store takes a document")
        for name in ("first", "second"):
            chain.start_allocator(name)
            wait_until(lambda: bool(chain.leader()), "an allocator leads")
        for host in AGENTS:
            chain.write_config(host, "observe")
            chain.start_agent(host)
        wait_until(lambda: bool(chain.read(Keys().posted)), "a table is posted")
        ports = [str(task.port) for task in TASKS]
        self._traffic("hc", "receive", "received", *ports)
        for host in AGENTS:
            self._senders[host] = self._traffic(host, "send", f"sent-{host}")

    def _is_put(self, document: str) -> bool:
        try:
            self._chain.init(document)
        except DemoError:
            return False
        return True

    def _traffic(self, node: str, verb: str, file: str, *ports: str) -> subprocess.Popen[str]:
        words = [
            *real_time(TRAFFIC_PRIORITY),
            str(HERE / "traffic.py"),
            verb,
            str(self._folder / file),
            COUNT_EACH,
            *ports,
        ]
        child = self._network.start(node, *words, log=self._folder / f"{file}.log")
        assert child.stdout is not None
        if child.stdout.readline() != "ready\n":
            raise DemoError(f"{verb} on {node} did not start")
        return child

    def _play(self) -> None:
        """Each event at its time, and the pulses of tasks that send by turns."""
        start = self.recording.start = time.monotonic()
        self.recording.clock = time.time() - time.monotonic()
        self.recording.machine = machine()
        for event in sorted([*self._plan.events, *self._pulses()], key=lambda event: event.at):
            time.sleep(max(0.0, start + event.at - time.monotonic()))
            before = time.monotonic()
            if event.label:
                print(f"{event.at:6.0f} s  {' '.join(event.label.split())}", flush=True)
            self._actions[event.action](*event.arguments)
            self.recording.done.append((event, before, time.monotonic()))
        time.sleep(max(0.0, start + self._plan.seconds - time.monotonic()))

    def _pulses(self) -> list[Event]:
        events = []
        for task in TASKS:
            if task.pulse is not None:
                on, period = task.pulse
                at = 0.0
                while at < self._plan.seconds:
                    events.append(Event(at, "start", (task.name,)))
                    events.append(Event(at + on, "stop", (task.name,)))
                    at += period
        return events

    def _tell(self, name: str, *words: object) -> None:
        task = next(task for task in TASKS if task.name == name)
        stdin = self._senders[task.host].stdin
        assert stdin is not None
        print(*words, file=stdin, flush=True)

    def _start_task(self, name: str) -> None:
        task = next(task for task in TASKS if task.name == name)
        self._tell(name, "start", name, SINK, task.port, task.flows, task.rate)

    def _enforce(self) -> None:
        for host in AGENTS:
            self._chain.end_agent(host, kills=False)
            self._chain.write_config(host, "enforce")
            self._chain.start_agent(host)

    def _change_line(self, name: str, rate: str) -> None:
        line = next(line for line in LINES if line.name == name)
        self._network.set_rate(line, int(rate))

    def _add_path(self) -> None:
        """First the table, by which each path has room for what it will carry; then the moves."""
        self._chain.replace(TWO_PATHS)
        self._chain.move({"copy": PLACE["by b"], "scav": PLACE["by b"]})

    def _drain(self) -> None:
        self._chain.report("ac", 0)
        self._chain.move({"web": PLACE["by b"], "cron": PLACE["by b"]})
        self._network.return_by("bc")

    def _end_drain(self) -> None:
        self._chain.move({"web": PLACE["direct"], "cron": PLACE["direct"]})
        self._network.return_by("ac")
        self._chain.report("ac", 30_000)

    def _kill_leader(self) -> None:
        self._killed = self._chain.kill_leader()


def machine() -> str:
    """The machine, and how busy it is, in a few words."""
    load = Path("/proc/loadavg").read_text().split()[1]
    return f"Linux {os.uname().release}, {os.cpu_count()} processors, load {load} at the start"


def why_not() -> str | None:
    """Why the demonstration cannot run here, None where it can."""
    try:
        for name in ("bwe", "bwe-live"):
            # In a repository that is not built, the command of the name would build it first.
            if find_program(name).parent == TOP:
                return f"{name} is not built yet: make bwe bwe_live"
        require_kernel(Netlink())
    except ControlError as error:
        return str(error)
    for command, package in (("ping", "iputils-ping"), ("iperf3", "iperf3")):
        if shutil.which(command) is None:
            return f"it needs {command}: apt-get install {package}"
    if subprocess.run(["unshare", "--net", "true"], capture_output=True, check=False).returncode:
        return "it needs root, for network namespaces"
    return None


def arguments() -> argparse.Namespace:
    parser = argparse.ArgumentParser(description=__doc__)
    parser.add_argument(
        "--quick", action="store_true", help="some 30 seconds, into a temporary folder"
    )
    parser.add_argument("--store", choices=["sqlite", "etcd"])
    parser.add_argument("--again", type=Path, help="draw a recording again")
    return parser.parse_args()


def ends(number: int, frame: FrameType | None) -> None:
    raise DemoError("it was ended by a signal")


def record(plan: Plan, store: str, folder: Path) -> Recording:
    """Plays a plan on a network that is made for it, and taken away after it."""
    signal.signal(signal.SIGTERM, ends)
    with suppress(PermissionError):
        os.setpriority(os.PRIO_PROCESS, 0, NICE)
    with Network() as network:
        return Demonstration(network, folder, plan, store).run()


def measure_costs(folder: Path) -> tuple[ThousandTasks, list[Throughput]]:
    """What the agent and HTB cost, on devices of their own."""
    print("what it costs", flush=True)
    mark = f"bwecosts{os.getpid()}"
    return thousand_tasks(mark, folder), queues(mark)


def main() -> int:
    given = arguments()
    if why := why_not():
        print(f"demo: {why}", file=sys.stderr)
        return 2
    plan = QUICK if given.quick else FULL
    store = given.store or ("sqlite" if given.quick else "etcd")
    folder = Path(tempfile.mkdtemp(prefix="bwe-demo-"))
    began = time.monotonic()
    try:
        if given.again:
            recording, costs = pickle.loads(given.again.read_bytes())
        else:
            recording = record(plan, store, folder)
            costs = None if given.quick else measure_costs(folder)
            (folder / "recording").write_bytes(pickle.dumps((recording, costs)))
    except (DemoError, ControlError) as error:
        print(f"demo: {error}; the logs are in {folder}", file=sys.stderr)
        return 1
    target = folder if given.quick else DOCS
    drawing = time.monotonic()
    for path in write_page(recording, target, costs):
        print(path)
    if given.quick:
        say_seconds(recording, began, drawing)
    return 0


def say_seconds(recording: Recording, began: float, drawing: float) -> None:
    """Says where the time went: what is above the plan is the machine's other work."""
    before, played = recording.start - began, recording.plan.seconds
    print(
        f"{before:.0f} s until all was ready, {played:.0f} s of events, "
        f"{drawing - recording.start - played:.0f} s to end it, "
        f"{time.monotonic() - drawing:.0f} s for the page; {recording.machine}"
    )


if __name__ == "__main__":
    sys.exit(main())
