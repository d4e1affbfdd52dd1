"""The demonstration's network: three sites and a fourth host, in network namespaces of its own.

    ha ── a1 ─────── ac: 30 Mbit/s, 15 ms ─────── rc ── hc
           └─ a2 ── ab: 40 Mbit/s, 2.5 ms ── rb ── bc: 40 Mbit/s, 15 ms ─┘
                                        hd ──┘

Site a has a border router for each of its lines, and one LAN. A line is a pair of TAP devices with
a relay between them, which is its delay; on each device a token bucket is its rate and its queue.
"""

from __future__ import annotations

import os
import subprocess
import sys
from collections.abc import Iterable
from dataclasses import dataclass
from pathlib import Path
from types import TracebackType

HERE = Path(__file__).resolve().parent
QUEUE_SECONDS, BURST_BYTES = 0.05, 6100
NICE = -15
NODES = ("m", "ha", "a1", "a2", "rb", "rc", "hc", "hd")
MANAGED = {"m": "10.9.0.1", "ha": "10.9.0.2", "hd": "10.9.0.3"}
SINK, SINK_BY_B = "10.3.0.10", "10.3.0.11"
MARKS = {"ac": 1, "abc": 2}


@dataclass(frozen=True)
class Line:
    """A line between two routers: its rate in kilobits per second, its delay one way."""

    name: str
    first: str
    second: str
    rate: int
    milliseconds: float


LINES = (
    Line("ac", "a1", "rc", 30_000, 15),
    Line("ab", "a2", "rb", 40_000, 2.5),
    Line("bc", "rb", "rc", 40_000, 15),
)
TRANSIT = {"ac": "10.0.1", "ab": "10.0.2", "bc": "10.0.3"}


class DemoError(Exception):
    """The demonstration cannot go on; the sentence says why."""


def run(*words: str, given: str | None = None) -> str:
    """What a command prints; a DemoError with its errors where it fails."""
    done = subprocess.run(words, input=given, capture_output=True, text=True, check=False)
    if done.returncode:
        raise DemoError(f"{' '.join(words)}: {done.stderr.strip()}")
    return done.stdout


def real_time(priority: int) -> list[str]:
    """What gives a command the processor before other work, where that is allowed."""
    words = ["chrt", "-f", str(priority)]
    is_allowed = subprocess.run([*words, "true"], capture_output=True, check=False).returncode == 0
    return words if is_allowed else []


def hurried() -> list[str]:
    """What puts a command before the other work of a busy machine, where that is allowed."""
    words = ["nice", "-n", str(NICE)]
    is_allowed = not subprocess.run([*words, "true"], capture_output=True, check=False).stderr
    return words if is_allowed else []


class Network:
    """Makes the namespaces and lines, and takes them away with all that runs in them."""

    def __init__(self) -> None:
        self._mark = f"bwedemo{os.getpid()}"
        self.children: list[subprocess.Popen[str]] = []

    def namespace(self, node: str) -> str:
        """The name of a node's network namespace."""
        return f"{self._mark}-{node}"

    def command(self, node: str, *words: str) -> list[str]:
        """A command in the network namespace of a node; its file system is that of all."""
        return ["nsenter", f"--net=/run/netns/{self.namespace(node)}", *words]

    def run(self, node: str, *words: str) -> str:
        """What a command in a node's namespace prints."""
        return run(*self.command(node, *words))

    def start(
        self, node: str, *words: str, log: Path, environment: dict[str, str] | None = None
    ) -> subprocess.Popen[str]:
        """A child in a node's namespace, which is killed at the end; its errors go to `log`."""
        with log.open("a") as errors:
            child = subprocess.Popen(
                self.command(node, *words),
                stdin=subprocess.PIPE,
                stdout=subprocess.PIPE,
                stderr=errors,
                text=True,
                env={**os.environ, **(environment or {})},
            )
        self.children.append(child)
        return child

    def __enter__(self) -> Network:
        try:
            for node in NODES:
                run("ip", "netns", "add", self.namespace(node))
                self._ip(node, ["link set lo up"])
                self.run(
                    node, "sysctl", "-qw", "net.ipv4.ip_forward=1", "net.ipv4.conf.all.rp_filter=0"
                )
            self._make_lans()
            for line in LINES:
                self._make_line(line)
            self._make_routes()
            self._make_management()
        except BaseException:
            self.__exit__(None, None, None)
            raise
        return self

    def __exit__(
        self,
        kind: type[BaseException] | None,
        fault: BaseException | None,
        trace: TracebackType | None,
    ) -> None:
        for child in reversed(self.children):
            child.kill()
            child.wait()
        for node in NODES:
            subprocess.run(
                ["ip", "netns", "delete", self.namespace(node)], check=False, capture_output=True
            )

    def set_rate(self, line: Line, rate: int) -> None:
        """The line carries so many kilobits per second from now on, in both directions."""
        for node in (line.first, line.second):
            self._shape(node, line.name, rate, "change")

    def _ip(self, node: str, commands: Iterable[str]) -> None:
        run(
            "ip",
            "-n",
            self.namespace(node),
            "-batch",
            "-",
            given="".join(f"{c}\n" for c in commands),
        )

    def _wire(self, node: str, device: str, other: str, other_device: str) -> None:
        """A pair of devices between two nodes."""
        ends = f"{device} netns {self.namespace(node)} type veth peer name {other_device}"
        run("ip", "link", "add", *ends.split(), "netns", self.namespace(other))
        self._ip(node, [f"link set {device} up"])
        self._ip(other, [f"link set {other_device} up"])

    def _make_lans(self) -> None:
        self._wire("ha", "lan", "a1", "to-ha")
        self._wire("a2", "lan", "a1", "to-a2")
        self._wire("hd", "lan", "rb", "to-hd")
        self._wire("hc", "lan", "rc", "to-hc")
        bridge = ["link add lan type bridge", "link set lan up"]
        bridge += ["link set to-ha master lan", "link set to-a2 master lan"]
        self._ip("a1", [*bridge, "address add 10.1.0.1/24 dev lan"])
        self._ip("a2", ["address add 10.1.0.2/24 dev lan"])
        self._ip("ha", ["address add 10.1.0.10/24 dev lan"])
        self._ip("rb", ["address add 10.4.0.1/24 dev to-hd"])
        self._ip("hd", ["address add 10.4.0.10/24 dev lan", "route add default via 10.4.0.1"])
        self._ip("rc", ["address add 10.3.0.1/24 dev to-hc"])
        hosts = [f"address add {address}/24 dev lan" for address in (SINK, SINK_BY_B)]
        self._ip("hc", [*hosts, "route add default via 10.3.0.1"])

    def _make_line(self, line: Line) -> None:
        words = [sys.executable, str(HERE / "relay.py")]
        for node in (line.first, line.second):
            words += [self.namespace(node), line.name]
        child = subprocess.Popen(
            [*words, str(line.milliseconds)],
            stdout=subprocess.PIPE,
            stdin=subprocess.DEVNULL,
            text=True,
        )
        self.children.append(child)
        if child.stdout is None or child.stdout.readline() != "ready\n":
            raise DemoError(f"the relay of line {line.name} did not start")
        for number, node in enumerate((line.first, line.second), 1):
            address = f"{TRANSIT[line.name]}.{number}/24"
            self._ip(node, [f"address add {address} dev {line.name}", f"link set {line.name} up"])
            self._shape(node, line.name, line.rate, "add")

    def _shape(self, node: str, device: str, rate: int, verb: str) -> None:
        limit = int(rate * 125 * QUEUE_SECONDS) + BURST_BYTES
        words = f"tc qdisc {verb} dev {device} root handle 1: tbf rate {rate}kbit"
        self.run(node, *words.split(), "burst", str(BURST_BYTES), "limit", str(limit))

    def _make_routes(self) -> None:
        """Host a chooses the path by its mark, site c's router the way back by the address."""
        ha = ["route add default via 10.1.0.1"]
        for name, router in (("ac", "10.1.0.1"), ("abc", "10.1.0.2")):
            table = 100 + MARKS[name]
            ha += [f"rule add fwmark {MARKS[name]} lookup {table}"]
            ha += [f"route add default via {router} table {table}"]
        self._ip("ha", ha)
        self._ip("a1", [f"route add 10.3.0.0/24 via {TRANSIT['ac']}.2"])
        self._ip("a2", [f"route add 10.3.0.0/24 via {TRANSIT['ab']}.2"])
        by_b = [f"route add 10.3.0.0/24 via {TRANSIT['bc']}.2"]
        self._ip("rb", [*by_b, f"route add 10.1.0.0/24 via {TRANSIT['ab']}.1"])
        rc = [f"route add {net} via {TRANSIT['bc']}.1" for net in ("10.4.0.0/24", "10.0.2.0/24")]
        rc += [f"route add 10.1.0.0/24 via {TRANSIT['bc']}.1 table 102"]
        rc += [f"rule add from {SINK_BY_B} lookup 102"]
        self._ip("rc", [*rc, f"route add 10.1.0.0/24 via {TRANSIT['ac']}.1"])

    def return_by(self, line: str) -> None:
        """Replies to host a leave site c by this line."""
        end = f"{TRANSIT[line]}.1"
        self._ip("rc", [f"route replace 10.1.0.0/24 via {end}"])

    def _make_management(self) -> None:
        """A network beside the lines, by which the hosts reach the store."""
        self._ip("m", ["link add mgmt type bridge", "link set mgmt up"])
        self._ip("m", [f"address add {MANAGED['m']}/24 dev mgmt"])
        for node, address in MANAGED.items():
            if node != "m":
                self._wire(node, "mgmt", "m", f"to-{node}")
                self._ip("m", [f"link set to-{node} master mgmt"])
                self._ip(node, [f"address add {address}/24 dev mgmt"])
