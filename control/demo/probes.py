"""Looks at the network while the demonstration runs: classes, lines and round trips, with times.

Times are seconds of the machine's monotonic clock. Each probe works in a namespace by a thread that
has entered it, and appends to lists that are read when the probes have stopped.
"""

from __future__ import annotations

import re
import struct
import subprocess
import threading
import time
from dataclasses import dataclass, field
from pathlib import Path

from bwe_control.agent.device import GET_LINK, LINK, device_index
from bwe_control.agent.htb import ClassState, Htb
from bwe_control.agent.netlink import Netlink, attributes
from demo.network import LINES, MARKS, SINK, SINK_BY_B, Line, Network, real_time
from demo.relay import enter

CLASSES_EACH, LINES_EACH = 0.02, 0.1
PINGS_A_SECOND = 20
STATISTICS = 23  # IFLA_STATS64
TRANSMITTED_BYTES = 3
REPLY = re.compile(r"icmp_seq=([0-9]+) .*time=([0-9.]+) ms")
PRIORITY = 5


@dataclass
class ClassSample:
    """A class as the kernel had it at a time."""

    at: float
    rate: int
    sent_bytes: int
    backlog_bytes: int
    drops: int


@dataclass
class Samples:
    """All that was seen: classes by task, bytes by line, round trips in milliseconds by path."""

    classes: dict[str, list[ClassSample]] = field(default_factory=dict)
    lines: dict[str, list[tuple[float, int]]] = field(default_factory=dict)
    trips: dict[str, list[tuple[float, float]]] = field(default_factory=dict)
    lost: dict[str, int] = field(default_factory=dict)


def transmitted(netlink: Netlink, device: str) -> int:
    """The bytes that a device has sent."""
    answer = netlink.get(GET_LINK, LINK.pack(0, 0, 0, device_index(device), 0, 0))
    assert answer is not None
    statistics = attributes(answer[LINK.size :])[STATISTICS]
    return int(struct.unpack_from("=Q", statistics, 8 * TRANSMITTED_BYTES)[0])


class Probes:
    """The probes of one network. `minors` has the class of each task, by its host."""

    def __init__(self, network: Network, minors: dict[str, dict[str, int]]) -> None:
        self._network, self._minors = network, minors
        self._stopped = threading.Event()
        self._pings: list[subprocess.Popen[str]] = []
        self.samples = Samples()
        self._threads = [
            threading.Thread(target=self._watch_classes, args=(host,)) for host in minors
        ]
        self._threads += [threading.Thread(target=self._watch_line, args=(line,)) for line in LINES]

    def start(self) -> None:
        for thread in self._threads:
            thread.start()
        for path, node, words in (
            ("ac", "ha", ("-m", str(MARKS["ac"]), SINK)),
            ("abc", "ha", ("-m", str(MARKS["abc"]), SINK_BY_B)),
            ("dbc", "hd", (SINK,)),
        ):
            interval = str(1 / PINGS_A_SECOND)
            command = self._network.command(
                node, *real_time(PRIORITY), "ping", "-n", "-D", "-i", interval
            )
            child = subprocess.Popen([*command, *words], stdout=subprocess.PIPE, text=True)
            self._pings.append(child)
            thread = threading.Thread(target=self._watch_ping, args=(path, child))
            thread.start()
            self._threads.append(thread)

    def stop(self) -> Samples:
        """Ends all probes; what they have seen."""
        self._stopped.set()
        for child in self._pings:
            child.terminate()
            child.wait()
        for thread in self._threads:
            thread.join()
        return self.samples

    def _watch_classes(self, host: str) -> None:
        enter(self._network.namespace(host))
        htb = Htb(Netlink(), "lan")
        names = {minor: name for name, minor in self._minors[host].items()}
        for name in names.values():
            self.samples.classes[name] = []
        while not self._stopped.wait(CLASSES_EACH):
            now = time.monotonic()
            for minor, state in htb.classes().items():
                if minor in names:
                    self._add(names[minor], now, state)

    def _add(self, name: str, now: float, state: ClassState) -> None:
        sample = ClassSample(now, state.rate, state.sent_bytes, state.backlog_bytes, state.drops)
        self.samples.classes[name].append(sample)

    def _watch_line(self, line: Line) -> None:
        enter(self._network.namespace(line.first))
        netlink = Netlink()
        samples = self.samples.lines.setdefault(line.name, [])
        while not self._stopped.wait(LINES_EACH):
            samples.append((time.monotonic(), transmitted(netlink, line.name)))

    def _watch_ping(self, path: str, child: subprocess.Popen[str]) -> None:
        offset = time.time() - time.monotonic()
        trips = self.samples.trips.setdefault(path, [])
        last = 0
        assert child.stdout is not None
        for text in child.stdout:
            found = REPLY.search(text)
            if found:
                # The time of the line is that of the reply's arrival.
                arrived = float(text[1 : text.index("]")]) - offset
                trips.append((arrived, float(found[2])))
                last = int(found[1])
        self.samples.lost[path] = last - len(trips)


def read_counts(path: Path) -> dict[str, list[tuple[float, tuple[int, ...]]]]:
    """The lines of a sender or receiver by their name: a time, and the numbers so far."""
    counts: dict[str, list[tuple[float, tuple[int, ...]]]] = {}
    for text in path.read_text().splitlines():
        at, name, *numbers = text.split()
        counts.setdefault(name, []).append((float(at), tuple(map(int, numbers))))
    return counts
