"""Limits are kept by the kernel: real TCP between two namespaces, and an agent that is killed.

Nothing here says how long anything takes: bytes are compared with what the limits allow in the time
that passed.
"""

from __future__ import annotations

import itertools
import subprocess
import time
from collections.abc import Iterator
from dataclasses import dataclass
from pathlib import Path

import pytest

from .control_plane import AgentChild, Leader, eventually
from .hosts import Hosts, traffic, why_no_kernel

LIMITS = {"large": 8000, "middle": 2000, "small": 1000}
FLOWS = {"large": 1, "middle": 1, "small": 8}
PORTS = {"large": 5001, "middle": 5002, "small": 5003}
SECONDS = 5.0
ROUNDING = 64_000  # bytes: what is on its way when a count begins or ends
TASKS = "".join(
    f'[task.{name}]\nto = ["10.41.0.0/24", "fd41::/64"]\nport = "tcp {port}"\n'
    for name, port in PORTS.items()
)


@dataclass
class Counts:
    """What was counted at one time: bytes of classes, bytes received, segments sent again."""

    at: float
    sent: dict[str, int]
    received: dict[str, int]
    retransmitted: dict[str, int]


class Site:
    """The hosts, an agent in force, and flows that send as fast as they are let."""

    def __init__(self, hosts: Hosts, folder: Path) -> None:
        self.hosts = hosts
        self.leader = Leader(folder / "store")
        self.agent = AgentChild(hosts, folder, self.leader, TASKS, every=0.2)
        self.agent.start()
        self.agent.wait_for(self.leader.post(LIMITS))
        self._files = {verb: folder / f"{verb}.log" for verb in ("receive", "send")}
        ports = [str(port) for port in PORTS.values()]
        self._start("b", "receive", *ports)
        sender = self._start("a", "send")
        assert sender.stdin is not None
        for name, flows in FLOWS.items():
            print("start", name, hosts.address["b"], PORTS[name], flows, 0, file=sender.stdin)
        sender.stdin.flush()
        eventually(lambda: all(self._last("receive").values()), "all flows send")

    def _start(self, host: str, verb: str, *more: str) -> subprocess.Popen[str]:
        child = self.hosts.start(host, *traffic([verb, str(self._files[verb]), "0.05", *more]))
        assert child.stdout is not None and child.stdout.readline() == "ready\n"
        return child

    def _last(self, verb: str) -> dict[str, int]:
        """The last number of each line of a log of the traffic."""
        found = dict.fromkeys(PORTS, 0)
        names = {str(port): name for name, port in PORTS.items()}
        for line in self._files[verb].read_text().splitlines():
            words = line.split()
            found[names.get(words[1], words[1])] = int(words[-1])
        return found

    def counts(self) -> Counts:
        """All counts now."""
        at, sent = time.monotonic(), self.agent.sent()
        return Counts(at, sent, self._last("receive"), self._last("send"))


@pytest.fixture(scope="module")
def site(tmp_path_factory: pytest.TempPathFactory) -> Iterator[Site]:
    if why := why_no_kernel():
        pytest.skip(why)
    with Hosts() as hosts:
        yield Site(hosts, tmp_path_factory.mktemp("site"))


def difference(before: dict[str, int], after: dict[str, int]) -> dict[str, int]:
    return {name: after[name] - before[name] for name in before}


def test_the_kernel_has_the_limits_of_the_slice_in_force(site: Site) -> None:
    assert site.agent.rates() == LIMITS


def test_each_task_sends_by_its_limit_and_not_by_its_flows(site: Site) -> None:
    before = site.counts()
    time.sleep(SECONDS)
    after = site.counts()
    seconds = after.at - before.at
    sent = difference(before.sent, after.sent)
    for name, limit in LIMITS.items():
        allowed = limit * 125 * seconds
        assert allowed / 2 <= sent[name] <= 1.05 * allowed + ROUNDING, (name, sent, seconds)
    assert sorted(sent, key=sent.__getitem__) == ["small", "middle", "large"]


def test_what_is_received_is_what_the_class_sent_without_its_headers(site: Site) -> None:
    counts = site.counts()
    for name, sent in counts.sent.items():
        payload = sent * 1448 / 1514
        assert abs(counts.received[name] - payload) <= 0.03 * payload + 256_000, (name, counts)


def test_a_killed_agent_adopts_its_classes_with_and_without_a_store(
    site: Site, tmp_path: Path
) -> None:
    before = site.agent.classes()
    site.agent.kill()
    assert site.agent.classes() == before
    site.agent.start(store=f"sqlite:{tmp_path}/none")
    assert site.agent.classes() == before
    site.agent.kill()
    site.agent.start()
    assert site.agent.classes() == before
    assert site.agent.text().count("3 of 3 classes were there") == 2


def test_changes_of_limits_and_a_restart_send_nothing_again(site: Site) -> None:
    before = site.counts()
    changes = itertools.cycle([(9000, 1500, 800), (3000, 6000, 2000), (8000, 2000, 1000)])
    for number, limits in zip(range(50), changes):
        prefix = site.leader.post(dict(zip(LIMITS, limits)))
        site.agent.wait_for(prefix)
        if number == 25:
            site.agent.kill()
            site.agent.start()
    assert site.agent.rates() == dict(zip(LIMITS, limits))
    time.sleep(0.5)
    assert site.counts().retransmitted == before.retransmitted


def test_demands_of_held_tasks_are_reported(site: Site) -> None:
    eventually(
        lambda: all(
            site.leader.reported().get(name, 0) >= 1.9 * limit
            for name, limit in site.agent.rates().items()
        ),
        f"held tasks ask for twice their limits: {site.leader.reported()}",
    )
