"""Datagrams over IPv6 by a device of several queues, which give place to one HTB."""

from __future__ import annotations

import time
from pathlib import Path

import pytest

from .control_plane import AgentChild, Leader, eventually
from .hosts import Hosts, traffic, why_no_kernel

LIMIT, OFFERED, PORT = 1000, 4000, 5001
SECONDS = 2.0


def test_datagrams_over_ipv6_keep_to_a_limit_on_a_device_of_queues(tmp_path: Path) -> None:
    if why := why_no_kernel():
        pytest.skip(why)
    with Hosts(queues=4) as hosts:
        leader = Leader(tmp_path / "store")
        tasks = f'[task.feed]\nto = ["fd41::/64"]\nport = "udp {PORT}"\n'
        agent = AgentChild(hosts, tmp_path, leader, tasks, every=0.2)
        agent.start()
        agent.wait_for(leader.post({"feed": LIMIT}))
        start_feed(hosts, tmp_path)
        eventually(lambda: agent.sent()["feed"] > 0, "datagrams are sent")
        at, before = time.monotonic(), agent.sent()["feed"]
        time.sleep(SECONDS)
        allowed = LIMIT * 125 * (time.monotonic() - at)
        sent = agent.sent()["feed"] - before
        assert allowed / 2 <= sent <= 1.05 * allowed + 64_000
        eventually(lambda: leader.reported()["feed"] >= 1.9 * LIMIT, "it asks for more")


def start_feed(hosts: Hosts, folder: Path) -> None:
    """Datagrams from `a` to `b`, four times what the limit allows."""
    for host, verb in (("b", "receive"), ("a", "send")):
        words = traffic([verb, str(folder / f"{verb}.log"), "1", *[str(PORT)] * (host == "b")])
        child = hosts.start(host, *words)
        assert child.stdout is not None and child.stdout.readline() == "ready\n"
    assert child.stdin is not None
    print("udp", "feed", hosts.address6["b"], PORT, OFFERED, file=child.stdin, flush=True)
