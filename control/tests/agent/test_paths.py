"""Two path groups of a task on one host: its packets go by the one that it was moved to."""

from __future__ import annotations

from pathlib import Path

from .control_plane import AgentChild, Leader, bwe_control
from .hosts import CONTROL, PYTHON, Hosts

TASKS = '[task.web]\nto = ["10.41.0.0/24", "fd41::/64"]\npaths = [1, 2]\n'
SEND = (
    "import socket;"
    "socket.socket(socket.AF_INET, socket.SOCK_DGRAM).sendto(b'x', ('10.41.0.2', 9));"
    "socket.socket(socket.AF_INET6, socket.SOCK_DGRAM).sendto(b'x', ('fd41::2', 9))"
)


def two_routers(hosts: Hosts) -> None:
    """For each mark a router on the way to host `b`, which counts what comes to its address."""
    rules = ""
    for mark in (1, 2):
        mac = f"02:00:00:00:00:0{mark}"
        rules += f"counter c4_{mark} {{\n}}\ncounter c6_{mark} {{\n}}\n"
        for version, there, router in (
            ("4", "10.41.0.2", f"10.41.0.10{mark}"),
            ("6", "fd41::2", f"fd41::10{mark}"),
        ):
            for command in (
                f"rule add fwmark {mark} lookup {100 + mark}",
                f"neighbour add {router} lladdr {mac} dev wan",
                f"route add {there} via {router} dev wan table {100 + mark}",
            ):
                hosts.run("a", "ip", f"-{version}", *command.split())
    rules += "chain count { type filter hook ingress device wan priority 0;\n"
    for mark in (1, 2):
        for version, protocol in (("4", "ip"), ("6", "ip6")):
            rules += f"ether daddr 02:00:00:00:00:0{mark} ether type {protocol}"
            rules += f" meta l4proto udp counter name c{version}_{mark}\n"
    hosts.run("b", "nft", f"table netdev ways {{\n{rules} }}\n}}")


def passed(hosts: Hosts) -> dict[str, int]:
    """How many packets came by each router."""
    lines = hosts.run("b", "nft", "list", "counters", "table", "netdev", "ways").splitlines()
    names = [line.split()[1] for line in lines if "counter" in line]
    return dict(zip(names, (int(line.split()[1]) for line in lines if "packets" in line)))


def test_a_task_moves_to_its_other_path_group_at_once_and_stays_there(
    hosts: Hosts, tmp_path: Path
) -> None:
    two_routers(hosts)
    agent = AgentChild(hosts, tmp_path, Leader(tmp_path / "store"), TASKS, every=0.1)
    agent.start()
    hosts.run("a", PYTHON, "-c", SEND)
    assert passed(hosts) == {"c4_1": 1, "c6_1": 1, "c4_2": 0, "c6_2": 0}
    move = bwe_control("agent", "move", str(agent.config), "web=1")
    hosts.run("a", "env", f"PYTHONPATH={CONTROL}", *move)
    hosts.run("a", PYTHON, "-c", SEND)
    assert passed(hosts) == {"c4_1": 1, "c6_1": 1, "c4_2": 1, "c6_2": 1}
    agent.kill()
    agent.start()
    hosts.run("a", PYTHON, "-c", SEND)
    assert passed(hosts) == {"c4_1": 1, "c6_1": 1, "c4_2": 2, "c6_2": 2}
    assert "had been changed" not in agent.text()
