"""Tries a configuration in a network namespace of its own: a packet a match, and where it lands.

`agent check` runs it as `unshare --net python3 -m bwe_control.agent.trial CONFIG`. There the
configuration's device is one end of a pair, so no packet leaves the host. A line for each task and
prefix goes to standard output: the task, the prefix, and `ok`, or why not.
"""

from __future__ import annotations

import logging
import os
import socket
import subprocess
import sys
import time
from pathlib import Path

from bwe_control.agent.classifier import Classifier, cgroup_mount
from bwe_control.agent.config import Config, Prefix, Selector, Task, read_config
from bwe_control.agent.htb import MOST_RATE, REST, Change, Htb
from bwe_control.agent.netlink import Netlink
from bwe_control.agent.state import class_numbers
from bwe_control.errors import ControlError

DISCARD_PORT = 9
LONGEST_WAIT, PAUSE = 1.0, 0.005


def make_device(device: str) -> None:
    """A device of this name, which sends to all addresses without asking which host has them."""
    peer = "peer1" if device == "peer0" else "peer0"
    commands = f"""
        link add {device} type veth peer name {peer}
        link set {device} arp off up
        link set {peer} arp off up
        address add 198.18.0.1/32 dev {device}
        -6 address add 2001:2::1/128 dev {device} nodad
        route add default dev {device}
        -6 route add default dev {device}
    """
    for command in filter(None, map(str.strip, commands.splitlines())):
        subprocess.run(["ip", *command.split()], check=True, stderr=subprocess.DEVNULL)


def cgroup_folder(name: str) -> Path:
    """Where a cgroup stands in the file system."""
    return (cgroup_mount() or Path("/sys/fs/cgroup")) / name


def address_of(config: Config, task: Task, prefix: Prefix) -> str | None:
    """An address of the prefix that no longer prefix of another task has; None where all have."""
    longer = [
        other
        for one in config.tasks
        for other in one.match.prefixes
        if (one.match.selector, one.match.value) == (task.match.selector, task.match.value)
        and other.version == prefix.version
        and other.prefixlen > prefix.prefixlen
    ]
    middle = prefix.num_addresses // 2
    for address in (prefix[1 if middle > 1 else 0], prefix[middle], prefix[-1]):
        if not any(address in other for other in longer):
            return str(address)
    return None


def send_packet(task: Task, address: str) -> str:
    """Sends one packet that the match has, from a process of its own; why not, or nothing."""
    reading, writing = os.pipe()
    child = os.fork()
    if child == 0:
        why = ""
        try:
            _send(task, address)
        except OSError as error:
            why = error.strerror or str(error)
        os.write(writing, why.encode())
        os._exit(0)
    os.waitpid(child, 0)
    os.close(writing)
    with os.fdopen(reading) as pipe:
        return pipe.read()


def _send(task: Task, address: str) -> None:
    """Becomes what the selector asks for, and sends."""
    selector, value = task.match.selector, task.match.value
    protocol, port = "udp", DISCARD_PORT
    if selector is Selector.PORT:
        protocol, port = value.split()[0], int(value.split()[1])
    if selector is Selector.CGROUP:
        (cgroup_folder(value) / "cgroup.procs").write_text(str(os.getpid()))
    if selector is Selector.USER:
        os.setuid(int(value))
    kind = socket.SOCK_DGRAM if protocol == "udp" else socket.SOCK_STREAM
    family = socket.AF_INET6 if ":" in address else socket.AF_INET
    with socket.socket(family, kind) as sock:
        sock.setblocking(False)
        if selector is Selector.MARK:
            sock.setsockopt(socket.SOL_SOCKET, socket.SO_MARK, int(value))
        if protocol == "udp":
            sock.sendto(b"bwe", (address, port))
        else:
            sock.connect_ex((address, port))


class Trial:
    """The classes and the table of a configuration in this namespace."""

    def __init__(self, config: Config) -> None:
        make_device(config.device)
        self._config = config
        self._minors = class_numbers([task.name for task in config.tasks], {})
        self._names = {minor: name for name, minor in self._minors.items()}
        self._htb = Htb(Netlink(), config.device)
        self._htb.add_root()
        changes = [Change(minor, MOST_RATE) for minor in (REST, *self._minors.values())]
        self._htb.add_classes(changes, "pfifo")
        Classifier(config, self._minors).keep({})

    def landed(self, task: Task, prefix: Prefix) -> str:
        """`ok` where a packet of the match is counted in the task's class, else what came of it."""
        if task.match.selector is Selector.CGROUP and not cgroup_folder(task.match.value).is_dir():
            return "not tried: its cgroup is not there"
        address = address_of(self._config, task, prefix)
        if address is None:
            return (
                "not tried: longer prefixes of other tasks have the addresses that were looked at"
            )
        before = self._packets()
        why = send_packet(task, address)
        if why:
            return f"no packet could be sent: {why}"
        until = time.monotonic() + LONGEST_WAIT
        while True:
            grown = [minor for minor, now in self._packets().items() if now > before[minor]]
            if self._minors[task.name] in grown:
                return "ok"
            others = [self._names[minor] for minor in grown if minor != REST]
            if others:
                return f"its packet is of task {others[0]}"
            if time.monotonic() > until:
                return "its packet is of no task"
            time.sleep(PAUSE)

    def _packets(self) -> dict[int, int]:
        return {minor: state.packets for minor, state in self._htb.classes().items()}


def main() -> None:
    logging.disable(logging.INFO)
    try:
        config = read_config(Path(sys.argv[1]))
        trial = Trial(config)
    except (ControlError, subprocess.CalledProcessError) as error:
        print(error, file=sys.stderr)
        sys.exit(2)
    for task in config.tasks:
        for prefix in task.match.prefixes:
            print(task.name, prefix, trial.landed(task, prefix))


if __name__ == "__main__":
    main()
