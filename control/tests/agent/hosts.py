"""Two network namespaces with a pair of devices between them, and what runs in them."""

from __future__ import annotations

import itertools
import os
import shutil
import subprocess
from collections.abc import Callable, Sequence
from concurrent.futures import ThreadPoolExecutor
from pathlib import Path
from types import TracebackType
from typing import TypeVar

from bwe_control.agent.device import may_change_network
from bwe_control.agent.htb import has_kind
from bwe_control.agent.netlink import Netlink
from demo.relay import enter

CONTROL = Path(__file__).resolve().parents[2]
PYTHON = "/usr/bin/python3"
Answer = TypeVar("Answer")
_numbers = itertools.count()


def why_no_kernel() -> str | None:
    """Why the tests with a kernel cannot run here, None where they can."""
    missing = [name for name in ("ip", "nft", "nsenter", "tc") if shutil.which(name) is None]
    if missing:
        return f"needs {', '.join(missing)}: tools/build/packages"
    if os.geteuid() != 0 or not may_change_network():
        return "needs root, for network namespaces"
    netlink = Netlink()
    try:
        if not has_kind(netlink, "htb"):
            return "this kernel has no HTB"
    finally:
        netlink.close()
    if subprocess.run(["unshare", "--net", "true"], capture_output=True, check=False).returncode:
        return "this kernel makes no network namespaces"
    return None


class Hosts:
    """The hosts `a`, which sends by its device `wan`, and `b`."""

    device = "wan"
    address = {"a": "10.41.0.1", "b": "10.41.0.2"}
    address6 = {"a": "fd41::1", "b": "fd41::2"}

    def __init__(self, queues: int = 1) -> None:
        mark = f"bwe{os.getpid() % 100000}n{next(_numbers)}"
        self.names = {host: f"{mark}{host}" for host in "ab"}
        self._queues = queues
        self.children: list[subprocess.Popen[str]] = []

    def __enter__(self) -> Hosts:
        for name in self.names.values():
            run("ip", "netns", "add", name)
        queues = f"numtxqueues {self._queues} numrxqueues {self._queues}"
        run(
            *f"ip link add wan {queues} netns {self.names['a']} type veth"
            f" peer name wan {queues} netns {self.names['b']}".split()
        )
        for host, name in self.names.items():
            for command in (
                f"address add {self.address[host]}/24 dev wan",
                f"address add {self.address6[host]}/64 dev wan nodad",
                "link set wan up",
                "link set lo up",
            ):
                run("ip", "-n", name, *command.split())
        return self

    def __exit__(
        self,
        kind: type[BaseException] | None,
        fault: BaseException | None,
        trace: TracebackType | None,
    ) -> None:
        for child in self.children:
            child.kill()
            child.wait()
        for name in self.names.values():
            run("ip", "netns", "delete", name)

    def command(self, host: str, *words: str) -> list[str]:
        """A command in the namespace of a host; its file system is that of all."""
        return ["nsenter", f"--net=/run/netns/{self.names[host]}", *words]

    def run(self, host: str, *words: str) -> str:
        """What a command in a host's namespace prints."""
        return run(*self.command(host, *words))

    def inside(self, host: str, work: Callable[[], Answer]) -> Answer:
        """What a call answers on a thread that is in the namespace of a host."""
        with ThreadPoolExecutor(1, initializer=enter, initargs=(self.names[host],)) as thread:
            return thread.submit(work).result()

    def start(self, host: str, *words: str, log: Path | None = None) -> subprocess.Popen[str]:
        """A child in a host's namespace, which is killed at the end; its errors go to `log`."""
        errors = log.open("a") if log else None
        child = subprocess.Popen(
            self.command(host, *words),
            stdin=subprocess.PIPE,
            stdout=subprocess.PIPE,
            stderr=errors,
            text=True,
            env={**os.environ, "PYTHONPATH": str(CONTROL)},
        )
        if errors:
            errors.close()
        self.children.append(child)
        return child


def run(*words: str) -> str:
    """What a command prints; the test fails with its errors where it fails."""
    done = subprocess.run(words, capture_output=True, text=True, check=False)
    assert done.returncode == 0, f"{' '.join(words)}: {done.stderr}"
    return done.stdout


def traffic(words: Sequence[str]) -> list[str]:
    """The command of the demonstration's sender or receiver."""
    return [PYTHON, str(CONTROL / "demo" / "traffic.py"), *words]
