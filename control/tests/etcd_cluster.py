"""A cluster of real members of etcd on free ports of the loopback."""

from __future__ import annotations

import signal
import socket
import subprocess
import time
from pathlib import Path

FLAGS = [
    "--max-request-bytes=8388608",
    "--auto-compaction-mode=periodic",
    "--auto-compaction-retention=5m",
    "--heartbeat-interval=50",
    "--election-timeout=500",
    "--unsafe-no-fsync",
]


def free_port() -> int:
    with socket.socket() as one:
        one.bind(("127.0.0.1", 0))
        return int(one.getsockname()[1])


class Cluster:
    """Members that can be paused, killed and started again. `flags` come behind the usual ones."""

    def __init__(self, folder: Path, members: int = 1, flags: list[str] | None = None) -> None:
        self._folder, self._flags = folder, flags or []
        self.ports = [(free_port(), free_port()) for _ in range(members)]
        self.running: list[subprocess.Popen[bytes] | None] = [None] * members

    @property
    def store(self) -> str:
        """The store's name for bwe-control."""
        return "etcd:" + ",".join(f"127.0.0.1:{client}" for client, _ in self.ports)

    def start(self, member: int) -> None:
        client, peer = self.ports[member]
        peers = ",".join(f"m{i}=http://127.0.0.1:{it[1]}" for i, it in enumerate(self.ports))
        words = [
            *["etcd", f"--name=m{member}", f"--data-dir={self._folder}/m{member}"],
            *[f"--listen-client-urls=http://127.0.0.1:{client}"],
            *[f"--advertise-client-urls=http://127.0.0.1:{client}"],
            *[f"--listen-peer-urls=http://127.0.0.1:{peer}"],
            *[f"--initial-advertise-peer-urls=http://127.0.0.1:{peer}"],
            *[f"--initial-cluster={peers}", "--logger=zap", *FLAGS, *self._flags],
        ]
        with open(self._folder / f"m{member}.log", "ab") as log:
            self.running[member] = subprocess.Popen(words, stdout=log, stderr=log)

    def kill(self, member: int) -> None:
        running = self.running[member]
        if running is not None:
            running.kill()
            running.wait()
        self.running[member] = None

    def pause(self, member: int) -> None:
        self._signal(member, signal.SIGSTOP)

    def resume(self, member: int) -> None:
        self._signal(member, signal.SIGCONT)

    def _signal(self, member: int, which: signal.Signals) -> None:
        running = self.running[member]
        assert running is not None
        running.send_signal(which)

    def wait(self) -> None:
        """Waits until the cluster answers."""
        from bwe_control.errors import StoreError
        from bwe_control.store.interface import Select
        from bwe_control.store.opening import open_store

        store, until = open_store(self.store), time.monotonic() + 30
        while True:
            try:
                store.read([Select("/bwe/")])
                break
            except StoreError:
                if time.monotonic() > until:
                    raise
                time.sleep(0.1)
        store.close()

    def __enter__(self) -> Cluster:
        for member in range(len(self.ports)):
            self.start(member)
        self.wait()
        return self

    def __exit__(self, *_: object) -> None:
        for member in range(len(self.ports)):
            self.kill(member)
