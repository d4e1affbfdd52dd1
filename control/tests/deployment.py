"""A deployment for one test: a network in a store, its commands as processes, and what it shows."""

from __future__ import annotations

import itertools
import os
import shutil
import signal
import subprocess
import sys
import time
from collections.abc import Callable, Sequence
from pathlib import Path

import pytest

from bwe_control.client import Limits, read_limits
from bwe_control.errors import ControlError
from bwe_control.keys import Keys
from bwe_control.store.interface import Put, Select, Store
from bwe_control.store.opening import open_store

ROOT = Path(__file__).resolve().parents[2]
PROGRAM = ROOT / "bwe-control"
TWO_FIBRES = ROOT / "control" / "tests" / "data" / "two-fibres.json"
PATIENCE = 40.0
numbers = itertools.count()


def built(variable: str, crate: str) -> Path | None:
    """A program that stands built, without a build of it."""
    if given := os.environ.get(variable):
        return Path(given)
    path = ROOT / "crates" / crate / "out" / crate
    return path if path.exists() else None


needs_live = pytest.mark.skipif(built("BWE_LIVE", "bwe_live") is None, reason="no built bwe-live")
needs_bwe = pytest.mark.skipif(built("BWE", "bwe") is None, reason="no built bwe")


class Deployment:
    """A network of its own in the store of a name."""

    def __init__(self, store: str, folder: Path) -> None:
        self.name, self.folder = store, folder
        self.keys = Keys(f"net-{next(numbers)}")
        self.environment = {
            **os.environ,
            "BWE_STORE": store,
            "BWE_NETWORK": self.keys.network,
            "PYTHONUNBUFFERED": "1",
        }
        self._store: Store | None = None
        self.processes: list[subprocess.Popen[bytes]] = []
        self.running: dict[str, subprocess.Popen[bytes]] = {}

    @property
    def store(self) -> Store:
        if self._store is None:
            self._store = open_store(self.name, makes_folder=True)
        return self._store

    def run(self, *words: str, given: bytes = b"", status: int | None = 0) -> str:
        """What a command writes; it has to end with the status. A fault is one sentence."""
        ran = subprocess.run(
            [PROGRAM, *words],
            input=given,
            capture_output=True,
            env=self.environment,
            timeout=PATIENCE,
            check=False,
        )
        told = ran.stderr.decode()
        assert "Traceback" not in told, told
        assert status is None or ran.returncode == status, (ran.returncode, ran.stdout, told)
        self.said = told
        return ran.stdout.decode()

    def init(self, document: bytes | None = None) -> int:
        """Puts the document past `bwe`, as an operator may by hand."""
        text = TWO_FIBRES.read_bytes() if document is None else document
        return self.store.transact([], [Put(self.keys.document, text)]).revision

    def report(self, reporter: str, text: str | bytes) -> int:
        value = text if isinstance(text, bytes) else text.encode()
        return self.store.transact([], [Put(self.keys.report(reporter), value)]).revision

    def start(
        self, *words: str, log: str, before: Sequence[str] = (), **more: str
    ) -> subprocess.Popen[bytes]:
        """A command that goes on; its log and output are in a file of the folder.

        `before` stands in front of the command, and `more` are variables.
        """
        with open(self.folder / log, "ab") as sink:
            one = subprocess.Popen(
                [*before, PROGRAM, *words], stdout=sink, stderr=sink, env={**self.environment, **more}
            )
        self.processes.append(one)
        return one

    def allocate(
        self, name: str, *options: str, before: Sequence[str] = (), **more: str
    ) -> subprocess.Popen[bytes]:
        words = ["allocate", "--name", name, "--every", "0.02", "--lease", "2", *options]
        return self.start(*words, log=f"{name}.log", before=before, **more)

    def log(self, name: str) -> str:
        return (self.folder / f"{name}.log").read_text()

    def value(self, key: str) -> bytes | None:
        entry = self.store.read([Select(key)]).found[0].one()
        return entry.value if entry else None

    def limits(self, reporter: str) -> Limits:
        return read_limits(self.store, self.keys, reporter)

    def shown(self, reporter: str) -> dict[str, int]:
        found = self.limits(reporter).slice
        return found.limits if found else {}

    def prefix(self) -> int:
        posted = self.limits("nobody").posted
        return posted.prefix if posted else 0

    def wait(self, holds: Callable[[], bool], what: str = "it") -> None:
        """Waits until something holds; a store that is away meanwhile is no fault."""
        until = time.monotonic() + PATIENCE
        while time.monotonic() < until:
            try:
                if holds():
                    return
            except ControlError:
                pass
            time.sleep(0.02)
        logs = "\n".join(f"{it}:\n{it.read_text()}" for it in self.folder.glob("*.log"))
        raise AssertionError(f"{what} did not come in {PATIENCE:g} s\n{logs}")

    def wait_posted(self, revision: int) -> None:
        self.wait(lambda: self.prefix() >= revision, f"a table of revision {revision}")

    def wait_leader(self, name: str) -> None:
        self.wait(lambda: self.value(self.keys.leader) == name.encode(), f"{name} as leader")

    def children(self, process: subprocess.Popen[bytes]) -> list[int]:
        """The processes that a process has started."""
        found = Path(f"/proc/{process.pid}/task/{process.pid}/children").read_text()
        return [int(it) for it in found.split()]

    def close(self) -> None:
        for one in self.processes:
            if one.poll() is None:
                one.send_signal(signal.SIGCONT)
                one.kill()
            one.wait()
        if self._store is not None:
            self._store.close()


def stores() -> list[str]:
    return ["sqlite", "etcd"]


def has_root() -> bool:
    return os.geteuid() == 0 and shutil.which("mount") is not None


__all__ = ["Deployment", "needs_bwe", "needs_live", "stores", "has_root", "sys"]
