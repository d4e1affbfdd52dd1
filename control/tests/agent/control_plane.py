"""A store in a folder, written as the leader writes it, and an agent that follows it."""

from __future__ import annotations

import shutil
import subprocess
import time
from collections.abc import Callable
from pathlib import Path

from bwe_control.agent.htb import ClassState, Htb
from bwe_control.agent.netlink import Netlink
from bwe_control.agent.state import read_state
from bwe_control.keys import Keys
from bwe_control.store.interface import Operation, Put, Select
from bwe_control.store.opening import open_store
from bwe_control.values import Posted, Slice

from .hosts import CONTROL, Hosts

PATIENCE = 20.0
REPORTER = "host-a"


def eventually(holds: Callable[[], bool], what: str) -> None:
    """Waits until it holds; the test fails where it does not within PATIENCE."""
    until = time.monotonic() + PATIENCE
    while not holds():
        assert time.monotonic() < until, f"still not so: {what}"
        time.sleep(0.02)


class Leader:
    """Posts slices for one reporter."""

    def __init__(self, folder: Path) -> None:
        self.name = f"sqlite:{folder}"
        self._store = open_store(self.name, makes_folder=True)
        self._keys = Keys("main")
        self.prefix = 0

    def post(self, limits: dict[str, int], prefix: int | None = None) -> int:
        """Posts a table of these limits; its prefix."""
        self.prefix = self.prefix + 1 if prefix is None else prefix
        posted = Posted(self.prefix, 1, sum(limits.values())).text().encode()
        slice_ = Slice(self.prefix, 1, limits).text().encode()
        writes: list[Operation] = [Put(self._keys.limits(REPORTER), slice_)]
        self._store.transact([], [*writes, Put(self._keys.posted, posted)])
        return self.prefix

    def reported(self) -> dict[str, int]:
        """What is reported now, by the names of tasks and links."""
        entry = self._store.read([Select(self._keys.report(REPORTER))]).found[0].one()
        lines = entry.value.decode().splitlines() if entry else []
        return {line.split()[1]: int(line.split()[2]) for line in lines}


class AgentChild:
    """An agent as a process of host `a`."""

    def __init__(
        self,
        hosts: Hosts,
        folder: Path,
        leader: Leader,
        tasks: str,
        user: str = "root",
        **keys: object,
    ) -> None:
        self._user = user
        self._hosts, self._folder, self._leader = hosts, folder, leader
        self.config = folder / "agent.toml"
        self.log = folder / "agent.log"
        settings: dict[str, object] = {
            "device": hosts.device,
            "reporter": REPORTER,
            "mode": "enforce",
        }
        settings.update(keys)
        lines = [f"{key} = {toml(value)}\n" for key, value in settings.items()]
        self.config.write_text("".join(lines) + 'state = "state.json"\n' + tasks)
        self._child: subprocess.Popen[str] | None = None

    def start(self, store: str | None = None) -> None:
        """Starts it, and waits until its classes are in place."""
        before = self.text().count("stay as they are")
        words = ["--store", store or self._leader.name, "agent", str(self.config)]
        self._child = self._hosts.start("a", *self._as_user(), *bwe_control(*words), log=self.log)
        eventually(lambda: self.text().count("stay as they are") > before, self.text())

    def _as_user(self) -> list[str]:
        """What gives a command to another user than root, with CAP_NET_ADMIN alone."""
        if self._user == "root":
            return []
        for path in [self._folder, *self._folder.rglob("*")]:
            shutil.chown(path, self._user)
        for path in self._folder.parents:
            if path != Path("/") and not path.stat().st_mode & 0o001:
                path.chmod(path.stat().st_mode | 0o001)
        words = ["setpriv", f"--reuid={self._user}", "--regid=nogroup", "--clear-groups"]
        return [*words, "--inh-caps=-all,+net_admin", "--ambient-caps=-all,+net_admin"]

    def kill(self) -> None:
        """Ends it by SIGKILL."""
        assert self._child is not None
        self._child.kill()
        self._child.wait()

    def text(self) -> str:
        """Its log so far."""
        return self.log.read_text() if self.log.exists() else ""

    def in_force(self) -> int:
        """The prefix in force, by its state file."""
        return read_state(self.config.with_name("state.json")).prefix or 0

    def wait_for(self, prefix: int) -> None:
        """Waits until limits of this prefix are in force."""
        eventually(lambda: self.in_force() == prefix, f"prefix {prefix} in force: {self.text()}")

    def rates(self) -> dict[str, int]:
        """The rate that the kernel has for each task, in kilobits per second."""
        minors = read_state(self.config.with_name("state.json")).minors
        rates = {}
        for line in self.classes().splitlines():
            words = line.split()
            rates[int(words[2].split(":")[1], 16)] = words[words.index("rate") + 1]
        return {name: kilobits(rates[minor]) for name, minor in minors.items()}

    def classes(self) -> str:
        """What `tc class show` says."""
        return self._hosts.run("a", "tc", "class", "show", "dev", self._hosts.device)

    def sent(self) -> dict[str, int]:
        """The bytes that each task's class has sent."""
        minors = read_state(self.config.with_name("state.json")).minors
        classes = self._hosts.inside("a", self._classes)
        return {name: classes[minor].sent_bytes for name, minor in minors.items()}

    def _classes(self) -> dict[int, ClassState]:
        netlink = Netlink()
        try:
            return Htb(netlink, self._hosts.device).classes()
        finally:
            netlink.close()


def bwe_control(*words: str) -> list[str]:
    """The command line program of this checkout."""
    return [str(CONTROL.parent / "bwe-control"), *words]


def toml(value: object) -> str:
    """A value in TOML."""
    return str(value).lower() if isinstance(value, bool | int | float) else f'"{value}"'


def kilobits(text: str) -> int:
    """A rate as `tc` writes it."""
    for unit, factor in (("Tbit", 10**9), ("Gbit", 10**6), ("Mbit", 1000), ("Kbit", 1)):
        if text.endswith(unit):
            return int(float(text.removesuffix(unit)) * factor)
    return int(text.removesuffix("bit")) // 1000
