"""The whole chain as processes: the store, two allocators, an agent on each host that sends."""

from __future__ import annotations

import subprocess
import time
from collections.abc import Callable
from concurrent.futures import ThreadPoolExecutor
from pathlib import Path
from typing import TypeVar

from bwe_control.agent.config import read_config
from bwe_control.agent.service import move
from bwe_control.client import put_report, put_value, wait_posted
from bwe_control.errors import StoreAway
from bwe_control.keys import Keys
from bwe_control.store.interface import Select, Store
from bwe_control.store.opening import open_store
from bwe_control.values import report_text
from demo.network import MANAGED, DemoError, Network, hurried, run
from demo.relay import enter
from demo.scenario import LINE_RATES, TASKS, capacity

Answer = TypeVar("Answer")
TOP_FOLDER = Path(__file__).resolve().parents[2]
BWE_CONTROL = str(TOP_FOLDER / "bwe-control")
ETCD_FLAGS = ("--max-request-bytes=8388608", "--logger=zap")
PATIENCE = 60.0
AGENTS = {"ha": "hosts-a", "hd": "hosts-d"}


def wait_until(holds: Callable[[], bool], what: str) -> None:
    """Waits until a call holds; a DemoError where it does not within PATIENCE."""
    until = time.monotonic() + PATIENCE
    while not holds():
        if time.monotonic() > until:
            raise DemoError(f"gave up waiting: {what}")
        time.sleep(0.05)


class Chain:
    """Starts, kills and asks the parts of the control plane; `folder` has their files and logs."""

    def __init__(self, network: Network, folder: Path, store: str) -> None:
        self._network, self._folder = network, folder
        self.store = f"sqlite:{folder / 'store'}" if store == "sqlite" else self._start_etcd()
        self._allocators: dict[str, subprocess.Popen[str]] = {}
        self._agents: dict[str, subprocess.Popen[str]] = {}
        self._threads: dict[str, ThreadPoolExecutor] = {}
        self._operators: Store | None = None
        self._capacities = {name: capacity(rate) for name, rate in LINE_RATES.items()}

    def call(self, *words: str, given: str | None = None) -> str:
        """What a command of bwe-control prints, on the management host."""
        command = [*hurried(), BWE_CONTROL, "--store", self.store, *words]
        command = self._network.command("m", *command)
        return run(*command, given=given)

    def init(self, document: str) -> None:
        """Puts the first document."""
        path = self._folder / "document.json"
        path.write_text(document)
        self.call("init", str(path))

    def replace(self, document: str) -> None:
        """Puts another document, and waits until it is in force."""
        self._on("m", lambda: put_value(self._opened(), Keys().document, document.encode(), "it"))

        def is_in_force() -> bool:
            return self.read(Keys().accepted).partition("\n")[2] == document

        wait_until(is_in_force, "the document is in force")

    def start_allocator(self, name: str) -> None:
        """Starts an allocator."""
        words = [*hurried(), BWE_CONTROL, "--store", self.store, "allocate", "--name", name]
        log = self._folder / f"{name}.log"
        self._allocators[name] = self._network.start("m", *words, log=log)

    def leader(self) -> str:
        """The name of the allocator that leads, nothing where none does."""
        return self.read(Keys().leader)

    def read(self, key: str) -> str:
        """The value of a key, nothing where it is not there."""
        return self._on("m", lambda: self._read(key))

    def _read(self, key: str) -> str:
        try:
            entry = self._opened().read([Select(key)]).found[0].one()
        except StoreAway:
            return ""
        return entry.value.decode() if entry else ""

    def _opened(self) -> Store:
        """The store of the operator's thread."""
        if self._operators is None:
            self._operators = open_store(self.store)
        return self._operators

    def _on(self, node: str, work: Callable[[], Answer]) -> Answer:
        """What a call answers on the operator's thread in a node's namespace."""
        if node not in self._threads:
            name = self._network.namespace(node)
            self._threads[node] = ThreadPoolExecutor(1, initializer=enter, initargs=(name,))
        return self._threads[node].submit(work).result()

    def kill_leader(self) -> str:
        """Ends the leader by SIGKILL; its name."""
        name = self.leader()
        self._allocators[name].kill()
        self._allocators[name].wait()
        return name

    def report(self, line: str, rate: int) -> None:
        """The reporter `noc` reports a line's capacity, and waits until a table holds it."""
        self._capacities[line] = capacity(rate)
        self._on("m", self._report)

    def _report(self) -> None:
        store = self._opened()
        revision = put_report(store, Keys(), "noc", report_text({}, self._capacities))
        wait_posted(store, Keys(), revision, PATIENCE)

    def config(self, host: str) -> Path:
        """The configuration of a host's agent."""
        return self._folder / f"{host}.toml"

    def write_config(self, host: str, mode: str) -> None:
        """Writes it anew."""
        tasks = ""
        for task in TASKS:
            if task.host == host:
                tasks += f'[task.{task.name}]\nto = ["10.3.0.0/24"]\nport = "tcp {task.port}"\n'
                tasks += "paths = [1, 2]\n" if host == "ha" else ""
        settings = {"device": "lan", "reporter": AGENTS[host], "mode": mode, "store": self.store}
        text = "".join(f'{key} = "{value}"\n' for key, value in settings.items())
        text += f'every = 0.5\nwindow = 8\nstate = "{host}.state"\n'
        self.config(host).write_text(text + tasks)

    def start_agent(self, host: str) -> None:
        """Starts a host's agent, and waits until its classes are in place."""
        log = self._folder / f"{host}.log"
        before = log.read_text().count("stay as they are") if log.exists() else 0
        command = [*hurried(), BWE_CONTROL, "agent", str(self.config(host))]
        self._agents[host] = self._network.start(host, *command, log=log)
        wait_until(
            lambda: log.read_text().count("stay as they are") > before, f"agent of {host}: {log}"
        )

    def end_agent(self, host: str, kills: bool) -> None:
        """Ends an agent, by SIGKILL or by SIGTERM."""
        child = self._agents[host]
        child.kill() if kills else child.terminate()
        child.wait()

    def move(self, places: dict[str, int]) -> None:
        """Moves tasks of host a to other paths."""
        self._on("ha", lambda: move(read_config(self.config("ha")), places))

    def _start_etcd(self) -> str:
        """Three members on the management host; the store's name."""
        host = MANAGED["m"]
        ports = [(2379 + 10 * number, 2380 + 10 * number) for number in range(3)]
        cluster = ",".join(f"m{n}=http://{host}:{peer}" for n, (_, peer) in enumerate(ports))
        for number, (client, peer) in enumerate(ports):
            words = [
                *(
                    *hurried(),
                    "etcd",
                    f"--name=m{number}",
                    f"--data-dir={self._folder}/etcd{number}",
                ),
                f"--listen-client-urls=http://{host}:{client}",
                f"--advertise-client-urls=http://{host}:{client}",
                f"--listen-peer-urls=http://{host}:{peer}",
                f"--initial-advertise-peer-urls=http://{host}:{peer}",
                *(f"--initial-cluster={cluster}", *ETCD_FLAGS),
            ]
            self._network.start("m", *words, log=self._folder / f"etcd{number}.log")
        return "etcd:" + ",".join(f"{host}:{client}" for client, _ in ports)
