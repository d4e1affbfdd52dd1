"""The world of a run: the store, its recorder, and all who use it."""

import asyncio
import json
import random
import sys
from collections.abc import Coroutine
from dataclasses import dataclass, field
from pathlib import Path
from typing import Any

from chaos.actors import Clients, Daemon, Stage, start_putter
from chaos.errors import ChaosError
from chaos.log import Log, bytes_of
from chaos.network import call
from chaos.scene import NETWORK, PREFIX, READ_BY, REPORTERS, Reports, document
from chaos.values import posted_of

ALLOCATORS = ("a1", "a2", "a3")
HISTORY = "10"  # seconds that SQLite keeps, so that it is compacted in a run
CATCH_UP = 120.0  # seconds in which what is reported has to be posted once all is well


@dataclass
class World:
    """What both kinds of stores have in common."""

    folder: Path  # of the record
    root: Path  # of the tree with bwe-control
    seed: int
    rate: float  # reports a second, all reporters together, beside those by a command
    rng: random.Random = field(init=False)
    log: Log = field(init=False)
    stage: Stage = field(init=False)
    clients: Clients = field(init=False)
    allocators: dict[str, Daemon] = field(default_factory=dict)
    readers: list[Daemon] = field(default_factory=list)
    state: dict[str, str] = field(default_factory=dict)  # as the recorder sees it
    revision: int = 0
    services: list["asyncio.Task[None]"] = field(default_factory=list)  # recorder and relays
    players: list["asyncio.Task[None]"] = field(default_factory=list)
    reports: dict[str, Reports] = field(default_factory=dict)
    document: str = "plain"
    hosts: tuple[str, ...] = ("c1", "c2")

    def __post_init__(self) -> None:
        self.rng = random.Random(self.seed)
        self.log = Log(self.folder / "log.jsonl")
        self.stage = Stage(self.begin, self.log, self.folder)
        self.clients = Clients(self.stage)
        self.reports = {it: Reports(it, self.fork(it)) for it in REPORTERS}

    def fork(self, name: str) -> random.Random:
        """Chance of its own for one purpose, by the seed."""
        return random.Random(f"{self.seed} {name}")

    # What each kind of store has of its own.

    async def open_store(self) -> None:
        raise NotImplementedError

    def store(self, host: str) -> str:
        raise NotImplementedError

    def on_host(self, host: str) -> list[str]:
        raise NotImplementedError

    def recorder(self) -> list[str]:
        """The recorder's command, but for `record` or `read` and what follows."""
        raise NotImplementedError

    def recorder_arguments(self) -> list[str]:
        raise NotImplementedError

    def putter(self) -> list[str]:
        """The command of the putter of reports."""
        raise NotImplementedError

    async def heal(self) -> None:
        """Ends all faults of the store and the networks."""
        raise NotImplementedError

    # The rest.

    def begin(self, host: str) -> list[str]:
        command = [str(self.root / "bwe-control"), "--store", self.store(host)]
        return [*self.on_host(host), *command, "--network", NETWORK]

    def serve(self, work: Coroutine[Any, Any, None]) -> None:
        self.services.append(asyncio.create_task(work))

    def fault_of_a_task(self) -> None:
        """Raises what a task of the world ended with, if one did."""
        for task in [*self.services, *self.players]:
            if task.done() and not task.cancelled() and (fault := task.exception()):
                raise fault

    async def open(self) -> None:
        await self.open_store()
        await self.begin_with(self.folder / "document.json")
        self.serve(self.record())
        for name in ALLOCATORS:
            arguments = ["allocate", "--name", name, "--every", "0.05", "--history", HISTORY]
            self.allocators[name] = Daemon(
                self.stage, self.allocator_host(name), name, arguments, self.fork(name)
            )
        for number, reporter in enumerate((*READ_BY, READ_BY[0])):
            who = f"reader {number}"
            host = self.hosts[number % len(self.hosts)]
            arguments = ["limits", reporter, "--follow"]
            self.readers.append(Daemon(self.stage, host, who, arguments, self.fork(who), reporter))
        work = [it.run() for it in [*self.allocators.values(), *self.readers]]
        work += [self.keep_reporting(), self.keep_looking(), self.keep_putting()]
        self.players = [asyncio.create_task(it) for it in work]

    async def begin_with(self, path: Path) -> None:
        """Puts the first document."""
        path.write_bytes(document(self.document))
        await call(*self.begin(self.hosts[0]), "init", str(path), within=120)

    def allocator_host(self, name: str) -> str:
        return name

    async def keep_reporting(self) -> None:
        """Reports by the command, one after the other, and often reads what came of it."""
        rng = self.fork("reports")
        while True:
            await asyncio.sleep(rng.uniform(0, 1))
            reporter, host = rng.choice(REPORTERS), rng.choice(self.hosts)
            value = self.reports[reporter].next()
            told = await self.clients.report(host, reporter, value, rng.random() < 0.7)
            if told is not None and rng.random() < 0.6:
                await self.clients.limits(rng.choice(self.hosts), rng.choice(READ_BY))

    async def keep_looking(self) -> None:
        """Reads by the command, one read after the other, on any host."""
        rng = self.fork("looks")
        while True:
            await asyncio.sleep(rng.uniform(0, 1))
            await self.clients.limits(rng.choice(self.hosts), rng.choice(READ_BY))

    async def keep_putting(self) -> None:
        """Puts reports past the command, for little."""
        rng, putter = self.fork("puts"), await start_putter(self.putter(), self.stage)
        self.serve(putter.follow())
        while True:
            await asyncio.sleep(rng.expovariate(self.rate))
            reporter = rng.choice(REPORTERS)
            putter.put(f"{PREFIX}report/{reporter}", reporter, self.reports[reporter].next())

    async def record(self) -> None:
        """Runs the recorder, and keeps the state that it tells."""
        arguments = ["record", f"/bwe/{NETWORK}/", str(self.folder / "history.jsonl")]
        process = await asyncio.create_subprocess_exec(
            *self.recorder(),
            *arguments,
            *self.recorder_arguments(),
            stdout=asyncio.subprocess.PIPE,
            limit=1 << 26,
        )
        assert process.stdout is not None
        while line := await process.stdout.readline():
            transaction = json.loads(line)
            self.revision = transaction.get("seen", self.revision)
            if "revision" in transaction:
                self.state.update(transaction["puts"])
                for key in transaction["deletes"]:
                    self.state.pop(key, None)
                self.revision = transaction["revision"]
        raise RuntimeError(f"the recorder ended with status {await process.wait()}")

    async def replay(self) -> None:
        """Keeps what `replay` prints; where it fails, the log says why."""
        try:
            text = await call(*self.begin(self.hosts[0]), "replay", within=300)
        except ChaosError as fault:
            self.log.write("no replay", text=str(fault))
            return
        (self.folder / "replay.txt").write_text(text)

    async def read_final(self) -> None:
        """Reads all keys once more for themselves, and waits until the recorder has them."""
        process = await asyncio.create_subprocess_exec(
            *self.recorder(),
            *["read", f"/bwe/{NETWORK}/", *self.recorder_arguments()],
            stdout=asyncio.subprocess.PIPE,
        )
        out, _ = await asyncio.wait_for(process.communicate(), 300)
        await asyncio.sleep(5)
        (self.folder / "final.json").write_bytes(out)

    def leader(self) -> str | None:
        """The allocator that leads, as far as the recorder knows."""
        name = self.state.get("leader", "").strip()
        return name if name in self.allocators else None

    async def catch_up(self) -> bool:
        """Whether what is reported from now on, as all is well, is posted in time."""
        loop = asyncio.get_running_loop()
        start, revision = loop.time(), self.revision
        while not (caught := self.posted() > revision) and loop.time() - start < CATCH_UP:
            self.fault_of_a_task()
            await asyncio.sleep(0.1)
        seconds = round(loop.time() - start, 1)
        self.log.write("calm", caught=caught, seconds=seconds, revision=self.revision)
        return caught

    def posted(self) -> int:
        """The posted prefix, as far as the recorder knows."""
        found = posted_of(bytes_of(self.state.get("posted", "")))
        return found.prefix if found else 0

    async def close(self) -> None:
        """Stops all who play, and reads what is left: the keys, and the run for audit."""
        for task in self.players:
            task.cancel()
        await asyncio.gather(*self.players, return_exceptions=True)
        await self.replay()
        await self.read_final()
        for task in self.services:
            task.cancel()
        await asyncio.gather(*self.services, return_exceptions=True)


def python(*arguments: str) -> list[str]:
    """A program of this package."""
    return [sys.executable, "-m", *arguments]
