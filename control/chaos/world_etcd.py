"""The world on etcd: members, allocators and clients on hosts of their own, a relay before each."""

import asyncio
import json
from dataclasses import dataclass, field
from pathlib import Path

from chaos.cluster import Cluster
from chaos.errors import ChaosError
from chaos.network import Network
from chaos.scene import PREFIX
from chaos.world import ALLOCATORS, World, python

MEMBERS = Path("/run/members")  # their folders, in memory: a killed process loses nothing of it
PORT = 4001  # of the relay for the first member, on each host of a client


@dataclass
class Relay:
    """A relay that runs on a host."""

    process: asyncio.subprocess.Process

    def order(self, do: str, **more: object) -> None:
        assert self.process.stdin is not None
        self.process.stdin.write(json.dumps({"do": do, **more}).encode() + b"\n")


@dataclass
class EtcdWorld(World):
    network: Network = field(default_factory=Network)
    cluster: Cluster = field(init=False)
    relays: dict[str, Relay] = field(default_factory=dict)
    order: list[str] = field(default_factory=list)  # of the hosts of clients
    holding: dict[str, asyncio.Event] = field(
        default_factory=dict
    )  # a host's relay holds a request

    async def open_store(self) -> None:
        await self.network.open()
        MEMBERS.mkdir()
        self.cluster = Cluster(self.network, MEMBERS)
        await self.cluster.open()
        hosts = [*ALLOCATORS, *self.hosts]
        for number, host in enumerate(hosts, 11):
            await self.network.add(host, f"10.77.0.{number}")
        await asyncio.gather(*(self.open_relay(host) for host in hosts))
        self.order = hosts

    async def open_relay(self, host: str) -> None:
        ports = [f"{PORT + n}={member}" for n, member in enumerate(self.cluster.endpoints())]
        process = await asyncio.create_subprocess_exec(
            *self.network.prefix(host),
            *python("chaos.relay", f"{self.seed} {host}", *ports),
            stdin=asyncio.subprocess.PIPE,
            stdout=asyncio.subprocess.PIPE,
        )
        assert process.stdout is not None
        if not await process.stdout.readline():
            raise ChaosError(f"the relay of {host} did not start")
        self.relays[host] = Relay(process)
        self.holding[host] = asyncio.Event()
        self.serve(self.follow_relay(host, process.stdout))

    async def follow_relay(self, host: str, out: asyncio.StreamReader) -> None:
        while line := await out.readline():
            event = json.loads(line)
            self.log.write("relay", host=host, did=event["what"], event=event)
            if event["what"] == "held":
                self.holding[host].set()
        raise RuntimeError(f"the relay of {host} ended")

    def store(self, host: str) -> str:
        """Each host begins with another member."""
        first = self.order.index(host) % 3
        ports = [PORT + (first + n) % 3 for n in range(3)]
        return "etcd:" + ",".join(f"127.0.0.1:{port}" for port in ports)

    def on_host(self, host: str) -> list[str]:
        return self.network.prefix(host)

    def recorder(self) -> list[str]:
        return python("chaos.recorder")

    def recorder_arguments(self) -> list[str]:
        return self.cluster.endpoints()

    def putter(self) -> list[str]:
        members = self.store(self.hosts[0]).removeprefix("etcd:").split(",")
        return [*self.network.prefix(self.hosts[0]), *python("chaos.putter", *members)]

    async def heal(self) -> None:
        for relay in self.relays.values():
            relay.order("clear")
        for host in self.network.addresses:
            await self.network.plug(host, "up")
            await self.network.heal(host)
        for name in self.cluster.names:
            await self.cluster.restore(name)
        await self.cluster.wait()

    async def put_document(self, text: bytes) -> None:
        """Puts a document past all that `init` looks at."""
        await self.cluster.control("put", f"{PREFIX}document", given=text.decode())
