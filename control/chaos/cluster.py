"""Three etcd members, each on a host of its own."""

import asyncio
import shutil
import signal
from dataclasses import dataclass, field
from pathlib import Path

from chaos.actors import send
from chaos.errors import ChaosError, NotHere
from chaos.network import Network, call

QUOTA = 16 * 1024 * 1024  # bytes of a member's database, few so that it can be filled


def check() -> None:
    """Raises NotHere where there is no etcd."""
    for tool, package in (("etcd", "etcd-server"), ("etcdctl", "etcd-client")):
        if shutil.which(tool) is None:
            raise NotHere(f"chaos on etcd needs the command {tool}: apt-get install {package}")


@dataclass
class Cluster:
    network: Network
    folder: Path
    names: tuple[str, ...] = ("m1", "m2", "m3")
    members: dict[str, asyncio.subprocess.Process] = field(default_factory=dict)

    async def open(self) -> None:
        for number, name in enumerate(self.names, 1):
            await self.network.add(name, f"10.77.0.{number}")
            await self.start(name)
        await self.wait()

    def url(self, name: str, port: int = 2379) -> str:
        return f"http://{self.network.addresses[name]}:{port}"

    def endpoints(self) -> list[str]:
        return [f"{self.network.addresses[name]}:2379" for name in self.names]

    async def start(self, name: str) -> None:
        peers = ",".join(f"{it}=http://10.77.0.{n}:2380" for n, it in enumerate(self.names, 1))
        output = (self.folder / f"{name}.log").open("ab")
        command = [
            *self.network.prefix(name),
            *["etcd", "--name", name, "--data-dir", str(self.folder / name)],
            *["--listen-client-urls", self.url(name), "--advertise-client-urls", self.url(name)],
            *["--listen-peer-urls", self.url(name, 2380)],
            *["--initial-advertise-peer-urls", self.url(name, 2380)],
            *["--initial-cluster", peers, "--logger", "zap", "--log-level", "error"],
            *["--max-request-bytes", "8388608", "--quota-backend-bytes", str(QUOTA)],
            *["--snapshot-count", "500"],
        ]
        with output:
            self.members[name] = await asyncio.create_subprocess_exec(
                *command, stdin=asyncio.subprocess.DEVNULL, stdout=output, stderr=output
            )

    def signal(self, name: str, what: signal.Signals) -> None:
        send(self.members[name], what)

    async def kill(self, name: str) -> None:
        self.signal(name, signal.SIGKILL)
        await self.members[name].wait()

    async def restore(self, name: str) -> None:
        """Sees that the member runs."""
        self.signal(name, signal.SIGCONT)
        if self.members[name].returncode is not None:
            await self.start(name)

    async def control(self, *arguments: str, given: str = "", member: str = "") -> str:
        """What etcdctl answers to the run, which no partition cuts off."""
        names = [member] if member else list(self.names)
        endpoints = ",".join(self.url(name) for name in names)
        command = ["etcdctl", "--endpoints", endpoints, "--command-timeout", "4s", *arguments]
        return await call("env", "ETCDCTL_API=3", *command, given=given)

    async def wait(self, patience: float = 60.0) -> None:
        """Waits until a linearizable read is answered."""
        end = asyncio.get_running_loop().time() + patience
        while True:
            try:
                await self.control("get", "/ready")
                return
            except ChaosError:
                if asyncio.get_running_loop().time() > end:
                    raise
                await asyncio.sleep(0.3)
