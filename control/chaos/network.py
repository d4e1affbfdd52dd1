"""Hosts inside the cage: a network namespace each, on one bridge, with faults between them."""

import asyncio
from dataclasses import dataclass, field

from chaos.errors import ChaosError

BRIDGE = "10.77.0.254"  # the run itself and its recorder stand here, beside every partition
RULES = """
table inet chaos {
  set deaf { type ipv4_addr; }
  set mute { type ipv4_addr; }
  chain in { type filter hook input priority 0; ip saddr @deaf drop; }
  chain out { type filter hook output priority 0; ip daddr @mute drop; }
}
"""


async def call(*command: str, given: str = "", within: float = 30.0) -> str:
    """What a command writes; ChaosError where it fails or does not end in time."""
    process = await asyncio.create_subprocess_exec(
        *command,
        stdin=asyncio.subprocess.PIPE,
        stdout=asyncio.subprocess.PIPE,
        stderr=asyncio.subprocess.STDOUT,
    )
    try:
        out, _ = await asyncio.wait_for(process.communicate(given.encode()), within)
    except asyncio.TimeoutError:
        process.kill()
        await process.wait()
        raise ChaosError(f"no end within {within} s: {' '.join(command)}") from None
    text = out.decode(errors="replace")
    if process.returncode != 0:
        raise ChaosError(f"status {process.returncode} of {' '.join(command)}: {text.strip()}")
    return text


@dataclass
class Network:
    """Hosts by name, with their addresses."""

    addresses: dict[str, str] = field(default_factory=dict)

    async def open(self) -> None:
        await call("ip", "link", "add", "br0", "type", "bridge")
        await call("ip", "address", "add", f"{BRIDGE}/24", "dev", "br0")
        await call("ip", "link", "set", "br0", "up")

    async def add(self, host: str, address: str) -> None:
        self.addresses[host] = address
        outside = [
            f"netns add {host}",
            f"link add to-{host} type veth peer name eth0 netns {host}",
            f"link set to-{host} master br0 up",
        ]
        inside = [f"address add {address}/24 dev eth0", "link set eth0 up", "link set lo up"]
        await call("ip", "-batch", "-", given="\n".join(outside) + "\n")
        await call("ip", "-netns", host, "-batch", "-", given="\n".join(inside) + "\n")
        await self.inside(host, "nft", "-f", "-", given=RULES)

    def prefix(self, host: str) -> list[str]:
        """What stands before a command that runs on the host."""
        return ["ip", "netns", "exec", host]

    async def inside(self, host: str, *command: str, given: str = "") -> str:
        return await call(*self.prefix(host), *command, given=given)

    async def cut(self, host: str, other: str, ways: int = 2) -> None:
        """Drops what goes from `other` to `host`, with two ways also what goes back."""
        address = self.addresses[other]
        await self.inside(host, "nft", f"add element inet chaos deaf {{ {address} }}")
        if ways == 2:
            await self.inside(host, "nft", f"add element inet chaos mute {{ {address} }}")

    async def heal(self, host: str) -> None:
        for name in ("deaf", "mute"):
            await self.inside(host, "nft", f"flush set inet chaos {name}")

    async def plug(self, host: str, state: str) -> None:
        """Takes the host's cable out (`down`) or puts it in again (`up`)."""
        await call("ip", "link", "set", f"to-{host}", state)
