"""A relay between the clients on one host and the members of the store.

It stands on the client's host, one port a member, and passes bytes on: late where it is told to, as
over a slow network. It can hold back one request, letting all others by, and deliver it seconds
later, even after the client has given up; and it can carry a request out and lose its answer.

Commands come as lines of JSON on standard input, events go out so on standard output.
"""

import asyncio
import json
import random
import sys
import time
from collections.abc import Callable
from dataclasses import dataclass, field

from chaos.frames import DATA, RESET, Frame, Frames

# What a request has to contain, each of them, to be the one that is meant.
MATCHES = {
    "post": [b"/posted", b"prefix ", b" total "],
    "report": [b"/report/", b"demand "],
}
LINGER = 1.0  # seconds that a member has for a late request before its connection ends


@dataclass
class Orders:
    """What the relay is told to do now."""

    low: float = 0.0  # seconds from a request to its answer, at least
    high: float = 0.0  # and at most
    stalled: bool = False
    hold: tuple[str, float] | None = None  # what to hold, for how many seconds
    lose: str | None = None  # the answer of what to lose
    chance: random.Random = field(default_factory=random.Random)

    def one_way(self) -> float:
        return self.chance.uniform(self.low, self.high) / 2

    def matches(self, name: str, frame: Frame) -> bool:
        return frame.kind == DATA and all(part in frame.bytes for part in MATCHES[name])


def tell(what: str, **more: object) -> None:
    print(json.dumps({"at": time.monotonic(), "what": what, **more}), flush=True)


class Pipe:
    """Bytes on their way to one end, in order, each piece once its time has come."""

    def __init__(self, writer: asyncio.StreamWriter, orders: Orders) -> None:
        self.writer = writer
        self.orders = orders
        self.queue: asyncio.Queue[tuple[float, bytes | None]] = asyncio.Queue()
        self.muted = False

    def put(self, piece: bytes | None) -> None:
        self.queue.put_nowait((time.monotonic() + self.orders.one_way(), piece))

    async def run(self) -> None:
        due = 0.0
        while True:
            at, piece = await self.queue.get()
            due = max(due, at)
            while time.monotonic() < due or self.orders.stalled:
                await asyncio.sleep(min(0.05, max(0.001, due - time.monotonic())))
            if piece is None:
                return
            if not self.muted:
                self.writer.write(piece)
                await self.writer.drain()


class Connection:
    """One connection of a client, and the relay's own one to the member."""

    def __init__(self, orders: Orders, client: asyncio.StreamWriter, member: asyncio.StreamWriter):
        self.orders = orders
        self.client = client
        self.to_client = Pipe(client, orders)
        self.to_member = Pipe(member, orders)
        self.frames = Frames()
        self.held: list[Frame] | None = None  # what is held back, from the request on
        self.late: asyncio.Task[None] | None = None

    def pass_on(self, piece: bytes) -> None:
        """Takes bytes of the client."""
        frames = self.frames.feed(piece)
        start = self.start_of_hold(frames)
        for place, frame in enumerate(frames):
            if place == start:
                self.hold_back()
            if self.held is not None:
                self.held.append(frame)
                continue
            self.to_member.put(frame.bytes)
            if self.orders.lose is not None and self.orders.matches(self.orders.lose, frame):
                self.lose_answer()

    def start_of_hold(self, frames: list[Frame]) -> int | None:
        """Where a request begins that is to be held, with its headers: they have its deadline."""
        if self.orders.hold is None or self.held is not None:
            return None
        for frame in frames:
            if self.orders.matches(self.orders.hold[0], frame):
                return [it.stream for it in frames].index(frame.stream)
        return None

    def hold_back(self) -> None:
        """Holds this connection from now on; the client's other connections go on."""
        assert self.orders.hold is not None
        _, seconds = self.orders.hold
        self.orders.hold, self.held = None, []
        tell("held", seconds=seconds)
        self.late = asyncio.create_task(self.let_go(seconds))

    async def let_go(self, seconds: float) -> None:
        """Delivers what was held, but for the client's own giving up of it."""
        await asyncio.sleep(seconds)
        held, self.held = self.held or [], None
        for frame in held:
            if frame.kind != RESET:
                self.to_member.put(frame.bytes)
        await asyncio.sleep(LINGER)
        tell("let go", arrived=not self.to_member.writer.is_closing())

    def lose_answer(self) -> None:
        tell("lost", match=self.orders.lose)
        self.orders.lose = None
        self.to_client.muted = True
        asyncio.get_running_loop().call_later(0.3, self.client.close)

    async def run(self, client: asyncio.StreamReader, member: asyncio.StreamReader) -> None:
        """Passes bytes both ways until an end has closed; what is on its way still arrives."""
        to_client = asyncio.create_task(self.to_client.run())
        to_member = asyncio.create_task(self.to_member.run())
        of_client = asyncio.create_task(pump(client, self.pass_on))
        of_member = asyncio.create_task(pump(member, self.to_client.put))
        first = asyncio.FIRST_COMPLETED
        await asyncio.wait([of_client, of_member, to_client, to_member], return_when=first)
        if of_client.done():
            if self.late is not None:
                await asyncio.wait([self.late, of_member], return_when=first)
            self.to_member.put(None)
            await asyncio.wait([to_member, of_member], return_when=first)
        elif of_member.done():
            self.to_client.put(None)
            await asyncio.wait([to_client, of_client], return_when=first)
        tasks = [to_client, to_member, of_client, of_member]
        tasks += [self.late] if self.late is not None else []
        for task in tasks:
            task.cancel()
        await asyncio.gather(*tasks, return_exceptions=True)


async def pump(reader: asyncio.StreamReader, take: Callable[[bytes], None]) -> None:
    while piece := await reader.read(65536):
        take(piece)


async def serve(orders: Orders, port: int, host: str, member_port: int) -> asyncio.Server:
    async def accept(reader: asyncio.StreamReader, writer: asyncio.StreamWriter) -> None:
        try:
            connecting = asyncio.open_connection(host, member_port)
            member_reader, member_writer = await asyncio.wait_for(connecting, 3.0)
        except (OSError, asyncio.TimeoutError):
            writer.close()  # the member is away, which the client sees by this
            return
        try:
            await Connection(orders, writer, member_writer).run(reader, member_reader)
        finally:
            writer.close()
            member_writer.close()

    return await asyncio.start_server(accept, "127.0.0.1", port)


def obey(orders: Orders, line: bytes) -> None:
    order = json.loads(line)
    match order.pop("do"):
        case "slow":
            orders.low, orders.high = order["low"], order["high"]
        case "hold":
            orders.hold = (order["match"], order["seconds"])
        case "lose":
            orders.lose = order["match"]
        case "stall":
            orders.stalled = order["on"]
        case "clear":
            orders.low = orders.high = 0.0
            orders.stalled, orders.hold, orders.lose = False, None, None


async def main(arguments: list[str]) -> None:
    """Arguments: a seed, then `PORT=HOST:PORT` for each member."""
    orders = Orders(chance=random.Random(arguments[0]))
    servers = []
    for argument in arguments[1:]:
        port, member = argument.split("=")
        host, member_port = member.split(":")
        servers.append(await serve(orders, int(port), host, int(member_port)))
    reader = asyncio.StreamReader()
    loop = asyncio.get_running_loop()
    await loop.connect_read_pipe(lambda: asyncio.StreamReaderProtocol(reader), sys.stdin)
    tell("ready")
    while line := await reader.readline():
        obey(orders, line)
    for server in servers:
        server.close()


if __name__ == "__main__":
    asyncio.run(main(sys.argv[1:]))
