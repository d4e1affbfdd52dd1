"""The relay of chaos holds back one request, lets others by, and delivers it also to a member alone."""

from __future__ import annotations

import asyncio
import json

from chaos.frames import DATA, PREFACE, RESET, Frames
from chaos.relay import Orders, obey, serve

POST = b"\x0a\x05/leader /bwe/x/posted prefix 3 document 1 total 9"
SOON, LATE = 0.05, 0.4  # seconds
HEADERS = 1


def frame(kind: int, stream: int, payload: bytes) -> bytes:
    head = len(payload).to_bytes(3, "big") + bytes([kind, 0])
    return head + stream.to_bytes(4, "big") + payload


def test_frames_are_cut_at_any_place():
    whole = PREFACE + frame(DATA, 1, POST) + frame(RESET, 1, b"1234") + frame(DATA, 3, b"")
    for size in (1, 2, 7, len(whole)):
        frames, found = Frames(), []
        for start in range(0, len(whole), size):
            found += frames.feed(whole[start : start + size])
        assert [(it.kind, it.stream) for it in found] == [(-1, 0), (0, 1), (3, 1), (0, 3)]
        assert b"".join(it.bytes for it in found) == whole


class Member:
    """Takes in all that comes, and answers each piece with `yes`."""

    def __init__(self) -> None:
        self.taken = b""
        self.ended = asyncio.Event()

    async def accept(self, reader: asyncio.StreamReader, writer: asyncio.StreamWriter) -> None:
        while piece := await reader.read(1000):
            self.taken += piece
            writer.write(b"yes")
        self.ended.set()
        writer.close()


async def through(orders: Orders, member: Member):
    """A connection to the member through a relay with these orders."""
    behind = await asyncio.start_server(member.accept, "127.0.0.1", 0)
    port = behind.sockets[0].getsockname()[1]
    relay = await serve(orders, 0, "127.0.0.1", port)
    return await asyncio.open_connection("127.0.0.1", relay.sockets[0].getsockname()[1])


def order(orders: Orders, do: str, **more: object) -> None:
    obey(orders, json.dumps({"do": do, **more}).encode())


def test_a_request_is_held_with_its_headers_and_other_connections_pass():
    async def play() -> None:
        orders, member, other = Orders(), Member(), Member()
        order(orders, "hold", match="post", seconds=LATE)
        _, writer = await through(orders, member)
        _, another = await through(orders, other)
        request = frame(HEADERS, 1, b"headers") + frame(DATA, 1, POST)
        writer.write(PREFACE + request + frame(RESET, 1, b"1234"))
        await asyncio.sleep(LATE / 2)
        assert member.taken == PREFACE
        another.write(PREFACE + request)
        await asyncio.sleep(LATE)
        assert other.taken == PREFACE + request
        assert member.taken == PREFACE + request

    asyncio.run(play())


def test_what_is_held_arrives_after_its_client_has_gone():
    async def play() -> None:
        orders, member = Orders(), Member()
        order(orders, "hold", match="post", seconds=LATE)
        _, writer = await through(orders, member)
        writer.write(PREFACE + frame(DATA, 1, POST))
        await asyncio.sleep(SOON)
        writer.close()
        await asyncio.wait_for(member.ended.wait(), 10)
        assert member.taken == PREFACE + frame(DATA, 1, POST)

    asyncio.run(play())


def test_an_answer_is_lost_and_its_request_is_not():
    async def play() -> None:
        orders, member = Orders(), Member()
        order(orders, "lose", match="post")
        reader, writer = await through(orders, member)
        writer.write(PREFACE)
        assert await reader.read(3) == b"yes"
        writer.write(frame(DATA, 1, POST))
        assert await asyncio.wait_for(reader.read(), 10) == b""
        assert member.taken == PREFACE + frame(DATA, 1, POST)

    asyncio.run(play())


def test_a_slow_network_delays_and_keeps_the_order():
    async def play() -> None:
        orders, member = Orders(), Member()
        order(orders, "slow", low=LATE, high=LATE)
        reader, writer = await through(orders, member)
        start = asyncio.get_running_loop().time()
        writer.write(PREFACE + frame(DATA, 1, b"one") + frame(DATA, 3, b"two"))
        await reader.read(3)
        assert asyncio.get_running_loop().time() - start >= LATE
        assert member.taken == PREFACE + frame(DATA, 1, b"one") + frame(DATA, 3, b"two")

    asyncio.run(play())
