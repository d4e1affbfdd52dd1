"""Netlink messages as bytes: requests in batches, dumps, attributes.

A general library parses each of a thousand classes into a tree of objects, which takes a tenth of a
second. This module leaves the bytes as they are, and its callers unpack what they need.
"""

from __future__ import annotations

import os
import socket
import struct
from collections.abc import Iterator, Sequence
from dataclasses import dataclass

from bwe_control.agent.faults import KernelError

HEADER = struct.Struct("=IHHII")
ATTRIBUTE = struct.Struct("=HH")
REQUEST, ACK, ECHO, DUMP = 0x1, 0x4, 0x8, 0x300
REPLACE, EXCLUSIVE, CREATE = 0x100, 0x200, 0x400
ERROR, DONE = 2, 3
ACK_HAS_TEXT = 0x200
SOL_NETLINK, NETLINK_CAP_ACK, NETLINK_EXT_ACK = 270, 10, 11
RECEIVE_BYTES = 1 << 18
# The kernel refuses a send that is greater than the send buffer, 212,992 bytes where nobody changed
# it, and keeps its own structures in it.
MOST_BYTES_A_SEND = 1 << 16
SECONDS_TO_ANSWER = 10.0


@dataclass(frozen=True)
class Message:
    """A request: its type, its flags besides REQUEST, and its payload."""

    kind: int
    flags: int
    payload: bytes


@dataclass(frozen=True)
class Failure:
    """The request with this number in its batch was refused."""

    index: int
    code: int
    text: str


def attribute(number: int, value: bytes) -> bytes:
    """One attribute, padded to four bytes."""
    head = ATTRIBUTE.pack(ATTRIBUTE.size + len(value), number)
    return head + value + b"\0" * (-len(value) % 4)


def attributes(data: memoryview) -> dict[int, memoryview]:
    """The attributes of a payload by their number, without the flags of nesting and byte order."""
    found = {}
    at = 0
    while at + 4 <= len(data):
        length, number = ATTRIBUTE.unpack_from(data, at)
        if length < 4:
            break
        found[number & 0x3FFF] = data[at + 4 : at + length]
        at += (length + 3) & ~3
    return found


class Netlink:
    """A netlink socket of the network namespace in which it was made."""

    def __init__(self, protocol: int = socket.NETLINK_ROUTE) -> None:
        self._socket = socket.socket(socket.AF_NETLINK, socket.SOCK_RAW, protocol)
        self._socket.setsockopt(SOL_NETLINK, NETLINK_CAP_ACK, 1)
        self._socket.setsockopt(SOL_NETLINK, NETLINK_EXT_ACK, 1)
        self._socket.settimeout(SECONDS_TO_ANSWER)
        self._socket.bind((0, 0))
        self._sequence = 0

    def close(self) -> None:
        self._socket.close()

    def batch(self, messages: Sequence[Message]) -> list[Failure]:
        """Sends the messages in their order and returns those that were refused.

        The kernel answers the last message of a send, and any that fails.
        """
        failures: list[Failure] = []
        start = 0
        while start < len(messages):
            end, size = start, 0
            while end < len(messages) and size < MOST_BYTES_A_SEND:
                size += HEADER.size + len(messages[end].payload)
                end += 1
            failures += self._send(messages[start:end], start)
            start = end
        return failures

    def request(self, message: Message, what: str) -> None:
        """Sends one message; a KernelError that begins with `what` where it is refused."""
        for failure in self.batch([message]):
            raise KernelError(f"{what}: {failure.text}", failure.code)

    def dump(self, kind: int, payload: bytes) -> Iterator[memoryview]:
        """The payloads of all answers to a dump request."""
        sequence = self._next()
        head = HEADER.pack(HEADER.size + len(payload), kind, REQUEST | DUMP, sequence, 0)
        self._socket.send(head + payload)
        yield from self._answers(sequence)

    def get(self, kind: int, payload: bytes) -> memoryview | None:
        """The payload of the answer to a request that is no dump, None where there is none.

        The kernel shows a qdisc to the caller only where an echo is asked for.
        """
        sequence = self._next()
        flags = REQUEST | ACK | ECHO
        head = HEADER.pack(HEADER.size + len(payload), kind, flags, sequence, 0)
        self._socket.send(head + payload)
        found = None
        for answer in self._answers(sequence):
            found = answer
        return found

    def _next(self) -> int:
        self._sequence = (self._sequence + 1) & 0xFFFFFFFF
        return self._sequence

    def _send(self, messages: Sequence[Message], offset: int) -> list[Failure]:
        first = self._sequence + 1
        data = bytearray()
        for number, message in enumerate(messages, 1):
            flags = REQUEST | message.flags | (ACK if number == len(messages) else 0)
            size = HEADER.size + len(message.payload)
            data += HEADER.pack(size, message.kind, flags, self._next(), 0) + message.payload
            data += b"\0" * (-size % 4)
        last = self._sequence
        self._socket.send(data)
        failures: list[Failure] = []
        while True:
            for kind, flags, sequence, payload in self._receive():
                if kind != ERROR or not first <= sequence <= last:
                    continue
                code = -int(struct.unpack_from("=i", payload)[0])
                if code:
                    text = error_text(code, flags, payload)
                    failures.append(Failure(offset + sequence - first, code, text))
                if sequence == last:
                    return failures

    def _answers(self, sequence: int) -> Iterator[memoryview]:
        while True:
            for kind, flags, number, payload in self._receive():
                if number != sequence:
                    continue
                if kind == ERROR:
                    code = -int(struct.unpack_from("=i", payload)[0])
                    if code:
                        raise KernelError(error_text(code, flags, payload), code)
                    return
                if kind == DONE:
                    return
                yield payload

    def _receive(self) -> Iterator[tuple[int, int, int, memoryview]]:
        try:
            data = memoryview(self._socket.recv(RECEIVE_BYTES))
        except TimeoutError as error:
            raise KernelError("the kernel did not answer") from error
        at = 0
        while at + HEADER.size <= len(data):
            length, kind, flags, sequence, _ = HEADER.unpack_from(data, at)
            yield kind, flags, sequence, data[at + HEADER.size : at + length]
            at += (length + 3) & ~3


def error_text(code: int, flags: int, payload: memoryview) -> str:
    """What the kernel says of an error, where it says something, and the name of its errno."""
    text = os.strerror(code)
    if flags & ACK_HAS_TEXT:
        # Behind the code stands the header of the request, whose payload is left out.
        said = attributes(payload[4 + HEADER.size :]).get(1)
        if said is not None:
            text += f" ({bytes(said).rstrip(bytes(1)).decode(errors='replace')})"
    return text
