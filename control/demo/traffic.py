#!/usr/bin/python3
"""Real TCP and UDP between namespaces: a receiver that counts, and a sender that obeys commands.

    traffic.py receive FILE SECONDS PORT..
    traffic.py send FILE SECONDS

`receive` takes TCP and UDP on each port, over IPv4 and IPv6, and appends a line `TIME PORT BYTES`
for each port to FILE every so many SECONDS: the bytes received so far. `send` reads commands from
standard input, a line each:

    start NAME HOST PORT FLOWS RATE     flows of TCP; RATE in kilobits per second for all of them
    udp NAME HOST PORT RATE             datagrams of 1,200 bytes
    stop NAME                           nothing more is sent; the connections stay open

A RATE of 0 is as fast as TCP allows. `send` appends lines `TIME NAME SEGMENTS RETRANSMITTED` of all
that NAME has sent by TCP. Both end with their standard input. Times are those of the machine's
monotonic clock, which all namespaces have in common.
"""

from __future__ import annotations

import os
import selectors
import socket
import struct
import sys
import time
from dataclasses import dataclass, field
from pathlib import Path
from typing import TextIO

CHUNK = bytes(65536)
DATAGRAM = bytes(1200)
TCP_CONGESTION, NOT_SENT_LOWEST, NOT_SENT_BYTES = 13, 25, 65536
TOTAL_RETRANSMITTED, DATA_SEGMENTS_OUT, INFO_BYTES = 100, 156, 192
LONGEST_WAIT, BUCKET_SECONDS = 0.02, 0.02


class Clock:
    """Says when the next line is due."""

    def __init__(self, seconds: float) -> None:
        self._seconds, self._due = seconds, time.monotonic()

    def is_due(self) -> bool:
        now = time.monotonic()
        if now < self._due:
            return False
        self._due = max(self._due + self._seconds, now)
        return True


class Receiver:
    """Counts what comes on ports."""

    def __init__(self, ports: list[int]) -> None:
        self._selector = selectors.DefaultSelector()
        self._selector.register(sys.stdin, selectors.EVENT_READ, None)
        self._buffer = bytearray(1 << 20)
        self.received = dict.fromkeys(ports, 0)
        for port in ports:
            for kind in (socket.SOCK_STREAM, socket.SOCK_DGRAM):
                sock = socket.socket(socket.AF_INET6, kind)
                sock.setsockopt(socket.IPPROTO_IPV6, socket.IPV6_V6ONLY, 0)
                sock.setsockopt(socket.SOL_SOCKET, socket.SO_REUSEADDR, 1)
                sock.bind(("::", port))
                sock.setblocking(False)
                if kind == socket.SOCK_STREAM:
                    sock.listen(64)
                self._selector.register(sock, selectors.EVENT_READ, port)

    def turn(self) -> bool:
        """Takes what is there; False where standard input has ended."""
        for key, _ in self._selector.select(LONGEST_WAIT):
            sock, port = key.fileobj, key.data
            if not isinstance(sock, socket.socket):
                return bool(os.read(0, len(self._buffer)))
            if sock.type == socket.SOCK_STREAM and sock.getsockopt(
                socket.SOL_SOCKET, socket.SO_ACCEPTCONN
            ):
                connection, _ = sock.accept()
                connection.setblocking(False)
                self._selector.register(connection, selectors.EVENT_READ, port)
                continue
            self._take(sock, port)
        return True

    def _take(self, sock: socket.socket, port: int) -> None:
        try:
            size = sock.recv_into(self._buffer)
        except BlockingIOError:
            return
        except OSError:
            size = 0
        self.received[port] += size
        if not size and sock.type == socket.SOCK_STREAM:
            self._selector.unregister(sock)
            sock.close()


@dataclass
class Task:
    """What one name sends: its flows, and how much it may send until when."""

    kind: socket.SocketKind
    rate: int
    flows: list[socket.socket] = field(default_factory=list)
    is_on: bool = True
    credit: float = 0.0
    at: float = field(default_factory=time.monotonic)

    def refill(self, now: float) -> None:
        """Adds the credit of the time since the last call, at most that of BUCKET_SECONDS."""
        bytes_a_second = self.rate * 125
        most = max(BUCKET_SECONDS * bytes_a_second, len(DATAGRAM))
        self.credit = min(most, self.credit + (now - self.at) * bytes_a_second)
        self.at = now

    def send(self, flow: socket.socket) -> bool:
        """Sends what may be sent now; False where nothing more may be for now."""
        chunk = CHUNK if self.kind == socket.SOCK_STREAM else DATAGRAM
        if self.rate:
            size = min(len(chunk), int(self.credit))
            if size < (1 if self.kind == socket.SOCK_STREAM else len(chunk)):
                return False
            chunk = chunk[:size]
        try:
            sent = flow.send(chunk)
        except (BlockingIOError, ConnectionRefusedError):
            return False
        except (BrokenPipeError, ConnectionResetError):
            raise SystemExit("traffic: a receiver has gone") from None
        self.credit -= sent
        return True

    def counts(self) -> tuple[int, int]:
        """Segments with data and retransmissions of all flows so far."""
        segments = retransmitted = 0
        for flow in self.flows:
            if self.kind == socket.SOCK_STREAM:
                info = flow.getsockopt(socket.IPPROTO_TCP, socket.TCP_INFO, INFO_BYTES)
                retransmitted += struct.unpack_from("=I", info, TOTAL_RETRANSMITTED)[0]
                segments += struct.unpack_from("=I", info, DATA_SEGMENTS_OUT)[0]
        return segments, retransmitted


class Sender:
    """Sends for tasks as it is told."""

    def __init__(self) -> None:
        self._selector = selectors.DefaultSelector()
        self._selector.register(sys.stdin, selectors.EVENT_READ, None)
        self.tasks: dict[str, Task] = {}

    def obey(self, line: str) -> None:
        """Does one command."""
        match line.split():
            case ["stop", name]:
                self._switch(self.tasks[name], False)
            case ["start" | "udp" as verb, name, host, port, *numbers]:
                flows, rate = (1, numbers[0]) if verb == "udp" else (int(numbers[0]), numbers[1])
                kind = socket.SOCK_DGRAM if verb == "udp" else socket.SOCK_STREAM
                if name not in self.tasks:
                    task = self.tasks[name] = Task(kind, int(rate))
                    task.flows = [connected(kind, host, int(port)) for _ in range(flows)]
                self.tasks[name].rate = int(rate)
                self._switch(self.tasks[name], True)
            case _:
                raise SystemExit(f"traffic: no command: {line!r}")

    def _switch(self, task: Task, is_on: bool) -> None:
        task.is_on, task.at, task.credit = is_on, time.monotonic(), 0.0
        for flow in task.flows:
            if flow in self._selector.get_map():
                self._selector.unregister(flow)
            if is_on:
                self._selector.register(flow, selectors.EVENT_WRITE, task)

    def turn(self) -> bool:
        """Sends what can be sent; False where standard input has ended."""
        now, is_idle = time.monotonic(), True
        for task in self.tasks.values():
            if task.is_on and task.rate:
                task.refill(now)
        for key, _ in self._selector.select(LONGEST_WAIT):
            if key.data is None:
                text = os.read(0, 65536).decode()
                if not text:
                    return False
                for line in text.splitlines():
                    self.obey(line)
            elif isinstance(key.fileobj, socket.socket):
                is_idle = not key.data.send(key.fileobj) and is_idle
        if is_idle:
            time.sleep(0.002)
        return True


def connected(kind: socket.SocketKind, host: str, port: int) -> socket.socket:
    """A socket that sends there, by CUBIC and with little that waits in the socket itself."""
    family = socket.AF_INET6 if ":" in host else socket.AF_INET
    sock = socket.socket(family, kind)
    if kind == socket.SOCK_STREAM:
        sock.setsockopt(socket.IPPROTO_TCP, TCP_CONGESTION, b"cubic")
        sock.setsockopt(socket.IPPROTO_TCP, NOT_SENT_LOWEST, NOT_SENT_BYTES)
    sock.connect((host, port))
    sock.setblocking(False)
    return sock


def write_counts(file: TextIO, counts: dict[str, tuple[int, ...]]) -> None:
    """A line for each name, at once, so that a reader sees whole lines."""
    now = time.monotonic()
    lines = [f"{now:.4f} {name} {' '.join(map(str, them))}\n" for name, them in counts.items()]
    file.write("".join(lines))
    file.flush()


def main() -> None:
    verb, path, seconds = sys.argv[1], Path(sys.argv[2]), float(sys.argv[3])
    clock = Clock(seconds)
    with path.open("a") as file:
        if verb == "receive":
            receiver = Receiver([int(port) for port in sys.argv[4:]])
            print("ready", flush=True)
            while receiver.turn():
                if clock.is_due():
                    write_counts(file, {str(p): (n,) for p, n in receiver.received.items()})
        else:
            sender = Sender()
            print("ready", flush=True)
            while sender.turn():
                if clock.is_due():
                    write_counts(file, {name: t.counts() for name, t in sender.tasks.items()})


if __name__ == "__main__":
    main()
