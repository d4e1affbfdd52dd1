#!/usr/bin/python3
"""A line's delay: takes Ethernet frames from one TAP device and gives them to another, later.

    relay.py NAMESPACE DEVICE NAMESPACE DEVICE MILLISECONDS

It makes both devices, each in its network namespace, prints `ready`, and ends on SIGTERM. The rate
of the line and its queue are the kernel's, by a qdisc on each device: frames come here at the
line's rate, so none waits for another. A kernel with netem needs none of this.
"""

from __future__ import annotations

import ctypes
import fcntl
import os
import select
import struct
import sys
import time
from collections import deque
from dataclasses import dataclass, field
from pathlib import Path

MAKE_DEVICE, TAP, NO_PACKET_INFO = 0x400454CA, 0x2, 0x1000
NETWORK_NAMESPACE = 0x40000000
MOST_BYTES = 65536
FRAMES_A_TURN = 32
PRIORITY = 10


@dataclass
class End:
    """One end of the line: its device's file, and the frames that are on their way to it."""

    file: int
    arriving: deque[tuple[float, bytes]] = field(default_factory=deque)


def enter(namespace: str) -> None:
    """This thread is in the network namespace from now on."""
    with Path(f"/run/netns/{namespace}").open() as file:
        if ctypes.CDLL(None, use_errno=True).setns(file.fileno(), NETWORK_NAMESPACE):
            raise OSError(ctypes.get_errno(), "setns")


def open_tap(namespace: str, device: str) -> End:
    """Makes a TAP device in a namespace; it goes when its file is closed."""
    enter(namespace)
    file = os.open("/dev/net/tun", os.O_RDWR | os.O_NONBLOCK)
    fcntl.ioctl(file, MAKE_DEVICE, struct.pack("16sH22x", device.encode(), TAP | NO_PACKET_INFO))
    return End(file)


def take_in(source: End, target: End, delay: float) -> None:
    """Reads frames that are there, and notes when each has to be at the other end."""
    for _ in range(FRAMES_A_TURN):
        try:
            frame = os.read(source.file, MOST_BYTES)
        except BlockingIOError:
            return
        target.arriving.append((time.monotonic() + delay, frame))


def give_out(end: End) -> float | None:
    """Writes the frames that are due; when the next one is, None where none is on its way."""
    while end.arriving:
        due, frame = end.arriving[0]
        if due > time.monotonic():
            return due
        end.arriving.popleft()
        try:
            os.write(end.file, frame)
        except OSError:
            continue  # The device is down, and the frame is lost with it.
    return None


def relay(first: End, second: End, delay: float) -> None:
    """Relays for ever."""
    other = {first.file: (first, second), second.file: (second, first)}
    while True:
        dues = [due for due in (give_out(first), give_out(second)) if due is not None]
        timeout = max(0.0, min(dues) - time.monotonic()) if dues else None
        readable, _, _ = select.select(list(other), [], [], timeout)
        for file in readable:
            take_in(*other[file], delay)


def main() -> None:
    first = open_tap(sys.argv[1], sys.argv[2])
    second = open_tap(sys.argv[3], sys.argv[4])
    try:
        os.sched_setscheduler(0, os.SCHED_FIFO, os.sched_param(PRIORITY))
    except PermissionError:
        print("relay: no real-time priority, so the delay will vary", file=sys.stderr)
    print("ready", flush=True)
    relay(first, second, float(sys.argv[5]) / 1000)


if __name__ == "__main__":
    main()
