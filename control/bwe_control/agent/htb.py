"""The HTB of one device: its root, a class a task, what each class has sent.

Rates are in kilobits per second, 1,000 bits each; the kernel counts bytes per second, so each whole
rate is exact. A class is named by its minor number below the root's handle. Every class hangs below
the root itself and has a ceiling that is its rate: no class borrows from another.
"""

from __future__ import annotations

import errno
import socket
import struct
from collections.abc import Sequence
from dataclasses import dataclass
from enum import Enum

from bwe_control.agent.device import device_index, set_gso_max_segs
from bwe_control.agent.faults import KernelError
from bwe_control.agent.netlink import (
    CREATE,
    EXCLUSIVE,
    REPLACE,
    Failure,
    Message,
    Netlink,
    attribute,
    attributes,
)

NEW_QDISC, DELETE_QDISC, GET_QDISC = 36, 37, 38
NEW_CLASS, GET_CLASS = 40, 42
KIND, OPTIONS, STATS2 = 1, 2, 7
ROOT = 0xFFFFFFFF
MAJOR = 0xB3E
HANDLE = MAJOR << 16
REST = 0xFFFF
LEAF_PACKETS = 1000
MOST_RATE = 1_000_000_000_000

TRAFFIC = struct.Struct("=BBHiIII")
OPTION = struct.Struct("=BBHhHI" "BBHhHI" "IIIII")
CLASS = struct.Struct("=BBHiIII" "HH4s" "HH" "HH" "BBHhHI" "BBHhHI" "IIIII")
WIDE = struct.Struct("=Q")
BASIC, QUEUE = struct.Struct("=QI"), struct.Struct("=IIIII")
ETHERNET = 1
QUANTUM = 1514
TICK_NANOSECONDS = 64
LEAST_BURST, BURST_SECONDS = 1600, 0.002


class Owner(Enum):
    """Whose the root qdisc of a device is."""

    OURS = "ours"
    KERNEL = "kernel"
    OTHER = "other"


@dataclass(frozen=True)
class Root:
    owner: Owner
    kind: str
    handle: int


@dataclass(frozen=True)
class ClassState:
    """What the kernel says of a class: its rate, what it has sent since it was made, its queue."""

    minor: int
    rate: int
    sent_bytes: int
    packets: int
    backlog_bytes: int
    drops: int


@dataclass(frozen=True)
class Change:
    """A class is to have this rate."""

    minor: int
    rate: int


def burst_ticks(rate: int) -> int:
    """The time in which a full bucket drains, in the kernel's ticks: 2 ms, or 1,600 bytes."""
    nanoseconds = max(BURST_SECONDS * 1e9, LEAST_BURST * 8_000_000 / rate)
    return min(int(nanoseconds / TICK_NANOSECONDS) + 1, 0xFFFFFFFF)


def class_payload(index: int, minor: int, rate: int) -> bytes:
    """A class whose rate and ceiling are `rate`, as the payload of a message.

    A thousand of them are made at once, so a payload is packed in one piece, headers of attributes
    and all. Where a rate needs more than 32 bits, two attributes of 64 follow.
    """
    speed, ticks = rate * 125, burst_ticks(rate)
    short = min(speed, 0xFFFFFFFF)
    wide = b"" if speed == short else b"".join(attribute(n, WIDE.pack(speed)) for n in (6, 7))
    traffic = (0, 0, 0, index, HANDLE | minor, HANDLE, 0)
    heads = (8, KIND, b"htb", 8 + OPTION.size + len(wide), OPTIONS, 4 + OPTION.size, 1)
    limit = (0, ETHERNET, 0, 0, 0, short)
    packed = CLASS.pack(*traffic, *heads, *limit, *limit, ticks, ticks, QUANTUM, 0, 0)
    return packed + wide


class Htb:
    """The qdiscs and classes of a device. With a new root, packets get at most `gso_max_segs`."""

    def __init__(self, netlink: Netlink, device: str, gso_max_segs: int | None = None) -> None:
        self._netlink, self._device, self._gso_max_segs = netlink, device, gso_max_segs
        self._index = device_index(device)

    def root(self) -> Root:
        """The root qdisc as it stands; one of the kernel's own has no handle, or is not shown.

        A device may go and come back with another number, so that is looked up here.
        """
        self._index = device_index(self._device)
        try:
            payload = self._netlink.get(GET_QDISC, self._message(0, ROOT))
        except KernelError as error:
            if error.code in (errno.EINVAL, errno.ENOENT):
                return Root(Owner.KERNEL, "none", 0)
            raise
        if payload is None:
            return Root(Owner.KERNEL, "none", 0)
        handle = TRAFFIC.unpack_from(payload)[4]
        kind = text_of(attributes(payload[TRAFFIC.size :])[KIND])
        if handle == HANDLE and kind == "htb":
            return Root(Owner.OURS, kind, handle)
        return Root(Owner.OTHER if handle else Owner.KERNEL, kind, handle)

    def add_root(self, replace: bool = False) -> None:
        """Makes the root HTB; what is in none of its classes goes to that of the number REST.

        While REST is not there, such packets pass by HTB's direct queue. `replace` takes the place
        of a root of somebody else.
        """
        options = attribute(2, struct.pack("=IIIII", 3, 10, REST, 0, 0))
        payload = self._message(HANDLE, ROOT) + attribute(KIND, b"htb\0")
        payload += attribute(OPTIONS, options)
        flags = CREATE | (REPLACE if replace else EXCLUSIVE)
        self._netlink.request(Message(NEW_QDISC, flags, payload), "root HTB")
        if self._gso_max_segs is not None:
            set_gso_max_segs(self._netlink, self._index, self._gso_max_segs)

    def remove_root(self) -> None:
        """Removes whatever root qdisc there is; the kernel puts its default in its place."""
        message = Message(DELETE_QDISC, 0, self._message(0, ROOT))
        self._netlink.request(message, "removal of the root qdisc")

    def add_classes(self, changes: Sequence[Change], leaf: str) -> list[Failure]:
        """Makes classes, each with a leaf of the kind `leaf`; a failure has a change's number."""
        messages = []
        for change in changes:
            messages.append(self._class_message(change, CREATE | EXCLUSIVE))
            messages.append(self._leaf_message(change.minor, leaf))
        failed = self._netlink.batch(messages)
        return [Failure(failure.index // 2, failure.code, failure.text) for failure in failed]

    def change_classes(self, changes: Sequence[Change]) -> list[Failure]:
        """Gives classes new rates, in this order; a failure has a change's number."""
        return self._netlink.batch([self._class_message(change, 0) for change in changes])

    def classes(self) -> dict[int, ClassState]:
        """All classes of the root by their minor numbers."""
        self._index = device_index(self._device)
        found = {}
        for payload in self._netlink.dump(GET_CLASS, self._message(0, 0)):
            handle = TRAFFIC.unpack_from(payload)[4]
            if handle >> 16 == MAJOR:
                state = class_state(handle & 0xFFFF, payload[TRAFFIC.size :])
                found[state.minor] = state
        return found

    def _message(self, handle: int, parent: int) -> bytes:
        return TRAFFIC.pack(0, 0, 0, self._index, handle, parent, 0)

    def _class_message(self, change: Change, flags: int) -> Message:
        return Message(NEW_CLASS, flags, class_payload(self._index, change.minor, change.rate))

    def _leaf_message(self, minor: int, leaf: str) -> Message:
        payload = self._message(0, HANDLE | minor) + attribute(KIND, leaf.encode() + b"\0")
        if leaf == "pfifo":
            payload += attribute(OPTIONS, struct.pack("=I", LEAF_PACKETS))
        return Message(NEW_QDISC, CREATE | EXCLUSIVE, payload)


def has_kind(netlink: Netlink, kind: str) -> bool:
    """Whether the kernel knows `htb` or `fq_codel`, asked by a request that cannot succeed.

    It would change the root of the loopback. The kernel looks the kind up first, and then refuses
    an attribute that is a byte long where both kinds have a longer one.
    """
    loopback = socket.if_nametoindex("lo")
    payload = TRAFFIC.pack(0, 0, 0, loopback, 0, ROOT, 0) + attribute(KIND, kind.encode() + b"\0")
    payload += attribute(OPTIONS, attribute(6, b"\1"))
    failures = netlink.batch([Message(NEW_QDISC, CREATE | REPLACE | EXCLUSIVE, payload)])
    return bool(failures) and failures[0].code != errno.ENOENT


def text_of(value: memoryview) -> str:
    return bytes(value).rstrip(b"\0").decode(errors="replace")


def class_state(minor: int, data: memoryview) -> ClassState:
    """A class out of the attributes of its message."""
    found = attributes(data)
    options = attributes(found[OPTIONS])
    unpacked = OPTION.unpack_from(options[1])
    wide = options.get(6)
    speed = struct.unpack("=Q", wide)[0] if wide is not None else unpacked[5]
    stats = attributes(found[STATS2])
    sent, packets = BASIC.unpack_from(stats[1])
    _, backlog, drops, _, _ = QUEUE.unpack_from(stats[3])
    return ClassState(minor, speed // 125, sent, packets, backlog, drops)
