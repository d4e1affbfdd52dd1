"""A network device: its number, its speed, and how many segments a packet of its may have."""

from __future__ import annotations

import array
import errno
import fcntl
import socket
import struct
from pathlib import Path

from bwe_control.agent.faults import KernelError
from bwe_control.agent.netlink import Message, Netlink, attribute, attributes

GET_LINK, SET_LINK = 18, 19
LINK = struct.Struct("=BBHiII")
MTU, GSO_MAX_SEGS = 4, 40
IS_UP, IS_RUNNING = 0x1, 0x40
ETHTOOL, GET_SETTINGS = 0x8946, 0x1
UNKNOWN_SPEED = 0xFFFFFFFF
NET_ADMIN = 12


def device_index(name: str) -> int:
    """The number of a device; a KernelError where there is none of that name."""
    try:
        return socket.if_nametoindex(name)
    except OSError as error:
        raise KernelError(f"device {name}: there is none on this host", errno.ENODEV) from error


def device_speed(name: str) -> int | None:
    """The speed of a device in kilobits per second, None where its driver does not say it."""
    command = array.array("B", struct.pack("=I", GET_SETTINGS) + bytes(40))
    request = struct.pack("16sP8x", name.encode(), command.buffer_info()[0])
    with socket.socket(socket.AF_INET, socket.SOCK_DGRAM) as sock:
        try:
            fcntl.ioctl(sock, ETHTOOL, request)
        except OSError:
            return None
    low, high = struct.unpack_from("=12xH14xH", command)
    speed = int(high) << 16 | int(low)
    return None if speed in (0, 0xFFFF, UNKNOWN_SPEED) else speed * 1000


def _link(netlink: Netlink, index: int) -> tuple[int, dict[int, memoryview]]:
    """The flags and attributes of a device."""
    answer = netlink.get(GET_LINK, LINK.pack(0, 0, 0, index, 0, 0))
    if answer is None:
        raise KernelError("the kernel said nothing of the device", errno.ENODEV)
    return LINK.unpack_from(answer)[4], attributes(answer[LINK.size :])


def is_running(netlink: Netlink, index: int) -> bool:
    """Whether a device is up and has a carrier."""
    flags, _ = _link(netlink, index)
    return flags & (IS_UP | IS_RUNNING) == IS_UP | IS_RUNNING


def gso_max_segs(netlink: Netlink, index: int) -> int:
    """How many segments one packet in the device's queue may have."""
    value: int = struct.unpack("=I", _link(netlink, index)[1][GSO_MAX_SEGS])[0]
    return value


def set_gso_max_segs(netlink: Netlink, index: int, segments: int) -> None:
    """Changes that; it counts for packets that are made from then on."""
    payload = LINK.pack(0, 0, 0, index, 0, 0) + attribute(GSO_MAX_SEGS, struct.pack("=I", segments))
    netlink.request(Message(SET_LINK, 0, payload), "gso_max_segs")


def may_change_network() -> bool:
    """Whether this process has CAP_NET_ADMIN."""
    for line in Path("/proc/self/status").read_text().splitlines():
        if line.startswith("CapEff:"):
            return bool(int(line.split()[1], 16) >> NET_ADMIN & 1)
    return False
