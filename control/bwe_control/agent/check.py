"""What `agent check` finds: what this host has, what will be used, and whether matches match."""

from __future__ import annotations

import os
import shutil
import subprocess
import sys
from collections.abc import Iterator
from dataclasses import dataclass
from pathlib import Path

import bwe_control
from bwe_control.agent.classifier import cgroup_mount
from bwe_control.agent.config import Config, Selector
from bwe_control.agent.demand import HELD_PART
from bwe_control.agent.device import device_index, device_speed, gso_max_segs
from bwe_control.agent.htb import Htb, Owner
from bwe_control.agent.netlink import Netlink
from bwe_control.agent.service import require_kernel, segments
from bwe_control.errors import ControlError

SECONDS_OF_TRIAL = 300


@dataclass(frozen=True)
class Finding:
    """A sentence, and whether the agent can run all the same."""

    is_good: bool
    text: str

    def __str__(self) -> str:
        return f"{'ok   ' if self.is_good else 'fault'} {self.text}"


def check(config: Config) -> Iterator[Finding]:
    """All findings, one after the other; nothing of this host is changed."""
    netlink = Netlink()
    try:
        leaf = require_kernel(netlink)
    except ControlError as error:
        yield Finding(False, str(error))
        return
    yield Finding(True, f"the kernel has HTB; a class has a leaf of {leaf}")
    yield from check_device(config, netlink)
    yield from check_numbers(config)
    yield from check_cgroups(config)
    yield from try_matches(config)


def check_device(config: Config, netlink: Netlink) -> Iterator[Finding]:
    """The device, whose root it has, and the size of its packets."""
    try:
        index = device_index(config.device)
    except ControlError as error:
        yield Finding(False, str(error))
        return
    speed = device_speed(config.device)
    named = "a speed that its driver does not say" if speed is None else f"{speed} kb/s"
    yield Finding(True, f"device {config.device}: {named}")
    if speed is not None and config.initial > speed:
        yield Finding(False, f"initial = {config.initial} is above the speed of the device")
    root = Htb(netlink, config.device).root()
    if root.owner is Owner.OTHER and not config.take_root:
        text = "is somebody else's and stays; take_root = true lets the agent take its place"
        yield Finding(False, f"the root qdisc {root.kind} {root.handle >> 16:x}: {text}")
    elif root.owner is Owner.OURS:
        yield Finding(True, "the root HTB is the agent's; its classes will be adopted")
    else:
        yield Finding(True, f"the root qdisc {root.kind} will give place to an HTB with one lock")
    now, due = gso_max_segs(netlink, index), segments(config)
    if due is not None and due != now:
        yield Finding(True, f"gso_max_segs, now {now}, will be {due}")


def check_numbers(config: Config) -> Iterator[Finding]:
    """Numbers that are allowed and do not do what is likely meant."""
    if config.headroom * HELD_PART <= 100:
        text = "a task that sends steadily would sometimes seem held, and ask for twice its limit"
        yield Finding(False, f"headroom = {config.headroom}: below 112 {text}")


def check_cgroups(config: Config) -> Iterator[Finding]:
    """The cgroups that the tasks name."""
    names = [task.match.value for task in config.tasks if task.match.selector is Selector.CGROUP]
    if not names:
        return
    mount = cgroup_mount()
    if mount is None:
        yield Finding(False, "cgroup2 is not mounted, so no cgroup can be matched")
        return
    for name in names:
        if not (mount / name).is_dir():
            text = "is not there; the agent matches it from when it comes"
            yield Finding(True, f"cgroup {name} {text}")


def try_matches(config: Config) -> Iterator[Finding]:
    """Each match, with a packet in a network namespace of its own."""
    if shutil.which("unshare") is None or shutil.which("ip") is None:
        yield Finding(False, "matches were not tried: apt-get install util-linux iproute2")
        return
    folder = str(Path(bwe_control.__file__).resolve().parents[1])
    paths = [folder, os.environ.get("PYTHONPATH", "")]
    done = subprocess.run(
        ["unshare", "--net", sys.executable, "-m", "bwe_control.agent.trial", str(config.path)],
        capture_output=True,
        text=True,
        timeout=SECONDS_OF_TRIAL,
        check=False,
        env={**os.environ, "PYTHONPATH": ":".join(filter(None, paths))},
    )
    if done.returncode:
        why = (done.stderr.strip().splitlines() or ["no word why"])[-1]
        yield Finding(False, f"matches were not tried in a namespace of their own: {why}")
        return
    for line in done.stdout.splitlines():
        name, prefix, result = line.split(" ", 2)
        is_good = result == "ok" or result.startswith("not tried")
        text = "a packet of it lands in its class" if result == "ok" else result
        yield Finding(is_good, f"task {name} to {prefix}: {text}")
