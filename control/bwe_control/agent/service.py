"""Puts an agent together out of its configuration, and runs it; what the other commands do."""

from __future__ import annotations

import fcntl
import logging
import shutil
import signal
import threading
from collections.abc import Callable, Mapping
from types import FrameType
from typing import TextIO

from bwe_control.agent.classifier import Classifier, remove_table
from bwe_control.agent.config import Config
from bwe_control.agent.device import (
    device_index,
    device_speed,
    gso_max_segs,
    may_change_network,
    set_gso_max_segs,
)
from bwe_control.agent.exchange import StoreExchange
from bwe_control.agent.faults import KernelError
from bwe_control.agent.htb import Htb, Owner, has_kind
from bwe_control.agent.loop import Agent
from bwe_control.agent.netlink import Netlink
from bwe_control.agent.state import (
    State,
    class_numbers,
    places_path,
    read_places,
    read_state,
    write_places,
)
from bwe_control.errors import InputError
from bwe_control.keys import Keys
from bwe_control.store.interface import Store

log = logging.getLogger(__name__)

# Below this floor one packet of 64 kB is two seconds and more of debt, which HTB keeps as time.
LEAST_WITH_LARGE_PACKETS = 256
FEW_SEGMENTS = 4


def require_kernel(netlink: Netlink) -> str:
    """The kind of leaf to use; one sentence where this process or kernel can enforce nothing."""
    if not may_change_network():
        raise KernelError("the agent needs CAP_NET_ADMIN, and this process does not have it")
    if shutil.which("nft") is None:
        raise InputError("the agent needs nft: apt-get install nftables")
    if not has_kind(netlink, "htb"):
        raise KernelError("this kernel has no HTB (CONFIG_NET_SCH_HTB), so it can keep no limit")
    return "fq_codel" if has_kind(netlink, "fq_codel") else "pfifo"


def segments(config: Config) -> int | None:
    """How many segments a packet may have, None where the device's own number stays."""
    if config.gso_max_segs is None and config.least < LEAST_WITH_LARGE_PACKETS:
        return FEW_SEGMENTS
    return config.gso_max_segs


def make_agent(
    config: Config, opens: Callable[[], Store], keys: Keys
) -> tuple[Agent, StoreExchange]:
    """An agent that has not started, and its exchange with the store."""
    netlink = Netlink()
    leaf = require_kernel(netlink)
    htb = Htb(netlink, config.device, segments(config))
    state = read_state(config.state)
    state.minors.update(class_numbers([task.name for task in config.tasks], state.minors))
    if state.gso_max_segs is None and htb.root().owner is not Owner.OURS:
        state.gso_max_segs = gso_max_segs(netlink, device_index(config.device))
    classifier = Classifier(config, state.minors)
    exchange = StoreExchange(opens, keys, config.reporter, lambda: agent.wake())
    speed = device_speed(config.device)
    agent = Agent(config, htb, leaf, classifier, exchange, state, speed)
    return agent, exchange


def run_agent(config: Config, opens: Callable[[], Store], keys: Keys) -> None:
    """Runs an agent until SIGTERM or SIGINT; all that is in force stays then."""
    lock = only_agent(config)
    agent, exchange = make_agent(config, opens, keys)
    if config.metrics is not None:
        serve(agent, config, config.metrics)
    agent.start()

    def ends(number: int, frame: FrameType | None) -> None:
        agent.stop()

    if threading.current_thread() is threading.main_thread():
        signal.signal(signal.SIGTERM, ends)
        signal.signal(signal.SIGINT, ends)
    exchange.start()
    try:
        agent.run()
    finally:
        exchange.stop()
        lock.close()
    log.info("ended; limits stay in force, and `agent clear` takes them away")


def only_agent(config: Config) -> TextIO:
    """A file that this agent has locked; an InputError where another one has, or it cannot be."""
    path = config.state.with_name(config.state.name + ".lock")
    try:
        path.parent.mkdir(parents=True, exist_ok=True)
        file = path.open("w")
        fcntl.flock(file, fcntl.LOCK_EX | fcntl.LOCK_NB)
    except BlockingIOError:
        raise InputError(f"an agent with the state {config.state} runs already") from None
    except OSError as error:
        raise InputError(f"{config.path}: state: {path}: {error.strerror}") from error
    return file


def serve(agent: Agent, config: Config, port: int) -> None:
    """Serves the agent's metrics on a port of the loopback."""
    from bwe_control.agent.metrics import serve_metrics

    try:
        serve_metrics(agent, port)
    except OSError as error:
        raise InputError(f"{config.path}: metrics: port {port}: {error.strerror}") from error


def clear(config: Config) -> list[str]:
    """Takes the agent's root, table and files away; what it did, in sentences."""
    if not may_change_network():
        raise KernelError("clear needs CAP_NET_ADMIN, and this process does not have it")
    done = []
    state = read_state(config.state)
    netlink = Netlink()
    if remove_table(config.device):
        done.append("the table of nftables is gone")
    htb = Htb(netlink, config.device)
    root = htb.root()
    if root.owner is Owner.OURS:
        htb.remove_root()
        done.append(f"the root HTB of {config.device} is gone, and with it every limit")
    elif root.owner is Owner.OTHER:
        done.append(f"the root qdisc {root.kind} is somebody else's and stays")
    if state.gso_max_segs is not None:
        set_gso_max_segs(netlink, device_index(config.device), state.gso_max_segs)
        done.append(f"gso_max_segs is {state.gso_max_segs} again, as before")
    for path in (config.state, places_path(config.state)):
        path.unlink(missing_ok=True)
    return done or [f"{config.device} has nothing of the agent"]


def move(config: Config, moves: Mapping[str, int]) -> None:
    """Lets the packets of tasks go by other path groups of theirs from now on, all at once.

    The kernel has it when this returns. A running agent finds it in the file of places.
    """
    marks = {task.name: task.marks for task in config.tasks}
    state = read_state(config.state)
    for name, place in moves.items():
        if name not in marks:
            raise InputError(f"{config.path} has no task {name}")
        if place >= len(marks[name]):
            raise InputError(f"task {name} has {len(marks[name])} marks in `paths`, and no {place}")
        if name not in state.minors:
            raise InputError(f"no agent has run for {config.path} yet: {name} has no class")
    places = {**read_places(config.state), **moves}
    write_places(config.state, places)
    Classifier(config, state.minors).keep(places)
