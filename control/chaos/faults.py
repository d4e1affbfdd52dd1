"""The faults of a run. Each makes its fault, waits, and undoes it."""

import asyncio
import os
import random
import signal
from collections.abc import Awaitable, Callable
from dataclasses import dataclass
from typing import TypeVar

from chaos.actors import send
from chaos.errors import ChaosError
from chaos.scene import bad_document, document
from chaos.world import World
from chaos.world_etcd import EtcdWorld
from chaos.world_sqlite import SqliteWorld

LEASE = 3.0  # seconds, that of an allocator by default
W = TypeVar("W", bound=World)


@dataclass(frozen=True)
class Fault:
    """A kind of fault, and how often it comes beside others."""

    name: str
    make: Callable[[World, random.Random], Awaitable[None]]
    weight: int = 2


def pick_allocator(world: World, rng: random.Random) -> str:
    """An allocator, mostly the one that leads."""
    leader = world.leader()
    return leader if leader and rng.random() < 0.7 else rng.choice([*world.allocators])


async def kill_allocator(world: World, rng: random.Random) -> None:
    world.allocators[pick_allocator(world, rng)].send(signal.SIGKILL)


async def end_allocator(world: World, rng: random.Random) -> None:
    world.allocators[pick_allocator(world, rng)].send(signal.SIGTERM)


async def kill_all_allocators(world: World, rng: random.Random) -> None:
    for daemon in world.allocators.values():
        daemon.send(signal.SIGKILL)


async def pause_allocator(world: World, rng: random.Random) -> None:
    """Stops one, mostly past its lease, and lets it go on."""
    daemon = world.allocators[pick_allocator(world, rng)]
    daemon.send(signal.SIGSTOP)
    try:
        await asyncio.sleep(rng.uniform(0.5 * LEASE, 2.2 * LEASE))
    finally:
        daemon.send(signal.SIGCONT)


async def kill_solver(world: World, rng: random.Random) -> None:
    for pid in world.allocators[pick_allocator(world, rng)].children():
        try:
            os.kill(pid, signal.SIGKILL)
        except ProcessLookupError:
            pass  # it ended just now


async def kill_reader(world: World, rng: random.Random) -> None:
    rng.choice(world.readers).send(signal.SIGKILL)


async def kill_clients(world: World, rng: random.Random) -> None:
    """Kills calls of reporters and readers for a while, at any moment of theirs."""
    for _ in range(rng.randrange(2, 6)):
        await asyncio.sleep(rng.uniform(0.05, 0.6))
        for process in [*world.clients.running]:
            if rng.random() < 0.5:
                send(process, signal.SIGKILL)


async def kill_everything(world: World, rng: random.Random) -> None:
    for daemon in [*world.allocators.values(), *world.readers]:
        daemon.send(signal.SIGKILL)
    for process in [*world.clients.running]:
        send(process, signal.SIGKILL)


async def change_document(world: World, rng: random.Random) -> None:
    world.document = rng.choice([it for it in ("plain", "more", "less") if it != world.document])
    path = world.folder / "document.json"
    path.write_bytes(document(world.document))
    await world.clients.call(world.hosts[0], "operator", ["init", str(path)], "", b"")


async def refuse_document(world: World, rng: random.Random) -> None:
    """A document that cannot be in force stands for a while."""
    assert isinstance(world, (EtcdWorld, SqliteWorld))
    await world.put_document(bad_document(rng))
    await asyncio.sleep(rng.uniform(0.5, 4))
    await world.put_document(document(world.document))


COMMON = (
    Fault("kill allocator", kill_allocator, 4),
    Fault("end allocator", end_allocator, 1),
    Fault("kill all allocators", kill_all_allocators, 1),
    Fault("pause allocator", pause_allocator, 4),
    Fault("kill solver", kill_solver, 1),
    Fault("kill reader", kill_reader, 1),
    Fault("kill clients", kill_clients, 2),
    Fault("change document", change_document, 1),
    Fault("refuse document", refuse_document, 1),
)


async def make(fault: Fault, world: World, rng: random.Random) -> None:
    """Makes a fault, with its begin and its end in the log."""
    world.log.write("fault", name=fault.name)
    try:
        await fault.make(world, rng)
    except ChaosError as trouble:
        # Two faults meet: a store without a majority takes no fault of its own, as one example.
        world.log.write("fault failed", name=fault.name, text=str(trouble))
    world.log.write("fault over", name=fault.name)


def choose(faults: tuple[Fault, ...], rng: random.Random, number: int) -> list[Fault]:
    weights = [it.weight for it in faults]
    return rng.choices(faults, weights, k=number)
