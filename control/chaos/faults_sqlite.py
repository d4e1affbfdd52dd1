"""The faults of a run on SQLite: its disk, its folder, and kills at any moment."""

import asyncio
import random
import signal

from chaos.actors import send
from chaos.faults import COMMON, LEASE, Fault, kill_everything
from chaos.world import World
from chaos.world_sqlite import SqliteWorld


def sqlite(world: World) -> SqliteWorld:
    assert isinstance(world, SqliteWorld)
    return world


async def full_disk(world: World, rng: random.Random) -> None:
    """The disk is full, or has room for a page or two."""
    sqlite(world).fill(rng.choice([1, 4096, 20_000, 100_000]))
    await asyncio.sleep(rng.uniform(1, 2 * LEASE))
    sqlite(world).fill(0)


async def read_only(world: World, rng: random.Random) -> None:
    """The folder and its files cannot be opened for writing; processes that had them are killed."""
    sqlite(world).forbid(True)
    if rng.random() < 0.5:
        await kill_everything(world, rng)
    await asyncio.sleep(rng.uniform(1, 2 * LEASE))
    sqlite(world).forbid(False)


async def kills_at_random(world: World, rng: random.Random) -> None:
    """Kills somebody again and again, at any moment of theirs."""
    for _ in range(rng.randrange(3, 10)):
        await asyncio.sleep(rng.uniform(0.02, 0.8))
        rng.choice([*world.allocators.values(), *world.readers]).send(signal.SIGKILL)
        for process in [*world.clients.running]:
            if rng.random() < 0.3:
                send(process, signal.SIGKILL)


async def pause_everything(world: World, rng: random.Random) -> None:
    """All stop, perhaps inside a transaction, and go on one after the other."""
    daemons = [*world.allocators.values(), *world.readers]
    for daemon in daemons:
        daemon.send(signal.SIGSTOP)
    await asyncio.sleep(rng.uniform(0.5, 1.5 * LEASE))
    rng.shuffle(daemons)
    for daemon in daemons:
        daemon.send(signal.SIGCONT)
        await asyncio.sleep(rng.uniform(0, 0.5))


FAULTS = (
    *COMMON,
    Fault("full disk", full_disk, 3),
    Fault("read-only folder", read_only, 2),
    Fault("kill everything", kill_everything, 3),
    Fault("kills at random", kills_at_random, 6),
    Fault("pause everything", pause_everything, 2),
)
