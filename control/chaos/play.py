"""Plays one run: rounds of faults by a seed, after each of which all has to go on; then judges it."""

import asyncio
import json
import random
from dataclasses import dataclass
from pathlib import Path

from chaos import faults_etcd, faults_sqlite
from chaos.faults import Fault, choose, make
from chaos.world import World
from chaos.world_etcd import EtcdWorld
from chaos.world_sqlite import SqliteWorld

ROUND = 6.0  # seconds in which the faults of a round begin


@dataclass(frozen=True)
class Plan:
    """What is to be played."""

    store: str  # etcd or sqlite
    seconds: float
    seed: int
    folder: Path
    root: Path
    rate: float
    only: tuple[str, ...] = ()  # names of the faults, all where none is named


def faults_of(plan: Plan) -> tuple[Fault, ...]:
    every = faults_etcd.FAULTS if plan.store == "etcd" else faults_sqlite.FAULTS
    return tuple(it for it in every if not plan.only or it.name in plan.only)


async def play(plan: Plan, stop: asyncio.Event) -> World:
    """Plays until the time is over, `stop` is set, or posting does not go on."""
    kind: type[World] = EtcdWorld if plan.store == "etcd" else SqliteWorld
    world = kind(plan.folder, plan.root, plan.seed, plan.rate)
    rng = world.fork("faults")
    loop = asyncio.get_running_loop()
    await world.open()
    goes_on = await world.catch_up()
    end = loop.time() + plan.seconds
    while goes_on and not stop.is_set() and loop.time() < end:
        await one_round(world, faults_of(plan), rng, end)
        await world.heal()
        goes_on = await world.catch_up()
    world.log.write("stopped", seconds=plan.seconds, seed=plan.seed)
    await world.close()
    return world


async def one_round(
    world: World, faults: tuple[Fault, ...], rng: random.Random, end: float
) -> None:
    """Some faults, which overlap."""
    loop = asyncio.get_running_loop()
    chosen = choose(faults, rng, rng.choice([1, 2, 3, 4]))
    plans = [(rng.uniform(0, ROUND), fault, rng.randrange(1 << 32)) for fault in chosen]

    async def later(pause: float, fault: Fault, seed: int) -> None:
        await asyncio.sleep(pause)
        if loop.time() < end:
            await make(fault, world, random.Random(seed))

    await asyncio.gather(*(later(*it) for it in plans))
    world.fault_of_a_task()


async def play_and_read(plan: Plan, stop: asyncio.Event) -> None:
    """Plays, and leaves a whole record in the folder."""
    facts = {"store": plan.store, "seconds": plan.seconds, "seed": plan.seed, "rate": plan.rate}
    (plan.folder / "plan.json").write_text(json.dumps(facts))
    world = await play(plan, stop)
    world.log.close()
