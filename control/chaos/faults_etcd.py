"""The faults of a run on etcd: its members, the networks between, and what a member is asked for."""

import asyncio
import json
import random
import signal

from chaos.errors import ChaosError
from chaos.faults import COMMON, LEASE, Fault, pick_allocator
from chaos.scene import READ_BY
from chaos.world import World
from chaos.world_etcd import EtcdWorld

FILL = 1_000_000  # bytes of one value with which the store is filled


def etcd(world: World) -> EtcdWorld:
    assert isinstance(world, EtcdWorld)
    return world


async def lose_member(world: World, rng: random.Random) -> None:
    cluster, name = etcd(world).cluster, rng.choice(etcd(world).cluster.names)
    await cluster.kill(name)
    await asyncio.sleep(rng.uniform(0.5, 5))
    await cluster.restore(name)


async def pause_member(world: World, rng: random.Random) -> None:
    cluster, name = etcd(world).cluster, rng.choice(etcd(world).cluster.names)
    cluster.signal(name, signal.SIGSTOP)
    await asyncio.sleep(rng.uniform(1, 6))
    cluster.signal(name, signal.SIGCONT)


async def lose_majority(world: World, rng: random.Random) -> None:
    cluster = etcd(world).cluster
    for name in (lost := rng.sample(cluster.names, 2)):
        await cluster.kill(name)
    await asyncio.sleep(rng.uniform(1, 2 * LEASE))
    for name in lost:
        await cluster.restore(name)


async def restart_all(world: World, rng: random.Random) -> None:
    cluster = etcd(world).cluster
    for name in cluster.names:
        await cluster.kill(name)
    await asyncio.sleep(rng.uniform(0, 2))
    for name in cluster.names:
        await cluster.restore(name)


async def part_member(world: World, rng: random.Random) -> None:
    """Cuts a member off from the others; clients still reach it, and read by it."""
    network, cluster = etcd(world).network, etcd(world).cluster
    name, ways = rng.choice(cluster.names), rng.choice([1, 2, 2])
    for other in cluster.names:
        if other != name:
            await network.cut(name, other, ways)
    await asyncio.sleep(rng.uniform(1, 6))
    looks = (world.clients.limits(host, rng.choice(READ_BY)) for host in world.hosts)
    await asyncio.gather(*looks)
    await network.heal(name)


async def part_allocator(world: World, rng: random.Random) -> None:
    """Cuts an allocator off from some members, or from all."""
    network, cluster = etcd(world).network, etcd(world).cluster
    name, ways = pick_allocator(world, rng), rng.choice([1, 2, 2])
    for member in rng.sample(cluster.names, rng.choice([1, 2, 3, 3])):
        await network.cut(name, member, ways)
    await asyncio.sleep(rng.uniform(0.5, 2 * LEASE))
    await network.heal(name)


async def unplug(world: World, rng: random.Random) -> None:
    network = etcd(world).network
    host = rng.choice([*network.addresses])
    await network.plug(host, "down")
    await asyncio.sleep(rng.uniform(0.5, 6))
    await network.plug(host, "up")


async def slow_network(world: World, rng: random.Random) -> None:
    """Answers take 0.4 to 1.1 s on some hosts."""
    hosts = rng.sample([*etcd(world).relays], rng.choice([1, 1, 2, 5]))
    for host in hosts:
        etcd(world).relays[host].order("slow", low=0.4, high=1.1)
    await asyncio.sleep(rng.uniform(3, 9))
    for host in hosts:
        etcd(world).relays[host].order("slow", low=0, high=0)


async def stall(world: World, rng: random.Random) -> None:
    """Connections of a host stay and carry nothing."""
    relay = etcd(world).relays[rng.choice([*etcd(world).relays])]
    relay.order("stall", on=True)
    await asyncio.sleep(rng.uniform(1, 2 * LEASE))
    relay.order("stall", on=False)


async def late_post(world: World, rng: random.Random) -> None:
    """One transaction that posts is held back, and arrives when others may have posted since."""
    name = world.leader() or rng.choice([*world.allocators])
    # Mostly longer than a client waits for its answer, so that it has gone on meanwhile.
    seconds = rng.uniform(0.1, LEASE) if rng.random() < 0.3 else rng.uniform(1.3, 4) * LEASE
    holding = etcd(world).holding[name]
    holding.clear()
    etcd(world).relays[name].order("hold", match="post", seconds=seconds)
    try:
        await asyncio.wait_for(holding.wait(), 3 * LEASE)
    except asyncio.TimeoutError:
        return  # nothing was posted in that time
    if rng.random() < 0.3:
        world.allocators[name].send(rng.choice([signal.SIGKILL, signal.SIGSTOP]))
    await asyncio.sleep(seconds + 1)
    world.allocators[name].send(signal.SIGCONT)


async def lost_answer(world: World, rng: random.Random) -> None:
    """The answer to a post or a report is lost, which was done all the same."""
    for _ in range(rng.randrange(1, 4)):
        if rng.random() < 0.5:
            etcd(world).relays[rng.choice(world.hosts)].order("lose", match="report")
        elif leader := world.leader():
            etcd(world).relays[leader].order("lose", match="post")
        await asyncio.sleep(rng.uniform(0.5, 2))


async def late_report(world: World, rng: random.Random) -> None:
    """A report is held back, and arrives when its client may have given up or tried again."""
    host, seconds = rng.choice(world.hosts), rng.uniform(0.5, 8)
    etcd(world).relays[host].order("hold", match="report", seconds=seconds)
    await asyncio.sleep(seconds)


async def compact(world: World, rng: random.Random) -> None:
    """Compacts all that the recorder has seen."""
    if world.revision > 1:
        await etcd(world).cluster.control("compaction", str(world.revision))


async def end_lease(world: World, rng: random.Random) -> None:
    """Ends the lease of the leader, as if it had run out."""
    text = await etcd(world).cluster.control("lease", "list")
    leases = [line.strip() for line in text.splitlines()[1:] if line.strip()]
    if leases:
        await etcd(world).cluster.control("lease", "revoke", rng.choice(leases))


async def fill_store(world: World, rng: random.Random) -> None:
    """Fills the quota of the store, so that it takes no put; then makes room again."""
    cluster = etcd(world).cluster
    try:
        for number in range(40):
            await cluster.control("put", f"/fill/{number}", given="x" * FILL)
    except ChaosError:
        pass  # it is full
    await asyncio.sleep(rng.uniform(1, 5))
    end = asyncio.get_running_loop().time() + 60
    while True:
        try:
            await make_room(etcd(world))
            return
        except ChaosError:
            if asyncio.get_running_loop().time() > end:
                raise
            await asyncio.sleep(0.5)  # other faults stand in the way for a while


async def make_room(world: EtcdWorld) -> None:
    """Takes away what filled the store, once the recorder has seen all of it."""
    text = await world.cluster.control("del", "--prefix", "/fill/", "--write-out=json")
    revision = json.loads(text)["header"]["revision"]
    while world.revision < revision:
        await asyncio.sleep(0.1)
    try:
        await world.cluster.control("compaction", str(revision))
    except ChaosError:
        pass  # it is compacted already; if it is not, the alarm comes again
    for name in world.cluster.names:
        await world.cluster.control("defrag", member=name)
    await world.cluster.control("alarm", "disarm")


FAULTS = (
    *COMMON,
    Fault("lose member", lose_member),
    Fault("pause member", pause_member),
    Fault("lose majority", lose_majority),
    Fault("restart all members", restart_all, 1),
    Fault("part member", part_member, 3),
    Fault("part allocator", part_allocator, 4),
    Fault("unplug", unplug),
    Fault("slow network", slow_network, 4),
    Fault("stall", stall),
    Fault("late post", late_post, 6),
    Fault("late report", late_report, 3),
    Fault("lost answer", lost_answer, 4),
    Fault("compact", compact, 3),
    Fault("end lease", end_lease, 1),
    Fault("fill store", fill_store, 1),
)
