"""A store, reporters and readers in memory, for the allocators of bwe_control.protocol.

The events, their names and the text of a state are those of the model in the crate `control_core`;
each `Allocator` is the very one on which the service runs.
"""

from __future__ import annotations

import random
from dataclasses import dataclass, field

from bwe_control.protocol import Allocator, Reading, Slice, Transaction

Row = tuple[int, ...]
MOST = 1_000_000_000_000


@dataclass
class Leader:
    holder: int
    created: int
    revision: int


@dataclass
class Posted:
    prefix: int
    revision: int
    slices: dict[str, Slice[Row]]


@dataclass
class Sent:
    holder: int
    transaction: Transaction[Row]
    outcome: str = "way"  # or done R, refused, lost


@dataclass
class Reader:
    told: int = 0
    seen: int = 0


@dataclass
class World:
    reporters: int
    tasks: int
    allocators: list[Allocator[Row]]
    readers: list[Reader]
    revision: int = 0
    reports: list[tuple[int, int | None, int]] = field(default_factory=list)
    leader: Leader | None = None
    slices: dict[str, Slice[Row]] = field(default_factory=dict)
    posted: Posted | None = None
    sent: list[Sent] = field(default_factory=list)
    waits: list[int | None] = field(default_factory=list)
    has_sent_parts: bool = False

    @staticmethod
    def fresh(reporters: int, tasks: int, allocators: int, readers: int) -> World:
        return World(
            reporters,
            tasks,
            [Allocator() for _ in range(allocators)],
            [Reader() for _ in range(readers)],
            waits=[None] * allocators,
        )

    def rows(self, prefix: int) -> dict[str, Row]:
        """Each reporter's row in the table of the reports with a revision of at most the prefix."""
        demands, capacity = [0] * self.tasks, MOST
        for revision, task, amount in self.reports:
            if revision <= prefix and task is None:
                capacity = amount
            elif revision <= prefix and task is not None:
                demands[task] = amount
        limits = [min(one, capacity) for one in demands]
        return {str(it): tuple(limits[it :: self.reporters]) for it in range(self.reporters)}

    def step(self, event: str) -> None:
        """Does what the line of an event says."""
        name, *words = event.split()
        getattr(self, f"on_{name}")(*map(int, words))

    def on_demand(self, task: int, amount: int) -> None:
        self.revision += 1
        self.reports.append((self.revision, task, amount))

    def on_capacity(self, amount: int) -> None:
        self.revision += 1
        self.reports.append((self.revision, None, amount))

    def on_campaign(self, allocator: int) -> None:
        if self.leader is None:
            self.revision += 1
            self.leader = Leader(allocator, self.revision, self.revision)

    def on_expire(self) -> None:
        if self.leader is not None:
            self.revision += 1
            self.leader = None

    def on_read(self, allocator: int) -> None:
        leads = self.leader is not None and self.leader.holder == allocator
        revision = self.leader.revision if leads and self.leader else None
        reading = Reading(self.revision, self.rows(self.revision))
        self.allocators[allocator].read(reading, revision, dict(self.slices))
        self.waits[allocator] = None

    def on_look(self, allocator: int) -> None:
        self.allocators[allocator].look(Reading(self.revision, self.rows(self.revision)))

    def on_send(self, allocator: int, most: int) -> None:
        sent = self.allocators[allocator].send(most)
        if sent is not None:
            self.waits[allocator] = len(self.sent)
            self.sent.append(Sent(allocator, sent))
            self.has_sent_parts |= not sent.posts

    def on_take(self, number: int) -> None:
        sent = self.sent[number]
        if sent.outcome != "way":
            return
        transaction = sent.transaction
        if (self.leader.revision if self.leader else 0) != transaction.fence:
            sent.outcome = "refused"
            return
        assert self.leader is not None
        self.revision += 1
        self.leader = Leader(sent.holder, self.leader.created, self.revision)
        written = {name: it for name, it in transaction.writes.items() if it is not None}
        self.slices = self.slices | written
        if transaction.posts:
            self.posted = Posted(transaction.prefix, self.revision, dict(self.slices))
        sent.outcome = f"done {self.revision}"

    def on_lose(self, number: int) -> None:
        if self.sent[number].outcome == "way":
            self.sent[number].outcome = "lost"

    def on_learn(self, allocator: int) -> None:
        number = self.waits[allocator]
        if number is None:
            return
        outcome = self.sent[number].outcome
        if outcome.startswith("done"):
            self.allocators[allocator].learn(int(outcome.split()[1]))
            self.waits[allocator] = None
        elif outcome == "refused":
            self.allocators[allocator].learn(None)
            self.waits[allocator] = None

    def on_give_up(self, allocator: int) -> None:
        self.allocators[allocator].give_up()
        self.waits[allocator] = None

    def on_crash(self, allocator: int) -> None:
        self.allocators[allocator].crash()
        self.waits[allocator] = None

    def on_tell(self, reader: int, revision: int) -> None:
        if revision <= (self.posted.prefix if self.posted else 0):
            self.readers[reader].told = max(self.readers[reader].told, revision)

    def on_see(self, reader: int) -> None:
        self.readers[reader].seen = self.posted.prefix if self.posted else 0

    def text(self) -> str:
        """The state as the program `bwe_protocol` prints it."""
        lines = [f"revision {self.revision}", *(f"report {it[0]}" for it in self.reports)]
        leader, posted = self.leader, self.posted
        lines.append(
            f"leader {leader.holder} created {leader.created} revision {leader.revision}"
            if leader
            else "leader none"
        )
        lines.append(
            f"posted {posted.prefix} revision {posted.revision}" if posted else "posted none"
        )
        lines += self._slices("slice", self.slices)
        lines += self._slices("shown", posted.slices) if posted else []
        lines += map(self._allocator, range(len(self.allocators)))
        lines += [self._sent(number, it) for number, it in enumerate(self.sent)]
        lines += [f"reader {i} told {it.told} seen {it.seen}" for i, it in enumerate(self.readers)]
        return "".join(line + "\n" for line in lines) + "\n"

    def _slices(self, word: str, slices: dict[str, Slice[Row]]) -> list[str]:
        return [
            (
                " ".join(map(str, [word, it, "prefix", found.prefix, "limits", *found.limits]))
                if (found := slices.get(str(it)))
                else f"{word} {it} none"
            )
            for it in range(self.reporters)
        ]

    def _allocator(self, number: int) -> str:
        one, waits = self.allocators[number], self.waits[number]
        reading = one.reading.revision if one.reading else "none"
        known = one.known.fence if one.known else "none"
        since = one.known.since if one.known else "none"
        waiting = "none" if waits is None else waits
        return f"allocator {number} reading {reading} known {known} since {since} waits {waiting}"

    def _sent(self, number: int, sent: Sent) -> str:
        one = sent.transaction
        posts = "yes" if one.posts else "no"
        head = f"sent {number} holder {sent.holder} fence {one.fence} prefix {one.prefix}"
        words = [head, "posts", posts, "outcome", sent.outcome, "writes", *one.writes]
        return " ".join(words)


def random_event(chance: random.Random, world: World) -> str:
    """An event that is likely to be possible, and at times is not."""
    allocators, readers = len(world.allocators), len(world.readers)
    one = chance.randrange(allocators)
    most = chance.choice([world.reporters, world.reporters, chance.randint(0, world.reporters)])
    events = [
        (8, f"demand {chance.randrange(world.tasks)} {chance.randint(0, 9)}"),
        (1, f"capacity {chance.randint(0, 9)}"),
        (4, f"campaign {one}"),
        (1, "expire"),
        (8, f"read {one}"),
        (10, f"look {one}"),
        (20, f"send {one} {most}"),
        (12, f"learn {one}"),
        (2, f"give_up {one}"),
        (1, f"crash {one}"),
        (2, f"see {chance.randrange(readers)}"),
    ]
    if world.posted:
        told = chance.randint(0, world.posted.prefix + 1)
        events.append((2, f"tell {chance.randrange(readers)} {told}"))
    if world.sent:
        late = chance.randrange(len(world.sent))
        recent = max(0, len(world.sent) - 1 - chance.randrange(2))
        events += [(14, f"take {recent}"), (3, f"take {late}"), (2, f"lose {late}")]
    return chance.choices([it for _, it in events], [weight for weight, _ in events])[0]
