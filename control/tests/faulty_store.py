"""A store that fails by a seed: answers are lost, transactions are held up, lost, or come late."""

from __future__ import annotations

import random
from collections.abc import Callable, Sequence

from bwe_control.errors import OutcomeUnknown, StoreAway, StoreError
from bwe_control.store.interface import (
    Bell,
    Compare,
    History,
    Lease,
    Operation,
    Outcome,
    Reading,
    Select,
    Store,
)


class Crash(BaseException):
    """The process that called dies here."""


class Held:
    """Transactions that are on their way, and come when they are let go."""

    def __init__(self, store: Store, chance: random.Random) -> None:
        self.store, self.chance = store, chance
        self.waiting: list[tuple[Sequence[Compare], Sequence[Operation]]] = []
        self.late = 0

    def let_some_go(self) -> None:
        while self.waiting and self.chance.random() < 0.3:
            one = self.waiting.pop(self.chance.randrange(len(self.waiting)))
            try:
                self.late += self.store.transact(*one).is_done
            except StoreError:
                pass  # its lease has ended


class FaultyStore:
    """The store of one allocator; `rate` is how often a call fails."""

    def __init__(self, held: Held, rate: float, most_operations: int) -> None:
        self._store, self._held, self.rate = held.store, held, rate
        self.most_operations, self.most_bytes = most_operations, 1_000_000
        self.faults = 0

    def _fails(self) -> bool:
        fails = self._held.chance.random() < self.rate
        self.faults += fails
        return fails

    def read(self, selects: Sequence[Select], at: int = 0) -> Reading:
        self._held.let_some_go()
        if self._fails():
            raise StoreAway("a read that does not come back")
        return self._store.read(selects, at)

    def transact(self, compares: Sequence[Compare], operations: Sequence[Operation]) -> Outcome:
        self._held.let_some_go()
        if not self._fails():
            return self._store.transact(compares, operations)
        fault = self._held.chance.randrange(5)
        if fault == 0:
            raise StoreAway("not sent")
        if fault == 1:
            self._held.waiting.append((compares, operations))
        if fault in (2, 3):
            self._store.transact(compares, operations)
        if fault == 3:
            raise Crash
        raise OutcomeUnknown("the answer is lost")

    def grant(self, seconds: float) -> Lease:
        return self._store.grant(seconds)

    def renew(self, lease: Lease) -> float:
        return lease.seconds  # it is asked from another thread, and leases here are long

    def revoke(self, lease: Lease) -> None:
        if self._fails():
            raise StoreAway("not revoked")
        self._store.revoke(lease)

    def bell(self, selects: Sequence[Select]) -> Bell:
        return _Silent()

    def history(self, selects: Sequence[Select]) -> History:
        return self._store.history(selects)

    def compact(self, revision: int) -> None:
        self._store.compact(revision)

    def close(self) -> None:
        pass


class _Silent:
    """A bell that never rings, and does not wait."""

    def wait(self, seconds: float) -> bool:
        return False

    def close(self) -> None:
        pass

    def __enter__(self) -> Bell:
        return self

    def __exit__(self, *_: object) -> None:
        pass


Opener = Callable[[], Store]
