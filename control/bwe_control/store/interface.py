"""What the control plane needs of a store: keys with values, and a history of revisions.

Each transaction that puts or deletes raises the one revision of the store by one, over all keys. A
key's modification revision is that of the transaction that wrote it last. Keys are texts, in the
order of their bytes; bytes that are no UTF-8 stand as `surrogateescape` has them. A store is used by
one thread at a time: each thread opens its own.
"""

from __future__ import annotations

from collections.abc import Iterator, Sequence
from dataclasses import dataclass
from types import TracebackType
from typing import Protocol, Union


@dataclass(frozen=True)
class Entry:
    """A key as it stands: its value, and the revisions of the transactions that made and wrote it."""

    key: str
    value: bytes
    created: int
    modified: int
    lease: int = 0  # 0: none


@dataclass(frozen=True)
class Select:
    """What is read: one key, or with `is_prefix` all keys that begin with it.

    With `since` only entries of a greater modification revision come; the count stays that of all.
    """

    key: str
    is_prefix: bool = False
    since: int = 0


@dataclass(frozen=True)
class Selected:
    """The entries of one Select in the order of their keys, and how many keys there are in all."""

    entries: tuple[Entry, ...]
    count: int

    def one(self) -> Entry | None:
        """The entry of a single key, None where it is not there."""
        return self.entries[0] if self.entries else None


@dataclass(frozen=True)
class Reading:
    """All that was asked for as it stood at one revision, in the order of the question."""

    revision: int
    found: tuple[Selected, ...]


@dataclass(frozen=True)
class Compare:
    """A condition of a transaction: the key's modification revision; 0: the key is not there."""

    key: str
    modified: int


@dataclass(frozen=True)
class Put:
    """Writes a key; with a lease the key goes when the lease ends."""

    key: str
    value: bytes
    lease: int = 0


@dataclass(frozen=True)
class Delete:
    """Deletes a key; one that is not there stays away."""

    key: str


Operation = Union[Put, Delete]


@dataclass(frozen=True)
class Outcome:
    """Whether a transaction was done. `revision` is then its own, else the store's at that time."""

    is_done: bool
    revision: int


@dataclass(frozen=True)
class Lease:
    """A lease and its length in seconds, as the store grants it (etcd: whole, at least 2)."""

    number: int
    seconds: float


@dataclass(frozen=True)
class Change:
    """One write of the history; `value` is None where the key was deleted."""

    revision: int
    key: str
    value: bytes | None


@dataclass(frozen=True)
class History:
    """All writes that are kept: the entries as they stood at `first`, and the changes after it.

    Changes come in the order of their revisions, up to the store's revision when it was asked.
    """

    first: int
    entries: tuple[Entry, ...]
    changes: Iterator[Change]


class Bell(Protocol):
    """Rings when something may have changed. It says when to look, and nothing else."""

    def wait(self, seconds: float) -> bool:
        """Waits for a ring since the last call, at most so long. Rings too where it is in doubt."""

    def close(self) -> None:
        """Ends it; a second call does nothing."""

    def __enter__(self) -> Bell:
        ...

    def __exit__(
        self,
        kind: type[BaseException] | None,
        fault: BaseException | None,
        trace: TracebackType | None,
    ) -> None:
        ...


class Store(Protocol):
    """One store. Each call has a deadline, and raises StoreAway or StoreRefused past it.

    `most_operations` and `most_bytes` are what one transaction takes; a single value may be longer.
    """

    most_operations: int
    most_bytes: int

    def read(self, selects: Sequence[Select], at: int = 0) -> Reading:
        """All selects at one revision: linearizable, or at a revision of the past.

        Compacted where that revision is not kept any more; StoreError where it is still to come.
        """

    def transact(self, compares: Sequence[Compare], operations: Sequence[Operation]) -> Outcome:
        """Does all operations at once where all compares hold. No key stands twice in operations.

        StoreError: it was not done and will not be. OutcomeUnknown: the answer is lost. LeaseLost:
        a Put names a lease that has ended; it was not done.
        """

    def grant(self, seconds: float) -> Lease:
        """A new lease, which ends so long after its last renewal."""

    def renew(self, lease: Lease) -> float:
        """Renews a lease; the seconds that it now has left. LeaseLost where it has ended."""

    def revoke(self, lease: Lease) -> None:
        """Ends a lease at once, and deletes its keys; one that has ended is no fault."""

    def bell(self, selects: Sequence[Select]) -> Bell:
        """A bell for what is selected; `since` counts for nothing here."""

    def history(self, selects: Sequence[Select]) -> History:
        """The writes of what is selected, as far back as they are kept."""

    def compact(self, revision: int) -> None:
        """Gives up the history before a revision; reads at it and after it stay as they are."""

    def close(self) -> None:
        """Gives back what it holds; a second call does nothing."""
