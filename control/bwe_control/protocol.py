"""The allocator's protocol: what one allocator knows, and what it may send. No input and no output.

The names are those of the model in the crate `control_core`, which proves the law for every order of
events; a test drives both with the same events. A *row* is the limits of one reporter's tasks in a
table, a *slice* is a row with the prefix of the table that it was written from. Rows are compared
and handed on, and never looked into.
"""

from __future__ import annotations

from collections.abc import Collection, Mapping
from dataclasses import dataclass, field
from typing import Generic, TypeVar

Row = TypeVar("Row")


@dataclass(frozen=True)
class Slice(Generic[Row]):
    """A row, and the prefix of the table that it was written from."""

    prefix: int
    limits: Row


@dataclass(frozen=True)
class Known(Generic[Row]):
    """What an allocator that leads knows of the store.

    `fence` is the modification revision of the leader key that its next transaction compares. All
    that was posted was posted at or before `since`. `slices` stand as of the fence.
    """

    fence: int
    since: int
    slices: Mapping[str, Slice[Row]]


@dataclass(frozen=True)
class Reading(Generic[Row]):
    """A table: its prefix, and of each reporter of the document its row, in the document's order."""

    revision: int
    rows: Mapping[str, Row]


@dataclass(frozen=True)
class Transaction(Generic[Row]):
    """What is sent: it compares `fence`, writes the leader key anew, and puts slices.

    `writes` has None where a slice is deleted, as its reporter is none of the document any more.
    `since` and `after` do not go to the store: they are what is known once it was done.
    """

    fence: int
    prefix: int
    writes: Mapping[str, Slice[Row] | None]
    posts: bool
    since: int
    after: Mapping[str, Slice[Row]]


@dataclass
class Allocator(Generic[Row]):
    """One allocator. A fresh one knows nothing, and so does one that has crashed."""

    known: Known[Row] | None = field(default=None)
    reading: Reading[Row] | None = field(default=None)
    waits: Transaction[Row] | None = field(default=None)
    # What `differing` answers, where it is known already, and of which reading `waits` was sent.
    _differing: list[str] | None = field(default=None, compare=False, repr=False)
    _sent_of: Reading[Row] | None = field(default=None, compare=False, repr=False)

    def read(
        self,
        reading: Reading[Row],
        leader: int | None,
        slices: Mapping[str, Slice[Row]],
    ) -> None:
        """The whole reading, all at one revision.

        `leader` is the modification revision of the leader key where this very allocator holds it,
        else None.
        """
        self.reading, self._differing = reading, None
        self.known = None if leader is None else Known(leader, leader, slices)
        self.waits = None

    def look(self, reading: Reading[Row], changed: Collection[str] | None = None) -> None:
        """The reading of the document and the reports alone.

        `changed` may name the reporters whose row can be another than in the reading before, where
        both have the same reporters in the same order: then no other row is compared.
        """
        kept, self.reading, self._differing = self._differing, reading, None
        if kept is not None and changed is not None and self.known is not None:
            some = {it for it in {*kept, *changed} if self._differs(it)}
            self._differing = _in_order(some, reading.rows)

    def differing(self) -> list[str]:
        """The reporters whose slice is another than their row: first rows, then slices to delete."""
        if self.known is None or self.reading is None:
            return []
        if self._differing is None:
            slices, rows = self.known.slices, self.reading.rows
            some = {name for name in {*rows, *slices} if self._differs(name)}
            self._differing = _in_order(some, rows)
        return self._differing

    def _differs(self, name: str) -> bool:
        """Whether the slice of a reporter is another than its row, or has none."""
        if self.known is None or self.reading is None:
            return False
        piece, rows = self.known.slices.get(name), self.reading.rows
        if name not in rows:
            return piece is not None
        return piece is None or piece.limits != rows[name]

    def may_send(self) -> bool:
        """Whether it leads, waits for no outcome, and has read at or after all that was posted."""
        if self.waits is not None or self.known is None or self.reading is None:
            return False
        return self.known.since <= self.reading.revision

    def send(self, most: int) -> Transaction[Row] | None:
        """The transaction of the first `most` slices that differ.

        It posts where no more than those differ. None where it may not send.
        """
        differing = self.differing()
        return self._sent(differing[:most], len(differing) <= most)

    def send_aside(self) -> Transaction[Row] | None:
        """A transaction without slices, in the chain, that does not post: for what goes before."""
        return self._sent([], False)

    def _sent(self, reporters: list[str], posts: bool) -> Transaction[Row] | None:
        if not self.may_send() or self.known is None or self.reading is None:
            return None
        prefix, rows = self.reading.revision, self.reading.rows
        writes = {name: Slice(prefix, rows[name]) if name in rows else None for name in reporters}
        after = dict(self.known.slices)
        for name in writes:
            after.pop(name, None)
        after.update((name, it) for name, it in writes.items() if it is not None)
        self.waits = Transaction(self.known.fence, prefix, writes, posts, self.known.since, after)
        self._sent_of = self.reading
        return self.waits

    def learn(self, done: int | None) -> None:
        """The outcome: the revision at which the transaction was done; None: it was not done."""
        if self.waits is None:
            return
        sent, self.waits = self.waits, None
        if done is None:
            self.known = self._differing = None
        else:
            self.known = Known(done, done if sent.posts else sent.since, sent.after)
            is_of_it = self._differing is not None and self._sent_of is self.reading
            self._differing = (self._differing or [])[len(sent.writes) :] if is_of_it else None

    def give_up(self) -> None:
        """The outcome is not known: it has to read before it sends again."""
        if self.waits is not None:
            self.known = self.waits = self._differing = None

    def crash(self) -> None:
        """It knows nothing any more."""
        self.known = self.reading = self.waits = self._differing = None


def _in_order(names: set[str], rows: Mapping[str, Row]) -> list[str]:
    """Those of rows in their order, and behind them the others by name."""
    if len(names) < 2:
        return [*names]
    return [it for it in rows if it in names] + sorted(it for it in names if it not in rows)
