"""The transactions of an allocator that leads: each compares the one before, and none is guessed.

Each compares the modification revision of the leader key with that of the allocator's own last
transaction and writes that key anew. So one that was held up in a network and comes late fails.
"""

from __future__ import annotations

import logging
import re
from collections.abc import Iterator
from dataclasses import dataclass

from bwe_control import protocol
from bwe_control.errors import OutcomeUnknown, StoreError
from bwe_control.keys import Keys
from bwe_control.store.interface import (
    Compare,
    Delete,
    Entry,
    Lease,
    Operation,
    Put,
    Reading,
    Select,
    Store,
)
from bwe_control.tables import Tables
from bwe_control.values import Posted, accepted_value

log = logging.getLogger(__name__)

HEADER = re.compile(rb"prefix ([0-9]{1,20}) document [0-9]{1,20}")
OF_A_KEY = 200  # bytes of a key and its frame in a request, at most


class Fenced(Exception):
    """The leader key was written by another transaction: read everything before the next one."""


@dataclass(frozen=True)
class Written:
    """What a table took: transactions, slices and bytes."""

    transactions: int
    slices: int
    size: int


class Chain:
    """Writes tables as the protocol says, under the lease of the allocator."""

    def __init__(self, store: Store, keys: Keys, name: str) -> None:
        self._store, self._keys, self._name = store, keys, name
        self.protocol: protocol.Allocator[bytes] = protocol.Allocator()
        self.lease: Lease | None = None
        self._tables: Tables | None = None  # whose rows the protocol has
        self._refusals: dict[str, bytes] = {}  # as they stand in the store
        self._accepted = 0  # the revision of the accepted document, as it stands in the store

    @property
    def fence(self) -> int:
        """What the next transaction compares; 0 where it has to read first."""
        return self.protocol.known.fence if self.protocol.known else 0

    def selects(self) -> list[Select]:
        """What the whole reading has beside that of the desk."""
        return [Select(self._keys.slices, True), Select(self._keys.refusals, True)]

    def read(self, leader: int, reading: Reading, tables: Tables | None, accepted: int) -> None:
        """Takes the whole reading: what stands, and the rows of the table of that very revision."""
        slices, refusals = (found.entries for found in reading.found)
        self._refusals = {it.key: it.value for it in refusals}
        self._accepted = accepted
        rows = tables.rows if tables else {}
        stands = {name: _slice_of(it, rows.get(name)) for name, it in self._named(slices)}
        self._changed(tables)
        self.protocol.read(_table(reading.revision, tables), leader, stands)

    def _named(self, slices: tuple[Entry, ...]) -> Iterator[tuple[str, Entry]]:
        """Slices with the names of their reporters."""
        return ((it.key.removeprefix(self._keys.slices), it) for it in slices)

    def look(self, revision: int, tables: Tables | None) -> None:
        """Takes the rows of the table of a later reading."""
        changed = self._changed(tables)
        self.protocol.look(_table(revision, tables), changed)

    def _changed(self, tables: Tables | None) -> set[str] | None:
        """Whose rows have changed since the last call; None where those were of another document."""
        before, self._tables = self._tables, tables
        changed = tables.changed() if tables else set()
        return changed if tables is before else None

    def write(self, document: bytes, tables: Tables | None, refusals: dict[str, bytes]) -> Written:
        """Writes refusals and the accepted document, then all slices that differ and `posted`.

        Fenced, OutcomeUnknown, StoreError: everything has to be read before the next call.
        """
        transactions, slices, size = 0, 0, 0
        for operations in self._parts(self._before(document, tables, refusals)):
            self._transact(self.protocol.send_aside(), operations)
            self._take_before(operations, tables)
            transactions, size = transactions + 1, size + _size(operations)
        while tables is not None:
            sent = self.protocol.send(self._fitting(tables))
            operations = [] if sent is None else self._operations(sent, tables)
            self._transact(sent, operations)
            transactions, size = transactions + 1, size + _size(operations)
            slices += len(sent.writes) if sent else 0
            if sent and sent.posts:
                break
        return Written(transactions, slices, size)

    def _before(
        self, document: bytes, tables: Tables | None, refusals: dict[str, bytes]
    ) -> list[Operation]:
        """What goes before the slices, where it differs from what stands."""
        found: list[Operation] = []
        if tables is not None and tables.network.revision != self._accepted:
            value = accepted_value(tables.network.revision, document)
            found.append(Put(self._keys.accepted, value))
        stands = self._refusals
        found += [Put(key, it) for key, it in refusals.items() if stands.get(key) != it]
        return found + [Delete(key) for key in stands if key not in refusals]

    def _take_before(self, operations: list[Operation], tables: Tables | None) -> None:
        for one in operations:
            if one.key == self._keys.accepted and tables is not None:
                self._accepted = tables.network.revision
            elif isinstance(one, Put):
                self._refusals[one.key] = one.value
            else:
                self._refusals.pop(one.key, None)

    def _parts(self, operations: list[Operation]) -> Iterator[list[Operation]]:
        """The operations in parts that a transaction takes beside the leader key."""
        part: list[Operation] = []
        size = 0
        for one in operations:
            size += _size([one])
            is_full = len(part) + 3 > self._store.most_operations or size > self._store.most_bytes
            if part and is_full:
                yield part
                part, size = [], _size([one])
            part.append(one)
        if part:
            yield part

    def _fitting(self, tables: Tables) -> int:
        """How many of the slices that differ one transaction takes beside the two other keys."""
        size, number = 0, 0
        for name in self.protocol.differing():
            size += OF_A_KEY + len(tables.rows.get(name, b""))
            if number and (
                size > self._store.most_bytes or number + 2 >= self._store.most_operations
            ):
                break
            number += 1
        return number

    def _operations(self, sent: protocol.Transaction[bytes], tables: Tables) -> list[Operation]:
        found: list[Operation] = []
        for name, piece in sent.writes.items():
            key = self._keys.limits(name)
            if piece is None:
                found.append(Delete(key))
            else:
                head = f"prefix {piece.prefix} document {tables.network.revision}\n"
                found.append(Put(key, head.encode() + piece.limits))
        if sent.posts:
            posted = Posted(sent.prefix, tables.network.revision, tables.total)
            found.append(Put(self._keys.posted, posted.text().encode()))
        return found

    def _transact(
        self, sent: protocol.Transaction[bytes] | None, operations: list[Operation]
    ) -> None:
        if sent is None or self.lease is None:
            raise Fenced("it does not lead")
        leader = Put(self._keys.leader, self._name.encode(), self.lease.number)
        try:
            outcome = self._store.transact(
                [Compare(self._keys.leader, sent.fence)], [leader, *operations]
            )
        except OutcomeUnknown:
            self.protocol.give_up()
            raise
        except StoreError:
            self.protocol.learn(None)
            raise
        self.protocol.learn(outcome.revision if outcome.is_done else None)
        if not outcome.is_done:
            raise Fenced("the leader key was written by another")


def _table(revision: int, tables: Tables | None) -> protocol.Reading[bytes]:
    return protocol.Reading(revision, dict(tables.rows) if tables else {})


def _slice_of(entry: Entry, due: bytes | None) -> protocol.Slice[bytes]:
    """A slice as it stands; one that no allocator has written differs from all rows.

    Where it is the row that is due, it is that very object, so that the next looks compare no bytes.
    """
    head, _, row = entry.value.partition(b"\n")
    found = HEADER.fullmatch(head)
    if found is None:
        return protocol.Slice(0, b"\0")
    return protocol.Slice(int(found[1]), due if due is not None and due == row else row)


def _size(operations: list[Operation]) -> int:
    return sum(OF_A_KEY + (len(one.value) if isinstance(one, Put) else 0) for one in operations)
