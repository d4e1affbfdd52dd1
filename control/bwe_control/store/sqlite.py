"""The store of one machine: tables of SQLite, for which any process of the machine may ask."""

from __future__ import annotations

import sqlite3
import time
from collections.abc import Iterator, Sequence
from pathlib import Path

from bwe_control.errors import Compacted, LeaseLost, StoreAway, StoreError, StoreRefused
from bwe_control.store.interface import (
    Change,
    Compare,
    Entry,
    History,
    Lease,
    Operation,
    Outcome,
    Put,
    Reading,
    Select,
    Selected,
)
from bwe_control.store.sqlite_bell import SqliteBell
from bwe_control.store.sqlite_file import SqliteFile, number_of
from bwe_control.store.sqlite_leases import check_lease, end_leases, now_and_boot, soonest_end

NOW = """SELECT e.key, w.value, e.created, e.modified, e.lease
         FROM entries e JOIN writes w ON w.row = e.row
         WHERE e.key >= ? AND e.key < ? AND e.modified > ? ORDER BY e.key"""
# The same by what was written since, for a prefix of which little was.
SINCE = """SELECT e.key, w.value, e.created, e.modified, e.lease
           FROM writes w INDEXED BY writes_by_revision
           CROSS JOIN entries e ON e.key = w.key AND e.row = w.row
           WHERE w.key >= ? AND w.key < ? AND w.revision > ? ORDER BY e.key"""
# Whether a key was made or deleted since.
MADE = """SELECT 1 FROM writes INDEXED BY writes_by_revision
          WHERE key >= ? AND key < ? AND revision > ? AND (value IS NULL OR created = revision)
          LIMIT 1"""
THEN = """SELECT key, value, created, revision, lease FROM writes w
          WHERE key >= ? AND key < ? AND value IS NOT NULL AND revision =
                (SELECT max(revision) FROM writes v WHERE v.key = w.key AND v.revision <= ?)
          ORDER BY key"""
# What was written before a later write of its key that is past ?1, at ?2 at most; what was deleted.
STALE = """DELETE FROM writes WHERE row IN (
             SELECT w.row FROM writes v INDEXED BY writes_by_revision
             CROSS JOIN writes w ON w.key = v.key AND w.revision < v.revision
             WHERE v.revision > ?1 AND v.revision <= ?2)"""
GONE = """DELETE FROM writes INDEXED BY writes_by_revision
          WHERE revision > ?1 AND revision <= ?2 AND value IS NULL"""
# The revision of the last of so many writes past ?1; none where there are fewer up to ?2.
MANY = """SELECT revision FROM writes INDEXED BY writes_by_revision
          WHERE revision > ?1 AND revision <= ?2 ORDER BY revision LIMIT 1 OFFSET 500"""


class SqliteStore:
    """A folder with one file of SQLite in it."""

    most_operations = 1_000_000
    most_bytes = 64_000_000

    def __init__(self, folder: Path, makes_folder: bool = False) -> None:
        self._folder = folder
        self._file = SqliteFile(folder, makes_folder)
        # By store and range: a revision, and how many keys there were then.
        self._counts: dict[tuple[str, bytes, bytes], tuple[int, int]] = {}

    def read(self, selects: Sequence[Select], at: int = 0) -> Reading:
        if not at:
            self._end_leases()
        with self._file.reading() as connection:
            revision = number_of(connection, "revision")
            if at:
                if at > revision:
                    raise StoreError(f"the store is at revision {revision}, and not yet at {at}")
                if at < number_of(connection, "compacted"):
                    raise Compacted(f"the history at revision {at} is not kept any more")
            found = tuple(self._selected(connection, one, at, revision) for one in selects)
            return Reading(at or revision, found)

    def transact(self, compares: Sequence[Compare], operations: Sequence[Operation]) -> Outcome:
        with self._file.writing() as connection:
            end_leases(connection)
            revision = number_of(connection, "revision")
            for one in compares:
                if _modified(connection, one.key) != one.modified:
                    return Outcome(False, revision)
            for lease in {one.lease for one in operations if isinstance(one, Put) and one.lease}:
                check_lease(connection, lease)
            if write(connection, operations, revision + 1):
                revision += 1
            return Outcome(True, revision)

    def grant(self, seconds: float) -> Lease:
        now, boot = now_and_boot()
        with self._file.writing() as connection:
            cursor = connection.execute(
                "INSERT INTO leases(seconds, end, boot) VALUES (?, ?, ?)",
                [seconds, now + seconds, boot],
            )
            return Lease(int(cursor.lastrowid or 0), seconds)

    def renew(self, lease: Lease) -> float:
        with self._file.writing() as connection:
            end_leases(connection)
            check_lease(connection, lease.number)
            connection.execute(
                "UPDATE leases SET end = ? WHERE number = ?",
                [now_and_boot()[0] + lease.seconds, lease.number],
            )
        return lease.seconds

    def revoke(self, lease: Lease) -> None:
        with self._file.writing() as connection:
            connection.execute("UPDATE leases SET end = 0 WHERE number = ?", [lease.number])
            end_leases(connection)

    def bell(self, selects: Sequence[Select]) -> SqliteBell:
        return SqliteBell(self._folder, [key_range(one) for one in selects], self._end_leases)

    def history(self, selects: Sequence[Select]) -> History:
        file = SqliteFile(self._folder)
        connection = file.connection()
        connection.execute("BEGIN")
        first, last = number_of(connection, "compacted"), number_of(connection, "revision")
        ranges = [key_range(one) for one in selects]
        then = [_entries(connection, THEN, (*one, first)) for one in ranges]
        entries = tuple(entry for found in then for entry in found)
        return History(first, entries, _changes(file, connection, ranges, first, last))

    def compact(self, revision: int) -> None:
        with self._file.writing() as connection:
            if revision > number_of(connection, "revision"):
                raise StoreError(f"revision {revision} is still to come")
            if revision <= number_of(connection, "compacted"):
                return
            connection.execute("UPDATE meta SET value = ? WHERE name='compacted'", [revision])
        while not self._has_swept():
            pass

    def _has_swept(self) -> bool:
        """Throws away some of what is not kept any more; whether that was all.

        It goes on where the last call ended, so it costs by what was written since, and holds the
        lock for as long as some hundred writes take.
        """
        with self._file.writing() as connection:
            last, since = number_of(connection, "compacted"), number_of(connection, "swept")
            found = connection.execute(MANY, [since, last]).fetchone()
            upto = found[0] if found else last
            connection.execute(STALE, [since, upto])
            connection.execute(GONE, [since, upto])
            connection.execute("INSERT OR REPLACE INTO meta VALUES ('swept', ?)", [upto])
            return bool(upto == last)

    def close(self) -> None:
        self._file.close()

    def _selected(
        self, connection: sqlite3.Connection, select: Select, at: int, revision: int
    ) -> Selected:
        ends = key_range(select)
        if at:
            entries = _entries(connection, THEN, (*ends, at))
            newer = tuple(it for it in entries if it.modified > select.since)
            return Selected(newer, len(entries))
        if not select.since:
            whole = _entries(connection, NOW, (*ends, 0))
            return Selected(tuple(whole), len(whole))
        if not select.is_prefix:
            entries = _entries(connection, NOW, (*ends, select.since))
            return Selected(tuple(entries), _count(connection, ends))
        entries = _entries(connection, SINCE, (*ends, select.since))
        return Selected(tuple(entries), self._kept_count(connection, ends, revision))

    def _kept_count(
        self, connection: sqlite3.Connection, ends: tuple[bytes, bytes], revision: int
    ) -> int:
        """How many keys there are, counted anew only where one was made or deleted since."""
        key = (self._file.identity, *ends)
        since, count = self._counts.get(key, (-1, 0))
        is_known = number_of(connection, "compacted") <= since <= revision
        if not is_known or connection.execute(MADE, (*ends, since)).fetchone():
            count = _count(connection, ends)
        self._counts[key] = revision, count
        return count

    def _end_leases(self) -> None:
        """Ends the leases that nobody renewed; where another writes just now, or nobody can, the
        next look does.
        """
        with self._file.reading() as connection:
            if time.monotonic() < soonest_end(connection):
                return
        try:
            with self._file.writing(patience=0) as connection:
                end_leases(connection)
        except (StoreAway, StoreRefused):
            pass


def key_bytes(key: str) -> bytes:
    return key.encode("utf-8", "surrogateescape")


def key_range(select: Select) -> tuple[bytes, bytes]:
    """The first key of what is selected, and the first key past it."""
    first = key_bytes(select.key)
    return first, (first + b"\xff" * 8 if select.is_prefix else first + b"\0")


def write(connection: sqlite3.Connection, operations: Sequence[Operation], revision: int) -> bool:
    """Does the operations at a revision; whether any of them changed anything."""
    changed = False
    for one in operations:
        key = key_bytes(one.key)
        before = connection.execute("SELECT created FROM entries WHERE key = ?", [key]).fetchone()
        if isinstance(one, Put):
            created = before[0] if before else revision
            row = _put_write(connection, (key, revision, created, one.value, one.lease))
            connection.execute(
                "INSERT OR REPLACE INTO entries VALUES (?, ?, ?, ?, ?)",
                (key, revision, created, one.lease, row),
            )
        elif before:
            _put_write(connection, (key, revision, before[0], None, 0))
            connection.execute("DELETE FROM entries WHERE key = ?", [key])
        else:
            continue
        changed = True
    if changed:
        connection.execute("UPDATE meta SET value = ? WHERE name = 'revision'", [revision])
    return changed


def _put_write(
    connection: sqlite3.Connection, row: tuple[bytes, int, int, bytes | None, int]
) -> int:
    cursor = connection.execute(
        "INSERT INTO writes(key, revision, created, value, lease) VALUES (?, ?, ?, ?, ?)", row
    )
    return int(cursor.lastrowid or 0)


def _modified(connection: sqlite3.Connection, key: str) -> int:
    row = connection.execute("SELECT modified FROM entries WHERE key = ?", [key_bytes(key)])
    return int((row.fetchone() or (0,))[0])


def _count(connection: sqlite3.Connection, ends: tuple[bytes, bytes]) -> int:
    found = connection.execute("SELECT count(*) FROM entries WHERE key >= ? AND key < ?", ends)
    return int(found.fetchone()[0])


def _entries(
    connection: sqlite3.Connection, query: str, given: tuple[bytes, bytes, int]
) -> list[Entry]:
    return [
        Entry(key.decode("utf-8", "surrogateescape"), value, created, modified, lease)
        for key, value, created, modified, lease in connection.execute(query, given)
    ]


def _changes(
    file: SqliteFile,
    connection: sqlite3.Connection,
    ranges: list[tuple[bytes, bytes]],
    first: int,
    last: int,
) -> Iterator[Change]:
    """The writes behind `first` up to `last`; the connection is given back behind the last one."""
    try:
        rows = connection.execute(
            "SELECT revision, key, value FROM writes WHERE revision > ? AND revision <= ?"
            " ORDER BY revision, row",
            [first, last],
        )
        for revision, key, value in rows:
            if any(start <= key < end for start, end in ranges):
                yield Change(revision, key.decode("utf-8", "surrogateescape"), value)
    finally:
        file.close()
