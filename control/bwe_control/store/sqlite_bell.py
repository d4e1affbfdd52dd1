"""The bell of a SQLite store: a look each few milliseconds at whether anybody has written.

Looks follow one another closely for a while after a write, and less so in a store at rest: each
process that waits makes its own, and a look takes a tenth of a millisecond.
"""

from __future__ import annotations

import sqlite3
import time
from collections.abc import Callable
from pathlib import Path
from types import TracebackType

from bwe_control.errors import StoreError
from bwe_control.store.sqlite_file import SqliteFile, number_of
from bwe_control.store.sqlite_leases import soonest_end

EACH = 0.005  # seconds between two looks
SELDOM = 0.02  # the same in a store at rest
BUSY = 0.25  # seconds after a write for which a store is not at rest
EACH_READ_ONLY = 0.1  # where each look opens the file anew
WRITTEN = """SELECT 1 FROM writes INDEXED BY writes_by_revision
             WHERE key >= ? AND key < ? AND revision > ? LIMIT 1"""


class SqliteBell:
    """Rings where the keys of some ranges have changed, and where the file does not answer."""

    def __init__(
        self, folder: Path, ranges: list[tuple[bytes, bytes]], end_leases: Callable[[], None]
    ) -> None:
        self._file, self._ranges, self._end_leases = SqliteFile(folder), ranges, end_leases
        self._connection: sqlite3.Connection | None = None  # of the look before
        self._version, self._next_end, self._written = -1, 0.0, 0.0
        self._seen = -1  # the store's revision at the look before

    def wait(self, seconds: float) -> bool:
        until = time.monotonic() + seconds
        while True:
            try:
                connection = self._file.connection()
                is_read_only = self._file.is_read_only
                if self._has_changed(connection):
                    return True
            except StoreError:
                time.sleep(min(EACH * 10, max(0.0, until - time.monotonic())))
                return True
            finally:
                self._file.let_go()
            left = until - time.monotonic()
            if left <= 0:
                return False
            time.sleep(min(self._pause(is_read_only), left))

    def _pause(self, is_read_only: bool) -> float:
        """Seconds until the next look."""
        if is_read_only:
            return EACH_READ_ONLY
        is_busy = time.monotonic() - self._written < BUSY
        return EACH if is_busy else SELDOM

    def _has_changed(self, connection: sqlite3.Connection) -> bool:
        if connection is not self._connection:  # versions of two connections say nothing together
            self._connection, self._version = connection, -1
        try:
            version = connection.execute("PRAGMA data_version").fetchone()[0]
            if version != self._version:
                self._written = time.monotonic()
                self._version, self._next_end = version, soonest_end(connection)
                return self._is_written(connection)
        except sqlite3.Error as fault:
            self._file.close()
            raise StoreError(str(fault)) from fault
        if time.monotonic() >= self._next_end:
            self._version = -1
            self._end_leases()
        return False

    def _is_written(self, connection: sqlite3.Connection) -> bool:
        """Whether a key of the ranges was written or deleted since the look before, or may be."""
        since, self._seen = self._seen, number_of(connection, "revision")
        if not number_of(connection, "compacted") <= since <= self._seen:
            return True
        return any(connection.execute(WRITTEN, (*it, since)).fetchone() for it in self._ranges)

    def close(self) -> None:
        self._file.close()

    def __enter__(self) -> SqliteBell:
        return self

    def __exit__(
        self,
        kind: type[BaseException] | None,
        fault: BaseException | None,
        trace: TracebackType | None,
    ) -> None:
        self.close()
