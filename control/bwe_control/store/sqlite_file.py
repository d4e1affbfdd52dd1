"""The file of a SQLite store: how it is opened, its tables, and what its faults mean."""

from __future__ import annotations

import os
import pwd
import random
import secrets
import sqlite3
import time
from collections.abc import Iterator
from contextlib import contextmanager
from pathlib import Path

from bwe_control.errors import (
    NoStore,
    OutcomeUnknown,
    StoreAway,
    StoreChanged,
    StoreError,
    StoreRefused,
)

FILE = "store.db"
LOCK_PATIENCE = 5.0  # seconds in which another writer has to come to its end
MARK, VERSION = 0x62776563, 1

SCHEMA = f"""
CREATE TABLE meta(name TEXT PRIMARY KEY, value) WITHOUT ROWID;
CREATE TABLE writes(row INTEGER PRIMARY KEY, key BLOB, revision INTEGER, created INTEGER,
                    value BLOB, lease INTEGER);
CREATE UNIQUE INDEX writes_of_key ON writes(key, revision);
CREATE INDEX writes_by_revision ON writes(revision);
CREATE TABLE entries(key BLOB PRIMARY KEY, modified INTEGER, created INTEGER, lease INTEGER,
                     row INTEGER) WITHOUT ROWID;
CREATE INDEX entries_by_lease ON entries(lease) WHERE lease <> 0;
CREATE TABLE leases(number INTEGER PRIMARY KEY AUTOINCREMENT, seconds REAL, end REAL, boot TEXT);
INSERT INTO meta VALUES ('revision', 0), ('compacted', 0);
PRAGMA application_id={MARK};
PRAGMA user_version={VERSION};
"""

FULL = {sqlite3.SQLITE_FULL}
READ_ONLY = {sqlite3.SQLITE_READONLY, sqlite3.SQLITE_PERM, sqlite3.SQLITE_AUTH}
NO_STORE = {sqlite3.SQLITE_NOTADB, sqlite3.SQLITE_CORRUPT, sqlite3.SQLITE_ERROR}


class SqliteFile:
    """One connection to the file of a folder, opened when it is first needed."""

    def __init__(self, folder: Path, makes_folder: bool = False) -> None:
        self._folder, self._path = folder, folder / FILE
        self._connection: sqlite3.Connection | None = None
        self.is_read_only = False  # whether the connection stays so, whatever rights come back
        self._inode, self.identity = (0, 0), ""  # of the file, and of the store in it
        if makes_folder:
            self.make()

    def make(self) -> None:
        """Makes the folder and the file where they are not there."""
        try:
            self._folder.mkdir(mode=0o750, parents=True, exist_ok=True)
        except OSError as fault:
            raise StoreRefused(
                f"the store's folder {self._folder} cannot be made: {fault.strerror}{self._owner()}"
            ) from None
        if not self._path.exists():
            with self._faults():
                connection = self._connect("rwc")
                try:
                    self._write_schema(connection)
                finally:
                    connection.close()

    def _write_schema(self, connection: sqlite3.Connection) -> None:
        connection.execute("PRAGMA journal_mode=WAL")
        connection.execute("BEGIN EXCLUSIVE")
        if not connection.execute("SELECT 1 FROM sqlite_master").fetchone():
            for statement in SCHEMA.split(";\n"):
                connection.execute(statement)
            connection.execute("INSERT INTO meta VALUES ('identity', ?)", [secrets.token_hex(16)])
        connection.execute("COMMIT")

    def _connect(self, mode: str) -> sqlite3.Connection:
        connection = sqlite3.connect(
            f"{self._path.absolute().as_uri()}?mode={mode}",
            uri=True,
            timeout=LOCK_PATIENCE,
            isolation_level=None,
            check_same_thread=False,
        )
        connection.execute("PRAGMA synchronous=FULL")
        return connection

    def connection(self) -> sqlite3.Connection:
        """The connection, anew where the file is another one than before.

        Who has used it calls `let_go`, unless a fault has closed it.
        """
        try:
            stood = os.stat(self._path)
        except PermissionError:
            self.close()
            raise StoreRefused(
                f"the store {self._folder} cannot be read by this user{self._owner()}"
            ) from None
        except OSError:
            self.close()
            raise NoStore(
                f"there is no store in {self._folder}; `bwe-control init` makes one"
            ) from None
        if self._connection is None or (stood.st_dev, stood.st_ino) != self._inode:
            self.close()
            self._connection = self._opened()
            self._inode = (stood.st_dev, stood.st_ino)
            self._see_that_it_is_the_same(self._connection)
            with self._faults():
                self.is_read_only = _stays_read_only(self._connection)
        return self._connection

    def let_go(self) -> None:
        """Closes a connection that was opened while the file could not be written.

        It would stay read-only for ever, and with it all others of this process: SQLite opens the
        shared memory of a file once for all of them, and closes it with the last one.
        """
        if self.is_read_only:
            self.close()

    def _opened(self) -> sqlite3.Connection:
        with self._faults():
            connection = self._connect("rw")
            mark = connection.execute("PRAGMA application_id").fetchone()[0]
            version = connection.execute("PRAGMA user_version").fetchone()[0]
        if (mark, version) == (MARK, VERSION):
            return connection
        connection.close()
        if (mark, version) == (0, 0):  # another process is just making it, or was killed at it
            with self._faults():
                connection = self._connect("rwc")
                self._write_schema(connection)
            return connection
        raise StoreRefused(f"{self._path} is no store of this version of bwe-control")

    def _see_that_it_is_the_same(self, connection: sqlite3.Connection) -> None:
        with self._faults():
            row = connection.execute("SELECT value FROM meta WHERE name='identity'").fetchone()
        before, self.identity = self.identity, str(row[0])
        if before and before != self.identity:
            raise StoreChanged(f"another store stands in {self._folder} than before")

    @contextmanager
    def reading(self) -> Iterator[sqlite3.Connection]:
        """A transaction that reads, at one revision."""
        connection = self.connection()
        with self._faults():
            connection.execute("BEGIN")
            try:
                yield connection
            finally:
                _end(connection, "ROLLBACK")
                self.let_go()

    @contextmanager
    def writing(self, patience: float = LOCK_PATIENCE) -> Iterator[sqlite3.Connection]:
        """A transaction that writes, and is on disk behind its end.

        An exception inside gives it up. StoreAway where another process has the lock for too long.
        """
        connection = self.connection()
        with self._faults():
            self._lock(connection, patience)
            try:
                yield connection
            except BaseException:
                _end(connection, "ROLLBACK")
                raise
        self._commit(connection)

    def _commit(self, connection: sqlite3.Connection) -> None:
        try:
            with self._faults():
                connection.execute("COMMIT")
        except StoreRefused:
            _end(connection, "ROLLBACK")
            raise
        except StoreError as fault:
            _end(connection, "ROLLBACK")
            raise OutcomeUnknown(f"whether it is on disk is not known: {fault}") from fault

    def _lock(self, connection: sqlite3.Connection, patience: float) -> None:
        """Asks for the one lock of writers, the more often the longer it has waited.

        SQLite's own waiting asks ever less often, and then some writers wait for a second.
        """
        since = time.monotonic()
        connection.execute("PRAGMA busy_timeout=0")
        try:
            while not _begins(connection):
                waited = time.monotonic() - since
                if waited > patience:
                    raise StoreAway(f"another process holds the lock of the store {self._folder}")
                time.sleep(max(0.0002, 0.002 / (1 + 40 * waited)) * random.uniform(0.5, 1))
        finally:
            connection.execute(f"PRAGMA busy_timeout={int(1000 * LOCK_PATIENCE)}")

    @contextmanager
    def _faults(self) -> Iterator[None]:
        try:
            yield
        except sqlite3.Error as fault:
            if not _is_busy(fault):
                self.close()
            raise self._meaning(fault) from fault

    def _meaning(self, fault: sqlite3.Error) -> StoreError:
        code = _code(fault)
        if code in FULL:
            return StoreRefused(
                f"the disk of the store {self._folder} is full; nothing was written"
            )
        barred = self._barred()
        if code in READ_ONLY or barred:
            return StoreRefused(
                f"the store {self._folder} cannot be written by this user{barred}{self._owner()}"
            )
        if code in NO_STORE:
            return StoreRefused(f"{self._path} is no sound store of bwe-control: {fault}")
        return StoreAway(f"the store {self._folder} does not answer: {fault}{self._owner()}")

    def _barred(self) -> str:
        """Which file this user may not write, which reading needs as well; nothing where all can be."""
        beside = [self._path.with_name(FILE + it) for it in ("-wal", "-shm")]
        for path in (self._folder, self._path, *beside):
            if path.exists() and not os.access(path, os.W_OK):
                return f": {path.name} is not writable"
        return ""

    def _owner(self) -> str:
        """Whose folder it is, where that is another user's."""
        for path in (self._path, self._folder):
            try:
                owner = path.stat().st_uid
            except OSError:
                continue
            if owner == os.geteuid():
                return ""
            try:
                return f" (it belongs to {pwd.getpwuid(owner).pw_name})"
            except KeyError:
                return f" (it belongs to user {owner})"
        return ""

    def close(self) -> None:
        if self._connection is not None:
            self._connection.close()
            self._connection = None
        self.is_read_only = False


def number_of(connection: sqlite3.Connection, name: str) -> int:
    """The store's number of that name; 0 where it has none yet.

    `revision`; `compacted`, up to where its history was given up; `swept`, up to where the writes of
    that history were thrown away.
    """
    row = connection.execute("SELECT value FROM meta WHERE name = ?", [name]).fetchone()
    return int(row[0]) if row else 0


def _stays_read_only(connection: sqlite3.Connection) -> bool:
    """Whether it was opened while the file could not be written, found by a write of nothing."""
    connection.execute("PRAGMA busy_timeout=0")
    try:
        if _begins(connection):  # as a reader, where the file itself is read-only
            connection.execute("DELETE FROM meta WHERE 0")
        return False
    except sqlite3.Error as fault:
        return _code(fault) in READ_ONLY
    finally:
        _end(connection, "ROLLBACK")
        connection.execute(f"PRAGMA busy_timeout={int(1000 * LOCK_PATIENCE)}")


def _begins(connection: sqlite3.Connection) -> bool:
    """Whether it has the lock of writers now."""
    try:
        connection.execute("BEGIN IMMEDIATE")
        return True
    except sqlite3.OperationalError as fault:
        if _is_busy(fault):
            return False
        raise


def _end(connection: sqlite3.Connection, how: str) -> None:
    """Ends a transaction where one is open; a fault of SQLite has often ended it already, and closed
    the connection.
    """
    try:
        if connection.in_transaction:
            connection.execute(how)
    except sqlite3.Error:
        connection.close()


def _is_busy(fault: sqlite3.Error) -> bool:
    """Whether another process has the lock just now."""
    return _code(fault) in (sqlite3.SQLITE_BUSY, sqlite3.SQLITE_LOCKED)


def _code(fault: sqlite3.Error) -> int:
    """The kind of a fault, as SQLite numbers it; 0 where it is not SQLite's."""
    return int(getattr(fault, "sqlite_errorcode", 0)) & 0xFF
