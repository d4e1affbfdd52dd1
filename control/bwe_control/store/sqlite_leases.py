"""Leases of a SQLite store: rows with an end in the monotonic clock of this start of the machine."""

from __future__ import annotations

import math
import sqlite3
import time
from pathlib import Path

from bwe_control.errors import LeaseLost

BOOT = Path("/proc/sys/kernel/random/boot_id")


def now_and_boot() -> tuple[float, str]:
    """The monotonic clock, and of which start of the machine it is."""
    return time.monotonic(), BOOT.read_text(encoding="ascii").strip()


def soonest_end(connection: sqlite3.Connection) -> float:
    """When the next lease ends; one of an earlier start of the machine has ended."""
    boot = now_and_boot()[1]
    row = connection.execute(
        "SELECT min(CASE WHEN boot = ? THEN end ELSE 0 END) FROM leases", [boot]
    ).fetchone()
    return math.inf if row[0] is None else float(row[0])


def check_lease(connection: sqlite3.Connection, number: int) -> None:
    """A LeaseLost where the lease is not there."""
    if not connection.execute("SELECT 1 FROM leases WHERE number = ?", [number]).fetchone():
        raise LeaseLost("the lease has ended")


def end_leases(connection: sqlite3.Connection) -> None:
    """Deletes the keys of the leases that have ended, each lease in a revision of its own."""
    now, boot = now_and_boot()
    ended = connection.execute(
        "SELECT number FROM leases WHERE end <= ? OR boot <> ? ORDER BY number", [now, boot]
    ).fetchall()
    for (number,) in ended:
        _delete_keys(connection, number)
        connection.execute("DELETE FROM leases WHERE number = ?", [number])


def _delete_keys(connection: sqlite3.Connection, lease: int) -> None:
    keys = connection.execute(
        "SELECT key, created FROM entries WHERE lease = ?", [lease]
    ).fetchall()
    if not keys:
        return
    connection.execute("UPDATE meta SET value = value + 1 WHERE name = 'revision'")
    for key, created in keys:
        connection.execute(
            "INSERT INTO writes(key, revision, created, value, lease)"
            " SELECT ?, value, ?, NULL, 0 FROM meta WHERE name = 'revision'",
            [key, created],
        )
    connection.execute("DELETE FROM entries WHERE lease = ?", [lease])
