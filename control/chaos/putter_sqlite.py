"""Puts reports into a SQLite store, for little; it is asked and answers as the putter of etcd does."""

import json
import sqlite3
import sys
from pathlib import Path

from chaos.log import bytes_of

PATIENCE = 3.0  # seconds
NUMBER = "(SELECT value FROM meta WHERE name = 'revision')"


def put_key(store: Path, key: str, value: bytes) -> int:
    """Puts a key by a transaction of its own; its revision. sqlite3.Error: it was not done."""
    address = f"{store.absolute().as_uri()}?mode=rw"
    connection = sqlite3.connect(address, uri=True, timeout=PATIENCE, isolation_level=None)
    try:
        connection.execute("PRAGMA synchronous=FULL")
        connection.execute("BEGIN IMMEDIATE")
        connection.execute("UPDATE meta SET value = value + 1 WHERE name = 'revision'")
        [revision] = connection.execute(f"SELECT {NUMBER}").fetchone()
        name = key.encode()
        before = connection.execute("SELECT created FROM entries WHERE key = ?", [name]).fetchone()
        created = before[0] if before else revision
        row = connection.execute(
            "INSERT INTO writes(key, revision, created, value, lease) VALUES (?, ?, ?, ?, 0)",
            (name, revision, created, value),
        ).lastrowid
        connection.execute(
            "INSERT OR REPLACE INTO entries(key, modified, created, lease, row)"
            " VALUES (?, ?, ?, 0, ?)",
            (name, revision, created, row),
        )
        connection.execute("COMMIT")
        return int(revision)
    finally:
        connection.close()


def main(store: Path) -> None:
    for line in sys.stdin:
        asked = json.loads(line)
        try:
            answer: dict[str, object] = {
                "put": put_key(store, asked["key"], bytes_of(asked["value"]))
            }
        except sqlite3.Error as fault:
            answer = {"lost": str(fault)}
        print(json.dumps({"number": asked["number"], **answer}), flush=True)


if __name__ == "__main__":
    main(Path(sys.argv[1]))
