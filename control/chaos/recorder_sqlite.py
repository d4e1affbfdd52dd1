"""Records the history of a SQLite store as it goes, in the form of the recorder of etcd.

It reads the tables by itself: `writes` has a row for each key that a revision put (its value) or
deleted (NULL), and `meta` says up to which revision rows were given up.
"""

import json
import sqlite3
import sys
import time
from pathlib import Path

from chaos.log import text_of

PAUSE = 0.01  # seconds between two looks
NEWER = "SELECT revision, key, value FROM writes WHERE revision > ? ORDER BY revision, row"


class Recorder:
    def __init__(self, store: Path, prefix: bytes, path: Path) -> None:
        self.store = store
        self.prefix = prefix
        self.file = path.open("a", encoding="ascii")
        self.revision = 0

    def write(self, line: dict[str, object]) -> None:
        text = json.dumps(line)
        self.file.write(text + "\n")
        self.file.flush()
        print(text, flush=True)

    def look(self, connection: sqlite3.Connection) -> None:
        """Records what is newer, read at one revision."""
        connection.execute("BEGIN")
        compacted = connection.execute("SELECT value FROM meta WHERE name='compacted'").fetchone()
        rows = connection.execute(NEWER, [self.revision]).fetchall()
        connection.execute("ROLLBACK")
        at = time.monotonic()
        if compacted[0] > max(self.revision, 1):
            self.write({"gap": compacted[0]})
        transactions: dict[int, tuple[dict[str, str], list[str]]] = {}
        for revision, key, value in rows:
            self.revision = revision
            if not key.startswith(self.prefix):
                continue
            puts, deletes = transactions.setdefault(revision, ({}, []))
            name = text_of(key.removeprefix(self.prefix))
            if value is None:
                deletes.append(name)
            else:
                puts[name] = text_of(value)
        for revision, (puts, deletes) in transactions.items():
            self.write({"revision": revision, "at": at, "puts": puts, "deletes": deletes})

    def run(self) -> None:
        while True:
            try:
                connection = connect(self.store)
                try:
                    self.follow(connection)
                finally:
                    connection.close()
            except sqlite3.OperationalError:
                time.sleep(PAUSE)  # it is not there yet, or busy

    def follow(self, connection: sqlite3.Connection) -> None:
        seen = None
        while True:
            version = connection.execute("PRAGMA data_version").fetchone()[0]
            if version != seen:
                self.look(connection)
                seen = version
            time.sleep(PAUSE)


def connect(store: Path) -> sqlite3.Connection:
    address = f"{store.absolute().as_uri()}?mode=ro"
    return sqlite3.connect(address, uri=True, timeout=5, isolation_level=None)


def read_all(store: Path, prefix: bytes) -> dict[str, object]:
    """All keys below the prefix at one revision."""
    connection = connect(store)
    connection.execute("BEGIN")
    number = connection.execute("SELECT value FROM meta WHERE name='revision'").fetchone()[0]
    rows = connection.execute(
        "SELECT e.key, w.value FROM entries e JOIN writes w ON w.row = e.row"
    ).fetchall()
    connection.close()
    keys = {
        text_of(key.removeprefix(prefix)): text_of(value)
        for key, value in rows
        if key.startswith(prefix)
    }
    return {"revision": number, "keys": keys}


def main(arguments: list[str]) -> None:
    """Arguments: `record PREFIX FILE STORE` or `read PREFIX STORE`."""
    what, prefix, *more = arguments
    if what == "record":
        Recorder(Path(more[1]), prefix.encode(), Path(more[0])).run()
    else:
        print(json.dumps(read_all(Path(more[0]), prefix.encode())))


if __name__ == "__main__":
    main(sys.argv[1:])
