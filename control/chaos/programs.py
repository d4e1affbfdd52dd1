"""The proved programs that the judge asks: solve for tables, audit for runs, enforce for regions."""

import json
import os
import subprocess
from dataclasses import dataclass, field
from pathlib import Path
from typing import Any

from chaos.errors import ChaosError, NotHere

ROOT = Path(__file__).resolve().parents[2]
PATIENCE = 600.0  # seconds


@dataclass(frozen=True)
class Table:
    """What the judge takes of a table: the limit of each task in order, and the total."""

    limits: dict[str, int]
    total: int
    text: str


@dataclass(frozen=True)
class Rejected:
    """A document that is refused, with the one line that says why."""

    line: str


def program(name: str = "bwe") -> list[str]:
    """The built bwe or bwe_live: that of its variable, else the tree's own; never built from here."""
    variable = name.upper()
    if given := os.environ.get(variable):
        return [given]
    built = ROOT / "crates" / name / "out" / name
    if not built.is_file():
        raise NotHere(f"chaos needs the program {name}: make {name}, or name it in {variable}")
    return [str(built)]


@dataclass
class Programs:
    """Asks bwe; documents and tables that were asked for once are kept."""

    command: list[str] = field(default_factory=program)
    tables: dict[bytes, Table | Rejected] = field(default_factory=dict)

    def ask(self, what: str, given: bytes) -> tuple[int, str]:
        done = subprocess.run(
            [*self.command, what], input=given, capture_output=True, check=False, timeout=PATIENCE
        )
        return done.returncode, done.stdout.decode("utf-8", "replace")

    def solve(self, document: bytes) -> Table | Rejected:
        if document not in self.tables:
            status, text = self.ask("solve", document)
            if status not in (0, 3, 8):
                raise ChaosError(f"bwe solve ended with status {status}: {text[:200]}")
            self.tables[document] = table_of(text) if status == 0 else Rejected(text.rstrip("\n"))
        return self.tables[document]

    def two_parts(self, what: str, document: bytes, second: bytes) -> str:
        """The answer of `audit` or `enforce`, with the document before the second part."""
        given = b"%d\n%b%b" % (len(document), document, second)
        status, text = self.ask(what, given)
        if status not in (0, 1, 3):
            raise ChaosError(f"bwe {what} ended with status {status}: {text[:200]}")
        return text


def table_of(text: str) -> Table:
    limits, total = {}, 0
    for line in text.splitlines():
        match line.split(" "):
            case ["task", name, "limit", amount]:
                limits[name] = int(amount)
            case ["total", amount]:
                total = int(amount)
    return Table(limits, total, text)


def with_script(document: dict[str, Any], script: list[dict[str, Any]]) -> bytes:
    return json.dumps({**document, "script": script}, separators=(",", ":")).encode()
