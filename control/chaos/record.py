"""The record of a run, as the judge reads it: the store's history and the log of all actors."""

import bisect
import json
from collections import defaultdict
from collections.abc import Iterator
from dataclasses import dataclass, field
from pathlib import Path

from chaos.errors import RecordIsTorn
from chaos.log import bytes_of


@dataclass(frozen=True)
class Transaction:
    """What one revision changed; keys stand below the network's prefix."""

    revision: int
    at: float  # seconds of the machine's monotonic clock, when the recorder saw it
    puts: dict[str, bytes]
    deletes: tuple[str, ...] = ()

    def touches(self, *kinds: str) -> bool:
        """Whether it changes a key of one of the kinds, which are the keys' first words."""
        keys = [*self.puts, *self.deletes]
        return any(key.split("/")[0] in kinds for key in keys)


@dataclass(frozen=True)
class Event:
    """One event of the log of the actors."""

    at: float
    what: str
    more: dict[str, object]

    def text(self, name: str) -> str:
        return str(self.more.get(name, ""))

    def number(self, name: str) -> int:
        value = self.more[name]
        assert isinstance(value, int)
        return value


@dataclass
class Record:
    """The whole record: transactions by rising revision, events by rising time."""

    transactions: list[Transaction]
    events: list[Event] = field(default_factory=list)
    replay: str | None = None  # what `bwe-control replay` printed at the end

    def of_kind(self, what: str) -> Iterator[Event]:
        return (event for event in self.events if event.what == what)


class Versions:
    """The values that each key had, by revision."""

    def __init__(self, transactions: list[Transaction]) -> None:
        self.revisions: defaultdict[str, list[int]] = defaultdict(list)
        self.values: defaultdict[str, list[bytes | None]] = defaultdict(list)
        for it in transactions:
            for key, value in it.puts.items():
                self.add(key, it.revision, value)
            for key in it.deletes:
                self.add(key, it.revision, None)

    def add(self, key: str, revision: int, value: bytes | None) -> None:
        self.revisions[key].append(revision)
        self.values[key].append(value)

    def at(self, key: str, revision: int) -> tuple[int, bytes | None]:
        """The value that stands at a revision and the revision that wrote it; 0 and None before."""
        place = bisect.bisect_right(self.revisions.get(key, []), revision) - 1
        if place < 0:
            return 0, None
        return self.revisions[key][place], self.values[key][place]

    def between(self, key: str, after: int, upto: int) -> list[int]:
        """The revisions above one and up to another that wrote or deleted the key."""
        revisions = self.revisions.get(key, [])
        start = bisect.bisect_right(revisions, after)
        return revisions[start : bisect.bisect_right(revisions, upto)]

    def written(self, key: str) -> list[tuple[int, bytes]]:
        """All puts of a key."""
        both = zip(self.revisions[key], self.values[key], strict=True)
        return [(revision, value) for revision, value in both if value is not None]


def lines_of(path: Path) -> Iterator[dict[str, object]]:
    """The objects of a file of JSON lines; a last line that a kill has torn is left out."""
    for line in path.read_text("ascii").splitlines(keepends=True):
        if line.endswith("\n"):
            yield json.loads(line)


def transaction_of(line: dict[str, object]) -> Transaction:
    revision, at, puts, deletes = (line[it] for it in ("revision", "at", "puts", "deletes"))
    assert isinstance(revision, int) and isinstance(at, float)
    assert isinstance(puts, dict) and isinstance(deletes, list)
    return Transaction(
        revision, at, {key: bytes_of(value) for key, value in puts.items()}, tuple(deletes)
    )


def event_of(line: dict[str, object]) -> Event:
    at, what = line.pop("at"), line.pop("what")
    assert isinstance(at, float) and isinstance(what, str)
    return Event(at, what, line)


def read_record(folder: Path) -> Record:
    """Reads the record that a run left; RecordIsTorn where the history has a gap."""
    transactions = []
    for line in lines_of(folder / "history.jsonl"):
        if "gap" in line:
            raise RecordIsTorn(f"the history has a gap up to revision {line['gap']}")
        transactions.append(transaction_of(line))
    events = [event_of(line) for line in lines_of(folder / "log.jsonl")]
    record = Record(transactions, sorted(events, key=lambda it: it.at))
    if (folder / "final.json").exists():
        final = json.loads((folder / "final.json").read_text("ascii"))
        keys = {key: bytes_of(value) for key, value in final["keys"].items()}
        check_whole(transactions, final["revision"], keys)
    if (folder / "replay.txt").exists():
        record.replay = (folder / "replay.txt").read_text("utf-8")
    return record


def check_whole(transactions: list[Transaction], revision: int, final: dict[str, bytes]) -> None:
    """RecordIsTorn where the history does not lead to the keys that were read at a revision."""
    state: dict[str, bytes] = {}
    for it in transactions:
        if it.revision <= revision:
            state.update(it.puts)
            for key in it.deletes:
                state.pop(key, None)
    for key in {**state, **final}:
        if state.get(key) != final.get(key):
            raise RecordIsTorn(f"the history does not lead to what {key} was at the end")
