"""What an allocator has read: the document in force and the reports, ready for the next table."""

from __future__ import annotations

import logging
import time
from collections.abc import Callable
from dataclasses import dataclass
from pathlib import Path

from bwe_control.copies import Copy
from bwe_control.errors import Refused, StoreRefused
from bwe_control.keys import Keys
from bwe_control.store.interface import Entry, Reading, Select, Store
from bwe_control.tables import Tables
from bwe_control.values import (
    Posted,
    accepted_of,
    accepted_revision,
    posted_of,
    refused_document_of,
    refused_document_text,
)

log = logging.getLogger(__name__)


@dataclass(frozen=True)
class View:
    """One reading, but for the document and the reports, which the desk keeps."""

    revision: int
    leader: Entry | None
    posted: Posted | None
    refused_document: int  # the revision of the document that the leader refused last, or 0
    has_changed: bool  # the document or any report, since the reading before


class Desk:
    """Follows the store by linearizable readings, and keeps the tables of the document in force."""

    def __init__(
        self, store: Store, keys: Keys, program: Path, beat: Callable[[], None], stuck: float
    ) -> None:
        self._store, self._keys = store, keys
        self._program, self._beat, self._stuck = program, beat, stuck
        self.tables: Tables | None = None
        self._own: frozenset[str] = frozenset()  # the keys of reports of the document in force
        self.refusal: tuple[int, str] | None = None  # the revision of the document, and its line
        self.restart()

    def restart(self) -> None:
        """Forgets what was read; the next reading has all."""
        self.document = Copy(self._keys.document)
        self.accepted = Copy(self._keys.accepted)
        self.reports = Copy(self._keys.reports, is_prefix=True)
        self.seen: dict[str, float] = {}  # of each report's key when it was new, monotonic
        self._untold: set[str] = set()  # keys of reports that the tables have to take yet
        self.close()

    def look(self, more: list[Select]) -> tuple[View, Reading]:
        """Reads what has changed, and `more`, all at one revision; the reading is of `more`."""
        keys = self._keys
        singles = [Select(keys.leader), Select(keys.posted), Select(keys.refused_document)]
        copies = [self.document, self.accepted, self.reports]
        reading = self._store.read([*singles, *(it.select() for it in copies), *more])
        leader, posted, refused = (found.one() for found in reading.found[:3])
        view = View(
            reading.revision,
            leader,
            posted_of(posted.value) if posted else None,
            refused_document_of(refused.value)[0] if refused else 0,
            self._take(reading),
        )
        return view, Reading(reading.revision, reading.found[6:])

    def _take(self, reading: Reading) -> bool:
        """Takes what has changed; whether anything has. A fault on the way drops none of it."""
        document, accepted, reports = reading.found[3:6]
        changed = self.reports.take(self._store, reports, reading.revision)
        self._note(changed)
        is_new = self.document.take(self._store, document, reading.revision)
        self.accepted.take(self._store, accepted, reading.revision)
        return bool(is_new or changed)

    def _note(self, changed: set[str]) -> None:
        """Keys of reports that the tables have to take, and when they were new."""
        self._untold |= changed
        now = time.monotonic()
        for key in changed:
            self.seen[key] = now
            if key not in self.reports.entries:
                del self.seen[key]

    def settle(self) -> None:
        """Brings the tables to the document in force, and hands them the reports that changed.

        In force is the document, or where that is refused the accepted one. LiveDied where there is
        no child to say which; the next call asks again.
        """
        document, accepted = self.document.one(), self.accepted.one()
        if self.refusal and (document is None or document.modified != self.refusal[0]):
            self.refusal = None
        if document and not self.refusal:
            self._judge(document)
        if document is None or self.refusal:
            if accepted:
                self._use_accepted(accepted.value)
            else:
                self.close()
        if self.tables is not None:
            for key in self._untold:
                name = key.removeprefix(self._keys.reports)
                self.tables.put(name, self.reports.entries.get(key))
            self._untold.clear()

    def _judge(self, document: Entry) -> None:
        try:
            self._use(document.modified, document.value)
        except Refused as fault:
            self.refusal = (document.modified, str(fault))
            log.error("the document of revision %d: %s", document.modified, fault)

    def _use_accepted(self, value: bytes) -> None:
        if self.tables is None or self.tables.network.revision != accepted_revision(value):
            try:
                self._use(*accepted_of(value))
            except Refused as fault:
                self.close()
                raise StoreRefused(
                    f"this bwe-live refuses the document in force: {fault}"
                ) from None

    def _use(self, revision: int, text: bytes) -> None:
        """Makes the tables those of a document; Refused leaves them as they are."""
        if self.tables is not None and self.tables.network.revision == revision:
            return
        tables = Tables(self._program, revision, text, self._beat, self._stuck)
        self.close()
        self.tables = tables
        self._own = frozenset(self._keys.report(it) for it in tables.network.reporters)
        self._untold = set(self.reports.entries)
        log.info("tables are of the document of revision %d", revision)

    def refusals(self) -> dict[str, bytes]:
        """All keys of refusals as they have to stand, with their values."""
        found = {} if self.tables is None else self.tables.refusals
        wanted = {self._keys.refused(name): text for name, (_, text) in found.items()}
        if self.refusal:
            wanted[self._keys.refused_document] = refused_document_text(*self.refusal).encode()
        return wanted

    def ignored(self) -> list[str]:
        """The reports that are of no reporter of the document in force."""
        keys = self.reports.entries.keys() - self._own
        return [key.removeprefix(self._keys.reports) for key in sorted(keys)]

    def seen_at(self) -> dict[str, float]:
        """When each report of a reporter was new here, by the monotonic clock."""
        seen, prefix = self.seen, len(self._keys.reports)
        return {key[prefix:]: seen[key] for key in self._own & seen.keys()}

    def accepted_revision(self) -> int:
        """The revision of the document that the store says is in force; 0 where there is none."""
        accepted = self.accepted.one()
        return accepted_revision(accepted.value) if accepted else 0

    def text(self) -> bytes:
        """The text of the document of which the tables are."""
        return b"" if self.tables is None else self.tables.text

    def newest(self) -> int:
        """The greatest modification revision of the document and the reports."""
        return max(self.reports.newest, self.document.newest)

    def close(self) -> None:
        """Ends the child."""
        if self.tables is not None:
            self.tables.close()
            self.tables = None
            self._own = frozenset()
