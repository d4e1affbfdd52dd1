"""How a deployment stands, by one reading."""

from __future__ import annotations

from dataclasses import dataclass

from bwe_control.copies import Copy
from bwe_control.errors import StoreChanged
from bwe_control.keys import Keys
from bwe_control.network import Network, is_reporter, network_of
from bwe_control.store.interface import Entry, Select, Store
from bwe_control.values import (
    Posted,
    Refusals,
    accepted_of,
    posted_of,
    printable,
    refusals_of,
    refused_document_of,
)


@dataclass(frozen=True)
class ReporterStatus:
    """A reporter of the document in force; `age` is in revisions of the store, None: no report."""

    name: str
    report: int | None
    age: int | None
    refusals: Refusals | None


@dataclass(frozen=True)
class Status:
    """All that `bwe-control status` says."""

    revision: int
    leader: str | None
    document: int | None  # the revision of the operator's document
    accepted: int | None  # that of the document in force
    refused_document: tuple[int, str] | None
    posted: Posted | None
    lag: int  # by how many revisions the newest report is ahead of the posted prefix
    reporters: tuple[ReporterStatus, ...]
    ignored: tuple[str, ...]


class StatusReader:
    """Reads the status again and again; what has not changed since is neither read nor parsed."""

    def __init__(self, store: Store, keys: Keys) -> None:
        self._store, self._keys = store, keys
        self._restart()

    def _restart(self) -> None:
        self._network: Network | None = None
        self._accepted = Copy(self._keys.accepted)
        self._reports = Copy(self._keys.reports, is_prefix=True)
        self._refusals = Copy(self._keys.refusals, is_prefix=True)

    def read(self) -> Status:
        """The status of now. StoreError where the store is away."""
        try:
            return self._read()
        except StoreChanged:
            self._restart()
            raise

    def _read(self) -> Status:
        keys = self._keys
        singles = [keys.leader, keys.document, keys.posted, keys.refused_document]
        reading = self._store.read(
            [
                *(Select(key) for key in singles),
                self._accepted.select(),
                self._reports.select(),
                self._refusals.select(),
            ]
        )
        leader, document, posted, refused = (it.one() for it in reading.found[:4])
        if self._accepted.take(self._store, reading.found[4], reading.revision):
            accepted = self._accepted.one()
            self._network = network_of(*accepted_of(accepted.value)) if accepted else None
        self._reports.take(self._store, reading.found[5], reading.revision)
        self._refusals.take(self._store, reading.found[6], reading.revision)
        reports = {_name(it, keys.reports): it for it in self._reports.entries.values()}
        refusals = {_name(it, keys.refusals): it for it in self._refusals.entries.values()}
        newest = max(self._reports.newest, document.modified if document else 0)
        table = posted_of(posted.value) if posted else None
        return Status(
            revision=reading.revision,
            leader=printable(leader.value) if leader else None,
            document=document.modified if document else None,
            accepted=self._network.revision if self._network else None,
            refused_document=refused_document_of(refused.value) if refused else None,
            posted=table,
            lag=max(0, newest - table.prefix) if table else newest,
            reporters=self._reporters(reading.revision, reports, refusals),
            ignored=tuple(sorted(it for it in reports if not self._has(it))),
        )

    def _reporters(
        self, revision: int, reports: dict[str, Entry], refusals: dict[str, Entry]
    ) -> tuple[ReporterStatus, ...]:
        found = []
        for name in self._network.reporters if self._network else ():
            report, refused = reports.get(name), refusals.get(name)
            found.append(
                ReporterStatus(
                    name,
                    report.modified if report else None,
                    revision - report.modified if report else None,
                    refusals_of(refused.value) if refused else None,
                )
            )
        return tuple(found)

    def _has(self, name: str) -> bool:
        return self._network is not None and is_reporter(self._network, name)


def _name(entry: Entry, prefix: str) -> str:
    return entry.key.removeprefix(prefix)
