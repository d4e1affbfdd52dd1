"""Judges the history of a store: promises 1 and 2 at each of its revisions, and that posts go on.

Tables are computed by the second, plain implementation in tools/compare.py: no code of the package
has a part in them but that which reads a report's lines.
"""

from __future__ import annotations

import json
import sys
from pathlib import Path

sys.path.insert(0, str(Path(__file__).resolve().parents[2] / "tools/check"))

import compare

from bwe_control.keys import Keys
from bwe_control.network import network_of
from bwe_control.reports import read_report
from bwe_control.store.interface import Select, Store
from bwe_control.values import posted_of, slice_of


class Judge:
    """Follows the keys of a network revision by revision."""

    def __init__(self, store: Store, keys: Keys) -> None:
        self._keys = keys
        self._state: dict[str, bytes] = {}
        self._documents: dict[int, bytes] = {}
        self._past: list[tuple[int, dict[str, bytes]]] = [(0, {})]  # the reports behind a revision
        self._tables: dict[tuple[int, int], tuple[dict[str, dict[str, int]], int]] = {}
        self._history = store.history([Select(keys.all, True)])
        self.posts = 0

    def check(self, in_parts: bool) -> None:
        """AssertionError at the first revision at which a promise does not hold.

        `in_parts` is whether tables take several transactions: then promise 1 is of the revisions
        at which `posted` is written.
        """
        assert self._history.first == 0
        last, revision, is_posted = 0, 0, False
        for change in self._history.changes:
            if change.revision != revision:
                last = self._check_revision(last, is_posted or not in_parts)
                revision, is_posted = change.revision, False
            self._take(change.revision, change.key, change.value)
            is_posted |= change.key == self._keys.posted
        self._check_revision(last, is_posted or not in_parts)

    def _take(self, revision: int, key: str, value: bytes | None) -> None:
        if key == self._keys.document and value is not None:
            self._documents[revision] = value
        if key.startswith(self._keys.reports):
            reports = dict(self._past[-1][1])
            if value is None:
                reports.pop(key, None)
            else:
                reports[key] = value
            self._past.append((revision, reports))
        self.posts += key == self._keys.posted
        if value is None:
            self._state.pop(key, None)
        else:
            self._state[key] = value

    def _check_revision(self, last: int, is_table: bool) -> int:
        """The posted prefix at this moment, which is not below the last one."""
        value = self._state.get(self._keys.posted)
        if value is None:
            return last
        posted = posted_of(value)
        assert posted.prefix >= last, f"the posted prefix falls from {last} to {posted.prefix}"
        if is_table:
            slices, total = self.table(posted.document, posted.prefix)
            stands = {
                key.removeprefix(self._keys.slices): slice_of(it)
                for key, it in self._state.items()
                if key.startswith(self._keys.slices)
            }
            assert {name: it.limits for name, it in stands.items()} == slices, posted
            assert posted.total == total
            for name, one in stands.items():
                assert one.limits == self.table(one.document, one.prefix)[0][name]
        return posted.prefix

    def table(self, document: int, prefix: int) -> tuple[dict[str, dict[str, int]], int]:
        """The limits of each reporter's tasks, and the total."""
        found = (document, prefix)
        if found not in self._tables:
            self._tables[found] = self._solved(*found)
        return self._tables[found]

    def _solved(self, document: int, prefix: int) -> tuple[dict[str, dict[str, int]], int]:
        text = self._documents[document]
        network = network_of(document, text)
        reports = [it for revision, it in self._past if revision <= prefix][-1]
        script = []
        for name in network.reporters:
            value = reports.get(self._keys.report(name), b"")
            for start, amount in read_report(network, name, 0, value).amounts.items():
                kind, what = start.decode().split()
                key = "task" if kind == "demand" else "link"
                script.append({"reporter": name, key: what, kind: amount})
        table = compare.Filling(dict(json.loads(text), script=script)).table(len(script))
        words = [line.split() for line in table.splitlines()]
        limits = {it[1]: int(it[3]) for it in words if it[0] == "task"}
        slices = {
            name: {task: limits[task] for task in tasks} for name, tasks in network.tasks.items()
        }
        return slices, int(words[-1][1])
