"""A copy of keys that is kept by what has changed."""

from __future__ import annotations

from bwe_control.errors import StoreChanged
from bwe_control.store.interface import Entry, Select, Selected, Store


class Copy:
    """The entries of one key, or below one prefix, as they stood at a revision.

    Of each later reading only what has changed is fetched and looked at. Deletions do not show in
    that; they show in the number of keys, and then the keys are read once more at the same revision.
    """

    def __init__(self, key: str, is_prefix: bool = False) -> None:
        self._key, self._is_prefix = key, is_prefix
        self.revision = 0
        self.newest = 0  # the greatest modification revision of the entries
        self.entries: dict[str, Entry] = {}

    def select(self) -> Select:
        """What is to be read for the next `take`."""
        return Select(self._key, self._is_prefix, self.revision)

    def take(self, store: Store, found: Selected, revision: int) -> set[str]:
        """Takes what was read at a revision; the keys that were written or deleted since.

        They are told once. StoreError where the store does not answer: then nothing is taken.
        """
        if revision < self.revision:
            raise StoreChanged(
                f"the store is at revision {revision}, and was at {self.revision} before"
            )
        changed = {it.key for it in found.entries}
        fresh = found.entries
        if len(self.entries) + len(changed - self.entries.keys()) != found.count:
            whole = store.read([Select(self._key, self._is_prefix)], at=revision).found[0]
            fresh = whole.entries
            changed |= self.entries.keys() - {it.key for it in fresh}
            self.entries, self.newest = {}, 0
        for it in fresh:
            self.entries[it.key] = it
            self.newest = max(self.newest, it.modified)
        self.revision = revision
        return changed

    def one(self) -> Entry | None:
        """The entry of a copy of one key."""
        return self.entries.get(self._key)
