"""Since when something stands unposted, as one allocator sees it."""

from __future__ import annotations

import time
from typing import TYPE_CHECKING

if TYPE_CHECKING:
    from bwe_control.desk import Desk, View


class Unposted:
    """A report or document that waits for a table, and since when it was seen to."""

    def __init__(self) -> None:
        self._revision, self._since = 0, 0.0

    def take(self, view: View, desk: Desk) -> None:
        """What a reading says of it."""
        prefix = view.posted.prefix if view.posted else 0
        waiting = _waiting(view, desk, prefix)
        if not waiting or not self._revision or prefix >= self._revision:
            self._revision, self._since = waiting, time.monotonic()

    def post(self, prefix: int) -> None:
        """A table of that prefix is posted."""
        if self._revision <= prefix:
            self._revision = 0

    def seconds(self) -> float:
        """For how long; 0 where nothing waits."""
        return time.monotonic() - self._since if self._revision else 0.0


def _waiting(view: View, desk: Desk, prefix: int) -> int:
    """The newest revision that waits for a table; 0 where none does."""
    if desk.accepted.one() is None:
        document = desk.document.one()
        is_open = document is not None and document.modified != view.refused_document
        return document.modified if document is not None and is_open else 0
    newest = desk.newest()
    return newest if newest > prefix else 0
