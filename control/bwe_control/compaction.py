"""Gives up the old history of a store that does not do so by itself."""

from __future__ import annotations

import logging
import threading
import time
from collections import deque
from collections.abc import Callable

from bwe_control.errors import ControlError
from bwe_control.store.interface import Store

log = logging.getLogger(__name__)

NOTES = 20  # how often a revision is noted in the time that is kept


class Compaction:
    """A thread that keeps a history of so many seconds, by the monotonic clock."""

    def __init__(self, open_store: Callable[[], Store], seconds: float) -> None:
        self._open, self._seconds = open_store, seconds
        self._stopped = threading.Event()
        self._thread = threading.Thread(target=self._run, name="compaction", daemon=True)
        self._thread.start()

    def _run(self) -> None:
        notes: deque[tuple[float, int]] = deque()
        store = self._open()
        while not self._stopped.wait(self._seconds / NOTES):
            now, old = time.monotonic(), 0
            while notes and notes[0][0] < now - self._seconds:
                old = notes.popleft()[1]
            try:
                if old:
                    store.compact(old)
                notes.append((now, store.read([]).revision))
            except ControlError as fault:
                log.debug("the history is not compacted: %s", fault)
        store.close()

    def stop(self) -> None:
        self._stopped.set()
        self._thread.join(timeout=1)
