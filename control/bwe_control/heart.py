"""Renews the lease of an allocator, as long as its loop gets on."""

from __future__ import annotations

import logging
import threading
from collections.abc import Callable

from bwe_control.errors import ControlError, LeaseLost
from bwe_control.progress import Progress
from bwe_control.store.interface import Lease, Store

log = logging.getLogger(__name__)


class Heart:
    """A thread that renews a lease. A loop that hangs loses the lead, since it renews no more."""

    def __init__(
        self,
        open_store: Callable[[], Store],
        progress: Progress,
        seconds: float,
        told: Callable[[], None],
    ) -> None:
        """`seconds` is the lease's length; `told` is called at each beat of a loop that gets on."""
        self._open, self._progress, self._told = open_store, progress, told
        self._each = min(1.0, seconds / 3)
        self._patience = max(3 * seconds, 10.0)
        self._lease: Lease | None = None
        self._has_lost, self._lock = False, threading.Lock()
        self._stopped = threading.Event()
        self._thread = threading.Thread(target=self._run, name="heart", daemon=True)
        self._thread.start()

    def hold(self, lease: Lease) -> None:
        """Renews that lease from now on."""
        with self._lock:
            self._lease, self._has_lost = lease, False

    def release(self) -> None:
        """Renews no lease any more."""
        with self._lock:
            self._lease = None

    @property
    def has_lost(self) -> bool:
        """Whether the lease that it holds has ended."""
        return self._has_lost

    def _run(self) -> None:
        store = self._open()
        hangs = False
        while not self._stopped.wait(self._each):
            age = self._progress.age()
            if age > self._patience:
                if not hangs:
                    log.error("the loop has not come round for %.0f s: the lease ends", age)
                hangs = True
                continue
            hangs = False
            self._told()
            with self._lock:
                lease = self._lease
            if lease is not None:
                self._renew(store, lease)
        store.close()

    def _renew(self, store: Store, lease: Lease) -> None:
        try:
            store.renew(lease)
        except LeaseLost:
            with self._lock:
                if self._lease == lease:
                    self._lease, self._has_lost = None, True
        except ControlError as fault:
            log.debug("the lease could not be renewed: %s", fault)

    def stop(self) -> None:
        self._stopped.set()
        self._thread.join(timeout=1)
