"""Whether another allocator that is alive has the same name."""

from __future__ import annotations

import logging
import time

from bwe_control.store.interface import Entry

log = logging.getLogger(__name__)


class Namesake:
    """Watches the leader key for a standby's own name.

    The key of the standby's own earlier life goes with its lease; one that outlives three such
    leases is another's.
    """

    def __init__(self, name: str, lease: float) -> None:
        self._name, self._patience = name, 3 * lease
        self._created, self._since = 0, 0.0
        self.is_there = False

    def take(self, leader: Entry | None) -> None:
        """What a standby has read of the leader key."""
        if leader is None or leader.value != self._name.encode():
            self._created, self.is_there = 0, False
            return
        if self._created != leader.created:
            self._created, self._since = leader.created, time.monotonic()
        if not self.is_there and time.monotonic() - self._since > self._patience:
            self.is_there = True
            log.warning("another allocator leads by the name %s: give each its own", self._name)
