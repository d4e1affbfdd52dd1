"""The allocator's loop: it stands by or leads, and posts a table when something has changed."""

from __future__ import annotations

import logging
import threading
import time
from collections.abc import Callable
from dataclasses import dataclass
from pathlib import Path

from bwe_control.chain import Chain, Fenced
from bwe_control.desk import Desk, View
from bwe_control.errors import (
    ControlError,
    LeaseLost,
    OutcomeUnknown,
    StoreAway,
    StoreChanged,
    StoreError,
)
from bwe_control.heart import Heart
from bwe_control.keys import Keys
from bwe_control.live import LiveDied
from bwe_control.metrics import Metrics
from bwe_control.namesake import Namesake
from bwe_control.notify import notify
from bwe_control.progress import Progress
from bwe_control.store.interface import (
    Bell,
    Compare,
    Delete,
    Entry,
    Put,
    Reading,
    Select,
    Store,
)
from bwe_control.trouble import Trouble
from bwe_control.unposted import Unposted

log = logging.getLogger(__name__)

LOOK_EACH = 1.0  # seconds after which it looks though no bell rang
PATIENCE = 3.0  # seconds for giving the lead away
PAUSES = (0.2, 5.0)  # seconds behind a first failure, and at most


@dataclass(frozen=True)
class Settings:
    """How an allocator runs. Times are in seconds."""

    name: str
    program: Path  # bwe-live
    every: float = 0.2  # at least from one post to the next
    lease: float = 3.0
    stuck: float = 30.0


class Service:
    """One allocator over one store."""

    def __init__(
        self, open_store: Callable[[], Store], keys: Keys, settings: Settings, metrics: Metrics
    ) -> None:
        self._open, self._keys, self._settings, self._metrics = open_store, keys, settings, metrics
        self._store, self._progress, self._unposted = open_store(), Progress(), Unposted()
        self._namesake = Namesake(settings.name, settings.lease)
        self._desk = Desk(self._store, keys, settings.program, self._progress.beat, settings.stuck)
        self._chain = Chain(self._store, keys, settings.name)
        self._heart = Heart(
            open_store, self._progress, settings.lease, lambda: notify("WATCHDOG=1")
        )
        self._bell: Bell | None = None
        self._leads = False
        self._reads_all = True  # the next reading has to be the whole one
        self._has_changed = True
        self._looks_now = False  # the next reading does not wait
        self._prefix = 0  # of the posted table
        self._due, self._pause, self._trouble, self._told = 0.0, PAUSES[0], Trouble(), ""

    def run(self, is_told_to_stop: Callable[[], bool]) -> None:
        """Goes on until it is told; what is raised here ends it. `close` gives the lead away."""
        while not is_told_to_stop():
            self.step()

    def step(self) -> None:
        """Waits for something to do, reads, and does what is due; what fails is tried again."""
        self._progress.beat()
        try:
            self._round()
            self._is_well()
        except Fenced as fault:
            log.info("reads everything anew: %s", fault)
            self._reads_all = True
        except (StoreError, OutcomeUnknown, LiveDied) as fault:
            self._is_troubled(fault)

    def _round(self) -> None:
        self._wait()
        reads_all = self._reads_all or not self._leads
        selects = self._chain.selects() if self._leads and reads_all else []
        with self._metrics.timed(self._metrics.read):
            view, reading = self._desk.look(selects)
        self._has_changed |= view.has_changed
        self._prefix = view.posted.prefix if view.posted else 0
        self._unposted.take(view, self._desk)
        if view.leader is None or not self._is_own(view.leader):
            self._stand_by(view)
        elif not self._leads:
            self._take_lead()
        elif not reads_all and view.leader and view.leader.modified != self._chain.fence:
            raise Fenced("an earlier transaction of its own came late")
        else:
            self._lead(view, reading if reads_all else None)
        self._metrics.show(self._prefix, self._desk, self._unposted.seconds())

    def _is_own(self, leader: Entry) -> bool:
        lease = self._chain.lease
        return lease is not None and leader.lease == lease.number

    def _wait(self) -> None:
        """Waits for something to do: the bell, the next look, or the time of the next post."""
        if self._bell is None:
            keys = self._keys
            follows = [Select(keys.reports, True), Select(keys.document)]
            self._bell = self._store.bell(follows if self._leads else [Select(keys.leader)])
        elif self._looks_now or (self._leads and self._reads_all):
            self._looks_now = False
        elif self._leads and self._has_changed:
            time.sleep(max(0.0, self._due - time.monotonic()))
        elif self._leads:
            self._bell.wait(LOOK_EACH)
        else:
            self._rest(self._bell)

    def _rest(self, bell: Bell) -> None:
        """A standby reads everything once a second, and at once where nobody leads any more.

        The leader writes its key with each table, which rings; a reading of all that is reported costs
        a store more than one of that key.
        """
        until = time.monotonic() + LOOK_EACH
        while (left := until - time.monotonic()) > 0 and bell.wait(left):
            leader = self._store.read([Select(self._keys.leader)]).found[0].one()
            if leader is None or self._is_own(leader):
                return

    # ---- the leader

    def _take_lead(self) -> None:
        log.info("%s leads", self._settings.name)
        self._tell(f"leads as {self._settings.name}")
        self._metrics.campaigns.inc()
        self._changes_role(True)

    def _lead(self, view: View, whole: Reading | None) -> None:
        """Posts where something has changed and the time has come."""
        if whole is None and (not self._has_changed or time.monotonic() < self._due):
            return
        self._due = time.monotonic() + self._settings.every
        with self._metrics.timed(self._metrics.table):
            self._make()
        desk, chain = self._desk, self._chain
        accepted, document = desk.accepted_revision(), desk.text()
        if whole is not None and view.leader is not None:
            chain.read(view.leader.modified, whole, desk.tables, accepted)
        else:
            chain.look(view.revision, desk.tables)
        self._progress.beat()
        with self._metrics.timed(self._metrics.write):
            written = chain.write(document, desk.tables, desk.refusals())
        self._reads_all = self._has_changed = False
        if desk.tables is not None:
            self._prefix = view.revision
            self._unposted.post(view.revision)
            self._metrics.posts.inc()
        self._metrics.slices.inc(written.slices)
        self._metrics.written.inc(written.size)

    def _make(self) -> None:
        self._desk.settle()
        if self._desk.tables is not None:
            self._desk.tables.make()

    # ---- the standby

    def _stand_by(self, view: View) -> None:
        """Keeps its copy fresh, and campaigns where nobody leads."""
        if self._leads or view.leader is not None:
            self._lets_lead_go()
        self._tell(f"stands by as {self._settings.name}")
        if view.leader is None:
            self._campaign()
            return
        self._namesake.take(view.leader)
        self._metrics.namesake.set(1 if self._namesake.is_there else 0)
        if self._unposted.seconds() > self._settings.stuck:
            self._deletes_leader(view)
        if self._has_changed and time.monotonic() >= self._due:
            self._due = time.monotonic() + max(self._settings.every, LOOK_EACH)
            self._make()
            self._has_changed = False

    def _campaign(self) -> None:
        """Writes the leader key where nobody has; what comes of it, the next reading says."""
        if self._heart.has_lost or self._chain.lease is None:
            self._chain.lease = self._store.grant(self._settings.lease)
            self._heart.hold(self._chain.lease)
        lease, name = self._chain.lease, self._settings.name.encode()
        self._looks_now = True
        try:
            self._store.transact(
                [Compare(self._keys.leader, 0)], [Put(self._keys.leader, name, lease.number)]
            )
        except LeaseLost:
            self._chain.lease = None

    def _deletes_leader(self, view: View) -> None:
        """A leader that does not post is no leader."""
        if view.leader is None:
            return
        key = self._keys.leader
        outcome = self._store.transact([Compare(key, view.leader.modified)], [Delete(key)])
        if outcome.is_done:
            self._metrics.given_away.inc()
            log.warning("the leader left a report unposted for %g s: deleted", self._settings.stuck)

    # ---- both

    def _changes_role(self, leads: bool) -> None:
        self._leads, self._reads_all, self._due = leads, True, 0.0
        self._metrics.leader.set(1 if leads else 0)
        if self._bell is not None:
            self._bell.close()
            self._bell = None

    def _lets_lead_go(self) -> None:
        """Gives its lease back, where it has one, so that nothing under it comes late."""
        if self._leads:
            log.warning("%s leads no more", self._settings.name)
            self._changes_role(False)
        self._chain.protocol.crash()
        lease, self._chain.lease = self._chain.lease, None
        self._heart.release()
        if lease is not None:
            self._store.revoke(lease)

    def _is_well(self) -> None:
        if self._trouble.is_over():
            log.info("goes on")
        self._pause = PAUSES[0]
        self._metrics.away.set(0)
        self._metrics.refuses.set(0)

    def _is_troubled(self, fault: ControlError) -> None:
        """Says each fault once, and goes on after a pause that grows."""
        kind = type(fault).__name__
        if isinstance(fault, LiveDied):
            self._metrics.live_restarts.inc()
        else:
            self._metrics.faults.labels(kind).inc()
            is_away = isinstance(fault, (StoreAway, OutcomeUnknown))
            (self._metrics.away if is_away else self._metrics.refuses).set(1)
            self._reads_all = True
        if isinstance(fault, StoreChanged):
            self._desk.restart()
        if isinstance(fault, LeaseLost):
            self._chain.lease = None
        if self._trouble.is_new(str(fault)):
            log.error("%s", fault)
        self._has_changed = True
        self._tell(str(fault), is_ready=False)
        time.sleep(self._pause)
        self._pause = min(2 * self._pause, PAUSES[1])

    def _tell(self, status: str, is_ready: bool = True) -> None:
        """Tells systemd what has changed: an allocator that leads or stands by is ready."""
        if status != self._told:
            self._told = status
            notify(("READY=1\n" if is_ready else "") + f"STATUS={status}")

    def close(self) -> None:
        """Gives the lead away at once, where the store answers, and ends the child."""
        notify("STOPPING=1")
        self._store.close()  # a signal may have come in the middle of a call
        giving = threading.Thread(target=self._give_away, name="giving", daemon=True)
        giving.start()
        giving.join(timeout=PATIENCE)
        self._desk.close()
        self._heart.stop()

    def _give_away(self) -> None:
        lease = self._chain.lease
        try:
            if lease is not None:
                self._open().revoke(lease)
                log.info("%s gives its lease away", self._settings.name)
        except (StoreError, OutcomeUnknown) as fault:
            log.info("its lease ends by itself: %s", fault)
