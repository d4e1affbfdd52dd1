"""What a host does with the control plane: it puts its report, and reads and follows its limits."""

from __future__ import annotations

import logging
import time
from collections.abc import Callable, Iterator
from dataclasses import dataclass

from bwe_control.errors import Compacted, NoStore, OutcomeUnknown, StoreAway, StoreError
from bwe_control.keys import Keys
from bwe_control.store.interface import Compare, Entry, Put, Select, Store
from bwe_control.trouble import Trouble
from bwe_control.values import Posted, Refusals, Slice, posted_of, refusals_of, slice_of

log = logging.getLogger(__name__)

PATIENCE = 10.0  # seconds in which a put is tried again
PAUSE = 0.2  # seconds between two tries
LOOK_EACH = 1.0  # seconds after which a reader looks though no bell rang


@dataclass(frozen=True)
class Limits:
    """One linearizable reading: what is posted, and the reporter's slice of that very table."""

    revision: int
    posted: Posted | None  # None: no table was posted yet
    slice: Slice | None  # None: the table has no such reporter

    def same(self, other: Limits | None) -> bool:
        """Whether it shows the same as another reading."""
        return other is not None and (self.posted, self.slice) == (other.posted, other.slice)

    def text(self) -> str:
        """As `bwe-control limits` prints it, with the empty line behind it."""
        posted = "none\n" if self.posted is None else self.posted.text()
        limits = "none\n" if self.slice is None else self.slice.text()
        return f"posted {posted}limits {limits}\n"


def put_report(
    store: Store, keys: Keys, reporter: str, value: bytes, patience: float = PATIENCE
) -> int:
    """Puts the report of a reporter in place of its last one; the revision at which it stands.

    As `put_value` of its key.
    """
    return put_value(store, keys.report(reporter), value, "the report", patience)


def put_value(store: Store, key: str, value: bytes, what: str, patience: float = PATIENCE) -> int:
    """Puts a value in place of the one before; the revision at which it stands.

    Of two clients at once both are done, one after the other. A try whose answer is lost is never
    repeated but by a transaction that fails where the first one was done. StoreError: it was not
    put and will not be. OutcomeUnknown: it may have been put, or may still be. `what` names it in
    that sentence.
    """
    putting, until = _Putting(store, key, value, what), time.monotonic() + patience
    while True:
        try:
            if revision := putting.attempt():
                return revision
        except StoreAway as fault:
            log.debug("%s: %s", key, fault)
            is_hopeless = isinstance(fault, NoStore) and not putting.is_in_doubt
            if is_hopeless or time.monotonic() + PAUSE > until:
                raise putting.unknown(str(fault)) if putting.is_in_doubt else fault
            time.sleep(PAUSE)
        except StoreError as fault:
            if putting.is_in_doubt:  # an earlier try may have been done, or come late
                raise putting.unknown(str(fault)) from fault
            raise


class _Putting:
    """Tries to put one value until one try is known to be done."""

    def __init__(self, store: Store, key: str, value: bytes, what: str) -> None:
        self._store, self._key, self._value, self._what = store, key, value, what
        self._compared = 0  # by the tries whose answers are lost, all the same
        self._read_at = 0  # the revision of the reading before the first of them
        self.is_in_doubt = False

    def attempt(self) -> int:
        """One try; the revision of the report, 0 where it is to be tried again."""
        reading = self._store.read([Select(self._key)])
        before = reading.found[0].one()
        modified = before.modified if before else 0
        if self.is_in_doubt:
            if modified != self._compared or (not modified and self._has_been_there()):
                return self._decided(before)
        else:
            self._compared, self._read_at = modified, reading.revision
        try:
            outcome = self._store.transact(
                [Compare(self._key, modified)], [Put(self._key, self._value)]
            )
        except OutcomeUnknown as fault:
            self.is_in_doubt = True
            raise StoreAway(str(fault)) from fault
        return outcome.revision if outcome.is_done else 0

    def _has_been_there(self) -> bool:
        """Whether a key that is not there was, since the reading before the lost tries."""
        history = self._store.history([Select(self._key)])
        if history.first > self._read_at:
            return True  # that part of the history is given up: it may have been
        return any(it.revision > self._read_at for it in history.changes)

    def _decided(self, now: Entry | None) -> int:
        """The key has been written since: none of the lost tries can still come."""
        if now and now.value == self._value:
            return now.modified
        raise self.unknown("another client has written since")

    def unknown(self, why: str) -> OutcomeUnknown:
        return OutcomeUnknown(f"whether {self._what} was put is not known: {why}")


def wait_posted(
    store: Store,
    keys: Keys,
    revision: int,
    seconds: float | None = None,
    patience: float = PATIENCE,
) -> Posted | None:
    """Waits for a table that holds what stands at a revision; None after so many seconds.

    By linearizable readings alone: a caller that is told and then reads sees this table or a
    later one.
    StoreAway where the store did not answer for `patience` seconds.
    """
    now = time.monotonic()
    until, away_until = None if seconds is None else now + seconds, now + patience
    with store.bell([Select(keys.posted)]) as bell:
        while True:
            try:
                entry = store.read([Select(keys.posted)]).found[0].one()
                posted = posted_of(entry.value) if entry else None
                if posted is not None and posted.prefix >= revision:
                    return posted
                away_until = time.monotonic() + patience
            except StoreAway:
                if time.monotonic() > away_until:
                    raise
                time.sleep(PAUSE)
            left = LOOK_EACH if until is None else min(LOOK_EACH, until - time.monotonic())
            if left <= 0:
                return None
            bell.wait(left)


def read_refusals(store: Store, keys: Keys, reporter: str) -> Refusals | None:
    """What was refused of the report that the allocator read last; None where nothing was."""
    entry = store.read([Select(keys.refused(reporter))]).found[0].one()
    return refusals_of(entry.value) if entry else None


def read_limits(store: Store, keys: Keys, reporter: str) -> Limits:
    """What is posted, and the reporter's slice at the revision of that posting."""
    selects = [Select(keys.posted), Select(keys.limits(reporter))]
    while True:
        reading = store.read(selects)
        posted, piece = (found.one() for found in reading.found)
        if posted is None:
            return Limits(reading.revision, None, None)
        if piece is None or piece.modified > posted.modified:
            # Either the table has no such reporter, or the next table is half written.
            try:
                piece = store.read(selects[1:], at=posted.modified).found[0].one()
            except Compacted:
                if piece is not None:
                    continue
        limits = slice_of(piece.value) if piece else None
        return Limits(reading.revision, posted_of(posted.value), limits)


class LimitsFollower:
    """Follows the limits of one reporter; what it shows never goes back to an older prefix."""

    def __init__(self, store: Store, keys: Keys, reporter: str) -> None:
        self._store, self._keys, self._reporter = store, keys, reporter
        self._bell = store.bell([Select(keys.posted), Select(keys.limits(reporter))])
        self._last: Limits | None = None
        self._trouble = Trouble()

    def next(self, seconds: float) -> Limits | None:
        """What has changed since the last call, the first time all; None after so many seconds.

        StoreError where the store is away: the last limits stay in force, and the caller asks
        again, after a pause of its own.
        """
        until = time.monotonic() + seconds
        while True:
            now = read_limits(self._store, self._keys, self._reporter)
            if not now.same(self._last) and self._is_newer(now):
                self._last = now
                return now
            left = until - time.monotonic()
            if left <= 0:
                return None
            self._bell.wait(min(left, LOOK_EACH))

    def _is_newer(self, now: Limits) -> bool:
        last = self._last.posted if self._last else None
        if last is None or (now.posted is not None and now.posted.prefix >= last.prefix):
            self._trouble.is_over()
            return True
        sentence = f"the posted prefix fell below {last.prefix}: what the store shows is not shown"
        if self._trouble.is_new(sentence):
            log.error("%s", sentence)
        return False

    def close(self) -> None:
        """Ends the bell; the store stays open."""
        self._bell.close()


def follow_limits(
    store: Store, keys: Keys, reporter: str, stopped: Callable[[], bool] = lambda: False
) -> Iterator[Limits]:
    """The limits now and at each change, without an end; goes on while the store is away."""
    follower, is_away = LimitsFollower(store, keys, reporter), False
    try:
        while not stopped():
            try:
                limits = follower.next(LOOK_EACH)
                if is_away:
                    log.info("the store answers again")
                is_away = False
            except StoreError as fault:
                if not is_away:
                    log.warning("the last limits stand: %s", fault)
                is_away, limits = True, None
                time.sleep(PAUSE)
            if limits is not None:
                yield limits
    finally:
        follower.close()
