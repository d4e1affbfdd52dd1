"""The history of an etcd store: a watch from the oldest revision that is kept."""

from __future__ import annotations

import threading
from collections.abc import Iterator, Sequence
from typing import TYPE_CHECKING, Any

from bwe_control.errors import Compacted, StoreAway
from bwe_control.store.etcd_wire import NEEDS_LEADER, Wire, grpc, rpc
from bwe_control.store.interface import Change, Entry, History, Select

if TYPE_CHECKING:
    from bwe_control.store.etcd import EtcdStore

PATIENCE = 30.0  # seconds in which a watch of the past has to come to the present
QUIET = 0.5  # seconds for a key that was made and deleted behind all that stands


def history_of(store: EtcdStore, wire: Wire, selects: Sequence[Select]) -> History:
    """The writes from the oldest revision that is kept to the one of now."""
    whole = [Select(one.key, one.is_prefix) for one in selects]
    now = store.read(whole)
    first = _compacted(wire, whole)
    then = store.read(whole, at=first) if first else None
    entries = tuple(it for found in (then.found if then else ()) for it in found.entries)
    stands = {it.key: it.modified for found in now.found for it in found.entries}
    return History(first, entries, _changes(wire, whole, entries, first, now.revision, stands))


def _compacted(wire: Wire, selects: Sequence[Select]) -> int:
    """Up to which revision the history was given up; 0 where all of it is kept."""
    for answer in _watch(wire, selects[:1], 1, QUIET):
        if answer.compact_revision:
            return int(answer.compact_revision)
        if answer.events:
            break
    return 0


def _changes(
    wire: Wire,
    selects: Sequence[Select],
    entries: tuple[Entry, ...],
    first: int,
    last: int,
    stands: dict[str, int],
) -> Iterator[Change]:
    """The changes up to revision `last`, at which the keys and their revisions are `stands`.

    A watch does not say when it has come to the present. So it is followed until what it gave is
    what stands.
    """
    kept = {it.key: it.modified for it in entries}
    found: list[Change] = []
    for select in selects:
        wanted = {key: it for key, it in stands.items() if _is_in(select, key)}
        seen = {key: it for key, it in kept.items() if _is_in(select, key)}
        found += _changes_of(wire, select, first + 1, last, seen, wanted)
    found.sort(key=lambda one: one.revision)
    yield from found


def _changes_of(
    wire: Wire, select: Select, start: int, last: int, seen: dict[str, int], wanted: dict[str, int]
) -> list[Change]:
    found: list[Change] = []
    seconds = QUIET if seen == wanted else PATIENCE
    for answer in _watch(wire, [select], start, seconds):
        if answer.compact_revision:
            raise Compacted("the history was given up while it was read: ask again")
        for event in answer.events:
            key, revision = event.kv.key.decode("utf-8", "surrogateescape"), event.kv.mod_revision
            if revision > last:
                return found
            is_put = event.type == event.PUT
            found.append(Change(revision, key, event.kv.value if is_put else None))
            if is_put:
                seen[key] = revision
            else:
                seen.pop(key, None)
        if seen == wanted:
            return found + _the_rest(
                wire, select, max([start, *(it.revision + 1 for it in found)]), last
            )
    if seen != wanted:
        raise StoreAway("the store did not give its whole history in time")
    return found


def _the_rest(wire: Wire, select: Select, start: int, last: int) -> list[Change]:
    """Keys made and deleted again behind all that stands."""
    return [
        Change(
            event.kv.mod_revision,
            event.kv.key.decode("utf-8", "surrogateescape"),
            event.kv.value if event.type == event.PUT else None,
        )
        for answer in _watch(wire, [select], start, QUIET)
        for event in answer.events
        if event.kv.mod_revision <= last
    ]


def _watch(wire: Wire, selects: Sequence[Select], start: int, seconds: float) -> Iterator[Any]:
    """The answers of a watch, as long as they come within so many seconds."""
    from bwe_control.store.etcd import key_bytes, range_end

    has_ended = threading.Event()

    def requests() -> Iterator[Any]:
        for one in selects:
            create = rpc.WatchCreateRequest(
                key=key_bytes(one.key), range_end=range_end(one), start_revision=start
            )
            yield rpc.WatchRequest(create_request=create)
        has_ended.wait()

    call = rpc.WatchStub(wire.channel()).Watch(requests(), metadata=NEEDS_LEADER)
    timer = threading.Timer(seconds, call.cancel)
    timer.start()
    try:
        yield from call
    except grpc.RpcError as fault:
        if fault.code() != grpc.StatusCode.CANCELLED:
            wire.move_on()
            raise StoreAway(f"the store's history ends: {fault.details()}") from None
    finally:
        timer.cancel()
        has_ended.set()
        call.cancel()


def _is_in(select: Select, key: str) -> bool:
    return key.startswith(select.key) if select.is_prefix else key == select.key
