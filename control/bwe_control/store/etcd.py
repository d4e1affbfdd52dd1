"""The store of several machines: an etcd cluster of version 3.4."""

from __future__ import annotations

import math
from collections.abc import Sequence
from typing import TYPE_CHECKING, Any

from bwe_control.errors import LeaseLost, OutcomeUnknown, StoreAway
from bwe_control.store.etcd_bell import EtcdBell
from bwe_control.store.etcd_history import history_of
from bwe_control.store.etcd_wire import NEEDS_LEADER, Wire, endpoints_of, rpc
from bwe_control.store.interface import (
    Compare,
    Entry,
    History,
    Lease,
    Operation,
    Outcome,
    Put,
    Reading,
    Select,
    Selected,
)

if TYPE_CHECKING:
    from bwe_control.store.opening import Tls

__all__ = ["EtcdStore", "endpoints_of"]


class EtcdStore:
    """The members of a cluster, asked one at a time."""

    # Of the 128 operations and 1.5 MiB that etcd takes by itself, some are left to the fence.
    most_operations = 120
    most_bytes = 1_000_000

    def __init__(self, endpoints: list[str], tls: Tls | None = None) -> None:
        self._wire, self._tls = Wire(endpoints, tls), tls

    def read(self, selects: Sequence[Select], at: int = 0) -> Reading:
        request = rpc.TxnRequest(
            success=[rpc.RequestOp(request_range=range_request(one, at)) for one in selects]
        )
        answer = self._wire.read(
            lambda channel, seconds: rpc.KVStub(channel).Txn(
                request, timeout=seconds, metadata=NEEDS_LEADER
            )
        )
        found = tuple(_selected(one.response_range) for one in answer.responses)
        return Reading(at or answer.header.revision, found)

    def transact(self, compares: Sequence[Compare], operations: Sequence[Operation]) -> Outcome:
        request = rpc.TxnRequest(
            compare=[_compare(one) for one in compares],
            success=[_operation(one) for one in operations],
        )
        answer = self._wire.write(
            lambda channel, seconds: rpc.KVStub(channel).Txn(
                request, timeout=2 * seconds, metadata=NEEDS_LEADER
            ),
            size=request.ByteSize(),
        )
        return Outcome(answer.succeeded, answer.header.revision)

    def grant(self, seconds: float) -> Lease:
        request = rpc.LeaseGrantRequest(TTL=max(2, math.ceil(seconds)))
        try:
            answer = self._wire.write(
                lambda channel, patience: rpc.LeaseStub(channel).LeaseGrant(
                    request, timeout=2 * patience, metadata=NEEDS_LEADER
                )
            )
        except OutcomeUnknown as fault:
            raise StoreAway(str(fault)) from fault  # a lease that nobody knows ends by itself
        return Lease(answer.ID, float(answer.TTL))

    def renew(self, lease: Lease) -> float:
        request = rpc.LeaseKeepAliveRequest(ID=lease.number)

        def renewed(channel: Any, seconds: float) -> Any:
            call = rpc.LeaseStub(channel).LeaseKeepAlive(
                iter([request]), timeout=seconds, metadata=NEEDS_LEADER
            )
            try:
                return next(call, None)
            finally:
                call.cancel()

        answer = self._wire.read(renewed)
        if answer is None:
            raise StoreAway("the store has ended the renewal of a lease without an answer")
        if answer.TTL <= 0:
            raise LeaseLost("the lease has ended")
        return float(answer.TTL)

    def revoke(self, lease: Lease) -> None:
        request = rpc.LeaseRevokeRequest(ID=lease.number)
        try:
            self._wire.read(
                lambda channel, seconds: rpc.LeaseStub(channel).LeaseRevoke(
                    request, timeout=seconds, metadata=NEEDS_LEADER
                )
            )
        except LeaseLost:
            pass

    def bell(self, selects: Sequence[Select]) -> EtcdBell:
        return EtcdBell(Wire(self._wire.endpoints, self._tls), selects)

    def history(self, selects: Sequence[Select]) -> History:
        return history_of(self, Wire(self._wire.endpoints, self._tls), selects)

    def compact(self, revision: int) -> None:
        request = rpc.CompactionRequest(revision=revision)
        self._wire.read(
            lambda channel, seconds: rpc.KVStub(channel).Compact(
                request, timeout=seconds, metadata=NEEDS_LEADER
            )
        )

    def close(self) -> None:
        self._wire.close()


def key_bytes(key: str) -> bytes:
    return key.encode("utf-8", "surrogateescape")


def range_end(select: Select) -> bytes:
    """The first key past a prefix; nothing for a single key. A prefix here never ends in 0xff."""
    if not select.is_prefix:
        return b""
    first = key_bytes(select.key)
    return first[:-1] + bytes([first[-1] + 1])


def range_request(select: Select, at: int) -> Any:
    return rpc.RangeRequest(
        key=key_bytes(select.key),
        range_end=range_end(select),
        revision=at,
        min_mod_revision=select.since + 1 if select.since else 0,
    )


def _selected(answer: Any) -> Selected:
    entries = tuple(
        Entry(
            one.key.decode("utf-8", "surrogateescape"),
            one.value,
            one.create_revision,
            one.mod_revision,
            one.lease,
        )
        for one in answer.kvs
    )
    return Selected(entries, answer.count)


def _compare(one: Compare) -> Any:
    return rpc.Compare(
        result=rpc.Compare.EQUAL,
        target=rpc.Compare.MOD,
        key=key_bytes(one.key),
        mod_revision=one.modified,
    )


def _operation(one: Operation) -> Any:
    if isinstance(one, Put):
        put = rpc.PutRequest(key=key_bytes(one.key), value=one.value, lease=one.lease)
        return rpc.RequestOp(request_put=put)
    return rpc.RequestOp(request_delete_range=rpc.DeleteRangeRequest(key=key_bytes(one.key)))
