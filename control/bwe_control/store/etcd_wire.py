"""Calls to the members of an etcd cluster: one channel at a time, thrown away at each failure.

A channel of gRPC that has failed once makes no progress while nobody polls it, and one over several
members keeps to a member that is paused. So a channel is to one member; a call that fails throws it
away, and the next call goes to the next member.
"""

from __future__ import annotations

import logging
import os
import ssl
from collections.abc import Callable
from typing import TYPE_CHECKING, Any

from bwe_control.errors import (
    Compacted,
    InputError,
    LeaseLost,
    OutcomeUnknown,
    StoreAway,
    StoreChanged,
    StoreError,
    StoreRefused,
)

if TYPE_CHECKING:
    from bwe_control.store.opening import Tls

os.environ.setdefault("GRPC_VERBOSITY", "NONE")
import grpc  # noqa: E402
from etcd3 import etcdrpc as rpc  # noqa: E402

__all__ = ["NEEDS_LEADER", "Wire", "endpoints_of", "grpc", "rpc"]

log = logging.getLogger(__name__)

SHORTEST, LONGEST = 1.5, 6.0  # seconds that a member has for an answer: more after each failure
SLOWEST = 30.0  # the same where the member is there, and only the answer is not
SPEED = 4_000_000  # bytes that go in a second, at least: a longer request or answer has more time
NEEDS_LEADER = (("hasleader", "true"),)
OPTIONS = [
    ("grpc.max_receive_message_length", -1),
    ("grpc.max_send_message_length", -1),
    ("grpc.keepalive_time_ms", 6_000),
    ("grpc.keepalive_timeout_ms", 3_000),
    ("grpc.http2.max_pings_without_data", 0),
    ("grpc.use_local_subchannel_pool", 1),
    ("grpc.enable_retries", 0),
]
NOT_DONE = {  # what a member says of a request that it did not hand on
    "no leader": StoreAway,
    "too many requests": StoreAway,
    "not capable": StoreAway,
    "lease not found": LeaseLost,
    "has been compacted": Compacted,
    "future revision": StoreError,
    "database space exceeded": StoreRefused,
    "request is too large": StoreRefused,
    "too many operations": StoreRefused,
    "permission denied": StoreRefused,
    "user name is empty": StoreRefused,
    "auth token": StoreRefused,
    "authentication failed": StoreRefused,
    "larger than max": StoreRefused,
}


def endpoints_of(text: str) -> list[str]:
    """The members `HOST:PORT,HOST:PORT,..`."""
    endpoints = text.split(",")
    for one in endpoints:
        host, _, port = one.rpartition(":")
        if not host or not port.isdecimal():
            raise InputError(f"a member of etcd is named `HOST:PORT`, and not {one!r}")
    return endpoints


class Wire:
    """The members of one cluster, and the channel to the one that is asked now."""

    def __init__(self, endpoints: list[str], tls: Tls | None) -> None:
        self.endpoints, self._tls = endpoints, tls
        self._credentials: Any = _credentials(tls) if tls else None
        self._at, self._channel, self._cluster = 0, None, 0
        self._patience = SHORTEST
        self._greatest = 0  # bytes of the longest answer so far

    def read(self, call: Callable[[Any, float], Any]) -> Any:
        """Asks the members in turn, each once, until one answers. `call` gets channel and time."""
        fault: StoreError = StoreAway("the store has no member")
        for _ in range(len(self.endpoints) + 1):
            try:
                return self._answered(call, self._greatest)
            except (StoreAway, OutcomeUnknown) as away:
                fault = away if isinstance(away, StoreAway) else StoreAway(str(away))
                if isinstance(away, StoreChanged):
                    raise
        raise fault

    def write(self, call: Callable[[Any, float], Any], size: int = 0) -> Any:
        """Asks the members in turn until the request, of so many bytes, has gone out.

        It is not sent twice.
        """
        fault: StoreAway = StoreAway("the store has no member")
        for _ in range(len(self.endpoints) + 1):
            try:
                return self._answered(call, size)
            except StoreChanged:
                raise
            except StoreAway as away:
                fault = away
        raise fault

    def _answered(self, call: Callable[[Any, float], Any], size: int) -> Any:
        channel = self.channel()
        try:
            answer = call(channel, self._patience + size / SPEED)
        except grpc.RpcError as fault:
            meaning = meaning_of(fault, self.endpoints[self._at])
            if isinstance(meaning, (StoreAway, OutcomeUnknown)):
                is_slow = fault.code() == grpc.StatusCode.DEADLINE_EXCEEDED
                self.move_on(SLOWEST if is_slow else LONGEST)
            raise meaning from None
        self._patience = max(SHORTEST, min(LONGEST, self._patience * 0.9))
        if answer is not None:
            self._greatest = max(self._greatest, answer.ByteSize())
        return answer

    def channel(self) -> Any:
        """A channel to a member that has just answered, or answered the last call."""
        if self._channel is None:
            self._channel = self._connected(self.endpoints[self._at])
        return self._channel

    def _connected(self, endpoint: str) -> Any:
        channel = (
            grpc.secure_channel(endpoint, self._credentials, OPTIONS)
            if self._credentials
            else grpc.insecure_channel(endpoint, OPTIONS)
        )
        try:
            status = rpc.MaintenanceStub(channel).Status(
                rpc.StatusRequest(), timeout=min(self._patience, LONGEST)
            )
            self._see_that_it_is_the_same(status.header.cluster_id)
            if not status.leader:
                raise StoreAway(f"the member {endpoint} of the store has no leader")
        except grpc.RpcError as fault:
            channel.close()
            self.move_on()
            raise StoreAway(_sentence(fault, endpoint)) from None
        except StoreAway:
            channel.close()
            self.move_on()
            raise
        return channel

    def _see_that_it_is_the_same(self, cluster: int) -> None:
        before, self._cluster = self._cluster, cluster
        if before and before != cluster:
            raise StoreChanged("another cluster of etcd answers than before")

    def move_on(self, longest: float = LONGEST) -> None:
        """Throws the channel away; the next call goes to the next member, and waits longer."""
        self.close()
        self._at = (self._at + 1) % len(self.endpoints)
        self._patience = max(self._patience, min(longest, self._patience * 1.5))

    def close(self) -> None:
        if self._channel is not None:
            self._channel.close()
            self._channel = None


def meaning_of(fault: Any, endpoint: str) -> StoreError | OutcomeUnknown:
    """What a failed call means: it was not done for a cause, or it is not known."""
    text = (fault.details() or "").lower()
    for words, kind in NOT_DONE.items():
        if words in text:
            return kind(_sentence(fault, endpoint))
    return OutcomeUnknown(f"the answer of the store is lost: {_sentence(fault, endpoint)}")


def _sentence(fault: Any, endpoint: str) -> str:
    if fault.code() == grpc.StatusCode.DEADLINE_EXCEEDED:
        return f"the member {endpoint} of the store does not answer in time"
    details = " ".join((fault.details() or fault.code().name.lower()).split())
    return f"the member {endpoint} of the store says: {details.removeprefix('etcdserver: ')[:200]}"


def _credentials(tls: Tls) -> Any:
    """The three files as gRPC takes them; InputError where they are none, as gRPC does not say."""
    try:
        ca, key, cert = (path.read_bytes() for path in (tls.ca, tls.key, tls.cert))
    except OSError as fault:
        raise InputError(f"{fault.filename} cannot be read: {fault.strerror}") from None
    context = ssl.SSLContext(ssl.PROTOCOL_TLS_CLIENT)
    try:
        context.load_verify_locations(cadata=ca.decode("ascii", "replace"))
    except ssl.SSLError:
        raise InputError(f"{tls.ca} has no certificate of an authority") from None
    try:
        context.load_cert_chain(tls.cert, tls.key, password="")
    except ssl.SSLError:
        raise InputError(f"{tls.cert} and {tls.key} are no certificate and its key") from None
    return grpc.ssl_channel_credentials(ca, key, cert)
