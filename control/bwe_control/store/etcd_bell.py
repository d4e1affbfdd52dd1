"""The bell of an etcd store: a watch in a thread of its own, which moves on where a member fails."""

from __future__ import annotations

import logging
import threading
from collections.abc import Iterator, Sequence
from types import TracebackType
from typing import Any

from bwe_control.errors import StoreError
from bwe_control.store.etcd_wire import NEEDS_LEADER, Wire, grpc, rpc
from bwe_control.store.interface import Select

log = logging.getLogger(__name__)

PAUSE = 0.3  # seconds before a watch that failed is begun anew


class EtcdBell:
    """Rings at each event of the watch, and whenever the watch begins anew."""

    def __init__(self, wire: Wire, selects: Sequence[Select]) -> None:
        self._wire, self._selects = wire, selects
        self._rung, self._closed = threading.Event(), threading.Event()
        self._call: Any = None
        self._rung.set()
        self._thread = threading.Thread(target=self._run, name="bell", daemon=True)
        self._thread.start()

    def wait(self, seconds: float) -> bool:
        rung = self._rung.wait(seconds)
        self._rung.clear()
        return rung

    def _run(self) -> None:
        while not self._closed.is_set():
            try:
                self._listen()
            except (grpc.RpcError, StoreError) as fault:
                log.debug("the bell moves on: %s", fault)
            self._wire.move_on()
            self._rung.set()
            self._closed.wait(PAUSE)

    def _listen(self) -> None:
        """Rings as long as the watch goes on."""
        has_ended = threading.Event()
        call = rpc.WatchStub(self._wire.channel()).Watch(
            self._requests(has_ended), metadata=NEEDS_LEADER
        )
        self._call = call
        try:
            for answer in call:
                self._rung.set()
                if answer.canceled or self._closed.is_set():
                    return
        finally:
            has_ended.set()
            call.cancel()

    def _requests(self, has_ended: threading.Event) -> Iterator[Any]:
        """What the watch is asked for; the stream stays open until it has ended."""
        from bwe_control.store.etcd import key_bytes, range_end

        for one in self._selects:
            create = rpc.WatchCreateRequest(key=key_bytes(one.key), range_end=range_end(one))
            yield rpc.WatchRequest(create_request=create)
        has_ended.wait()

    def close(self) -> None:
        self._closed.set()
        if self._call is not None:
            self._call.cancel()
        self._thread.join(timeout=2)
        self._wire.close()

    def __enter__(self) -> EtcdBell:
        return self

    def __exit__(
        self,
        kind: type[BaseException] | None,
        fault: BaseException | None,
        trace: TracebackType | None,
    ) -> None:
        self.close()
