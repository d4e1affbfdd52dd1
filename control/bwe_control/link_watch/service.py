"""Puts a watcher together out of its configuration, and runs it."""

from __future__ import annotations

import signal
import threading
from collections.abc import Callable
from types import FrameType

from bwe_control.agent.exchange import StoreExchange
from bwe_control.keys import Keys
from bwe_control.link_watch.config import WatchConfig
from bwe_control.link_watch.watch import Watcher
from bwe_control.store.interface import Store


def run_watcher(config: WatchConfig, opens: Callable[[], Store], keys: Keys) -> None:
    """Runs a watcher until SIGTERM or SIGINT."""
    exchange = StoreExchange(opens, keys, config.reporter, lambda: None)
    watcher = Watcher(config, exchange)

    def ends(number: int, frame: FrameType | None) -> None:
        watcher.stop()

    if threading.current_thread() is threading.main_thread():
        signal.signal(signal.SIGTERM, ends)
        signal.signal(signal.SIGINT, ends)
    exchange.start()
    try:
        watcher.run()
    finally:
        exchange.stop()
