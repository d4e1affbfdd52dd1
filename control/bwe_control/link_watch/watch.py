"""Looks each link up, and reports what has changed."""

from __future__ import annotations

import logging
import math
import threading
import time
from pathlib import Path

from bwe_control.agent.config import MOST_RATE
from bwe_control.agent.device import device_index, device_speed, is_running
from bwe_control.agent.exchange import Exchange, Report
from bwe_control.agent.faults import KernelError
from bwe_control.agent.netlink import Netlink
from bwe_control.errors import ControlError
from bwe_control.link_watch.config import DeviceSource, FileSource, WatchConfig

log = logging.getLogger(__name__)


class Unknown(ControlError):
    """The capacity of a link cannot be told now; what was reported last stays."""


def speed_of_device(source: DeviceSource, netlink: Netlink) -> int:
    """The speed of a device in kilobits per second; 0 where it is down, or not there."""
    try:
        if not is_running(netlink, device_index(source.device)):
            return 0
    except KernelError:
        return 0
    speed = source.speed or device_speed(source.device)
    if speed is None:
        raise Unknown(f"the driver of {source.device} does not say its speed: set `speed`")
    return speed


def speed_of_file(source: FileSource, stale: float) -> int:
    """The value of the series in kilobits per second."""
    try:
        age = time.time() - source.file.stat().st_mtime
        lines = source.file.read_text(encoding="utf-8").splitlines()
    except (OSError, UnicodeDecodeError) as error:
        raise Unknown(f"{source.file} cannot be read: {error}") from error
    if age > stale:
        raise Unknown(f"{source.file} was written {age:.0f} seconds ago")
    for line in lines:
        if line.startswith(source.series) and line[len(source.series) :].startswith(" "):
            return rate_of(source, line[len(source.series) :].split()[0])
    raise Unknown(f"{source.file} has no series {source.series}")


def rate_of(source: FileSource, text: str) -> int:
    """A value of the file in kilobits per second, rounded down."""
    try:
        value = float(text) * source.factor
    except ValueError as error:
        raise Unknown(f"{source.file}: {source.series}: {text!r} is no number") from error
    if not math.isfinite(value) or value < 0:
        raise Unknown(f"{source.file}: {source.series}: {text} is no speed")
    return min(int(value), MOST_RATE)


def drained_links(path: Path | None) -> set[str]:
    """The links that the file of drains names, a line each; `#` begins a comment."""
    if path is None:
        return set()
    try:
        lines = path.read_text(encoding="utf-8").splitlines()
    except FileNotFoundError:
        return set()
    except (OSError, UnicodeDecodeError) as error:
        raise Unknown(f"{path} cannot be read: {error}") from error
    return set(filter(None, (line.partition("#")[0].strip() for line in lines)))


class Watcher:
    """The links of one configuration."""

    def __init__(self, config: WatchConfig, exchange: Exchange) -> None:
        self._config, self._exchange = config, exchange
        self._netlink = Netlink()
        self._capacities: dict[str, int] = {}
        self._reported: dict[str, int] | None = None
        self._said: dict[str, str] = {}
        self._drained: set[str] = set()
        self._stopped = threading.Event()

    def stop(self) -> None:
        """Ends the loop; what is reported stays."""
        self._stopped.set()

    def run(self) -> None:
        """Looks each period until `stop`."""
        while not self._stopped.is_set():
            self.look()
            self._stopped.wait(self._config.every)

    def look(self) -> None:
        """Looks all links up, and reports where one has changed.

        Nothing is reported before it is known what the store has: a link that cannot be looked up
        keeps the capacity that was reported of it before the watcher started.
        """
        before = self._exchange.reported()
        if before is None:
            return
        if self._reported is None:
            known = before.capacities
            self._capacities = {name: known[name] for name in self._config.links if name in known}
            self._reported = known
        for name in self._config.links:
            self._look_at(name)
        drained = self._drains()
        report = {name: 0 if name in drained else now for name, now in self._capacities.items()}
        if report != self._reported:
            for name in report:
                if report[name] != self._reported.get(name):
                    log.info("link %s has %d kb/s", name, report[name])
            self._reported = report
            self._exchange.report(Report(capacities=report))

    def _look_at(self, name: str) -> None:
        source = self._config.links[name]
        try:
            if isinstance(source, DeviceSource):
                speed = speed_of_device(source, self._netlink)
            else:
                speed = speed_of_file(source, self._config.stale)
        except Unknown as error:
            self._say(f"link {name}", f"{error}; what was reported last stays")
            return
        self._said.pop(f"link {name}", None)
        self._capacities[name] = speed * self._config.part // 100

    def _drains(self) -> set[str]:
        try:
            self._drained = drained_links(self._config.drains)
            self._said.pop("drains", None)
        except Unknown as error:
            self._say("drains", str(error))
        for name in self._drained - self._config.links.keys():
            self._say(f"drain of {name}", "this configuration watches no such link")
        return self._drained

    def _say(self, what: str, sentence: str) -> None:
        """A warning, once as long as it stays the same."""
        if self._said.get(what) != sentence:
            self._said[what] = sentence
            log.warning("%s: %s", what, sentence)
