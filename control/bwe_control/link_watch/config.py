"""The watcher's configuration, and where the capacity of each link is looked up."""

from __future__ import annotations

import re
import tomllib
from dataclasses import dataclass
from pathlib import Path
from typing import Any

from bwe_control.agent.config import DEVICE_NAME, MOST_RATE, PLAIN_NAME, Table
from bwe_control.agent.faults import ConfigError

UNITS = {"bit/s": 0.001, "kbit/s": 1.0, "Mbit/s": 1000.0, "Gbit/s": 1e6, "byte/s": 0.008}
SERIES = re.compile(r"[^\s#][^\n]{0,255}")


@dataclass(frozen=True)
class DeviceSource:
    """A device of this host; `speed` in kilobits per second where its driver does not say it."""

    device: str
    speed: int | None


@dataclass(frozen=True)
class FileSource:
    """A series of a file in Prometheus' text format, and how many kilobits its unit is."""

    file: Path
    series: str
    factor: float


@dataclass(frozen=True)
class WatchConfig:
    """All of a configuration; `part` is how many hundredths of a link's speed are reported."""

    path: Path
    reporter: str
    links: dict[str, DeviceSource | FileSource]
    every: float = 1.0
    part: int = 97
    stale: float = 300.0
    drains: Path | None = None
    store: str | None = None
    network: str | None = None


def read_watch_config(path: Path) -> WatchConfig:
    """The configuration in a file, or a ConfigError for its first fault."""
    try:
        values = tomllib.loads(path.read_text(encoding="utf-8"))
    except OSError as error:
        raise ConfigError(f"{path}: {error.strerror}") from error
    except ValueError as error:
        raise ConfigError(f"{path}: no TOML: {error}") from error
    table = Table(path, "", values)
    links = read_links(path, table.take("link", dict, "a table with a table for each link"))
    every = table.take("every", float, "a number of seconds", 1.0)
    if not 0.1 <= every <= 3600:
        raise table.fault("every", f"has to be from 0.1 to 3600 seconds, and is {every}")
    drains = table.take("drains", str, "a file's path", None)
    config = WatchConfig(
        path=path,
        reporter=table.text("reporter", PLAIN_NAME, "the name of a reporter"),
        links=links,
        every=every,
        part=table.number("part", 1, 100, 97),
        stale=table.take("stale", float, "a number of seconds", 300.0),
        drains=None if drains is None else path.parent / drains,
        store=table.take("store", str, "a store, as sqlite:FOLDER", None),
        network=table.text("network", PLAIN_NAME, "the name of a network", None),
    )
    table.end()
    return config


def read_links(path: Path, values: dict[str, Any]) -> dict[str, DeviceSource | FileSource]:
    """The links in the file's order."""
    links: dict[str, DeviceSource | FileSource] = {}
    for name, keys in values.items():
        place = f"link.{name}"
        if not PLAIN_NAME.fullmatch(name) or type(keys) is not dict:
            raise ConfigError(f"{path}: {place}: has to be a table of a link's name")
        table = Table(path, place, keys)
        links[name] = read_source(path, table)
        table.end()
    if not links:
        raise ConfigError(f"{path}: link: there is no link to watch")
    return links


def read_source(path: Path, table: Table) -> DeviceSource | FileSource:
    """Where a link's capacity is looked up: its `device`, or else a `series` of a `file`."""
    device = table.text("device", DEVICE_NAME, "the name of a network device", None)
    if device is not None:
        return DeviceSource(device, table.number("speed", 1, MOST_RATE, None))
    file = table.take("file", str, "a file's path, or else `device` a device")
    series = table.text("series", SERIES, "a series of the file, as ifSpeed{link=..}")
    unit = table.take("unit", str, f"one of {', '.join(UNITS)}", "bit/s")
    if unit not in UNITS:
        raise table.fault("unit", f"has to be one of {', '.join(UNITS)}, and is {unit!r}")
    return FileSource(path.parent / file, series, UNITS[unit])
