"""The agent's configuration: a TOML file, read whole, each fault named with its place."""

from __future__ import annotations

import ipaddress
import pwd
import re
import tomllib
from dataclasses import dataclass, field
from enum import Enum
from pathlib import Path
from typing import Any

from bwe_control.agent.faults import ConfigError

MOST_RATE = 1_000_000_000_000
MOST_TASKS = 20_000
PLAIN_NAME = re.compile(r"[A-Za-z0-9._-]{1,64}")
DEVICE_NAME = re.compile(r"[^\s/:]{1,15}")
CGROUP_PATH = re.compile(r"[^\s\"\\]{1,255}")

Prefix = ipaddress.IPv4Network | ipaddress.IPv6Network


class Mode(Enum):
    """Whether limits are put in force, or only demands measured."""

    OBSERVE = "observe"
    ENFORCE = "enforce"


class Selector(Enum):
    """What a match may ask for beside a destination, in the order in which matches are tried."""

    CGROUP = "cgroup"
    USER = "user"
    PORT = "port"
    MARK = "mark"
    NOTHING = "to"


@dataclass(frozen=True)
class Match:
    """Which packets are a task's: those to one of the prefixes with this selector's value.

    A cgroup is a path below the mount of cgroup2, a user a number, a port `tcp` or `udp` and a
    number, a mark a number, NOTHING the empty text.
    """

    prefixes: tuple[Prefix, ...]
    selector: Selector
    value: str


@dataclass(frozen=True)
class Task:
    """A task of this host; `marks` has the firewall mark of each of its path groups, if any."""

    name: str
    match: Match
    marks: tuple[int, ...] = ()


@dataclass(frozen=True)
class Config:
    """All of a configuration. Rates are kilobits per second, `every` is in seconds."""

    path: Path
    device: str
    reporter: str
    mode: Mode
    tasks: tuple[Task, ...]
    state: Path
    store: str | None = None
    network: str | None = None
    every: float = 1.0
    window: int = 4
    headroom: int = 115
    least: int = 64
    initial: int = 1000
    metrics: int | None = None
    take_root: bool = False
    gso_max_segs: int | None = None
    numbers: dict[str, int] = field(default_factory=dict, compare=False)

    def __post_init__(self) -> None:
        self.numbers.update((task.name, number) for number, task in enumerate(self.tasks))


class Table:
    """A table of TOML and where it stands, so that a fault can name its place."""

    def __init__(self, file: Path, place: str, values: dict[str, Any]) -> None:
        self._file, self._place, self._left = file, place, dict(values)

    def fault(self, key: str, sentence: str) -> ConfigError:
        place = f"{self._place}.{key}" if self._place else key
        return ConfigError(f"{self._file}: {place}: {sentence}")

    def take(self, key: str, kind: type, what: str, default: Any = ...) -> Any:
        """The value of a key, which has to be of this type and is `default` where it is absent."""
        if key not in self._left:
            if default is ...:
                raise self.fault(key, f"this key is missing; it is {what}")
            return default
        value = self._left.pop(key)
        if kind is float and type(value) is int:
            value = float(value)
        if type(value) is not kind:
            raise self.fault(key, f"has to be {what}, and is {value!r}")
        return value

    def number(self, key: str, low: int, high: int, default: Any = ...) -> Any:
        """A whole number of the range."""
        what = f"a whole number from {low} to {high}"
        value = self.take(key, int, what, default)
        if value is not None and not low <= value <= high:
            raise self.fault(key, f"has to be {what}, and is {value}")
        return value

    def text(self, key: str, form: re.Pattern[str], what: str, default: Any = ...) -> Any:
        """A text of the form."""
        value = self.take(key, str, what, default)
        if value is not None and not form.fullmatch(value):
            raise self.fault(key, f"has to be {what}, and is {value!r}")
        return value

    def end(self) -> None:
        """A ConfigError where a key is left that nobody took."""
        for key in self._left:
            raise self.fault(key, "there is no such key")


def read_config(path: Path) -> Config:
    """The configuration in a file, or a ConfigError for its first fault."""
    try:
        values = tomllib.loads(path.read_text(encoding="utf-8"))
    except OSError as error:
        raise ConfigError(f"{path}: {error.strerror}") from error
    except UnicodeDecodeError as error:
        raise ConfigError(f"{path}: byte {error.start} is no UTF-8") from error
    except tomllib.TOMLDecodeError as error:
        raise ConfigError(f"{path}: no TOML: {error}") from error
    table = Table(path, "", values)
    tasks = read_tasks(path, table.take("task", dict, "a table with a table for each task"))
    config = read_settings(path, table, tasks)
    table.end()
    return config


def read_settings(path: Path, table: Table, tasks: tuple[Task, ...]) -> Config:
    """All keys beside the tasks."""
    device = table.text("device", DEVICE_NAME, "the name of a network device")
    modes = re.compile("|".join(mode.value for mode in Mode))
    every = table.take("every", float, "a number of seconds", 1.0)
    if not 0.1 <= every <= 60:
        raise table.fault("every", f"has to be from 0.1 to 60 seconds, and is {every}")
    least = table.number("least", 8, MOST_RATE, 64)
    initial = table.number("initial", 8, MOST_RATE, max(least, 1000))
    if initial < least:
        raise table.fault("initial", f"{initial} is below the floor, least = {least}")
    state = table.take("state", str, "a file's path", f"/var/lib/bwe-agent/{device}.json")
    return Config(
        path=path,
        device=device,
        reporter=table.text("reporter", PLAIN_NAME, "the name of a reporter"),
        mode=Mode(table.text("mode", modes, '"observe" or "enforce"')),
        tasks=tasks,
        state=path.parent / state,
        store=table.take("store", str, "a store, as sqlite:FOLDER", None),
        network=table.text("network", PLAIN_NAME, "the name of a network", None),
        every=every,
        window=table.number("window", 1, 1000, 4),
        headroom=table.number("headroom", 100, 1000, 115),
        least=least,
        initial=initial,
        metrics=table.number("metrics", 1, 65535, None),
        take_root=table.take("take_root", bool, "true or false", False),
        gso_max_segs=table.number("gso_max_segs", 1, 65535, None),
    )


def read_tasks(path: Path, values: dict[str, Any]) -> tuple[Task, ...]:
    """The tasks in the file's order; two with the same match are a fault."""
    tasks = []
    taken: dict[tuple[Prefix, Selector, str], str] = {}
    for name, keys in values.items():
        place = f"task.{name}"
        if not PLAIN_NAME.fullmatch(name):
            raise ConfigError(
                f"{path}: {place}: a task's name is 1 to 64 of letters, digits, '-', '_' and '.'"
            )
        if type(keys) is not dict:
            raise ConfigError(f"{path}: {place}: has to be a table, [task.{name}]")
        table = Table(path, place, keys)
        task = read_task(name, table)
        table.end()
        for prefix in task.match.prefixes:
            key = (prefix, task.match.selector, task.match.value)
            if key in taken:
                raise table.fault("to", f"{prefix} is matched by task {taken[key]} alike")
            taken[key] = name
        tasks.append(task)
    if not 1 <= len(tasks) <= MOST_TASKS:
        raise ConfigError(f"{path}: task: {len(tasks)} tasks; there are 1 to {MOST_TASKS}")
    return tuple(tasks)


def read_task(name: str, table: Table) -> Task:
    """A task of its table."""
    prefixes = []
    for number, text in enumerate(table.take("to", list, "a list of prefixes")):
        try:
            prefixes.append(ipaddress.ip_network(text if isinstance(text, str) else repr(text)))
        except ValueError as error:
            raise table.fault(f"to[{number}]", f"no prefix: {error}") from error
    if not prefixes:
        raise table.fault("to", "a task needs a prefix of its destination")
    selector, value = read_selector(table)
    marks = tuple(
        read_mark(table, f"paths[{number}]", mark)
        for number, mark in enumerate(table.take("paths", list, "a list of marks", []))
    )
    return Task(name, Match(tuple(prefixes), selector, value), marks)


def read_selector(table: Table) -> tuple[Selector, str]:
    """What the match asks for beside the destination: at most one thing."""
    found: list[tuple[Selector, str]] = []
    cgroup = table.text("cgroup", CGROUP_PATH, "a path below the mount of cgroup2", None)
    if cgroup is not None:
        found.append((Selector.CGROUP, cgroup.strip("/")))
    user = table.take("user", str, "a user's name or its number as a text", None)
    if user is not None:
        found.append((Selector.USER, str(user_number(table, user))))
    port = table.text("port", re.compile("(tcp|udp) [0-9]{1,5}"), 'as "tcp 443"', None)
    if port is not None:
        protocol, number = port.split()
        if not 1 <= int(number) <= 65535:
            raise table.fault("port", f"{number} is no port")
        found.append((Selector.PORT, f"{protocol} {int(number)}"))
    mark = table.take("mark", int, "a firewall mark", None)
    if mark is not None:
        found.append((Selector.MARK, str(read_mark(table, "mark", mark))))
    if len(found) > 1:
        names = " and ".join(selector.value for selector, _ in found)
        raise table.fault(found[1][0].value, f"one match has {names}; it may have one of them")
    return found[0] if found else (Selector.NOTHING, "")


def read_mark(table: Table, key: str, mark: Any) -> int:
    """A firewall mark of 32 bits, but 0, which no packet is given."""
    if type(mark) is not int or not 1 <= mark <= 0xFFFFFFFF:
        raise table.fault(key, f"a mark is a whole number from 1 to 0xffffffff, not {mark!r}")
    return mark


def user_number(table: Table, user: str) -> int:
    """The number of a user."""
    if user.isascii() and user.isdigit():
        return int(user)
    try:
        return pwd.getpwnam(user).pw_uid
    except KeyError as error:
        raise table.fault("user", f"this host has no user {user!r}") from error
