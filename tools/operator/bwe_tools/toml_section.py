"""A table of a TOML file, read key by key: what is of another kind, missing or unknown is told with
its place.
"""

from __future__ import annotations

from collections.abc import Iterator
from typing import Any

from bwe_tools import hints, units
from bwe_tools.document import ToolError

MISSING: Any = object()


class Section:
    """One table. `where` is its place in the file, as `links[2]`; empty at the root."""

    def __init__(self, where: str, table: object) -> None:
        if not isinstance(table, dict):
            raise ToolError(f"{where} has to be a table")
        self.where, self.table = where, table
        self.asked: list[str] = []

    def place(self, key: str) -> str:
        return f"{self.where}.{key}" if self.where else key

    def fault(self, key: str, sentence: str) -> ToolError:
        return ToolError(f"{self.place(key)}: {sentence}")

    def has(self, key: str) -> bool:
        self.asked.append(key)
        return key in self.table

    def value(self, key: str, default: Any = MISSING) -> Any:
        if self.has(key):
            return self.table[key]
        if default is MISSING:
            where = self.where or "the file"
            raise ToolError(f'{where}: the key "{key}" is missing')
        return default

    def text(self, key: str, default: Any = MISSING) -> Any:
        found = self.value(key, default)
        if found is not default and not isinstance(found, str):
            raise self.fault(key, f"{found!r} is no text")
        return found

    def name(self, key: str, default: Any = MISSING) -> Any:
        found = self.text(key, default)
        if found is not default and not hints.NAME.match(found):
            raise self.fault(
                key,
                f'"{found}" is no name: those are 1 to 64 of letters, digits, - _ and .; did you'
                f' mean "{hints.plain_name(found)}"?',
            )
        return found

    def whole(self, key: str, least: int, most: int, default: Any = MISSING) -> Any:
        found = self.value(key, default)
        if found is default:
            return found
        if type(found) is not int or not least <= found <= most:
            raise self.fault(key, f"{found!r} is no whole number from {least} to {most:,}")
        return found

    def rate(self, key: str, default: Any = MISSING) -> Any:
        """The kb/s of a text with a unit, or of a whole number of kb/s."""
        found = self.value(key, default)
        return found if found is default else rate_of(found, self.place(key))

    def function(self, key: str, default: Any = MISSING) -> Any:
        """Points of share and rate."""
        found = self.value(key, default)
        if found is default:
            return found
        where = self.place(key)
        if not isinstance(found, list):
            raise ToolError(f'{where}: a function is a list of points, as [[0, 0], [100, "10G"]]')
        return [point_of(point, f"{where}[{at}]") for at, point in enumerate(found)]

    def sections(self, key: str) -> Iterator[Section]:
        """The tables of a list; none where the key is missing."""
        found = self.value(key, [])
        if not isinstance(found, list):
            raise self.fault(key, f"this is a list of tables: write [[{self.place(key)}]]")
        return (Section(f"{self.place(key)}[{at}]", entry) for at, entry in enumerate(found))

    def section(self, key: str) -> Section:
        """The table of a key; an empty one where the key is missing."""
        return Section(self.place(key), self.value(key, {}))

    def end(self) -> None:
        """All keys were asked for: another one is a fault."""
        for key in self.table:
            if key not in self.asked:
                meant = hints.near(key, self.asked)
                hint = f'; did you mean "{meant}"?' if meant else ""
                raise self.fault(key, f"there is no such key here{hint}")


def rate_of(value: object, where: str) -> int:
    amount = None
    if isinstance(value, str):
        amount = units.kilobits(value)
    elif type(value) is int and value >= 0:
        amount = value
    if amount is None:
        raise ToolError(f'{where}: {value!r} is no rate; write one as "10G", "400M" or 2500000')
    if amount > units.MOST:
        raise ToolError(f"{where}: {value!r} is above {units.MOST:,} kb/s, the most of a document")
    return amount


def point_of(point: object, where: str) -> list[int]:
    if not isinstance(point, list) or len(point) != 2 or type(point[0]) is not int:
        raise ToolError(f'{where}: a point is a share and a rate, as [100, "10G"]')
    return [point[0], rate_of(point[1], f"{where}[1]")]
