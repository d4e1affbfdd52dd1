"""What the converters read a file into, before it is a document: sites, links and demands under the
file's own names.
"""

from __future__ import annotations

import math
from dataclasses import dataclass, field

from bwe_tools import hints, units
from bwe_tools.document import ToolError

MOST_NAME = 64
Spot = tuple[float, float]  # longitude and latitude in degrees


@dataclass(frozen=True)
class Line:
    """A link of the file. Its ends are keys of sites; its capacity is in kb/s, None where the file
    has none.
    """

    source: str
    target: str
    capacity: int | None = None
    name: str | None = None
    length: float | None = None


@dataclass(frozen=True)
class Demand:
    """What one task wants from site to site, in kb/s; users, jobs and tasks have the file's names
    where it gives some.
    """

    source: str
    target: str
    amount: int
    user: str = "all"
    job: str = "all"
    task: str | None = None
    weight: int = 1


@dataclass
class Network:
    """Sites by key with what people call them. Where `is_directed`, a line goes one way, and its
    reverse may be a line too.
    """

    sites: dict[str, str] = field(default_factory=dict)
    lines: list[Line] = field(default_factory=list)
    demands: list[Demand] = field(default_factory=list)
    # Longitude and latitude by key, where the file has them.
    places: dict[str, Spot] = field(default_factory=dict)
    is_directed: bool = True

    def site(self, text: str, where: str) -> str:
        """The key of the site that a text means: its key, or what people call it."""
        if text in self.sites:
            return text
        keys = [key for key, label in self.sites.items() if label == text]
        if len(keys) == 1:
            return keys[0]
        if keys:
            raise ToolError(
                f"{where}: {len(keys)} sites are called \"{text}\"; name one by its key, as"
                f" {keys[0]}"
            )
        meant = hints.near(text, [*self.sites, *self.sites.values()])
        hint = f"; did you mean \"{meant}\"?" if meant else ""
        raise ToolError(f"{where}: there is no site \"{text}\" in the network{hint}")

    def length(self, line: Line) -> float | None:
        """The length of a line in the file's own unit, else in kilometres over the ground where
        both ends have a place.
        """
        if line.length is not None:
            return line.length
        if line.source in self.places and line.target in self.places:
            return kilometres(self.places[line.source], self.places[line.target])
        return None


def kilometres(place: Spot, other: Spot) -> float:
    """The great circle between two places of longitude and latitude in degrees, on a sphere of
    radius 6,371 km.
    """
    (east0, north0), (east1, north1) = (map(math.radians, degrees) for degrees in (place, other))
    half = (
        math.sin((north1 - north0) / 2) ** 2
        + math.cos(north0) * math.cos(north1) * math.sin((east1 - east0) / 2) ** 2
    )
    return 2 * 6371 * math.asin(math.sqrt(min(1, half)))


class Namer:
    """Gives texts names of the format, one to one, and keeps the map of names to texts."""

    def __init__(self) -> None:
        self.texts: dict[str, str] = {}
        self.numbers: dict[str, int] = {}

    def name(self, text: str, original: str | None = None) -> str:
        """A name that no other text has: the text itself where it is free and a name."""
        plain = text if hints.NAME.match(text) else hints.plain_name(text)
        name, number = plain, self.numbers.get(plain, 1)
        while name in self.texts:
            number += 1
            name = plain[: MOST_NAME - 1 - len(str(number))] + f"-{number}"
        self.numbers[plain] = number
        self.texts[name] = original if original is not None else text
        return name


def rate(text: str, where: str, plain: str = "k") -> int:
    """The kb/s of a text with a unit, where a number without one is of the prefix `plain`."""
    amount = units.kilobits(text, plain)
    if amount is None:
        raise ToolError(f"{where}: \"{text}\" is no rate; write one as 10G, 400M or 2500000")
    if amount > units.MOST:
        raise ToolError(f"{where}: \"{text}\" is above {units.MOST:,} kb/s, the most of a document")
    return amount
