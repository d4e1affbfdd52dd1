"""What each group may have at each share, as points joined by lines, for comparing a table with
what linear programs find.

No limit comes of it: amounts here have fractions, where the program rounds each value down ("Node
rule", docs/DEFINITIONS.md).
"""

from __future__ import annotations

from collections.abc import Iterable, Mapping
from dataclasses import dataclass

import numpy
from numpy.typing import NDArray

from bwe_tools.document import Document, Function, Group, Job, User

Floats = NDArray[numpy.float64]


@dataclass(frozen=True)
class Curve:
    """Shares that rise, from 0, and the amount in kb/s at each; behind the last it stays."""

    shares: Floats
    values: Floats

    @property
    def most(self) -> float:
        return float(self.values[-1])

    @property
    def is_line(self) -> bool:
        """Whether it is one line through 0, up to its greatest amount."""
        return len(self.shares) <= 2

    def at(self, share: float) -> float:
        return float(numpy.interp(share, self.shares, self.values))

    def slope_after(self, share: float) -> float:
        """Its slope in kb/s a share on the piece that begins at a share or holds it."""
        at = int(numpy.searchsorted(self.shares, share, side="right"))
        if at == len(self.shares):
            return 0.0
        rise = self.values[at] - self.values[at - 1]
        return float(rise / (self.shares[at] - self.shares[at - 1]))

    def bends_between(self, share: float, other: float) -> bool:
        """Whether a point of it lies between two shares."""
        return bool(numpy.any((self.shares > share) & (self.shares < other)))

    def next_rise(self, share: float) -> float:
        """The next share above `share` from which it is steeper than before; infinite if none."""
        slopes = numpy.append(numpy.diff(self.values) / numpy.diff(self.shares), 0.0)
        steeper = self.shares[1:][slopes[1:] > slopes[:-1] * (1 + 1e-9)]
        after = steeper[steeper > share]
        return float(after[0]) if len(after) else float("inf")

    def scaled(self, factor: float) -> Curve:
        return Curve(self.shares, self.values * factor)

    def capped(self, most: float) -> Curve:
        """The lesser of it and an amount."""
        if self.most <= most:
            return self
        at = int(numpy.searchsorted(self.values, most, side="right"))
        rise = self.values[at] - self.values[at - 1]
        step = (self.shares[at] - self.shares[at - 1]) * (most - self.values[at - 1]) / rise
        shares = numpy.append(self.shares[:at], self.shares[at - 1] + step)
        return simplified(shares, numpy.append(self.values[:at], most))


def simplified(shares: Floats, values: Floats) -> Curve:
    """The curve of some points without those that lie on the line between their neighbours."""
    shares, first = numpy.unique(shares, return_index=True)
    values = values[first]
    slopes = numpy.append(numpy.diff(values) / numpy.diff(shares), 0.0)
    steps = numpy.abs(numpy.diff(slopes))
    keep = numpy.append(True, steps > 1e-9 * numpy.maximum(numpy.abs(slopes[1:]), slopes[:-1]))
    return Curve(shares[keep], values[keep])


def curve_of(function: Function) -> Curve:
    points = numpy.array(function, dtype=float)
    return simplified(points[:, 0], points[:, 1])


def together(curves: Iterable[Curve]) -> Curve:
    """The sum of curves."""
    listed = list(curves)
    shares = numpy.unique(numpy.concatenate([curve.shares for curve in listed]))
    values = sum(numpy.interp(shares, curve.shares, curve.values) for curve in listed)
    return simplified(shares, numpy.asarray(values))


def _under(function: Function | None, below: Curve) -> Curve:
    """A node's curve: its function, where it has one, up to what its children may have at most."""
    return below if function is None else curve_of(function).capped(below.most)


def _of_job(job: Job, demands: Mapping[str, int]) -> Curve:
    task = curve_of(job.task_function)
    tasks = (task.scaled(one.weight).capped(demands[one.name]) for one in job.tasks)
    return _under(job.function, together(tasks))


def _of_user(user: User, demands: Mapping[str, int]) -> Curve:
    return _under(user.function, together(_of_job(job, demands) for job in user.jobs))


def group_curve(group: Group, demands: Mapping[str, int]) -> Curve:
    """What a group may have at each share under demands in kb/s by task."""
    below = together(_of_user(user, demands) for user in group.users)
    return _under(group.function, below)


def curves_of(document: Document, demands: Mapping[str, int]) -> list[Curve]:
    """The curve of each group, in the document's order."""
    return [group_curve(group, demands) for group in document.groups]
