"""One case measured by every method, each beside the optimum over the case's paths."""

from __future__ import annotations

import resource
import time
from collections.abc import Callable
from dataclasses import asdict, dataclass, replace
from functools import lru_cache
from hashlib import sha256
from typing import TypeVar

import numpy

from bwe_tools.comparison import Optimum, amounts_of, optimum_of
from bwe_tools.curves import Floats, curves_of
from bwe_tools.document import Document, Path, dump, to_raw
from bwe_tools.optimum import max_min
from bwe_tools.path_network import path_network
from bwe_tools.program import solve
from bwe_tools.splits import split_of_one, with_splits
from bwe_tools.table import Table
from study.cases import FIT_PATHS, Case, Traffic
from study.methods import adaptive_waterfilling, fits, swan

LEAST = 0.01  # of a group: a path with less is dropped from its split
T = TypeVar("T")


@dataclass(frozen=True)
class Row:
    """A method on a case. `seconds` are of one processor."""

    case: str
    network: str
    kind: str
    load: float
    paths: int
    groups: int
    method: str
    of_most: float
    of_fair: float
    fairness: float
    jain: float
    seconds: float


def timed(what: Callable[[], T]) -> tuple[T, float]:
    """What a call gives, and the processor's seconds that it and its children took."""

    def spent() -> float:
        children = resource.getrusage(resource.RUSAGE_CHILDREN)
        return time.process_time() + children.ru_utime + children.ru_stime

    start = spent()
    given = what()
    return given, spent() - start


def text_of(document: Document) -> bytes:
    return dump(to_raw(document)).encode()


def digest(text: bytes) -> str:
    return sha256(text).hexdigest()[:16]


@lru_cache(maxsize=None)
def fits_of(traffic: Traffic) -> float:
    """The factor at which the demands of a traffic have load 1; once they have drifted, that of
    before.
    """
    traffic = replace(traffic, has_drifted=False)
    shape = traffic.shape()
    first = 1e9 / max(shape.values())
    document = Case(traffic, 1.0, FIT_PATHS).document(first)
    asks = numpy.array([curve.most for curve in curves_of(document, document.demands())])
    return fits(path_network(document), asks) * first


class Measured:
    """A case with its document and optimum, and what each method gives."""

    def __init__(self, case: Case, factor: float | None = None) -> None:
        self.case = case
        self.document = case.document(fits_of(case.traffic) if factor is None else factor)
        self.optimum, self.seconds = timed(lambda: optimum_of(self.document))
        self.ratios: dict[str, list[float]] = {}

    def row(self, method: str, amounts: Floats, seconds: float) -> Row:
        case, found = self.case, self.optimum.measures(amounts)
        fair = self.optimum.fair.amounts
        self.ratios[method] = [float(one) for one in amounts[fair > 0] / fair[fair > 0]]
        return Row(
            case=case.name,
            network=case.traffic.network,
            kind=case.traffic.kind,
            load=case.load,
            paths=case.paths,
            groups=len(self.document.groups),
            method=method,
            of_most=round(found.of_most, 5),
            of_fair=round(found.of_fair, 5),
            fairness=round(found.fairness, 5),
            jain=round(found.jain, 5),
            seconds=round(seconds, 4),
        )

    def table_row(self, method: str, document: Document) -> Row:
        text = text_of(document)
        table, seconds = timed(lambda: solve(text))
        return self.row(method, amounts_of(table), seconds)

    def bwe(self) -> Row:
        return self.table_row("bwe", self.document)

    def others(self) -> list[Row]:
        """Exact max-min, and what others do."""
        network, asks = self.optimum.network, self.optimum.asks
        rows = [self.row("max-min", self.optimum.fair.amounts, self.seconds)]
        for name, method in (("swan", swan), ("waterfilling", adaptive_waterfilling)):
            amounts, seconds = timed(lambda: method(network, asks))
            rows.append(self.row(name, amounts, seconds))
        return rows

    def plain(self) -> list[Row]:
        """The filling with the path groups that need no linear program."""
        document = self.document
        even = [tuple(Path(1, path.links) for (path,) in group.paths) for group in document.groups]
        return [
            self.bwe(),
            self.table_row("shortest alone", _with(document, [one[:1] for one in even])),
            self.table_row("even alone", _with(document, even)),
            self.table_row("even in front", _in_front(document, even)),
        ]

    def split(self, traffic: Traffic, method: str) -> Row:
        """The filling with the split for the demands of a traffic in front of the paths."""
        return self.table_row(method, self.with_split(traffic))

    def split_alone(self, traffic: Traffic, method: str) -> Row:
        groups = tuple(
            replace(group, paths=group.paths[:1]) for group in self.with_split(traffic).groups
        )
        return self.table_row(method, replace(self.document, groups=groups))

    @lru_cache(maxsize=None)
    def with_split(self, traffic: Traffic) -> Document:
        network, fair = self.optimum.network, self.optimum.fair.amounts
        if traffic != self.case.traffic:
            other = replace(self.case, traffic=traffic).document(fits_of(traffic))
            fair = max_min(network, curves_of(other, other.demands()), other.top).amounts
        return with_splits(self.document, network, split_of_one(network, fair), LEAST).document

    def drifted(self) -> Traffic:
        return replace(self.case.traffic, has_drifted=True)

    def independent(self) -> Traffic:
        return replace(self.case.traffic, seed=self.case.traffic.seed + 1)


def _with(document: Document, firsts: list[tuple[Path, ...]]) -> Document:
    groups = (replace(group, paths=(first,)) for group, first in zip(document.groups, firsts))
    return replace(document, groups=tuple(groups))


def _in_front(document: Document, firsts: list[tuple[Path, ...]]) -> Document:
    groups = (
        replace(group, paths=(first, *group.paths) if len(first) > 1 else group.paths)
        for group, first in zip(document.groups, firsts)
    )
    return replace(document, groups=tuple(groups))


def as_json(rows: list[Row]) -> list[dict[str, object]]:
    return [asdict(row) for row in rows]
