"""What the paths of a document allow at best, to hold tables against."""

from __future__ import annotations

from collections.abc import Mapping
from dataclasses import dataclass
from typing import Optional

from bwe_tools.document import Document, ToolError
from bwe_tools.table import Table


@dataclass(frozen=True)
class Optimum:
    """The most possible throughput, and exact max-min fairness, over paths that may be split.

    Rates are in kb/s; `max_min` and `shares` are by group.
    """

    most: float
    max_min: dict[str, float]
    shares: dict[str, float]


@dataclass(frozen=True)
class Quality:
    """A table beside the optimum: parts of its throughputs, and the geometric mean of
    min(x/x*, x*/x) over all groups that ask for something.
    """

    of_most: float
    of_max_min: float
    fairness: float
    jain: float


def optimum(document: Document, demands: Optional[Mapping[str, int]] = None) -> Optimum:
    """The optimum by linear programs, under demands by task or those of the document's script; an
    Error where scipy is not installed.
    """
    try:
        from bwe_tools.comparison import optimum_of
    except ImportError:
        raise _no_scipy() from None
    found = optimum_of(document, None if demands is None else dict(demands))
    names = [group.name for group in document.groups]
    amounts, shares = found.fair.amounts.tolist(), found.fair.shares.tolist()
    return Optimum(found.most, dict(zip(names, amounts)), dict(zip(names, shares)))


def quality(document: Document, table: Table) -> Quality:
    """A table of a document beside its optimum."""
    try:
        from bwe_tools.comparison import amounts_of, optimum_of
    except ImportError:
        raise _no_scipy() from None
    found = optimum_of(document).measures(amounts_of(table))
    return Quality(found.of_most, found.of_fair, found.fairness, found.jain)


def _no_scipy() -> ToolError:
    return ToolError("the optimum needs scipy: apt-get install python3-scipy")
