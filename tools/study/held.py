"""The stored cases held against their references: no linear program, only tables."""

from __future__ import annotations

from collections.abc import Callable
from dataclasses import dataclass
from typing import Any

import numpy

from bwe_tools.comparison import amounts_of
from bwe_tools.curves import curves_of
from bwe_tools.measures import Measures, measures
from bwe_tools.program import solve
from study import cases
from study.cases import Case
from study.measured import digest, text_of


@dataclass(frozen=True)
class Held:
    """A case beside its reference; `fault` says what differs, and is empty where nothing does."""

    case: Case
    measures: Measures
    fault: str


def held(case: Case, reference: dict[str, Any]) -> Held:
    """Measures a case beside the optimum that its reference has."""
    document = case.document(reference["fits"])
    text = text_of(document)
    table = solve(text)
    fault = ""
    if digest(text) != reference["document"]:
        fault = "its document is another one than that of the reference"
    elif table.total != reference["total"]:
        fault = f"its total is {table.total}, and {reference['total']} in the reference"
    asks = numpy.array([one.most for one in curves_of(document, document.demands())])
    capacities = numpy.array([link.capacity for link in document.links], dtype=float)
    fair = numpy.array(reference["max_min"], dtype=float)
    found = measures(amounts_of(table), fair, float(reference["most"]), asks, capacities)
    return Held(case, found, fault)


def all_held(references: dict[str, Any], told: Callable[[str], None]) -> list[Held]:
    """All stored cases and the large ones; a case without a reference is at fault."""
    found = []
    for case in [*cases.stored(), *cases.large()]:
        told(case.name)
        if case.name in references:
            found.append(held(case, references[case.name]))
        else:
            nothing = Measures(0, 0, 0, 0, 0)
            found.append(Held(case, nothing, "there is no reference of it"))
    return found
