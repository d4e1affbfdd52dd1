"""The parts of the study, each a list of rows; `python3 -m study references PART` makes one."""

from __future__ import annotations

from collections.abc import Callable, Iterator
from dataclasses import replace
from functools import lru_cache
from typing import Any

import numpy

from bwe_tools.comparison import amounts_of
from bwe_tools.program import solve
from study import cases
from study.cases import Case
from study.measured import Measured, Row, digest, fits_of, text_of

Told = Callable[[str], None]
RATIOS_AT = 2.0  # the load of the distribution of x/x*


def stored(told: Told) -> dict[str, Any]:
    """The ninety cases with all that `make study` needs: the document, the total, the optimum; and
    how the table is beside that, for the page.
    """
    found: dict[str, Any] = {}
    for case in cases.stored():
        told(case.name)
        found[case.name] = reference_of(Measured(case))
    return found


def reference_of(measured: Measured) -> dict[str, Any]:
    case, text = measured.case, text_of(measured.document)
    table = solve(text)
    beside = measured.optimum.measures(amounts_of(table))
    return {
        "seed": case.traffic.seed,
        "load": case.load,
        "of_fair": round(beside.of_fair, 5),
        "fairness": round(beside.fairness, 5),
        "fits": fits_of(case.traffic),
        "document": digest(text),
        "total": table.total,
        "most": round(measured.optimum.most),
        "max_min": [round(amount) for amount in measured.optimum.fair.amounts],
    }


def large(told: Told) -> dict[str, Any]:
    """Networks of more than 1,024 groups: rows of the methods, and what `make study` needs."""
    rows, references = list[Row](), dict[str, Any]()
    for case in cases.large():
        told(case.name)
        measured = Measured(case)
        rows += measured.others()
        rows.append(measured.bwe())
        rows.append(measured.split(case.traffic, "split of these"))
        rows.append(measured.split(measured.drifted(), "split of drifted"))
        references[case.name] = reference_of(measured)
    return {"rows": rows, "references": references}


def load(told: Told) -> dict[str, Any]:
    """All methods by load, and how x/x* is distributed at one load, in percentiles."""
    rows, ratios = list[Row](), dict[str, list[float]]()
    for case in cases.by_load():
        told(case.name)
        measured = Measured(case)
        rows += measured.others() + measured.plain()
        rows.append(measured.split(case.traffic, "split of these"))
        rows.append(measured.split(measured.drifted(), "split of drifted"))
        rows.append(measured.split_alone(measured.drifted(), "split of drifted alone"))
        if case.load == RATIOS_AT:
            rows.append(measured.split(measured.independent(), "split of others"))
            for method, of_case in measured.ratios.items():
                ratios.setdefault(method, []).extend(of_case)
    percentiles = {
        method: [round(float(one), 4) for one in numpy.percentile(found, range(101))]
        for method, found in ratios.items()
    }
    return {"rows": rows, "ratios": percentiles}


def paths(told: Told) -> dict[str, Any]:
    """By number of path groups; beside the optimum over the same paths, and over sixteen."""
    rows = []
    for traffic in cases.gravities():
        most = 0.0
        for case in reversed(cases.by_paths(traffic)):
            told(case.name)
            measured = measured_once(case)
            row = measured.bwe()
            rows.append(row)
            most = most or measured.optimum.most
            total = row.of_most * measured.optimum.most
            rows.append(replace(row, method="bwe beside 16", of_most=round(total / most, 5)))
    return {"rows": rows}


def order(told: Told) -> dict[str, Any]:
    """By order of path groups: the optimum is that of the same paths in any order."""
    return {"rows": list(_alike(cases.by_order, lambda case: case.order, told))}


def top(told: Told) -> dict[str, Any]:
    """By `top`: how fine a share is."""
    return {"rows": list(_alike(cases.by_top, lambda case: f"{case.top}", told))}


def _alike(
    make: Callable[[cases.Traffic], list[Case]], name: Callable[[Case], str], told: Told
) -> Iterator[Row]:
    """Cases with the paths of the plain one, beside its optimum."""
    for traffic in cases.gravities():
        plain = measured_once(Case(traffic, 2.0, 4))
        for case in make(traffic):
            told(case.name)
            table = solve(text_of(case.document(fits_of(traffic))))
            yield plain.row(name(case), amounts_of(table), 0.0)


def drains(told: Told) -> dict[str, Any]:
    """Each fibre of two networks drained in turn, with the paths alone and behind a split that was
    made before the drain.
    """
    rows = []
    for traffic in cases.gravities()[:2]:
        before = Measured(Case(traffic, 1.5, 4))
        split = before.with_split(traffic)
        for case in cases.drains(before.case):
            told(case.name)
            measured = Measured(case)
            script = measured.document.script
            rows.append(measured.table_row("bwe", measured.document))
            rows.append(measured.table_row("split of these", replace(split, script=script)))
            alone = tuple(replace(group, paths=group.paths[:1]) for group in split.groups)
            document = replace(split, script=script, groups=alone)
            rows.append(measured.table_row("split of these alone", document))
    return {"rows": rows}


def size(told: Told) -> dict[str, Any]:
    """Made networks: the time of the filling and of linear programs over size."""
    rows = []
    for case in [*(Case(one, 2.0, 4) for one in cases.gravities()), *cases.by_size()]:
        told(case.name)
        measured = measured_once(case)
        rows += measured.others()
        rows.append(measured.bwe())
    return {"rows": rows}


@lru_cache(maxsize=None)
def measured_once(case: Case) -> Measured:
    """A case that several parts have."""
    return Measured(case)


PARTS: dict[str, Callable[[Told], dict[str, Any]]] = {
    "stored": stored,
    "load": load,
    "paths": paths,
    "order": order,
    "top": top,
    "drains": drains,
    "size": size,
    "large": large,
}
