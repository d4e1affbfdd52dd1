"""The study: its cases are always the same ones, and its page has the tables of its references."""

import json
from dataclasses import replace
from pathlib import Path

import numpy
import pytest

from bwe_tools.comparison import optimum_of
from bwe_tools.program import ROOT
from study import cases, methods, tables
from study.cases import Case, Traffic
from study.held import held
from study.measured import digest, text_of
from study.networks import known, made
from study.parts import PARTS
from tool_runs import needs_program

HERE = Path(__file__).resolve().parent
REFERENCES = HERE / "references"
SIZES = {
    "abilene": (11, 14),
    "b4-like": (12, 19),
    "nsfnet": (14, 21),
    "geant": (22, 36),
    "us24": (24, 43),
}


def read(part):
    return json.loads((REFERENCES / f"{part}.json").read_text())


def small(load=2.0):
    return Case(Traffic("abilene", "bimodal", 1), load, 4)


def test_known_networks_have_the_sites_and_links_that_the_page_says():
    page = (ROOT / "docs" / "QUALITY.md").read_text()
    for name, network in known().items():
        sites, links = SIZES[name]
        assert (len(network.sites), len(network.fibres)) == (sites, links)
        assert len({frozenset((one.one, one.other)) for one in network.fibres}) == links
        assert f"| {name} | {sites}, {links} |" in page


def test_a_made_network_is_one_piece_and_always_the_same():
    network = made(32, 1)
    assert network == made(32, 1) != made(32, 2)
    reached, left = {network.sites[0]}, list(network.fibres)
    while any(found := [one for one in left if {one.one, one.other} & reached]):
        reached |= {end for one in found for end in (one.one, one.other)}
        left = [one for one in left if one not in found]
    assert reached == set(network.sites)


def test_there_are_ninety_stored_cases_and_each_makes_the_document_of_its_reference():
    references = read("stored")
    assert len(references) == 90
    assert [case.name for case in cases.stored()] == list(references)
    for case in cases.stored()[:6]:
        document = case.document(references[case.name]["fits"])
        assert digest(text_of(document)) == references[case.name]["document"]


def test_large_cases_have_more_groups_than_a_document_had_before_version_4():
    references = read("large")["references"]
    assert [case.name for case in cases.large()] == list(references)
    assert [len(one["max_min"]) for one in references.values()] == [1_560, 4_032]
    assert {row["network"] for row in read("large")["rows"]} == set(cases.LARGE)


@needs_program
def test_a_total_that_differs_by_one_is_a_fault():
    case = small()
    reference = read("stored")[case.name]
    assert held(case, reference).fault == ""
    assert "its total is" in held(case, {**reference, "total": reference["total"] + 1}).fault
    assert "another one" in held(case, {**reference, "document": "0"}).fault


def test_at_load_one_all_demands_fit():
    case = small(1.0)
    document = case.document(read("stored")[case.name]["fits"])
    found = optimum_of(document)
    assert found.most == pytest.approx(found.asks.sum(), rel=1e-5)


def test_orders_are_of_the_same_paths():
    plain = small().document(1e5)
    for order in cases.ORDERS:
        other = replace(small(), order=order).document(1e5)
        for one, two in zip(plain.groups, other.groups):
            assert sorted(one.paths, key=repr) == sorted(two.paths, key=repr)
    drained = replace(small(), drained=3).document(1e5)
    assert sum(capacity == 0 for capacity in drained.capacities().values()) == 2


def test_other_methods_keep_to_links_and_demands():
    document = small().document(read("stored")[small().name]["fits"])
    found = optimum_of(document)
    for amounts in (
        methods.swan(found.network, found.asks),
        methods.adaptive_waterfilling(found.network, found.asks),
    ):
        assert (amounts <= found.asks * (1 + 1e-4)).all()
        assert 0.3 * found.most < amounts.sum() <= found.most * (1 + 1e-4)
    flows = methods.waterfilling(found.network, found.asks, numpy.ones(len(found.network.paths)))
    assert (found.network.loads(flows) <= found.network.capacities * (1 + 1e-6)).all()


def test_swan_is_within_alpha_of_max_min():
    document = small().document(read("stored")[small().name]["fits"])
    found = optimum_of(document)
    beside = methods.swan(found.network, found.asks) / found.fair.amounts
    assert beside.min() > 1 / methods.ALPHA - 1e-3 and beside.max() < methods.ALPHA + 1e-3


def test_the_page_has_the_tables_of_the_references():
    page = (ROOT / "docs" / "QUALITY.md").read_text()
    assert page == tables.with_tables(page, {part: read(part) for part in PARTS})
