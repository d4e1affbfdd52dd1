"""quality and split: tables beside optima, and documents with splits."""

import json
import random

import numpy
import pytest

from bwe_tools.comparison import amounts_of, compare, optimum_of
from bwe_tools.curves import curve_of, curves_of
from bwe_tools.document import dump, of_raw, parse, to_raw
from bwe_tools.files import read_document
from bwe_tools.program import solve, values_at, values_at_top
from bwe_tools.rules import MOST_PATHS, MOST_WEIGHT
from bwe_tools.splits import split_of_many, split_of_one, weights_of, with_splits
from test_optimum import made
from tool_runs import EXAMPLES, fails, needs_live, needs_program, run

DOCUMENTS = sorted(EXAMPLES.glob("*.json"))
WAY_ROUND = EXAMPLES / "way-round.json"
GEANT = EXAMPLES / "geant.json"
PATHS_OF_A = '[[{"weight":1,"links":["round"]}],[{"weight":1,"links":["direct"]}]]'


def text_of(document):
    return dump(to_raw(document)).encode()


# ---- curves


@needs_program
@pytest.mark.parametrize("path", DOCUMENTS, ids=lambda path: path.stem)
def test_curves_are_what_levels_says_but_for_rounding(path):
    text, document = read_document(str(path))
    curves, tasks = curves_of(document, document.demands()), len(list(document.tasks()))
    for share in (0, 1, document.top // 3, document.top // 2, document.top):
        values = values_at(share, text)
        for group, curve in zip(document.groups, curves):
            # A function above the tasks is met by whole shares of theirs.
            step = tasks + max(curve.slope_after(0), curve.most / document.top * 50)
            assert values[group.name] == pytest.approx(curve.at(share), abs=step)


def test_a_curve_is_a_line_up_to_its_most():
    line = curve_of(((0, 0), (100, 50)))
    assert line.is_line and line.capped(20).is_line and line.capped(20).most == 20
    assert line.at(40) == 20 and line.at(200) == 50
    assert line.slope_after(0) == 0.5 and line.slope_after(100) == 0
    bent = curve_of(((0, 0), (10, 0), (20, 30), (40, 40)))
    assert not bent.is_line and bent.next_rise(0) == 10 and bent.next_rise(10) == float("inf")
    assert curve_of(((0, 0), (10, 5), (20, 10))).is_line


# ---- quality


@needs_program
def test_quality_says_who_loses_and_who_had_another_way():
    answer = run("quality", WAY_ROUND)
    assert answer.status == 0
    for words in (
        ["this", "table", "1.5", "Mbit/s", "75.0", "%"],
        ["fairness", "0.707"],
        [
            "B",
            "500",
            "kbit/s",
            "1",
            "Mbit/s",
            "direct",
            "at",
            "500",
            "A",
            "(500",
            "kbit/s",
            "by",
            "round)",
        ],
    ):
        assert words in [line.split() for line in answer.out.splitlines()], answer.out
    found = json.loads(run("quality", WAY_ROUND, "--json").out)
    assert (found["throughput"], found["max_min_throughput"], found["most_throughput"]) == (
        1500,
        2000,
        2000,
    )
    (loss,) = found["groups_that_lose"]
    assert loss["group"] == "B" and loss["stopped_by"] == "direct"
    assert loss["had_another_way"] == [
        {"group": "A", "load": 500, "max_min_load": 0, "path": ["round"]}
    ]


@needs_program
@pytest.mark.parametrize("path", DOCUMENTS, ids=lambda path: path.stem)
def test_quality_takes_each_example_and_the_table_that_was_kept(path):
    answer = run("quality", path, path.with_suffix(".txt"))
    assert answer.status == 0 and answer.out == run("quality", path).out
    found = json.loads(run("quality", path, "--json").out)
    assert found["throughput"] <= found["most_throughput"] + 1
    assert 0 < found["fairness"] <= 1 and 0 < found["jain"] <= 1


@needs_program
@pytest.mark.parametrize("seed", range(20))
@pytest.mark.parametrize("is_line", [True, False])
def test_no_table_carries_more_than_the_most_possible(seed, is_line):
    document = made(random.Random(seed), is_line)
    table = solve(text_of(document))
    found = compare(document, table)
    assert table.total <= found.optimum.most + 1
    assert found.measures.throughput == table.total
    assert all(loss.amount < loss.fair for loss in found.losses)


def test_quality_says_what_is_wrong():
    other = EXAMPLES / "geant.txt"
    assert "of another document" in fails("quality", WAY_ROUND, other)


@needs_program
def test_a_document_without_groups_or_demands(tmp_path):
    whole = json.loads(WAY_ROUND.read_text())
    path = tmp_path / "changed.json"
    path.write_text(json.dumps({**whole, "script": []}))
    assert "100.0 %" in run("quality", path).out
    path.write_text(json.dumps({**whole, "script": [], "groups": []}))
    assert "no groups" in fails("quality", path)


# ---- split


@needs_program
@needs_live
@pytest.mark.parametrize("path", DOCUMENTS, ids=lambda path: path.stem)
def test_a_split_is_a_document_whose_table_is_near_max_min(path, tmp_path):
    copy = tmp_path / "split.json"
    answer = run("split", path, "-o", copy)
    assert answer.status == 0 and "throughput beside max-min" in answer.err
    before, behind = (read_document(str(name))[1] for name in (path, copy))
    assert [group.name for group in before.groups] == [group.name for group in behind.groups]
    assert behind.script == before.script and behind.links == before.links
    for own, split in zip(before.groups, behind.groups):
        assert len(split.paths) <= MOST_PATHS
        assert all(1 <= one.weight <= MOST_WEIGHT for paths in split.paths for one in paths)
        assert set(own.paths) - set(split.paths[1:]) <= {split.paths[0]}
    optimum = optimum_of(before)
    assert optimum.measures(amounts_of(solve(copy.read_bytes()))).of_fair > 0.995


@needs_program
@needs_live
def test_a_split_puts_the_way_round_first_where_that_is_best():
    answer = run("split", WAY_ROUND)
    assert PATHS_OF_A in answer.out
    assert solve(answer.out.encode()).total == 2000
    assert "1 of 2 groups have another first path group" in answer.err
    # A split of what is split already changes nothing.
    assert run("split", "-", given=answer.out.encode()).out == answer.out


@needs_live
def test_of_sixteen_path_groups_the_last_is_left_out_and_that_is_said(tmp_path):
    whole = json.loads(WAY_ROUND.read_text())
    path = tmp_path / "many.json"
    names = [f"l{number}" for number in range(16)]
    whole["links"] = [{**whole["links"][0], "name": name} for name in names]
    whole["groups"][0]["paths"] = [[{"weight": 1, "links": [name]}] for name in names]
    whole["groups"][1]["paths"] = [[{"weight": 1, "links": [name]}] for name in names[:15]]
    for report in whole["script"]:
        report["demand"] = 4000
    for group in whole["groups"]:
        group["users"][0]["jobs"][0]["task"] = [[0, 0], [1000, 4000]]
    path.write_text(json.dumps(whole))
    answer = run("split", path)
    assert answer.status == 0
    assert "more than 16 path groups, so without their last one: A\n" in answer.err
    first, second = parse(answer.out.encode()).groups
    assert len(first.paths) == len(second.paths) == 16
    assert second.paths[-1][0].links == ("l14",) and first.paths[-1][0].links == ("l14",)


@needs_live
@pytest.mark.parametrize("best_for", ["worst", "mean"])
def test_one_split_serves_several_matrices(best_for, tmp_path):
    path = tmp_path / "matrices.csv"
    chance, (_, document) = random.Random(1), read_document(str(GEANT))
    rows = [
        f"m{number},{task},{round(demand * 2 * chance.random())}"
        for number in range(4)
        for task, demand in document.demands().items()
    ]
    path.write_text("\n".join(["matrix,task,demand", *rows]) + "\n")
    answer = run("split", GEANT, "--matrices", path, "--best-for", best_for)
    assert answer.status == 0 and "of the worst matrix" in answer.err
    numbers = [line.split()[-2:] for line in answer.err.splitlines() if "max-min" in line]
    before, behind = map(float, numbers[0])
    assert behind >= before
    assert "has no task" in fails("split", WAY_ROUND, "--matrices", path)


def test_the_worst_matrix_has_less_above_the_links_than_with_the_mean_in_mind():
    document = of_raw(json.loads(GEANT.read_text()))
    chance, found = random.Random(3), optimum_of(document)
    matrices = [
        optimum_of(
            document,
            {
                task: round(demand * 3 * chance.random())
                for task, demand in document.demands().items()
            },
        ).fair.amounts
        for _ in range(3)
    ]

    def above(parts):
        loads = [found.network.loads(parts * one[found.network.group_of]) for one in matrices]
        over = [numpy.maximum(load - found.network.capacities, 0).sum() for load in loads]
        return [float(one / matrix.sum()) for one, matrix in zip(over, matrices)]

    worst, mean = (above(split_of_many(found.network, matrices, flag)) for flag in (True, False))
    assert max(worst) <= max(mean) + 1e-6 and sum(mean) <= sum(worst) + 1e-6


def test_weights_are_whole_and_small_parts_are_dropped():
    assert weights_of(numpy.array([0.5, 0.25, 0.25]), 0.01) == {0: 2, 1: 1, 2: 1}
    assert weights_of(numpy.array([0.995, 0.005]), 0.01) == {0: 1}
    assert weights_of(numpy.array([0.0, 0.0]), 0.01) == {}
    assert weights_of(numpy.full(20, 0.05), 0.0) == dict.fromkeys(range(16), 1)
    assert weights_of(numpy.full(20, 0.05), 0.5) == {0: 1}
    found = weights_of(numpy.array([0.999999, 1e-6]), 0.0)
    assert found == {0: 1000, 1: 1}


def test_a_split_leaves_groups_that_want_nothing_and_drained_links(tmp_path):
    document = of_raw(json.loads(GEANT.read_text()))
    found = optimum_of(document, dict.fromkeys(document.demands(), 0))
    parts = split_of_one(found.network, found.fair.amounts)
    assert with_splits(document, found.network, parts, 0.01).document == document
    assert split_of_many(found.network, [found.fair.amounts] * 2, True).sum() == 0
