"""The module for researchers: what its page says, and its bad days."""

import doctest
import json
import os
import random
import signal
import subprocess
import sys
import time
from dataclasses import replace

import pytest

import bwe
from bwe_tools import live as live_module
from bwe_tools.document import of_raw, to_raw
from bwe_tools.live_change import merged, parse_change
from bwe_tools.live_program import LiveProgram
from tool_runs import EXAMPLES, ROOT, needs_live, needs_program, stand_in

DOCUMENTS = sorted(EXAMPLES.glob("*.json"))


def load(name):
    return bwe.read(EXAMPLES / f"{name}.json")


@needs_program
@needs_live
def test_the_page_says_what_the_module_does(monkeypatch):
    pytest.importorskip("pandas")
    monkeypatch.chdir(ROOT)
    found = doctest.testfile(
        str(ROOT / "docs" / "RESEARCH.md"),
        module_relative=False,
        optionflags=doctest.IGNORE_EXCEPTION_DETAIL,
    )
    assert found.attempted > 20 and found.failed == 0


@pytest.mark.parametrize("path", DOCUMENTS, ids=lambda path: path.stem)
def test_a_document_is_written_as_it_was_read(path, tmp_path):
    document = bwe.read(path)
    bwe.write(document, tmp_path / "copy.json")
    assert bwe.read(tmp_path / "copy.json") == document
    assert to_raw(document) == json.loads(path.read_text())
    assert of_raw(to_raw(document)) == document


def test_what_is_no_document_is_an_error(tmp_path):
    path = tmp_path / "bad.json"
    path.write_text('{"version":1}')
    for name in (path, tmp_path / "none.json"):
        with pytest.raises(bwe.Error):
            bwe.read(name)


# ---- Live


def by_chance(document, count, seed=1):
    chance, demands = random.Random(seed), document.demands()
    return [
        {
            task: chance.randint(0, 2 * demand + 1)
            for task, demand in demands.items()
            if chance.random() < 0.5
        }
        for _ in range(count)
    ]


@needs_program
@needs_live
@pytest.mark.parametrize("path", DOCUMENTS, ids=lambda path: path.stem)
def test_a_table_that_is_kept_is_the_one_that_solve_writes(path):
    document, demands = bwe.read(path), bwe.read(path).demands()
    matrices = by_chance(document, 3)
    with bwe.Live(document) as live:
        assert live.table == bwe.solve(document)
        for matrix, table in zip(matrices, live.tables(matrices)):
            demands |= matrix
            whole = bwe.solve(bwe.with_demands(document, demands))
            assert replace(table, reports=0) == replace(whole, reports=0)


@needs_live
@pytest.mark.parametrize("path", DOCUMENTS, ids=lambda path: path.stem)
def test_many_changes_that_nobody_read_come_to_the_same_table(path, monkeypatch):
    monkeypatch.setattr(live_module, "MOST_UNREAD", 30_000)
    document = bwe.read(path)
    matrices = by_chance(document, 17)
    with bwe.Live(document) as live, bwe.Live(document) as other:
        totals = [change.total for change in live.changes(matrices)]
        tables = list(other.tables(matrices))
        assert totals == [table.total for table in tables]
        assert live.table == tables[-1]


@needs_live
def test_capacities_are_reported_and_taken_back():
    document = load("maintenance")
    with bwe.Live(document) as live:
        before = live.table
        live.capacity("fra-ams-2", 0)
        assert live.post().total < before.total
        live.capacity("fra-ams-2", document.capacities()["fra-ams-2"])
        live.post()
        assert replace(live.table, reports=0) == replace(before, reports=0)


@needs_live
def test_answers_that_nobody_takes_do_not_come_later():
    document = load("geant")
    matrices = by_chance(document, 40)
    with bwe.Live(document) as live:
        changes = live.changes(matrices)
        next(changes)
        changes.close()
        task = document.script[0].task
        live.demand(task, 0)
        live.post()
        assert live.table.limit_of()[task] == 0
        assert live.kept.reports == live.table.reports


@needs_live
def test_names_and_amounts_that_are_none_are_not_sent():
    with bwe.Live(load("shared-link")) as live:
        for report in (
            lambda: live.demand("nobody", 1),
            lambda: live.capacity("nowhere", 1),
            lambda: live.capacity("l0", 1),  # nobody owns it
            lambda: live.demand("t0", -1),
            lambda: live.demand("t0", 10**12 + 1),
        ):
            with pytest.raises(bwe.Error):
                report()
        assert live.post().total == 100


@needs_live
def test_a_child_that_is_killed_is_told_and_a_new_one_goes_on():
    document = load("geant")
    live = bwe.Live(document)
    os.kill(live.pid, signal.SIGKILL)
    for _ in range(2):
        with pytest.raises(bwe.ProgramEnded) as told:
            live.post()
        assert told.value.status == -signal.SIGKILL
    live.close()
    with bwe.Live(document) as again:
        assert again.post().total == again.table.total


@needs_live
def test_a_child_that_is_killed_among_many_matrices_is_told():
    document = load("geant")
    with bwe.Live(document) as live:
        changes = live.changes(by_chance(document, 200))
        next(changes)
        os.kill(live.pid, signal.SIGKILL)
        with pytest.raises(bwe.ProgramEnded):
            list(changes)


@needs_live
def test_a_closed_child_answers_no_more():
    live = bwe.Live(load("shared-link"))
    live.close()
    live.close()
    with pytest.raises(bwe.ProgramEnded):
        live.post()
    assert live.table.total == 100


@needs_live
def test_a_document_that_is_refused_is_an_error_with_the_line():
    document = replace(load("shared-link"), top=0)
    with pytest.raises(bwe.Refused) as told:
        bwe.Live(document)
    assert told.value.line == "refused 4 range at /top"


@pytest.mark.parametrize(
    "text, error",
    [
        ("exit 6", bwe.ProgramEnded),
        ("exit 0", bwe.ProgramEnded),
        ("echo 'refused 1 not json'; exit 3", bwe.Refused),
        ("echo nonsense; echo total x; sleep 5", bwe.Error),
        ("sleep 60", bwe.TimedOut),
    ],
)
def test_a_program_that_does_not_answer_is_told(tmp_path, text, error):
    program = stand_in(tmp_path, "trap '' PIPE; head -c 10 >/dev/null; " + text)
    with pytest.raises(error):
        bwe.Live(load("shared-link"), program, timeout=0.5)


def test_a_program_that_is_not_there_is_told(tmp_path):
    with pytest.raises(bwe.NoProgram):
        bwe.Live(load("shared-link"), tmp_path / "none")


def test_a_change_that_is_cut_short_is_an_error():
    for text in ("change 1\ngroup a share", "change x\ntotal 1\n", "change 1\nnonsense 1\n"):
        with pytest.raises(bwe.Error):
            parse_change(text)


def test_changes_that_are_merged_are_the_last_of_each_thing():
    rows = "link l load 3\ngroup g share 5 amount 3\nplace 0 amount 3 closed by l\ntask t limit 3\n"
    first = f"change 1\nclosings 1\nclosing l at 5\n{rows}total 3\n"
    later = "change 2\ngroup g share 6 amount 4\nplace 0 amount 4 open\ntotal 4\n"
    whole = parse_change(merged([first, later], 3))
    assert whole == replace(
        parse_change(first), reports=2, total=4, groups=parse_change(later).groups
    )
    # Where the last texts have all things, nothing of those before them is read but closings.
    all_again = f"change 3\n{rows}total 3\n"
    assert parse_change(merged(["change 0\nnonsense", first, all_again], 3)) == replace(
        parse_change(first), reports=3
    )


CHILD = """#!/usr/bin/python3
import os, sys
def write(answer):
    for at in range(0, len(answer), SIZE):
        os.write(1, answer[at : at + SIZE])
sys.stdin.buffer.read(int(sys.stdin.buffer.readline()))
write(b"table 0\\ntotal 0\\n")
for number, _ in enumerate(filter(b"post\\n".__eq__, sys.stdin.buffer), 1):
    write(b"change %d\\ntotal %d\\n" % (number, 7 * number))
"""


@pytest.mark.parametrize("size", [1, 6, 7, 8, 9, 100])
def test_answers_are_taken_whole_however_they_come(tmp_path, size):
    """The child writes pieces of so many bytes, which cut the last rows of answers."""
    program = tmp_path / "child"
    program.write_text(CHILD.replace("SIZE", str(size)))
    program.chmod(0o755)
    child = LiveProgram(b"{}", program, 60)
    assert child.first == "table 0\ntotal 0\n"
    totals = [int(answer.split()[-1]) for answer in child.answers([b"post\n"] * 90, 8)]
    assert totals == [7 * number for number in range(1, 91)]
    child.close()


# ---- readers and documents


def test_matrices_are_read_by_task_and_by_sites(tmp_path):
    document = load("geant")
    path = tmp_path / "matrices.csv"
    path.write_text("matrix;from;to;demand\na;Geneva;Paris;1G\nb;Geneva;Paris;2.5G\n")
    found = bwe.read_matrices(path, document)
    assert [matrix["Geneva_Paris"] for matrix in found.values()] == [10**6, 2_500_000]
    assert all(sum(matrix.values()) == matrix["Geneva_Paris"] for matrix in found.values())
    for text, told in (
        ("matrix,task,demand\na,nobody,1\n", "line 2: the document has no task nobody"),
        ("matrix,from,to,demand\na,Paris,Nowhere,1\n", "no tasks go from Paris to Nowhere"),
        ("matrix,task,demand\n", "has no matrices"),
        ("task,demand\na,1\n", 'no column "matrix"'),
    ):
        path.write_text(text)
        with pytest.raises(bwe.Error, match=told):
            bwe.read_matrices(path, document)


@needs_program
def test_a_document_of_links_and_demands_is_accepted():
    links = [
        bwe.Link(f"{one}{other}", one, other, 100)
        for one in "abc"
        for other in "abc"
        if one != other
    ]
    document = bwe.document_of(links, {("a", "b"): 150, ("b", "c"): 0, ("a", "z"): 5}, top=1000)
    assert [group.name for group in document.groups] == ["a_b", "b_c"]
    assert bwe.solve(document).total == 150


@needs_live
def test_the_sweep_runs_as_the_page_says():
    told = subprocess.run(
        [sys.executable, EXAMPLES / "sweep.py", "20", EXAMPLES / "geant.json"],
        capture_output=True,
        text=True,
        check=False,
    )
    assert told.returncode == 0 and "closes in" in told.stdout, told.stderr


def test_pip_installs_the_module_without_a_network(tmp_path):
    pytest.importorskip("setuptools")
    pytest.importorskip("pip")
    place = tmp_path / "place"
    # A copy, since setuptools writes beside the sources.
    copy = tmp_path / "copy"
    names = subprocess.run(
        ["git", "ls-files", "pyproject.toml", "VERSION", "README.md", "docs", "tools"],
        cwd=ROOT,
        capture_output=True,
        text=True,
        check=False,
    ).stdout.split()
    if not names:
        pytest.skip("this is no clone")
    for name in names:
        (copy / name).parent.mkdir(parents=True, exist_ok=True)
        (copy / name).write_bytes((ROOT / name).read_bytes())
    subprocess.run(
        [
            "/usr/bin/python3",
            "-m",
            "pip",
            "install",
            "--no-build-isolation",
            "--no-deps",
            "--no-index",
            "--quiet",
            "--target",
            place,
            copy,
        ],
        check=True,
        capture_output=True,
        env={**os.environ, "PIP_BREAK_SYSTEM_PACKAGES": "1"},
    )
    code = "import bwe; print(bwe.__file__); bwe.read('bad.json')"
    (tmp_path / "bad.json").write_text("{}")
    told = subprocess.run(
        ["/usr/bin/python3", "-c", code],
        cwd=tmp_path,
        capture_output=True,
        text=True,
        env={"PYTHONPATH": str(place)},
        check=False,
    )
    assert told.stdout.strip() == str(place / "bwe" / "__init__.py")
