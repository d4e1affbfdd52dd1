"""The second implementations for networks whose links all close, and the scripts of large cases."""

import json
import subprocess

import pytest

import cases
import compare
import hard
import large
import wide


@pytest.mark.parametrize("kind", wide.KINDS)
@pytest.mark.parametrize("seed", range(4))
def test_the_quicker_implementation_gives_the_table_of_the_plain_one(kind, seed):
    document = wide.hard(kind, seed, links=9, tasks=20, top=30)
    assert hard.Steps(document).table() == compare.Filling(document).table(20)


@pytest.mark.parametrize("kind", wide.KINDS)
def test_links_of_each_kind_close(kind):
    steps = hard.Steps(wide.hard(kind, 1, links=101, tasks=202, top=1_000))
    steps.fill()
    assert len(steps.closings) > 45


def test_few_groups_stand_over_many_links():
    document = wide.chains(1, groups=2, places=3, paths=4, hops=5)
    paths = [path for group in document["groups"] for place in group["paths"] for path in place]
    assert len(document["links"]) == sum(len(path["links"]) for path in paths) == 2 * 3 * 4 * 5


def test_a_mesh_is_made_from_its_seed_and_has_all_pairs():
    made = b"".join(wide.wan(3, 6, 100, trunks=2))
    assert made == b"".join(wide.wan(3, 6, 100, trunks=2))
    document = json.loads(made)
    assert (document["version"], len(document["groups"])) == (4, 30)
    assert len(document["script"]) == 100


def test_chains_have_so_many_links_over_all_paths():
    for hops in (1, 31, 32, 33, 512, 8_191, 8_193):
        links, groups = large.chains(hops)
        made = json.loads(groups)
        paths = [path for group in made for place in group["paths"] for path in place]
        assert len(json.loads(links)) == 33
        assert sum(len(path["links"]) for path in paths) == hops
        assert [len(group["paths"]) for group in made] == large.path_groups_of(hops)


def test_documents_are_put_together_of_members():
    whole = json.loads(large.document(groups=large.one_group(3), version=None))
    assert "version" not in whole
    assert [task["name"] for task in whole["groups"][0]["users"][0]["jobs"][0]["tasks"]] == [
        "t0",
        "t1",
        "t2",
    ]


def test_a_long_case_is_left_out_unless_it_is_named():
    long = [folder for folder in cases.folders_of_cases(cases.CASES) if cases.is_long(folder)]
    assert long
    assert not set(long) & set(cases.folders_for(cases.BWE))
    for folder in long:
        assert (folder / "long").read_text().strip().endswith(".")


def test_a_script_whose_reader_goes_away_is_no_fault(tmp_path):
    folder = tmp_path / "case"
    folder.mkdir()
    (folder / "args").write_text("solve\n")
    (folder / "stdin.py").write_text("from large import write\n\nwrite(length=10_000_000)\n")
    (folder / "stdout").write_text("")
    (folder / "status").write_text("0\n")
    assert cases.fault_of_case(subprocess_of(tmp_path), folder) is None


def subprocess_of(folder):
    """A program that reads nothing and writes nothing."""
    path = folder / "program"
    path.write_text("#!/bin/sh\nexit 0\n")
    path.chmod(0o755)
    assert subprocess.run([path], check=False).returncode == 0
    return path
