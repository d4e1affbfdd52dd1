"""Networks that people write in TOML, and documents written so."""

import json

import pytest

from bwe_tools.document import parse
from bwe_tools.program import solve
from tool_runs import EXAMPLES, fails, needs_program, run

NETWORK = """
top = 1000
[defaults]
capacity = "10G"
[[links]]
between = ["a", "b"]
[[links]]
between = ["b", "c"]
metric = 5
[[links]]
from = "a"
to = "c"
name = "direct"
capacity = 4_000_000
metric = 20
owner = ""
[[groups]]
from = "a"
to = "c"
paths = 2
tasks = 3
demand = "1G"
"""


def made(text: str) -> dict:
    answer = run("from-toml", "-", given=text.encode())
    assert answer.status == 0, answer.err
    return json.loads(answer.out)


def test_a_network_gets_names_directions_and_defaults():
    raw = made(NETWORK)
    assert [link["name"] for link in raw["links"]] == ["a_b", "b_a", "b_c", "c_b", "direct"]
    assert [link["capacity"] for link in raw["links"]] == [10_000_000] * 4 + [4_000_000]
    assert "owner" not in raw["links"][4] and raw["links"][0]["owner"] == "noc"
    (group,) = raw["groups"]
    assert group["name"] == "a_c"
    job = group["users"][0]["jobs"][0]
    assert [task["name"] for task in job["tasks"]] == ["a_c-0", "a_c-1", "a_c-2"]
    assert job["task"] == [[0, 0], [1000, 1_000_000]]
    assert [report["demand"] for report in raw["script"]] == [1_000_000] * 3
    assert raw["reporters"] == ["hosts", "noc"]


@pytest.mark.parametrize(
    "words, first",
    [("", ["direct"]), ('by = "metric"', ["a_b", "b_c"]), ("disjoint = true", ["direct"])],
)
def test_paths_are_the_shortest_by_what_is_asked(words, first):
    raw = made(NETWORK.replace("paths = 2", f"paths = 2\n{words}"))
    ways = [paths[0]["links"] for paths in raw["groups"][0]["paths"]]
    assert ways[0] == first and sorted(ways) == [["a_b", "b_c"], ["direct"]]


def test_disjoint_paths_share_no_link():
    raw = json.loads(run("from-toml", EXAMPLES / "europe.toml").out)
    for group in raw["groups"]:
        links = [link for paths in group["paths"] for path in paths for link in path["links"]]
        assert len(links) == len(set(links)), group["name"]


def test_all_pairs_of_sites_are_groups():
    text = NETWORK.replace('from = "a"\nto = "c"\npaths', 'pairs = "all"\npaths')
    # From c there is no link but to b, so all six pairs have a path.
    assert sorted(group["name"] for group in made(text)["groups"]) == [
        "a_b",
        "a_c",
        "b_a",
        "b_c",
        "c_a",
        "c_b",
    ]


@pytest.mark.parametrize(
    "old, new, sentence",
    [
        ("top = 1000", "topp = 1000", 'topp: there is no such key here; did you mean "top"?'),
        ('"10G"', '"10X"', "defaults.capacity: '10X' is no rate"),
        ('["b", "c"]', '["b"]', "links[1].between: this is a pair of two sites"),
        ("metric = 5", 'metric = "5"', "links[1].metric: '5' is no whole number"),
        ("paths = 2", "paths = 17", "groups[0].paths: this is how many shortest paths, 1 to 16"),
        ("paths = 2", 'paths = 2\nby = "miles"', "groups[0].by: paths are short by hops"),
        ("paths = 2", 'paths = 2\nby = "length"', "sites.a: paths by length need the coordinates"),
        ("tasks = 3", "task = [[0]]", "groups[0].task[0]: a point is a share and a rate"),
        ('to = "c"\npaths', 'to = "d"\npaths', "groups[0].paths: there is no path of links from a"),
        ("paths = 2", 'paths = [["x"]]', 'there is no link "x" (bwe: refused 6 unknown name at'),
        ("[[groups]]", "[[groups]", "is not TOML"),
    ],
)
def test_a_fault_is_told_with_its_place(old, new, sentence):
    assert NETWORK.count(old) >= 1
    assert sentence in fails("from-toml", "-", given=NETWORK.replace(old, new, 1).encode())


@needs_program
@pytest.mark.parametrize("file", sorted(EXAMPLES.glob("*.json")), ids=lambda file: file.stem)
def test_a_document_is_written_and_read_back(file):
    back = run("from-toml", "-", given=run("to-toml", file).out.encode())
    assert back.status == 0, back.err
    table = solve(file.read_bytes())
    assert solve(back.out.encode()).with_reports(table.reports) == table
    document, again = parse(file.read_bytes()), parse(back.out.encode())
    assert (document.links, document.groups, document.closings) == (
        again.links,
        again.groups,
        again.closings,
    )


@needs_program
def test_a_page_is_drawn_by_coordinates(tmp_path):
    document = tmp_path / "europe.json"
    document.write_text(run("from-toml", EXAMPLES / "europe.toml").out)
    plain, placed = (
        run("page", document, "--picture", *words).out
        for words in ((), ("--sites", EXAMPLES / "europe.toml"))
    )
    assert "<svg" in placed and placed != plain


# ---- tiers as ranges of shares


@needs_program
def test_a_prioritized_document_serves_one_tier_before_the_next():
    document = run("prioritize", EXAMPLES / "shared-link.json", EXAMPLES / "shared-link.tiers")
    assert solve(document.out.encode()).limit_of() == {"t0": 80, "t1": 20}
    assert json.loads(document.out)["top"] == 200


@needs_program
def test_one_tier_changes_nothing(tmp_path):
    tiers = tmp_path / "tiers"
    tiers.write_text("00\n")
    document = run("prioritize", EXAMPLES / "maintenance.json", tiers)
    assert solve(document.out.encode()) == solve((EXAMPLES / "maintenance.json").read_bytes())


def test_tiers_that_are_none_and_too_many_shares_are_told(tmp_path):
    tiers = tmp_path / "tiers"
    tiers.write_text("08\n")
    sentence = "one digit from 0 to 7 for each of 2 groups"
    assert sentence in fails("prioritize", EXAMPLES / "shared-link.json", tiers)
    tiers.write_text("07\n")
    raw = json.loads((EXAMPLES / "shared-link.json").read_text()) | {"top": 900_000_000}
    document = tmp_path / "document.json"
    document.write_text(json.dumps(raw))
    assert "the tiers need a top of 7,200,000,000" in fails("prioritize", document, tiers)
