"""from-graphml, from-sndlib and from-csv: each document that they write is one that bwe accepts."""

import json
import random
import subprocess

import networkx
import pytest

from bwe_tools import routes, rules, shape, units
from bwe_tools.network import Namer
from bwe_tools.program import find_program
from bwe_tools.routes import Routes
from tool_runs import EXAMPLES, fails, has_program, run

ABILENE = EXAMPLES / "abilene.graphml"


def accepted(*words, given=b""):
    """The document that a converter writes; it has no fault, and the program takes it where there
    is one.
    """
    answer = run(*words, given=given)
    assert answer.status == 0, answer
    raw = json.loads(answer.out)
    assert shape.first_fault(raw) is None and rules.first_fault(raw) is None
    if has_program():
        told = subprocess.run(
            [find_program(), "solve"], input=answer.out.encode(), capture_output=True, check=False
        )
        assert told.returncode == 0, told
    return raw


def written(folder, name, text):
    path = folder / name
    path.write_bytes(text if isinstance(text, bytes) else text.encode())
    return path


def ends(raw):
    return [(link["from"], link["to"]) for link in raw["links"]]


def capacities(raw):
    return {link["name"]: link["capacity"] for link in raw["links"]}


# ---- units and names


@pytest.mark.parametrize(
    "text, plain, amount",
    [
        ("10G", "k", 10_000_000),
        ("400M", "k", 400_000),
        ("2.5 Gbit/s", "k", 2_500_000),
        ("1T", "k", 10**9),
        ("64k", "m", 64),
        ("64 kbps", "k", 64),
        ("500", "k", 500),
        ("500", "m", 500_000),
        ("9953280000.0", "", 9_953_280),
        ("1e10", "", 10_000_000),
        ("1500 bit/s", "k", 2),
        ("0", "k", 0),
        ("", "k", None),
        ("fast", "k", None),
        ("-1G", "k", None),
        ("10 GB", "k", None),
        ("1,000", "k", None),
        ("NaN", "k", None),
    ],
)
def test_rates_are_read_with_their_units(text, plain, amount):
    assert units.kilobits(text, plain) == amount


@pytest.mark.parametrize(
    "label, amount",
    [
        ("OC-192", 9_953_280),
        ("OC3", 155_520),
        ("STM-64", 9_953_280),
        ("10 Gbps", 10_000_000),
        ("<10 Gbit/s>", 10_000_000),
        ("2.5G link", 2_500_000),
        ("155 Mbps ATM", 155_000),
        ("dark fibre", None),
        ("10 Giraffes", None),
    ],
)
def test_rates_are_found_in_labels(label, amount):
    assert units.in_words(label) == amount


def test_names_are_one_to_one():
    namer = Namer()
    texts = [
        "Zürich",
        "Zurich",
        "New York",
        "New-York",
        "",
        "?",
        "東京",
        "a" * 70,
        "a" * 71,
        "ok_1.x",
    ]
    names = [namer.name(text) for text in texts]
    assert len(set(names)) == len(texts) and [namer.texts[name] for name in names] == texts
    assert names[:4] == ["Zurich", "Zurich-2", "New-York", "New-York-2"] and names[-1] == "ok_1.x"
    assert all(len(name) <= 64 for name in names)


# ---- paths


def test_paths_are_the_shortest_ones_in_their_order():
    routes = Routes([("ab", "a", "b"), ("ac", "a", "c"), ("cb", "c", "b"), ("ab2", "a", "b")])
    assert routes.between("a", "b", 16) == [["ab"], ["ab2"], ["ac", "cb"]]
    assert routes.between("a", "b", 1) == [["ab"]]
    assert routes.between("b", "a", 3) == [] == routes.between("x", "a", 3)


def test_paths_by_length_may_have_more_links():
    links = [("ab", "a", "b"), ("ac", "a", "c"), ("cb", "c", "b")]
    assert Routes(links, {"ab": 9, "ac": 2, "cb": 3}).between("a", "b", 2) == [["ac", "cb"], ["ab"]]


def test_the_last_path_goes_round_what_the_first_ones_share():
    links = [
        ("am", "a", "m"),
        ("mb", "m", "b"),
        ("mb2", "m", "b"),
        ("ax", "a", "x"),
        ("xy", "x", "y"),
        ("yb", "y", "b"),
    ]
    assert Routes(links).between("a", "b", 2) == [["am", "mb"], ["ax", "xy", "yb"]]


def test_paths_have_at_most_32_links():
    chain = [(f"l{at}", at, at + 1) for at in range(33)]
    assert Routes(chain).between(0, 32, 1) == [[f"l{at}" for at in range(32)]]
    assert Routes(chain).between(0, 33, 1) == []


# ---- from-graphml


def test_abilene_gets_both_directions_and_a_group_for_each_pair(tmp_path):
    raw = accepted("from-graphml", ABILENE, "--map", tmp_path / "map")
    assert len(raw["links"]) == 28 and len(raw["groups"]) == 110
    assert {(target, source) for source, target in ends(raw)} == set(ends(raw))
    assert set(capacities(raw).values()) == {9_953_280}
    assert all(len(paths) == 1 for group in raw["groups"] for paths in group["paths"])
    assert all(len(group["paths"]) == 3 for group in raw["groups"])
    maps = json.loads((tmp_path / "map").read_text())
    assert (
        maps["sites"]["New-York"] == "New York"
        and maps["links"]["New-York_Chicago"] == "New York - Chicago"
    )


def test_no_link_of_abilene_takes_all_path_groups_of_a_group():
    for words in ([], ["--by", "length"], ["--paths", "2"]):
        raw = accepted("from-graphml", ABILENE, *words)
        for group in raw["groups"]:
            assert not set.intersection(
                *({link for path in paths for link in path["links"]} for paths in group["paths"])
            )


def graphml(graph, path):
    networkx.write_graphml(graph, path)
    return path


def test_capacities_are_read_as_the_topology_zoo_has_them(tmp_path):
    graph = networkx.MultiGraph()
    graph.add_nodes_from([(0, {"label": "A"}), (1, {"label": "B"}), (2, {"label": "B"}), (3, {})])
    graph.add_edge(0, 1, LinkSpeedRaw=10000000000.0, LinkSpeed="1", LinkSpeedUnits="G")
    graph.add_edge(0, 2, LinkSpeed="2.5", LinkSpeedUnits="G")
    graph.add_edge(1, 2, LinkLabel="155 Mbps")
    graph.add_edge(1, 2, LinkLabel="unknown")
    graph.add_edge(2, 3, bandwidth="7")
    raw = accepted(
        "from-graphml",
        graphml(graph, tmp_path / "zoo"),
        "--capacity",
        "1M",
        "--map",
        tmp_path / "map",
    )
    assert capacities(raw) == {
        "A_B": 10_000_000,
        "B_A": 10_000_000,
        "A_B-2": 2_500_000,
        "B-2_A": 2_500_000,
        "B_B-2": 155_000,
        "B-2_B": 155_000,
        "B_B-2-2": 1000,
        "B-2_B-2": 1000,
        "B-2_3": 7,
        "3_B-2": 7,
    }
    assert json.loads((tmp_path / "map").read_text())["sites"] == {
        "A": "A",
        "B": "B (1)",
        "B-2": "B (2)",
        "3": "3",
    }


def test_a_directed_file_gets_the_reverse_that_it_lacks(tmp_path):
    graph = networkx.DiGraph([("a", "b"), ("b", "a"), ("b", "c")])
    path = graphml(graph, tmp_path / "directed")
    assert sorted(ends(accepted("from-graphml", path))) == [
        ("a", "b"),
        ("b", "a"),
        ("b", "c"),
        ("c", "b"),
    ]
    one_way = run("from-graphml", path, "--one-way")
    assert sorted(ends(json.loads(one_way.out))) == [("a", "b"), ("b", "a"), ("b", "c")]
    assert "2 pairs without a path of at most 32 links are left out" in one_way.err


def test_paths_together_are_one_group_weighted_by_their_narrowest_links(tmp_path):
    graph = networkx.Graph()
    graph.add_edge("a", "b", capacity="10G")
    graph.add_edge("a", "c", capacity="5G")
    graph.add_edge("c", "b", capacity="40G")
    raw = accepted("from-graphml", graphml(graph, tmp_path / "three"), "--together")
    group = next(group for group in raw["groups"] if group["name"] == "a_b")
    assert group["paths"] == [
        [{"weight": 1000, "links": ["a_b"]}, {"weight": 500, "links": ["a_c", "c_b"]}]
    ]


def test_demands_of_a_spreadsheet_go_with_a_graph(tmp_path):
    demands = written(tmp_path, "d.csv", "from,to,demand\nNew York,Seattle,400M\n0,Denver,2G\n")
    raw = accepted("from-graphml", ABILENE, "--demands", demands)
    assert [group["name"] for group in raw["groups"]] == ["New-York_Seattle", "Seattle_Denver"]
    assert [report["demand"] for report in raw["script"]] == [400_000, 2_000_000]


def test_more_pairs_than_groups_are_told_and_the_busiest_serve(tmp_path):
    graph = networkx.cycle_graph(257)
    graph.add_edge(0, 20, capacity="100G")
    path = graphml(graph, tmp_path / "many")
    assert (
        "257 sites have 65,792 pairs, more than a document's 65,536 groups; take some with"
        " --busiest 256"
        in fails("from-graphml", path)
    )
    assert len(accepted("from-graphml", path, "--busiest", "3", "--paths", "1")["groups"]) == 6


def test_pairs_without_a_path_are_left_out_and_told(tmp_path):
    path = graphml(networkx.Graph([("a", "b"), ("c", "d")]), tmp_path / "two")
    answer = run("from-graphml", path)
    assert answer.status == 0 and len(json.loads(answer.out)["groups"]) == 4
    assert (
        answer.err
        == "bwe-tools: 8 pairs without a path of at most 32 links are left out, as a to c\n"
    )


@pytest.mark.parametrize(
    "text, sentence",
    [
        ("", "is not XML"),
        ("<graphml", "is not XML"),
        ("<html/>", "is no GraphML that networkx reads"),
        ('<?xml version="1.0" encoding="none"?><graphml/>', "is no GraphML that networkx reads"),
        (
            (
                '<graphml xmlns="http://graphml.graphdrawing.org/xmlns"><graph'
                ' edgedefault="undirected"/></graphml>'
            ),
            "has no links",
        ),
        (
            (
                '<graphml xmlns="http://graphml.graphdrawing.org/xmlns"><graph'
                ' edgedefault="undirected"><node id="a"/></graph></graphml>'
            ),
            "has no links",
        ),
        (
            (
                '<graphml xmlns="http://graphml.graphdrawing.org/xmlns"><key id="k" for="edge"'
                ' attr.name="capacity" attr.type="string"/><graph edgedefault="undirected"><edge'
                ' source="a" target="b"><data key="k">fast</data></edge></graph></graphml>'
            ),
            'the edge from "a" to "b": "fast" is no rate',
        ),
        (
            (
                '<graphml xmlns="http://graphml.graphdrawing.org/xmlns"><key id="k" for="edge"'
                ' attr.name="capacity" attr.type="int"/><graph edgedefault="undirected"><edge'
                ' source="a" target="b"><data key="k">fast</data></edge></graph></graphml>'
            ),
            "is no GraphML that networkx reads",
        ),
    ],
)
def test_a_file_that_is_no_graph_gets_a_sentence(tmp_path, text, sentence):
    assert sentence in fails("from-graphml", written(tmp_path, "graph", text))


def test_lengths_that_are_not_there_get_a_sentence(tmp_path):
    path = graphml(networkx.Graph([("a", "b")]), tmp_path / "pair")
    assert "has no length for link \"a_b\"" in fails("from-graphml", path, "--by", "length")


@pytest.mark.parametrize(
    "words, sentence",
    [
        (["--capacity", "fast"], '--capacity: "fast" is no rate; write one as 10G'),
        (["--demand", "9999999T"], "above 1,000,000,000,000 kb/s"),
        (["--map", "/none/map"], "cannot be written"),
    ],
)
def test_options_at_fault_get_a_sentence(words, sentence):
    assert sentence in fails("from-graphml", ABILENE, *words)


# ---- from-sndlib

NATIVE = """?SNDlib native format; type: network; version: 1.0
# network three

META (
  granularity = 5min
  unit = MBITPERSEC
)

NODES (
  # node ( longitude latitude )
  ATLA ( -84.38 33.75 )
  CHIN ( -87.61 41.83 )
  NYCM ( -73.96 40.78 )
)

LINKS (
  ATLA_CHIN ( ATLA CHIN ) 9920.00 0.00 133.00 0.00 ( 40000.00 133.00 )
  CHIN_NYCM ( CHIN NYCM ) 0.00 0.00 133.00 0.00 ( 40000.00 133.00 50000 2 )
  NYCM_ATLA ( NYCM ATLA ) 0.00 0.00 133.00 0.00 ( )
)

DEMANDS (
  ATLA_CHIN ( ATLA CHIN ) 1 298.0 UNLIMITED
  NYCM_CHIN ( NYCM CHIN ) 2 100.5 UNLIMITED
)

ADMISSIBLE_PATHS (
  ATLA_CHIN (
    p1 ( ATLA_CHIN )
  )
)
"""

XML = """<?xml version="1.0" encoding="ISO-8859-1"?>
<network xmlns="http://sndlib.zib.de/network" version="1.0">
 <meta><granularity>5min</granularity><unit>MBITPERSEC</unit></meta>
 <networkStructure>
  <nodes coordinatesType="geographical">
   <node id="ATLA"><coordinates><x>-84.38</x><y>33.75</y></coordinates></node>
   <node id="CHIN"><coordinates><x>-87.61</x><y>41.83</y></coordinates></node>
   <node id="NYCM"><coordinates><x>-73.96</x><y>40.78</y></coordinates></node>
  </nodes>
  <links>
   <link id="ATLA_CHIN"><source>ATLA</source><target>CHIN</target>
    <preInstalledModule><capacity>9920.0</capacity><cost>0.0</cost></preInstalledModule>
    <additionalModules><addModule><capacity>40000.0</capacity></addModule></additionalModules>
   </link>
   <link id="CHIN_NYCM"><source>CHIN</source><target>NYCM</target>
    <additionalModules><addModule><capacity>40000.0</capacity></addModule></additionalModules>
   </link>
   <link id="NYCM_ATLA"><source>NYCM</source><target>ATLA</target></link>
  </links>
 </networkStructure>
 <demands>
  <demand id="ATLA_CHIN"><source>ATLA</source><target>CHIN</target>
   <demandValue>298.0</demandValue></demand>
  <demand id="NYCM_CHIN"><source>NYCM</source><target>CHIN</target><routingUnit>2</routingUnit>
   <demandValue>100.5</demandValue></demand>
 </demands>
</network>
"""


def test_both_forms_of_sndlib_give_one_document(tmp_path):
    raw = accepted("from-sndlib", written(tmp_path, "native", NATIVE))
    assert (
        raw
        == accepted("from-sndlib", written(tmp_path, "xml", XML))
        == accepted("from-sndlib", "-", given=XML.encode())
    )
    assert list(capacities(raw).values()) == [9_920_000] * 2 + [40_000_000] * 2 + [10_000_000] * 2
    assert [report["demand"] for report in raw["script"]] == [298_000, 201_000]


def test_units_and_lengths_of_sndlib(tmp_path):
    path = written(tmp_path, "native", NATIVE)
    assert accepted("from-sndlib", path, "--unit", "G")["script"][0]["demand"] == 298_000_000
    assert accepted("from-sndlib", path, "--by", "length")["groups"][0]["paths"][0] == [
        {"weight": 1, "links": ["ATLA_CHIN"]}
    ]


@pytest.mark.parametrize(
    "old, new, sentence",
    [
        (NATIVE, "", "has no sections NODES and LINKS"),
        (NATIVE, "<html/>", 'its first element is "html"'),
        (NATIVE, "<network", "is not XML"),
        ("LINKS (", "EDGES (", "has no sections NODES and LINKS"),
        (
            "( ATLA CHIN ) 9920.00",
            "( ATLA CHIM ) 9920.00",
            'there is no site "CHIM" in the network; did you mean "CHIN"?',
        ),
        ("9920.00", "much", 'link "ATLA_CHIN": "much" is no number'),
        ("9920.00", "NaN", 'link "ATLA_CHIN": "NaN" is no number'),
        ("9920.00", "1e15", "above 1,000,000,000,000 kb/s"),
        ("1 298.0", "1 -5", 'demand "ATLA_CHIN": "-5" is no number'),
        ("( ATLA CHIN ) 1", "( ATLA ATLA ) 1", 'demand "ATLA_CHIN" goes from "ATLA" to itself'),
        ("( ATLA CHIN ) 1", "ATLA CHIN 1", "is not as SNDlib has them"),
        ("-84.38", "west", "its coordinates are no numbers"),
    ],
)
def test_a_network_of_sndlib_that_is_at_fault_gets_a_sentence(tmp_path, old, new, sentence):
    assert old in NATIVE
    assert sentence in fails("from-sndlib", written(tmp_path, "native", NATIVE.replace(old, new)))


@pytest.mark.parametrize(
    "old, new, sentence",
    [
        ('<node id="ATLA">', "<node>", "a node has no id"),
        (
            "<source>NYCM</source><target>ATLA</target>",
            "<source>NYCM</source>",
            'link "NYCM_ATLA" has no target',
        ),
        ("<demandValue>298.0</demandValue>", "", 'demand "ATLA_CHIN" has no demandValue'),
        (
            "<source>NYCM</source><target>CHIN</target>",
            "<source>NYCX</source><target>CHIN</target>",
            'there is no site "NYCX"',
        ),
    ],
)
def test_xml_of_sndlib_that_is_at_fault_gets_a_sentence(tmp_path, old, new, sentence):
    assert old in XML
    assert sentence in fails("from-sndlib", written(tmp_path, "xml", XML.replace(old, new)))


# ---- from-csv

LINKS = (
    "from,to,capacity\nFrankfurt am Main,Amsterdam,40G\nAmsterdam,Paris,20G\nFrankfurt am"
    " Main,Paris,20000000\n"
)
DEMANDS = "from;to;demand;user;job;task;weight\nParis;Amsterdam;5G;;;;\n" + "".join(
    f"Frankfurt am Main;Amsterdam;{rate};{user};{job};{task};{weight}\n"
    for rate, user, job, task, weight in (
        ("30G", "web", "", "front", "2"),
        ("30G", "web", "", "", ""),
        ("1G", "logs", "ship", "", "1"),
    )
)


def test_spreadsheets_with_users_jobs_tasks_and_weights(tmp_path):
    raw = accepted(
        "from-csv",
        written(tmp_path, "l", "\ufeff" + LINKS),
        written(tmp_path, "d", DEMANDS.replace("\n", "\r\n")),
    )
    group = raw["groups"][1]
    assert group["name"] == "Frankfurt-am-Main_Amsterdam" and [
        user["name"] for user in group["users"]
    ] == ["web", "logs"]
    assert group["users"][0]["jobs"][0]["tasks"] == [
        {"name": "front", "reporter": "hosts", "weight": 2},
        {"name": "Frankfurt-am-Main_Amsterdam", "reporter": "hosts"},
    ]
    assert group["users"][1]["jobs"][0]["name"] == "ship"
    assert {
        json.dumps(job["task"])
        for group in raw["groups"]
        for user in group["users"]
        for job in user["jobs"]
    } == {"[[0, 0], [1000000, 30000000]]"}


def test_proportional_functions_end_at_the_greatest_demand_of_their_job(tmp_path):
    raw = accepted(
        "from-csv",
        written(tmp_path, "l", LINKS),
        written(tmp_path, "d", DEMANDS),
        "--fairness",
        "proportional",
    )
    assert raw["groups"][0]["users"][0]["jobs"][0]["task"] == [[0, 0], [1_000_000, 5_000_000]]


def test_other_names_of_columns_lengths_names_and_units(tmp_path):
    links = written(
        tmp_path,
        "l",
        "Source\tTarget\tBandwidth\tName\tkm\na\tb\t10\tnorth\t5\na\tc\t\t\t1\nc\tb\t3\t\t1\n",
    )
    raw = accepted("from-csv", links, "--unit", "G", "--by", "length")
    assert capacities(raw) == {
        "north": 10_000_000,
        "north-back": 10_000_000,
        "a_c": 10_000_000,
        "c_a": 10_000_000,
        "c_b": 3_000_000,
        "b_c": 3_000_000,
    }
    assert raw["groups"][0]["paths"][0] == [{"weight": 1, "links": ["a_c", "c_b"]}]


@pytest.mark.parametrize(
    "links, demands, sentence",
    [
        ("", DEMANDS, 'line 1: there is no column "from"'),
        ("from,two,capacity\n", DEMANDS, 'there is no column "to"; is "two" meant for it?'),
        (
            "from,to,colour\n",
            DEMANDS,
            'the column "colour" is none of from, to, capacity, name, length',
        ),
        ("from,to,to\n", DEMANDS, 'the column "to" stands twice'),
        ("from,to\n", DEMANDS, "there is no site"),
        ("from,to\na,b,c\n", DEMANDS, "line 2: 3 cells are more than the header's 2"),
        ("from,to\na,\n", DEMANDS, 'line 2: the column "to" is empty'),
        ("from,to\na,a\n", "from,to,demand\na,a,1\n", 'a demand goes from "a" to itself'),
        ("from,to,capacity\na,b,10 apples\n", DEMANDS, 'line 2: "10 apples" is no rate'),
        ("from,to,length\na,b,far\n", DEMANDS, 'line 2: the length "far" is no number'),
        (
            LINKS,
            "from,to,demand\nParis,Amsterdm,1G\n",
            'line 2: there is no site "Amsterdm" in the network; did you mean "Amsterdam"?',
        ),
        (
            LINKS,
            "from,to,demand,weight\nParis,Amsterdam,1G,0\n",
            'line 2: the weight "0" is no whole number from 1 to 1,000',
        ),
        (LINKS, "from,to,demand\nParis,Amsterdam,\n", 'line 2: the column "demand" is empty'),
        (LINKS, "from,to,demand\n", "has no demands"),
        (LINKS.encode("utf-16"), DEMANDS, "is not UTF-8"),
        (
            "from,to\na,b\nc,d\n",
            "from,to,demand\na,d,1\n",
            'there is no path of at most 32 links from "a" to "d" for its demand',
        ),
        ("from,to\na,a\n", "from,to,demand\n", "has no demands"),
    ],
)
def test_spreadsheets_that_are_at_fault_get_a_sentence(tmp_path, links, demands, sentence):
    assert sentence in fails(
        "from-csv", written(tmp_path, "l.csv", links), written(tmp_path, "d.csv", demands)
    )


def test_limits_of_a_document_are_told_in_a_sentence(tmp_path):
    demands = written(tmp_path, "d", "from,to,demand\nhub,s0,1\n")
    assert "65,538 links in both directions are more than a document's 65,536" in fails(
        "from-csv", written(tmp_path, "l", star(32_769)), demands
    )


def test_many_pairs_are_shared_out_and_get_the_same_paths(monkeypatch):
    ends = [(one, other) for one in "abcdef" for other in "abcdef" if one < other]
    links = [(f"{one}{other}", *pair) for one, other in ends for pair in [(one, other)]]
    found = routes.Routes(links + [(f"{other}{one}", other, one) for one, other in ends])
    alone = list(found.of_all(ends, 3))
    monkeypatch.setattr(routes, "MANY", 2)
    assert list(found.of_all(ends, 3)) == alone == [found.between(*pair, 3) for pair in ends]


def star(arms):
    return "from,to\n" + "".join(f"hub,s{at}\n" for at in range(arms))


def test_a_document_is_of_version_4_only_beyond_the_limits_of_version_3(tmp_path):
    demands = written(tmp_path, "d", "from,to,demand\nhub,s0,1\n")
    for arms, version in ((2_048, 3), (2_049, 4)):
        links = written(tmp_path, "l", star(arms))
        assert accepted("from-csv", links, demands)["version"] == version
    line = written(tmp_path, "l", "from,to\na,b\n")
    for tasks, version in ((20_000, 3), (20_001, 4)):
        many = written(tmp_path, "d", "from,to,demand\n" + "a,b,1\n" * tasks)
        assert accepted("from-csv", line, many)["version"] == version


@pytest.mark.parametrize("seed", range(20))
def test_networks_by_chance_give_documents_that_are_accepted(seed, tmp_path):
    chance = random.Random(seed)
    sites = [chance.choice(["", "São ", "x-"]) + str(at) for at in range(chance.randrange(2, 9))]
    links = "from,to,capacity\n" + "".join(
        "{},{},{}\n".format(*chance.sample(sites, 2), chance.choice(["", "0", "1T", "2.5G", "7"]))
        for _ in range(chance.randrange(1, 20))
    )
    words = [
        "--paths",
        chance.choice([1, 2, 3, 16]),
        "--top",
        chance.choice([1, 1000, 10**9]),
        "--demand",
        chance.choice(["0", "1G"]),
    ]
    words += chance.choice([[], ["--together"]]) + chance.choice([[], ["--one-way"]])
    words += ["--fairness", chance.choice(["equal", "proportional"])]
    accepted("from-csv", written(tmp_path, "links", links), *words)


def test_an_edge_from_a_site_to_itself_is_left_out_with_a_warning(tmp_path):
    file = tmp_path / "loop.graphml"
    file.write_text(
        '<graphml xmlns="http://graphml.graphdrawing.org/xmlns"><graph edgedefault="undirected">'
        '<node id="a"/><node id="b"/><edge source="a" target="a"/><edge source="a" target="b"/>'
        "</graph></graphml>"
    )
    answer = run("from-graphml", file, "--capacity", "10G", "--demand", "1G")
    assert answer.status == 0
    assert answer.err == f'bwe-tools: {file}: an edge from "a" to itself is left out\n'
    assert [link["name"] for link in json.loads(answer.out)["links"]] == ["a_b", "b_a"]
