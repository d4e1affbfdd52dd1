"""What a document is given: explain, whatif, diff and page."""

import json
import math
import re
from html.parser import HTMLParser
from xml.etree import ElementTree

import pytest

from bwe_tools.document import to_raw
from bwe_tools.drains import two_ways
from bwe_tools.files import read_document
from bwe_tools.layout import positions
from bwe_tools.network_map import strands_of
from bwe_tools.program import solve, values_at_top
from bwe_tools.questions import askable, shared_out
from bwe_tools.rate import percent, rate
from bwe_tools.view import view_of
from tool_runs import EXAMPLES, fails, needs_live, needs_program, run, stand_in

pytestmark = needs_program
DOCUMENTS = sorted(EXAMPLES.glob("*.json"))
MAINTENANCE = EXAMPLES / "maintenance.json"
SHARED_LINK = EXAMPLES / "shared-link.json"


def changed(path, folder, change):
    """A copy of a document with a change made to it."""
    whole = json.loads(path.read_text())
    change(whole)
    copy = folder / "changed.json"
    copy.write_text(json.dumps(whole))
    return copy


def view(path):
    text, document = read_document(str(path))
    return view_of(document, solve(text), values_at_top(text))


@pytest.mark.parametrize(
    "kilobits, text",
    [
        (0, "0"),
        (1, "1 kbit/s"),
        (999, "999 kbit/s"),
        (1000, "1 Mbit/s"),
        (19_980_000, "19.98 Gbit/s"),
        (20 * 10**15, "20,000,000 Tbit/s"),
        (-40_130_000, "-40.13 Gbit/s"),
    ],
)
def test_rates_have_units(kilobits, text):
    assert rate(kilobits) == text


def test_a_percent_is_a_hundred_only_where_all_is_used():
    assert [percent(*pair) for pair in ((9999, 10000), (1, 1), (1, 3), (0, 5), (3, 0))] == [
        "99.9 %",
        "100 %",
        "33.3 %",
        "0 %",
        "-",
    ]


# ---- explain


@pytest.mark.parametrize("path", DOCUMENTS, ids=lambda path: path.stem)
def test_explain_names_every_link_group_and_held_task(path):
    answer = run("explain", path)
    assert answer.status == 0
    seen = view(path)
    for link in seen.links:
        assert re.search(
            rf"^{re.escape(link.name)} .*{re.escape(link.state)}$", answer.out, re.MULTILINE
        )
    for group in seen.groups:
        assert f"group {group.name}, {group.source} -> {group.target}\n" in answer.out
    for task in seen.tasks():
        assert (task.limit < task.demand) == bool(task.held_by)
        assert (f"/{task.name} " in answer.out) == task.is_held


def test_explain_takes_the_table_that_was_kept():
    kept = EXAMPLES / "shared-link.txt"
    assert run("explain", SHARED_LINK, kept).out == run("explain", SHARED_LINK).out
    assert "of another document" in fails("explain", MAINTENANCE, kept)


def test_a_table_of_other_reports_is_refused(tmp_path):
    copy = changed(SHARED_LINK, tmp_path, lambda whole: whole["script"].pop())
    assert "make the table again" in fails("explain", copy, EXAMPLES / "shared-link.txt")


def test_a_task_is_held_by_the_functions_above_it(tmp_path):
    def change(whole):
        whole["links"][0]["capacity"] = 10**6
        first, second = (group["users"][0] for group in whole["groups"])
        first["jobs"][0]["task"] = [[0, 0], [100, 60]]
        second["function"] = [[0, 0], [100, 70]]

    held = {
        task.name: task.held_by for task in view(changed(SHARED_LINK, tmp_path, change)).tasks()
    }
    assert held["t0"] == "the task function of job j0, at most 60 kbit/s"
    assert held["t1"] == "the function of user u0, at most 70 kbit/s"


def test_a_task_is_held_by_the_links_of_its_group():
    held = {task.name: task.held_by for task in view(SHARED_LINK).tasks()}
    assert held == {"t0": "l0 (full at share 50)", "t1": "l0 (full at share 50)"}


# ---- whatif


def with_changes(document, changes):
    """The document's JSON with the capacities and demands of an answer of whatif."""
    raw = to_raw(document)
    capacities, demands = changes["capacities"], changes["demands"]
    links = [{**link, "capacity": capacities.get(link["name"], link["capacity"])}
             for link in raw["links"]]
    script = [report for report in raw["script"] if report.get("link") not in capacities]
    owners = {task.name: task.reporter for task in document.tasks()}
    reports = [{"reporter": owners[task], "task": task, "demand": demand}
               for task, demand in demands.items()]
    return {**raw, "links": links, "script": script + reports}


def agrees(document, answer, changes):
    """Whether an answer of whatif is that of the table of the document with the changes."""
    table = solve(json.dumps(with_changes(document, changes)).encode())
    empty = {group.name for group in table.groups if group.amount == 0}
    return (
        changes["total"] == table.total == answer["total"] - changes["lost"]
        and empty.issuperset(changes["groups_with_nothing"])
        and all(loss["after"] * 10 < loss["before"] * 9 for loss in changes["tasks_that_lose"])
    )


@needs_live
@pytest.mark.parametrize("path", DOCUMENTS, ids=lambda path: path.stem)
def test_whatif_agrees_with_the_table_of_the_drained_document(path):
    _, document = read_document(str(path))
    answer = json.loads(run("whatif", path, "--json").out)
    assert [drain["links"] for drain in answer["drains"]] == [
        [link.name] for link in document.links
    ]
    for drain in answer["drains"][:6]:
        assert drain["capacities"] == dict.fromkeys(drain["links"], 0)
        assert agrees(document, answer, drain)


@needs_live
def test_whatif_asks_about_capacities_demands_and_two_at_once():
    path = EXAMPLES / "b4-like.json"
    _, document = read_document(str(path))
    words = ["--capacity", "us-east-2_eu-2=80G", "--demand", "copy_us-mid-2_eu-2=x1.5",
             "--demand", "bulk_us-east-1_eu-2=1G", "--json"]
    for more, count in ([], 3), (["--pairs"], 3), (["--together"], 1):
        answer = json.loads(run("whatif", path, *words, *more).out)
        assert len(answer["drains"]) == count
        assert all(agrees(document, answer, changes) for changes in answer["drains"])
    assert answer["drains"][0]["capacities"] == {"us-east-2_eu-2": 80_000_000}
    assert sum(answer["drains"][0]["demands"].values()) > 1_000_000


@needs_live
def test_whatif_drains_the_links_that_share_a_fate(tmp_path):
    risks = tmp_path / "risks"
    risks.write_text("# conduits\nnorth: fra-ams-1 fra-ams-2\n\nsouth fra-par  # one way\n")
    answer = json.loads(run("whatif", MAINTENANCE, "--srlg", risks, "--json").out)
    assert [drain["links"] for drain in answer["drains"]] == [
        ["fra-ams-1", "fra-ams-2"], ["fra-par"]
    ]
    (both,) = json.loads(run("whatif", MAINTENANCE, "--srlg", risks, "--pairs", "--json").out)[
        "drains"
    ]
    assert both["total"] == 0 and both["groups_with_nothing"] == ["serving", "copy"]
    assert "north" in run("whatif", MAINTENANCE, "--srlg", risks).out


def test_whatif_says_what_is_wrong_with_a_question(tmp_path):
    risks = tmp_path / "risks"
    for text, told in (
        ("", "has no groups"),
        ("north", "has no links"),
        ("a fra-par\na fra-ams-1", "line 2: group a stands twice"),
        ("a fra-par nowhere", "line 1: the document has no link nowhere"),
    ):
        risks.write_text(text)
        assert told in fails("whatif", MAINTENANCE, "--srlg", risks)
    for words, told in (
        (["--capacity", "nowhere=1G"], "no link nowhere"),
        (["--capacity", "fra-par"], "is not as LINK=80G"),
        (["--capacity", "fra-par=many"], "is no rate"),
        (["--demand", "nobody=x2"], "no group nobody"),
        (["--demand", "copy=x1000000"], "is no rate"),
        (["--demand", "copy=2000T"], "is above"),
    ):
        assert told in fails("whatif", MAINTENANCE, *words), words


def test_a_demand_is_shared_out_whole():
    assert shared_out({"a": 1, "b": 2, "c": 0}, 10) == {"a": 3, "b": 7, "c": 0}
    assert shared_out({"a": 0, "b": 0, "c": 0}, 10) == {"a": 3, "b": 3, "c": 4}


def test_a_document_can_be_asked_about_links_that_nobody_owns():
    for path in DOCUMENTS:
        _, document = read_document(str(path))
        asked = askable(document)
        assert all(link.owner in asked.reporters for link in asked.links)
        assert set(document.reporters) <= set(asked.reporters)


@needs_live
def test_whatif_says_what_is_lost():
    answer = run("whatif", SHARED_LINK)
    assert answer.status == 0
    assert re.search(
        r"^l0 +100 kbit/s +0 +-100 kbit/s +g0, g1 +2: t0, t1$", answer.out, re.MULTILINE
    )


@needs_live
def test_whatif_drains_links_together():
    answer = json.loads(
        run("whatif", MAINTENANCE, "--together", "--json", "par-ams", "fra-ams-2").out
    )
    (drain,) = answer["drains"]
    assert drain["links"] == ["fra-ams-2", "par-ams"]


@needs_live
def test_links_are_paired_with_those_that_lead_back(tmp_path):
    def change(whole):
        for name, source, target in (
            ("l1", "b", "a"),
            ("l2", "a", "b"),
            ("l3", "b", "a"),
            ("l4", "a", "c"),
        ):
            whole["links"].append({"name": name, "from": source, "to": target, "capacity": 5})

    copy = changed(SHARED_LINK, tmp_path, change)
    _, document = read_document(str(copy))
    assert two_ways(document) == [["l0", "l1"], ["l2", "l3"], ["l4"]]
    answer = json.loads(run("whatif", copy, "--two-ways", "--json", "l3").out)
    assert [drain["links"] for drain in answer["drains"]] == [["l2", "l3"]]


def test_whatif_names_what_it_cannot_drain():
    assert "no link nowhere" in fails("whatif", MAINTENANCE, "nowhere")
    assert "nothing is" in fails("whatif", MAINTENANCE, "--together")


# ---- diff


@pytest.mark.parametrize("path", DOCUMENTS, ids=lambda path: path.stem)
def test_a_document_is_as_it_is_with_other_white_space(path, tmp_path):
    answer = run("diff", path, changed(path, tmp_path, lambda whole: None))
    assert (answer.status, answer.out) == (0, "No changes.\n")


def test_diff_shows_what_comes_goes_and_changes(tmp_path):
    def change(whole):
        whole["links"].append({"name": "l1", "from": "a", "to": "b", "capacity": 7})
        del whole["groups"][1], whole["script"][1]
        whole["script"][0]["demand"] = 70

    answer = run("diff", SHARED_LINK, changed(SHARED_LINK, tmp_path, change))
    assert answer.status == 1
    for line in (
        "  + link l1\n",
        "  - group g1\n",
        "  - task g1/u0/j0/t1\n",
        "  ~ task g0/u0/j0/t0\n      ~ demand: 80 kbit/s -> 70 kbit/s\n",
        "\n1 to add, 2 to change, 4 to remove.\n",
    ):
        assert line in answer.out


def test_diff_tells_another_order(tmp_path):
    copy = changed(MAINTENANCE, tmp_path, lambda whole: whole["links"].reverse())
    assert "~ order of links" in run("diff", MAINTENANCE, copy).out


def test_diff_shows_exact_numbers_where_rounded_ones_are_the_same(tmp_path):
    def change(whole):
        whole["script"][0]["demand"] -= 1

    answer = run("diff", MAINTENANCE, changed(MAINTENANCE, tmp_path, change))
    assert "demand: 18000000 -> 17999999 kbit/s" in answer.out


def test_diff_of_tables():
    same = run("diff", EXAMPLES / "maintenance.txt", EXAMPLES / "maintenance.txt")
    assert (same.status, same.out) == (0, "No changes.\n")
    other = run("diff", EXAMPLES / "shared-link.txt", EXAMPLES / "maintenance.txt")
    assert other.status == 1 and "~ total: 100 kbit/s -> " in other.out


def test_diff_takes_two_of_a_kind(tmp_path):
    assert "give two of a kind" in fails("diff", MAINTENANCE, EXAMPLES / "maintenance.txt")
    (tmp_path / "words").write_text("hello\n")
    assert "neither a document" in fails("diff", tmp_path / "words", MAINTENANCE)


# ---- page


class Reader(HTMLParser):
    """Checks that elements close in order, and keeps what a page refers to."""

    EMPTY = {"meta", "link", "input", "br"}

    def __init__(self):
        super().__init__()
        self.open, self.references, self.rows = [], [], 0

    def handle_starttag(self, tag, attributes):
        self.references += [value for name, value in attributes if name in ("href", "src")]
        self.rows += tag == "tr"
        if tag not in self.EMPTY:
            self.open.append(tag)

    def handle_startendtag(self, tag, attributes):
        pass

    def handle_endtag(self, tag):
        assert self.open.pop() == tag


@pytest.mark.parametrize("path", DOCUMENTS, ids=lambda path: path.stem)
def test_a_page_stands_alone(path, tmp_path):
    drains = tmp_path / "drains.json"
    drains.write_text(run("whatif", path, "--json").out)
    answer = run("page", path, "--whatif", drains, "-o", tmp_path / "page.html")
    assert (answer.status, answer.out) == (0, "")
    text = (tmp_path / "page.html").read_text()
    reader = Reader()
    reader.feed(text)
    assert reader.open == []
    assert all(value.startswith("#") or value == "data:," for value in reader.references)
    assert "http:" not in text and "https:" not in text and "url(" not in text
    seen = view(path)
    heads, drained_rows = 4, len(seen.links)
    assert reader.rows == heads + drained_rows + len(seen.links) + len(seen.groups) + len(
        list(seen.tasks())
    )
    for link in seen.links:
        assert text.count(f'data-link="{link.name}"') >= 2


def test_a_page_says_so_where_it_leaves_tasks_out():
    text = run("page", MAINTENANCE, "--tasks", "2").out
    assert "2 of 5 tasks, held ones first." in text


def test_a_page_of_an_empty_document(tmp_path):
    def change(whole):
        whole.update(links=[], groups=[], script=[])

    copy = changed(SHARED_LINK, tmp_path, change)
    answer = run("page", copy)
    assert answer.status == 0 and "</html>" in answer.out
    assert run("explain", copy).status == 0
    assert "no link to draw" in fails("page", copy, "--picture")


@pytest.mark.parametrize("path", DOCUMENTS, ids=lambda path: path.stem)
def test_a_picture_is_svg_with_all_links(path):
    answer = run("page", path, "--picture")
    root = ElementTree.fromstring(answer.out)
    names = [each.get("data-link") for each in root.iter("{http://www.w3.org/2000/svg}g")]
    assert sorted(filter(None, names)) == sorted(link.name for link in view(path).links)


@pytest.mark.parametrize("path", DOCUMENTS, ids=lambda path: path.stem)
def test_the_picture_of_an_example_is_of_its_table(path):
    kept = path.with_suffix(".svg").read_text()
    drawn = run("page", path, "--picture").out
    titles, labels = r"<title>(.*?)</title>", r'<text class="load [^>]*>(.*?)<'
    for part in (titles, labels):
        assert sorted(re.findall(part, kept)) == sorted(re.findall(part, drawn))


def test_a_picture_is_the_same_each_time():
    assert run("page", MAINTENANCE, "--picture").out == run("page", MAINTENANCE, "--picture").out


def test_parallel_links_are_bent_apart():
    strands = strands_of(view(MAINTENANCE).links)
    assert sorted(strand.bend for strand in strands) == [-0.5, 0, 0, 0.5]


def test_drains_of_another_document_are_refused(tmp_path):
    drains = tmp_path / "drains.json"
    drains.write_text(run("whatif", SHARED_LINK, "--json").out)
    assert "of another document" in fails("page", MAINTENANCE, "--whatif", drains)
    drains.write_text("[]")
    assert "is not what" in fails("page", MAINTENANCE, "--whatif", drains)


def test_a_page_that_cannot_be_written_gets_a_sentence(tmp_path):
    assert "cannot be written" in fails(
        "page", MAINTENANCE, "-o", tmp_path / "absent" / "page.html"
    )


# ---- bad documents and programs


@pytest.mark.parametrize("command", ["explain", "whatif", "page"])
@pytest.mark.parametrize("change", [{"top": 0}, {"links": 7}, {"version": 9}])
def test_a_document_of_another_shape_gets_a_sentence(command, change, tmp_path):
    assert "lint" in fails(
        command, changed(MAINTENANCE, tmp_path, lambda whole: whole.update(change))
    )


@pytest.mark.parametrize("command", ["explain", "whatif", "page"])
def test_no_document_gets_a_sentence(command, tmp_path):
    (tmp_path / "words").write_text("hello\n")
    assert "is not JSON" in fails(command, tmp_path / "words")
    assert "refused 2 shape at /" in fails(command, "-", given=b"{}")
    assert "No such file" in fails(command, tmp_path / "absent.json")


@pytest.mark.parametrize(
    "script, sentence",
    [
        (
            "cat > /dev/null; echo refused 4 range at /top; exit 3",
            "refuses {}: refused 4 range at /top (",
        ),
        ("cat > /dev/null; exit 6", "ran out of memory"),
        ("cat > /dev/null; exit 2", "does not know the command `bwe levels 1000000000`"),
        ("cat > /dev/null; exit 99", "status 99"),
        ("cat > /dev/null; kill -9 $$", "signal 9"),
    ],
)
def test_each_status_of_the_program_has_a_sentence(script, sentence, tmp_path, monkeypatch):
    monkeypatch.setenv("BWE", str(stand_in(tmp_path, script)))
    assert sentence.format(SHARED_LINK) in fails("explain", SHARED_LINK)


def test_a_program_that_is_not_there_gets_a_sentence(tmp_path, monkeypatch):
    monkeypatch.setenv("BWE", str(tmp_path / "absent"))
    assert "no program that can be run" in fails("explain", SHARED_LINK)


def test_a_map_keeps_its_sites_apart_and_goes_to_the_right():
    ends = [("a", "b"), ("b", "c"), ("c", "d"), ("d", "a"), ("a", "c"), ("e", "f")]
    spots = positions(list("abcdefg"), ends)
    assert sorted(spots) == list("abcdefg")
    places = list(spots.values())
    assert min(math.dist(p, q) for at, p in enumerate(places) for q in places[:at]) > 0.4
    assert spots["e"][0] < spots["f"][0]


# ---- all links that hold a group


@needs_program
def test_all_links_that_would_be_over_at_the_next_share_are_named():
    text = run("explain", EXAMPLES / "maintenance.json").out
    assert "by fra-par>par-ams, held by fra-par and par-ams" in text
    assert "fra-par (full at share 540, with par-ams)" in text
    assert "with <b>par-ams</b>" in run("page", EXAMPLES / "maintenance.json").out
    metrics = run(
        "metrics", EXAMPLES / "maintenance.txt", "--document", EXAMPLES / "maintenance.json"
    )
    assert 'bwe_path_group_over{group="copy",place="1",link="par-ams"} 1' in metrics.out


@needs_program
def test_a_group_is_told_what_more_capacity_brings_on_each_link_and_on_all():
    rows = run("explain", EXAMPLES / "maintenance.json", "--group", "copy").out.splitlines()
    gains = {row.split("  ")[0]: row.split()[-2:] for row in rows[rows.index("") + 2 :]}
    assert gains["fra-par"][-1] == gains["par-ams"][-1] == "0"
    assert gains["fra-ams-2 and fra-par and par-ams"] == ["5.99", "Gbit/s"]


@needs_program
def test_a_group_that_is_not_there_is_told():
    assert "no group x" in fails("explain", EXAMPLES / "maintenance.json", "--group", "x")
