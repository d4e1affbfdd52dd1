"""Reading and writing tables: their text, their JSON and their metrics."""

import json
import re
import shutil
import subprocess

import pytest

from bwe_tools.document import ToolError
from bwe_tools.table import parse_table
from tool_runs import CASES, EXAMPLES, ROOT, fails, needs_program, run

TABLES = sorted(
    path
    for path in [*EXAMPLES.glob("*.txt"), *CASES.rglob("stdout")]
    if path.parent.parent.name != "live" and path.read_bytes().startswith(b"table ")
)
SMALL = (
    "table 1\nlink l0 load 5\n"
    "group g share 9 amount 5\nplace 0 amount 5 open\ntask t limit 5\ntotal 5\n"
)


def test_there_are_tables_to_read():
    assert len(TABLES) > 3


@pytest.mark.parametrize("path", TABLES, ids=lambda path: f"{path.parent.name}-{path.name}")
def test_a_table_is_written_back_byte_for_byte(path):
    assert parse_table(path.read_bytes()).text().encode() == path.read_bytes()


@pytest.mark.parametrize("path", TABLES, ids=lambda path: f"{path.parent.name}-{path.name}")
def test_json_and_back_gives_the_bytes(path):
    there = run("json", path)
    assert there.status == 0
    back = run("json", "--back", "-", given=there.out.encode())
    assert (back.status, back.out.encode()) == (0, path.read_bytes())


@pytest.mark.parametrize(
    "old, new, sentence",
    [
        ("table 1", "tables 1", "`tables 1` is no `table` line"),
        ("load 5", "load 05", "line 2"),
        ("load 5", "load -5", "line 2"),
        ("place 0", "place 1", "place 0 of group g is due, and this is 1"),
        ("place 0 amount 5 open\n", "", "`task t limit 5` is no `place` line"),
        ("open", "closed", "is no `place` line"),
        ("total 5\n", "", "ends where a `total` line is due"),
        ("total 5\n", "total 5", "does not end with a line feed"),
        ("total 5\n", "total 5\nmore\n", "goes on after its total"),
        ("link l0", "link \u00e90", "not plain ASCII"),
    ],
)
def test_what_is_no_table_gets_a_sentence(old, new, sentence):
    with pytest.raises(ToolError, match=re.escape(sentence)):
        parse_table(SMALL.replace(old, new).encode())


def test_json_is_that_of_the_schema():
    answer = json.loads(run("json", EXAMPLES / "maintenance.txt").out)
    schema = json.loads((ROOT / "docs" / "table.schema.json").read_text())
    assert set(answer) == set(schema["required"])
    assert answer["groups"][0]["path_groups"][0]["closed_by"] is not None


@pytest.mark.parametrize(
    "change, sentence",
    [
        (lambda whole: whole.pop("total"), "'total' is a required property"),
        (lambda whole: whole.update(total=1.0), "at /total"),
        (lambda whole: whole.update(total=-1), "at /total"),
        (lambda whole: whole["links"][0].update(name="a b"), "at /links/0/name"),
        (lambda whole: whole["tasks"].append(7), "at /tasks/"),
        (lambda whole: whole.update(extra=1), "'extra'"),
    ],
)
def test_json_of_no_table_is_refused(change, sentence):
    whole = json.loads(run("json", EXAMPLES / "maintenance.txt").out)
    change(whole)
    assert sentence in fails("json", "--back", "-", given=json.dumps(whole).encode())


def test_no_json_and_no_file_get_a_sentence(tmp_path):
    assert "is not JSON" in fails("json", "--back", "-", given=b"{")
    assert "No such file" in fails("json", tmp_path / "absent.txt")
    assert "no `table` line" in fails("json", EXAMPLES / "maintenance.json")


def test_a_name_with_a_line_feed_is_no_name():
    whole = json.loads(run("json", EXAMPLES / "maintenance.txt").out)
    whole["links"][0]["name"] += "\n"
    fails("json", "--back", "-", given=json.dumps(whole).encode())


METRIC = re.compile(r'[a-z_]+(\{[a-z_]+="[A-Za-z0-9._-]+"(,[a-z_]+="[A-Za-z0-9._-]+")*\})? [0-9]+')


@needs_program
def test_metrics_are_prometheus_text():
    answer = run(
        "metrics", EXAMPLES / "maintenance.txt", "--document", EXAMPLES / "maintenance.json"
    )
    assert answer.status == 0
    named = set()
    for line in answer.out.splitlines():
        if line.startswith("# TYPE "):
            assert line.split()[2] not in named and line.endswith(" gauge")
            named.add(line.split()[2])
        elif not line.startswith("# HELP "):
            assert METRIC.fullmatch(line), line
            assert re.split("[{ ]", line)[0] in named
    assert 'bwe_link_capacity_bytes_per_second{link="fra-ams-1"} 0' in answer.out
    total = parse_table((EXAMPLES / "maintenance.txt").read_bytes()).total
    assert f"bwe_total_bytes_per_second {total * 125}\n" in answer.out


def test_metrics_need_no_document():
    answer = run("metrics", EXAMPLES / "maintenance.txt")
    assert "bwe_link_load" in answer.out and "bwe_link_capacity" not in answer.out


@needs_program
def test_metrics_of_another_document_are_refused():
    text = fails(
        "metrics", EXAMPLES / "shared-link.txt", "--document", EXAMPLES / "maintenance.json"
    )
    assert "of another document" in text


@pytest.mark.skipif(shutil.which("promtool") is None, reason="there is no promtool")
@needs_program
@pytest.mark.parametrize("table", ["maintenance.txt", "shared-link-tiers.txt"])
def test_promtool_has_nothing_to_say_of_metrics(table):
    document = {"maintenance.txt": "maintenance.json", "shared-link-tiers.txt": "shared-link.json"}
    answer = run("metrics", EXAMPLES / table, "--document", EXAMPLES / document[table])
    told = subprocess.run(
        ["promtool", "check", "metrics"], input=answer.out, text=True, capture_output=True
    )
    assert (told.returncode, told.stdout + told.stderr) == (0, "")


TIERS = [EXAMPLES / "shared-link-tiers.txt", EXAMPLES / "b4-like-tiers.txt"]


@pytest.mark.parametrize("file", TIERS, ids=lambda file: file.stem)
def test_a_table_of_tiers_is_read_and_written_byte_for_byte(file):
    table = parse_table(file.read_bytes())
    assert table.text() == file.read_text() and table.tiers in (2, 3)
    back = run("json", "--back", "-", given=run("json", file).out.encode())
    assert back.out == file.read_text()


def test_a_closing_of_a_tier_that_is_not_there_is_refused():
    whole = json.loads(run("json", TIERS[0]).out)
    whole["closings"][0]["tier"] = 7
    assert "of no tier" in fails("json", "--back", "-", given=json.dumps(whole).encode())


@needs_program
def test_a_table_of_tiers_is_explained_drawn_and_compared(tmp_path):
    document = EXAMPLES / "shared-link.json"
    text = run("explain", document, TIERS[0]).out
    assert "l0 in tier 1" in text
    assert "l0 in tier 1" in run("page", document, TIERS[0]).out
    answer = run("diff", EXAMPLES / "shared-link.txt", TIERS[0])
    assert answer.status == 1 and "+ closing l0 in tier 1" in answer.out


def test_output_that_cannot_be_written_is_told_in_a_sentence():
    with open("/dev/full", "w", encoding="ascii") as full:
        words = [ROOT / "bwe-tools", "metrics", EXAMPLES / "maintenance.txt"]
        child = subprocess.run(words, stdout=full, stderr=subprocess.PIPE, text=True)
    assert child.returncode == 2
    assert child.stderr == "bwe-tools: the output cannot be written: No space left on device\n"
