"""The examples are what their generators and the converters write, and lint finds no fault in them.
"""

import json
import os
import re
import subprocess
import sys

import pytest

from bwe_tools import shape
from bwe_tools.program import find_program
from tool_runs import EXAMPLES, ROOT, has_program, needs_program, run

DOCUMENTS = sorted(EXAMPLES.glob("*.json"))
PAGES = sorted(EXAMPLES.glob("*.md"))


@pytest.mark.parametrize("path", DOCUMENTS, ids=lambda path: path.stem)
def test_no_example_has_a_fault(path):
    answer = run("lint", path)
    assert answer.status in (0, 1) and " fault: " not in answer.out


@pytest.mark.parametrize(
    "name, words",
    [
        ("abilene", ["from-graphml", EXAMPLES / "abilene.graphml"]),
        ("geant", ["from-csv", EXAMPLES / "geant-links.csv", EXAMPLES / "geant-demands.csv"]),
    ],
)
def test_a_converted_example_is_what_the_converter_writes(name, words):
    assert run(*words).out == (EXAMPLES / f"{name}.json").read_text()


def test_the_day_is_what_its_generator_writes():
    made = subprocess.run([EXAMPLES / "day.py"], capture_output=True, check=True).stdout
    assert made == (EXAMPLES / "day.json").read_bytes()
    for words in (["0"], ["25"], ["noon"], ["1", "2"]):
        told = subprocess.run(
            [sys.executable, EXAMPLES / "day.py", *words], capture_output=True, check=False
        )
        assert told.returncode == 1 and told.stdout == b"" and b"usage: day.py" in told.stderr


@needs_program
@pytest.mark.parametrize("path", DOCUMENTS, ids=lambda path: path.stem)
def test_the_table_of_an_example_is_what_bwe_writes(path):
    table = subprocess.run(
        [find_program(), "solve"], input=path.read_bytes(), capture_output=True, check=True
    ).stdout
    assert table == path.with_suffix(".txt").read_bytes()


def test_the_page_of_examples_names_every_document_and_page():
    text = (EXAMPLES / "README.md").read_text()
    assert all(f"`{path.name}`" in text for path in DOCUMENTS)
    assert all(f"({path.name})" in text for path in PAGES if path.name != "README.md")


@pytest.mark.parametrize("path", PAGES, ids=lambda path: path.stem)
def test_files_that_a_page_of_examples_names_are_there(path):
    for name in re.findall(
        r"`([a-z0-9-]+\.(?:json|txt|csv|py|graphml|tiers|samples|events))`", path.read_text()
    ):
        assert (EXAMPLES / name).exists(), name


# ---- the document that FORMAT explains


def keys_of(value):
    """All keys of the objects of a document."""
    members = (
        value.values() if isinstance(value, dict) else value if isinstance(value, list) else []
    )
    return set(value if isinstance(value, dict) else ()).union(*map(keys_of, members))


def properties_of(schema):
    """All keys that a schema has a rule for."""
    members = (
        schema.values() if isinstance(schema, dict) else schema if isinstance(schema, list) else []
    )
    own = schema.get("properties", {}) if isinstance(schema, dict) else {}
    return set(own).union(*map(properties_of, members))


def test_the_document_of_the_format_is_accepted_and_its_table_is_right():
    section = (ROOT / "docs" / "FORMAT.md").read_text().split("### A whole document")[1]
    document, table = section.split("```\n")[1:4:2]
    data = re.sub(r" +# .*", "", document).encode()
    answer = run("lint", given=data)
    assert answer.status == 1 and " fault: " not in answer.out
    assert keys_of(json.loads(data)) == properties_of(json.loads(shape.SCHEMA.read_text()))
    if has_program():
        for line, wanted in (("solve", table), ("check", "right\n")):
            told = subprocess.run(
                [find_program(), line], input=data, capture_output=True, check=True
            )
            assert told.stdout.decode() == wanted


# ---- from a GraphML file to a page, by the launchers and a shell


@needs_program
def test_five_commands_lead_from_a_graphml_file_to_a_page_that_shows_the_load(tmp_path):
    tool = f"{ROOT}/bwe-tools"
    commands = [
        f"{tool} from-graphml {EXAMPLES}/abilene.graphml > abilene.json",
        f"{tool} lint abilene.json",
        f"{find_program()} solve < abilene.json > abilene.txt",
        f"{tool} explain abilene.json abilene.txt",
        f"{tool} page abilene.json abilene.txt -o abilene.html",
    ]
    for command in commands:
        told = subprocess.run(
            command,
            shell=True,
            cwd=tmp_path,
            env=dict(os.environ),
            capture_output=True,
            text=True,
            check=False,
        )
        assert told.returncode == 0 and told.stderr == "", (command, told.stderr)
    assert (tmp_path / "abilene.txt").read_bytes() == (EXAMPLES / "abilene.txt").read_bytes()
    page = (tmp_path / "abilene.html").read_text()
    assert (
        "<svg" in page
        and "Seattle" in page
        and "http://" not in page.replace("http://www.w3.org/", "")
    )
