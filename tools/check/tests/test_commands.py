"""The commands of the pages, run as they stand there, beside the examples."""

import re
import shutil
import subprocess
from pathlib import Path

import pytest

from tool_runs import needs_program

TOP = Path(__file__).resolve().parents[3]
LAUNCHERS = ("bwe", "bwe-live", "bwe-tools")
COMMAND = re.compile(
    r"^ {4}(?:\$ )?((?:printf [^|]*\| *)?(?:\.{1,2}/)+(?:bwe(?:-\w+)?|day\.py) .*)$"
)
# What goes on for ever, or needs what is not there.
LEFT_OUT = re.compile(r"bwe-control|<<|\\$")


def commands():
    """The commands of the indented blocks of each page, with the page."""
    pages = [TOP / "README.md", TOP / "docs/OPERATING.md", *sorted(TOP.glob("examples/*.md"))]
    for page in pages:
        for line in page.read_text().splitlines():
            found = COMMAND.match(line)
            if found and not LEFT_OUT.search(line):
                yield pytest.param(page, found[1], id=f"{page.stem}: {found[1]}")


@pytest.fixture(name="folder")
def made_folder(tmp_path):
    """A folder with the launchers and the examples, and what pages call network.json."""
    for name in LAUNCHERS:
        (tmp_path / name).symlink_to(TOP / name)
    shutil.copytree(TOP / "examples", tmp_path / "examples")
    (tmp_path / "network.json").symlink_to("examples/maintenance.json")
    (tmp_path / "table.txt").symlink_to("examples/maintenance.txt")
    (tmp_path / "conduits.txt").write_text("rhine fra-ams-1 fra-ams-2\n")
    return tmp_path


@needs_program
@pytest.mark.parametrize("page, command", commands())
def test_a_command_of_a_page_runs_as_typed(folder, page, command):
    ran = subprocess.run(
        ["bash", "-c", command],
        cwd=folder / "examples" if page.parent.name == "examples" else folder,
        stdin=subprocess.DEVNULL,
        capture_output=True,
        text=True,
        timeout=600,
        check=False,
    )
    warns = re.search(r"bwe-tools (lint|diff) ", command)
    assert ran.returncode == 0 or (warns and ran.returncode == 1), ran.stdout[-500:] + ran.stderr
    assert not re.search("Traceback|did you mean|no file", ran.stderr), ran.stderr


def test_there_are_commands_on_the_pages():
    assert len(list(commands())) > 10
