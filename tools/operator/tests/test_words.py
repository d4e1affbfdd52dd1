"""Completions, the manual and the entry script: that they run and fit each other."""

import re
import shutil
import subprocess

import pytest

from bwe_tools.cli import group
from tool_runs import EXAMPLES, ROOT

COMMANDS = (
    "diff", "explain", "json", "lint", "metrics", "page", "quality", "split", "whatif"
)
LINES = "solve check run make bulk audit tiers enforce estimate levels".split()


def shell(text: str) -> list[str]:
    words = ["bash", "--norc", "-c", text]
    return subprocess.run(
        words, cwd=ROOT, capture_output=True, text=True, check=True
    ).stdout.split()


def completed(file: str, function: str, *words: str) -> list[str]:
    """What bash completes the last of the words to."""
    quoted = " ".join(f"'{word}'" for word in words)
    return shell(
        f"source completions/{file}; COMP_WORDS=({quoted}); COMP_CWORD={len(words) - 1};"
        f' {function} {words[0]}; printf "%s\\n" "${{COMPREPLY[@]}}"'
    )


def test_bash_completes_the_lines_of_bwe():
    assert completed("bwe.bash", "_bwe", "bwe", "") == LINES + ["--help", "--version"]
    assert completed("bwe.bash", "_bwe", "bwe", "run", "--re") == ["--readers", "--reads"]
    assert completed("bwe.bash", "_bwe", "bwe", "solve", "examples/shared-link.js") == [
        "examples/shared-link.json"
    ]
    assert completed("bwe.bash", "_bwe", "bwe", "tiers", "x.json", "examples/shared-link.ti") == [
        "examples/shared-link.tiers"
    ]
    assert completed("bwe.bash", "_bwe", "bwe", "levels", "examples/sh") == []
    assert completed("bwe.bash", "_bwe", "bwe", "make", "") == []


def test_bash_completes_the_words_of_bwe_live():
    assert completed("bwe-live.bash", "_bwe_live", "bwe-live", "--") == ["--help", "--version"]
    assert completed("bwe-live.bash", "_bwe_live", "bwe-live", "examples/shared-link.js") == [
        "examples/shared-link.json"
    ]


def test_bash_completes_the_commands_of_bwe_tools():
    tool = "./bwe-tools"
    assert completed("bwe-tools.bash", "_bwe_tools", tool, "what") == ["whatif"]
    assert "--together" in completed("bwe-tools.bash", "_bwe_tools", tool, "whatif", "--")


@pytest.mark.skipif(shutil.which("fish") is None, reason="there is no fish")
@pytest.mark.parametrize(
    "line, found",
    [
        ("bwe lev", ["levels"]),
        ("bwe run --re", ["--readers", "--reads"]),
        ("bwe tiers examples/shared-link.js", ["examples/shared-link.json"]),
        ("bwe make ", []),
        ("bwe-live examples/shared-link.js", ["examples/shared-link.json"]),
        ("./bwe-tools what", ["whatif"]),
        ("./bwe-tools lint examples/shared-link.js", ["examples/shared-link.json"]),
    ],
)
def test_fish_completes_commands_options_and_files(line, found):
    name = line.split()[0].removeprefix("./")
    script = f"source completions/{name}.fish; complete -C '{line}'"
    told = subprocess.run(
        ["fish", "--no-config", "-c", script], cwd=ROOT, capture_output=True, text=True, check=True
    )
    assert [row.split("\t")[0] for row in told.stdout.splitlines()] == found


@pytest.mark.skipif(shutil.which("zsh") is None, reason="there is no zsh")
@pytest.mark.parametrize("name", ["_bwe", "_bwe-live", "_bwe-tools"])
def test_zsh_reads_its_completions(name):
    subprocess.run(["zsh", "-n", ROOT / "completions" / name], check=True)


def test_each_command_has_help_and_a_place_in_the_manual():
    manual = (ROOT / "man" / "bwe-tools.1").read_text()
    names = group.list_commands(None)
    assert set(COMMANDS) <= set(names)
    for name in names:
        assert f"\n.It Cm {name} " in manual or f"\n.It Cm {name}\n" in manual
        assert group.get_command(None, name).help


def test_the_manual_has_each_line_and_status_of_bwe():
    manual = (ROOT / "man" / "bwe.1").read_text()
    for line in LINES:
        assert re.search(rf"^\.It Cm .*\b{line}\b", manual, re.MULTILINE), line
    assert re.findall(r"^\.It ([0-9]+)$", manual, re.MULTILINE) == [*map(str, range(9)), "70"]


@pytest.mark.skipif(shutil.which("mandoc") is None, reason="there is no mandoc")
@pytest.mark.parametrize("name", ["bwe.1", "bwe-tools.1"])
def test_mandoc_has_nothing_to_say(name):
    words = ["mandoc", "-T", "lint", "-W", "warning", ROOT / "man" / name]
    assert subprocess.run(words, capture_output=True).stdout == b""


def test_the_entry_script_runs_through_a_link(tmp_path):
    (tmp_path / "tools").symlink_to(ROOT / "bwe-tools")
    with (EXAMPLES / "maintenance.txt").open("rb") as table:
        words = [tmp_path / "tools", "json"]
        child = subprocess.run(words, stdin=table, capture_output=True, cwd=tmp_path)
    assert child.returncode == 0 and child.stdout.startswith(b"{")


def test_a_reader_that_goes_away_leaves_no_trace():
    command = f"./bwe-tools metrics '{EXAMPLES / 'abilene.txt'}' | head -n 1"
    child = subprocess.run(["bash", "-c", command], cwd=ROOT, capture_output=True, text=True)
    assert child.stderr == "" and child.stdout.startswith("# HELP")


def test_the_manual_has_each_line_and_status_of_bwe_live():
    manual = (ROOT / "man" / "bwe-live.1").read_text()
    for line in ("demand", "capacity", "post", "state"):
        assert re.search(rf"^\.It Cm {line}\b", manual, re.MULTILINE), line
    assert re.findall(r"^\.It ([0-9]+)$", manual, re.MULTILINE) == [
        *(str(status) for status in range(9) if status != 1),
        "70",
    ]
