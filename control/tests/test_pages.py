"""The commands of docs/OPERATING.md for one machine, run as they stand there."""

import os
import re
import signal
import subprocess

import pytest
from deployment import ROOT, TWO_FIBRES

STANDS = [ROOT / "crates/bwe/out/bwe", ROOT / "crates/bwe_live/out/bwe_live"]
pytestmark = pytest.mark.skipif(
    not all(path.exists() for path in STANDS), reason="the programs are not built here"
)
LINE = re.compile(r"^ {4}((?:printf [^|]*\| )?\./bwe-control .*)$")


def commands():
    page = (ROOT / "docs/OPERATING.md").read_text()
    section = page.split("## The control plane on one machine")[1].split("\n## ")[0]
    return [found[1] for line in section.splitlines() if (found := LINE.match(line))]


@pytest.fixture
def shell(tmp_path):
    """Runs a line of bash beside the launchers and `network.json`, with a state of its own."""
    for name in ("bwe", "bwe-live", "bwe-control"):
        (tmp_path / name).symlink_to(ROOT / name)
    (tmp_path / "network.json").symlink_to(TWO_FIBRES)
    environment = {**os.environ, "STATE_DIRECTORY": str(tmp_path / "state")}
    environment.pop("BWE_STORE", None)
    running = []

    def run(line, goes_on=False):
        words = {"cwd": tmp_path, "env": environment, "stdin": subprocess.DEVNULL, "text": True}
        if goes_on:
            running.append(subprocess.Popen(["bash", "-c", f"exec {line}"], **words))
            return ""
        ran = subprocess.run(["bash", "-c", line], capture_output=True, timeout=100, **words)
        assert ran.returncode == 0, (line, ran.stdout, ran.stderr)
        return ran.stdout

    yield run
    for one in running:
        one.send_signal(signal.SIGTERM)
        assert one.wait(timeout=60) == 0


def test_one_machine_in_two_commands_as_typed(shell):
    lines = commands()
    assert lines[:2] == ["./bwe-control init network.json", "./bwe-control allocate"]
    assert len(lines) >= 6
    shell(lines[0])
    shell(lines[1], goes_on=True)
    answers = {line: shell(line) for line in lines[2:]}
    reports = [it for line, it in answers.items() if " report " in line]
    assert reports and all(re.fullmatch(r"put \d+\nposted \d+\n", it) for it in reports)
    limits = next(it for line, it in answers.items() if " limits " in line)
    assert "task pages-0 limit 5000000\n" in limits and "task nightly-0 limit 5000000\n" in limits
    status = next(it for line, it in answers.items() if " status" in line)
    assert "reporter hosts report" in status and "leader none" not in status
    assert shell("./bwe-control replay | ./bwe audit") == "legal\n"
