"""The plot of how times grow: its documents, and where it stops."""

import subprocess

import growth_plot

from bwe_tools.program import find_program, solve
from tool_runs import ROOT, needs_program, stand_in


@needs_program
def test_the_plot_has_documents_that_bwe_takes():
    program = str(find_program())
    assert solve(growth_plot.nested(3)).total > 0
    made = growth_plot.made(program, 16, 64)
    counts = [
        len(solve(growth_plot.with_links_that_fill(made, links)).closings) for links in (0, 4, 16)
    ]
    assert counts[0] == 0 < counts[1] <= 4 < counts[2]


@needs_program
def test_the_plot_stops_a_curve_that_takes_too_long(tmp_path, monkeypatch):
    made = growth_plot.made(str(find_program()), 2, 4)
    few = [("groups", 2, made), ("groups", 4, made), ("tasks", 4, made)]
    monkeypatch.setattr(growth_plot, "documents", lambda program: few)
    slow = stand_in(tmp_path, "cat > /dev/null; sleep 0.05; echo table 1")
    points = growth_plot.measure({"slow": str(slow)}, runs=3, patience=0.01)
    assert [(point.curve, point.size) for point in points] == [("groups", 2), ("tasks", 4)]


def test_the_plot_is_svg(tmp_path):
    sizes = enumerate(growth_plot.TITLES)
    points = [growth_plot.Point("bwe", curve, 10 * at, 0.1 * at) for at, curve in sizes]
    growth_plot.draw(points, str(tmp_path / "growth.svg"))
    assert "<svg" in (tmp_path / "growth.svg").read_text()


def test_the_plot_says_what_is_no_program(tmp_path):
    words = ["--program", str(tmp_path / "absent"), "-o", tmp_path / "growth.svg"]
    script = ROOT / "tools/bench/growth_plot.py"
    child = subprocess.run([script, *words], capture_output=True, text=True)
    assert child.returncode == 2 and child.stderr.count("\n") == 1
    assert child.stderr.startswith("bwe-tools: ")
