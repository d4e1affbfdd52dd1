"""The pictures of docs/QUALITY.md."""

from __future__ import annotations

from pathlib import Path
from typing import Any

import matplotlib  # type: ignore[import]
from matplotlib import pyplot

from study.tables import Rows, mean, of_method

# Of each method its colour, and how its line is drawn.
STYLES: dict[str, tuple[str, str, str]] = {
    "max-min": ("exact max-min (LPs)", "#222222", "--"),
    "swan": ("SWAN, alpha 2 (LPs)", "#d99a00", "-"),
    "waterfilling": ("adaptive water-filling", "#56b4e9", "-"),
    "shortest alone": ("shortest path alone", "#009e73", "-"),
    "even alone": ("an even split alone", "#8c564b", "-"),
    "split of drifted": ("bwe, split for drifted demands, then paths", "#0072b2", "-"),
    "bwe": ("bwe, each path a path group", "#d55e00", "-"),
}
OWN = ("bwe", "split of drifted")


def _save(figure: Any, path: Path) -> None:
    with matplotlib.rc_context({"svg.fonttype": "none", "svg.hashsalt": "bwe"}):
        figure.savefig(path, format="svg", metadata={"Date": None}, bbox_inches="tight")
    pyplot.close(figure)


def _plain(axes: Any) -> None:
    axes.grid(True, color="#e0e0e0", linewidth=0.8)
    axes.set_axisbelow(True)
    for side in ("top", "right"):
        axes.spines[side].set_visible(False)


def _line(axes: Any, method: str, across: list[float], up: list[float], marker: str = "o") -> None:
    title, colour, dashes = STYLES[method]
    width = 2.6 if method in OWN else 1.5
    axes.plot(across, up, dashes, marker=marker, ms=4, color=colour, lw=width, label=title)


def by_load(part: dict[str, Any], path: Path) -> None:
    """Throughput and fairness over load, in the mean over all cases."""
    figure, both = pyplot.subplots(1, 2, figsize=(11, 4))
    rows: Rows = part["rows"]
    loads = sorted({row["load"] for row in rows})
    heads = {"of_most": "throughput / most possible", "fairness": "fairness to exact max-min"}
    for axes, (of, head) in zip(both, heads.items()):
        _plain(axes)
        for method in STYLES:
            own = of_method(rows, method)
            up = [mean([row for row in own if row["load"] == load], of) for load in loads]
            _line(axes, method, loads, up)
        axes.set_title(head, loc="left", fontsize=11)
        axes.set_xlabel("load: demands / what fits")
        axes.set_xscale("log")
        axes.set_xticks(loads, [f"{load:g}" for load in loads])
        axes.minorticks_off()
        axes.set_ylim(0.3 if of == "of_most" else 0.5, 1.02)
    both[1].legend(loc="center left", bbox_to_anchor=(1.02, 0.5), frameon=False, fontsize=9)
    _save(figure, path)


def distribution(part: dict[str, Any], path: Path) -> None:
    """How many groups have at most which part of what max-min gives them."""
    figure, axes = pyplot.subplots(figsize=(7, 4))
    _plain(axes)
    for method in STYLES:
        if method != "max-min":
            _line(axes, method, part["ratios"][method], [float(one) for one in range(101)], "")
    axes.axvline(1, color="#222222", lw=1, ls="--")
    axes.set_xscale("log", base=2)
    axes.set_xlim(0.125, 4)
    axes.set_xticks([0.125, 0.25, 0.5, 1, 2, 4], ["1/8", "1/4", "1/2", "1", "2", "4"])
    axes.set_xlabel("x / x*: what a group has beside exact max-min, at load 2")
    axes.set_ylabel("% of groups with at most that")
    axes.legend(loc="center left", bbox_to_anchor=(1.02, 0.5), frameon=False, fontsize=9)
    _save(figure, path)


def by_size(part: dict[str, Any], path: Path) -> None:
    """Seconds of one processor over the number of groups."""
    figure, axes = pyplot.subplots(figsize=(7, 4))
    _plain(axes)
    rows: Rows = part["rows"]
    for method in ("max-min", "swan", "waterfilling", "bwe"):
        own = sorted((row["groups"], row["seconds"]) for row in of_method(rows, method))
        _line(axes, method, [groups for groups, _ in own], [seconds for _, seconds in own])
    axes.set_yscale("log")
    axes.set_xlabel("groups (pairs of sites), 4 paths each, load 2")
    axes.set_ylabel("seconds of one processor")
    axes.legend(loc="center left", bbox_to_anchor=(1.02, 0.5), frameon=False, fontsize=9)
    _save(figure, path)


def draw(parts: dict[str, dict[str, Any]], docs: Path) -> None:
    """Draws all pictures into a folder."""
    matplotlib.use("svg")
    by_load(parts["load"], docs / "quality_load.svg")
    distribution(parts["load"], docs / "quality_ratios.svg")
    by_size(parts["size"], docs / "quality_time.svg")
