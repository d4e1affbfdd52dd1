"""The picture of a recording: three panels over one time axis."""

from __future__ import annotations

from io import BytesIO
from pathlib import Path

import matplotlib

matplotlib.use("Agg")

import matplotlib.pyplot as plt
import numpy as np
from matplotlib.axes import Axes
from matplotlib.figure import Figure
from matplotlib.ticker import MultipleLocator
from PIL import Image

from demo.reading import Reading, Series, line_rate, rates
from demo.scenario import TASKS

# The colours of Okabe and Ito, which people who see colours differently can tell apart.
COLOURS = {
    "web": "#0072B2",
    "copy": "#D55E00",
    "cron": "#009E73",
    "scav": "#CC79A7",
    "dcopy": "#8C8C8C",
    "ac": "#000000",
    "ab": "#E69F00",
    "bc": "#56B4E9",
    "abc": "#E69F00",
    "dbc": "#56B4E9",
}
NAMES = {
    "web": "web: 1 flow, first 10, then 1:1 with copy",
    "copy": "copy: 8 flows",
    "cron": "cron: 1 flow, 7 s of 10, served first",
    "scav": "scav: 2 flows, a tenth of copy's share",
    "dcopy": "dcopy: 4 flows from d, 1:1 with copy",
}
LINES = {"ac": "a→c", "ab": "a→b", "bc": "b→c"}
PATHS = {"ac": "a→c", "abc": "a→b→c", "dbc": "d→b→c"}
SHADE, PALE, DEAD = "#F2EFE8", "#DDDDDD", "#BBBBBB"
DOTTED = (0, (1, 1))
WINDOW, STEP = 0.6, 0.1
MAIN = ("web", "copy")
TITLE = "Real TCP keeps to the limits of bwe: what each task gets, and what it may send"


def draw(reading: Reading, path: Path) -> None:
    """Writes the picture as a PNG."""
    plt.rcParams.update({"font.size": 12.5, "font.family": "DejaVu Sans", "axes.axisbelow": True})
    figure, panels = plt.subplots(
        3, 1, sharex=True, figsize=(13, 11), height_ratios=[5, 3, 3], layout="constrained"
    )
    seconds = reading.recording.plan.seconds
    grid = np.arange(0.0, seconds - WINDOW / 2, STEP)
    draw_tasks(panels[0], reading, grid)
    draw_lines(panels[1], reading, grid)
    draw_trips(panels[2], reading)
    draw_phases(figure, list(panels), reading)
    draw_notes(list(panels), reading)
    for panel in panels:
        panel.grid(axis="y", color=PALE, linewidth=0.7)
        panel.spines[["top", "right"]].set_visible(False)
    panels[2].set_xlim(0, seconds)
    panels[2].set_xlabel("seconds")
    panels[2].xaxis.set_major_locator(MultipleLocator(10 if seconds > 60 else 2))
    buffer = BytesIO()
    figure.savefig(buffer, dpi=110)
    plt.close(figure)
    # Few colours: the repository keeps the file.
    with Image.open(buffer) as image:
        image.convert("RGB").quantize(64).save(path, optimize=True)


def draw_phases(figure: Figure, panels: list[Axes], reading: Reading) -> None:
    """The phases as bands with their names, and the time in which an agent is away."""
    figure.suptitle(TITLE, fontsize=15, fontweight="bold")
    for number, (first, last, label) in enumerate(reading.recording.plan.phases()):
        for panel in panels:
            if number % 2:
                panel.axvspan(first, last, color=SHADE, zorder=0, linewidth=0)
            panel.axvline(first, color="#888888", linewidth=0.7, zorder=1)
        panels[0].text(
            (first + last) / 2,
            0.985,
            label,
            transform=panels[0].get_xaxis_transform(),
            ha="center",
            va="top",
            fontsize=11.5,
            fontweight="bold",
        )
    killed, back = reading.event("kill agent"), reading.event("start agent")
    if killed and back:
        for panel in panels:
            panel.axvspan(killed[1], back[2], facecolor="none", edgecolor=DEAD, hatch="//", lw=0)


def draw_notes(panels: list[Axes], reading: Reading) -> None:
    """The plan's notes, each with a thin line to its point."""
    first = reading.phases()[0]
    ratio = first.received["copy"] / first.received["web"]
    for note in reading.recording.plan.notes:
        panels[note.panel].annotate(
            note.text.format(ratio=ratio),
            note.point,
            note.at,
            ha="center",
            va="bottom",
            fontsize=10.5,
            color="#333333",
            zorder=20,
            arrowprops={"arrowstyle": "-", "color": "#555555", "linewidth": 0.8, "shrinkB": 0},
            bbox={
                "boxstyle": "round,pad=0.15",
                "facecolor": "white",
                "alpha": 0.75,
                "linewidth": 0,
            },
        )


def draw_tasks(panel: Axes, reading: Reading, grid: Series) -> None:
    """What each task gets, and what it may send."""
    limits, received = reading.limits, reading.received
    for number, task in enumerate(TASKS):
        name, colour = task.name, COLOURS[task.name]
        times, values = limits[name]
        shown = np.where(values < 1000, values, np.nan)
        panel.plot(times, shown, color=colour, linewidth=1.3, linestyle=DOTTED, zorder=3)
        panel.plot(
            grid,
            rates(*received[name], grid, WINDOW),
            color=colour,
            linewidth=2.8 if name in MAIN else 1.7,
            label=NAMES[name],
            zorder=10 - number,
        )
    panel.plot([], [], color="#444444", linestyle=DOTTED, linewidth=1.3, label="limit in force")
    panel.set_ylabel("received by site c, Mbit/s")
    panel.set_ylim(0, 46)
    panel.legend(loc="lower center", bbox_to_anchor=(0.5, 1.0), ncols=3, frameon=False, fontsize=12)


def draw_lines(panel: Axes, reading: Reading, grid: Series) -> None:
    """What each line carries, and the rate of the one that changes."""
    for name, totals in reading.lines.items():
        carried = rates(*totals, grid, WINDOW)
        label = f"{LINES[name]}, of {line_rate(name) // 1000}"
        panel.plot(grid, carried, color=COLOURS[name], linewidth=2.2, label=label)
    times, levels = [0.0], [line_rate("ac") / 1000]
    for event, _, _ in reading.recording.done:
        if event.action == "line":
            times += [event.at, event.at]
            levels += [levels[-1], int(event.arguments[1]) / 1000]
    times.append(reading.recording.plan.seconds)
    levels.append(levels[-1])
    panel.plot(times, levels, color="black", linewidth=1.1, linestyle="--", label="rate of a→c")
    panel.set_ylabel("on the lines, Mbit/s")
    panel.set_ylim(0, 52)
    panel.legend(loc="upper left", ncols=4, frameon=False, fontsize=11.5)


def draw_trips(panel: Axes, reading: Reading) -> None:
    """Round trips of pings beside the tasks."""
    for name, (times, values) in reading.trips.items():
        idle = f"{PATHS[name]}, {reading.idle(name):.0f} ms idle"
        panel.plot(times, values, ".", color=COLOURS[name], markersize=3.5, label=idle)
    panel.set_ylabel("round trip of a ping, ms")
    panel.set_ylim(20, 110)
    panel.legend(loc="upper left", ncols=3, frameon=False, markerscale=3, fontsize=11.5)
