"""Writes the page of the demonstration: its numbers, beside the picture."""

from __future__ import annotations

import re
import textwrap
from datetime import datetime
from pathlib import Path

from demo.costs import SETUPS, ThousandTasks, Throughput
from demo.picture import draw
from demo.reading import ETHERNET_PER_PAYLOAD, Reading, Steady, line_rate
from demo.recording import Recording
from demo.scenario import TASKS

HERE = Path(__file__).resolve().parent
CLOSE = 0.95
PICTURE, PAGE = "demo.png", "DEMO.md"
Rows = list[tuple[str, ...]]
LED = re.compile(r"^(\S+ \S+) INFO (\S+) leads", re.MULTILINE)


def write_page(
    recording: Recording, folder: Path, costs: tuple[ThousandTasks, list[Throughput]] | None
) -> list[Path]:
    """Writes page and picture into a folder; their paths."""
    reading = Reading(recording)
    draw(reading, folder / PICTURE)
    phases = reading.phases()
    parts = {
        "machine": recording.machine,
        "store": "etcd, three members" if recording.store == "etcd" else "SQLite",
        "both": both(reading, phases[0], phases[1]),
        "phases": phase_table(phases),
        "reactions": "\n".join(wrapped(line, "  ") for line in reactions(reading)),
        "costs": cost_text(*costs) if costs else "Not measured in this run.",
        "seconds": f"{recording.plan.seconds:.0f}",
    }
    text = (HERE / "page.md").read_text(encoding="utf-8")
    for name, part in parts.items():
        text = text.replace("{{" + name + "}}", part)
    (folder / PAGE).write_text(text, encoding="utf-8")
    return [folder / PAGE, folder / PICTURE]


def both(reading: Reading, without: Steady, with_limits: Steady) -> str:
    """The table of what limits change on the line from a to c."""
    idle = reading.idle("ac")
    off = max(
        abs(with_limits.received[name] * ETHERNET_PER_PAYLOAD / with_limits.limits[name] - 1)
        for name in ("web", "copy")
    )
    rows: Rows = [("", "without limits", "with limits"), ("---", "---:", "---:")]
    rows.append(
        (
            "copy of 8 flows : web of 1 flow, Mbit/s received",
            f"{without.received['copy']:.2f} : {without.received['web']:.2f}",
            f"{with_limits.received['copy']:.2f} : {with_limits.received['web']:.2f}, "
            f"within {off:.2%} of the table",
        )
    )
    rows.append(
        (
            f"round trip a→c, median / 99 % ({idle:.1f} ms idle)",
            *map(trip_text, (without, with_limits)),
        )
    )
    rows.append(("segments sent again", *map(again_text, (without, with_limits))))
    rate = line_rate("ac") / 1000
    full = [
        reading.carried_while("cron", "ac", it.first, it.last) / rate
        for it in (without, with_limits)
    ]
    rows.append(("a→c carries of its rate, while cron sends", *(f"{part:.1%}" for part in full)))
    return table(rows)


def trip_text(steady: Steady) -> str:
    return f"{steady.median['ac']:.1f} / {steady.high['ac']:.1f} ms"


def again_text(steady: Steady) -> str:
    part = steady.again / max(1, steady.segments)
    return f"{steady.again:,} of {steady.segments:,} ({part:.2%})"


def phase_table(phases: list[Steady]) -> str:
    """A row a phase: what each task gets of what it may send, and what the lines carry."""
    names = [task.name for task in TASKS]
    head = ["phase", *names, "a→c", "a→b", "b→c", "round trip a→c", "sent again"]
    rows: Rows = [tuple(head), ("---", *["---:"] * (len(head) - 1))]
    for phase in phases:
        cells = [rate_text(phase.received[name], phase.limits[name]) for name in names]
        cells += [f"{phase.carried[line]:.1f}" for line in ("ac", "ab", "bc")]
        rows.append((phase.label, *cells, trip_text(phase), f"{phase.again} of {phase.segments}"))
    return table(rows)


def rate_text(received: float, limit: float) -> str:
    return f"{received:.1f}" + (f" / {limit:.1f}" if limit < 1000 else "")


def reactions(reading: Reading) -> list[str]:
    """What followed an event, and after how long."""
    lines = []
    if found := reading.event("report"):
        fits = reading.limits_fit("ac", 20_000, ["web", "copy", "cron", "scav"], found[1])
        lines.append(f"- **A capacity report** was kept to by all limits after {seconds(fits)}.")
    if found := reading.event("stop", of="web"):
        level = CLOSE * reading.settled("copy", found[1], found[1] + 15)
        after = seconds(reading.reaches("copy", level, found[1]))
        lines.append(f"- **web stops:** copy had its share after {after}; the window is 4 s.")
    if found := reading.event("start", of="web"):
        level = CLOSE * reading.settled("web", found[1], found[1] + 15)
        after = seconds(reading.reaches("web", level, found[1]))
        lines.append(f"- **web comes back:** it had its share again after {after}.")
    if found := reading.event("drain"):
        empty = seconds(reading.empties("ac", found[1]))
        lines.append(f"- **The drain** of a→c: no task sent by it after {empty}.")
    if found := reading.event("kill leader"):
        after = led_after(reading, found[1])
        lines.append(f"- **The leader is killed:** the other allocator led after {after}.")
    if found := reading.event("kill agent"):
        lines.append(agent_text(reading, found[1]))
    lost = ", ".join(f"{count} on {path}" for path, count in reading.recording.samples.lost.items())
    total = sum(len(them) for them in reading.recording.samples.trips.values())
    lines.append(f"- **Pings** lost in the whole time: {lost}, of {total:,}.")
    return lines


def agent_text(reading: Reading, killed: float) -> str:
    """What came of an agent that was killed and started again."""
    back = reading.event("start agent")
    segments, again = reading.sent_again(killed, back[2] if back else killed)
    starts = reading.recording.logs["ha"].count("4 of 4 classes were there")
    return (
        "- **The agent of a is killed and started again:** in between its tasks sent "
        f"{segments:,} segments and {again} again; all classes were adopted, as in {starts} starts."
    )


def led_after(reading: Reading, killed: float) -> str:
    """How long after a time an allocator says that it leads."""
    recording = reading.recording
    for name in ("first", "second"):
        for at, _ in LED.findall(recording.logs[name]):
            stamp = datetime.strptime(at, "%Y-%m-%d %H:%M:%S,%f").timestamp()
            after = stamp - recording.clock - recording.start - killed
            if after > 0:
                return seconds(after)
    return seconds(None)


def seconds(value: float | None) -> str:
    return "more than 30 s" if value is None else f"{value:.2f} s"


def cost_text(thousand: ThousandTasks, throughputs: list[Throughput]) -> str:
    """What the agent and HTB cost."""
    found = {(it.setup, it.meant): it for it in throughputs}
    rows: Rows = [
        ("", "1 Gbit/s", "10 Gbit/s", "as fast as it goes"),
        ("---", "---:", "---:", "---:"),
    ]
    for setup in SETUPS:
        cells = []
        for meant in (1, 10, 0):
            it = found.get((setup, meant))
            cells.append(f"{it.gigabits:.1f} Gbit/s, {it.processor:.2f} s" if it else "")
        rows.append((setup, *cells))
    share = thousand.slice_processor + thousand.round_processor
    milliseconds = {name: f"{value * 1000:.1f} ms" for name, value in vars(thousand).items()}
    about_tasks = (
        "An agent of 1,000 tasks, with a real-time priority: a batch of 1,000 changes takes "
        f"{milliseconds['batch_median']} in the median of 20, and {milliseconds['batch_least']} at "
        "best. A slice that changes all limits, with its batch and its state file, takes "
        f"{milliseconds['slice_processor']} of a processor, a round that measures all tasks "
        f"{milliseconds['round_processor']}: with one of each a second {share:.1%} of a processor."
    )
    about_queues = (
        "HTB has one lock where a device of several queues has one for each. Four streams of TCP "
        "over a pair of devices with four queues; in each cell what went over it, and the seconds "
        "of processor, of senders and receivers together, for a gigabyte:"
    )
    return "\n\n".join([wrapped(about_tasks), wrapped(about_queues), table(rows)])


def wrapped(text: str, indent: str = "") -> str:
    """A paragraph in lines of at most 100 columns."""
    return textwrap.fill(text, 100, subsequent_indent=indent, break_on_hyphens=False)


def table(rows: Rows) -> str:
    """A table of Markdown."""
    return "\n".join("| " + " | ".join(row) + " |" for row in rows)
