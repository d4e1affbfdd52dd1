#!/usr/bin/python3
"""tools/build/minutes.py COMMAND..: runs a command, as `rt ci`, and prints what it took by
crate, in processor minutes.

The gate's log names no times. So each half second this looks at the prover's processes below the
command: which crate each works on, whether on the crate itself, on its tests or on an edit, and
its processor time so far. What a process did in its last half second is lost, so the table has a
little less than the truth. The command's own output goes to standard error, the table, as
Markdown, to standard output. The exit status is the command's.

    minutes.py rt ci             all, from nothing
    minutes.py --process 4711    a command that runs already, by its number, till it ends
    minutes.py --made            what the last proof of each crate by `make` took, by the crates'
                                 prove.log: after one `make` from nothing, all of it
    minutes.py --seconds         the same in seconds of a processor, as tools/build/seconds has them
                                 for the order in which `make` proves
"""

import datetime
import os
import re
import subprocess
import sys
import time
from collections import Counter
from pathlib import Path

TOP = Path(__file__).resolve().parents[2]
PARTS = ["own proof", "tests", "edits"]
SECONDS = 0.5
TICKS = os.sysconf("SC_CLK_TCK")


def process(folder):
    """A process of /proc: number, parent, start, ticks so far and work; None where it ended."""
    try:
        fields = (folder / "stat").read_text().rpartition(")")[2].split()
        words = (folder / "cmdline").read_bytes().decode(errors="replace").split("\0")
        return (
            int(folder.name),
            int(fields[1]),
            fields[19],
            int(fields[11]) + int(fields[12]),
            work_of(folder, words),
        )
    except (OSError, ValueError):
        return None


def work_of(folder, words):
    """The crate and the part that a process of the prover works on; None for other processes."""
    if not words[0].endswith("/rattle") or "--crate-name" not in words:
        return None
    name = words[words.index("--crate-name") + 1]
    if "rt-edit-" in os.readlink(folder / "cwd"):
        return name, "edits"
    return name, "tests" if "--test" in words else "own proof"


def look(top, ticks):
    """Notes the ticks so far of each process below the top, by the nearest prover above it."""
    found = [process(it) for it in Path("/proc").iterdir() if it.name.isdigit()]
    living = {number: (parent, work) for number, parent, _, _, work in filter(None, found)}
    for number, _, start, spent, _ in filter(None, found):
        work, above = None, number
        while above in living and above != top:
            above, own = living[above]
            work = work or own
        if above == top and work:
            ticks[number, start, work] = spent


def table(minutes):
    """A row for each crate, the dearest first, and one for all."""
    crates = sorted(
        {name for name, _ in minutes}, key=lambda name: -sum(minutes[name, part] for part in PARTS)
    )
    lines = [
        "| crate | " + " | ".join(PARTS) + " | together |",
        "|---|" + "---:|" * (len(PARTS) + 1),
    ]
    for name in crates:
        lines.append(row(f"`{name}`", [minutes[name, part] for part in PARTS]))
    return lines + [row("all", [sum(minutes[name, part] for name in crates) for part in PARTS])]


def row(name, numbers):
    return (
        f"| {name} | " + " | ".join(f"{number:.1f}" for number in [*numbers, sum(numbers)]) + " |"
    )


def proofs(crates):
    """Each crate that make has proved, with its functions, and its seconds by the clock and of
    processors, by name."""
    found = []
    for log in sorted(Path(crates).glob("*/out/prove.log")):
        text = log.read_text(errors="replace")
        took = re.search(r"^bwe: ([0-9]+) s, ([0-9]+) s of processors$", text, re.MULTILINE)
        proved = re.search(r"^logic=proved functions=([0-9]+)", text, re.MULTILINE)
        if took and proved:
            seconds = [int(number) for number in took.groups()]
            found.append((log.parent.parent.name, int(proved[1]), *seconds))
    return found


def made(crates):
    """A row for each crate that make has proved, the dearest first, and one for all."""
    rows = sorted(proofs(crates), key=lambda row: -row[3])
    rows.append(("all", *(sum(row[at] for row in rows) for at in (1, 2, 3))))
    lines = ["| crate | functions | minutes | of processors |", "|---|---:|---:|---:|"]
    for name, functions, clock, spent in rows:
        shown = name if name == "all" else f"`{name}`"
        lines.append(f"| {shown} | {functions} | {clock / 60:.1f} | {spent / 60:.1f} |")
    return lines


def seconds(crates):
    """A line for each crate that make has proved: its name and its seconds of processors."""
    return [f"{name} {spent}" for name, _, _, spent in proofs(crates)]


def processor():
    lines = Path("/proc/cpuinfo").read_text().splitlines()
    return next(
        (line.partition(": ")[2] for line in lines if line.startswith("model name")), "unknown"
    )


def watched(number, ends):
    """The minutes of each work below a process, looked at until `ends` says that it ended."""
    ticks = {}
    while not ends():
        look(number, ticks)
        time.sleep(SECONDS)
    minutes = Counter()
    for (_, _, work), spent in ticks.items():
        minutes[work] += spent / TICKS / 60
    return minutes


def main(words):
    if words[:1] in (["--made"], ["--seconds"]):
        lines = made if words[0] == "--made" else seconds
        print("\n".join(lines(words[1] if len(words) > 1 else TOP / "crates")))
        return 0
    if not words or words[0].startswith("-") and words[0] != "--process":
        print(__doc__)
        return 0 if words == ["--help"] else 2
    began = time.monotonic()
    if words[0] == "--process":
        status, number = 0, int(words[1])
        minutes = watched(number, lambda: not Path(f"/proc/{number}").exists())
    else:
        command = subprocess.Popen(words, stdout=sys.stderr)
        minutes = watched(command.pid, lambda: command.poll() is not None)
        status = command.returncode
    print(
        f"{datetime.date.today()}, {os.cpu_count()} processors ({processor()}), "
        f"`{' '.join(words)}`: {(time.monotonic() - began) / 60:.0f} minutes.\n"
    )
    print("\n".join(table(minutes)))
    return status


if __name__ == "__main__":
    sys.exit(main(sys.argv[1:]))
