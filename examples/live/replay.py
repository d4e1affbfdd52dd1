#!/usr/bin/python3
"""examples/live/replay.py [--seconds N] [--changes]: replays the day of examples/day.py to
`bwe-live`, an hour in N seconds, by default a quarter of one.

The program gets the document with an empty script, then the reports of each hour and a `post`. For
each hour a line says how many reports there were, what is given of what is wanted, how many limits
the change has, and the first link that closes. With --changes the change itself follows. In the end
the table that was kept by changes has to be the one of examples/day.txt.

The program is the launcher at the top of the repository, or the one that BWE_LIVE names.
"""

import argparse
import json
import os
import sys
import time
from pathlib import Path

HERE = Path(__file__).resolve().parent
sys.path += [str(HERE.parent), str(HERE.parent.parent / "tools/check")]

import day
import live
from conversations import Fault, Talk

PROGRAM = os.environ.get("BWE_LIVE", HERE.parent.parent / "bwe-live")
GIGABIT = 1_000_000


def line_of(report):
    """The line of a report of a script."""
    kind, name = ("demand", "task") if "task" in report else ("capacity", "link")
    return f"{kind} {report['reporter']} {report[name]} {report[kind]}\n"


def row(hour, reports, wanted, kept, change):
    """What is said of an hour."""
    table, more = live.parts_of(kept), live.parts_of(change)
    given = int(table.total.split()[1]) / GIGABIT
    first = table.closings[0].removeprefix("closing ") if table.closings else "no link"
    return (
        f"{hour + 1:2}:00  {len(reports):3} reports  {given:5.1f} of {wanted / GIGABIT:5.1f} Gbit/s"
        f"  {len(more.tasks):3} limits change  first: {first}"
    )


def replay(talk, seconds, shows_changes):
    """Sends the day; the table that was kept by changes."""
    given = json.dumps(day.document(0)).encode()
    talk.send(b"%d\n%s" % (len(given), given))
    kept, said, demands = talk.answer_to("total").decode(), 0, {}
    for hour in range(day.HOURS):
        reports = list(day.script(hour + 1))[said:]
        said += len(reports)
        demands |= {report["task"]: report["demand"] for report in reports if "task" in report}
        talk.send("".join(map(line_of, reports)).encode() + b"post\n")
        change = talk.answer_to("total").decode()
        kept = live.with_change(kept, change)
        print(row(hour, reports, sum(demands.values()), kept, change), flush=True)
        if shows_changes:
            print(change)
        time.sleep(seconds)
    return kept


def main(words):
    told = argparse.ArgumentParser(
        description=__doc__, formatter_class=argparse.RawDescriptionHelpFormatter
    )
    told.add_argument("--seconds", type=float, default=0.25, metavar="N")
    told.add_argument("--changes", action="store_true")
    given = told.parse_args(words)
    try:
        with Talk(PROGRAM) as talk:
            kept = replay(talk, given.seconds, given.changes)
            talk.end()
            talk.expect_status(0)
    except (Fault, live.Fault) as fault:
        sys.exit(f"replay: {fault}")
    same = kept == (HERE.parent / "day.txt").read_text()
    print(f"the table kept by changes is {'that' if same else 'NOT that'} of day.txt")
    return 0 if same else 1


if __name__ == "__main__":
    sys.exit(main(sys.argv[1:]))
