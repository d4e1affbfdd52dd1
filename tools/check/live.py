#!/usr/bin/python3
"""tools/check/live.py: a second, plain implementation of `bwe-live`, for the cases and for
comparing.

It follows the rules of docs/FORMAT.md as they are written there: each table is made from nothing by
tools/check/compare.py, one share after the other, and a change is what differs between two tables'
texts. So it is for documents with a small `top`. Like `bwe-live` it takes no words (but --help),
reads a document and lines, and answers each line before it reads on.

As a library: `change_text` of two tables, `with_change`, which puts a change into a table or says
what is wrong with it, `Live`, the answers to lines, and `follow_text`, that to a whole input.
"""

import io
import json
import os
import re
import sys
from dataclasses import dataclass, field
from pathlib import Path

import compare

# Beside this file stands what the rules of a document are read from.
sys.path.append(str(Path(__file__).resolve().parents[1] / "operator"))

MOST_IN_A_LINE, MOST, PIECE = 255, 1_000_000_000_000, 1 << 20
MOST_BYTES, MOST_OF_4 = 67_108_864, 1_073_741_824  # of a document before version 4, and of it
TOO_LONG = b"refused input longer than 67108864 bytes\n"
FAR_TOO_LONG = b"refused input longer than 1073741824 bytes\n"
NO_PARTS = b"refused 14 parts\n"
REPORT = re.compile(r"(demand|capacity) ([^ ]+) ([^ ]+) ([0-9]{1,20})")


class Fault(Exception):
    """A change is not one of the table that it comes behind, and why."""


# ---- tables and changes


@dataclass
class Parts:
    """The lines of a table text, or of a change, by what they are of."""

    reports: int = 0
    closings: list = None
    links: dict = field(default_factory=dict)
    groups: dict = field(default_factory=dict)  # of each its line and those of its path groups
    tasks: dict = field(default_factory=dict)
    total: str = ""

    def text(self):
        groups = [line for lines in self.groups.values() for line in lines]
        head, rest = [f"table {self.reports}", *self.closings], [*self.tasks.values(), self.total]
        return "".join(line + "\n" for line in [*head, *self.links.values(), *groups, *rest])


ORDER = ["table", "change", "closings", "closing", "link", "group", "place", "task", "total"]


def parts_of(text):
    """The parts of a table text or of a change text; a Fault where its lines are out of order."""
    parts, number, before = Parts(), 0, ""
    if not text.endswith("\n"):
        raise Fault("the text ends in the middle of a line")
    for line in text.split("\n")[:-1]:
        word, name = (line.split(" ") + [""])[:2]
        is_back = (before, word) == ("place", "group")
        if word not in ORDER or (ORDER.index(word) < ORDER.index(before or "table") and not is_back):
            raise Fault(f"the line {line!r} behind a line {before!r}")
        if (before == "total") or (not before and word not in ("table", "change")):
            raise Fault(f"the line {line!r} stands where none of its kind is due")
        before = word
        if word in ("table", "change"):
            parts.reports, parts.closings = int(name), [] if word == "table" else None
        elif word == "closings":
            number, parts.closings = int(name), []
        elif word == "closing":
            if parts.closings is None:
                raise Fault(f"the line {line!r} without a line closings")
            parts.closings.append(line)
        elif word == "place":
            list(parts.groups.values())[-1].append(line)
        elif word == "total":
            parts.total = line
        else:
            of_kind = {"link": parts.links, "group": parts.groups, "task": parts.tasks}[word]
            if name in of_kind:
                raise Fault(f"the line {line!r} stands twice")
            of_kind[name] = [line] if word == "group" else line
    if before != "total":
        raise Fault("the text has no total at its end")
    if text.startswith("change") and len(parts.closings or []) != number:
        raise Fault(f"{len(parts.closings or [])} closings under a line closings {number}")
    return parts


def change_text(old, new):
    """The change from one table text to another ("What it writes", docs/FORMAT.md)."""
    was, now = parts_of(old), parts_of(new)
    lines = [f"change {now.reports}"]
    if was.closings != now.closings:
        lines += [f"closings {len(now.closings)}", *now.closings]
    lines += [line for name, line in now.links.items() if was.links[name] != line]
    for name, of_group in now.groups.items():
        if was.groups[name] != of_group:
            lines += of_group
    lines += [line for name, line in now.tasks.items() if was.tasks[name] != line]
    return "".join(line + "\n" for line in [*lines, now.total])


def with_change(table, change):
    """The table text with a change put into it.

    A Fault where the change has a line of something that the table has not, in another order than
    the table's, or of something that stays as it is.
    """
    parts, more = parts_of(table), parts_of(change)
    if more.reports < parts.reports:
        raise Fault(f"the number of reports falls from {parts.reports} to {more.reports}")
    if more.closings is not None:
        if more.closings == parts.closings:
            raise Fault("closings stand in it, and stay as they are")
        parts.closings = more.closings
    for kind in ("links", "groups", "tasks"):
        old, new = getattr(parts, kind), getattr(more, kind)
        if [name for name in old if name in new] != list(new):
            raise Fault(f"{kind} that are not in the table, or not in its order: {list(new)}")
        for name, lines in new.items():
            if old[name] == lines:
                raise Fault(f"{lines!r} stands in it, and stays as it is")
        old.update(new)
    parts.reports, parts.total = more.reports, more.total
    return parts.text()


# ---- the answers


def tasks_of(document):
    """All tasks of a document, in the order of their numbers."""
    return [
        task
        for group in document["groups"]
        for user in group["users"]
        for job in user["jobs"]
        for task in job["tasks"]
    ]


def table_of(document):
    """The table text of a document, one share after the other."""
    return compare.Filling(document).table(len(document["script"]))


class Live:
    """A document, the reports accepted so far, and the table that was written last.

    `solve` makes the table text of a document.
    """

    def __init__(self, document, solve=table_of):
        self.document, self.reports, self.lines = document, list(document["script"]), 0
        self.solve = solve
        self.owners = {
            "demand": {task["name"]: task["reporter"] for task in tasks_of(document)},
            "capacity": {link["name"]: link.get("owner") for link in document["links"]},
        }
        self.table = self.table_of_all()

    def document_of_all(self):
        """The document with all accepted reports at the end of its script."""
        return dict(self.document, script=self.reports)

    def table_of_all(self):
        return self.solve(self.document_of_all())

    def answer(self, line):
        """What is written for one line, bytes with their line feed, if they have one."""
        self.lines += 1
        text = text_of(line)
        if text == "post":
            before, self.table = self.table, self.table_of_all()
            return change_text(before, self.table)
        if text == "state":
            return self.state()
        cause, report = self.judge(text)
        if cause:
            return f"refused line {self.lines} cause {cause}\n"
        self.reports.append(report)
        return ""

    def judge(self, text):
        """The cause for which a line is refused, or 0, and its report."""
        found = text is not None and REPORT.fullmatch(text)
        if not found:
            return 1, None
        kind, reporter, name, amount = found.groups()
        if reporter not in self.document["reporters"] or name not in self.owners[kind]:
            return 2, None
        if int(amount) > MOST:
            return 3, None
        if self.owners[kind][name] != reporter:
            return 4, None
        what = "task" if kind == "demand" else "link"
        return 0, {"reporter": reporter, what: name, kind: int(amount)}

    def state(self):
        last = {}
        for report in self.reports:
            kind = "demand" if "task" in report else "capacity"
            name = report["task" if kind == "demand" else "link"]
            last[kind, name] = f"{kind} {report['reporter']} {name} {report[kind]}\n"
        numbered = [(kind, name) for kind, owners in self.owners.items() for name in owners]
        lines = "".join(last[key] for key in numbered if key in last)
        return f"{lines}state {len(self.reports)}\n"


def text_of(line):
    """A line's text without its line feed; None where it is too long, no text, or has no end."""
    if not line.endswith(b"\n") or len(line) > MOST_IN_A_LINE + 1:
        return None
    try:
        return line[:-1].decode()
    except UnicodeDecodeError:
        return None


def refusal_of(data):
    """The line with which `bwe` refuses a document, by the rules of `bwe-tools lint`, or None."""
    # The schema's library is slow to load.
    from bwe_tools import document, json_text

    try:
        _, raw = json_text.parse(data)
    except json_text.NotJson:
        return "refused 1 not json"
    fault = document.first_fault(raw)
    return fault and fault.refusal


def is_of_4(data):
    """Whether bytes are an object of JSON whose version is the whole number 4."""
    from bwe_tools import json_text, limits

    try:
        return limits.is_4(limits.version_of(json_text.parse(data)[1]))
    except json_text.NotJson:
        return False


def lines_from(source):
    """The lines of a source, each as soon as it ends; of one that is too long its first piece."""
    while line := source.readline(MOST_IN_A_LINE + 2):
        rest = line
        while rest and not rest.endswith(b"\n"):
            rest = source.readline(PIECE)
        yield line


def serve(source, sink):
    """Answers what comes from the source until it ends; the exit status."""
    front = re.fullmatch(rb"([0-9]{1,20})\n", source.readline(21))
    length = int(front.group(1)) if front else 0
    if length > MOST_OF_4:
        sink.write(FAR_TOO_LONG)
        return 8
    document = source.read(length)
    is_whole = front and len(document) == length
    if length > MOST_BYTES and not (is_whole and is_of_4(document)):
        sink.write(TOO_LONG)
        return 8
    if not is_whole:
        sink.write(NO_PARTS)
        return 3
    refusal = refusal_of(document)
    if refusal is not None:
        sink.write(f"{refusal}\n".encode())
        return 3
    live = Live(json.loads(document))
    sink.write(live.table.encode())
    sink.flush()
    for line in lines_from(source):
        sink.write(live.answer(line).encode())
        sink.flush()
    return 0


def follow_text(given):
    """All that is to be written for an input, and the exit status."""
    sink = io.BytesIO()
    status = serve(io.BytesIO(given), sink)
    return sink.getvalue(), status


def main(words):
    if words == ["--help"]:
        print(__doc__)
        return 0
    if words:
        print("usage: bwe-live")
        return 2
    try:
        status = serve(sys.stdin.buffer, sys.stdout.buffer)
        sys.stdout.flush()
        return status
    except BrokenPipeError:
        os.dup2(os.open(os.devnull, os.O_WRONLY), sys.stdout.fileno())
        return 5


if __name__ == "__main__":
    sys.exit(main(sys.argv[1:]))
