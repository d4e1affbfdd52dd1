"""The lines of a report: which of them count, why others are refused, and what has changed."""

from __future__ import annotations

import re
from dataclasses import dataclass, field

from bwe_control.network import Network
from bwe_control.values import MOST_OF_REFUSALS, RefusedLine, Refusals, printable

MOST = 1_000_000_000_000  # kilobits per second
MOST_IN_A_LINE = 255
REPORT = re.compile(r"(demand|capacity) ([^ ]+) ([^ ]+) ([0-9]{1,20})")


@dataclass(frozen=True)
class Report:
    """A report as it was read: what it says of each task and link, and what was refused of it.

    `lines` are those of a report of which each line counts, for the next report to be compared with.
    """

    amounts: dict[bytes, int] = field(default_factory=dict)
    refusals: Refusals | None = None
    lines: list[bytes] | None = None


NO_REPORT = Report()


def read_report(network: Network, reporter: str, revision: int, value: bytes) -> Report:
    """Reads the value of a report; of two lines of one task or link the later one counts."""
    known = network.lines[reporter]
    amounts: dict[bytes, int] = {}
    refused = _Refused()
    *lines, cut = value.split(b"\n")
    for number, line in enumerate(lines, 1):
        start, _, amount = line.rpartition(b" ")
        if start in known and _is_amount(amount):
            amounts[start] = int(amount)
        elif refused.is_full:
            refused.more += 1
        else:
            refused.add(RefusedLine(number, cause_of(network, reporter, line), printable(line)))
    if cut:
        refused.add(RefusedLine(len(lines) + 1, 1, printable(cut)))
    refusals = refused.refusals(revision)
    is_plain = refusals is None and len(amounts) == len(lines)
    return Report(amounts, refusals, lines if is_plain else None)


def next_report(
    network: Network, reporter: str, revision: int, value: bytes, before: Report
) -> tuple[Report, list[bytes]]:
    """Reads the value of a report behind another one, with the lines of `bwe-live` between them."""
    quick = _next_plain(network.lines[reporter], value, before)
    if quick is not None:
        return quick
    now = read_report(network, reporter, revision, value)
    return now, changed_lines(network, reporter, before, now)


def _next_plain(
    known: dict[bytes, tuple[bytes, int]], value: bytes, before: Report
) -> tuple[Report, list[bytes]] | None:
    """The same where both have the same tasks and links in the same order: most lines are equal."""
    *lines, cut = value.split(b"\n")
    if cut or before.lines is None or len(lines) != len(before.lines):
        return None
    amounts: dict[bytes, int] = {}
    for old, new in zip(before.lines, lines):
        if old != new:
            start, _, amount = new.rpartition(b" ")
            if start != old.rpartition(b" ")[0] or not _is_amount(amount):
                return None
            amounts[start] = int(amount)
    changed = [b"%b%d\n" % (known[start][0], amount) for start, amount in amounts.items()]
    return Report(before.amounts | amounts, None, lines), changed


def _is_amount(text: bytes) -> bool:
    return text.isdigit() and len(text) <= 20 and int(text) <= MOST


class _Refused:
    """The refused lines of a report, as many as a value has room for, and how many more."""

    def __init__(self) -> None:
        self._lines: list[RefusedLine] = []
        self._left = MOST_OF_REFUSALS
        self.more, self.is_full = 0, False

    def add(self, line: RefusedLine) -> None:
        self._left -= len(line.text) + 25
        self.is_full = self._left < 0
        if self.is_full:
            self.more += 1
        else:
            self._lines.append(line)

    def refusals(self, revision: int) -> Refusals | None:
        if not self._lines and not self.more:
            return None
        return Refusals(revision, tuple(self._lines), self.more)


def cause_of(network: Network, reporter: str, line: bytes) -> int:
    """Why `bwe-live` refuses the line, with the reporter as its second word; 0 where it does not."""
    kind, space, rest = line.partition(b" ")
    whole = kind + b" " + reporter.encode() + space + rest
    try:
        found = REPORT.fullmatch(whole.decode())
    except UnicodeDecodeError:
        return 1
    if found is None or len(whole) > MOST_IN_A_LINE:
        return 1
    owners, name, amount = network.owners[found[1]], found[3], int(found[4])
    if name not in owners:
        return 2
    if amount > MOST:
        return 3
    return 4 if owners[name] != reporter else 0


def changed_lines(network: Network, reporter: str, before: Report, now: Report) -> list[bytes]:
    """The lines of `bwe-live` that lead from one report to another.

    What the new one leaves out falls to demand 0, or to the document's capacity.
    """
    known, was, amounts = network.lines[reporter], before.amounts, now.amounts
    lines = [
        b"%b%d\n" % (known[start][0], amount)
        for start, amount in amounts.items()
        if was.get(start) != amount
    ]
    return lines + [b"%b%d\n" % known[start] for start in was if start not in amounts]
