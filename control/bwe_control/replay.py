"""The run of a deployment, out of the history of its store, as an input of `bwe audit`.

Its reporters' reports are those that changed anything, each with the revision at which it was put.
What stood when the history begins comes first. A posted prefix X becomes the number of reports up to
revision X, and each posting is what a reader saw.
"""

from __future__ import annotations

import json
from bisect import bisect_right
from collections.abc import Iterator
from dataclasses import dataclass, field

from bwe_control.errors import StoreError, StoreRefused
from bwe_control.keys import Keys
from bwe_control.network import Network, is_reporter, network_of
from bwe_control.programs import run_bwe
from bwe_control.reports import NO_REPORT, Report, changed_lines, read_report
from bwe_control.store.interface import Select, Store
from bwe_control.values import Posted, accepted_of, posted_of

MOST_REPORTS = {4: 4_194_304}  # of a document's script, by its version
MOST_OF_OTHERS = 200_000
MOST_READS, MOST_READERS = 1_000, 64


@dataclass
class Step:
    """What one revision brought: lines of `bwe-live`, or a posting."""

    revision: int
    lines: list[bytes] = field(default_factory=list)
    posted: Posted | None = None


def replay(store: Store, keys: Keys) -> bytes:
    """The input of `bwe audit`. StoreRefused where there is nothing to replay."""
    document, text = _document(store, keys)
    network = network_of(document, text)
    first, steps = _steps(store, keys, network)
    steps = _of_document(steps, document, first)
    return _input(text, network, steps)


def _document(store: Store, keys: Keys) -> tuple[int, bytes]:
    """The document of the table that is posted."""
    reading = store.read([Select(keys.posted), Select(keys.accepted)])
    posted, accepted = (it.one() for it in reading.found)
    if posted is None or accepted is None:
        raise StoreRefused("nothing was posted, so there is no run to replay")
    revision, text = accepted_of(accepted.value)
    wanted = posted_of(posted.value).document
    if wanted == revision:
        return revision, text
    stood = store.read([Select(keys.document)], at=wanted).found[0].one()
    if stood is None:
        raise StoreError("the document has just changed: ask again once a table is posted")
    return wanted, stood.value


def _steps(store: Store, keys: Keys, network: Network) -> tuple[int, list[Step]]:
    """From which revision on the history is kept, and its steps; the first is what stood then."""
    history = store.history([Select(keys.reports, True), Select(keys.posted)])
    reports: dict[str, Report] = {}
    steps = [Step(history.first)]
    for entry in history.entries:
        if entry.key != keys.posted:
            steps[0].lines += _taken(keys, network, reports, entry.key, entry.modified, entry.value)
    for change in history.changes:
        step = Step(change.revision)
        if change.key == keys.posted:
            step.posted = posted_of(change.value) if change.value is not None else None
        else:
            value = change.value
            step.lines = _taken(keys, network, reports, change.key, change.revision, value)
        steps.append(step)
    return history.first, steps


def _taken(
    keys: Keys,
    network: Network,
    reports: dict[str, Report],
    key: str,
    revision: int,
    value: bytes | None,
) -> list[bytes]:
    """The lines that a write of a report brings; none where it is of no reporter."""
    name = key.removeprefix(keys.reports)
    if not is_reporter(network, name):
        return []
    before = reports.get(name, NO_REPORT)
    now = NO_REPORT if value is None else read_report(network, name, revision, value)
    reports[name] = now
    return changed_lines(network, name, before, now)


def _of_document(steps: list[Step], document: int, first: int) -> list[Step]:
    """The postings of that document whose prefix is in the history, and the lines before the last."""
    for step in steps:
        posted = step.posted
        if posted is not None and (posted.document != document or posted.prefix < first):
            step.posted = None
    prefixes = [step.posted.prefix for step in steps if step.posted]
    if not prefixes:
        raise StoreRefused("nothing was posted in the history that is kept")
    return [step for step in steps if step.posted or step.revision <= prefixes[-1]]


def _within(steps: list[Step], most: int) -> list[Step]:
    """Steps of at most so many lines: what is too old stands as the last line of each task and link.

    The table of a prefix is that of the last reports alone, so the postings that are left stay as
    they are.
    """
    if sum(len(step.lines) for step in steps) <= most:
        return steps
    left = most - len({_start(line) for step in steps for line in step.lines})
    for step in reversed(steps):
        left -= len(step.lines)
        if left < 0:
            break
    old = [it for it in steps if it.revision <= step.revision]
    last = {_start(line): line for it in old for line in it.lines}
    base = Step(step.revision, list(last.values()))
    later = [it for it in steps if it.revision > step.revision]
    for it in later:
        if it.posted and it.posted.prefix < base.revision:
            it.posted = None
    if not any(it.posted for it in later):
        raise StoreRefused("the history has too many reports behind its last posting but one")
    return [base, *later]


def _start(line: bytes) -> bytes:
    """What a line of `bwe-live` is about: all but its amount."""
    return line.rpartition(b" ")[0]


def _input(text: bytes, network: Network, steps: list[Step]) -> bytes:
    """The document with the reports as its script, and the run behind it."""
    document = json.loads(text)
    steps = _within(steps, MOST_REPORTS.get(document["version"], MOST_OF_OTHERS))
    revisions = [step.revision for step in steps for _ in step.lines]
    entries = [_entry(line) for step in steps for line in step.lines]
    whole = json.dumps({**document, "script": entries}, separators=(",", ":")).encode()
    table = run_bwe(["solve"], whole)
    reads = [
        (bisect_right(revisions, it.posted.prefix), it.posted.total) for it in steps if it.posted
    ]
    run = "".join(_run(network, entries, reads)).encode() + table
    return b"%d\n%b%b" % (len(whole), whole, run)


def _entry(line: bytes) -> dict[str, str | int]:
    kind, reporter, name, amount = line.decode().split()
    what = "task" if kind == "demand" else "link"
    return {"reporter": reporter, what: name, kind: int(amount)}


def _run(
    network: Network, entries: list[dict[str, str | int]], reads: list[tuple[int, int]]
) -> Iterator[str]:
    """The lines of the run but for its table ("Run text", docs/FORMAT.md)."""
    yield f"history {len(entries)}\n"
    sent = dict.fromkeys(network.reporters, 0)
    for place, entry in enumerate(entries):
        reporter, name, amount = entry.values()
        word = "report" if "task" in entry else "capacity"
        yield f"{word} {place} {reporter} {name} {amount}\n"
        sent[str(reporter)] += 1
    for reporter, number in sent.items():
        yield f"reporter {reporter} sent {number}\n"
    yield from _readers(reads[-MOST_READS * MOST_READERS :], len(entries))


def _readers(reads: list[tuple[int, int]], length: int) -> Iterator[str]:
    """Readers that saw the postings one after the other; each has as many reads as the others."""
    number = -(-len(reads) // MOST_READS)
    each = -(-len(reads) // number)
    reads = [reads[0]] * (number * each - len(reads)) + reads
    last = reads[-1]
    for reader in range(number):
        yield f"reader {reader} length {length}\n"
        floor = 0
        for prefix, total in reads[reader * each : (reader + 1) * each]:
            yield f"read floor {floor} prefix {prefix} total {total}\n"
            floor = prefix
        yield f"final floor {floor} prefix {length} total {last[1]}\n"
