"""The texts of values, and the lines of reports beside the second implementation of bwe-live."""

import json
import random
import subprocess
import sys
from dataclasses import replace
from pathlib import Path

import pytest
from deployment import ROOT, TWO_FIBRES, built, needs_live

sys.path.insert(0, str(ROOT / "tools/check"))

import live

from bwe_control.errors import StoreRefused
from bwe_control.network import network_of
from bwe_control.reports import NO_REPORT, cause_of, changed_lines, next_report, read_report
from bwe_control.values import (
    Posted,
    RefusedLine,
    Refusals,
    Slice,
    accepted_of,
    accepted_revision,
    accepted_value,
    posted_of,
    refusals_of,
    slice_of,
)

DOCUMENT = TWO_FIBRES.read_bytes()
NETWORK = network_of(1, DOCUMENT)
WORDS = [
    *[
        "demand",
        "capacity",
        "post",
        "state",
        "Demand",
        "pages-0",
        "pages-1",
        "nightly-0",
        "fibre-1",
    ],
    *["hosts", "noc", "x", "", " ", "0", "7", "+1", "1.0", "007", "1000000000000", "1000000000001"],
    *["9" * 20, "9" * 21, "\t", "\r", "\u00e9", "y" * 64, "z" * 200, "\u0660"],
]


@pytest.mark.parametrize(
    "read, value",
    [
        (posted_of, Posted(5, 2, 10**15)),
        (slice_of, Slice(5, 2, {"b": 3, "a": 0})),
        (slice_of, Slice(5, 2, {})),
        (refusals_of, Refusals(3, (RefusedLine(1, 2, "demand x 1"), RefusedLine(9, 1, "")))),
        (refusals_of, Refusals(3, (RefusedLine(1, 1, " "),), 7)),
    ],
)
def test_a_value_is_read_as_it_was_written(read, value):
    assert read(value.text().encode()) == value


@pytest.mark.parametrize("read", [posted_of, slice_of, refusals_of, accepted_of])
@pytest.mark.parametrize("value", [b"", b"x", b"\xff\n", b"prefix 1 document x\n", b"prefix 1\n"])
def test_a_value_that_nobody_writes_is_refused_in_a_sentence(read, value):
    with pytest.raises(StoreRefused, match="none that an allocator writes"):
        read(value)


def test_the_accepted_document_stands_behind_its_revision():
    value = accepted_value(12345, DOCUMENT)
    assert accepted_of(value) == (12345, DOCUMENT) and accepted_revision(value) == 12345


def random_line(chance):
    words = [chance.choice(WORDS) for _ in range(chance.randint(0, 4))]
    if chance.random() < 0.6:
        words = [chance.choice(["demand", "capacity"]), chance.choice(WORDS), chance.choice(WORDS)]
    line = " ".join(words).encode()
    return line + bytes([chance.randrange(128, 256)]) if chance.random() < 0.05 else line


def whole(reporter, line):
    """The line of bwe-live: the reporter as its second word."""
    kind, space, rest = line.partition(b" ")
    return kind + b" " + reporter.encode() + space + rest


@pytest.mark.parametrize("seed", range(20))
def test_causes_are_those_of_the_second_implementation(seed):
    chance, judge = random.Random(seed), live.Live(json.loads(DOCUMENT), solve=lambda _: "")
    for _ in range(300):
        reporter, line = chance.choice(["hosts", "noc"]), random_line(chance)
        wanted = judge.judge(live.text_of(whole(reporter, line) + b"\n"))[0]
        assert cause_of(NETWORK, reporter, line) == wanted, line
        report = read_report(NETWORK, reporter, 1, line + b"\n")
        lines = report.refusals.lines if report.refusals else ()
        assert [it.cause for it in lines] == ([wanted] if wanted else []), line


@needs_live
def test_causes_are_those_of_bwe_live(tmp_path):
    chance = random.Random(7)
    lines = [(chance.choice(["hosts", "noc"]), random_line(chance)) for _ in range(2000)]
    given = b"".join(whole(*it) + b"\n" for it in lines if b"\n" not in it[1])
    ran = subprocess.run(
        [built("BWE_LIVE", "bwe_live")],
        input=b"%d\n%b%b" % (len(DOCUMENT), DOCUMENT, given),
        capture_output=True,
        check=True,
    )
    words = [it.split() for it in ran.stdout.decode().splitlines() if it.startswith("refused")]
    wanted = {int(it[2]): int(it[4]) for it in words}
    causes = {at: cause_of(NETWORK, *it) for at, it in enumerate(lines, 1)}
    assert {at: it for at, it in causes.items() if it} == wanted


@pytest.mark.parametrize("seed", range(10))
def test_lines_of_changes_lead_from_one_report_to_the_next(seed):
    """What is left out falls to demand 0, or to the document's capacity."""
    chance, before, stands = random.Random(seed), NO_REPORT, {}
    names = [b"demand pages-0", b"demand pages-1", b"demand nightly-0"]
    for revision in range(1, 40):
        chosen = [chance.choice(names) for _ in range(chance.randint(0, 4))]
        if chance.random() < 0.5:
            chosen = names
        value = b"".join(b"%b %d\n" % (it, chance.randint(0, 5)) for it in chosen)
        now, lines = next_report(NETWORK, "hosts", revision, value, before)
        assert now == replace(read_report(NETWORK, "hosts", revision, value), lines=now.lines)
        for line in lines:
            kind, _, name, amount = line.split()
            stands[kind + b" " + name] = int(amount)
        wanted = {it: 0 for it in stands} | now.amounts
        assert stands == wanted
        before = now


def test_a_capacity_that_is_left_out_is_the_documents_again():
    given = read_report(NETWORK, "noc", 1, b"capacity fibre-1 5\n")
    lines = changed_lines(NETWORK, "noc", given, NO_REPORT)
    assert lines == [b"capacity noc fibre-1 10000000\n"]


def test_of_two_lines_of_one_task_the_later_one_counts():
    report = read_report(
        NETWORK, "hosts", 1, b"demand pages-0 1\ndemand pages-0 2\ndemand pages-0 x\n"
    )
    assert report.amounts == {b"demand pages-0": 2} and report.refusals.number == 1


def test_the_document_that_the_tests_use_is_that_of_the_examples():
    assert DOCUMENT == (Path(ROOT) / "examples/live/two-fibres.json").read_bytes()
