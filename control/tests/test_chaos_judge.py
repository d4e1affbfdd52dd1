"""The judge of chaos finds each kind of broken promise in a made history, and none in a legal one."""

from __future__ import annotations

import dataclasses
import json

import pytest
from chaos_story import Story, usual

from chaos.epochs import epochs_of
from chaos.errors import NotHere, RecordIsTorn
from chaos.judge import Judge
from chaos.log import text_of
from chaos.programs import Programs
from chaos.reader_judge import Block
from chaos.record import Event, Record, read_record
from chaos.reports import names_in, read_report
from chaos.run_judge import RunJudge
from chaos.scene import BAD_LINES, bad_document, document
from chaos.verdict import Verdict


@pytest.fixture(scope="module")
def programs() -> Programs:
    try:
        return Programs()
    except NotHere as fault:
        pytest.skip(str(fault))


@pytest.fixture
def story(programs: Programs) -> Story:
    return usual(programs)


def verdict_of(story: Story) -> Verdict:
    return Judge(story.programs).judge(story.record())


def finds(story: Story, promise: int, kind: str, revision: int) -> None:
    """The judge names the fault with its revision, and it is the first one."""
    faults = sorted(verdict_of(story).faults)
    assert faults, "nothing was found"
    assert (faults[0].promise, faults[0].kind, faults[0].revision) == (promise, kind, revision)


def test_a_legal_history_is_legal(story):
    verdict = verdict_of(story)
    assert verdict.faults == []
    assert verdict.counts["posts"] == 3
    assert verdict.counts["runs audited"] == 1
    assert verdict.counts["refusals"] == 2


def test_a_legal_change_of_documents_is_legal(story):
    story.put_document("less")
    story.post()
    story.put_document("more")
    story.post()
    story.look("r1")
    verdict = verdict_of(story)
    assert verdict.faults == []
    assert verdict.counts["runs audited"] == 3


def test_a_bad_document_stays_away_and_is_refused(story):
    number = story.write({"document": b"not json"})
    refused = b"revision %d\nrefused 1 not json\n" % number
    story.write({"leader": b"a1\n", "refused/:document": refused})
    story.post()
    assert verdict_of(story).faults == []


def test_a_report_that_a_table_leaves_out(story):
    before = story.revision
    story.report("r2", b"demand t2 200000009\n")
    puts = story.due(before)
    puts["posted"] = puts["posted"].replace(b"prefix %d" % before, b"prefix %d" % story.revision)
    revision = story.write(puts)
    finds(story, 1, "table", revision)


def test_a_post_before_its_slices(story):
    story.report("r0", b"demand t0 20000009\n")
    puts = story.due(story.revision)
    piece = puts.pop("limits/r0")
    revision = story.write(puts)
    story.write({"leader": b"a1\n", "limits/r0": piece})
    finds(story, 1, "table", revision)


def test_slices_before_their_post(story):
    story.report("r0", b"demand t0 20000009\n")
    puts = story.due(story.revision)
    revision = story.write({"limits/r0": puts.pop("limits/r0")})
    story.write(puts)
    finds(story, 1, "table", revision)


def test_an_older_post_over_a_newer_one(story):
    old = dict(story.state)
    story.report("r0", b"demand t0 20000009\n")
    story.post()
    keys = ("posted", "limits/r0", "limits/r1", "limits/r2", "limits/noc")
    revision = story.write({key: old[key] for key in keys})
    kinds = {(it.promise, it.kind, it.revision) for it in verdict_of(story).faults}
    assert (2, "falls", revision) in kinds


def test_a_slice_of_another_prefix_than_it_says(story):
    story.report("r0", b"demand t0 20000009\n")
    puts = story.due(story.revision)
    head, _, rows = puts["limits/r0"].partition(b"\n")
    puts["limits/r0"] = head.replace(b"prefix %d" % story.revision, b"prefix 3") + b"\n" + rows
    revision = story.write(puts)
    finds(story, 2, "slice", revision)


def test_a_slice_of_no_reporter(story):
    revision = story.write({"limits/r9": b"prefix 3 document 1\n"})
    finds(story, 1, "slice", revision)


def test_a_total_that_is_not_the_tables(story):
    story.report("r0", b"demand t0 20000009\n")
    puts = story.due(story.revision)
    puts["posted"] = puts["posted"].replace(b"total ", b"total 1")
    finds(story, 1, "total", story.write(puts))


def test_a_refusal_that_is_not_written(story):
    story.report("r2", b"demand t2 200000009\ndemand t0 5\n")
    revision = story.write(story.due(story.revision))
    finds(story, 1, "refused", revision)


def test_a_refusal_that_stays(story):
    story.report("r1", b"demand t1 300000007\n")
    revision = story.write(story.due(story.revision))
    finds(story, 1, "refused", revision)


def test_a_document_that_is_passed_over(story):
    story.write({"document": document("more")})
    revision = story.write(story.due(story.revision))
    finds(story, 1, "document", revision)


def test_an_accepted_document_that_is_another(story):
    number = story.write({"document": document("more")})
    story.accept(number, document("more") + b" ")
    revision = story.write(story.due(story.revision))
    finds(story, 1, "accepted", revision)


def test_a_value_that_is_not_of_the_form(story):
    finds(story, 1, "form", story.write({"posted": b"prefix 03 document 1 total 2\n"}))


def test_a_reader_who_sees_the_prefix_fall(story):
    early = story.shown("r0")
    story.report("r0", b"demand t0 20000009\n")
    prefix = story.post()
    call = story.begin_call("limits", "reader", "r0", follow=True)
    story.event(call, "block", text=story.shown("r0"))
    story.event(call, "block", text=early)
    finds(story, 2, "falls", prefix)


def test_two_reads_side_by_side_are_not_one_behind_the_other(story):
    early = story.shown("r0")
    first, second = (story.begin_call("limits", "look", "r0") for _ in range(2))
    story.report("r0", b"demand t0 20000009\n")
    story.post()
    story.event(second, "block", text=early)
    story.event(first, "block", text=story.shown("r0"))
    assert not verdict_of(story).faults
    third = story.begin_call("limits", "look", "r0")
    story.event(third, "block", text=early)
    assert {it.promise for it in verdict_of(story).faults} == {2, 3}


def test_a_reader_who_sees_what_never_stood_together(story):
    early = story.shown("r0")
    story.report("r0", b"demand t0 20000009\n")
    prefix = story.post()
    late = story.shown("r0")
    call = story.begin_call("limits", "reader", "r0")
    text = late.split("limits ")[0] + "limits " + early.split("limits ")[1]
    story.event(call, "block", text=text)
    finds(story, 2, "table", prefix)


def test_a_read_that_is_older_than_what_was_seen(story):
    early = story.shown("r0")
    story.report("r0", b"demand t0 20000009\n")
    prefix = story.post()
    call = story.begin_call("limits", "another", "r0")
    story.event(call, "block", text=early)
    finds(story, 3, "stale read", prefix)


def wait(story: Story, reporter: str, value: bytes, said: list[str], status: int = 0) -> None:
    call = story.begin_call("report", reporter, reporter, value=text_of(value))
    for line in said:
        story.event(call, "said", line=line)
    story.event(call, "end", status=status)


def test_a_wait_that_does_not_wait(story):
    value = b"demand t0 20000009\n"
    number = story.write({"report/r0": value})
    wait(story, "r0", value, [f"put {number}", f"posted {number}"])
    story.write({"leader": b"a1\n"})
    story.post()
    finds(story, 3, "told", number)


def test_a_wait_for_a_table_without_the_report(story):
    value = b"demand t0 20000009\n"
    prefix = int(story.state["posted"].split(b" ")[1])
    number = story.write({"report/r0": value})
    wait(story, "r0", value, [f"put {number}", f"posted {prefix}"])
    story.post()
    finds(story, 3, "told", prefix)


def test_a_report_that_is_put_twice(story):
    value = b"demand t0 20000009\n"
    story.report("r0", value)
    finds(story, 3, "put twice", story.write({"report/r0": value}))


def test_a_report_that_is_told_not_done_and_stands(story):
    value = b"demand t0 20000009\n"
    number = story.write({"report/r0": value})
    wait(story, "r0", value, [], status=4)
    finds(story, 3, "put", number)


def test_a_report_whose_outcome_is_unknown_may_stand_or_not(story):
    value = b"demand t0 20000009\n"
    story.write({"report/r0": value})
    wait(story, "r0", value, [], status=5)
    wait(story, "r0", b"demand t0 20000010\n", [], status=5)
    assert verdict_of(story).faults == []


def test_a_report_that_is_told_done_and_does_not_stand(story):
    wait(story, "r0", b"demand t0 20000009\n", ["put 7"])
    finds(story, 3, "put", 7)


def test_a_report_that_nobody_made(story):
    finds(story, 3, "put", story.write({"report/r0": b"demand t0 1\n"}))


def test_posting_that_does_not_go_on(story):
    more = {"caught": False, "seconds": 60, "revision": story.revision}
    story.events.append(Event(story.tick(), "calm", more))
    finds(story, 4, "stopped", story.revision)


def test_a_replay_that_is_no_legal_run(story):
    record = story.record()
    record.replay = "3\n{} \nhistory 0\n"
    faults = Judge(story.programs).judge(record).faults
    assert {(it.promise, it.kind) for it in faults} == {(5, "replay")}


def runs_of(story: Story) -> tuple[RunJudge, Verdict]:
    verdict = Verdict()
    return RunJudge(story.tables(), story.programs, verdict), verdict


def test_a_run_with_another_total(story):
    runs, verdict = runs_of(story)
    [epoch] = epochs_of(runs.tables, story.transactions)
    epoch.posts[1] = dataclasses.replace(epoch.posts[1], total=5)
    runs.judge_run(epoch, [])
    assert [(it.promise, it.kind) for it in verdict.faults] == [(5, "audit")]


def test_a_region_that_keeps_to_other_limits(story):
    runs, verdict = runs_of(story)
    [epoch] = epochs_of(runs.tables, story.transactions)
    posted, piece = story.state["posted"], story.state["limits/r0"]
    runs.judge_events(epoch, [("r0", Block(1.0, posted, piece))])
    assert verdict.faults == []
    runs.judge_events(epoch, [("r0", Block(1.0, posted, piece.replace(b"limit ", b"limit 1")))])
    assert [(it.promise, it.kind) for it in verdict.faults] == [(6, "enforce")]


def test_each_bad_line_is_refused(programs):
    names = names_in(document("plain"))
    for line in BAD_LINES:
        assert read_report(names, "r0", line).lines == (), line
    report = read_report(names, "r0", b"demand t0 5\ndemand t1 5\ndemand t0 4")
    assert [(it.number, it.cause) for it in report.refusals] == [(2, 4), (3, 1)]


def write_record(folder, transactions, final) -> None:
    lines = [
        {
            "revision": it.revision,
            "at": it.at,
            "puts": {key: text_of(value) for key, value in it.puts.items()},
            "deletes": list(it.deletes),
        }
        for it in transactions
    ]
    (folder / "history.jsonl").write_text("".join(json.dumps(it) + "\n" for it in lines))
    (folder / "log.jsonl").write_text("")
    keys = {key: text_of(value) for key, value in final.items()}
    (folder / "final.json").write_text(json.dumps({"revision": 99, "keys": keys}))


def test_a_record_is_read_as_it_was_written(story, tmp_path):
    story.report("r1", b"\xff\xfe\n")
    write_record(tmp_path, story.transactions, story.state)
    assert read_record(tmp_path).transactions == story.transactions


def test_a_torn_record_is_not_judged(story, tmp_path):
    write_record(tmp_path, story.transactions[:-1], story.state)
    with pytest.raises(RecordIsTorn):
        read_record(tmp_path)
    (tmp_path / "history.jsonl").write_text('{"gap": 7}\n')
    with pytest.raises(RecordIsTorn):
        read_record(tmp_path)
