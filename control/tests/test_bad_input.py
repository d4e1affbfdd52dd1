"""What reporters and operators put wrongly: each has a sentence, a status, and loses nothing."""

import json
import os
import subprocess
from pathlib import Path

import pytest
from deployment import PROGRAM, TWO_FIBRES, needs_bwe, needs_live

from bwe_control.errors import InputError
from bwe_control.store.interface import Put
from bwe_control.store.opening import default_store
from bwe_control.values import accepted_of, refusals_of, refused_document_of

NAMES = b"demand pages-0 5\ndemand pages-9 7\ncapacity fibre-1 3\n"


def document(**changed):
    return json.dumps({**json.loads(TWO_FIBRES.read_text()), **changed}).encode()


@pytest.fixture
def running(own):
    """A network with an allocator."""
    own.init()
    own.one = own.allocate("a")
    own.wait_posted(own.report("hosts", "demand pages-0 1\ndemand pages-1 2\n"))
    return own


def refused(deployment, reporter):
    value = deployment.value(deployment.keys.refused(reporter))
    return refusals_of(value) if value else None


@needs_live
def test_unknown_names_and_anothers_links_are_refused_line_by_line(running):
    out = running.run("report", "hosts", "--wait", given=NAMES, status=1)
    put, *lines = out.splitlines()
    assert lines == [
        f"refused revision {put.split()[1]}",
        "2 2 demand pages-9 7",
        "3 4 capacity fibre-1 3",
    ]
    assert running.shown("hosts") == {"pages-0": 5, "pages-1": 0, "nightly-0": 0}
    out = running.run("report", "hosts", "--wait", given=b"demand pages-0 6\n")
    assert out.splitlines()[1].startswith("posted ")
    assert refused(running, "hosts") is None


@needs_live
def test_each_cause_stands_with_its_line(running):
    given = (
        b"demand pages-0 1000000000001\ndemand pages-1 007\nDemand pages-0 1\npost\nstate\n\n"
        b"demand  pages-0 1\ndemand pages-0 +1\ndemand pages-0 1\r\ndemand fibre-1 1\n"
        b"demand pages-0 000000000000000000001\n\xff\xfe\x00\n" + b"x" * 300 + b"\ndemand pages-0 4"
    )
    running.wait_posted(running.report("hosts", given))
    lines = refused(running, "hosts").lines
    causes = {it.number: it.cause for it in lines}
    assert causes == {
        1: 3,
        3: 1,
        4: 1,
        5: 1,
        6: 1,
        7: 1,
        8: 1,
        9: 1,
        10: 2,
        11: 1,
        12: 1,
        13: 1,
        14: 1,
    }
    texts = {it.number: it.text for it in lines}
    assert (texts[6], texts[9], texts[12], texts[13]) == ("", "demand pages-0 1?", "???", "x" * 80)
    assert running.shown("hosts")["pages-1"] == 7


@needs_live
def test_bytes_that_are_no_text_lose_nothing(running):
    running.wait_posted(running.report("hosts", bytes(range(256)) * 40))
    assert refused(running, "hosts") is not None
    running.wait_posted(running.report("hosts", "demand pages-0 9\n"))
    assert running.shown("hosts")["pages-0"] == 9 and running.one.poll() is None


def test_a_report_of_10_megabytes_is_not_put(own):
    own.init()
    own.run("report", "hosts", given=b"demand pages-0 5\n" * 600_000, status=3)
    assert "8000000 bytes" in own.said and own.said.count("\n") == 1
    assert own.value(own.keys.report("hosts")) is None


@needs_live
def test_a_report_of_many_wrong_lines_is_counted_and_not_all_listed(running):
    running.wait_posted(running.report("hosts", b"wrong\n" * 300_000))
    found = refused(running, "hosts")
    assert len(found.lines) > 10_000 and found.number == 300_000
    assert "lines 300000" in running.run("status")


@needs_live
def test_a_reporter_that_the_document_has_not_is_ignored_and_named(running):
    out = running.run("report", "nobody", "--wait", given=b"demand pages-0 5\n", status=1)
    assert "the document has no reporter nobody" in out
    running.report("odd\n\u00ff name", "demand pages-0 5\n")
    text = running.run("status")
    assert "ignored nobody:" in text and "ignored odd??? name:" in text
    assert running.shown("hosts")["pages-0"] == 1


def test_a_name_that_is_none_is_refused_before_anything_is_put(own):
    own.init()
    for name in ("", "a b", "../document", "x" * 65, "h\u00f6sts"):
        own.run("report", name, given=b"", status=2)
        assert own.said.count("\n") == 1


@needs_live
def test_a_document_that_is_refused_stays_away_and_a_good_one_comes(running):
    keys = running.keys
    first = accepted_of(running.value(keys.accepted))[0]
    bad = running.init(b'{"version":1}')
    running.wait_posted(bad)
    assert refused_document_of(running.value(keys.refused_document)) == (
        bad,
        "refused 2 shape at /",
    )
    assert accepted_of(running.value(keys.accepted))[0] == first
    assert f"document {bad} refused: refused 2 shape at /" in running.run("status")
    running.one.kill()
    running.allocate("b")
    running.wait_leader("b")
    running.wait_posted(running.report("hosts", "demand pages-0 3\n"))
    assert running.limits("hosts").posted.document == first
    good = running.init(document(top=2000))
    running.wait_posted(good)
    assert running.value(keys.refused_document) is None
    assert accepted_of(running.value(keys.accepted)) == (good, document(top=2000))
    assert running.shown("hosts")["pages-0"] == 3


@needs_live
def test_a_document_that_only_the_control_plane_refuses(running):
    script = [{"reporter": "hosts", "task": "pages-0", "demand": 1}]
    bad = running.init(document(script=script))
    running.wait_posted(bad)
    revision, line = refused_document_of(running.value(running.keys.refused_document))
    assert revision == bad and line.startswith("refused script of 1 reports")


@needs_live
def test_a_reporter_named_document_and_a_refused_document_are_told_apart(running):
    keys = running.keys
    running.wait_posted(running.init(document(reporters=["hosts", "noc", "document"])))
    revision = running.report("document", "demand pages-0 3\n")
    running.wait_posted(revision)
    assert [(it.cause, it.text) for it in refused(running, "document").lines] == [
        (4, "demand pages-0 3")
    ]
    assert running.value(keys.refused_document) is None
    bad = running.init(b"no json")
    running.wait_posted(bad)
    assert refused_document_of(running.value(keys.refused_document))[0] == bad
    assert refused(running, "document").revision == revision
    running.wait_posted(running.report("document", ""))
    assert refused(running, "document") is None
    assert refused_document_of(running.value(keys.refused_document))[0] == bad
    status = json.loads(running.run("status", "--json"))
    assert status["refused_document"]["revision"] == bad


@needs_live
def test_a_refusal_where_an_earlier_version_put_it_goes(own):
    own.store.transact([], [Put(own.keys.refusals + "document", b"revision 1\nrefused 1 no\n")])
    own.allocate("a")
    own.wait_posted(own.init())
    assert own.value(own.keys.refusals + "document") is None


@needs_live
def test_a_first_document_that_is_refused_posts_nothing(own):
    bad = own.init(b"no json")
    one = own.allocate("a")
    own.wait(lambda: own.value(own.keys.refused_document) is not None)
    assert refused_document_of(own.value(own.keys.refused_document))[0] == bad
    own.report("hosts", "demand pages-0 3\n")
    assert own.run("limits", "hosts") == "posted none\nlimits none\n\n"
    own.wait_posted(own.init())
    assert own.shown("hosts")["pages-0"] == 3 and one.poll() is None


@needs_live
def test_a_report_whose_task_is_gone_is_refused_loudly(running):
    """The task comes back with the document that has it."""
    whole = json.loads(TWO_FIBRES.read_text())
    job = whole["groups"][0]["users"][0]["jobs"][0]
    job["tasks"] = [it for it in job["tasks"] if it["name"] != "pages-1"]
    running.wait_posted(running.init(json.dumps(whole).encode()))
    assert [(it.cause, it.text) for it in refused(running, "hosts").lines] == [
        (2, "demand pages-1 2")
    ]
    assert running.shown("hosts") == {"pages-0": 1, "nightly-0": 0}
    running.wait_posted(running.init())
    assert refused(running, "hosts") is None
    assert running.shown("hosts")["pages-1"] == 2


@needs_live
def test_a_reporter_that_leaves_the_document_has_no_slice_any_more(running):
    whole = json.loads(TWO_FIBRES.read_text())
    whole["reporters"] = ["hosts"]
    for link in whole["links"]:
        del link["owner"]
    running.wait_posted(running.init(json.dumps(whole).encode()))
    assert running.value(running.keys.limits("noc")) is None
    assert running.limits("noc").slice is None
    running.wait_posted(running.init())
    assert running.limits("noc").slice is not None


@needs_bwe
def test_init_refuses_what_bwe_refuses_and_puts_nothing(own):
    own.run("init", "-", given=b'{"version":1}', status=3)
    assert "refused 2 shape at /" in own.said
    script = [{"reporter": "hosts", "task": "pages-0", "demand": 1}]
    own.run("init", "-", given=document(script=script), status=3)
    own.run("init", "/nowhere.json", status=2)
    assert own.value(own.keys.document) is None


def test_words_that_are_none_have_status_2(own):
    for words in (
        ["report"],
        ["nothing"],
        ["allocate", "--every", "x"],
        ["--store", "x:y", "status"],
    ):
        own.run(*words, status=2)


@pytest.mark.parametrize(
    "words, status, sentence",
    [
        ("report hosts <&-", 2, "there is no standard input"),
        ("init - <&-", 2, "there is no standard input"),
        ("limits hosts >/dev/full", 5, "reading or writing failed: No space left on device"),
        ("report hosts </dev/null >/dev/full", 5, "reading or writing failed: No space left"),
        ("report hosts </dev/null >&-", 0, ""),
        ("limits hosts | true", 0, ""),
    ],
)
def test_streams_that_are_closed_or_full_have_a_sentence(own, words, status, sentence):
    own.init()
    ran = subprocess.run(
        ["bash", "-c", f"{PROGRAM} {words}"],
        capture_output=True,
        env=own.environment,
        check=False,
    )
    said = ran.stderr.decode()
    assert ran.returncode == status and sentence in said and said.count("\n") == bool(sentence)


def test_a_user_without_a_folder_is_told_to_name_a_store(monkeypatch):
    def nowhere():
        raise RuntimeError

    for name in ("STATE_DIRECTORY", "XDG_STATE_HOME"):
        monkeypatch.delenv(name, raising=False)
    monkeypatch.setattr(os, "geteuid", lambda: 54321)
    monkeypatch.setattr(Path, "home", nowhere)
    with pytest.raises(InputError, match="BWE_STORE"):
        default_store()


def test_values_that_nobody_writes_are_said(own):
    from bwe_control.store.interface import Put

    own.store.transact([], [Put(own.keys.posted, b"\xff nonsense")])
    own.run("limits", "hosts", status=4)
    assert "posted" in own.said and own.said.count("\n") == 1
