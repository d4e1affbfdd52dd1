"""The run of a deployment: `bwe audit` has to call it legal, and to find a run that is not."""

import json
import subprocess

from deployment import TWO_FIBRES, built, needs_bwe, needs_live

from bwe_control import replay as replays
from bwe_control.errors import StoreRefused
from bwe_control.replay import replay
from bwe_control.store.interface import Delete, Select

pytestmark = [needs_live, needs_bwe]


def audit(text):
    ran = subprocess.run(
        [built("BWE", "bwe"), "audit"], input=text, capture_output=True, timeout=60, check=False
    )
    return ran.stdout.decode().strip()


def run_for_a_while(deployment, rounds=12):
    """Reports of two reporters, one deleted, with lines that are refused among them."""
    for amount in range(rounds):
        deployment.report("hosts", f"demand pages-{amount % 3} {1000000 * amount}\nwrong\n")
        deployment.wait_posted(deployment.report("noc", f"capacity fibre-1 {700000 * amount}\n"))
    gone = deployment.store.transact([], [Delete(deployment.keys.report("noc"))])
    deployment.wait_posted(gone.revision)
    deployment.wait_posted(deployment.report("rx", "demand pages-0 1\n"))


def test_a_deployment_is_legal_and_a_wrong_total_is_found(deployment):
    deployment.init()
    deployment.allocate("a")
    run_for_a_while(deployment)
    text = deployment.run("replay").encode()
    assert audit(text) == "legal"
    last = text.rindex(b"\nread floor ")
    total = text.index(b" total ", last) + 7
    wrong = text[:total] + b"1" + text[total:]
    assert audit(wrong).startswith("wrong at line ") and audit(wrong).endswith(": total")


def test_a_compacted_history_is_legal_from_where_it_begins(deployment):
    deployment.init()
    deployment.allocate("a")
    run_for_a_while(deployment, 4)
    deployment.store.compact(deployment.store.read([Select("x")]).revision)
    run_for_a_while(deployment, 4)
    text = deployment.run("replay").encode()
    assert audit(text) == "legal" and text.count(b"\nread floor ") >= 4


def test_after_a_new_document_the_run_is_that_of_it(deployment):
    deployment.init()
    one = deployment.allocate("a")
    run_for_a_while(deployment, 3)
    whole = json.loads(TWO_FIBRES.read_text())
    whole["groups"] = whole["groups"][:1]
    deployment.wait_posted(deployment.init(json.dumps(whole).encode()))
    one.kill()
    deployment.allocate("b")
    run_for_a_while(deployment, 3)
    assert audit(deployment.run("replay").encode()) == "legal"


def test_a_history_of_too_many_reports_begins_later(deployment, monkeypatch):
    deployment.init()
    deployment.allocate("a")
    run_for_a_while(deployment)
    whole = replay(deployment.store, deployment.keys)
    monkeypatch.setattr(replays, "MOST_OF_OTHERS", 15)
    monkeypatch.setattr(replays, "MOST_READS", 2)
    text = replay(deployment.store, deployment.keys)
    assert audit(text) == "legal" and len(text) < len(whole)
    assert text.count(b"\nreader ") > 1


def test_what_was_never_posted_is_no_run(deployment):
    deployment.init()
    deployment.run("replay", status=4)
    assert "nothing was posted" in deployment.said
    try:
        replay(deployment.store, deployment.keys)
    except StoreRefused as fault:
        assert fault.status == 4
