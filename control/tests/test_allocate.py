"""Allocators as processes, over both stores: they lead, stand by, die, are paused, and go on."""

import os
import signal
import subprocess
import time

from deployment import PROGRAM, needs_bwe, needs_live

from bwe_control.store.interface import Select
from bwe_control.values import posted_of, slice_of

pytestmark = needs_live


def history(deployment):
    """All slices and postings that ever stood."""
    keys = deployment.keys
    found = deployment.store.history([Select(keys.slices, True), Select(keys.posted)])
    return list(found.changes)


def prefixes(deployment):
    posted = [it for it in history(deployment) if it.key == deployment.keys.posted]
    return [posted_of(it.value).prefix for it in posted]


@needs_bwe
def test_one_machine_in_two_commands(deployment):
    path = PROGRAM.parent / "control" / "tests" / "data" / "two-fibres.json"
    assert deployment.run("init", str(path)).startswith("put ")
    deployment.start("allocate", log="a.log")
    out = deployment.run("report", "hosts", "--wait", given=b"demand pages-0 5000000\n")
    put, posted = (line.split() for line in out.splitlines())
    assert (put[0], posted[0]) == ("put", "posted") and int(posted[1]) >= int(put[1])
    lines = deployment.run("limits", "hosts").split("\n")
    assert lines[0].startswith("posted prefix ") and lines[1].startswith("limits prefix ")
    assert lines[2:] == [
        *["task pages-0 limit 5000000", "task pages-1 limit 0", "task nightly-0 limit 0", "", ""]
    ]


def test_limits_follow_reports_and_a_drain(deployment):
    deployment.init()
    deployment.allocate("a")
    deployment.report("hosts", "demand pages-0 5000000\ndemand nightly-0 15000000\n")
    deployment.wait_posted(deployment.report("noc", ""))
    assert deployment.shown("hosts") == {"pages-0": 5000000, "pages-1": 0, "nightly-0": 15000000}
    assert deployment.shown("noc") == {} and deployment.limits("noc").slice is not None
    deployment.wait_posted(deployment.report("noc", "capacity fibre-1 0\n"))
    assert sum(deployment.shown("hosts").values()) == 10000000
    deployment.wait_posted(deployment.report("noc", ""))  # the document's capacity again
    assert sum(deployment.shown("hosts").values()) == 20000000
    deployment.wait_posted(deployment.report("hosts", "demand pages-1 7\n"))
    assert deployment.shown("hosts") == {"pages-0": 0, "pages-1": 7, "nightly-0": 0}


def test_a_start_shows_no_table_of_zero_limits(deployment):
    deployment.init()
    deployment.report("hosts", "demand pages-0 5000000\n")
    for name in ("a", "b"):
        one = deployment.allocate(name)
        deployment.wait_leader(name)
        deployment.wait_posted(deployment.report("noc", f"capacity fibre-1 {ord(name[0])}00000\n"))
        one.kill()
        deployment.wait(lambda: deployment.value(deployment.keys.leader) is None)
    slices = [it for it in history(deployment) if it.key == deployment.keys.limits("hosts")]
    assert slices and all(slice_of(it.value).limits["pages-0"] > 0 for it in slices)


def test_a_standby_leads_when_the_leader_is_killed(deployment):
    deployment.init()
    first = deployment.allocate("a")
    deployment.wait_leader("a")
    deployment.allocate("b")
    deployment.wait_posted(deployment.report("hosts", "demand pages-0 1\n"))
    first.kill()
    revision = deployment.report("hosts", "demand pages-0 2\n")
    deployment.wait_leader("b")
    deployment.wait_posted(revision)
    assert deployment.shown("hosts")["pages-0"] == 2
    assert prefixes(deployment) == sorted(prefixes(deployment))


def test_a_leader_that_is_paused_past_its_lease_leads_no_more(deployment):
    deployment.init()
    first = deployment.allocate("a")
    deployment.wait_leader("a")
    deployment.allocate("b")
    deployment.wait_posted(deployment.report("hosts", "demand pages-0 1\n"))
    first.send_signal(signal.SIGSTOP)
    deployment.wait_leader("b")
    deployment.wait_posted(deployment.report("hosts", "demand pages-0 2\n"))
    first.send_signal(signal.SIGCONT)
    for amount in range(3, 13):
        deployment.wait_posted(deployment.report("hosts", f"demand pages-0 {amount}\n"))
    assert deployment.value(deployment.keys.leader) == b"b"
    deployment.wait(lambda: "leads no more" in deployment.log("a"))
    assert prefixes(deployment) == sorted(prefixes(deployment))


def test_sigterm_gives_the_lead_away_at_once(deployment):
    deployment.init()
    first = deployment.allocate("a", "--lease", "600")
    deployment.wait_leader("a")
    second = deployment.allocate("b", "--lease", "600")
    first.terminate()
    assert first.wait(timeout=20) == 0
    deployment.wait_leader("b")
    second.terminate()
    assert second.wait(timeout=20) == 0
    assert deployment.value(deployment.keys.leader) is None


def test_a_bwe_live_that_is_killed_is_started_anew_from_the_reports(deployment):
    deployment.init()
    one = deployment.allocate("a")
    deployment.wait_posted(deployment.report("hosts", "demand pages-0 5\ndemand pages-1 6\n"))
    for child in deployment.children(one):
        os.kill(child, signal.SIGKILL)
    deployment.wait_posted(deployment.report("hosts", "demand pages-0 7\ndemand pages-1 6\n"))
    assert deployment.shown("hosts") == {"pages-0": 7, "pages-1": 6, "nightly-0": 0}
    assert "signal 9" in deployment.log("a")


def test_a_follower_sees_each_change_and_no_older_one(deployment):
    deployment.init()
    deployment.allocate("a")
    follower = deployment.start("limits", "hosts", "--follow", log="follow.log")
    last = 0
    for amount in range(1, 9):
        last = deployment.report("hosts", f"demand pages-0 {amount}\n")
        deployment.wait_posted(last)
    text = (deployment.folder / "follow.log").read_text
    deployment.wait(lambda: f"posted prefix {last} " in text(), "the last block")
    blocks = [it for it in text().split("\n\n") if it.startswith("posted prefix")]
    seen = [int(it.split()[2]) for it in blocks]
    assert seen == sorted(seen) and follower.poll() is None


def test_who_is_told_reads_a_table_that_holds_the_report(deployment):
    deployment.init()
    deployment.allocate("a")
    for amount in (1, 2):
        deployment.run("report", "hosts", "--wait", given=f"demand pages-0 {amount}\n".encode())
        assert f"task pages-0 limit {amount}" in deployment.run("limits", "hosts")


def test_clients_of_one_reporter_at_once_are_done_one_after_the_other(deployment):
    deployment.init()
    deployment.allocate("a")
    given = [f"demand pages-0 {amount}\n".encode() for amount in range(1, 7)]
    running = [
        subprocess.Popen(
            [PROGRAM, "report", "hosts", "--wait"],
            stdin=subprocess.PIPE,
            stdout=subprocess.PIPE,
            env=deployment.environment,
        )
        for _ in given
    ]
    for one, text in zip(running, given):
        one.stdin.write(text)
        one.stdin.close()
    outs = [one.stdout.read().decode() for one in running]
    assert [one.wait(timeout=40) for one in running] == [0] * len(given)
    puts = [int(out.split()[1]) for out in outs]
    assert len(set(puts)) == len(puts)
    last = given[puts.index(max(puts))]
    assert deployment.value(deployment.keys.report("hosts")) == last
    assert deployment.shown("hosts")["pages-0"] == int(last.split()[2])


def test_an_allocator_that_hangs_loses_the_lead(deployment):
    """A child that is paused does nothing: the standby deletes the leader that does not post."""
    deployment.init()
    first = deployment.allocate("a", "--stuck", "600")
    deployment.wait_posted(deployment.report("hosts", "demand pages-0 1\n"))
    deployment.allocate("b", "--stuck", "1")
    time.sleep(0.5)
    for child in deployment.children(first):
        os.kill(child, signal.SIGSTOP)
    revision = deployment.report("hosts", "demand pages-0 2\n")
    deployment.wait_leader("b")
    deployment.wait_posted(revision)
    for child in deployment.children(first):
        os.kill(child, signal.SIGCONT)
    deployment.wait_posted(deployment.report("hosts", "demand pages-0 3\n"))
    assert deployment.value(deployment.keys.leader) == b"b"
    assert prefixes(deployment) == sorted(prefixes(deployment))
