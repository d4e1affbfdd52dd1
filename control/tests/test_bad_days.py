"""Stores that are away, full, read-only or another's; SIGTERM in each state; a clock that jumps."""

import os
import re
import shutil
import signal
import subprocess
import sys
import time
import urllib.request
from pathlib import Path

import pytest
from deployment import PROGRAM, ROOT, Deployment, has_root, needs_bwe, needs_live
from etcd_cluster import Cluster, free_port

from bwe_control.errors import StoreRefused
from bwe_control.store.interface import Put, Select
from bwe_control.store.opening import open_store

needs_etcd = pytest.mark.skipif(shutil.which("etcd") is None, reason="there is no etcd")
needs_mount = pytest.mark.skipif(not has_root(), reason="mounting needs root")


def one_sentence(deployment):
    return deployment.said.count("\n") == 1 and deployment.said.startswith("bwe-control: ")


def metric(port, name):
    """A value of /metrics; -1 as long as nothing is served."""
    try:
        text = (
            urllib.request.urlopen(f"http://127.0.0.1:{port}/metrics", timeout=30).read().decode()
        )
    except OSError:
        return -1.0
    found = (it.split()[1] for it in text.splitlines() if it.startswith(name + " "))
    return float(next(found, -1.0))


@pytest.fixture
def small_disk(tmp_path):
    """A file system of 3 megabytes."""
    folder = tmp_path / "disk"
    folder.mkdir()
    words = ["mount", "-t", "tmpfs", "-o", "size=3m", "tmpfs", str(folder)]
    if subprocess.run(words, capture_output=True, check=False).returncode:
        pytest.skip("nothing can be mounted here")
    yield folder
    subprocess.run(["umount", "-l", str(folder)], check=True)


@pytest.mark.parametrize("words", [["limits", "r0"], ["status"], ["replay"], ["report", "r0"]])
def test_a_store_that_is_not_there_has_a_sentence_and_status_4(own, words):
    own.run(*words, status=4)
    assert one_sentence(own) and "there is no store in" in own.said


@needs_etcd
@pytest.mark.parametrize("words", [["limits", "r0"], ["status"]])
def test_members_that_do_not_answer_have_a_sentence_and_status_4(tmp_path, words):
    one = Deployment(f"etcd:127.0.0.1:{free_port()},127.0.0.1:{free_port()}", tmp_path)
    one.run(*words, status=4)
    assert one_sentence(one)


def test_who_waits_is_told_that_the_store_went_away_behind_its_put(own):
    own.init()
    one = own.start("report", "hosts", "--wait", log="report.log")
    own.wait(lambda: "put 2" in own.log("report"))
    (own.folder / "control").rename(own.folder / "gone")
    assert one.wait(timeout=60) == 5
    sentence = "the report was put, and whether a table holds it is not known: there is no store"
    assert sentence in own.log("report") and own.log("report").count("\n") == 2


@needs_live
def test_an_allocator_waits_for_a_document_and_a_store(own):
    own.allocate("a")
    own.wait(lambda: "leads" in own.log("a"))
    own.wait_posted(own.init())


@needs_live
@needs_etcd
def test_a_store_of_several_that_is_away_for_a_while_loses_nothing(tmp_path):
    with Cluster(tmp_path, members=1) as cluster:
        one, port = Deployment(cluster.store, tmp_path), free_port()
        try:
            one.init()
            one.allocate("a", "--metrics", str(port))
            one.start("limits", "hosts", "--follow", log="follow.log")
            one.wait_posted(one.report("hosts", "demand pages-0 5\n"))
            cluster.kill(0)
            one.wait(lambda: metric(port, "bwe_control_store_away") == 1)
            one.run("limits", "hosts", status=4)
            assert one_sentence(one)
            cluster.start(0)
            cluster.wait()
            assert one.shown("hosts")["pages-0"] == 5
            revision = one.report("hosts", "demand pages-0 7\n")
            one.wait_posted(revision)
            assert metric(port, "bwe_control_store_away") == 0
            one.wait(lambda: "limit 7" in one.log("follow"))
        finally:
            one.close()


@needs_live
@needs_etcd
def test_a_member_that_is_paused_is_left_for_another(three_etcds, tmp_path):
    one = Deployment(three_etcds.store, tmp_path)
    try:
        one.init()
        one.allocate("a")
        one.wait_posted(one.report("hosts", "demand pages-0 5\n"))
        three_etcds.pause(0)
        out = one.run("report", "hosts", "--wait", given=b"demand pages-0 6\n")
        assert "posted" in out and "limit 6" in one.run("limits", "hosts")
        three_etcds.resume(0)
        three_etcds.kill(1)
        three_etcds.kill(2)
        one.run("limits", "hosts", status=4)
        assert one_sentence(one)
        three_etcds.start(1)
        three_etcds.start(2)
        one.wait(lambda: one.report("hosts", "demand pages-0 8\n") > 0)
        one.wait(lambda: one.shown("hosts")["pages-0"] == 8)
    finally:
        one.close()


@needs_live
@needs_mount
def test_a_full_disk_puts_nothing_and_keeps_all(small_disk, tmp_path):
    one, port = Deployment(f"sqlite:{small_disk / 'control'}", tmp_path), free_port()
    try:
        one.init()
        one.allocate("a", "--metrics", str(port))
        one.wait_posted(one.report("hosts", "demand pages-0 5\n"))
        filler = small_disk / "filler"
        with open(filler, "wb", buffering=0) as sink, pytest.raises(OSError):
            while True:
                sink.write(bytes(4096))
        with pytest.raises(StoreRefused, match="is full"):
            while True:
                one.store.transact([], [Put(one.keys.report("noc"), b"capacity fibre-1 7\n" * 99)])
        one.run("report", "hosts", given=b"demand pages-0 6\n" * 1000, status=4)
        assert one_sentence(one) and "is full" in one.said
        assert one.shown("hosts")["pages-0"] == 5
        filler.unlink()
        one.wait_posted(one.report("hosts", "demand pages-0 7\n"))
        assert one.shown("hosts")["pages-0"] == 7
        one.wait(lambda: metric(port, "bwe_control_store_refuses") == 0)
    finally:
        one.close()


@needs_bwe
@needs_mount
def test_a_read_only_store_says_so(small_disk, tmp_path):
    one = Deployment(f"sqlite:{small_disk / 'control'}", tmp_path)
    one.init()
    one.close()
    subprocess.run(["mount", "-o", "remount,ro", str(small_disk)], check=True)
    one.run("report", "hosts", given=b"", status=4)
    assert one_sentence(one) and "cannot be written" in one.said
    one.run("init", "-", given=(ROOT / "examples/live/two-fibres.json").read_bytes(), status=None)
    assert one_sentence(one)


def forbid(folder, on):
    """Takes from everybody the right to write a store of SQLite, or gives it back."""
    for path in folder.iterdir():
        path.chmod(0o444 if on else 0o644)
    folder.chmod(0o555 if on else 0o755)


# Root without these capabilities is stopped by modes as anybody else is.
DROP = "-dac_override,-dac_read_search"
BARRED = ["setpriv", f"--bounding-set={DROP}", f"--inh-caps={DROP}"] if os.geteuid() == 0 else []
WRITER = """
import sys, time
from bwe_control.errors import StoreRefused
from bwe_control.store.interface import Put, Select
from bwe_control.store.opening import open_store

store = open_store(sys.argv[1])
bell = store.bell([Select("a")])
told = ""
for _ in range(2000):
    bell.wait(0.02)
    try:
        store.read([Select("a")])
        store.transact([], [Put("a", b"1")])
        if told != "put":
            print("put", flush=True)
        told = "put"
    except StoreRefused as fault:
        if not told:
            print(fault, flush=True)
        told = "refused"
"""


def test_a_store_that_was_read_only_is_written_by_who_opened_it_then(tmp_path):
    """A writer is killed and leaves its files; another one opens them while nobody may write."""
    name, folder = f"sqlite:{tmp_path / 'control'}", tmp_path / "control"
    open_store(name, makes_folder=True).close()
    words = [*BARRED, sys.executable, "-c", WRITER, name]
    more = {"env": {**os.environ, "PYTHONPATH": str(ROOT / "control")}, "stdout": subprocess.PIPE}
    first = subprocess.Popen(words, **more)
    assert first.stdout.readline() == b"put\n"
    forbid(folder, True)
    first.kill()
    first.wait()
    assert {it.name for it in folder.iterdir()} == {"store.db", "store.db-wal", "store.db-shm"}
    second = subprocess.Popen(words, **more)
    try:
        assert b"control is not writable" in second.stdout.readline()
        forbid(folder, False)
        assert second.stdout.readline() == b"put\n"
    finally:
        second.kill()
        second.wait()


@needs_live
def test_an_allocator_that_came_up_in_a_read_only_folder_posts_once_it_may(own):
    folder = own.folder / "control"
    own.init()
    first = own.allocate("first", before=BARRED)
    own.wait_posted(own.report("hosts", "demand pages-0 5\n"))
    own.store.close()
    forbid(folder, True)
    first.kill()
    first.wait()
    own.allocate("second", before=BARRED)
    own.wait(lambda: "tables are of" in own.log("second"))
    time.sleep(3)  # the lease of the first ends, and nobody can write that down
    forbid(folder, False)
    own.wait_posted(own.report("hosts", "demand pages-0 7\n"))
    assert own.shown("hosts")["pages-0"] == 7


@pytest.mark.parametrize("answer", ["total x\n", "table 0\ntask unknown limit 5\ntotal 5\n"])
def test_another_program_in_place_of_bwe_live_is_said(own, answer):
    other = own.folder / "other"
    other.write_text(f"#!/bin/sh\nprintf '{answer}'\nexec cat >/dev/null\n")
    other.chmod(0o755)
    own.init()
    one = own.allocate("a", BWE_LIVE=str(other))
    own.wait(lambda: "what runs as bwe-live" in own.log("a"))
    assert one.poll() is None and own.limits("hosts").posted is None
    one.terminate()
    assert one.wait(timeout=30) == 0 and "Traceback" not in own.log("a")


@needs_live
def test_an_allocator_waits_for_the_right_to_make_its_folder(own):
    forbid(own.folder, True)
    try:
        with open("/dev/null", "rb") as given:
            one = subprocess.Popen(
                [*BARRED, PROGRAM, "allocate", "--name", "a"],
                stdin=given,
                stderr=subprocess.PIPE,
                env=own.environment,
            )
        own.processes.append(one)
        assert b"cannot be made: Permission denied" in one.stderr.readline()
    finally:
        forbid(own.folder, False)
    own.wait(lambda: (own.folder / "control/store.db").exists())
    own.wait_posted(own.init())


@pytest.mark.skipif(os.geteuid() != 0, reason="becoming another user needs root")
def test_a_folder_of_another_user_is_named(tmp_path):
    folder = Path("/tmp") / f"bwe-control-{os.getpid()}"
    folder.mkdir(mode=0o755)
    copy = folder / "program"
    shutil.copytree(ROOT / "control/bwe_control", copy / "control/bwe_control")
    shutil.copytree(ROOT / "tools/operator", copy / "tools/operator")
    shutil.copy(PROGRAM, copy)
    shutil.copy(ROOT / "tools/packages.txt", copy / "tools")
    one = Deployment(f"sqlite:{folder / 'control'}", tmp_path)
    try:
        one.init()
        (folder / "control").chmod(0o755)
        words = ["setpriv", "--reuid=65534", "--regid=65534", "--clear-groups"]
        ran = subprocess.run(
            [*words, copy / "bwe-control", "report", "hosts"],
            input=b"",
            capture_output=True,
            env=one.environment,
            check=False,
        )
        told = ran.stderr.decode()
        assert ran.returncode == 4 and told.count("\n") == 1, told
        assert "it belongs to root" in told
    finally:
        one.close()
        shutil.rmtree(folder)


@needs_live
@needs_etcd
def test_a_full_etcd_puts_nothing_and_keeps_the_lead(tmp_path):
    import grpc
    from etcd3 import etcdrpc as rpc

    with Cluster(tmp_path, flags=["--quota-backend-bytes=4000000"]) as cluster:
        one, port = Deployment(cluster.store, tmp_path), free_port()
        try:
            one.init()
            one.allocate("a", "--metrics", str(port))
            one.wait_posted(one.report("hosts", "demand pages-0 5\n"))
            with pytest.raises(StoreRefused, match="space exceeded"):
                while True:
                    one.store.transact([], [Put("/other", bytes(500_000))])
            one.run("report", "hosts", given=b"demand pages-0 6\n", status=4)
            assert one_sentence(one) and "space exceeded" in one.said
            time.sleep(3)  # longer than the lease
            assert one.value(one.keys.leader) == b"a" and one.shown("hosts")["pages-0"] == 5
            channel = grpc.insecure_channel(cluster.store.removeprefix("etcd:"))
            whole = rpc.CompactionRequest(revision=one.store.read([]).revision, physical=True)
            rpc.KVStub(channel).Compact(whole, timeout=20)
            maintenance = rpc.MaintenanceStub(channel)
            maintenance.Defragment(rpc.DefragmentRequest(), timeout=20)
            for it in maintenance.Alarm(rpc.AlarmRequest(), timeout=20).alarms:
                given = {"memberID": it.memberID, "alarm": it.alarm}
                off = rpc.AlarmRequest(action=rpc.AlarmRequest.DEACTIVATE, **given)
                maintenance.Alarm(off, timeout=20)
            one.wait_posted(one.report("hosts", "demand pages-0 7\n"))
            assert one.shown("hosts")["pages-0"] == 7
        finally:
            one.close()


@needs_live
def test_two_allocators_of_one_name_do_not_take_each_other_for_themselves(deployment):
    deployment.init()
    port = free_port()
    deployment.allocate("a", "--lease", "1")
    deployment.wait_leader("a")
    deployment.start(
        *["allocate", "--name", "a", "--lease", "1", "--metrics", str(port)], log="second.log"
    )
    deployment.wait(lambda: metric(port, "bwe_control_name_taken") == 1)
    assert "another allocator leads by the name a" in deployment.log("second")
    for amount in range(3):
        deployment.wait_posted(deployment.report("hosts", f"demand pages-0 {amount}\n"))
    assert metric(port, "bwe_control_leader") == 0


@needs_live
def test_a_clock_that_jumps_moves_nothing(own, tmp_path):
    deployment = own
    (tmp_path / "jumps").mkdir()
    (tmp_path / "jumps/sitecustomize.py").write_text(
        "import random, time\nreal = time.time\n"
        "time.time = lambda: real() + random.choice([-1e7, 0, 1e7])\n"
    )
    deployment.init()
    jumps = {"PYTHONPATH": str(tmp_path / "jumps")}
    first = deployment.allocate("a", **jumps)
    deployment.wait_leader("a")
    deployment.allocate("b", **jumps)
    for amount in range(5):
        deployment.wait_posted(deployment.report("hosts", f"demand pages-0 {amount}\n"))
        time.sleep(0.5)
    assert deployment.value(deployment.keys.leader) == b"a" and first.poll() is None


@needs_live
def test_sigterm_ends_an_allocator_that_has_no_folder_yet(own):
    forbid(own.folder, True)
    try:
        words = [*BARRED, PROGRAM, "allocate", "--name", "a"]
        one = subprocess.Popen(words, stderr=subprocess.PIPE, env=own.environment)
        own.processes.append(one)
        assert b"cannot be made" in one.stderr.readline()
        one.terminate()
        assert one.wait(timeout=30) == 0 and one.stderr.read() == b""
    finally:
        forbid(own.folder, False)


@needs_live
@pytest.mark.parametrize("state", ["leads", "stands by", "works", "has no document"])
def test_sigterm_ends_an_allocator_in_each_state(own, state):
    if state != "has no document":
        own.init()
    if state == "stands by":
        own.allocate("first", "--lease", "60")
        own.wait_leader("first")
    one = own.allocate("a", "--lease", "60")
    own.wait(lambda: ("tables are of" if state != "has no document" else "leads") in own.log("a"))
    if state == "works":  # its child does not answer
        for child in own.children(one):
            os.kill(child, signal.SIGSTOP)
        own.report("hosts", "demand pages-0 1\n")
        time.sleep(0.5)
    one.terminate()
    assert one.wait(timeout=30) == 0
    leader = b"first" if state == "stands by" else None
    assert own.value(own.keys.leader) == leader


@needs_live
@needs_etcd
def test_members_that_are_away_for_long_are_said_once_each(tmp_path):
    members = [f"127.0.0.1:{free_port()}" for _ in range(3)]
    one, port = Deployment(f"etcd:{','.join(members)}", tmp_path), free_port()
    try:
        one.allocate("a", "--metrics", str(port))
        name = 'bwe_control_store_faults_total{kind="StoreAway"}'
        one.wait(lambda: metric(port, name) >= 5)
        told = re.findall(r"ERROR the member (\S+) ", one.log("a"))
        assert sorted(told) == sorted(members)
    finally:
        one.close()


@needs_live
@needs_etcd
@pytest.mark.parametrize("state", ["never there", "paused", "gone"])
def test_sigterm_ends_an_allocator_whose_store_is_away(tmp_path, state):
    if state == "never there":
        one = Deployment(f"etcd:127.0.0.1:{free_port()}", tmp_path)
        process = one.allocate("a")
        one.wait(lambda: "ERROR" in one.log("a"))
        process.terminate()
        assert process.wait(timeout=30) == 0
        return
    with Cluster(tmp_path) as cluster:
        one = Deployment(cluster.store, tmp_path)
        one.init()
        process = one.allocate("a")
        one.wait_leader("a")
        if state == "paused":
            cluster.pause(0)
        else:
            cluster.kill(0)
        one.wait(lambda: "ERROR" in one.log("a"))
        process.terminate()
        assert process.wait(timeout=30) == 0
        if state == "paused":
            cluster.resume(0)


@needs_live
def test_kill_9_of_who_writes_loses_no_report_that_was_answered(own):
    """Clients and the allocator are killed at any moment; what was answered stands."""
    own.init()
    answered = 0
    for round_ in range(4):
        allocator = own.allocate(f"a{round_}", "--lease", "1")
        clients = [
            subprocess.Popen(
                [PROGRAM, "report", "hosts"],
                stdin=subprocess.PIPE,
                stdout=subprocess.PIPE,
                env=own.environment,
            )
            for _ in range(3)
        ]
        for number, client in enumerate(clients):
            client.stdin.write(f"demand pages-0 {10 * round_ + number}\n".encode())
            client.stdin.close()
        time.sleep(0.3 + 0.1 * round_)
        for one in [allocator, *clients]:
            one.kill()
        outs = [one.stdout.read().split() for one in clients]
        answered = max([answered, *(int(it[1]) for it in outs if len(it) == 2)])
    history = own.store.history([Select(own.keys.report("hosts"))])
    stood = [it.revision for it in history.changes]
    assert not answered or answered in stood
    own.allocate("last", "--lease", "1")
    own.wait_posted(max(answered, own.report("hosts", "demand pages-0 99\n")))
    assert own.shown("hosts")["pages-0"] == 99


def test_a_store_that_was_made_anew_is_noticed(own):
    from bwe_control.client import put_report
    from bwe_control.errors import StoreChanged

    put_report(own.store, own.keys, "hosts", b"demand pages-0 1\n")
    shutil.rmtree(own.folder / "control")
    other = Deployment(own.name, own.folder)
    other.init()
    with pytest.raises(StoreChanged):
        own.store.read([Select("x")])
    assert own.store.read([Select("x")]).revision == 1
    other.close()
