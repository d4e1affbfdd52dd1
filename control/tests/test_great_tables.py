"""Tables of many reporters on an etcd with its own limits: they go in several transactions."""

import json
import shutil
from collections import Counter

import pytest
from deployment import ROOT, Deployment
from etcd_cluster import Cluster

from bwe_control.client import read_limits
from bwe_control.store.interface import Put, Select
from bwe_control.values import posted_of, report_text

REPORTERS, EACH = 400, 32
ECHO = ROOT / "control/bench/echo_live"  # answers each demand as the limit
OF_ETCD = ["--max-request-bytes=1572864", "--max-txn-ops=128"]  # as where none are named

pytestmark = pytest.mark.skipif(shutil.which("etcd") is None, reason="there is no etcd")


def task(reporter, number):
    return f"t{reporter}-{number}".ljust(64, ".")


def document():
    """One group, whose tasks have names as long as they may be."""
    names = [f"r{it}" for it in range(REPORTERS)]
    tasks = [
        {"name": task(it, number), "reporter": names[it]}
        for it in range(REPORTERS)
        for number in range(EACH)
    ]
    users = [{"name": "u", "jobs": [{"name": "j", "task": [[0, 0], [9, 9]], "tasks": tasks}]}]
    paths = [[{"weight": 1, "links": ["l"]}]]
    group = {"name": "g", "from": "a", "to": "b", "paths": paths, "users": users}
    whole = {
        "version": 4,
        "top": 9,
        "links": [{"name": "l", "from": "a", "to": "b", "capacity": 9}],
        "groups": [group],
        "reporters": names,
        "script": [],
    }
    return json.dumps(whole, separators=(",", ":")).encode()


def report(one, amount):
    """Puts reports of all reporters; the revision at which the last of them stands."""
    revision = 0
    for it in range(REPORTERS):
        text = report_text({task(it, number): amount + number for number in range(EACH)})
        revision = one.store.transact([], [Put(one.keys.report(f"r{it}"), text)]).revision
    return revision


def test_a_great_table_goes_in_transactions_that_etcd_takes_by_itself(tmp_path):
    text = document()
    assert 1_000_000 < len(text) < 1_500_000
    with Cluster(tmp_path, members=1, flags=OF_ETCD) as cluster:
        one = Deployment(cluster.store, tmp_path)
        try:
            one.init(text)
            first = report(one, 1)
            one.allocate("a", BWE_LIVE=str(ECHO))
            one.wait_posted(first)
            one.wait_posted(report(one, 1_000))
            for it in (0, 1, REPORTERS - 1):
                shown = read_limits(one.store, one.keys, f"r{it}").slice.limits
                assert shown == {task(it, number): 1_000 + number for number in range(EACH)}
            check_transactions(one)
        finally:
            one.close()


def check_transactions(one):
    """None has more than 120 keys, and a table of all slices took at least four."""
    keys = one.keys
    found = one.store.history([Select(keys.slices, True), Select(keys.posted)])
    changes = list(found.changes)
    sizes = Counter(it.revision for it in changes)
    assert max(sizes.values()) <= 119  # beside the key of the leader
    posted = [it for it in changes if it.key == keys.posted]
    assert posted_of(posted[0].value).prefix > 0
    assert len([it for it in sizes if it <= posted[0].revision]) >= 4
