"""One suite over both stores: what bwe_control.store.interface says."""

import itertools
import random
import sqlite3
import threading
import time

import pytest

from bwe_control.errors import Compacted, LeaseLost, StoreError
from bwe_control.store.interface import Change, Compare, Delete, Put, Select
from bwe_control.store.opening import open_store

numbers = itertools.count()


@pytest.fixture(params=["sqlite", "etcd"])
def name(request, tmp_path):
    """The name of a store; one of SQLite is fresh."""
    if request.param == "etcd":
        return request.getfixturevalue("one_etcd").store
    open_store(f"sqlite:{tmp_path / 'control'}", makes_folder=True).close()
    return f"sqlite:{tmp_path / 'control'}"


@pytest.fixture
def store(name):
    opened = open_store(name)
    yield opened
    opened.close()


@pytest.fixture
def top():
    """A prefix that no other test uses."""
    return f"/bwe/test-{next(numbers)}/"


def put(store, key, value=b"x", lease=0):
    return store.transact([], [Put(key, value, lease)]).revision


def entry(store, key, at=0):
    return store.read([Select(key)], at).found[0].one()


def test_each_transaction_raises_the_revision_by_one(store, top):
    first = put(store, top + "a")
    assert put(store, top + "b") == first + 1
    outcome = store.transact([], [Put(top + "a", b"1"), Put(top + "c", b"2"), Delete(top + "b")])
    assert outcome.is_done and outcome.revision == first + 2
    assert store.read([Select(top)]).revision == first + 2


def test_an_entry_has_the_revisions_at_which_it_was_made_and_written(store, top):
    made, written = put(store, top + "a", b"1"), put(store, top + "a", b"2")
    found = entry(store, top + "a")
    assert (found.key, found.value) == (top + "a", b"2")
    assert (found.created, found.modified) == (made, written)
    store.transact([], [Delete(top + "a")])
    assert entry(store, top + "a") is None
    assert put(store, top + "a") == entry(store, top + "a").created


def test_a_delete_of_nothing_raises_no_revision(store, top):
    before = put(store, top + "a")
    outcome = store.transact([], [Delete(top + "b")])
    assert (outcome.is_done, outcome.revision) == (True, before)


def test_a_transaction_is_done_where_its_compares_hold(store, top):
    revision = put(store, top + "a")
    for wrong in (revision - 1, revision + 1, 0):
        outcome = store.transact([Compare(top + "a", wrong)], [Put(top + "a", b"no")])
        assert not outcome.is_done and outcome.revision == revision
    compares = [Compare(top + "a", revision), Compare(top + "b", 0)]
    assert store.transact(compares, [Put(top + "a", b"yes")]).is_done
    assert entry(store, top + "a").value == b"yes"
    assert not store.transact(compares, [Put(top + "a", b"no")]).is_done


def test_a_read_has_all_selects_at_one_revision(store, top):
    put(store, top + "x/a", b"1")
    put(store, top + "x/b", b"2")
    put(store, top + "y", b"3")
    reading = store.read([Select(top + "x/", True), Select(top + "y"), Select(top + "z")])
    assert [[it.value for it in found.entries] for found in reading.found] == [
        [b"1", b"2"],
        [b"3"],
        [],
    ]
    assert [found.count for found in reading.found] == [2, 1, 0]


def test_a_prefix_ends_where_its_keys_end(store, top):
    for key in ("report", "report/a", "report/\u00ff", "report0", "reporter/a"):
        put(store, top + key)
    found = store.read([Select(top + "report/", True)]).found[0]
    assert [it.key.removeprefix(top) for it in found.entries] == ["report/a", "report/\u00ff"]


def test_since_gives_what_changed_and_counts_all(store, top):
    put(store, top + "a")
    second = put(store, top + "b")
    put(store, top + "c")
    found = store.read([Select(top, True, since=second)]).found[0]
    assert [it.key for it in found.entries] == [top + "c"] and found.count == 3


def test_a_read_of_the_past(store, top):
    first = put(store, top + "a", b"1")
    put(store, top + "a", b"2")
    deleted = store.transact([], [Delete(top + "a")]).revision
    put(store, top + "a", b"3")
    assert entry(store, top + "a", at=first).value == b"1"
    assert entry(store, top + "a", at=deleted - 1).value == b"2"
    assert entry(store, top + "a", at=deleted) is None
    assert entry(store, top + "a").value == b"3"
    with pytest.raises(StoreError, match="revision"):
        entry(store, top + "a", at=deleted + 1000)


def test_what_is_compacted_cannot_be_read_and_the_rest_can(store, top):
    first = put(store, top + "a", b"1")
    put(store, top + "gone", b"1")
    store.transact([], [Delete(top + "gone")])
    kept = put(store, top + "b", b"2")
    put(store, top + "a", b"3")
    store.compact(kept)
    with pytest.raises(Compacted):
        entry(store, top + "a", at=first)
    assert entry(store, top + "a", at=kept).value == b"1"
    assert entry(store, top + "b", at=kept).value == b"2"
    assert entry(store, top + "gone", at=kept) is None
    assert entry(store, top + "a").value == b"3"


def test_history_is_what_stood_at_first_and_each_write_since(store, top):
    put(store, top + "x/a", b"1")
    kept = put(store, top + "x/b", b"2")
    store.compact(kept)
    put(store, top + "other", b"-")
    both = store.transact([], [Put(top + "x/a", b"3"), Put(top + "x/c", b"4")]).revision
    gone = store.transact([], [Delete(top + "x/c")]).revision
    history = store.history([Select(top + "x/", True), Select(top + "y")])
    assert history.first == kept
    assert [(it.key, it.value) for it in history.entries] == [
        (top + "x/a", b"1"),
        (top + "x/b", b"2"),
    ]
    assert list(history.changes) == [
        Change(both, top + "x/a", b"3"),
        Change(both, top + "x/c", b"4"),
        Change(gone, top + "x/c", None),
    ]


def test_keys_and_values_are_bytes(store, top):
    key, value = top + b"\xff\xfe\n\x01".decode("utf-8", "surrogateescape"), bytes(range(256)) * 999
    put(store, key, value)
    assert store.read([Select(top, True)]).found[0].entries[0].key == key
    assert entry(store, key).value == value
    assert entry(store, top + "none") is None


def test_the_keys_of_a_lease_go_when_it_ends(store, top):
    lease = store.grant(2)
    assert lease.seconds >= 2
    revision = put(store, top + "a", b"1", lease.number)
    assert entry(store, top + "a").lease == lease.number
    assert store.renew(lease) > 1
    store.revoke(lease)
    assert entry(store, top + "a") is None
    assert store.read([Select(top)]).revision == revision + 1
    store.revoke(lease)
    with pytest.raises(LeaseLost):
        store.renew(lease)
    with pytest.raises(LeaseLost):
        put(store, top + "b", b"1", lease.number)
    assert entry(store, top + "b") is None


def test_a_lease_that_nobody_renews_ends_and_rings(name, store, top):
    lease = store.grant(2)
    put(store, top + "a", b"1", lease.number)
    with store.bell([Select(top + "a")]) as bell:
        while entry(store, top + "a"):
            bell.wait(10)
    with pytest.raises(LeaseLost):
        store.renew(lease)


def test_a_key_written_anew_without_its_lease_stays(store, top):
    lease = store.grant(60)
    put(store, top + "a", b"1", lease.number)
    put(store, top + "a", b"2")
    store.revoke(lease)
    assert entry(store, top + "a").value == b"2"


def test_a_bell_rings_for_its_keys(name, store, top):
    with store.bell([Select(top + "x/", True), Select(top + "y")]) as bell:
        while bell.wait(0.5):
            pass
        assert not bell.wait(0.05)
        other = open_store(name)
        for key in ("x/a", "y", "x/a"):
            other.transact([], [Put(top + key, b"1")])
            assert bell.wait(10)
            while bell.wait(0.2):
                pass
        other.transact([], [Delete(top + "x/a")])
        assert bell.wait(10)
        other.close()


def test_a_bell_that_is_waited_for_rings_at_once(name, store, top):
    with store.bell([Select(top + "a")]) as bell:
        while bell.wait(0.3):
            pass

        def later():
            time.sleep(0.2)
            other = open_store(name)
            put(other, top + "a")
            other.close()

        thread = threading.Thread(target=later)
        thread.start()
        assert bell.wait(30)
        thread.join()


def test_transactions_of_many_clients_come_one_after_the_other(name, store, top):
    """Each adds 1 to a number by a compare: none is lost, none counts twice."""
    put(store, top + "n", b"0")

    def add(times):
        own = open_store(name)
        done = 0
        while done < times:
            now = entry(own, top + "n")
            more = str(int(now.value) + 1).encode()
            done += own.transact([Compare(top + "n", now.modified)], [Put(top + "n", more)]).is_done
        own.close()

    threads = [threading.Thread(target=add, args=[15]) for _ in range(4)]
    for one in threads:
        one.start()
    for one in threads:
        one.join()
    assert entry(store, top + "n").value == b"60"


def test_many_operations_and_much_in_one_transaction(store, top):
    operations = [
        Put(f"{top}k{i}", b"v" * 8000)
        for i in range(store.most_operations // 1 if store.most_operations < 1000 else 300)
    ]
    assert store.transact([Compare(top + "a", 0)], operations).is_done
    assert store.read([Select(top, True)]).found[0].count == len(operations)
    large = b"v" * 6_000_000
    put(store, top + "large", large)
    assert entry(store, top + "large").value == large


@pytest.mark.parametrize("seed", range(5))
def test_what_stood_since_a_compaction_stands_behind_it(tmp_path, seed):
    """Many writes and deletions of some keys in SQLite, which is compacted again and again."""
    chance = random.Random(seed)
    store = open_store(f"sqlite:{tmp_path / 'control'}", makes_folder=True)
    keys, compacted = [f"/k{it}" for it in range(7)], 0
    for _ in range(4):
        for number in range(400):
            some = chance.sample(keys, chance.randrange(1, 4))
            store.transact([], [chance.choice([Put(it, b"%d" % number), Delete(it)]) for it in some])
        last = store.read([]).revision
        compacted = chance.randrange(compacted, last)
        looks = [chance.randrange(compacted, last + 1) for _ in range(20)]
        before = [store.read([Select("/", True)], at) for at in (compacted, *looks)]
        changes = [it for it in store.history([Select("/", True)]).changes]
        store.compact(compacted)
        assert [store.read([Select("/", True)], at) for at in (compacted, *looks)] == before
        history = store.history([Select("/", True)])
        assert history.entries == before[0].found[0].entries
        assert [*history.changes] == [it for it in changes if it.revision > compacted]
    store.close()
    with sqlite3.connect(tmp_path / "control/store.db") as connection:
        [kept] = connection.execute("SELECT count(*) FROM writes WHERE revision <= ?", [compacted])
        assert kept[0] <= len(keys)
