"""What a host calls: a put is done once or said to be unknown, and readers never go back."""

import pytest

from bwe_control.client import LimitsFollower, put_report, read_limits, wait_posted
from bwe_control.errors import OutcomeUnknown, StoreAway, StoreRefused
from bwe_control.keys import Keys
from bwe_control.store.interface import Compare, Delete, Put, Select
from bwe_control.store.opening import open_store
from bwe_control.values import Posted

KEYS = Keys("main")
KEY = KEYS.report("r0")


class Scripted:
    """A store whose transactions fail by a list: what each does to the first ones that come."""

    def __init__(self, store, *script):
        self.store, self.script, self.transactions = store, list(script), 0

    def read(self, selects, at=0):
        return self.store.read(selects, at)

    def bell(self, selects):
        return self.store.bell(selects)

    def history(self, selects):
        return self.store.history(selects)

    def transact(self, compares, operations):
        self.transactions += 1
        what = self.script.pop(0) if self.script else "do"
        if what == "refuse":
            raise StoreRefused("it is full")
        if what == "away":
            raise StoreAway("not sent")
        outcome = self.store.transact(compares, operations) if "do" in what else None
        if "other" in what:
            self.store.transact([], [Put(KEY, b"another client\n")])
        if "gone" in what:
            self.store.transact([], [Delete(KEY)])
        if "lost" in what:
            raise OutcomeUnknown("the answer is lost")
        return outcome


@pytest.fixture
def store(tmp_path):
    opened = open_store(f"sqlite:{tmp_path}", makes_folder=True)
    yield opened
    opened.close()


def writes(store):
    return [it.value for it in store.history([Select(KEY)]).changes]


@pytest.mark.parametrize("script", [["do"], ["away", "do"], ["lost", "do"], ["do, lost"]])
def test_a_put_is_done_exactly_once(store, script):
    revision = put_report(Scripted(store, *script), KEYS, "r0", b"mine\n")
    assert writes(store) == [b"mine\n"]
    assert store.read([Select(KEY)]).found[0].one().modified == revision


def test_a_put_that_another_client_came_before_is_done_behind_it(store):
    one = Scripted(store)
    real = one.read

    def read(selects, at=0):
        found = real(selects, at)
        if not one.transactions:
            store.transact([], [Put(KEY, b"another client\n")])
        return found

    one.read = read
    put_report(one, KEYS, "r0", b"mine\n")
    assert writes(store) == [b"another client\n", b"mine\n"]


@pytest.mark.parametrize("script", ["do, lost, other", "lost, other", "do, lost, gone"])
def test_where_another_wrote_since_it_is_not_known_and_not_put_twice(store, script):
    with pytest.raises(OutcomeUnknown) as fault:
        put_report(Scripted(store, script), KEYS, "r0", b"mine\n")
    assert fault.value.status == 5 and "another client" in str(fault.value)
    assert writes(store).count(b"mine\n") == ("do" in script)


def test_a_store_that_refuses_has_put_nothing(store):
    with pytest.raises(StoreRefused):
        put_report(Scripted(store, "refuse"), KEYS, "r0", b"mine\n")
    assert writes(store) == []


@pytest.mark.parametrize(
    "script, kind", [(["away"] * 99, StoreAway), (["lost"] * 99, OutcomeUnknown)]
)
def test_where_time_is_up_it_says_which_it_is(store, script, kind):
    with pytest.raises(kind):
        put_report(Scripted(store, *script), KEYS, "r0", b"mine\n", patience=0.5)
    assert writes(store) == []


def post(store, prefix, limit, slices=True):
    """A table as an allocator writes it, in one transaction or `posted` alone."""
    piece = Put(KEYS.limits("r0"), f"prefix {prefix} document 1\ntask t0 limit {limit}\n".encode())
    posted = Put(KEYS.posted, Posted(prefix, 1, limit).text().encode())
    store.transact([], [piece, posted] if slices else [posted])


def test_the_slice_is_that_of_the_posted_table(store):
    assert read_limits(store, KEYS, "r0").text() == "posted none\nlimits none\n\n"
    post(store, 5, 7)
    # The next table is half written: its slice stands, and is not posted.
    store.transact([], [Put(KEYS.limits("r0"), b"prefix 9 document 1\ntask t0 limit 8\n")])
    limits = read_limits(store, KEYS, "r0")
    assert (limits.posted.prefix, limits.slice.prefix, limits.slice.limits) == (5, 5, {"t0": 7})
    post(store, 9, 8, slices=False)
    assert read_limits(store, KEYS, "r0").slice.limits == {"t0": 8}
    # A half written table in which the reporter is gone.
    store.transact([], [Delete(KEYS.limits("r0"))])
    assert read_limits(store, KEYS, "r0").slice.limits == {"t0": 8}
    post(store, 12, 0, slices=False)
    limits = read_limits(store, KEYS, "r0")
    assert limits.slice is None and limits.posted.prefix == 12


def test_a_reader_of_a_compacted_store_has_the_newest(store):
    post(store, 5, 7)
    for amount in range(5):
        store.transact([], [Put(KEY, b"%d\n" % amount)])
    store.compact(store.read([]).revision)
    assert read_limits(store, KEYS, "r0").slice.limits == {"t0": 7}
    assert read_limits(store, KEYS, "r9").slice is None


def test_a_follower_shows_each_change_once_and_never_an_older_prefix(store, caplog):
    follower = LimitsFollower(store, KEYS, "r0")
    assert follower.next(0).posted is None
    assert follower.next(0) is None
    post(store, 5, 7)
    assert follower.next(5).posted.prefix == 5
    post(store, 4, 6)  # by nobody who keeps to the protocol
    assert follower.next(0.1) is None and follower.next(0.1) is None
    assert caplog.text.count("the posted prefix fell below 5") == 1
    post(store, 6, 7)
    assert follower.next(5).posted.prefix == 6
    follower.close()


def test_waiting_ends_with_a_table_that_holds_the_revision(store):
    post(store, 5, 7)
    assert wait_posted(store, KEYS, 5).prefix == 5
    assert wait_posted(store, KEYS, 6, seconds=0.2) is None


def test_a_transaction_that_compares_and_fails_writes_nothing(store):
    assert not store.transact([Compare(KEY, 7)], [Put(KEY, b"")]).is_done
    assert writes(store) == []
