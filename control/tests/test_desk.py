"""What an allocator has read stands also where a reading fails in the middle."""

import pytest
from deployment import ROOT, TWO_FIBRES

from bwe_control.desk import Desk
from bwe_control.errors import StoreAway
from bwe_control.keys import Keys
from bwe_control.store.interface import Delete, Put
from bwe_control.store.opening import open_store
from bwe_control.values import accepted_value

ECHO = ROOT / "control/bench/echo_live"  # answers each demand as the limit
KEYS = Keys("main")


class Failing:
    """A store that gives no answer to the second question of a reading, where it `fails`."""

    def __init__(self, store):
        self._store, self.fails = store, False

    def read(self, selects, at=0):
        if at and self.fails:
            raise StoreAway("no answer")
        return self._store.read(selects, at)


@pytest.fixture
def store(tmp_path):
    opened = open_store(f"sqlite:{tmp_path}", makes_folder=True)
    yield opened
    opened.close()


def put(store, text):
    return store.transact([], [Put(KEYS.report("hosts"), text)]).revision


def test_a_report_is_taken_though_the_reading_of_another_key_fails(store):
    """A deletion shows in the number of keys alone, and then they are read once more."""
    document = TWO_FIBRES.read_bytes()
    first = store.transact([], [Put(KEYS.document, document)]).revision
    store.transact([], [Put(KEYS.accepted, accepted_value(first, document))])
    put(store, b"demand pages-0 5\n")
    failing = Failing(store)
    desk = Desk(failing, KEYS, ECHO, lambda: None, 30.0)
    try:
        desk.look([])
        desk.settle()
        put(store, b"demand pages-0 7\n")
        store.transact([], [Delete(KEYS.document)])
        failing.fails = True
        with pytest.raises(StoreAway):
            desk.look([])
        failing.fails = False
        desk.look([])
        desk.settle()
        desk.tables.make()
        assert b"task pages-0 limit 7\n" in desk.tables.rows["hosts"]
    finally:
        desk.close()
