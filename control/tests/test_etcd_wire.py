"""How long a member of etcd has for an answer: by what is known of the member and of the bytes."""

import shutil
import subprocess

import pytest
from deployment import ROOT

from bwe_control.errors import InputError, OutcomeUnknown, StoreAway
from bwe_control.store.opening import Tls

grpc = pytest.importorskip("grpc")

from bwe_control.store.etcd_wire import LONGEST, SHORTEST, SLOWEST, SPEED, Wire  # noqa: E402


class Fault(grpc.RpcError):
    """A call that fails with a status of gRPC."""

    def __init__(self, status):
        super().__init__()
        self._status = status

    def code(self):
        return self._status

    def details(self):
        return ""


class Answer:
    """An answer of so many bytes."""

    def __init__(self, size):
        self._size = size

    def ByteSize(self):  # noqa: N802, the name of protobuf's
        return self._size


@pytest.fixture
def wire(monkeypatch):
    made = Wire(["127.0.0.1:1"], None)
    monkeypatch.setattr(made, "channel", lambda: None)
    made.given = []  # the seconds of each call
    return made


def calls(wire, ending):
    """A call that notes its seconds and ends so."""

    def call(_, seconds):
        wire.given.append(seconds)
        if isinstance(ending, Exception):
            raise ending
        return ending

    return call


def reads(wire, status, times):
    for _ in range(times):
        with pytest.raises(StoreAway):
            wire.read(calls(wire, Fault(status)))


def test_a_member_that_is_slow_has_ever_more_time(wire):
    reads(wire, grpc.StatusCode.DEADLINE_EXCEEDED, 10)
    assert wire.given[0] == SHORTEST and wire.given[-1] == SLOWEST
    assert wire.given == sorted(wire.given)
    for _ in range(2):
        wire.read(calls(wire, Answer(10)))
    assert wire.given[-1] == pytest.approx(LONGEST, abs=0.01)


def test_a_member_that_is_not_there_is_left_soon(wire):
    reads(wire, grpc.StatusCode.UNAVAILABLE, 10)
    assert max(wire.given) == LONGEST
    for _ in range(20):
        wire.read(calls(wire, Answer(10)))
    assert wire.given[-1] == pytest.approx(SHORTEST, abs=0.01)


def test_a_long_request_has_the_time_that_its_bytes_take(wire):
    wire.write(calls(wire, Answer(10)), size=14 * SPEED)
    assert wire.given == [SHORTEST + 14]
    with pytest.raises(OutcomeUnknown):
        wire.write(calls(wire, Fault(grpc.StatusCode.DEADLINE_EXCEEDED)), size=SPEED)


def test_who_has_had_a_long_answer_waits_for_the_next_one(wire):
    wire.read(calls(wire, Answer(30 * SPEED)))
    wire.read(calls(wire, Answer(10)))
    assert wire.given == [SHORTEST, SHORTEST + 30]


@pytest.mark.skipif(shutil.which("openssl") is None, reason="there is no openssl")
@pytest.mark.parametrize(
    "names, sentence",
    [
        (("nowhere", "root.crt", "root.key"), "nowhere cannot be read: No such file"),
        (("root.key", "root.crt", "root.key"), "root.key has no certificate of an authority"),
        (("authority.crt", "root.key", "root.key"), "are no certificate and its key"),
        (("authority.crt", "root.crt", "authority.key"), "are no certificate and its key"),
    ],
)
def test_files_that_are_no_certificates_are_named(tmp_path, names, sentence):
    for words in (["authority"], ["client", "root"]):
        script = [ROOT / "control/etcd/certificates", tmp_path, *words]
        subprocess.run(script, check=True, capture_output=True)
    with pytest.raises(InputError, match=sentence):
        Wire(["127.0.0.1:1"], Tls(*(tmp_path / it for it in names)))
    files = (tmp_path / it for it in ("authority.crt", "root.crt", "root.key"))
    Wire(["127.0.0.1:1"], Tls(*files)).close()
