"""Lets the tests import the package that stands beside them, and starts stores for them."""

import shutil
import sys
from pathlib import Path

import pytest

ROOT = Path(__file__).resolve().parents[2]
sys.path[:0] = [str(ROOT / "control"), str(ROOT / "tools/operator")]

from etcd_cluster import Cluster  # noqa: E402


@pytest.fixture(scope="session")
def one_etcd(tmp_path_factory):
    """A cluster of one member, for all tests; each uses a network of its own."""
    if shutil.which("etcd") is None:
        pytest.skip("there is no etcd: apt-get install etcd-server")
    with Cluster(tmp_path_factory.mktemp("etcd"), members=1) as cluster:
        yield cluster


@pytest.fixture
def three_etcds(tmp_path):
    """A cluster of three members, for one test that pauses or kills them."""
    if shutil.which("etcd") is None:
        pytest.skip("there is no etcd: apt-get install etcd-server")
    with Cluster(tmp_path, members=3) as cluster:
        yield cluster


@pytest.fixture(params=["sqlite", "etcd"])
def deployment(request, tmp_path):
    """A network of its own, in each kind of store."""
    from deployment import Deployment

    if request.param == "etcd":
        store = request.getfixturevalue("one_etcd").store
    else:
        store = f"sqlite:{tmp_path / 'control'}"
    made = Deployment(store, tmp_path)
    yield made
    made.close()


@pytest.fixture
def own(tmp_path):
    """A network in a store of SQLite of its own."""
    from deployment import Deployment

    made = Deployment(f"sqlite:{tmp_path / 'control'}", tmp_path)
    yield made
    made.close()
