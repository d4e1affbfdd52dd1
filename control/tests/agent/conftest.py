"""The proved program for the tests of the agent, and pairs of hosts in network namespaces."""

from __future__ import annotations

import os
from collections.abc import Iterator
from pathlib import Path

import hypothesis
import pytest

from .hosts import Hosts, why_no_kernel

# Examples are the same each time, nothing is kept of them, and on a busy machine they may take long.
hypothesis.settings.register_profile("agent", database=None, deadline=None, derandomize=True)
hypothesis.settings.load_profile("agent")

TOP = Path(__file__).resolve().parents[3]


@pytest.fixture(scope="session")
def bwe() -> str:
    """The program `bwe`: that of the variable BWE, else the one that is built here."""
    program = Path(os.environ.get("BWE") or TOP / "crates/bwe/out/bwe")
    if not program.is_file():
        pytest.skip(f"{program} is not built: make bwe")
    return str(program)


@pytest.fixture
def hosts() -> Iterator[Hosts]:
    """Two namespaces with a pair of devices between them."""
    if why := why_no_kernel():
        pytest.skip(why)
    with Hosts() as pair:
        yield pair
