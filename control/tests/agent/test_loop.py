"""The agent's loop beside a kernel that fails as it is told: what it applies, keeps and tries again."""

from __future__ import annotations

import logging
from collections.abc import Mapping, Sequence
from dataclasses import dataclass, field
from pathlib import Path

import pytest

from bwe_control.agent.config import Config, read_config
from bwe_control.agent.exchange import Report
from bwe_control.agent.faults import KernelError
from bwe_control.agent.htb import HANDLE, REST, Change, ClassState, Owner, Root
from bwe_control.agent.loop import Agent
from bwe_control.agent.netlink import Failure
from bwe_control.agent.state import State, class_numbers, read_state
from bwe_control.client import Limits
from bwe_control.values import Posted, Slice

NAMES = ("web", "copy", "cron")
TEXT = 'device = "eth0"\nreporter = "a"\nmode = "enforce"\nstate = "state.json"\n'


@dataclass
class FakeKernel:
    """Classes in memory; `fails` says which changes the kernel refuses, `is_gone` that it does all."""

    rates: dict[int, int] = field(default_factory=dict)
    batches: list[list[Change]] = field(default_factory=list)
    fails: set[int] = field(default_factory=set)
    is_gone: bool = False

    def root(self) -> Root:
        if self.is_gone:
            raise KernelError("device eth0: there is none on this host")
        return Root(Owner.OURS, "htb", HANDLE)

    def add_root(self, replace: bool = False) -> None:
        raise AssertionError("the root is there")

    def add_classes(self, changes: Sequence[Change], leaf: str) -> list[Failure]:
        return self.change_classes(changes)

    def change_classes(self, changes: Sequence[Change]) -> list[Failure]:
        if self.is_gone:
            raise KernelError("device eth0: there is none on this host")
        self.batches.append(list(changes))
        failed = []
        for number, change in enumerate(changes):
            if change.minor in self.fails:
                failed.append(Failure(number, 12, "Cannot allocate memory"))
            else:
                self.rates[change.minor] = change.rate
        return failed

    def classes(self) -> dict[int, ClassState]:
        self.root()
        return {minor: ClassState(minor, rate, 0, 0, 0, 0) for minor, rate in self.rates.items()}


class NoClassifier:
    """A table of nftables that nobody changes."""

    def keep(self, places: Mapping[str, int]) -> bool:
        return False


@dataclass
class FakeExchange:
    """A control plane that says what it is told."""

    is_connected: bool = True
    next: Limits | None = None

    def limits(self) -> Limits | None:
        limits, self.next = self.next, None
        return limits

    def reported(self) -> Report | None:
        return None

    def report(self, report: Report) -> None:
        raise AssertionError("nothing is reported before the store has answered")


class World:
    """An agent of three tasks, and all that it speaks to."""

    def __init__(self, folder: Path) -> None:
        path = folder / "agent.toml"
        tasks = [f'[task.{n}]\nto = ["10.{i}.0.0/16"]\n' for i, n in enumerate(NAMES)]
        path.write_text(TEXT + "".join(tasks))
        self.config: Config = read_config(path)
        self.kernel, self.exchange = FakeKernel(), FakeExchange()
        self.minors = class_numbers(NAMES, {})
        self.agent = self.new_agent(State(dict(self.minors)))

    def new_agent(self, state: State) -> Agent:
        classifier = NoClassifier()
        agent = Agent(self.config, self.kernel, "pfifo", classifier, self.exchange, state)  # type: ignore[arg-type]
        agent.start()
        return agent

    def post(self, prefix: int, **limits: int) -> None:
        """Limits come, and the loop takes them."""
        self.exchange.next = Limits(prefix, Posted(prefix, 1, 0), Slice(prefix, 1, limits))
        self.agent.take_limits()

    def rates(self) -> dict[str, int]:
        return {name: self.kernel.rates[minor] for name, minor in self.minors.items()}

    def stored(self) -> State:
        return read_state(self.config.state)


@pytest.fixture
def world(tmp_path: Path) -> World:
    return World(tmp_path)


def test_tasks_begin_with_the_initial_limit(world: World) -> None:
    assert world.rates() == dict.fromkeys(NAMES, 1000)
    assert REST in world.kernel.rates


def test_a_batch_raises_first_and_then_lowers(world: World) -> None:
    world.post(1, web=500, copy=3000, cron=1000)
    changes = [(change.minor, change.rate) for change in world.kernel.batches[-1]]
    assert changes == [(world.minors["copy"], 3000), (world.minors["web"], 500)]


def test_what_the_kernel_refuses_is_counted_and_tried_again_and_only_then_in_force(
    world: World, caplog: pytest.LogCaptureFixture
) -> None:
    world.kernel.fails = {world.minors["copy"]}
    world.post(1, web=500, copy=3000, cron=800)
    assert world.rates() == {"web": 500, "copy": 1000, "cron": 800}
    assert (world.agent.counts.errors, world.agent.counts.drifts) == (1, 0)
    assert "Cannot allocate memory; 1 of 3 changes failed" in caplog.text
    assert world.stored().prefix is None
    world.kernel.fails = set()
    world.agent.round()
    assert world.rates()["copy"] == 3000
    assert world.stored().prefix == 1
    assert world.agent.counts.drifts == 0


def test_a_kernel_that_answers_nothing_ends_nothing(world: World) -> None:
    world.kernel.is_gone = True
    world.post(1, web=500, copy=3000, cron=800)
    assert world.stored().prefix is None
    world.kernel.is_gone = False
    world.agent.round()
    assert world.rates() == {"web": 500, "copy": 3000, "cron": 800}
    assert (world.stored().prefix, world.agent.counts.drifts) == (1, 0)


def test_older_limits_are_refused_also_beside_newer_ones_that_are_not_in_force_yet(
    world: World,
) -> None:
    world.post(5, web=500, copy=500, cron=500)
    world.kernel.fails = set(world.minors.values())
    world.post(7, web=700, copy=700, cron=700)
    world.kernel.fails = set()
    world.post(6, web=600, copy=600, cron=600)
    world.agent.round()
    assert world.rates() == dict.fromkeys(NAMES, 700)
    assert (world.stored().prefix, world.agent.refused_slices) == (7, 1)


def test_a_slice_that_is_in_force_is_not_applied_again(world: World) -> None:
    world.post(1, web=500, copy=500, cron=500)
    batches = len(world.kernel.batches)
    world.post(1, web=500, copy=500, cron=500)
    assert len(world.kernel.batches) == batches


def test_a_new_start_applies_the_same_slice_where_the_kernel_has_other_rates(world: World) -> None:
    world.post(1, web=500, copy=500, cron=500)
    world.kernel.rates[world.minors["web"]] = 9
    world.agent = world.new_agent(world.stored())
    assert world.rates()["web"] == 9
    world.post(1, web=500, copy=500, cron=500)
    assert world.rates() == dict.fromkeys(NAMES, 500)


def test_classes_that_miss_at_a_start_get_the_limits_of_the_state(world: World) -> None:
    world.post(1, web=500, copy=0, cron=700)
    world.kernel.rates.clear()
    world.agent = world.new_agent(world.stored())
    assert world.rates() == {"web": 500, "copy": 64, "cron": 700}


def test_a_document_without_the_reporter_changes_nothing_and_is_said_once(
    world: World, caplog: pytest.LogCaptureFixture
) -> None:
    world.post(1, web=500, copy=500, cron=500)
    with caplog.at_level(logging.WARNING):
        for prefix in (2, 3):
            world.exchange.next = Limits(prefix, Posted(prefix, 1, 0), None)
            world.agent.take_limits()
    assert caplog.text.count("the document has no reporter a") == 1
    assert world.rates() == dict.fromkeys(NAMES, 500)


def test_a_state_that_cannot_be_written_keeps_no_limit_back(
    world: World, caplog: pytest.LogCaptureFixture
) -> None:
    world.config.state.unlink()
    world.config.state.mkdir()
    world.post(1, web=500, copy=500, cron=500)
    assert world.rates() == dict.fromkeys(NAMES, 500)
    assert "state.json was not written" in caplog.text
