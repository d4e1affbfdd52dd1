"""Two allocators over a store that fails by a seed, step by step, and the judge of its history."""

import json
import random
from pathlib import Path

import pytest
from deployment import built, needs_live
from faulty_store import Crash, FaultyStore, Held
from judge import Judge

from bwe_control import service as services
from bwe_control.keys import Keys
from bwe_control.metrics import Metrics
from bwe_control.service import Service, Settings
from bwe_control.store.interface import Delete, Put
from bwe_control.store.opening import open_store

pytestmark = needs_live


def document(reporters, tasks, top=20):
    """A document with a link for every other reporter, and tasks dealt to all."""
    names = [f"r{it}" for it in range(reporters)]
    links = [
        {"name": f"l{it}", "from": "a", "to": "b", "capacity": 60, "owner": names[it]}
        for it in range(2)
    ]
    groups = [
        {
            "name": f"g{it}",
            "from": "a",
            "to": "b",
            "paths": [
                [{"weight": 1, "links": [f"l{it}"]}],
                [{"weight": 1, "links": [f"l{1 - it}"]}],
            ],
            "users": [
                {
                    "name": "u",
                    "jobs": [
                        {
                            "name": "j",
                            "task": [[0, 0], [top, 40]],
                            "tasks": [
                                {"name": f"t{task}", "reporter": names[task % reporters]}
                                for task in range(it, tasks, 2)
                            ],
                        }
                    ],
                }
            ],
        }
        for it in range(2)
    ]
    return json.dumps(
        {
            "version": 3,
            "top": top,
            "links": links,
            "groups": groups,
            "reporters": names,
            "script": [],
        }
    ).encode()


class Simulation:
    """Reporters, an operator, and two allocators that crash, over one store that fails."""

    def __init__(self, seed, folder, most_operations):
        self.chance = random.Random(seed)
        self.store = open_store(f"sqlite:{folder}", makes_folder=True)
        self.keys, self.held = Keys("main"), Held(self.store, self.chance)
        self.most_operations, self.crashes = most_operations, 0
        self.services = [self.fresh(it) for it in range(2)]
        self.tasks = 8

    def fresh(self, number):
        settings = Settings(f"a{number}", Path(built("BWE_LIVE", "bwe_live")), 0.0, 600.0, 600.0)

        def opened():
            return FaultyStore(self.held, 0.25, self.most_operations)

        return Service(opened, self.keys, settings, Metrics())

    def step(self):
        """One event by chance."""
        what = self.chance.choices(["report", "document", "lease", "work"], [10, 1, 1, 40])[0]
        if what == "report":
            self.report()
        elif what == "document":
            self.tasks = self.chance.choice([4, 8, 9])
            text = document(3, self.tasks) if self.chance.random() < 0.8 else b"{}"
            self.store.transact([], [Put(self.keys.document, text)])
        elif what == "lease":
            self.store.transact([], [Delete(self.keys.leader)])
        else:
            self.work(self.chance.randrange(2))

    def report(self):
        name = self.chance.choice(["r0", "r1", "r2", "rx"])
        demands = "".join(
            f"demand t{self.chance.randrange(self.tasks)} {self.chance.randint(0, 50)}\n"
            for _ in range(self.chance.randint(0, 5))
        )
        links = f"capacity l{self.chance.randrange(2)} {self.chance.randint(0, 80)}\n"
        text = demands + (links if self.chance.random() < 0.3 else "")
        one = Put(self.keys.report(name), text.encode())
        gone = Delete(self.keys.report(name))
        self.store.transact([], [gone if self.chance.random() < 0.1 else one])

    def work(self, number):
        try:
            self.services[number].step()
        except Crash:
            self.crashes += 1
            self.services[number].close()
            self.services[number] = self.fresh(number)

    def finish(self):
        """No more faults, and a lease of who crashed ends: what was reported last is posted."""
        self.store.transact([], [Delete(self.keys.leader)])
        last = self.store.transact([], [Put(self.keys.report("r0"), b"demand t0 7\n")]).revision
        for _ in range(200):
            for service in self.services:
                service._store.rate = 0.0
            self.work(self.chance.randrange(2))
        for service in self.services:
            service.close()
        return last


@pytest.fixture
def quick(monkeypatch):
    monkeypatch.setattr(services, "LOOK_EACH", 0.0)
    monkeypatch.setattr(services, "PAUSES", (0.0, 0.0))


@pytest.mark.parametrize("most_operations", [1000, 4])
@pytest.mark.parametrize("seed", range(3))
def test_the_promises_hold_at_each_revision(quick, tmp_path, seed, most_operations):
    simulation = Simulation(seed, tmp_path / "control", most_operations)
    simulation.store.transact([], [Put(simulation.keys.document, document(3, 8))])
    for _ in range(400):
        simulation.step()
    last = simulation.finish()
    judge = Judge(simulation.store, simulation.keys)
    judge.check(in_parts=most_operations < 10)
    assert judge.posts > 5
    from bwe_control.client import read_limits

    assert read_limits(simulation.store, simulation.keys, "r0").posted.prefix >= last
