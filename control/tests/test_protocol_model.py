"""bwe_control.protocol beside the program `bwe_protocol`, which prints the proved steps of `control_core`.

The program has three reporters, four tasks, three allocators and two readers. A reading of `World` is
the model's `read` and `look` with nothing between, and the model bounds a transaction by the numbers
of the reporters where `Allocator.send` counts those that differ.
"""

from __future__ import annotations

import random
import subprocess
from pathlib import Path

import pytest
from world import World, random_event

PROGRAM = Path(__file__).resolve().parents[2] / "crates" / "bwe_protocol" / "out" / "bwe_protocol"
SIZES = (3, 4, 3, 2)
EVENTS = 150

pytestmark = pytest.mark.skipif(not PROGRAM.exists(), reason="bwe_protocol is not built")


def lines_of(event: str, world: World) -> list[str]:
    """The model's lines for an event in this world."""
    word, *numbers = event.split()
    if word == "read":
        return [event, f"look {numbers[0]}"]
    if word == "send":
        differing = [int(name) for name in world.allocators[int(numbers[0])].differing()]
        most = int(numbers[1])
        upto = differing[most] if most < len(differing) else world.reporters
        return [f"send {numbers[0]} {upto}"]
    return [event]


def random_run(seed: int) -> tuple[list[str], list[str]]:
    """Lines for the program, and of each state the text that is wanted; none between two lines."""
    chance, world = random.Random(seed), World.fresh(*SIZES)
    lines: list[str] = []
    texts = [world.text()]
    while len(texts) <= EVENTS:
        event = random_event(chance, world)
        if event.startswith("capacity"):
            continue  # the program's tables have no links
        added = lines_of(event, world)
        world.step(event)
        lines += added
        texts += [""] * (len(added) - 1) + [world.text()]
    return lines, texts


def states_of(lines: list[str]) -> list[str]:
    """What the program prints, state by state."""
    given = "".join(line + "\n" for line in lines).encode()
    ran = subprocess.run([PROGRAM], input=given, capture_output=True, timeout=60, check=False)
    assert (ran.returncode, ran.stderr) == (0, b"")
    return [state + "\n\n" for state in ran.stdout.decode().split("\n\n")[:-1]]


@pytest.mark.parametrize("seed", range(100))
def test_each_state_is_the_model_s(seed: int) -> None:
    lines, texts = random_run(seed)
    states = states_of(lines)
    assert len(states) == len(texts)
    for number, (state, text) in enumerate(zip(states, texts)):
        assert not text or state == text, "\n".join(lines[:number])


def test_runs_by_chance_post_and_are_refused() -> None:
    ends = [random_run(seed)[1][-1] for seed in range(20)]
    assert sum("posted none" not in end for end in ends) >= 15
    assert any("outcome refused" in end for end in ends)
    assert any("posts no" in end for end in ends)
