"""What a task asks for, and that the estimate is the proved one."""

from __future__ import annotations

import json
import random
import subprocess

from hypothesis import given
from hypothesis import strategies as st

from bwe_control.agent.demand import Meter, coarse, estimate, is_held, sample_of, step_of

MOST = 1_000_000_000_000
TASKS, SEED = 300, 41
Samples = list[int]


def made_samples(seed: int) -> list[Samples]:
    """A list of samples for each of some tasks, with small, great and equal ones among them."""
    draw = random.Random(seed)
    greatest = [0, 1, 9, 1000, 10**6, 10**9, 869_565_217_391, MOST]
    return [
        [draw.randint(0, greatest[draw.randrange(8)]) for _ in range(draw.randint(1, 12))]
        for _ in range(TASKS)
    ]


def document(tasks: int) -> bytes:
    """Each task in a group of its own over a link that holds it back nowhere."""
    slope = [[0, 0], [1_000_000, MOST]]
    groups = [
        {
            "name": f"g{number}",
            "from": "a",
            "to": "b",
            "paths": [[{"weight": 1, "links": [f"l{number}"]}]],
            "users": [
                {
                    "name": "u",
                    "jobs": [
                        {
                            "name": "j",
                            "task": slope,
                            "tasks": [{"name": f"t{number}", "reporter": "r"}],
                        }
                    ],
                }
            ],
        }
        for number in range(tasks)
    ]
    links = [
        {"name": f"l{number}", "from": "a", "to": "b", "capacity": MOST} for number in range(tasks)
    ]
    return json.dumps(
        {
            "version": 1,
            "top": 1_000_000,
            "links": links,
            "groups": groups,
            "reporters": ["r"],
            "script": [],
        }
    ).encode()


def proved_estimates(bwe: str, window: int, headroom: int, samples: list[Samples]) -> list[int]:
    """The limits that `bwe estimate` gives where nothing but the estimates holds a task back."""
    text = document(len(samples))
    lines = [f"r t{number} {sample}\n" for number, them in enumerate(samples) for sample in them]
    answer = subprocess.run(
        [bwe, "estimate", str(window), str(headroom)],
        input=b"%d\n%b%b" % (len(text), text, "".join(lines).encode()),
        capture_output=True,
        check=True,
    ).stdout.decode()
    words = [line.split() for line in answer.splitlines() if line.startswith("task ")]
    return [int(line[3]) for line in words]


def test_the_estimate_is_that_of_bwe_estimate(bwe: str) -> None:
    samples = made_samples(SEED)
    for window, headroom in [(1, 100), (2, 110), (4, 115), (7, 333), (1000, 1000)]:
        ours = [estimate(them[-window:], headroom) for them in samples]
        assert ours == proved_estimates(bwe, window, headroom, samples)


def test_a_meter_that_is_not_held_asks_for_the_estimate(bwe: str) -> None:
    samples = [them for them in made_samples(SEED + 1) if len(them) >= 3]
    asked = []
    for them in samples:
        meter = Meter(3, 110)
        for sample in them:
            meter.asked = 0  # what was reported before is another rule
            meter.sampled(sample, 10**15, 0, MOST)
        asked.append(meter.asked)
    estimates = proved_estimates(bwe, 3, 110, samples)
    assert asked == [coarse(amount, 0) for amount in estimates]


@given(st.integers(0, MOST), st.integers(0, MOST))
def test_a_report_is_at_most_two_steps_above_what_is_meant(amount: int, reported: int) -> None:
    asks = coarse(amount, reported)
    assert amount <= asks <= max(amount + 2 * step_of(amount), amount * 1.03)
    assert coarse(amount, asks) == asks


def test_noise_about_a_step_reports_nothing() -> None:
    asked = coarse(6_003, 0)
    assert asked == 6_100
    for noise in (5_991, 6_012, 6_100, 5_900 + 1, 6_099):
        assert coarse(noise, asked) == asked
    assert coarse(5_899, asked) == 5_900
    assert coarse(6_101, asked) == 6_200
    assert coarse(0, asked) == 0


def test_a_task_is_held_by_its_limit_or_by_half_of_it_and_a_backlog() -> None:
    assert is_held(900, 1000, 0) and not is_held(899, 1000, 0)
    assert is_held(500, 1000, 1) and not is_held(499, 1000, 1)


def test_a_held_task_asks_for_twice_its_limit_until_it_is_not_held() -> None:
    meter = Meter(1, 115)
    limit = 64
    for _ in range(8):
        limit = meter.sampled(limit, limit, 0, limit)
    assert limit >= 64 * 2**8
    assert meter.sampled(6_000, limit, 0, limit) == 6_900


def test_a_steady_task_with_the_default_headroom_is_not_held_by_what_it_gets() -> None:
    meter = Meter(4, 115)
    limit = MOST
    for sample in [5_000, 5_010, 4_990, 5_003, 4_998, 5_009] * 5:
        limit = meter.sampled(sample, limit, 0, limit)
        assert not meter.is_held
    assert limit == 5_800


def test_nothing_falls_before_a_window_of_samples() -> None:
    meter = Meter(3, 115)
    meter.asked = 9_000
    assert [meter.sampled(1_000, MOST, 0, MOST) for _ in range(3)] == [9_000, 9_000, 1_200]


def test_a_sample_is_a_rate_rounded_up() -> None:
    assert sample_of(125, 1.0) == 1
    assert sample_of(126, 1.0) == 2
    assert sample_of(0, 1.0) == 0
    assert sample_of(1_000_000, 0.5) == 16_000
