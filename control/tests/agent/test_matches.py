"""The ranges that stand for prefixes, the numbers of classes, and the state file."""

from __future__ import annotations

import ipaddress
import logging
from pathlib import Path

import pytest
from hypothesis import given
from hypothesis import strategies as st

from bwe_control.agent.htb import REST
from bwe_control.agent.matches import disjoint
from bwe_control.agent.state import FIRST_MINOR, State, class_numbers, read_state

Pairs = list[tuple[int, int]]


def prefix(address: int, length: int) -> ipaddress.IPv4Network:
    """A prefix inside 10.0.0.0/24, so that they meet each other often."""
    whole = int(ipaddress.IPv4Address("10.0.0.0")) + address
    return ipaddress.IPv4Network((whole >> (32 - length) << (32 - length), length))


@given(st.lists(st.tuples(st.integers(0, 255), st.integers(24, 32)), max_size=12))
def test_the_longest_prefix_decides_for_each_address(pairs: Pairs) -> None:
    prefixes = list(dict.fromkeys(prefix(*pair) for pair in pairs))
    numbered = {one: number for number, one in enumerate(prefixes)}
    ranges = disjoint(numbered.items())
    for before, after in zip(ranges, ranges[1:]):
        assert before.last < after.first
    for address in map(ipaddress.IPv4Address, range(0x0A000000, 0x0A000100)):
        those = [item.minor for item in ranges if item.first <= int(address) <= item.last]
        longest = max(
            (p for p in prefixes if address in p), key=lambda p: p.prefixlen, default=None
        )
        assert those == ([] if longest is None else [numbered[longest]])


@given(st.sets(st.integers(0, 999), min_size=1, max_size=80))
def test_classes_have_numbers_of_their_own_that_a_lost_state_gives_again(tasks: set[int]) -> None:
    names = {f"task-{number}" for number in tasks}
    numbers = class_numbers(names, {})
    assert len(set(numbers.values())) == len(names)
    assert all(FIRST_MINOR <= number < REST for number in numbers.values())
    assert class_numbers(sorted(names), {}) == numbers
    assert class_numbers(names | {"another"}, numbers).items() >= numbers.items()


def test_all_numbers_can_be_taken() -> None:
    names = [f"task-{number}" for number in range(20_000)]
    assert len(set(class_numbers(names, {}).values())) == 20_000


def test_the_state_is_read_as_it_was_written(tmp_path: Path) -> None:
    path = tmp_path / "deep" / "state.json"
    state = State({"web": 17}, {"web": 0}, 12, 3, 65535)
    state.write(path)
    assert read_state(path) == state
    assert not path.with_name("state.json.new").exists()


@pytest.mark.parametrize("text", ["", "{", "[]", '{"format": 2}', '{"format": 1, "odd": 3}'])
def test_a_state_that_cannot_be_used_is_begun_anew_with_a_warning(
    tmp_path: Path, text: str, caplog: pytest.LogCaptureFixture
) -> None:
    path = tmp_path / "state.json"
    path.write_text(text)
    with caplog.at_level(logging.WARNING):
        assert read_state(path) == State()
    assert "cannot be used, and is begun anew" in caplog.text
