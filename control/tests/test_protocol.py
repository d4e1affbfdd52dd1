"""bwe_control.protocol against the law of the control plane."""

import random

import pytest
from world import World, random_event

from bwe_control.protocol import Allocator, Reading, Slice


def run(seed, length, sizes=None):
    """A world after each of some events by chance, and the events."""
    chance = random.Random(seed)
    sizes = sizes or [chance.randint(1, 3), chance.randint(1, 4), chance.randint(1, 3), 2]
    world, events = World.fresh(*sizes), []
    yield world, events, sizes
    for _ in range(length):
        events.append(random_event(chance, world))
        world.step(events[-1])
        yield world, events, sizes


def check_law(world, before):
    """The law at one moment; `before` is the posted prefix of the moment before."""
    posted = world.posted
    prefix = posted.prefix if posted else 0
    assert prefix >= before
    if posted:
        assert posted.prefix < posted.revision <= world.revision
        shown = {name: it.limits for name, it in posted.slices.items()}
        assert shown == world.rows(posted.prefix)
        assert world.has_sent_parts or world.slices == posted.slices
    assert all(it.told <= prefix and it.seen <= prefix for it in world.readers)
    return prefix


@pytest.mark.parametrize("seed", range(150))
def test_the_law_holds_of_events_by_chance(seed):
    prefix = 0
    for world, events, _ in run(seed, 200):
        try:
            prefix = check_law(world, prefix)
        except AssertionError as fault:
            raise AssertionError("\n".join(events)) from fault
    posted = sum(it.transaction.posts and it.outcome.startswith("done") for it in world.sent)
    assert posted or seed >= 0  # most worlds post; the next test counts them


def test_events_by_chance_post_tables():
    worlds = [list(run(seed, 200))[-1][0] for seed in range(20)]
    assert sum(world.posted is not None for world in worlds) >= 15
    assert any("refused" in (it.outcome for it in world.sent) for world in worlds)


def test_a_late_transaction_of_its_own_does_not_pass():
    """The history that the create revision as fence does not stand: an old table over a newer one."""
    world = World.fresh(1, 1, 1, 1)
    for event in ["demand 0 5", "campaign 0", "read 0", "send 0 1"]:
        world.step(event)
    for event in ["give_up 0", "demand 0 7", "read 0", "send 0 1", "take 1", "learn 0"]:
        world.step(event)
    newest = world.posted.prefix
    world.step("take 0")
    assert world.sent[0].outcome == "refused" and world.posted.prefix == newest


def test_nothing_is_sent_with_an_older_reading_than_what_was_posted():
    one = Allocator()
    one.read(Reading(5, {"a": 1}), 4, {})
    assert one.send(1).posts
    one.learn(6)
    assert not one.may_send() and one.send(1) is None
    one.look(Reading(6, {"a": 1}))
    assert one.may_send()


def test_parts_go_before_the_post_and_one_reading_serves_them():
    one = Allocator()
    one.read(Reading(9, {"a": 1, "b": 2, "c": 3}), 9, {"b": Slice(3, 2), "gone": Slice(1, 0)})
    first = one.send(2)
    assert (list(first.writes), first.posts) == (["a", "c"], False)
    one.learn(10)
    last = one.send(2)
    assert (last.writes, last.posts, last.fence) == ({"gone": None}, True, 10)
    assert set(last.after) == {"a", "b", "c"} and last.after["b"].prefix == 3


def test_an_unknown_outcome_is_followed_by_a_reading():
    one = Allocator()
    one.read(Reading(2, {"a": 1}), 2, {})
    one.send(1)
    assert one.send(1) is None
    one.give_up()
    one.look(Reading(3, {"a": 2}))
    assert one.send(1) is None
    one.read(Reading(4, {"a": 2}), 4, {})
    assert one.send(1) is not None


def test_what_goes_aside_is_a_part_without_slices():
    one = Allocator()
    one.read(Reading(2, {}), 2, {})
    aside = one.send_aside()
    assert (dict(aside.writes), aside.posts, aside.fence) == ({}, False, 2)
    one.learn(3)
    assert one.send(0).posts


def test_rows_that_did_not_change_are_not_compared_again():
    """Looks that say what changed find what looks that compare everything find."""
    for seed in range(300):
        chance, revision = random.Random(seed), 10
        names = [f"r{it}" for it in range(6)]
        rows = {it: chance.randrange(3) for it in names}
        told, asked = Allocator(), Allocator()
        stands = {it: Slice(1, chance.randrange(3)) for it in chance.sample([*names, "gone"], 4)}
        for one in (told, asked):
            one.read(Reading(revision, dict(rows)), revision, stands)
        for _ in range(20):
            most = chance.randint(1, 7)
            sent = told.send(most), asked.send(most)
            assert sent[0] == sent[1] and told.differing() == asked.differing()
            if chance.random() < 0.3:
                revision += 1
                for one in (told, asked):
                    one.look(Reading(revision, dict(rows)), [] if one is told else None)
            revision += 1
            for one in (told, asked):
                one.learn(revision)
            changed = chance.sample(names, chance.randrange(4))
            for it in changed:
                rows[it] = chance.randrange(3)
            told.look(Reading(revision, dict(rows)), changed)
            asked.look(Reading(revision, dict(rows)))
            assert told.differing() == asked.differing() and told == asked
