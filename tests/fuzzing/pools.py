# Alias tables and states of shared memory, which take long to make and to judge, so that many calls share one. The number
# of a case tells from which few it chooses; the choice moves on with the number, and no case depends on another.

import functools
import random
from dataclasses import replace

from capi import SEGMENT_SIZE, STATE_SIZE, TENANT_SIZE, state_numbers
from rules import write
from samples import at_times
from segment_samples import admitted, admitting_state, any_call, any_segment, any_state
from segments import MOST_PAGES, SLOTS_EACH, TENANTS, State, step
from text import MOST_ENTRIES
from text_samples import ENTRIES, FULL, any_entries, of_category, of_hierarchy, spoiled, table_of
from values import bent, spoilt

AT_ONCE = 16  # how many a case chooses from
KEPT = 512  # how many are not made again
LARGE = 0  # which of them is a large alias table
KEPT_FOR = 150  # cases that choose from the same
HALF = 2 ** 63  # twice this is 0 in 64 bits


# Alias tables

def padded(rng, count):
    """The entries of an alias table of this size."""
    entries = any_entries(rng, 20)[:count]
    return entries + [rng.choice((of_category, of_hierarchy))(n % 200, b"pad%04d" % n) for n in range(count - len(entries))]


def large_entries(rng):
    sizes = 150, MOST_ENTRIES - 1, MOST_ENTRIES, MOST_ENTRIES + 1, 600
    return FULL if at_times(rng, 0.3) else padded(rng, rng.choice(sizes))


def some_entries(rng):
    few, some = any_entries(rng, 3), any_entries(rng, 20)
    return rng.choice((few, some, some, padded(rng, rng.randrange(40)), ENTRIES))


def spoiled_table(rng, entries, data):
    """The bytes of an alias table that most of the time is bad."""
    more = rng.choice((b"\n", b"0", b"x\n", data[:data.find(b"\n") + 1]))
    with_bad_lines = b"".join(spoiled(rng, entries)) if entries else b"\n"
    return rng.choice((with_bad_lines, with_bad_lines, spoilt(rng, data), data + more, data[:-1]))


def some_table(rng, large):
    """A good alias table, from which texts are made, and the bytes that are passed for it."""
    entries = large_entries(rng) if large else some_entries(rng)
    data = b"".join(map(write, entries))
    known = table_of(*entries[:MOST_ENTRIES])
    if known.judged()[1] is not None:
        known = table_of(*ENTRIES)
    return known, spoiled_table(rng, entries, data) if at_times(rng, 0.15) else data


# States

def nearly_full(rng):
    """A state where tenants have few slots left, or none, or the last ones."""
    state = admitting_state(rng)
    for tenant in (tenant for tenant in admitted(state) if state.tenants[tenant].ceiling >= SLOTS_EACH):
        slots = state.slots_of(tenant)
        empty = rng.choice((rng.sample(slots, rng.randrange(3)), slots[rng.randrange(SLOTS_EACH):]))
        for slot in (slot for slot in slots if slot not in empty):
            state = state.with_segment(slot, any_segment(rng, state.tenants[tenant], 1))
    return state


def reached(rng):
    """The state after a run of random calls, from one with tenants and perhaps segments."""
    state = rng.choice((admitting_state, any_state, nearly_full))(rng)
    state = replace(state, pool=state.pool + rng.choice((0, rng.randrange(60), MOST_PAGES - state.pool)))
    for _ in range(rng.choice((0, 5, 40))):
        state, _ = step(state, any_call(rng, state))
    return state


def overflowing(rng, numbers):
    """A state where two ceilings of tenants, or the pages at two slots of one, add up to 0 in 64 bits."""
    changed = list(numbers)
    if at_times(rng, 0.5):
        places = [1 + TENANT_SIZE * tenant for tenant in TENANTS]
    else:
        slots = State().slots_of(rng.choice(TENANTS))
        places = [1 + TENANT_SIZE * len(TENANTS) + SEGMENT_SIZE * slot + SEGMENT_SIZE - 2 for slot in slots]
    filled = [at for at in places if numbers[at]]
    for at in filled[:2]:
        changed[at] = HALF
    return tuple(changed)


def damaged_state(rng, numbers):
    if at_times(rng, 0.15):
        return overflowing(rng, numbers)
    return (0,) * STATE_SIZE if at_times(rng, 0.05) else bent(rng, "lurm_state", numbers, 1)


class Pools:
    """All alias tables and states that there are under a seed, each by its number."""

    def __init__(self, seed):
        self.seed = seed
        self.alias_table = functools.lru_cache(maxsize=KEPT)(self.made_alias_table)
        self.state = functools.lru_cache(maxsize=KEPT)(self.made_state)

    def rng(self, what, number):
        return random.Random(f"{self.seed} {what} {number}")

    def made_alias_table(self, number):
        return some_table(self.rng("table", number), number % AT_ONCE == LARGE)

    def made_state(self, number):
        state = reached(self.rng("state", number))
        return state, state_numbers(state)

    def some(self, rng, number):
        """The number of an alias table or state for the case of this number. A large table is rare: it takes a hundred
        times as long as a small one."""
        return number // KEPT_FOR * AT_ONCE + (LARGE if at_times(rng, 0.015) else rng.randrange(LARGE + 1, AT_ONCE))
