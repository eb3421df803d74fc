# Demand 3 of document 00, in the words of document 01's "What the contracts have to say", over `step` of segments.py:
# what holds of a list of tenant calls and a second list that mixes the same calls.

from collections import namedtuple

from rules import INVALID, NO_PRIVILEGE
from segments import TENANTS, step

Entry = namedtuple("Entry", "call state answer")  # a call, the state that it got and its answer
Run = namedtuple("Run", "entries last")  # an entry for each call of a list, and the state after all of them


def run(state, calls):
    entries = []
    for call in calls:
        after, answer = step(state, call)
        entries.append(Entry(call, state, answer))
        state = after
    return Run(entries, state)


def project(tenant, entries):
    """The entries that carry a tenant number, admitted or not."""
    return [entry for entry in entries if entry.call.tenant == tenant]


def looks_at_another(entry):
    """Whether an entry is a look at a slot that is not the caller's own."""
    return entry.call.name == "look" and entry.call.slot not in entry.state.slots_of(entry.call.tenant)


def held(entry):
    """What the slot of a look held when it was looked at."""
    return entry.state.segments[entry.call.slot]


def seen(entry):
    """Whether the slot of a look was filled with a label that the looker's dominates."""
    there = held(entry)
    return there is not None and entry.call.label.dominates(there.label)


def must_differ(one, other):
    """Whether a look at another's slot has to get different answers in two lists."""
    return (not {one.answer.refusal, other.answer.refusal} & {INVALID, NO_PRIVILEGE}
            and held(one) != held(other)
            and (seen(one) or seen(other)))


def agree(one, other):
    """Whether a call's entries in two lists are as demand 3 says."""
    if looks_at_another(one):
        return (one.answer != other.answer) == must_differ(one, other)
    return one.answer == other.answer


def faults_of_state(start, state):
    """What of demand 3 does not hold for a state of a run from `start`."""
    if state.pool != start.pool:
        yield "pool"
    if state.tenants != start.tenants:
        yield "clearances and ceilings"
    if any(state.admitted(t) and state.pages_of(t) > state.tenants[t].ceiling for t in TENANTS):
        yield "pages over a ceiling"


def pairs(one, other):
    """Each call's entries in the runs of two lists that mix the same calls."""
    for tenant in sorted({entry.call.tenant for entry in one.entries + other.entries}):
        ours, theirs = project(tenant, one.entries), project(tenant, other.entries)
        assert [entry.call for entry in ours] == [entry.call for entry in theirs], "not a mix of the same calls"
        yield from zip(ours, theirs)


def faults(start, one, other):
    """What of demand 3 does not hold for the runs, from a sound state, of two lists that mix the same calls."""
    if one.last != other.last:
        yield "last state"
    for ours, theirs in pairs(one, other):
        if not agree(ours, theirs):
            yield f"answers to {ours.call}"
    for entries, last in (one, other):
        for state in [start, *(entry.state for entry in entries), last]:
            yield from faults_of_state(start, state)
