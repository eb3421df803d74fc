# Random states, calls on them and mixes of calls, for the tests and the stored input of segments_cmd. Labels are few, pools
# small and most calls chosen by what the state holds, so that every answer is common. Everything random is drawn from the
# generator that is passed in, so that a seed fixes it.

from collections import defaultdict
from dataclasses import replace

from protocol import NUMBERS_END
from rules import Range, Tuple
from samples import at_times, label, tuple_of
from segments import MOST_PAGES, SLOTS, TENANTS, Call, Segment, State, Tenant, step, tenant_call

LABELS = [label(10), label(20), label(30, 1), label(30, 2), label(30, 1, 2), label(40, 1, 2, 200), label(185, 255)]
CLEARANCES = [
    Range(label(10), label(40, 1, 2, 200)).split(),
    Range(label(20), label(190, 1, 2, 200, 255)).split(),
    tuple_of(user=Range(label(20), label(30, 1))),
    tuple_of(user=Range(label(20), label(30, 2))),
    tuple_of(user=Range(label(20), label(40, 1, 2, 200))),
    tuple_of(user=Range(label(30, 1), label(40, 1, 2)), virus=Range(label(10), label(10))),
]
NAMES = ["open", "size", "post", "look", "close"]
WEIGHTS = [7, 3, 3, 5, 2]


# States

def any_tenant(rng):
    """What an admitted tenant has: a ceiling that is reached soon, or one that is reached about when no slot is left."""
    return Tenant(rng.choice((rng.randint(1, 8), rng.randint(12, 40))), rng.choice(CLEARANCES))


def admitted(state):
    return [tenant for tenant in TENANTS if state.admitted(tenant)]


def cleared(record):
    return [l for l in LABELS if record.clears(l)]


def any_segment(rng, record, most):
    return Segment(rng.choice(cleared(record)), rng.randint(1, most), any_version(rng))


def with_segments(rng, state, tenant):
    """The state with some of a tenant's slots filled."""
    share = rng.choice((0, 0.3, 0.6, 1))
    for slot in state.slots_of(tenant):
        record = state.tenants[tenant]
        left = record.ceiling - state.pages_of(tenant)
        if left > 0 and at_times(rng, share):
            state = state.with_segment(slot, any_segment(rng, record, min(left, rng.choice((1, 4)))))
    return state


def admitting_state(rng):
    """A sound state with some tenants and no segments."""
    state = State()
    for tenant in rng.sample(TENANTS, rng.choice((1, 2, 2, 3, 3, 4, len(TENANTS)))):
        state = state.with_tenant(tenant, any_tenant(rng))
    return replace(state, pool=state.ceilings() + rng.choice((0, rng.randrange(10))))


def any_state(rng):
    """A sound state with some tenants and segments."""
    state = admitting_state(rng)
    for tenant in admitted(state):
        state = with_segments(rng, state, tenant)
    return state


# Calls

def any_caller(rng, state):
    """A tenant number, most of the time of an admitted tenant."""
    if at_times(rng, 0.02):
        return rng.choice((len(TENANTS), rng.randrange(NUMBERS_END)))
    return rng.choice(TENANTS if at_times(rng, 0.03) else admitted(state) or TENANTS)


def any_page_count(rng):
    if at_times(rng, 0.04):
        return rng.choice((0, MOST_PAGES, MOST_PAGES + 1, rng.randrange(NUMBERS_END)))
    return rng.choice((1, 1, 1, 2, rng.randint(1, 12)))


def any_version(rng):
    return rng.choice((0, rng.randrange(5), rng.randrange(NUMBERS_END)))


def any_slot(rng, among):
    """A slot, most of the time one of those given where there are any."""
    if at_times(rng, 0.02):
        return rng.choice((len(SLOTS), rng.randrange(NUMBERS_END)))
    return rng.choice(SLOTS if at_times(rng, 0.1) else among or SLOTS)


def any_subject(rng, state, tenant):
    """A label, most of the time one that the tenant is cleared for."""
    known = state.admitted(tenant) and not at_times(rng, 0.1)
    return rng.choice(cleared(state.tenants[tenant]) if known else LABELS)


def any_subject_at(rng, state, tenant, slot):
    """A label, most of the time the one at a slot."""
    there = state.segments[slot] if slot in SLOTS else None
    return any_subject(rng, state, tenant) if there is None or at_times(rng, 0.2) else there.label


def any_tenant_call(rng, state):
    """A tenant call that has to do with what a state holds."""
    name, tenant = rng.choices(NAMES, WEIGHTS)[0], any_caller(rng, state)
    if name == "open":
        return tenant_call(name, tenant, any_page_count(rng), label=any_subject(rng, state, tenant))
    filled = [slot for slot in SLOTS if state.segments[slot] is not None]
    if name == "look":
        return tenant_call(name, tenant, any_slot(rng, filled), label=any_subject(rng, state, tenant))
    slot = any_slot(rng, [slot for slot in filled if slot in state.slots_of(tenant)])
    more = {"size": [any_page_count(rng)], "post": [any_version(rng)], "close": []}[name]
    return tenant_call(name, tenant, slot, *more, label=any_subject_at(rng, state, tenant, slot))


def any_operator_call(rng, state):
    """An admission, a ceiling, or a pool that is out of bounds; a good pool would put an end to all that there is."""
    tenant, left = any_caller(rng, state), state.pool - state.ceilings()
    name = rng.choices(("admit", "set_ceiling", "make"), (4, 4, 1))[0]
    if name == "make":
        return Call(name, (rng.choice((0, MOST_PAGES + 1, NUMBERS_END - 1)),))
    if name == "admit":
        ceiling = rng.choice((0, rng.randint(1, max(left, 1)), left + 1, NUMBERS_END - 1))
        return Call(name, (rng.choice(TENANTS), ceiling), (rng.choice((Tuple(), *CLEARANCES)),))
    used, now = (state.pages_of(tenant), state.tenants[tenant].ceiling) if state.admitted(tenant) else (0, 0)
    return Call(name, (tenant, rng.choice((0, used, max(used - 1, 0), rng.randint(used, now + left), now + left + 1))))


def any_call(rng, state):
    return any_operator_call(rng, state) if at_times(rng, 0.08) else any_tenant_call(rng, state)


def played(rng, state, count, any_call=any_tenant_call):
    """Random calls, each chosen by what the state holds after those before it."""
    calls = []
    for _ in range(count):
        calls.append(any_call(rng, state))
        state, _ = step(state, calls[-1])
    return calls


def mixed(rng, calls):
    """The same calls in a random order that keeps each tenant's own."""
    theirs = defaultdict(list)
    for call in reversed(calls):
        theirs[call.tenant].append(call)
    order = [call.tenant for call in calls]
    rng.shuffle(order)
    return [theirs[tenant].pop() for tenant in order]
