# The requests of segments_cmd's stored input that follow its worked run: document 01's example, each refusal and each
# order of checks, boundaries, the protocol, states that are full, then random calls and mixes of calls. A comment line in
# the input says what each is about. `longer_runs` has more random calls, which are not stored, and calls before `make`.

import itertools
import random

import cases
import isolation
import mac_cmd
from cases import Program, case, command_line, filled
from protocol import NUMBERS_END
from rules import Range, Tuple
from samples import (BORDER_HIERARCHIES, BORDER_LABELS, BORDER_TUPLES, FULL_TUPLE, LABEL, RANGE, TUPLE, label, tuple_of,
                     unchecked_line)
from segment_samples import admitted, admitting_state, any_call, mixed, played
from segments import MOST_PAGES, SLOTS, TENANTS, Call, State, tenant_call
from segments_cmd import COMMANDS, answers

RANDOM_STATES = 6
RANDOM_CALLS = 130  # on each
MIXES = 3
MIXED_CALLS = 60
LARGEST = NUMBERS_END - 1
SHOW = b"show\n"


# Requests

def word_of(name):
    """The word of a call's command."""
    return b"ceiling" if name == "set_ceiling" else name.encode()


def request(call):
    """The request that makes a call. An operand may be a line already."""
    return command_line(word_of(call.name), call.numbers) + b"".join(map(cases.operand_line, call.operands))


def make(pool):
    return request(Call("make", (pool,)))


def admit(tenant, ceiling, clearance=TUPLE):
    return request(Call("admit", (tenant, ceiling), (clearance,)))


def ceiling(tenant, pages):
    return request(Call("set_ceiling", (tenant, pages)))


def asked(name, *numbers, label=LABEL):
    return request(tenant_call(name, *numbers, label=label))


def own_slots(tenant):
    return State().slots_of(tenant)


def admitting(state):
    """The requests that make a state with no segments."""
    records = ((tenant, state.tenants[tenant]) for tenant in admitted(state))
    return make(state.pool) + b"".join(admit(tenant, record.ceiling, record.clearance) for tenant, record in records)


# One tenant with one segment, on which a good request of each command is granted.
SMALL = make(100) + admit(0, 20) + asked("open", 0, 3)
PROGRAM = Program(
    COMMANDS,
    good=(make(100), SMALL + asked("look", 0, 0)),
    numbered=lambda size: filled(b"make ", b"0", b"100", size),
    with_first=lambda line: make(100) + admit(0, 20) + asked("open", 0, 3, label=line),
    with_last=lambda line: make(100) + admit(0, 20, line),
    numbers={b"make": (100,), b"admit": (1, 20), b"ceiling": (0, 30), b"open": (0, 1), b"size": (0, 0, 4),
             b"post": (0, 0, 1), b"look": (0, 0), b"close": (0, 0)})


# Document 01's example

def example():
    low = label(20)
    clearance = tuple_of(user=Range(low, low))
    yield case("pool 100, ceilings 60 and 40", make(100), admit(0, 60, clearance), admit(1, 40, clearance))
    yield case("a third tenant with 1 gets 12", admit(2, 1, clearance))
    yield case("tenant 0 opens 60 at place 0, then 1 page: 12", asked("open", 0, 60, label=low), asked("open", 0, 1, label=low))
    yield case("tenant 1 still opens 40, at place 8", asked("open", 1, 40, label=low))
    yield case("tenant 0 sizes place 0 to 59 and opens 1 at place 1", asked("size", 0, 0, 59, label=low),
               asked("open", 0, 1, label=low), SHOW)


# Refusals. Each part of a request is chosen from a list, and each choice has the numbers of the checks that it fails on the
# state below, so that a request fails what its parts do and gets the first of that.

ORDER = (22, 1, 13, 28, 16, 12)  # of a tenant's checks, and of the operator's
ABOVE, BELOW = label(40, 1, 2), label(20, 1)  # of LABEL
ROOM, OTHER, NO_PLACES, NO_PAGES, NEITHER, ABSENT = range(6)  # tenants, by what is left to them
USED_BY_ROOM, CEILING_OF_ROOM, POOL, PROMISED = 8, 20, 100, 73


def opening(tenant, *segments):
    return b"".join(asked("open", tenant, pages, label=at) for at, pages in segments)


def refusing_state():
    """The requests that make the state."""
    ceilings = {ROOM: CEILING_OF_ROOM, OTHER: 20, NO_PLACES: 20, NO_PAGES: 5, NEITHER: 8}
    assert sum(ceilings.values()) == PROMISED
    yield make(POOL)
    yield from (admit(tenant, pages) for tenant, pages in ceilings.items())
    yield opening(ROOM, (LABEL, 3), (BELOW, 4), (ABOVE, 1))
    yield opening(OTHER, (LABEL, 2), (ABOVE, 1))
    yield opening(NO_PAGES, (LABEL, 5))
    for tenant in (NO_PLACES, NEITHER):
        yield opening(tenant, *[(LABEL, 1)] * len(own_slots(tenant)))


NUMBER_8 = "tenant 8", len(TENANTS), {22}
CALLER = [("", ROOM, set()), ("tenant 5, who is not admitted", ABSENT, {22}), NUMBER_8]
SUBJECTS = [("", LABEL, set()), ("a label below the clearance", label(19, 1, 2), {1}),
            ("a category too many", label(30, 1, 2, 3), {1})]
BAD_PAGES = [("no page", 0, {22}), (f"{MOST_PAGES} pages", MOST_PAGES, {12}),
             (f"{MOST_PAGES + 1} pages", MOST_PAGES + 1, {22, 12})]
NUMBER_64 = "place 64", len(SLOTS), {22}
OWN, ANOTHER = own_slots(ROOM), own_slots(OTHER)
OWN_SLOT = [("", OWN[0], set()), ("a place at a label below", OWN[1], {13}), ("a place at a label above", OWN[2], {13}),
            ("an empty place", OWN[7], {13}), ("another's place at the same label", ANOTHER[0], {13}),
            ("another's empty place", SLOTS[-1], {13}), NUMBER_64]
SEEN_SLOT = [("", OWN[0], set()), ("", OWN[1], set()), ("", ANOTHER[0], set()), ("a place at a label above", OWN[2], {13}),
             ("an empty place", OWN[7], {13}), ("another's place at a label above", ANOTHER[1], {13}),
             ("another's empty place", SLOTS[-1], {13}), NUMBER_64]

# By call, what its numbers and its operand are chosen from, in their order.
PARTS = {
    "admit": [
        [("", ABSENT, set()), ("tenant 0 again", ROOM, {16}), NUMBER_8],
        [("", POOL - PROMISED, set()), ("ceiling 0", 0, {22}), ("a page too many", POOL - PROMISED + 1, {12}),
         (f"ceiling {LARGEST}", LARGEST, {12}), ("ceilings of 2^64 in all", NUMBERS_END - PROMISED, {12})],
        [("", TUPLE, set()), ("the empty tuple", Tuple(), {22}),
         ("an invalid tuple", unchecked_line(Tuple((RANGE, None, None))), {22})],
    ],
    "set_ceiling": [
        CALLER,
        [("", CEILING_OF_ROOM, set()), ("ceiling 0", 0, {22}), ("below the pages in use", USED_BY_ROOM - 1, {16}),
         ("a page too many", POOL - PROMISED + CEILING_OF_ROOM + 1, {12}), (f"ceiling {LARGEST}", LARGEST, {12}),
         ("ceilings of 2^64 in all", NUMBERS_END - PROMISED + CEILING_OF_ROOM, {12})],
    ],
    "open": [
        [*CALLER, ("no place left", NO_PLACES, {28}), ("no page left", NO_PAGES, {12}),
         ("neither place nor page left", NEITHER, {28, 12})],
        [("", 1, set()), *BAD_PAGES, ("pages over the ceiling", CEILING_OF_ROOM - USED_BY_ROOM + 1, {12})],
        SUBJECTS,
    ],
    "size": [
        CALLER, OWN_SLOT,
        [("", 3, set()), *BAD_PAGES, ("pages over the ceiling", CEILING_OF_ROOM - USED_BY_ROOM + 3 + 1, {12})],
        SUBJECTS[:2],
    ],
    "post": [CALLER, OWN_SLOT, [("", LARGEST, set())], SUBJECTS],
    "look": [CALLER, SEEN_SLOT, SUBJECTS],
    "close": [CALLER, OWN_SLOT, SUBJECTS],
}


def refusals():
    """What each refused choice is, its request and the number that it gets."""
    for name, parts in PARTS.items():
        for chosen in itertools.product(*parts):
            whats, values, failed = zip(*chosen)
            number = next((n for n in ORDER if n in set().union(*failed)), None)
            if number is not None:
                count = COMMANDS[word_of(name)].numbers
                yield (f"{name}, {', '.join(filter(None, whats))}: {number}",
                       request(Call(name, values[:count], values[count:])), number)


def each_refusal():
    yield from refusing_state()
    yield SHOW
    for what, refused, _ in refusals():
        yield case(what, refused)
    yield case("none of them has changed anything", SHOW)


# Boundaries

FAR = [2 ** 32, 2 ** 32 + 1, 2 ** 63, LARGEST]  # numbers of which the lower bits would often be good


def pools():
    for pool in (1, MOST_PAGES):
        yield case(f"a pool of {pool} pages", make(pool), admit(0, pool), asked("open", 0, pool), admit(1, 1), SHOW)
    yield case("a pool that is refused leaves the old table", make(50), admit(1, 20), asked("open", 1, 3),
               *map(make, (0, MOST_PAGES + 1, *FAR)), asked("open", 1, 4), SHOW)
    yield case("one that is made takes its place", make(30), SHOW, asked("look", 1, own_slots(1)[0]), admit(1, 30), SHOW)


def tenant_numbers():
    yield case("each tenant number", make(100), *(admit(tenant, 2) for tenant in TENANTS), SHOW)
    for tenant in (0, 7, 8, 9, 255, 256, 256 + 1, *FAR):
        yield case(f"tenant {tenant}", admit(tenant, 2), ceiling(tenant, 3), asked("open", tenant, 1),
                   asked("size", tenant, 0, 2), asked("post", tenant, 0, 1), asked("look", tenant, 0), asked("close", tenant, 0))
    yield SHOW


def slot_numbers():
    first, last = TENANTS[0], TENANTS[-1]
    yield case("two tenants with every place filled", make(100), *(admit(tenant, 20) for tenant in (first, last)),
               *(opening(tenant, *[(LABEL, 1)] * len(own_slots(tenant))) for tenant in (first, last)))
    for slot in (0, 7, 8, 55, 56, 63, 64, 65, 256, 256 + 56, *FAR):
        for tenant in (first, last):
            yield case(f"place {slot}, tenant {tenant}", asked("look", tenant, slot), asked("size", tenant, slot, 2),
                       asked("post", tenant, slot, slot), asked("look", tenant, slot), asked("close", tenant, slot),
                       asked("look", tenant, slot))
    yield SHOW


def page_numbers():
    yield case("one tenant with the largest pool", make(MOST_PAGES), admit(0, MOST_PAGES))
    for pages in (0, 1, 2, 256, MOST_PAGES - 1, MOST_PAGES, MOST_PAGES + 1, *FAR):
        yield case(f"{pages} pages", asked("open", 0, pages), asked("open", 0, 1), asked("size", 0, 0, pages),
                   asked("look", 0, 0), asked("close", 0, 1), asked("close", 0, 0))
    yield case("sizes up to the ceiling", asked("open", 0, 10), asked("open", 0, 20), asked("size", 0, 0, MOST_PAGES - 20),
               asked("size", 0, 1, 21), asked("size", 0, 0, MOST_PAGES - 21), asked("size", 0, 1, 21), asked("size", 0, 1, 22),
               asked("size", 0, 0, 1), asked("size", 0, 1, MOST_PAGES - 1), asked("open", 0, 1), SHOW)


def ceilings():
    yield case("a ceiling down to the pages in use, and up to what the pool has", make(100), admit(0, 30), admit(1, 40),
               asked("open", 0, 10), *(ceiling(0, pages) for pages in (9, 10, 11, 60, 61, 0, 60, *FAR)), SHOW)
    yield case("pages go by the ceiling and not by what is left of the pool", ceiling(0, 12), asked("open", 0, 3),
               asked("open", 0, 2), asked("open", 0, 1), ceiling(0, 13), asked("open", 0, 1), asked("open", 1, 41),
               asked("open", 1, 40), SHOW)
    yield case("nor do they go by what another uses", admit(2, 47), ceiling(2, 48), asked("open", 2, 47), SHOW)
    yield case("a ceiling is lowered once its pages are closed, and another tenant gets the rest", ceiling(2, 46),
               asked("close", 2, own_slots(2)[0]), ceiling(2, 1), admit(3, 47), admit(3, 46), SHOW)


def versions():
    yield SMALL
    for version in (0, 1, 255, 256, MOST_PAGES + 1, *FAR):
        yield case(f"edition {version}", asked("post", 0, 0, version), asked("look", 0, 0))
    yield case("a size keeps the edition", asked("size", 0, 0, 5), asked("look", 0, 0))
    yield case("edition 2^64 is no number, so that no operand is taken", command_line(b"post", (0, 0, NUMBERS_END)),
               asked("look", 0, 0))
    yield case("an open after a close has edition 0 again", asked("close", 0, 0), asked("open", 0, 1), asked("look", 0, 0))


def lowest_slots():
    slots = own_slots(1)
    yield case("places in rising order, then none", make(100), admit(0, 10), admit(1, 40),
               *[asked("open", 1, 5)] * (len(slots) + 1))
    yield case("the lowest empty one again", *(asked("close", 1, slots[at]) for at in (6, 2, 4)), *[asked("open", 1, 5)] * 4)
    yield case("pages are free at once", asked("open", 1, 1), asked("close", 1, slots[7]), asked("open", 1, 6),
               asked("open", 1, 5), asked("close", 1, slots[7]), asked("close", 1, slots[7]), SHOW)


def labels():
    """Looks by dominance, against each label; the others by equality, against some."""
    every = [*BORDER_LABELS, label(19), label(21), label(199), LABEL]
    yield case("two tenants cleared for all labels", make(100), *(admit(tenant, 20, FULL_TUPLE) for tenant in (0, 1)))
    for at in every:
        yield asked("open", 0, 1, label=at)
        yield from (asked("look", 1, 0, label=other) for other in every)
        for other in [other for other in every if other != at][::5] + [at]:
            yield asked("size", 0, 0, 2, label=other) + asked("post", 0, 0, 1, label=other) + asked("close", 0, 0, label=other)


def clearances():
    for number, clearance in enumerate(BORDER_TUPLES):
        yield case(f"clearance {number}", make(100), admit(0, 20, clearance))
        yield from (asked("open", 0, 1, label=label(hierarchy)) for hierarchy in BORDER_HIERARCHIES)
        yield SHOW


# States that are full

def greedy():
    """One tenant after all that there is, and another that goes on after each of its calls."""
    yield case("tenant 0 wants everything, tenant 1 goes on", make(1000), admit(0, 600), admit(1, 8))
    for pages in (1000, MOST_PAGES, 601, 600, 1, 400, LARGEST, 0):
        yield asked("open", 0, pages) + asked("open", 1, 1)
    yield case("tenant 0 takes its places too", asked("size", 0, 0, 1), asked("close", 1, own_slots(1)[3]))
    for _ in SLOTS[:12]:
        yield asked("open", 0, 2) + asked("open", 1, 1)
    yield case("and tries those of tenant 1")
    for slot in own_slots(1):
        yield asked("size", 0, slot, 500) + asked("post", 0, slot, 9) + asked("close", 0, slot) + asked("look", 1, slot)
    yield SHOW


def full():
    yield case("all tenants, and a ceiling that the pool does not have", make(99), *(admit(tenant, 12) for tenant in TENANTS), ceiling(7, 16), SHOW)
    yield case("all places, in turns")
    for at in range(len(own_slots(0)) + 1):
        yield from (asked("open", tenant, 1, label=(LABEL, BELOW)[(tenant + at) % 2]) for tenant in TENANTS)
    yield SHOW
    yield case("looks all over, with a label that dominates all, and with one that does not")
    for slot in SLOTS[::5]:
        yield asked("look", (slot + 3) % len(TENANTS), slot) + asked("look", (slot + 6) % len(TENANTS), slot, label=BELOW)
    yield case("each up to its ceiling", *(asked("size", tenant, own_slots(tenant)[0], pages, label=(LABEL, BELOW)[tenant % 2])
                                           for tenant in TENANTS for pages in (6, 5)), SHOW)
    yield case("all places closed, half of them at the wrong label first")
    for slot in SLOTS:
        owner = next(tenant for tenant in TENANTS if slot in own_slots(tenant))
        yield from (asked("close", owner, slot, label=at) for at in (LABEL, BELOW))
    yield SHOW


# The protocol

def between(requests):
    """Requests after those of a small state, and what is left of it."""
    return itertools.chain([SMALL], requests, [SHOW])


def every_kind():
    for tried in cases.every_kind(PROGRAM):
        yield SMALL + tried + SHOW


def misplaced_lines():
    good = asked("open", 0, 1)
    command, operand = good.splitlines(keepends=True)
    yield case("empty lines and comments between requests", b"\n\n#\n##\n#show\n# show\n\n", good)
    for what, line in (("an empty line", b"\n"), ("a comment", b"# comment\n")):
        yield case(f"{what} before the operand, which is then not taken", command, line, operand)
    yield case("one operand too many", good, operand)
    yield case("no operand: the next command is taken for it", command, SHOW)
    yield case("an operand for a command that has none", SHOW, operand, ceiling(0, 25), operand)
    yield from cases.no_commands()


UNKNOWN_WORDS = [*(command_line(word, [0] * command.numbers)[:-1] for word, command in mac_cmd.COMMANDS.items()),
                 b"check 0 0 0 2 0", b"set_ceiling 0 20", b"makemake 100", b"make_ 100", b"100", b"0 100", b"place 0",
                 b"ok", b"end", b"\0", b"\xff"]


def number_forms():
    for word in COMMANDS:
        yield from between(cases.number_forms(word, PROGRAM.numbers.get(word, ()), b"".join(PROGRAM.operands(word))))


# Random calls

def random_calls(rng, count):
    """The requests that make a state, and random calls on it."""
    state = admitting_state(rng)
    yield admitting(state)
    for number, call in enumerate(played(rng, state, count, any_call)):
        operands = (cases.damaged_at_times(rng, cases.operand_line(operand), 0.01) for operand in call.operands)
        yield request(Call(call.name, call.numbers, tuple(operands)))
        if number % 20 == 0:
            yield SHOW
    yield SHOW


def random_requests(rng):
    yield case(f"{RANDOM_STATES} tables with {RANDOM_CALLS} random calls each")
    for _ in range(RANDOM_STATES):
        yield from random_calls(rng, RANDOM_CALLS)


def two_runs(rng):
    """A state with no segments, and runs of two mixes of the same calls from it, with looks that get different answers."""
    while True:
        state = admitting_state(rng)
        calls = played(rng, state, MIXED_CALLS)
        runs = [isolation.run(state, mix) for mix in (calls, mixed(rng, calls))]
        if sum(one.answer != other.answer for one, other in isolation.pairs(*runs)) >= 3:
            return state, runs


def last_shown(requests):
    return answers(requests).rpartition(b"pool ")[2]


def mixes(rng):
    """Two mixes of the same calls, of which demand 3 holds."""
    for number in range(1, MIXES + 1):
        state, runs = two_runs(rng)
        assert not list(isolation.faults(state, *runs))
        one, other = [admitting(state) + b"".join(request(entry.call) for entry in run.entries) + SHOW for run in runs]
        assert last_shown(one) == last_shown(other)
        yield case(f"calls {number}, mixed in one way", one) + case(f"calls {number}, mixed in another way", other)


def before_make():
    """Every other command, good but for the state that the program starts with."""
    return b"".join(PROGRAM.request(word, *PROGRAM.operands(word)) for word in COMMANDS if word != b"make")


def longer_runs():
    yield "every command before a make that is granted", before_make() + make(0) + before_make() + SMALL + SHOW
    for seed in range(2, 5):
        rng = random.Random(seed)
        yield f"long random run {seed}", b"".join(b"".join(random_calls(rng, 400)) for _ in range(30))


SECTIONS = [
    ("Document 01's example", example),
    ("Each refusal, and which comes first", each_refusal),
    ("Pools", pools),
    ("Tenant numbers", tenant_numbers),
    ("Place numbers", slot_numbers),
    ("Pages", page_numbers),
    ("Ceilings", ceilings),
    ("Editions", versions),
    ("The lowest empty place", lowest_slots),
    ("Labels", labels),
    ("Clearances", clearances),
    ("Bad operands", lambda: between(cases.bad_operands(PROGRAM))),
    ("Operands of every kind", every_kind),
    ("Lines between requests and in the place of operands", lambda: between(misplaced_lines())),
    ("Bad command lines", lambda: between(cases.bad_words(PROGRAM, range(5), UNKNOWN_WORDS))),
    ("Numbers", number_forms),
    ("Lines about as long as the line buffer, and longer", lambda: between(cases.line_sizes(PROGRAM))),
    ("Odd bytes", lambda: between(cases.odd_bytes(PROGRAM))),
    ("A tenant that wants everything", greedy),
    ("Every place filled", full),
]


def after_the_worked_run(rng):
    at_random = itertools.chain(random_requests(rng), mixes(rng))
    return cases.stored(SECTIONS, at_random, asked("open", 0, 1)[:-1])
