# Tests of segments.py, isolation.py and segments_cmd.py: document 01's example, each sentence on the board, demand 3 on
# random states and mixes of calls, and that what the stored input of segments_cmd has as refused is refused for the
# reason that it is there for.
# Run: python3 tests/model/test_segments.py

import collections
import itertools
import random
import unittest
from dataclasses import replace

import isolation
import segments_cmd
import segments_cmd_cases
from rules import Range, Tuple, write
from samples import TUPLE, label, tuple_of
from segment_samples import any_call, any_state, mixed, played
from segments import MOST_PAGES, SLOTS, TENANTS, Call, Segment, State, Tenant, step, tenant_call

SEED = 1
TABLES = 2000
LOW, HIGH, SIDE = label(20), label(30, 1), label(30, 2)
CLEARED = tuple_of(user=Range(LOW, label(40, 1)))
UPSIDE_DOWN = Tuple((None, Range(label(40), LOW), None))


def done(state, *call, label=LOW):
    """A tenant call: the state that it leaves, and its grant, or "E" and the number of its refusal."""
    after, answer = step(state, tenant_call(*call, label=label))
    return after, answer.grant if answer.refusal is None else f"E{answer.refusal}"


def operated(state, name, *numbers, operands=()):
    """The same for a call of the operator, whose grant is "ok"."""
    after, answer = step(state, Call(name, numbers, operands))
    return after, "ok" if answer.refusal is None else f"E{answer.refusal}"


def admitting(pool, *ceilings, clearance=CLEARED):
    """A state with tenants 0, 1, .. that have these ceilings."""
    state = State(pool)
    for tenant, ceiling in enumerate(ceilings):
        state = state.with_tenant(tenant, Tenant(ceiling, clearance))
    return state


class CallsInOrder(unittest.TestCase):
    def tried(self, state, *steps):
        """Tries tenant calls in order, each with what it should answer; gives the state after them."""
        for call, expected in steps:
            state, answer = done(state, *call)
            self.assertEqual(answer, expected, call)
        return state


class Example(CallsInOrder):
    """Document 01, "Examples": the board. All labels (20,{}), in every clearance."""

    def test_example(self):
        state, _ = State.make(100)
        clearance = tuple_of(user=Range(LOW, LOW))
        for tenant, ceiling, expected in ((0, 60, "ok"), (1, 40, "ok"), (2, 1, "E12")):
            state, answer = operated(state, "admit", tenant, ceiling, operands=(clearance,))
            self.assertEqual(answer, expected)
        self.tried(state, (("open", 0, 60), 0), (("open", 0, 1), "E12"), (("open", 1, 40), 8),
                    (("size", 0, 0, 59), None), (("open", 0, 1), 1))


def sound_state():
    """Tenant 0 has 7 of 10 pages at two slots, tenant 1 has 5 of 5, tenant 7 nothing of 1."""
    state = admitting(16, 10, 5).with_tenant(7, Tenant(1, CLEARED))
    for slot, segment in ((0, Segment(LOW, 3, 9)), (2, Segment(HIGH, 4, 0)), (8, Segment(HIGH, 5, 2 ** 64 - 1))):
        state = state.with_segment(slot, segment)
    return state


SOUND = sound_state()
EVERY_CALL = [
    Call("admit", (2, 1), (CLEARED,)), Call("set_ceiling", (0, 10)), tenant_call("open", 0, 1, label=LOW),
    tenant_call("size", 0, 0, 1, label=LOW), tenant_call("post", 0, 0, 1, label=LOW), tenant_call("look", 0, 0, label=LOW),
    tenant_call("close", 0, 0, label=LOW),
]


def changed_tenant(tenant, **changes):
    return SOUND.with_tenant(tenant, replace(SOUND.tenants[tenant], **changes))


def changed_segment(slot, **changes):
    return SOUND.with_segment(slot, replace(SOUND.segments[slot], **changes))


UNSOUND = {
    "zeros": State(),
    "no pages in the pool": replace(SOUND, pool=0),
    "too many pages in the pool": replace(SOUND, pool=MOST_PAGES + 1),
    "ceiling 0": changed_tenant(7, ceiling=0),
    "ceilings over the pool": changed_tenant(7, ceiling=2),
    "an empty clearance": changed_tenant(7, clearance=Tuple()),
    "an invalid clearance": changed_tenant(7, clearance=UPSIDE_DOWN),
    "a label outside the clearance": changed_segment(0, label=SIDE),
    "an invalid label": changed_segment(0, label=label(200)),
    "no pages": changed_segment(0, pages=0),
    "an edition of more than 64 bits": changed_segment(0, version=2 ** 64),
    "pages over the ceiling": changed_segment(8, pages=6),
    "pages over the ceiling, at two places": changed_segment(0, pages=7),
    "a place of a tenant who is not admitted": SOUND.with_segment(SOUND.slots_of(5)[0], Segment(LOW, 1, 0)),
}


class Soundness(unittest.TestCase):
    """Document 01, "The board": what a sound board is, and that an unsound one is refused before all else."""

    def test_sound(self):
        for state in (SOUND, State(1), State(MOST_PAGES), changed_segment(0, pages=6),
                      changed_segment(0, version=0), changed_segment(0, label=label(40, 1))):
            self.assertTrue(state.sound())
        for what, state in UNSOUND.items():
            self.assertFalse(state.sound(), what)

    def test_refused(self):
        for call in EVERY_CALL:
            self.assertIn(step(SOUND, call)[1].refusal, {None, 12})
            for what, state in UNSOUND.items():
                self.assertEqual(step(state, call), (state, (22, None)), (what, call))

    def test_before_all_else(self):
        """22 for an unsound state also where a call would get another number."""
        state = UNSOUND["ceiling 0"]
        self.assertEqual(operated(state, "admit", 0, 1, operands=(CLEARED,))[1], "E22")
        self.assertEqual(operated(state, "set_ceiling", 0, 1)[1], "E22")
        for call in (("open", 0, 9), ("size", 0, 0, 9), ("post", 0, 9, 1), ("look", 0, 9), ("close", 0, 9)):
            self.assertEqual(done(state, *call)[1], "E22")

    def test_ownership(self):
        """Tenant t owns places 8t to 8t+7."""
        self.assertEqual([slot for tenant in TENANTS for slot in SOUND.slots_of(tenant)], list(range(64)))
        for tenant in TENANTS:
            self.assertEqual((SOUND.slots_of(tenant)[0], SOUND.slots_of(tenant)[-1]), (8 * tenant, 8 * tenant + 7))
        for tenant in (8, 2 ** 32, 2 ** 64 - 1):
            self.assertFalse(set(SOUND.slots_of(tenant)) & set(SLOTS))


class Grants(CallsInOrder):
    """Document 01, "The board": what each granted call changes and answers."""

    def test_operator(self):
        roomy = replace(SOUND, pool=20)
        for state, call, after in (
                (SOUND, Call("make", (5,)), State(5)),
                (roomy, Call("admit", (5, 4), (TUPLE,)), roomy.with_tenant(5, Tenant(4, TUPLE))),
                (SOUND, Call("set_ceiling", (0, 7)), changed_tenant(0, ceiling=7))):
            self.assertEqual(step(state, call), (after, (None, None)))

    def test_tenant(self):
        for call, at, after, answer in (
                (("open", 0, 3), HIGH, SOUND.with_segment(1, Segment(HIGH, 3, 0)), 1),
                (("size", 0, 2, 7), HIGH, changed_segment(2, pages=7), None),
                (("post", 0, 0, 2 ** 64 - 1), LOW, changed_segment(0, version=2 ** 64 - 1), None),
                (("look", 0, 8), HIGH, SOUND, Segment(HIGH, 5, 2 ** 64 - 1)),
                (("look", 7, 0), HIGH, SOUND, Segment(LOW, 3, 9)),
                (("close", 1, 8), HIGH, SOUND.with_segment(8, None), None)):
            self.assertEqual(done(SOUND, *call, label=at), (after, answer))

    def test_places(self):
        """The lowest empty place of its own; eight of them, then 28, before 12."""
        state = admitting(100, 8, 8)
        state = self.tried(state, *((("open", 1, 1), 8 + at) for at in range(8)), (("open", 1, 1), "E28"), (("open", 0, 1), 0))
        self.tried(state, (("close", 1, 11), None), (("close", 1, 9), None), (("open", 1, 3), "E12"), (("open", 1, 1), 9),
                    (("open", 1, 1), 11), (("open", 1, 1), "E28"))

    def test_pages(self):
        """Against the ceiling, whatever is left of the pool."""
        state = admitting(MOST_PAGES, 10, MOST_PAGES - 10)
        self.tried(state, (("open", 0, 11), "E12"), (("open", 0, 10), 0), (("open", 0, 1), "E12"), (("size", 0, 0, 11), "E12"),
                    (("size", 0, 0, 10), None), (("size", 0, 0, 9), None), (("open", 0, 1), 1), (("size", 0, 0, 10), "E12"),
                    (("open", 1, MOST_PAGES - 10), 8))

    def test_bounds_of_pools(self):
        for pool, expected in ((0, "E22"), (1, "ok"), (MOST_PAGES, "ok"), (MOST_PAGES + 1, "E22")):
            self.assertEqual(operated(State(), "make", pool)[1], expected)


class RandomCalls(unittest.TestCase):
    """Document 01, "The board", on random states and calls."""

    NUMBERS = {"make": {22}, "admit": {None, 22, 16, 12}, "set_ceiling": {None, 22, 16, 12},
               "open": {None, 22, 1, 28, 12}, "size": {None, 22, 1, 13, 12}, "post": {None, 22, 1, 13},
               "look": {None, 22, 1, 13}, "close": {None, 22, 1, 13}}
    POSSIBLE = {(name, number) for name, numbers in NUMBERS.items() for number in numbers}

    def setUp(self):
        self.rng = random.Random(SEED)

    def steps(self, count):
        """States, calls on them, and what these leave and answer."""
        for _ in range(count):
            state = any_state(self.rng)
            run = isolation.run(state, played(self.rng, state, 12, any_call))
            states = [*(entry.state for entry in run.entries), run.last]
            yield from ((entry, after) for entry, after in zip(run.entries, states[1:]))

    def test_sound_and_no_more_changed(self):
        """Every call leaves a sound state. It changes one slot of the caller's own, or one tenant, or nothing."""
        answers = set()
        for (call, state, answer), after in self.steps(300):
            self.assertTrue(after.sound())
            slots = [slot for slot in SLOTS if state.segments[slot] != after.segments[slot]]
            tenants = [tenant for tenant in TENANTS if state.tenants[tenant] != after.tenants[tenant]]
            self.assertEqual(state.pool, after.pool)
            self.assertIn(slots, [[], *([slot] for slot in state.slots_of(call.tenant))])
            self.assertIn(tenants, [[], [call.tenant]])
            if answer.refusal is not None or call.name == "look":
                self.assertEqual(state, after)
            self.assertFalse(slots if call.name in ("admit", "set_ceiling", "make") else tenants)
            answers.add((call.name, answer.refusal))
        self.assertEqual(answers, self.POSSIBLE)


def compared(one, other):
    """What is told apart among looks at others' slots: whether the answers are equal, the refusals that there are, and
    whether the slot held the same."""
    refusals = tuple(sorted({one.answer.refusal, other.answer.refusal} - {None}))
    return one.answer == other.answer, refusals, 22 in refusals or isolation.held(one) == isolation.held(other)


class Demand3(unittest.TestCase):
    """Document 00, demand 3, on random sound states and mixes of random calls."""

    def test_mixes(self):
        rng = random.Random(SEED)
        looks = set()
        for _ in range(TABLES):
            state = any_state(rng)
            calls = played(rng, state, rng.randint(2, 12))
            runs = [isolation.run(state, mix) for mix in (calls, mixed(rng, calls))]
            self.assertEqual(list(isolation.faults(state, *runs)), [])
            looks.update(compared(*pair) for pair in isolation.pairs(*runs) if isolation.looks_at_another(pair[0]))
        self.assertEqual(set(looks), {
            (False, (), False), (False, (13,), False), (True, (13,), False), (True, (13,), True), (True, (), True),
            (True, (1,), False), (True, (1,), True), (True, (22,), True)})

    def test_every_mix(self):
        """All mixes of some calls of three tenants, one of whom is not admitted."""
        calls = [
            tenant_call("open", 0, 2, label=HIGH), tenant_call("close", 0, 0, label=LOW), tenant_call("look", 0, 8, label=HIGH),
            tenant_call("post", 1, 8, 1, label=HIGH), tenant_call("look", 1, 0, label=LOW),
            tenant_call("close", 1, 8, label=HIGH), tenant_call("look", 5, 0, label=LOW)]
        own = [call.tenant for call in calls]
        first, differing = isolation.run(SOUND, calls), 0
        for order in sorted(set(itertools.permutations(own))):
            left = {tenant: iter([call for call in calls if call.tenant == tenant]) for tenant in own}
            run = isolation.run(SOUND, [next(left[tenant]) for tenant in order])
            self.assertEqual(list(isolation.faults(SOUND, first, run)), [])
            differing += any(one.answer != other.answer for one, other in isolation.pairs(first, run))
        self.assertGreater(differing, 10)

    def test_other_calls(self):
        """Lists that are no mixes of the same calls are not compared."""
        one, other = [isolation.run(SOUND, [call]) for call in EVERY_CALL[-2:]]
        with self.assertRaises(AssertionError):
            list(isolation.faults(SOUND, one, other))


class Lines(unittest.TestCase):
    """docs/PROGRAMS.md on the lines of segments_cmd."""

    SMALL = b"make 100\nadmit 1 50\n" + write(CLEARED)

    def answers(self, *lines):
        return segments_cmd.answers(b"".join(lines)).decode().splitlines()

    def test_before_make(self):
        """Every command but make is 22 on the state at the start, and a make that is refused leaves it."""
        others = segments_cmd_cases.before_make()
        self.assertEqual(self.answers(others, b"make 0\n", others, b"make 1\n"), ["error 22"] * 17 + ["ok"])

    def test_make(self):
        shown = ["pool 100", "tenant 1 ceiling 50 pages 0", "end"]
        self.assertEqual(self.answers(self.SMALL, b"make 0\nmake 1048577\nmake -1\nshow\n"),
                         ["ok", "ok", *["error 22"] * 3, *shown])
        self.assertEqual(self.answers(self.SMALL, b"make 7\nshow\n"), ["ok", "ok", "ok", "pool 7", "end"])

    def test_answers(self):
        high, low = write(HIGH), write(LOW)
        self.assertEqual(
            self.answers(self.SMALL, b"open 1 3\n", high, b"open 1 2\n", low, b"post 1 8 7\n", high, b"look 1 8\n", high,
                         b"look 1 9\n", high, b"size 1 9 4\n", low, b"close 1 8\n", low, b"ceiling 1 9\n", b"show\n"),
            ["ok", "ok", "place 8", "place 9", "ok", "shown 3 7", high.decode().rstrip(), "shown 2 0",
             low.decode().rstrip(), "ok", "error 13", "ok", "pool 100", "tenant 1 ceiling 9 pages 7", "place 8 pages 3 edition 7 hierarchy 30 categories 1",
             "place 9 pages 4 edition 0 hierarchy 20 categories -", "end"])

    def test_categories(self):
        """In rising order."""
        self.assertEqual(segments_cmd.place_line(63, Segment(label(199, 255, 9, 64, 10), 1, 2)),
                         "place 63 pages 1 edition 2 hierarchy 199 categories 9 10 64 255")


class StoredCases(unittest.TestCase):
    """What the stored input takes for refused is so, and by the check that it says."""

    def test_refusals(self):
        start = b"".join(segments_cmd_cases.refusing_state())
        made = segments_cmd.answers(start).splitlines()
        self.assertFalse([line for line in made if line.startswith(b"error")])
        refusals = list(segments_cmd_cases.refusals())
        answers = segments_cmd.answers(start + b"".join(request for _, request, _ in refusals)).splitlines()
        self.assertEqual(len(answers), len(made) + len(refusals))
        for (what, _, number), answer in zip(refusals, answers[len(made):]):
            self.assertEqual(answer, b"error %d" % number, what)

    def test_random_requests(self):
        """Each number is among them, and many calls are granted."""
        requests = b"".join(segments_cmd_cases.random_requests(random.Random(SEED)))
        lines = segments_cmd.answers(requests).splitlines()
        counted = collections.Counter(line for line in lines if line.startswith(b"error"))
        self.assertEqual(set(counted), {b"error %d" % number for number in (1, 12, 13, 16, 22, 28)})
        calls = segments_cmd_cases.RANDOM_STATES * segments_cmd_cases.RANDOM_CALLS
        self.assertLess(sum(counted.values()), 0.7 * calls)


if __name__ == "__main__":
    unittest.main()
