# Tests of rules.py and monitor.py: document 01's examples, the laws of hex lines on random contents, each sentence on
# the monitor and its caller, and that what the stored inputs have as faulty has the fault that it is there for.
# Run: python3 tests/model/test_rules.py

import collections
import random
import unittest

import mac_cmd_cases
import monitor_cmd
import monitor_cmd_cases
import protocol
import rules
import samples
from monitor import (DIRECTORY, FIFO, FILE, FILE_KINDS, MESSAGE_QUEUE, OTHER, PROCESS, READ_OVERRIDE, REGULAR, RELABEL,
                     SEMAPHORE, SHARED_MEMORY, TYPES, WRITE_OVERRIDE, Credentials, Object, Request, decide)
from rules import CATEGORIES, Alias, Caller, Label, Range, Refusal, Tuple, read, write
from samples import ALIAS, FULL_TUPLE, RANGE, TOP, WORD_BORDERS, label

SEED = 1
ROUNDS = 300


def random_contents(rng):
    """ROUNDS contents of each kind."""
    return (sample(rng) for sample in samples.ANY.values() for _ in range(ROUNDS))


def accepted(line):
    try:
        read(line)
    except Refusal:
        return False
    return True


class RulesTest(unittest.TestCase):
    def refused(self, number, call, *arguments):
        with self.assertRaises(Refusal) as caught:
            call(*arguments)
        self.assertEqual(caught.exception.number, number)
        return caught.exception.detail


class Examples(RulesTest):
    """Document 01, "Examples"."""

    def test_dominance(self):
        self.assertTrue(label(30, 1, 2).dominates(label(20, 2)))
        self.assertFalse(label(20, 2).dominates(label(30)))
        self.assertFalse(label(30).dominates(label(20, 2)))

    def test_bounds(self):
        self.assertEqual(label(20, 1).upper_bound(label(30, 2)), label(30, 1, 2))
        self.assertEqual(label(20, 1).lower_bound(label(30, 2)), label(20))

    def test_meet(self):
        one, other = Range(label(20), label(40, 1, 2)), Range(label(30, 2), label(50, 2, 3))
        self.assertEqual(one.meet(other), Range(label(30, 2), label(40, 2)))

    def test_no_common_label(self):
        self.refused(33, Range(label(20, 1), label(40, 1)).meet, Range(label(20), label(40, 2)))

    def test_split(self):
        virus, user = Range(label(10), label(19, 4)), Range(label(20), label(30, 4))
        self.assertEqual(Range(label(10), label(30, 4)).split(), Tuple((virus, user, None)))

    def test_hierarchies(self):
        self.assertTrue(label(199).valid())
        self.assertFalse(label(200).valid())

    def test_listing(self):
        """Document 01, "Labels and regions": categories are listed in rising order. Document 02, 2026-02: from one to the next."""
        for categories in ((), (0,), (255,), (7, 255), (63, 64, 200), WORD_BORDERS, range(256)):
            held, listed, start = label(20, *categories), [], 0
            while (found := held.next_category(start)) is not None:
                listed.append(found)
                start = found + 1
            self.assertEqual(listed, sorted(categories))
            for start in (256, 2 ** 64 - 1):
                self.assertIsNone(held.next_category(start))

    def test_lines(self):
        for line, contents in ((b"0300fd\n", Tuple()),
                               (b"040114036c6f770092\n", Alias(rules.OF_HIERARCHY, 20, b"low")),
                               (b"04020704656173740165dc\n", Alias(rules.OF_CATEGORY, 7, b"east", b"e"))):
            self.assertEqual(read(line), contents)
            self.assertEqual(write(contents), line)

    def test_longest_line(self):
        """Document 01, "Hex lines": a full tuple has 402 digits."""
        self.assertEqual(len(write(FULL_TUPLE)), 402 + len(b"\n"))


class Refusals(RulesTest):
    """Document 01: "Labels and regions" on invalid arguments, "Hex lines" on what the writer refuses."""

    def test_invalid_arguments(self):
        good, bad = label(20), label(200)
        upside_down = Range(label(30), label(20))
        for call in (good.dominates, good.equal, good.upper_bound, good.lower_bound, RANGE.contains, Tuple().contains):
            self.refused(22, call, bad)
        for call in (bad.category_count, bad.region, upside_down.split, Tuple((RANGE, None, None)).empty):
            self.refused(22, call)
        self.refused(22, bad.next_category, 0)
        self.refused(22, RANGE.meet, upside_down)
        self.refused(22, Tuple().meet, Tuple((None, upside_down, None)))
        self.refused(22, Tuple().within, Tuple((None, upside_down, None)))

    def test_writer(self):
        line = write(ALIAS)
        self.assertEqual(write(ALIAS, len(line)), line)
        self.assertEqual(self.refused(7, write, ALIAS, len(line) - 1), len(line))
        self.refused(22, write, label(200), 0)


class Sets(unittest.TestCase):
    """Meets, splits and within against membership, which is a rule of its own, on random contents and labels."""

    def setUp(self):
        self.rng = random.Random(SEED)

    def some_labels(self, *bounds):
        """Labels at the ends of the ranges and tuples, bounds of these, and labels anywhere."""
        ranges = [r for b in bounds for r in (b.ranges if isinstance(b, Tuple) else [b]) if r is not None]
        ends = {end for r in ranges for end in (r.low, r.high)}
        between = {bound(one, other) for one in ends for other in ends for bound in (Label.upper_bound, Label.lower_bound)}
        return [*between, *(samples.any_label(self.rng) for _ in range(10))]

    def pairs(self, kind):
        for _ in range(ROUNDS):
            common = samples.any_label(self.rng)
            yield samples.near(self.rng, kind, common), samples.near(self.rng, kind, common)

    def test_meet(self):
        for kind in (Range, Tuple):
            refusals = 0
            for one, other in self.pairs(kind):
                both = [l for l in self.some_labels(one, other) if one.contains(l) and other.contains(l)]
                try:
                    met = one.meet(other)
                except Refusal as refusal:
                    refusals += 1
                    self.assertEqual((refusal.number, both), (33, []))
                else:
                    self.assertEqual([l for l in self.some_labels(one, other, met) if met.contains(l)
                                      and not (one.contains(l) and other.contains(l))], [])
                    self.assertTrue(all(met.contains(l) for l in both))
            self.assertEqual(refusals > 0, kind is Range)

    def test_split(self):
        for one, _ in self.pairs(Range):
            whole = one.split()
            for l in self.some_labels(one, whole):
                self.assertEqual(whole.contains(l), one.contains(l))

    def test_within(self):
        answers = set()
        for one, other in self.pairs(Tuple):
            outside = [l for l in self.some_labels(one, other) if one.contains(l) and not other.contains(l)]
            self.assertEqual(one.within(other), outside == [])
            answers.add(one.within(other))
        self.assertEqual(answers, {True, False})


class Lines(unittest.TestCase):
    """Document 01, "Hex lines", as laws on random contents."""

    def setUp(self):
        self.rng = random.Random(SEED)

    def test_written_reads_back(self):
        for contents in random_contents(self.rng):
            self.assertEqual(read(write(contents)), contents)

    def test_accepted_is_written(self):
        """Damaged lines with the sum made right are often good lines of other contents."""
        taken = {}
        for contents in random_contents(self.rng):
            line = samples.resealed(samples.digit_changed(self.rng, write(contents)))
            if accepted(line):
                self.assertEqual(write(read(line)), line)
                taken[type(contents)] = taken.get(type(contents), 0) + 1
        self.assertEqual(set(taken), set(rules.KINDS.values()))

    def test_changed_digit(self):
        for contents in random_contents(self.rng):
            self.assertFalse(accepted(samples.digit_changed(self.rng, write(contents))))


# The monitor. Intents are written as document 01 numbers their bits.

WRITE, READ, EXECUTE, SEARCH, GET, SET = 1, 2, 4, 8, 16, 32
SUBJECT = label(30, 1)
SUBJECT_RANGE = Range(label(20), label(40, 1, 2))
CONTAINS = Tuple((None, Range(label(20), label(40, 1)), None))
CONTAINS_NOT = Tuple((Range(label(0), label(19, 1)), Range(label(20), label(29, 1)), None))
UPSIDE_DOWN = Range(label(40), label(20))
SEES_ALL = Caller(TOP)


def outcome(intents, attribute_type=0, privileges=(), type=FILE, kind=REGULAR, subject=SUBJECT, bounds=SUBJECT_RANGE,
            label=SUBJECT, tuple=None, caller=SEES_ALL):
    """The monitor's answer: "0" or "1" for a grant, "E" and the number for a refusal. Where nothing else is said, the
    object is a regular file at the subject's label, the subject has no privilege, and the caller sees every label."""
    credentials = Credentials(subject, bounds, frozenset(privileges))
    try:
        return str(decide(Request(caller, credentials, Object(type, kind, label, tuple), intents, attribute_type)))
    except Refusal as refusal:
        return f"E{refusal.number}"


class MonitorInputs(unittest.TestCase):
    """Document 01, "The monitor": what credentials, objects, intents and attribute types are, and step 1."""

    def test_credentials(self):
        """A label inside a valid range."""
        for hierarchy, expected in ((19, "E22"), (20, "0"), (40, "0"), (41, "E22")):
            self.assertEqual(outcome(READ, subject=label(hierarchy), label=label(hierarchy)), expected)
        self.assertEqual(outcome(READ, subject=label(30, 3), label=label(30, 3)), "E22")
        self.assertEqual(outcome(READ, bounds=UPSIDE_DOWN), "E22")
        self.assertEqual(outcome(READ, subject=label(200), bounds=Range(label(20), label(200))), "E22")

    def test_label_tuple_or_both(self):
        self.assertEqual(outcome(READ, label=SUBJECT, tuple=None), "0")
        self.assertEqual(outcome(READ, label=None, tuple=CONTAINS), "0")
        self.assertEqual(outcome(READ, label=SUBJECT, tuple=CONTAINS), "0")
        self.assertEqual(outcome(READ, label=None, tuple=None), "E22")

    def test_each_that_is_there_must_be_valid(self):
        for bad_tuple in (Tuple((None, UPSIDE_DOWN, None)), Tuple((SUBJECT_RANGE, None, None))):
            self.assertEqual(outcome(READ, label=None, tuple=bad_tuple), "E22")
            self.assertEqual(outcome(READ, label=SUBJECT, tuple=bad_tuple), "E22")
        self.assertEqual(outcome(READ, label=label(200), tuple=None), "E22")
        self.assertEqual(outcome(READ, label=label(200), tuple=CONTAINS), "E22")

    def test_file_kind_counts_only_for_files(self):
        for kind in (REGULAR, DIRECTORY, OTHER):
            for object_type in (FIFO, PROCESS, MESSAGE_QUEUE, SHARED_MEMORY, SEMAPHORE):
                self.assertEqual(outcome(READ, type=object_type, kind=kind), "0")
                self.assertEqual(outcome(EXECUTE, type=object_type, kind=kind), "E22")
                self.assertEqual(outcome(SEARCH, type=object_type, kind=kind), "E22")

    def test_execute_and_search(self):
        for intents, regular, directory, other in ((EXECUTE, "0", "E22", "E22"), (SEARCH, "E22", "0", "E22"),
                                                   (EXECUTE | SEARCH, "E22", "E22", "E22")):
            self.assertEqual(outcome(intents, kind=REGULAR), regular)
            self.assertEqual(outcome(intents, kind=DIRECTORY), directory)
            self.assertEqual(outcome(intents, kind=OTHER), other)

    def test_attribute_types(self):
        """They count only with an attribute intent."""
        for attribute_type in (0, 3, 2 ** 32 + 1, 2 ** 64 + 1):
            self.assertEqual(outcome(GET, attribute_type), "E22")
            self.assertEqual(outcome(SET, attribute_type, [RELABEL]), "E22")
            self.assertEqual(outcome(READ | GET, attribute_type), "E22")
            self.assertEqual(outcome(READ, attribute_type), "0")
        for attribute_type in (1, 2):
            self.assertEqual(outcome(GET, attribute_type), "0")
            self.assertEqual(outcome(SET, attribute_type, [RELABEL]), "1")
            self.assertEqual(outcome(READ, attribute_type), "0")

    def test_intents(self):
        """0 and above 63 are refused, even where the lower bits would be good. 63 has execute with search."""
        for intents in (0, 63, 64, 64 | READ, 2 ** 32 | READ, 2 ** 63 | READ, 2 ** 64 | READ):
            self.assertEqual(outcome(intents, 1, [RELABEL]), "E22")
        self.assertEqual(outcome(63 - SEARCH, 1, [RELABEL]), "1")
        self.assertEqual(outcome(63 - EXECUTE, 1, [RELABEL], kind=DIRECTORY), "1")


class MonitorDecisions(unittest.TestCase):
    """Document 01, "The monitor": steps 2, with request 2026-03, and 3, and what is granted."""

    OBJECTS = {
        "above": dict(label=label(31, 1)),
        "equal": dict(label=label(30, 1)),
        "below": dict(label=label(30)),
        "beside": dict(label=label(29, 2)),
        "inside": dict(label=None, tuple=CONTAINS),
        "outside": dict(label=None, tuple=CONTAINS_NOT),
        "empty": dict(label=None, tuple=Tuple()),
    }
    OVERRIDES = ((), (READ_OVERRIDE,), (WRITE_OVERRIDE,), (READ_OVERRIDE, WRITE_OVERRIDE))
    DESTRUCTIVE_READS = (FIFO, MESSAGE_QUEUE)
    OTHER_TYPES = (FILE, PROCESS, SHARED_MEMORY, SEMAPHORE)

    # By object, the answers with no override, with read override, with write override and with both.
    BY_DOMINANCE = {
        "above": "E13 1 E13 1", "equal": "0 0 0 0", "below": "0 0 0 0", "beside": "E13 1 E13 1",
        "inside": "0 0 0 0", "outside": "E13 1 E13 1", "empty": "E13 1 E13 1",
    }
    BY_EQUALITY = {
        "above": "E13 E13 1 1", "equal": "0 0 0 0", "below": "E13 E13 1 1", "beside": "E13 E13 1 1",
        "inside": "0 0 0 0", "outside": "E13 E13 1 1", "empty": "E13 E13 1 1",
    }
    BY_BOTH = {
        "above": "E13 E13 E13 1", "equal": "0 0 0 0", "below": "E13 E13 1 1", "beside": "E13 E13 E13 1",
        "inside": "0 0 0 0", "outside": "E13 E13 E13 1", "empty": "E13 E13 E13 1",
    }
    SET_WITH_RELABEL = {
        "above": "E13 E13 1 1", "equal": "1 1 1 1", "below": "E13 E13 1 1", "beside": "E13 E13 1 1",
        "inside": "1 1 1 1", "outside": "E13 E13 1 1", "empty": "E13 E13 1 1",
    }
    SET_WITHOUT_RELABEL = {
        "above": "E13 E13 E1 E1", "equal": "E1 E1 E1 E1", "below": "E13 E13 E1 E1", "beside": "E13 E13 E1 E1",
        "inside": "E1 E1 E1 E1", "outside": "E13 E13 E1 E1", "empty": "E13 E13 E1 E1",
    }

    def decided(self, table, intents, more=(), **asked):
        for where, expected in table.items():
            answers = [outcome(intents, 1, (*overrides, *more), **self.OBJECTS[where], **asked) for overrides in self.OVERRIDES]
            self.assertEqual(" ".join(answers), expected, (where, intents, more, asked))

    def test_read_execute_search_get(self):
        for object_type in self.OTHER_TYPES:
            self.decided(self.BY_DOMINANCE, READ, type=object_type)
        for object_type in TYPES:
            self.decided(self.BY_DOMINANCE, GET, type=object_type)
        self.decided(self.BY_DOMINANCE, EXECUTE, kind=REGULAR)
        self.decided(self.BY_DOMINANCE, SEARCH, kind=DIRECTORY)

    def test_write(self):
        for object_type in TYPES:
            self.decided(self.BY_EQUALITY, WRITE, type=object_type)

    def test_several_intents(self):
        """13 if any is denied."""
        self.decided(self.BY_BOTH, WRITE | READ)
        self.decided(self.BY_BOTH, WRITE | GET)
        self.decided(self.BY_DOMINANCE, READ | GET)

    def test_destructive_reads(self):
        """A read and a write together, whatever kind of file is named and whether the write is asked for or not: of a fifo,
        and by request 2026-03 of a message queue. Their other intents are as those of any type."""
        for object_type in self.DESTRUCTIVE_READS:
            for kind in FILE_KINDS:
                self.decided(self.BY_BOTH, READ, type=object_type, kind=kind)
            self.decided(self.BY_BOTH, WRITE | READ, type=object_type)
            self.decided(self.BY_BOTH, READ | GET, type=object_type)

    def test_receiving(self):
        """Request 2026-03's examples, and the overrides: a label that dominates and isn't equal passes by the write override
        alone, one that does neither by both, and so does one that a tuple alone doesn't contain."""
        low, high, bounds = label(20), label(30), Range(label(20), label(40, 1))
        contains, contains_not = (Tuple((None, Range(low, label(h)), None)) for h in (40, 25))
        for subject, queue, expected in ((high, dict(label=low), "E13 E13 1 1"), (high, dict(label=high), "0 0 0 0"),
                                         (low, dict(label=high), "E13 E13 E13 1"),
                                         (label(30, 1), dict(label=label(40)), "E13 E13 E13 1"),
                                         (high, dict(label=None, tuple=contains), "0 0 0 0"),
                                         (high, dict(label=None, tuple=contains_not), "E13 E13 E13 1"),
                                         (high, dict(label=None, tuple=Tuple()), "E13 E13 E13 1")):
            answers = [outcome(READ, 0, overrides, MESSAGE_QUEUE, subject=subject, bounds=bounds, **queue)
                       for overrides in self.OVERRIDES]
            self.assertEqual(" ".join(answers), expected, (subject, queue))

    def test_set(self):
        """1 if set attribute is asked without relabel, after 13."""
        for object_type in TYPES:
            self.decided(self.SET_WITH_RELABEL, SET, [RELABEL], type=object_type)
            self.decided(self.SET_WITHOUT_RELABEL, SET, type=object_type)

    def test_relabel_is_no_override(self):
        self.decided(self.BY_DOMINANCE, READ, [RELABEL])
        self.decided(self.BY_EQUALITY, WRITE, [RELABEL])
        for object_type in self.DESTRUCTIVE_READS:
            self.decided(self.BY_BOTH, READ, [RELABEL], type=object_type)

    def test_label_governs(self):
        """The tuple neither widens what the label denies nor narrows what it allows."""
        for beside in (CONTAINS, CONTAINS_NOT, Tuple()):
            for intents, at, expected in ((READ, label(31, 1), "E13"), (READ, label(30), "0"), (WRITE, label(30), "E13"),
                                          (WRITE, SUBJECT, "0")):
                self.assertEqual(outcome(intents, label=at, tuple=beside), expected)
            self.assertEqual(outcome(READ, privileges=[READ_OVERRIDE], label=label(30), tuple=beside), "0")
            self.assertEqual(outcome(READ, privileges=[READ_OVERRIDE], label=label(31, 1), tuple=beside), "1")

    def test_order(self):
        """A bad request that is also denied and without relabel, then a denied one without relabel, then that alone."""
        for attribute_type, at, expected in ((3, label(31, 1), "E22"), (1, label(31, 1), "E13"), (3, SUBJECT, "E22"), (1, SUBJECT, "E1")):
            self.assertEqual(outcome(SET, attribute_type, label=at), expected)
        self.assertEqual(outcome(READ | SET, 1, [WRITE_OVERRIDE], label=label(31, 1)), "E13")
        self.assertEqual(outcome(READ | SET, 1, [READ_OVERRIDE, RELABEL], label=label(31, 1)), "E13")
        self.assertEqual(outcome(READ | SET, 1, [READ_OVERRIDE, WRITE_OVERRIDE], label=label(31, 1)), "E1")


class MonitorCallers(unittest.TestCase):
    """Request 2026-01: who asks. The subject is at (30,{1})."""

    EVERY_PRIVILEGE = READ_OVERRIDE, WRITE_OVERRIDE, RELABEL
    BLIND = label(0)

    def by_both(self, caller, expected, intents=READ, **asked):
        """A caller at a label gets the one answer without the read override, and the other with it."""
        got = [outcome(intents, 1, caller=Caller(caller, override), **asked) for override in (False, True)]
        self.assertEqual(" ".join(got), expected, (caller, intents, asked))

    def test_dominates_the_credentials_label(self):
        for caller, expected in ((SUBJECT, "0 0"), (label(31, 1), "0 0"), (label(30, 1, 255), "0 0"), (label(29, 1), "E13 0"),
                                 (label(30), "E13 0"), (label(31), "E13 0"), (label(199, 2), "E13 0"), (label(0), "E13 0")):
            self.by_both(caller, expected, label=label(0))
            self.by_both(caller, expected, label=None, tuple=CONTAINS)

    def test_dominates_the_object_label(self):
        """The object is at (31,{1,2}), and the subject reads it by its own override."""
        above = label(31, 1, 2)
        for caller, expected in ((above, "1 1"), (label(32, 1, 2, 3), "1 1"), (SUBJECT, "E13 1"), (label(31, 1), "E13 1"),
                                 (label(30, 1, 2), "E13 1"), (label(199, 1, 3), "E13 1"), (label(0), "E13 1")):
            self.by_both(caller, expected, privileges=[READ_OVERRIDE], label=above)
            self.by_both(caller, expected, privileges=[READ_OVERRIDE], label=above, tuple=CONTAINS)

    def test_dominates_both(self):
        """(40,{}) and (30,{1}) don't dominate each other, so each alone sees one of the two, and (40,{1}) both."""
        for caller, expected in ((label(40), "E13 1"), (SUBJECT, "E13 1"), (label(40, 1), "1 1"), (label(39, 1), "E13 1")):
            self.by_both(caller, expected, privileges=[READ_OVERRIDE], label=label(40))

    def test_each_category(self):
        for category in WORD_BORDERS:
            all_but, one, none = Label(199, CATEGORIES - {category}), label(20, category), label(20)
            for subject, at in ((one, none), (one, one), (none, one)):
                asked = dict(subject=subject, bounds=Range(subject, subject), privileges=[READ_OVERRIDE], label=at)
                granted = "0" if subject == one else "1"
                self.by_both(all_but, f"E13 {granted}", **asked)
                self.by_both(one, f"{granted} {granted}", **asked)

    def test_ends_play_no_part(self):
        """Neither the high end of the credentials' range nor those of a tuple have to be in sight."""
        far = Tuple((None, None, Range(label(180), TOP)))
        for bounds in (SUBJECT_RANGE, Range(label(0), TOP)):
            self.by_both(SUBJECT, "0 0", bounds=bounds)
            self.by_both(SUBJECT, "0 0", bounds=bounds, label=None, tuple=FULL_TUPLE)
            self.by_both(SUBJECT, "0 0", bounds=bounds, tuple=far)
            self.by_both(SUBJECT, "1 1", bounds=bounds, privileges=[READ_OVERRIDE], label=None, tuple=far)

    def test_overrides_are_not_shared(self):
        """Those of the credentials don't help the caller, nor the caller's the intents."""
        self.by_both(self.BLIND, "E13 0", privileges=self.EVERY_PRIVILEGE)
        self.by_both(TOP, "E13 E13", label=label(31, 1))
        self.by_both(self.BLIND, "E13 E13", label=label(31, 1))
        self.by_both(self.BLIND, "E13 1", privileges=[READ_OVERRIDE], label=label(31, 1))

    def test_override_never_answers_1(self):
        for caller in (TOP, SUBJECT):
            self.by_both(caller, "0 0")
            self.by_both(caller, "0 0", intents=WRITE, privileges=self.EVERY_PRIVILEGE)
            self.by_both(caller, "0 0", type=FIFO)
            self.by_both(caller, "0 0", type=MESSAGE_QUEUE)
        self.by_both(self.BLIND, "E13 0")
        self.by_both(self.BLIND, "E13 0", intents=WRITE)
        self.by_both(self.BLIND, "E13 0", label=None, tuple=CONTAINS)

    def test_order(self):
        """22, then the caller's 13, which comes before 1 and whatever the intents would get."""
        for bad in (dict(intents=0), dict(intents=64), dict(intents=EXECUTE | SEARCH), dict(intents=EXECUTE, type=FIFO),
                    dict(intents=SEARCH), dict(bounds=UPSIDE_DOWN), dict(subject=label(41)), dict(label=None),
                    dict(label=label(200)), dict(tuple=Tuple((SUBJECT_RANGE, None, None)))):
            self.by_both(self.BLIND, "E22 E22", **bad)
        self.assertEqual(outcome(GET, 3, caller=Caller(self.BLIND)), "E22")
        self.by_both(self.BLIND, "E13 E1", intents=SET)
        self.by_both(self.BLIND, "E13 1", intents=SET, privileges=[RELABEL])
        self.by_both(self.BLIND, "E13 E13", intents=SET, label=label(31, 1))
        for intents in (WRITE, READ, GET, WRITE | READ, EXECUTE):
            self.by_both(self.BLIND, "E13 0", intents=intents)

    def test_invalid_label(self):
        """22 with the first checks, with the override too, for a tuple alone, and where the rest would be refused."""
        for bad in (label(200), label(255), Label(2 ** 32 + 199, CATEGORIES), Label(199, CATEGORIES | {256})):
            self.by_both(bad, "E22 E22")
            self.by_both(bad, "E22 E22", label=None, tuple=CONTAINS)
            self.by_both(bad, "E22 E22", privileges=self.EVERY_PRIVILEGE)
            self.by_both(bad, "E22 E22", label=label(31, 1))
            self.by_both(bad, "E22 E22", intents=SET)

    def test_asks_for_itself(self):
        """What a process may not see it may not ask about: it can't write up by write override alone."""
        up, down = label(31, 1), label(29)
        self.by_both(SUBJECT, "E13 1", intents=WRITE, privileges=[WRITE_OVERRIDE], label=up)
        self.by_both(up, "1 1", intents=WRITE, privileges=[WRITE_OVERRIDE], label=up)
        self.by_both(SUBJECT, "E13 1", privileges=[READ_OVERRIDE], label=up)
        self.by_both(SUBJECT, "1 1", intents=WRITE, privileges=[WRITE_OVERRIDE], label=down)
        self.by_both(SUBJECT, "0 0", intents=WRITE | READ)


class MonitorLines(unittest.TestCase):
    """docs/PROGRAMS.md on the lines of monitor_cmd."""

    GOOD = [b"check 0 0 0 2 0 0\n", write(SUBJECT), write(SUBJECT_RANGE), write(SUBJECT), b"-\n", write(SUBJECT)]

    def answers(self, *lines):
        return monitor_cmd.answers(b"".join(lines)).decode().splitlines()

    def test_numbers_out_of_bounds_take_the_operands(self):
        for line in (b"check 8 0 0 2 0 0\n", b"check 0 6 0 2 0 0\n", b"check 0 6 3 2 0 0\n", b"check 0 0 3 2 0 0\n",
                     b"check 0 0 0 2 0 2\n", b"check 0 0 0 2 0 4294967297\n", b"check 0 0 0 2 0 18446744073709551615\n"):
            self.assertEqual(self.answers(line, *self.GOOD[1:], *self.GOOD), ["error 22", "0"])
        self.assertEqual(self.answers(b"check 7 5 2 2 9 1\n", *self.GOOD[1:], *self.GOOD), ["0", "0"])

    def test_file_kind_counts_only_for_files(self):
        """Of another type it may be any number."""
        for kind in (3, 255, 2 ** 32, 2 ** 64 - 1):
            self.assertEqual(self.answers(b"check 0 0 %d 2 0 0\n" % kind, *self.GOOD[1:]), ["error 22"])
            for object_type in range(1, 6):
                line = b"check 0 %d %d 2 0 0\n" % (object_type, kind)
                self.assertEqual(self.answers(line, *self.GOOD[1:], *self.GOOD), ["0", "0"])

    def test_wrong_count_of_numbers_takes_none(self):
        for line in (b"check 0 0 0 2 0\n", b"check 0 0 0 2 0 0 0\n", b"check 0 0 0 2 0 0 0 0\n"):
            self.assertEqual(self.answers(line, *self.GOOD), ["error 22", "0"])

    def test_callers(self):
        """The last number is whether the caller has the override, the last operand its label."""
        for override, at, expected in ((0, label(29, 1), "error 13"), (1, label(29, 1), "0"), (0, SUBJECT, "0"), (1, SUBJECT, "0")):
            self.assertEqual(self.answers(b"check 0 0 0 2 0 %d\n" % override, *self.GOOD[1:-1], write(at)), [expected])

    def test_dash(self):
        """Only the object's two operands may be left out, and `-` is all that the line has."""
        command, subject, bounds, at, _, caller = self.GOOD
        for lines, expected in (((subject, bounds, at, b"-\n"), "0"), ((subject, bounds, b"-\n", write(CONTAINS)), "0"),
                                ((subject, bounds, at, write(CONTAINS)), "0"), ((subject, bounds, b"-\n", b"-\n"), "error 22"),
                                ((b"-\n", bounds, at, b"-\n"), "error 22"), ((subject, b"-\n", at, b"-\n"), "error 22"),
                                ((subject, bounds, at, b"- \n"), "error 22"), ((subject, bounds, at, b"--\n"), "error 22"),
                                ((subject, bounds, at, b"-\r\n"), "error 22"), ((subject, bounds, at, b"\n"), "error 22")):
            self.assertEqual(self.answers(command, *lines, caller, *self.GOOD), [expected, "0"])
            self.assertEqual(self.answers(command, *lines, b"-\n", *self.GOOD), ["error 22", "0"])


class StoredCases(unittest.TestCase):
    """What the stored inputs take for good or faulty is so."""

    def test_good(self):
        for what, contents in mac_cmd_cases.GOOD_CONTENTS:
            self.assertEqual(read(write(contents)), contents, what)

    def test_faulty(self):
        for what, line in mac_cmd_cases.wrong_lines():
            self.assertFalse(accepted(line), what)
            self.assertLessEqual(len(line), protocol.LINE_BUFFER, what)

    def test_only_the_contents_are_invalid(self):
        """A body of invalid contents, taken with no test of them, gives these contents and leaves nothing over."""
        for what, contents in mac_cmd_cases.invalid_contents():
            source = rules.Source(contents.body())
            self.assertEqual(type(contents).take(source), contents, what)
            self.assertEqual(source.rest, b"", what)
            self.assertFalse(contents.valid(), what)

    def test_first_step(self):
        for what, changes in monitor_cmd_cases.faults():
            request = monitor_cmd_cases.check(**monitor_cmd_cases.nothing_denied(changes))
            self.assertEqual(monitor_cmd.answers(request), b"error 22\n", what)
        for what, changes in monitor_cmd_cases.no_faults():
            request = monitor_cmd_cases.check(**monitor_cmd_cases.nothing_denied(changes))
            self.assertIn(monitor_cmd.answers(request), (b"0\n", b"1\n"), what)

    def test_callers(self):
        """How many ways there are for a caller to stand to (30,{1,2}) and to a label above, equal, below and incomparable:
        whoever is below one label is below all that dominate it, and whoever is above is above all that it dominates."""
        for at, ways in ((label(40, 1, 2), 8), (label(30, 1, 2), 4), (label(20, 1), 8), (label(40, 1), 9)):
            self.assertEqual(len(monitor_cmd_cases.callers_beside(label(30, 1, 2), at)), ways)

    def test_random_requests(self):
        """Each answer of the monitor is common among them, more so where the caller sees every label, and so is one that another
        caller would not get."""
        rng = random.Random(SEED)
        requests = [monitor_cmd_cases.random_request(rng) for _ in range(monitor_cmd_cases.RANDOM_REQUESTS)]
        answers = [monitor_cmd.answers(request) for request in requests]
        to_any = [monitor_cmd.answers(request[:request[:-1].rindex(b"\n") + 1] + write(TOP)) for request in requests]
        for given, share in ((to_any, 0.08), (answers, 0.06)):
            counted = collections.Counter(given)
            self.assertEqual(set(counted), {b"0\n", b"1\n", b"error 1\n", b"error 13\n", b"error 22\n"})
            self.assertGreaterEqual(min(counted.values()), share * len(requests))
        by_the_caller = sum(answer == b"error 13\n" != other for answer, other in zip(answers, to_any))
        self.assertGreaterEqual(by_the_caller, 0.2 * len(requests))


if __name__ == "__main__":
    unittest.main()
