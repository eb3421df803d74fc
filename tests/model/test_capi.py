# Tests of capi.py: document 01's examples in the numbers of include/lurmenize.h, each sentence there on what can't be, on
# what stands beside a refusal and on buffers, and lines of requests.
# Run: python3 tests/model/test_capi.py

import re
import unittest

from capi import (ABBREVIATION_BYTES, ENTRY_SIZE, FUNCTIONS, HEADER, LABEL_SIZE, NAME_BYTES, RANGE_SIZE, SEGMENT_SIZE, STATE_SIZE,
                  TENANT_SIZE, TUPLE_SIZE, answer, answer_line, entry_numbers, label_numbers, range_numbers, state_numbers,
                  tuple_numbers)
from rules import (CATEGORIES, HIERARCHIES, LONGEST_ABBREVIATION, LONGEST_NAME, OF_CATEGORY, OF_HIERARCHY, OF_LABEL, REGIONS,
                   Alias, sealed, write)
from samples import FULL_TUPLE, RANGE, TOP, TUPLE, label
from segments import MOST_PAGES, SLOTS, TENANTS, Segment, State, Tenant
from text import MOST_ENTRIES

WHOLE_TABLE = b"040114036c6f770092\n04020704656173740165dc\n"  # "low" is hierarchy 20; "east", short "e", is category 7
LOW, LOW_EAST = (20, 0, 0, 0, 0), (20, 1 << 7, 0, 0, 0)
NO_TUPLE = (0,) * TUPLE_SIZE
CLEARANCE = tuple_numbers(TUPLE)  # (20,{}) to (40,{1,2})
PRESENCES = range(0, TUPLE_SIZE, 1 + RANGE_SIZE)  # where a tuple has them
CREDENTIALS = (*LOW, *range_numbers(RANGE), 0, 0, 0)
OBJECT = (0, 0, 1, 0, *LOW, *NO_TUPLE)  # a regular file at (20,{})
OBJECT_LABEL, OBJECT_TUPLE = 4, 4 + LABEL_SIZE
READ = 2
STYLE = (0, 0)
CALLER = (*LOW_EAST, 0)
SEES_ALL = (*label_numbers(TOP), 0)
MOST = 2 ** 64 - 1

# No flag, no presence, and 0 or 1 in the first 8 or 32 bits of some.
NO_FLAGS = (2, 255, 256, 257, 2 ** 32, 2 ** 32 + 1, 2 ** 63, MOST)
# No hierarchies, and 20 in the first 8 or 32 bits of some.
NO_HIERARCHIES = (200, 255, 256, 256 + 20, 2 ** 32, 2 ** 32 + 20, 2 ** 63 + 20, MOST)


def changed(numbers, at, number):
    return numbers[:at] + (number,) + numbers[at + 1:]


def defined(names):
    """The numbers that the header defines, by their names without LURM_, of the names that the pattern matches."""
    return {name: int(number) for name, number in re.findall(rf"^#define LURM_({names}) (\d+)", HEADER.read_text(), re.MULTILINE)}


class Numbers(unittest.TestCase):
    def grants(self, value, name, *arguments, beside=()):
        """A grant: its value, and the numbers that stand beside the answer."""
        self.assertEqual(answer(name, arguments)[0], (0, 0, value, *beside))

    def refuses(self, number, name, *arguments, carried=None, beside=None):
        """A refusal that hands back no state: the answer, then zeros, as many as `beside` where that is given."""
        numbers, _ = answer(name, arguments)
        self.assertEqual(numbers[:3], (number, 0, 0) if carried is None else (number, 1, carried), (name, arguments))
        self.assertEqual(numbers[3:], (0,) * (len(numbers) - 3 if beside is None else beside), name)

    def keeps(self, number, name, state, *arguments):
        """A refusal that hands a state back as it was."""
        self.assertEqual(answer(name, (state, *arguments)), ((*state, number, 0, 0, *(0,) * SEGMENT_SIZE), None))


class Header(unittest.TestCase):
    def test_functions(self):
        declared = re.findall(r"^(?:LURM_MUST_USE )?\w+ lurm_(\w+)\(", HEADER.read_text(), re.MULTILINE)
        self.assertEqual(list(FUNCTIONS), declared)

    def test_version(self):
        major, minor, patch = map(int, re.search(r'LURM_VERSION_STRING "(\d+)\.(\d+)\.(\d+)"', HEADER.read_text()).groups())
        self.assertEqual(answer("version", ()), ((10 ** 6 * major + 10 ** 3 * minor + patch,), None))

    def test_numbers_of_a_struct(self):
        self.assertEqual((ENTRY_SIZE, TUPLE_SIZE, STATE_SIZE), (2 + 5 + 32 + 1 + 16 + 1, 33, 1 + 8 * (1 + 33) + 64 * 7))

    def test_sizes(self):
        sizes = {"WORDS": LABEL_SIZE - 1, "CATEGORIES": len(CATEGORIES), "MAX_HIERARCHY": HIERARCHIES[-1], "REGIONS": len(REGIONS),
                 "MAX_LINE": len(write(FULL_TUPLE)), "MAX_NAME": LONGEST_NAME, "MAX_ABBREVIATION": LONGEST_ABBREVIATION,
                 "NAME_BYTES": NAME_BYTES, "ABBREVIATION_BYTES": ABBREVIATION_BYTES, "MAX_ALIAS_LINES": MOST_ENTRIES,
                 "TENANTS": len(TENANTS), "SLOTS": len(SLOTS), "MAX_PAGES": MOST_PAGES}
        self.assertEqual({name: number for name, number in defined(r"\w+").items() if name in sizes}, sizes)

    def test_refusals(self):
        """Document 01, "Numbers handed back"."""
        self.assertEqual(defined(r"E\w+"), {"EPERM": 1, "ENOENT": 2, "E2BIG": 7, "ENOMEM": 12, "EACCES": 13, "EBUSY": 16,
                                            "EINVAL": 22, "ENOSPC": 28, "EDOM": 33})

    def test_category_words(self):
        self.assertEqual(label_numbers(label(20, 0, 63, 64, 255)), (20, 1 | 1 << 63, 1, 0, 1 << 63))


class Examples(Numbers):
    """Document 01, "Examples"."""

    def test_labels(self):
        self.grants(1, "dominates", (30, 6, 0, 0, 0), (20, 4, 0, 0, 0))
        self.grants(0, "dominates", (20, 4, 0, 0, 0), (30, 0, 0, 0, 0))
        self.grants(0, "equal", (20, 4, 0, 0, 0), (30, 0, 0, 0, 0))
        self.grants(0, "upper_bound", (20, 2, 0, 0, 0), (30, 4, 0, 0, 0), beside=(30, 6, 0, 0, 0))
        self.grants(0, "lower_bound", (20, 2, 0, 0, 0), (30, 4, 0, 0, 0), beside=LOW)
        self.grants(2, "region_of", (199, 0, 0, 0, 0))
        self.refuses(22, "region_of", (200, 0, 0, 0, 0))

    def test_ranges(self):
        self.grants(0, "range_meet", (20, 0, 0, 0, 0, 40, 6, 0, 0, 0), (30, 4, 0, 0, 0, 50, 12, 0, 0, 0),
                    beside=(30, 4, 0, 0, 0, 40, 4, 0, 0, 0))
        self.refuses(33, "range_meet", (20, 2, 0, 0, 0, 40, 2, 0, 0, 0), (20, 0, 0, 0, 0, 40, 4, 0, 0, 0))
        self.grants(0, "range_split", (10, 0, 0, 0, 0, 30, 16, 0, 0, 0),
                    beside=(1, 10, 0, 0, 0, 0, 19, 16, 0, 0, 0, 1, 20, 0, 0, 0, 0, 30, 16, 0, 0, 0, *(0,) * (1 + RANGE_SIZE)))

    def test_tuples(self):
        self.grants(1, "tuple_is_empty", NO_TUPLE)
        self.assertEqual(answer("write_tuple", (NO_TUPLE, 7)), ((0, 0, 7), b"0300fd\n"))
        self.grants(403, "write_tuple", tuple_numbers(FULL_TUPLE), 512)
        self.grants(1, "tuple_within", CLEARANCE, tuple_numbers(FULL_TUPLE))
        self.grants(0, "tuple_contains", CLEARANCE, (10, 0, 0, 0, 0))
        self.grants(0, "tuple_meet", CLEARANCE, tuple_numbers(FULL_TUPLE), beside=CLEARANCE)

    def test_text(self):
        self.grants(2, "check_alias_table", WHOLE_TABLE, 0)
        self.assertEqual(answer("write_label_text", (WHOLE_TABLE, 0, CALLER, STYLE, LOW_EAST, 9)),
                         ((0, 0, 8), b"low:east\xa5"))
        self.assertEqual(answer("write_label_text", (WHOLE_TABLE, 0, CALLER, STYLE, LOW_EAST, 7)), ((7, 1, 8), b"\xa5" * 7))
        self.assertEqual(answer("write_range_text", (WHOLE_TABLE, 0, (*LOW, 0), STYLE, LOW + LOW_EAST, 11)),
                         ((0, 0, 11, 1), b"-L low -H ?"))
        self.grants(0, "read_label_text", WHOLE_TABLE, 0, CALLER, b"low:e", beside=LOW_EAST)
        self.grants(0, "read_range_text", WHOLE_TABLE, 0, CALLER, b"-L low -H low:east", beside=LOW + LOW_EAST)
        self.refuses(22, "read_range_text", WHOLE_TABLE, 0, CALLER, b"-L low -H ?")

    def test_board(self):
        def granted(name, *arguments):
            numbers, _ = answer(name, arguments)
            self.assertEqual(numbers[STATE_SIZE:][:2], (0, 0))
            return numbers[:STATE_SIZE], numbers[STATE_SIZE + 2], numbers[STATE_SIZE + 3:]

        state = granted("make", 100)[0]
        for tenant, ceiling in ((0, 60), (1, 40)):
            state = granted("admit", state, tenant, ceiling, CLEARANCE)[0]
        self.keeps(12, "admit", state, 2, 1, CLEARANCE)
        state, place, _ = granted("open", state, 0, LOW, 60)
        self.assertEqual(place, 0)
        self.keeps(12, "open", state, 0, LOW, 1)
        state, place, _ = granted("open", state, 1, LOW, 40)
        self.assertEqual(place, 8)
        state = granted("size", state, 0, LOW, 0, 59)[0]
        state, place, _ = granted("open", state, 0, LOW, 1)
        self.assertEqual(place, 1)
        self.grants(60, "pages_in_use", state, 0)
        state = granted("post", state, 1, LOW, 8, MOST)[0]
        self.assertEqual(granted("look", state, 0, LOW, 8), (state, 0, (*LOW, 40, MOST)))
        self.keeps(16, "set_ceiling", state, 1, 39)
        state = granted("close", state, 1, LOW, 8)[0]
        self.assertEqual(granted("set_ceiling", state, 1, 1)[0][1 + TENANT_SIZE], 1)


class Categories(Numbers):
    SOME = label_numbers(label(20, 0, 63, 64, 255))

    def test_has(self):
        for category in (0, 63, 64, 255):
            self.grants(1, "has_category", self.SOME, category)
        for category in (1, 62, 65, 127, 254):
            self.grants(0, "has_category", self.SOME, category)

    def test_with(self):
        for category in (0, 63, 64, 255):
            self.grants(0, "with_category", LOW, category, beside=label_numbers(label(20, category)))
            self.grants(0, "with_category", self.SOME, category, beside=self.SOME)
        self.grants(0, "with_category", self.SOME, 7, beside=label_numbers(label(20, 0, 7, 63, 64, 255)))

    def test_that_there_is_not(self):
        for category in (256, 256 + 63, 2 ** 32, 2 ** 63, MOST):
            self.refuses(22, "has_category", self.SOME, category, beside=0)
            self.refuses(22, "with_category", self.SOME, category, beside=LABEL_SIZE)

    def test_next(self):
        for start, found in ((0, 0), (1, 63), (63, 63), (64, 64), (65, 255), (255, 255), (256, 256), (2 ** 32, 256), (MOST, 256)):
            self.grants(found, "next_category", self.SOME, start)
        self.grants(256, "next_category", LOW, 0)


class Lines(Numbers):
    def test_kinds(self):
        for line, kind in ((write(label(20)), 1), (write(RANGE), 2), (b"0300fd\n", 3), (WHOLE_TABLE[:19], 4)):
            self.grants(kind, "line_kind", line)
        self.grants(1, "line_kind", b"01ff\n")  # a frame whose body the reader refuses
        self.grants(1, "line_kind", sealed(b"\1" + bytes(199)))  # as long as the longest line
        self.refuses(22, "line_kind", sealed(b"\1" + bytes(200)))
        for line in (b"", b"\n", b"0300fd", b"0300fe\n", b"0300FD\n", b"05fb\n", b"0300fd\n0300fd\n"):
            self.refuses(22, "line_kind", line)

    def test_readers(self):
        self.grants(0, "read_label", write(label(20)), beside=LOW)
        self.grants(0, "read_range", write(RANGE), beside=range_numbers(RANGE))
        self.grants(0, "read_tuple", b"0300fd\n", beside=NO_TUPLE)
        self.grants(0, "read_entry", WHOLE_TABLE[19:],
                    beside=(2, 7, 0, 0, 0, 0, 0, *b"east", *(0,) * 28, 4, *b"e", *(0,) * 15, 1))
        for name in ("read_label", "read_range", "read_entry", "read_tuple"):
            self.refuses(22, name, b"01ff\n")
        self.refuses(22, "read_label", b"0300fd\n")


class Entries(Numbers):
    EAST = entry_numbers(Alias(OF_CATEGORY, 7, b"east", b"e"))
    NAME = 2 + LABEL_SIZE  # where its bytes begin
    NAME_LENGTH = NAME + NAME_BYTES
    ABBREVIATION = NAME_LENGTH + 1
    ABBREVIATION_LENGTH = ENTRY_SIZE - 1

    def test_written(self):
        self.assertEqual(answer("write_entry", (self.EAST, 23)), ((0, 0, 23), WHOLE_TABLE[19:]))
        self.assertEqual(answer("write_entry", (self.EAST, 22)), ((7, 1, 23), b"\xa5" * 22))

    def test_invalid(self):
        for at, number in ((0, 0), (0, 4), (0, 2 ** 32 + 2), (1, 256), (1, 256 + 7), (1, MOST), (2, 1), (3, 1), (self.NAME, ord("_")),
                           (self.NAME + 4, 1), (self.NAME_LENGTH - 1, 1), (self.ABBREVIATION_LENGTH - 1, 1)):
            self.refuses(22, "write_entry", changed(self.EAST, at, number), 200)
        for length in (0, 3, 5, 31, 32, 33, 256 + 4, 2 ** 32 + 4, MOST):
            self.refuses(22, "write_entry", changed(self.EAST, self.NAME_LENGTH, length), 200)
        for length in (0, 2, 15, 16, 17, 256 + 1, 2 ** 32 + 1, MOST):
            self.refuses(22, "write_entry", changed(self.EAST, self.ABBREVIATION_LENGTH, length), 200)

    def test_longest(self):
        longest = entry_numbers(Alias(OF_CATEGORY, 7, b"n" * 31, b"a" * 15))
        self.assertEqual(len(longest), ENTRY_SIZE)
        self.grants(2 * (1 + 1 + 1 + 1 + 31 + 1 + 15 + 1) + 1, "write_entry", longest, 200)
        for at, length, letter in ((self.NAME, 32, ord("n")), (self.ABBREVIATION, 16, ord("a"))):
            one_more = changed(changed(longest, at + length, length), at + length - 1, letter)
            self.refuses(22, "write_entry", one_more, 200)
            self.refuses(22, "write_entry", changed(longest, at + length - 1, letter), 200)  # no zero at the end
            self.refuses(22, "write_entry", changed(longest, at + length, length), 200)

    def test_of_a_hierarchy(self):
        low = entry_numbers(Alias(OF_HIERARCHY, 20, b"low"))
        self.assertEqual(answer("write_entry", (low, 19)), ((0, 0, 19), WHOLE_TABLE[:19]))
        self.grants(19, "write_entry", changed(low, 1, 199), 19)
        for number in NO_HIERARCHIES:
            self.refuses(22, "write_entry", changed(low, 1, number), 200)

    def test_of_a_label(self):
        whole = entry_numbers(Alias(OF_LABEL, label(30, 1, 2), b"pair"))
        self.grants(2 * (1 + 1 + 33 + 1 + 4 + 1 + 1) + 1, "write_entry", whole, 200)
        self.refuses(22, "write_entry", changed(whole, 1, 1), 200)
        self.refuses(22, "write_entry", changed(whole, 0, 1), 200)
        for number in NO_HIERARCHIES:
            self.refuses(22, "write_entry", changed(whole, 2, number), 200)


class AliasTables(Numbers):
    """The 22 that carries a number, and those that do not."""

    BAD = b"\n"

    def asked(self, table, more=0, override=0, style=STYLE):
        """Every function that takes an alias table, and arguments that are good but for these."""
        caller = (*LOW_EAST, override)
        yield "write_label_text", table, more, caller, style, LOW, 99
        yield "write_range_text", table, more, caller, style, LOW + LOW_EAST, 99
        if style == STYLE:
            yield "read_label_text", table, more, caller, b"low"
            yield "read_range_text", table, more, caller, b"-L low -H low"
            if override == 0:
                yield "check_alias_table", table, more

    def test_first_bad_line(self):
        for table, line in ((self.BAD, 0), (b"0", 0), (WHOLE_TABLE + self.BAD, 2), (WHOLE_TABLE[:19] * 2, 1)):
            for request in self.asked(table):
                self.refuses(22, *request, carried=line)
        for request in self.asked(b"", more=1):
            self.refuses(22, *request, carried=0)
        for request in self.asked(WHOLE_TABLE, more=1):
            self.refuses(22, *request, carried=2)

    def test_flags_come_before_the_table(self):
        for number in NO_FLAGS:
            for table in (WHOLE_TABLE, self.BAD, WHOLE_TABLE + self.BAD):
                requests = [*self.asked(table, more=number), *self.asked(table, override=number)]
                requests += [*self.asked(table, style=(number, 0)), *self.asked(table, style=(0, number))]
                for request in requests:
                    self.refuses(22, *request)

    def test_the_table_comes_before_labels(self):
        invalid = (200, 0, 0, 0, 0)
        for table, carried in ((WHOLE_TABLE, None), (self.BAD, 0), (WHOLE_TABLE + self.BAD, 2)):
            self.refuses(22, "write_label_text", table, 0, CALLER, STYLE, invalid, 9, carried=carried)
            self.refuses(22, "write_label_text", table, 0, (*invalid, 1), STYLE, LOW, 9, carried=carried)
            self.refuses(22, "write_range_text", table, 0, CALLER, STYLE, LOW + invalid, 99, carried=carried)
            self.refuses(22, "read_label_text", table, 0, (*invalid, 1), b"low", carried=carried)
            self.refuses(22, "read_range_text", table, 0, CALLER, b"low", carried=carried)

    def test_others_carry_nothing(self):
        self.refuses(13, "write_label_text", WHOLE_TABLE, 0, (*LOW, 0), STYLE, LOW_EAST, 99)
        self.refuses(2, "write_label_text", WHOLE_TABLE, 0, (30, 0, 0, 0, 0, 0), STYLE, (30, 0, 0, 0, 0), 99)
        self.refuses(22, "read_label_text", WHOLE_TABLE, 0, CALLER, b"")
        self.refuses(22, "read_label_text", WHOLE_TABLE, 0, (*LOW, 0), b"low:east")


class Presences(Numbers):
    """A presence that is not 0 or 1 makes a tuple invalid, and so does an absent range that is not zeros."""

    def bad(self):
        yield from (changed(ranges, at, number) for ranges in (CLEARANCE, NO_TUPLE) for at in PRESENCES for number in NO_FLAGS)
        yield changed(CLEARANCE, 1 + RANGE_SIZE, 0)
        yield changed(NO_TUPLE, 1, 1)
        yield changed(NO_TUPLE, TUPLE_SIZE - 1, 1 << 63)

    def test_tuples(self):
        for bad in self.bad():
            self.refuses(22, "tuple_is_empty", bad)
            self.refuses(22, "tuple_contains", bad, LOW)
            self.refuses(22, "tuple_within", NO_TUPLE, bad)
            self.refuses(22, "tuple_within", bad, CLEARANCE)
            self.refuses(22, "tuple_meet", bad, CLEARANCE, beside=TUPLE_SIZE)
            self.refuses(22, "tuple_meet", NO_TUPLE, bad, beside=TUPLE_SIZE)
            self.refuses(22, "write_tuple", bad, 512)

    def test_objects(self):
        """A tuple that is not there is not looked at."""
        for bad in self.bad():
            self.grants(0, "check", SEES_ALL, CREDENTIALS, OBJECT[:OBJECT_TUPLE] + bad, READ, 0)
            self.refuses(22, "check", SEES_ALL, CREDENTIALS, changed(OBJECT[:OBJECT_TUPLE], 3, 1) + bad, READ, 0)

    def test_states(self):
        """In a clearance that is asked for, one of an admitted tenant, and where there is no tenant."""
        state = state_numbers(State(100).with_tenant(0, Tenant(10, TUPLE)))
        for bad in self.bad():
            self.keeps(22, "admit", state, 1, 1, bad)
            for at in (2, 2 + TENANT_SIZE):
                unsound = state[:at] + bad + state[at + TUPLE_SIZE:]
                self.grants(0, "sound", unsound)
                self.keeps(22, "open", unsound, 0, LOW, 1)


class Hierarchies(Numbers):
    """A hierarchy of 200 or more is invalid and is never read as another."""

    LABELS = [(number, 0, 0, 0, 0) for number in NO_HIERARCHIES]

    def test_last(self):
        self.grants(1, "equal", (199, 0, 0, 0, 0), (199, 0, 0, 0, 0))
        self.grants(71, "write_label", (199, 0, 0, 0, 0), 71)

    def test_labels(self):
        for bad in self.LABELS:
            for name in ("dominates", "equal", "upper_bound", "lower_bound"):
                self.refuses(22, name, bad, LOW)
                self.refuses(22, name, LOW, bad)
                self.refuses(22, name, bad, bad)
            self.refuses(22, "region_of", bad)
            for name in ("has_category", "with_category", "next_category"):
                self.refuses(22, name, bad, 0)
            self.refuses(22, "write_label", bad, 99)

    def test_ranges_and_tuples(self):
        for bad in self.LABELS:
            self.refuses(22, "range_contains", range_numbers(RANGE), bad)
            self.refuses(22, "tuple_contains", CLEARANCE, bad)
            for ends in (bad + LOW, LOW + bad, bad + bad):
                self.refuses(22, "range_contains", ends, LOW)
                self.refuses(22, "range_meet", ends, LOW + LOW)
                self.refuses(22, "range_meet", LOW + LOW, ends)
                self.refuses(22, "range_split", ends)
                self.refuses(22, "write_range", ends, 200)
                self.refuses(22, "tuple_is_empty", NO_TUPLE[:1 + RANGE_SIZE] + (1, *ends) + NO_TUPLE[:1 + RANGE_SIZE])

    def test_text(self):
        for bad in self.LABELS:
            self.refuses(22, "write_label_text", WHOLE_TABLE, 0, CALLER, STYLE, bad, 99)
            self.refuses(22, "write_label_text", WHOLE_TABLE, 0, (*bad, 1), STYLE, LOW, 99)
            self.refuses(22, "write_range_text", WHOLE_TABLE, 0, CALLER, STYLE, bad + LOW_EAST, 99)
            self.refuses(22, "write_range_text", WHOLE_TABLE, 0, CALLER, STYLE, LOW + bad, 99)
            self.refuses(22, "read_label_text", WHOLE_TABLE, 0, (*bad, 1), b"low")
            self.refuses(22, "read_range_text", WHOLE_TABLE, 0, (*bad, 1), b"-L low -H low")

    def test_check(self):
        for number in NO_HIERARCHIES:
            for at in (0, LABEL_SIZE, 2 * LABEL_SIZE):
                self.refuses(22, "check", SEES_ALL, changed(CREDENTIALS, at, number), OBJECT, READ, 0)
            self.refuses(22, "check", SEES_ALL, CREDENTIALS, changed(OBJECT, OBJECT_LABEL, number), READ, 0)
            for override in (0, 1):
                self.refuses(22, "check", (number, 0, 0, 0, 0, override), CREDENTIALS, OBJECT, READ, 0)

    def test_states(self):
        state = state_numbers(State(100).with_tenant(0, Tenant(10, TUPLE)).with_segment(0, Segment(label(20), 1, 0)))
        self.grants(1, "sound", state)
        for number in NO_HIERARCHIES:
            bad = (number, 0, 0, 0, 0)
            self.keeps(22, "open", state, 0, bad, 1)
            self.keeps(22, "look", state, 0, bad, 0)
            for at in (2 + 1 + RANGE_SIZE + 1, 1 + 8 * TENANT_SIZE):  # of a clearance and of a segment
                self.grants(0, "sound", changed(state, at, number))
                self.keeps(22, "close", changed(state, at, number), 0, LOW, 0)


class Checks(Numbers):
    def test_flags(self):
        self.grants(0, "check", SEES_ALL, CREDENTIALS, OBJECT, READ, 0)
        for number in NO_FLAGS:
            for at in (15, 16, 17):
                self.refuses(22, "check", SEES_ALL, changed(CREDENTIALS, at, number), OBJECT, READ, 0)
            for at in (2, 3):
                self.refuses(22, "check", SEES_ALL, CREDENTIALS, changed(OBJECT, at, number), READ, 0)
            for caller in (SEES_ALL, CALLER, (0,) * len(CALLER)):
                self.refuses(22, "check", changed(caller, len(caller) - 1, number), CREDENTIALS, OBJECT, READ, 0)
        self.refuses(22, "check", SEES_ALL, CREDENTIALS, changed(OBJECT, 2, 0), READ, 0)

    def test_types(self):
        for number in (6, 256, 257, 2 ** 32, 2 ** 32 + 4, MOST):
            self.refuses(22, "check", SEES_ALL, CREDENTIALS, changed(OBJECT, 0, number), READ, 0)

    def test_kinds_count_for_files_alone(self):
        for kind in (3, 7, 256, 2 ** 32, MOST):
            self.refuses(22, "check", SEES_ALL, CREDENTIALS, changed(OBJECT, 1, kind), READ, 0)
            for object_type in (1, 2, 3, 4, 5):
                self.grants(0, "check", SEES_ALL, CREDENTIALS, (object_type, kind) + OBJECT[2:], READ, 0)
        self.refuses(22, "check", SEES_ALL, CREDENTIALS, (1, 0) + OBJECT[2:], 4, 0)  # a fifo is no regular file

    def test_intents_and_attributes(self):
        for intents in (0, 64, 256 + READ, 2 ** 32 + READ, MOST):
            self.refuses(22, "check", SEES_ALL, CREDENTIALS, OBJECT, intents, 0)
        self.refuses(1, "check", SEES_ALL, CREDENTIALS, OBJECT, 32, 1)
        self.grants(1, "check", SEES_ALL, changed(CREDENTIALS, 17, 1), OBJECT, 32, 1)
        for attribute in (0, 3, 257, 2 ** 32 + 1, MOST):
            self.refuses(22, "check", SEES_ALL, changed(CREDENTIALS, 17, 1), OBJECT, 32, attribute)
            self.grants(0, "check", SEES_ALL, CREDENTIALS, OBJECT, READ, attribute)

    def test_denied(self):
        self.refuses(13, "check", SEES_ALL, CREDENTIALS, changed(OBJECT, OBJECT_LABEL, 30), READ, 0)

    def test_callers(self):
        """The credentials are at (20,{}). A caller without the read override has to dominate that label and the object's."""
        reading_up = changed(CREDENTIALS, 15, 1), changed(OBJECT, OBJECT_LABEL, 30), READ, 0
        for caller, own, up in (((20, 0, 0, 0, 0), 0, None), ((30, 0, 0, 0, 0), 0, 1), ((19, 2, 0, 0, 0), None, None)):
            for granted, asked in ((own, (CREDENTIALS, OBJECT, READ, 0)), (up, reading_up)):
                if granted is None:
                    self.refuses(13, "check", (*caller, 0), *asked)
                else:
                    self.grants(granted, "check", (*caller, 0), *asked)
            self.grants(0, "check", (*caller, 1), CREDENTIALS, OBJECT, READ, 0)
            self.grants(1, "check", (*caller, 1), *reading_up)

    def test_a_label_that_is_not_there_is_not_looked_at(self):
        for held in ((30, 0, 0, 0, 0), (200, 0, 0, 0, 0), (MOST,) * LABEL_SIZE):
            tuple_alone = (0, 0, 0, 1, *held, *CLEARANCE)
            self.grants(0, "check", (*LOW, 0), CREDENTIALS, tuple_alone, READ, 0)
            self.refuses(13, "check", (19, 0, 0, 0, 0, 0), CREDENTIALS, tuple_alone, READ, 0)


class States(Numbers):
    SOUND = state_numbers(State(100))

    def test_unsound(self):
        self.grants(1, "sound", self.SOUND)
        empty_slot = 1 + 8 * TENANT_SIZE
        for at, number in ((0, 0), (0, MOST), (0, 2 ** 32 + 100), (1, 1), (2, 1), (2, 2), (3, 1), (empty_slot, 1), (empty_slot + 5, 1),
                           (STATE_SIZE - 1, 1)):
            unsound = changed(self.SOUND, at, number)
            self.grants(0, "sound", unsound)
            self.keeps(22, "admit", unsound, 0, 1, CLEARANCE)
            self.keeps(22, "set_ceiling", unsound, 0, 1)
            self.keeps(22, "look", unsound, 0, LOW, 0)
            self.refuses(22, "pages_in_use", unsound, 0)

    def test_numbers_that_there_are_not(self):
        state = state_numbers(State(100).with_tenant(0, Tenant(10, TUPLE)).with_segment(0, Segment(label(20), 1, 0)))
        for tenant in (8, 256, 2 ** 32, MOST):
            self.keeps(22, "admit", state, tenant, 1, CLEARANCE)
            self.keeps(22, "open", state, tenant, LOW, 1)
            self.refuses(22, "pages_in_use", state, tenant)
        for slot in (64, 256, 2 ** 32, MOST):
            self.keeps(22, "look", state, 0, LOW, slot)
            self.keeps(22, "close", state, 0, LOW, slot)
        for pages in (0, MOST_PAGES + 1, 2 ** 32 + 1, MOST):
            self.keeps(22, "open", state, 0, LOW, pages)
            self.keeps(22, "size", state, 0, LOW, 0, pages)

    def test_admissions(self):
        self.keeps(22, "admit", self.SOUND, 0, 1, NO_TUPLE)
        self.keeps(22, "admit", self.SOUND, 0, 0, CLEARANCE)
        self.refuses(22, "pages_in_use", self.SOUND, 0)


class BesideARefusal(Numbers):
    """As many zeros as a grant has numbers beside the answer."""

    def test_zeros(self):
        bad, bad_range = (200, 0, 0, 0, 0), (200, 0, 0, 0, 0) + LOW
        for beside, *request in (
                (LABEL_SIZE, "upper_bound", bad, LOW), (LABEL_SIZE, "lower_bound", LOW, bad),
                (LABEL_SIZE, "with_category", LOW, 256), (RANGE_SIZE, "range_meet", bad_range, LOW + LOW),
                (TUPLE_SIZE, "range_split", bad_range), (TUPLE_SIZE, "tuple_meet", changed(NO_TUPLE, 0, 2), NO_TUPLE),
                (LABEL_SIZE, "read_label", b"\n"), (RANGE_SIZE, "read_range", b"\n"), (TUPLE_SIZE, "read_tuple", b"\n"),
                (ENTRY_SIZE, "read_entry", b"\n"), (LABEL_SIZE, "read_label_text", b"", 0, CALLER, b"low"),
                (RANGE_SIZE, "read_range_text", b"", 0, CALLER, b"low"),
                (1, "write_range_text", b"", 0, CALLER, STYLE, bad_range, 9)):
            self.refuses(22, *request, beside=beside)

    def test_make(self):
        for pool in (0, MOST_PAGES + 1, 2 ** 32 + 1, MOST):
            self.assertEqual(answer("make", (pool,)), ((0,) * STATE_SIZE + (22, 0, 0, *(0,) * SEGMENT_SIZE), None))


class RequestLines(unittest.TestCase):
    def test_lines(self):
        for line, expected in (
                ("version", str(answer("version", ())[0][0])),
                ("dominates 30,6,0,0,0 20,4,0,0,0", "0,0,1"),
                ("line_kind x", "22,0,0"),
                ("write_tuple " + ",".join(["0"] * TUPLE_SIZE) + " b8", "0,0,7 x303330306664" + "0aa5"),
                ("check_alias_table x" + WHOLE_TABLE.hex() + " 0", "0,0,2"),
                ("check_alias_table x0a 0", "22,1,0")):
            self.assertEqual(answer_line(line), expected)


if __name__ == "__main__":
    unittest.main()
