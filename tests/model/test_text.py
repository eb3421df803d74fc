# Tests of text.py and text_cmd.py: document 01's example, each sentence of "Names and text", texts of labels and ranges that
# are read back, and that what the stored input of text_cmd has as good or refused is so for the reason that it is there for.
# Run: python3 tests/model/test_text.py

import collections
import itertools
import random
import unittest

import text_cmd
import text_cmd_cases
from protocol import LINE_BUFFER
from rules import CATEGORIES, Caller, Label, Range, Refusal, write
from samples import LABEL, RANGE, TOP, WORD_BORDERS, label
from text import (ABBREVIATED, ALIAS_FORM, DEFINITION_FORM, FORMS, VARIANTS, WHOLE_NAMES, Table, read_label, read_range,
                  write_label, write_range)
from text_cmd import MOST_CAPACITY, TABLE_BUFFER, TEXT_BUFFER
from text_samples import (BAD_RANGES, BAD_TEXTS, EAST, ENTRIES, FULL, GOOD_RANGES, GOOD_TEXTS, LONGEST_RANGE,
                          LONGEST_TEXTS, LOW, REPEATS, SEVERAL, WEST, any_entries, composed, damaged_text, label_in,
                          label_text_in, labels_table, of_category, of_hierarchy, of_label, range_in, range_text_in,
                          short_table, spoiled, subject_near, table_of)

SEED = 1
TABLES = 400
SEES_ALL, SEES_NONE = Caller(TOP), Caller(label(0))
BAD_SUBJECT = Caller(label(200))
SMALL = table_of(*ENTRIES)
BAD_TABLE = table_of(LOW, EAST, LOW)


def outcome(call, *arguments):
    """What a call gives, or "E", the number of its refusal and the one more number where there is one."""
    try:
        return call(*arguments)
    except Refusal as refusal:
        return f"E{refusal.number}" if refusal.detail is None else f"E{refusal.number} {refusal.detail}"


def bad_line(*lines, more=False):
    """The number of the first bad line of a table of entries and lines, or None."""
    return Table(b"".join(line if isinstance(line, bytes) else write(line) for line in lines), more).judged()[1]


def in_every_form(table, contents, subject=SEES_ALL):
    """What is written of a label or range in the definition form, its variants, then in the alias form."""
    write_text = write_range if isinstance(contents, Range) else write_label
    return [outcome(write_text, table, contents, subject, form, variant) for form in FORMS for variant in VARIANTS]


class Example(unittest.TestCase):
    """Document 01, "Examples": the whole table."""

    TABLE = Table(b"040114036c6f770092\n04020704656173740165dc\n")
    EAST = label(20, 7)

    def test_entries(self):
        self.assertEqual(self.TABLE.entries(), [LOW, EAST])

    def test_label(self):
        arguments = self.TABLE, self.EAST, Caller(self.EAST), DEFINITION_FORM, WHOLE_NAMES
        self.assertEqual(outcome(write_label, *arguments), b"low:east")
        self.assertEqual(outcome(write_label, *arguments, 8), b"low:east")
        self.assertEqual(outcome(write_label, *arguments, 7), "E7 8")
        self.assertEqual(read_label(self.TABLE, b"low:east", Caller(self.EAST)), self.EAST)
        self.assertEqual(read_label(self.TABLE, b"low:e", Caller(self.EAST)), self.EAST)

    def test_range(self):
        bounds = Range(label(20), self.EAST)
        for at, expected in ((label(20), (1, b"-L low -H ?")), (self.EAST, (0, b"-L low -H low:east"))):
            self.assertEqual(write_range(self.TABLE, bounds, Caller(at), DEFINITION_FORM, WHOLE_NAMES), expected)


class Tables(unittest.TestCase):
    """Document 01, "Names and text": what a bad table is, and its first bad line."""

    def test_good(self):
        self.assertEqual(Table().entries(), [])
        self.assertEqual(SMALL.entries(), ENTRIES)
        self.assertEqual(outcome(BAD_TABLE.entries), "E22 2")

    def test_faulty_lines(self):
        line = write(EAST)
        for bad in (b"\n", b"x\n", b"#\n", line[:-1] + b"\r\n", b" " + line, line.upper(), line[2:], line[:-1] + line):
            self.assertEqual(bad_line(LOW, bad), 1)
            self.assertEqual(bad_line(bad, LOW), 0)
            self.assertEqual(bad_line(LOW, bad, LOW, bad), 1)

    def test_no_last_lf(self):
        self.assertEqual(bad_line(LOW, write(EAST)[:-1]), 1)
        self.assertEqual(bad_line(write(LOW)[:-1]), 0)

    def test_other_kinds(self):
        for contents in (LABEL, RANGE, RANGE.split()):
            self.assertEqual(bad_line(LOW, EAST, contents), 2)

    def test_repeats(self):
        for what, entries, expected in REPEATS:
            self.assertEqual(bad_line(*entries), expected, what)

    def test_first_bad_line(self):
        self.assertEqual(bad_line(LOW, EAST, LOW, b"x\n"), 2)
        self.assertEqual(bad_line(LOW, b"x\n", EAST, LOW), 1)
        self.assertEqual(bad_line(LOW, LABEL, b"x\n", LOW), 1)

    def test_513th_line(self):
        lines = short_table(513)
        self.assertEqual(len(table_of(*lines[:512]).entries()), 512)
        self.assertEqual(bad_line(*lines), 512)
        self.assertEqual(bad_line(*lines[:512], b"x\n"), 512)
        self.assertEqual(bad_line(*lines[:511], LOW, lines[512]), 511)
        self.assertEqual(bad_line(*lines[:512], more=True), 512)
        self.assertEqual(bad_line(*lines[:400], lines[300], *lines[400:]), 400)

    def test_cut_off(self):
        """The first line that does not end in what is there is bad, an earlier bad line comes first."""
        line = write(EAST)
        self.assertEqual(bad_line(LOW, line, more=True), 2)
        for size in range(len(line)):
            self.assertEqual(bad_line(LOW, line[:size], more=True), 1)
        self.assertEqual(bad_line(LOW, LOW, line[:5], more=True), 1)
        self.assertEqual(bad_line(more=True), 0)

    def test_parts(self):
        """A table is bad at a line exactly if the lines up to that one are bad and those before it are good."""
        rng = random.Random(SEED)
        for _ in range(TABLES):
            lines = spoiled(rng, any_entries(rng) or [LOW])
            first = next((number for number in range(len(lines)) if bad_line(*lines[:number + 1]) is not None), None)
            self.assertEqual(bad_line(*lines), first)


class Writing(unittest.TestCase):
    """Document 01, "Writing a label": forms, variants, and which entry counts."""

    def test_forms(self):
        for at, *expected in (
                (label(20), b"low", b"low", b"low", b"low"),
                (label(30), b"middle", b"mid", b"middle", b"mid"),
                (label(20, 7), b"low:east", b"low:e", b"low:east", b"low:e"),
                (LABEL, b"middle:north,south", b"mid:n,s", b"pair", b"p"),
                (label(40, 7, 1, 2), b"high:north,south,east", b"high:n,s,e", b"high:north,south,east", b"high:n,s,e"),
                (label(21), "E2", "E2", "E2", "E2"),
                (label(20, 7, 8), "E2", "E2", "E2", "E2")):
            self.assertEqual(in_every_form(SMALL, at), expected)

    def test_last_counts(self):
        for at, *expected in (
                (label(20), b"ground", b"g", b"ground", b"g"),
                (label(20, 7), b"ground:sunrise", b"g:sunrise", b"drop", b"d"),
                (label(20, 7, 8), b"ground:sunrise,west", b"g:sunrise,w", b"ground:sunrise,west", b"g:sunrise,w")):
            self.assertEqual(in_every_form(table_of(*SEVERAL), at), expected)
        for at, *expected in (
                (label(20), b"low", b"l", b"low", b"l"),
                (label(20, 7), b"low:east", b"l:east", b"post", b"p"),
                (label(20, 8), b"low:west", b"l:w", b"home", b"h")):
            self.assertEqual(in_every_form(table_of(*reversed(SEVERAL)), at), expected)

    def test_alias_needs_no_other_name(self):
        self.assertEqual(in_every_form(table_of(of_label(label(20, 7), b"box")), label(20, 7)), ["E2", "E2", b"box", b"box"])

    def test_alias_is_of_the_whole_label(self):
        table = table_of(of_label(label(20, *WORD_BORDERS), b"all"))
        self.assertEqual(in_every_form(table, label(21, *WORD_BORDERS)), ["E2"] * 4)
        for category in WORD_BORDERS:
            self.assertEqual(in_every_form(table, Label(20, frozenset(WORD_BORDERS) - {category})), ["E2"] * 4)

    def test_numbers_of_classes(self):
        """A hierarchy and a category of one number have names of their own."""
        table = table_of(of_hierarchy(7, b"seven"), EAST, of_category(20, b"twenty"), of_category(30, b"thirty"))
        for at, expected in ((label(7, 7), b"seven:east"), (label(7, 20), b"seven:twenty"), (label(30), "E2"),
                             (label(20), "E2")):
            self.assertEqual(in_every_form(table, at)[0], expected)

    def test_rising_order(self):
        names = b",".join(b"c%d" % c for c in range(256))
        table = table_of(LOW, *(of_category(c, b"c%d" % c) for c in reversed(range(256))))
        self.assertEqual(write_label(table, Label(20, CATEGORIES), SEES_ALL, ALIAS_FORM, ABBREVIATED), b"low:" + names)

    def test_longest(self):
        self.assertEqual([len(text) for text in LONGEST_TEXTS], [8223, 16453])
        self.assertEqual(len(write_label(table_of(*FULL), TOP, SEES_ALL, DEFINITION_FORM, ABBREVIATED)), 4111)

    def test_order(self):
        """Bad table, bad label or subject, sight, name, room."""
        bad, unnamed = label(200), label(21)
        for table, at, subject, capacity, expected in (
                (BAD_TABLE, bad, BAD_SUBJECT, 0, "E22 2"), (BAD_TABLE, unnamed, SEES_NONE, 0, "E22 2"),
                (SMALL, bad, SEES_NONE, 0, "E22"), (SMALL, unnamed, BAD_SUBJECT, 0, "E22"),
                (SMALL, bad, Caller(label(0), True), 0, "E22"), (SMALL, unnamed, Caller(label(200), True), 0, "E22"),
                (SMALL, unnamed, SEES_NONE, 0, "E13"), (SMALL, label(20), SEES_NONE, 9, "E13"),
                (SMALL, unnamed, SEES_ALL, 0, "E2"), (SMALL, unnamed, Caller(label(0), True), 0, "E2"),
                (SMALL, label(20, 7), SEES_ALL, 7, "E7 8"), (SMALL, label(20, 7), Caller(label(0), True), 0, "E7 8"),
                (SMALL, label(20, 7), SEES_ALL, 8, b"low:east"),
                (SMALL, label(20, 7), Caller(label(0), True), 8, b"low:east")):
            self.assertEqual(outcome(write_label, table, at, subject, DEFINITION_FORM, WHOLE_NAMES, capacity), expected)

    def test_sight(self):
        for at, expected in ((label(20, 7), b"low:east"), (label(21, 7, 8), b"low:east"), (label(20), "E13"),
                             (label(19, 7), "E13"), (label(199, 8), "E13")):
            self.assertEqual(in_every_form(SMALL, label(20, 7), Caller(at))[0], expected)
            self.assertEqual(in_every_form(SMALL, label(20, 7), Caller(at, True))[0], b"low:east")
        for category in WORD_BORDERS:
            table, at = table_of(LOW, of_category(category, b"border")), label(20, category)
            self.assertEqual(in_every_form(table, at, Caller(at))[0], b"low:border")
            self.assertEqual(in_every_form(table, at, Caller(Label(199, CATEGORIES - {category})))[0], "E13")


class WritingRanges(unittest.TestCase):
    """Document 01: `-L low -H high`, by what the subject dominates."""

    BOUNDS = Range(label(20, 7), label(40, 1, 7))

    def test_three_ways(self):
        both, low = (0, b"-L low:east -H high:north,east"), (1, b"-L low:east -H ?")
        for at, expected in ((label(40, 1, 7), both), (TOP, both), (label(40, 7), low), (label(39, 1, 7), low),
                             (label(20, 7), low), (label(20), "E13"), (label(19, 1, 7), "E13"), (label(199, 1), "E13"),
                             (label(0), "E13")):
            self.assertEqual(in_every_form(SMALL, self.BOUNDS, Caller(at))[0], expected)
            self.assertEqual(in_every_form(SMALL, self.BOUNDS, Caller(at, True))[0], both)

    def test_one_label(self):
        """A range of one label is in sight or not as the label is."""
        for at, expected in ((label(30), (0, b"-L middle -H middle")), (label(29, 1), "E13")):
            self.assertEqual(in_every_form(SMALL, Range(label(30), label(30)), Caller(at))[0], expected)

    def test_forms(self):
        """Of each end by itself."""
        self.assertEqual(in_every_form(SMALL, Range(LABEL, label(40, 1, 2))), [
            (0, b"-L middle:north,south -H high:north,south"), (0, b"-L mid:n,s -H high:n,s"),
            (0, b"-L pair -H high:north,south"), (0, b"-L p -H high:n,s")])
        self.assertEqual(in_every_form(SMALL, Range(label(30), LABEL))[2:], [(0, b"-L middle -H pair"), (0, b"-L mid -H p")])

    def test_names_of_the_high_end(self):
        """They are looked up only where both ends are in sight."""
        bounds, low = Range(label(20), label(41, 9)), (1, b"-L low -H ?")
        self.assertEqual(in_every_form(SMALL, bounds, Caller(label(20))), [low] * 4)
        self.assertEqual(in_every_form(SMALL, bounds), ["E2"] * 4)
        self.assertEqual(in_every_form(SMALL, bounds, Caller(label(0), True)), ["E2"] * 4)
        self.assertEqual(in_every_form(SMALL, Range(label(21), label(40)), Caller(label(21))), ["E2"] * 4)

    def test_order(self):
        upside_down, unnamed, bounds = Range(label(40), label(20)), Range(label(21), label(41)), Range(label(20), label(40))
        for table, given, subject, capacity, expected in (
                (BAD_TABLE, upside_down, BAD_SUBJECT, 0, "E22 2"), (BAD_TABLE, unnamed, SEES_NONE, 0, "E22 2"),
                (SMALL, upside_down, SEES_NONE, 0, "E22"), (SMALL, Range(label(20), label(200)), SEES_NONE, 0, "E22"),
                (SMALL, unnamed, BAD_SUBJECT, 0, "E22"), (SMALL, unnamed, SEES_NONE, 0, "E13"),
                (SMALL, bounds, SEES_NONE, 99, "E13"), (SMALL, unnamed, SEES_ALL, 0, "E2"),
                (SMALL, unnamed, Caller(label(30)), 0, "E2"), (SMALL, bounds, SEES_ALL, 13, "E7 14"),
                (SMALL, bounds, SEES_ALL, 14, (0, b"-L low -H high")), (SMALL, bounds, Caller(label(20)), 10, "E7 11"),
                (SMALL, bounds, Caller(label(20)), 11, (1, b"-L low -H ?"))):
            self.assertEqual(outcome(write_range, table, given, subject, DEFINITION_FORM, WHOLE_NAMES, capacity), expected)


def readings(table, texts, subject=SEES_ALL):
    """By text, the label of each that is read as one."""
    read = {text: outcome(read_label, table, text, subject) for text in texts}
    return {text: label for text, label in read.items() if label != "E22"}


class Reading(unittest.TestCase):
    """Document 01, "Reading"."""

    def test_good(self):
        expected = [label(20), label(30), label(30), label(40), label(20, 7), label(20, 7), label(20, 1, 7), label(20, 1, 7),
                    label(30, 1, 2, 7), LABEL, LABEL, LABEL]
        self.assertEqual(readings(SMALL, GOOD_TEXTS), dict(zip(GOOD_TEXTS, expected)))

    def test_bad(self):
        for text in BAD_TEXTS:
            self.assertEqual(outcome(read_label, SMALL, text, SEES_ALL), "E22", text)
            self.assertEqual(outcome(read_label, SMALL, text, Caller(label(0), True)), "E22", text)

    def test_every_text(self):
        """All texts of up to five bytes from the names of a table, the separators and a blank."""
        table = table_of(of_hierarchy(20, b"a"), of_category(1, b"b", b"c"), of_category(2, b"d"),
                         of_label(label(30, 2), b"f"))
        texts = (bytes(text) for size in range(6) for text in itertools.product(b"abcdf:, ", repeat=size))
        one, two, both = label(20, 1), label(20, 2), label(20, 1, 2)
        self.assertEqual(readings(table, texts), {
            b"a": label(20), b"f": label(30, 2), b"a:b": one, b"a:c": one, b"a:d": two, b"a:b,d": both, b"a:c,d": both,
            b"a:d,b": both, b"a:d,c": both})

    def test_several_names(self):
        """Each of them is read, whichever counts in writing."""
        table = table_of(*SEVERAL)
        for name in (b"low", b"l", b"base", b"ground", b"g"):
            self.assertEqual(read_label(table, name, SEES_ALL), label(20))
            for category in (b"east", b"orient", b"o", b"sunrise"):
                self.assertEqual(read_label(table, name + b":" + category, SEES_ALL), label(20, 7))
        for name in (b"post", b"p", b"box", b"drop", b"d"):
            self.assertEqual(read_label(table, name, SEES_ALL), label(20, 7))

    def test_sight(self):
        for at, expected in ((label(20, 7), label(20, 7)), (label(20), "E22"), (label(19, 7), "E22"), (label(199), "E22")):
            self.assertEqual(outcome(read_label, SMALL, b"low:e", Caller(at)), expected)
            self.assertEqual(outcome(read_label, SMALL, b"low:e", Caller(at, True)), label(20, 7))

    def test_order(self):
        """A bad table comes first, then a bad subject; the rest is the same plain 22."""
        for read in (read_label, read_range):
            for text in (b"low", b"-L low -H low", b""):
                self.assertEqual(outcome(read, BAD_TABLE, text, BAD_SUBJECT), "E22 2")
                self.assertEqual(outcome(read, BAD_TABLE, text, SEES_NONE), "E22 2")
                for subject in (BAD_SUBJECT, Caller(label(200), True), SEES_NONE):
                    self.assertEqual(outcome(read, SMALL, text, subject), "E22")


class ReadingRanges(unittest.TestCase):
    """Document 01 on reading a range."""

    def test_good(self):
        low, high, pair = label(20), label(40), LABEL
        expected = [(low, low), (low, high), (label(20, 7), label(40, 1, 7)), (low, pair), (pair, pair),
                    (pair, label(40, 1, 2, 7)), (pair, pair)]
        self.assertEqual([read_range(SMALL, text, SEES_ALL) for text in GOOD_RANGES], [Range(*ends) for ends in expected])

    def test_bad(self):
        for text in BAD_RANGES:
            self.assertEqual(outcome(read_range, SMALL, text, SEES_ALL), "E22", text)
            self.assertEqual(outcome(read_range, SMALL, text, Caller(label(0), True)), "E22", text)

    def test_every_text(self):
        """All texts of up to five pieces, from marks, blanks and the texts of labels that are in rising order."""
        pieces = (b"-L ", b" -H ", b" ", b"-", b"low", b"high", b"p", b"?")
        texts = {b"".join(text) for size in range(6) for text in itertools.product(pieces, repeat=size)}
        good = {text for text in texts if outcome(read_range, SMALL, text, SEES_ALL) != "E22"}
        pairs = ((b"low", b"low"), (b"low", b"high"), (b"low", b"p"), (b"high", b"high"), (b"p", b"p"))
        self.assertEqual(good, {b"-L %s -H %s" % ends for ends in pairs})

    def test_sight(self):
        bounds = Range(label(20), label(40, 7))
        for at, expected in ((label(40, 7), bounds), (TOP, bounds), (label(39, 7), "E22"), (label(40), "E22"),
                             (label(0), "E22")):
            self.assertEqual(outcome(read_range, SMALL, b"-L low -H high:e", Caller(at)), expected)
            self.assertEqual(outcome(read_range, SMALL, b"-L low -H high:e", Caller(at, True)), bounds)


class RandomTexts(unittest.TestCase):
    """Random tables, labels, ranges and subjects."""

    def setUp(self):
        self.rng = random.Random(SEED)
        self.tables = [table_of(*any_entries(self.rng)) for _ in range(TABLES)]

    def written(self, write_text, contents_in):
        """Tables, contents, subjects near them and what is written in some form and variant."""
        for table in self.tables:
            for _ in range(8):
                contents = contents_in(self.rng, table)
                subject = subject_near(self.rng, contents.high if isinstance(contents, Range) else contents)
                capacity = self.rng.choice((None, None, 20))
                yield table, contents, subject, outcome(write_text, table, contents, subject, self.rng.choice(FORMS),
                                                        self.rng.choice(VARIANTS), capacity)

    def test_labels_read_back(self):
        counted = collections.Counter()
        for table, at, subject, text in self.written(write_label, label_in):
            if isinstance(text, bytes):
                self.assertEqual(read_label(table, text, subject), at)
            counted[text.partition(" ")[0] if isinstance(text, str) else "text"] += 1
        self.assertEqual(set(counted), {"text", "E13", "E2", "E7"})
        self.assertGreater(counted["text"], TABLES)

    def test_ranges_read_back(self):
        """With status 0. With status 1 the reader refuses them."""
        counted = collections.Counter()
        for table, bounds, subject, answer in self.written(write_range, range_in):
            if isinstance(answer, tuple):
                status, text = answer
                self.assertEqual(outcome(read_range, table, text, subject), bounds if status == 0 else "E22")
                self.assertEqual(status == 1, text.endswith(b" -H ?"))
                answer = f"status {status}"
            counted[answer.partition(" ")[0] if answer.startswith("E") else answer] += 1
        self.assertEqual(set(counted), {"status 0", "status 1", "E13", "E2", "E7"})
        self.assertGreater(min(counted["status 0"], counted["status 1"]), TABLES / 4)

    def test_longest_read_back(self):
        table = table_of(*FULL)
        text, of_range = LONGEST_TEXTS
        self.assertEqual(read_label(table, text, SEES_ALL), TOP)
        self.assertEqual(read_range(table, of_range, SEES_ALL), LONGEST_RANGE)

    def test_names_in_any_order(self):
        """What is read from composed and damaged texts does not depend on the order of categories, and is in sight."""
        counted = collections.Counter()
        for table in self.tables:
            for _ in range(8):
                text = self.rng.choice((composed, label_text_in))(self.rng, table)
                text = damaged_text(self.rng, text) if self.rng.random() < 0.3 else text
                hierarchy, colon, rest = text.partition(b":")
                turned = hierarchy + colon + b",".join(reversed(rest.split(b",")))
                read = outcome(read_label, table, text, SEES_ALL)
                self.assertEqual(outcome(read_label, table, turned, SEES_ALL), read)
                subject = subject_near(self.rng, read if read != "E22" else LABEL)
                seen = read != "E22" and subject.sees(read)
                self.assertEqual(outcome(read_label, table, text, subject), read if seen else "E22")
                counted[read != "E22"] += 1
        self.assertGreater(min(counted.values()), TABLES)

    def test_ends_of_ranges(self):
        """A range is read exactly if both its ends are, and the high one dominates."""
        counted = collections.Counter()
        for table in self.tables:
            text = range_text_in(self.rng, table)
            ends = [outcome(read_label, table, end, SEES_ALL) for end in text.removeprefix(b"-L ").split(b" -H ")]
            good = "E22" not in ends and ends[1].dominates(ends[0])
            self.assertEqual(outcome(read_range, table, text, SEES_ALL), Range(*ends) if good else "E22")
            counted[good] += 1
        self.assertGreater(min(counted.values()), TABLES / 8)


class Lines(unittest.TestCase):
    """docs/PROGRAMS.md on the lines of text_cmd."""

    TABLE = b"table\n" + write(LOW) + write(EAST)
    SMALL = TABLE + b"\nsubject 0\n" + write(TOP)
    FULL = b"table\n" + b"".join(map(write, FULL)) + b"\nsubject 1\n" + write(label(0))
    GOOD = b"label 0 0\n" + write(label(20, 7))

    def answers(self, *lines):
        return text_cmd.answers(b"".join(lines)).decode().splitlines()

    def after_small(self, *lines):
        start, answers = ["table 2", "ok"], self.answers(self.SMALL, *lines)
        self.assertEqual(answers[:2], start)
        return answers[2:]

    def test_at_the_start(self):
        """An empty table, hierarchy 0 with no categories and no override, and a capacity of 20,000."""
        self.assertEqual(self.answers(b"label 0 0\n", write(label(0)), b"label 0 0\n", write(label(1)), b"read-label\nlow\n"),
                         ["error 2", "error 13", "error 22"])
        self.assertEqual(self.answers(self.FULL, b"range 0 0\n", write(LONGEST_RANGE)),
                         ["table 512", "ok", "0 " + LONGEST_TEXTS[1].decode()])

    def test_answers(self):
        at, bounds = write(label(20, 7)), write(Range(label(20), label(20, 7)))
        self.assertEqual(self.after_small(b"label 0 0\n", at, b"label 0 1\n", at, b"range 1 1\n", bounds),
                         ["low:east", "low:e", "0 -L low -H low:e"])
        self.assertEqual(self.after_small(b"read-label\nlow:e\n", b"read-range\n-L low -H low:e\n"),
                         [at.decode().rstrip(), bounds.decode().rstrip()])

    def test_end_of_a_table(self):
        """An empty line or the end of the input; a comment is a line of the table."""
        self.assertEqual(self.answers(self.TABLE), ["table 2"])
        self.assertEqual(self.answers(self.TABLE[:-1]), ["error 22 1"])
        self.assertEqual(self.answers(self.TABLE, b"\n"), ["table 2"])
        self.assertEqual(self.answers(self.TABLE, b"\n\n", b"capacity 1\n"), ["table 2", "ok"])
        self.assertEqual(self.answers(self.TABLE, b"# comment\n\n", b"capacity 1\n"), ["error 22 2", "ok"])
        self.assertEqual(self.answers(self.TABLE, b" \n\n", b"\r\n\n"), ["error 22 2", "error 22"])
        self.assertEqual(self.answers(b"table\n"), ["table 0"])
        self.assertEqual(self.answers(b"table"), ["error 22"])
        self.assertEqual(self.answers(b"table\n\n"), ["table 0"])

    def test_long_lines_of_a_table(self):
        for size in (511, 512, 513, 2000, TABLE_BUFFER, 2 * TABLE_BUFFER):
            for end in (b"\n", b"\n\n", b""):
                self.assertEqual(self.answers(self.TABLE, b"0" * size, end), ["error 22 2"])
                self.assertEqual(self.answers(self.TABLE, write(LOW), b"0" * size, end), ["error 22 2"])
            self.assertEqual(self.answers(self.TABLE, b"0" * size, b"\n", write(LOW), b"\n", b"capacity 1\n"),
                             ["error 22 2", "ok"])

    def test_many_lines_of_a_table(self):
        lines = b"".join(map(write, short_table(600)))
        self.assertEqual(self.answers(b"table\n", lines, b"\n", b"capacity 1\n"), ["error 22 512", "ok"])

    def test_table_buffer(self):
        exact = b"".join(labels_table(TABLE_BUFFER))
        self.assertEqual(len(exact), TABLE_BUFFER)
        count = exact.count(b"\n")
        for tail, expected in ((b"", f"table {count}"), (write(LOW), f"error 22 {count}"), (b"x", f"error 22 {count}"),
                               (write(LOW) * 600, f"error 22 {count}")):
            self.assertEqual(self.answers(b"table\n", exact, tail), [expected])
            if tail != b"x":
                self.assertEqual(self.answers(b"table\n", exact, tail, b"\n", b"capacity 1\n"), [expected, "ok"])
        for size in (TABLE_BUFFER + 1, TABLE_BUFFER + 2, TABLE_BUFFER + 100):
            lines = labels_table(size)
            self.assertEqual(sum(map(len, lines)), size)
            self.assertEqual(self.answers(b"table\n", *lines, b"\n"), [f"error 22 {len(lines) - 1}"])
            self.assertEqual(self.answers(b"table\n", *lines[:9], lines[3], *lines[9:], b"\n"), ["error 22 9"])

    def test_bad_table_stays(self):
        bad = b"table\n" + write(LOW) + b"x\n\n"
        self.assertEqual(self.after_small(bad, self.GOOD, b"range 0 0\n", write(RANGE), b"read-label\nx\n",
                                          b"read-range\n\n"), ["error 22 1"] * 5)
        self.assertEqual(self.after_small(bad, b"label 2 0\n", write(LABEL), b"range 0 0\n", write(LABEL), b"read-label\n",
                                          b"x" * TEXT_BUFFER, b"\n", b"read-label\nlow"),
                         ["error 22 1", "error 22", *["error 22 1"] * 3])
        for request, answer in ((b"label 0 0\n", "error 22 1"), (b"range 0 2\n", "error 22"), (b"read-range\n", "error 22 1")):
            self.assertEqual(self.after_small(bad, request), ["error 22 1", answer])
        self.assertEqual(self.after_small(bad, b"table 1\n", b"capacity 9\n", b"subject 1\n", write(LABEL), self.GOOD,
                                          self.TABLE, b"\n", self.GOOD),
                         ["error 22 1", "error 22", "ok", "ok", "error 22 1", "table 2", "low:east"])

    def test_bounds(self):
        self.assertEqual((TABLE_BUFFER, TEXT_BUFFER, MOST_CAPACITY), (65536, 16453 + 1, 20000))

    def test_refused_numbers_change_nothing(self):
        for number in (2, 256, 2 ** 32, 2 ** 32 + 1, 2 ** 64 - 1):
            self.assertEqual(self.after_small(b"subject %d\n" % number, write(label(0)), self.GOOD),
                             ["error 22", "low:east"])
        self.assertEqual(self.after_small(b"capacity 7\n", b"capacity 20001\n", self.GOOD), ["ok", "error 22", "error 7 8"])
        self.assertEqual(self.after_small(b"capacity 0\n", b"capacity 20000\n", self.GOOD), ["ok", "ok", "low:east"])

    def test_capacity_is_for_the_text(self):
        """The status and the blank after it are not counted."""
        bounds = write(Range(label(20), label(20, 7)))
        self.assertEqual(self.after_small(b"capacity 18\n", b"range 0 0\n", bounds, b"capacity 17\n", b"range 0 0\n", bounds),
                         ["ok", "0 -L low -H low:east", "ok", "error 7 18"])

    def test_wrong_count_of_numbers_takes_no_operand(self):
        for line in (b"label 0\n", b"label 0 0 0\n", b"read-label 0\n", b"table 0\n", b"subject\n", b"capacity\n"):
            self.assertEqual(self.after_small(line, self.GOOD), ["error 22", "low:east"])
        for line in (b"label 0 2\n", b"label 2 0\n", b"range 0 2\n", b"subject 2\n"):
            self.assertEqual(self.after_small(line, write(label(20)), self.GOOD), ["error 22", "low:east"])

    def test_lines_of_text(self):
        """Any line is an operand, up to 16,453 bytes and its LF."""
        self.assertEqual(self.after_small(b"read-label\n\n", self.GOOD), ["error 22", "low:east"])
        self.assertEqual(self.after_small(b"read-label\n# low\n", self.GOOD), ["error 22", "low:east"])
        self.assertEqual(self.after_small(b"read-label\nlabel 0 0\n", self.GOOD), ["error 22", "low:east"])
        self.assertEqual(self.after_small(b"read-label\n"), ["error 22"])
        self.assertEqual(self.after_small(b"read-label\nlow"), ["error 22"])

    def test_longest_text(self):
        text, line = LONGEST_TEXTS[1], write(LONGEST_RANGE).decode().rstrip()
        for given, expected in ((text, line), (text + b"0", "error 22"), (text[:-1], "error 22")):
            self.assertEqual(self.answers(self.FULL, b"read-range\n", given, b"\n", b"capacity 1\n"),
                             ["table 512", "ok", expected, "ok"])

    def test_bytes_of_text(self):
        """A text is the line without its LF, whatever bytes it holds."""
        for text in (b"low\r", b"low\0", b"\0", b"\xff", b"low ", b" low", b"\xc3\xa9"):
            self.assertEqual(self.after_small(b"read-label\n" + text + b"\n", self.GOOD), ["error 22", "low:east"])


class StoredCases(unittest.TestCase):
    """What the stored input takes for good or refused is so, and by the check that it says."""

    def test_refusals(self):
        choices = list(text_cmd_cases.choices())
        for choice in choices:
            *state, answer = text_cmd.answers(choice.state + choice.request).splitlines(keepends=True)
            self.assertEqual(len(state), 3)
            if choice.refusal is None:
                self.assertFalse(answer.startswith(b"error"), choice.what)
            else:
                self.assertTrue(answer.startswith(choice.refusal), choice.what)
        self.assertEqual({choice.refusal for choice in choices}, {None, *text_cmd_cases.CHECKS.values()})

    def test_bad_lines(self):
        for what, line in text_cmd_cases.BAD_LINES:
            self.assertEqual(text_cmd.answers(text_cmd_cases.table(LOW, line, WEST)), b"error 22 1\n", what)
        self.assertEqual(text_cmd.answers(text_cmd_cases.table(LOW, WEST)), b"table 2\n")

    def test_sections(self):
        """Each ends between two requests."""
        for what, requests in text_cmd_cases.SECTIONS:
            self.assertTrue(text_cmd.answers(b"".join(requests()) + b"capacity 1\n").endswith(b"\nok\n"), what)

    def test_text_sizes(self):
        """The texts about as long as the line buffer are good."""
        sizes = {len(line) for line in b"".join(text_cmd_cases.text_sizes()).splitlines(keepends=True)}
        self.assertTrue({LINE_BUFFER - 1, LINE_BUFFER, LINE_BUFFER + 1, TEXT_BUFFER, TEXT_BUFFER + 1} <= sizes)
        for size in range(LINE_BUFFER - 4, LINE_BUFFER + 4):
            text = b"h" * (size - len(text_cmd_cases.LENGTHS_TAIL)) + text_cmd_cases.LENGTHS_TAIL
            self.assertEqual(len(read_label(table_of(*text_cmd_cases.LENGTHS), text, SEES_ALL).categories), 16)

    def test_random_requests(self):
        """Each answer is among them, and many texts are good."""
        requests = b"".join(text_cmd_cases.random_requests(random.Random(SEED)))
        lines = text_cmd.answers(requests).splitlines()
        counted = collections.Counter(b" ".join(line.split(b" ")[:2]) for line in lines if line.startswith(b"error"))
        self.assertEqual(set(counted), {b"error %d" % number for number in (2, 7, 13, 22)})
        self.assertTrue(any(line.startswith(b"error 22 ") for line in lines))
        self.assertTrue({b"0", b"1"} <= {line.split(b" ")[0] for line in lines})
        self.assertLess(sum(counted.values()), 0.7 * len(lines))


if __name__ == "__main__":
    unittest.main()
