# The requests of text_cmd's stored input that follow its worked run: document 01's example, each refusal and each order of
# checks, forms and names, texts, tables, boundaries, the protocol, then random tables with random requests. A comment line
# in the input says what each is about. `longer_runs` has larger and longer inputs, which are not stored.

import itertools
import random
from collections import namedtuple

import cases
import mac_cmd
import mac_cmd_cases
import segments_cmd
from cases import MEGABYTE, Program, case, command_line, filled, operand_line
from protocol import LINE_BUFFER, NUMBERS_END
from rules import LONGEST_NAME, Range, Tuple, write
from samples import (BORDER_HIERARCHIES, BORDER_LABELS, LABEL, RANGE, TOP, TUPLE, WORD_BORDERS, at_times, label,
                     sum_changed)
from text import ABBREVIATED, ALIAS_FORM, DEFINITION_FORM, FORMS, MOST_ENTRIES, VARIANTS, WHOLE_NAMES
from text_cmd import COMMANDS, MOST_CAPACITY, TABLE_BUFFER, TEXT_BUFFER
from text_samples import (BAD_RANGES, BAD_TEXTS, EAST, ENTRIES, FULL, GOOD_RANGES, GOOD_TEXTS, LONGEST_RANGE, LONGEST_TEXTS,
                          LOW, REPEATS, SEVERAL, WEST, any_entries, damaged_text, label_in, label_text_in,
                          labels_table, numbered_label, of_category, of_hierarchy, of_label, range_in, range_text_in,
                          short_table, spoiled, subject_near, table_of, text_in)

RANDOM_TABLES = 40
RANDOM_REQUESTS = 16  # on each
FAR = [2 ** 32, 2 ** 32 + 1, 2 ** 63, NUMBERS_END - 1]  # numbers of which the lower bits would often be good


# Requests

def table(*lines):
    """The request that takes a table, of entries or lines."""
    return b"table\n" + b"".join(map(operand_line, lines)) + b"\n"


def subject(at, override=0):
    return command_line(b"subject", [override]) + operand_line(at)


def capacity(size):
    return command_line(b"capacity", [size])


def written(contents, form=DEFINITION_FORM, variant=WHOLE_NAMES):
    """The request for the text of a label or a range."""
    word = b"range" if isinstance(contents, Range) else b"label"
    return command_line(word, [form, variant]) + operand_line(contents)


def in_every_form(*contents):
    return b"".join(written(each, form, variant) for each in contents for form in FORMS for variant in VARIANTS)


def read_label(text):
    return b"read-label\n" + text + b"\n"


def read_range(text):
    return b"read-range\n" + text + b"\n"


def range_text(low, high):
    return b"-L " + low + b" -H " + high


def read_anywhere(text):
    """A text read as a label, and as each end of a range."""
    return read_label(text) + read_range(range_text(b"low", text)) + read_range(range_text(text, b"high:north,south,east"))


# The table of the samples, room for every text, and a subject that sees every label.
SEES_ALL = capacity(MOST_CAPACITY) + subject(TOP)
SMALL = table(*ENTRIES) + SEES_ALL
KEPT = written(LABEL) + written(LABEL, ALIAS_FORM, ABBREVIATED)  # shows whether all of that is still there
PROGRAM = Program(
    COMMANDS,
    good=(capacity(MOST_CAPACITY), SMALL + written(RANGE), read_range(b"-L low -H pair")),
    numbered=lambda size: filled(b"capacity ", b"0", b"%d" % MOST_CAPACITY, size),
    with_first=lambda line: SMALL + command_line(b"label", [0, 0]) + line,
    with_last=lambda line: SMALL + command_line(b"range", [0, 0]) + line,
    numbers={b"capacity": (MOST_CAPACITY,)},
    others={b"table": [*map(write, ENTRIES), b"\n"], b"read-label": [b"low:east\n"], b"read-range": [b"-L low -H pair\n"]})


# Document 01's example

def example():
    low, east = label(20), label(20, 7)
    yield case("the whole table", table(LOW, EAST))
    yield case("(20,{7}) for subject (20,{7})", subject(east), written(east))
    yield case("a buffer of 7, and one of 8", capacity(7), written(east), capacity(8), written(east))
    yield case("range [(20,{}),(20,{7})] for subject (20,{})", capacity(MOST_CAPACITY), subject(low),
               written(Range(low, east)))


# Refusals. Each part of a request is chosen from a list, and each choice has the checks that it fails, so that a request
# fails what its parts do and gets the answer of the first of that.

CHECKS = {"number": b"error 22\n", "table": b"error 22 2\n", "operand": b"error 22\n", "sight": b"error 13\n",
          "name": b"error 2\n", "room": b"error 7 ", "text": b"error 22\n"}  # in their order, each with how the refusal begins
TABLES = [("", table(*ENTRIES), set()), ("a bad table", table(LOW, EAST, of_category(1, b"low"), TUPLE), {"table"})]
ROOM = [("", capacity(MOST_CAPACITY), set()), ("no room", capacity(0), {"room"})]
NO_ROOM_NEEDED = [("", capacity(0), set())]
IN_SIGHT, BY_OVERRIDE = ("", subject(TOP), set()), ("read override", subject(label(0), 1), set())
OUT_OF_SIGHT, LOW_END = ("out of sight", subject(label(19, 7))), ("the low end alone in sight", subject(label(20, 0)))
NUMBERS = [("", (0, 0), set()), ("", (1, 1), set()), ("form 2", (2, 0), {"number"}), ("variant 2", (1, 2), {"number"})]
NO_NUMBERS = [("", (), set())]


def faulty(good, other):
    """Operands in the place of a good one."""
    return [("a wrong sum", sum_changed(write(good), 1), {"operand"}), ("another kind", write(other), {"operand"})]


LABELS = [("", label(20, 7), set()), ("a hierarchy with no name", label(21, 7), {"name"}),
          ("a category with no name", label(20, 7, 8), {"name"}), *faulty(LABEL, RANGE)]
RANGES = [("", Range(label(20), label(40, 1)), set()), *faulty(RANGE, LABEL),
          ("a low end with no name", Range(label(20, 0), label(40, 0, 1)), {"name"})]
NAMELESS_HIGH_END = "a high end with no name", Range(label(20), label(41, 1))
TEXTS = [("", b"low:east\n", set()), ("an unknown name", b"low:west\n", {"text"}), ("an empty line", b"\n", {"text"})]
RANGE_TEXTS = [("", b"-L low -H high:east\n", set()), ("an unknown name", b"-L low -H upper\n", {"text"}),
               ("a high end that does not dominate", b"-L low:east -H high\n", {"text"}), ("?", b"-L low -H ?\n", {"text"})]

# By word, what comes after the table: capacities, subjects, numbers and operands. Reading needs no room.
PARTS = [
    (b"label", ROOM, [IN_SIGHT, (*OUT_OF_SIGHT, {"sight"}), BY_OVERRIDE], NUMBERS, LABELS),
    (b"range", ROOM, [IN_SIGHT, (*OUT_OF_SIGHT, {"sight"}), BY_OVERRIDE], NUMBERS,
     [*RANGES, (*NAMELESS_HIGH_END, {"name"})]),
    (b"range", ROOM, [(*LOW_END, set())], NUMBERS, [*RANGES, (*NAMELESS_HIGH_END, set())]),
    (b"read-label", NO_ROOM_NEEDED, [IN_SIGHT, (*OUT_OF_SIGHT, {"text"}), BY_OVERRIDE], NO_NUMBERS, TEXTS),
    (b"read-range", NO_ROOM_NEEDED, [IN_SIGHT, (*OUT_OF_SIGHT, {"text"}), (*LOW_END, {"text"}), BY_OVERRIDE],
     NO_NUMBERS, RANGE_TEXTS),
]
Choice = namedtuple("Choice", "what state request refusal")  # the refusal's beginning, or None


def choices():
    for word, *parts in PARTS:
        for chosen in itertools.product(TABLES, *parts):
            whats, (*state, numbers, operand), failed = zip(*chosen)
            refusal = next((CHECKS[check] for check in CHECKS if check in set().union(*failed)), None)
            yield Choice(", ".join([word.decode(), *filter(None, whats)]), b"".join(state),
                         command_line(word, numbers) + operand_line(operand), refusal)


def each_refusal():
    for state, chosen in itertools.groupby(choices(), lambda choice: choice.state):
        yield state
        yield from (case(choice.what, choice.request) for choice in chosen)


# Forms and names

def forms():
    base, roof = label(20), label(30)
    yield SMALL
    for at in (base, label(20, 7), LABEL, label(40, 1, 2, 7), label(30, 2)):
        yield case(f"hierarchy {at.hierarchy}, categories {sorted(at.categories)}", in_every_form(at))
    yield case("ranges with an alias for neither end, the low end, the high end, both",
               in_every_form(Range(base, label(40, 7)), Range(LABEL, label(40, 1, 2)), Range(base, LABEL),
                             Range(LABEL, LABEL)))
    yield case("aliases of labels that have no other names", table(of_label(base, b"base", b"b"), of_label(roof, b"roof")),
               in_every_form(base, roof, Range(base, roof)))
    yield case("an alias for the one, another name for the other",
               table(of_label(base, b"base", b"b"), of_hierarchy(30, b"roof", b"r")),
               in_every_form(base, roof, Range(base, roof), Range(roof, roof)))
    yield case("a hierarchy and a category of one number",
               table(LOW, EAST, of_hierarchy(7, b"seven"), of_category(20, b"twenty"), of_category(30, b"thirty")),
               *(written(at) for at in (label(20, 7), label(7, 20), label(20, 20), label(7, 7), label(30), label(20, 30))))


def several_names():
    asked = in_every_form(label(20), label(20, 7), label(20, 8), label(20, 7, 8), Range(label(20), label(20, 7)))
    yield SEES_ALL
    for what, entries in (("several names, of which the last counts", SEVERAL), ("the same in reverse", SEVERAL[::-1]),
                          ("without the last two", SEVERAL[:-2]), ("the first seven", SEVERAL[:7])):
        yield case(what, table(*entries), asked)
    yield case("all of them are read", table(*SEVERAL), *map(read_label, (
        b"low", b"l", b"base", b"ground", b"g", b"post", b"p", b"box", b"drop", b"d", b"low:east", b"base:orient", b"g:o",
        b"l:sunrise", b"ground:o,west", b"l:w,east")))
    yield case("one category under two names", *map(read_label, (
        b"low:east,orient", b"low:east,o", b"low:o,west,sunrise", b"l:o,orient", b"g:west,w")))
    yield case("the ends of a range under several names", *(
        read_range(range_text(low, high)) for low in (b"low", b"g") for high in (b"base:east", b"post", b"drop", b"l:w,o")))


def borders():
    """The borders of hierarchies and categories, with their names in falling order."""
    entries = [*(of_category(c, b"c%d" % c, b"k%d" % c) for c in reversed(WORD_BORDERS)),
               *(of_hierarchy(h, b"h%d" % h, b"x%d" % h) for h in reversed(BORDER_HIERARCHIES))]
    yield case("names at all borders", table(*entries), SEES_ALL)
    for at in (*map(label, BORDER_HIERARCHIES), *BORDER_LABELS[:-1]):
        yield case(f"hierarchy {at.hierarchy}, categories {sorted(at.categories)}", in_every_form(at))
        yield read_label(text_in(table_of(*entries), at))
    yield case("a category that has no name", *(written(label(20, 0, c, 255)) for c in (1, 62, 65, 126, 190, 254)))
    yield case("categories in falling order", read_label(b"h20:" + b",".join(b"c%d" % c for c in reversed(WORD_BORDERS))))
    yield case("a range from the lowest to the highest", in_every_form(Range(label(0), label(199, *WORD_BORDERS))),
               read_range(b"-L h0 -H h199:c255,k0"))


def near_aliases():
    """Aliases of labels that differ in one category or in the hierarchy, and labels between them that have none."""
    entries = [of_label(at, b"l%d" % number, b"a%d" % number)
               for number, at in enumerate([*BORDER_LABELS, label(0), label(199), label(199, 255)])]
    yield case("aliases of labels at borders", SEES_ALL, table(*entries))
    for entry in entries:
        yield in_every_form(entry.value) + read_label(entry.name) + read_label(entry.abbreviation)
    yield case("no aliases of these", *(written(at, ALIAS_FORM) for at in (
        label(21), *(label(20, c) for c in (1, 62, 65, 126, 190, 193, 254)), label(21, 255), label(20, *WORD_BORDERS[1:]),
        label(20, *WORD_BORDERS[:-1]), label(20, 1, *WORD_BORDERS), label(198, 255), label(1))))


# Texts

def texts():
    yield SMALL
    yield case("good texts of labels", *map(read_anywhere, GOOD_TEXTS))
    yield case("bad texts of labels", *map(read_anywhere, BAD_TEXTS))
    yield case("good texts of ranges", *map(read_range, GOOD_RANGES))
    yield case("bad texts of ranges", *map(read_range, BAD_RANGES))
    yield case("the text of a range for a label", read_label(GOOD_RANGES[0]))


# Names of every length for one hierarchy, and categories that make such a text about as long as the line buffer.
LENGTHS = [*(of_hierarchy(20, b"h" * size) for size in range(1, LONGEST_NAME + 1)),
           *(of_category(c, b"c" * (LONGEST_NAME - 2) + b"%02d" % c) for c in range(15)), of_category(15, b"d" * 16)]
LENGTHS_TAIL = b":" + b",".join(entry.name for entry in LENGTHS[LONGEST_NAME:])


def text_sizes():
    yield case("names of every length", table(*LENGTHS), SEES_ALL)
    yield from (read_label(b"h" * size) for size in range(LONGEST_NAME + 2))
    yield case("texts about as long as the line buffer")
    for size in range(LINE_BUFFER - 4, LINE_BUFFER + 4):
        text = b"h" * (size - len(LENGTHS_TAIL)) + LENGTHS_TAIL
        yield read_label(text) + read_label(text + b"x") + read_range(range_text(text, text))
    yield case("bad ones", *(read_label(b"x" * size) + read_range(b"-L" + b" " * (size - 2)) for size in (
        LINE_BUFFER - 1, LINE_BUFFER, LINE_BUFFER + 1, 2 * LINE_BUFFER, TEXT_BUFFER - 1)))
    yield case("one that is too long, and a short one after it", read_label(b"h" * TEXT_BUFFER), read_label(b"h" * 4))
    yield case("nothing is left of a longer one", read_label(b"hhh:" + b"d" * 16), read_label(b"hhh:"), read_label(b"h"))


# Sight

def sight():
    seen = [(label(20), b"low"), (label(20, 7), b"low:e"), (LABEL, b"pair"), (label(40, 1, 2, 7), b"high:n,s,e")]
    others = [label(0), label(19, 1, 2, 7), label(39, 1, 2, 7), label(40, 1, 2)]  # see none or some of them
    yield SMALL
    for at in (*others, *(one for one, _ in seen)):
        for override in (0, 1):
            yield case(f"hierarchy {at.hierarchy}, categories {sorted(at.categories)}, override {override}",
                       subject(at, override), *(written(one) + read_label(text) for one, text in seen))
            for (low, low_text), (high, high_text) in itertools.combinations_with_replacement(seen, 2):
                if high.dominates(low):
                    yield written(Range(low, high)) + read_range(range_text(low_text, high_text))
    yield case("the low end alone in sight: the high end needs no name", subject(label(20)),
               in_every_form(Range(label(20), label(20, 9)), Range(label(20), TOP)), written(Range(label(19), label(40))))


# Tables

# What may stand in the place of line 1 of a table that is good without it.
BAD_LINES = [
    ("a label", write(LABEL)), ("a range", write(RANGE)), ("a tuple", write(TUPLE)), ("the empty tuple", write(Tuple())),
    ("a comment", b"# low\n"), ("# alone", b"#\n"), ("a blank", b" \n"), ("a CR", b"\r\n"), ("a NUL", b"\0\n"),
    ("a dash", b"-\n"), ("a command", b"table\n"), ("a request", written(label(20))), ("a text", b"low\n"),
    ("a CR before LF", write(EAST)[:-1] + b"\r\n"), ("a blank before it", b" " + write(EAST)),
    ("a good line and more", write(EAST)[:-1] + write(EAST)),
    *((f"a line of {size} bytes", filled(b"", b"0", b"", size)) for size in (
        LINE_BUFFER - 1, LINE_BUFFER, LINE_BUFFER + 1, 2 * LINE_BUFFER)),
    ("a good line, filled up", filled(write(EAST)[:-1], b"0", b"", LINE_BUFFER + 1)),
    ("a good line after the bytes that fit", b"x" * LINE_BUFFER + write(EAST)),
]


def tried(*lines):
    """A table, and what it makes of a label and a text."""
    return table(*lines) + written(label(20)) + read_label(b"low")


def repeats():
    yield SEES_ALL
    for what, entries, _ in REPEATS:
        yield case(what, tried(*entries))


def bad_lines():
    yield SEES_ALL
    yield case("no line", tried(), subject(label(0)), written(label(20)), subject(TOP))
    yield case("one line", tried(LOW))
    for what, line in BAD_LINES:
        yield case(what, tried(LOW, line, WEST))
    for what, line in mac_cmd_cases.wrong_lines():
        yield case(what, table(LOW, line))
    yield case("two bad lines, of which the first counts", tried(LOW, LOW, b"x\n"), tried(LOW, b"x\n", LOW),
               tried(b"x\n", LOW, LOW), tried(LOW, EAST, TUPLE, LOW, b"x\n"), tried(LOW, EAST, b"x\n", TUPLE))


def bad_table_kept():
    yield case("a bad table takes the place of a good one", SMALL, table(LOW, EAST, LOW), KEPT, written(RANGE),
               *map(read_anywhere, (b"low", b"x")))
    yield case("subject and capacity are taken under it", subject(label(20)), capacity(3), KEPT)
    yield case("bad operands come after it", PROGRAM.request(b"label", b"x\n"), PROGRAM.request(b"range", LABEL),
               read_label(b"x" * TEXT_BUFFER), read_range(b"x" * TEXT_BUFFER))
    yield case("bad numbers come before it, and before bad operands", written(LABEL, 2, 0), written(RANGE, 0, 2),
               PROGRAM.request(b"label", b"x\n", numbers=(2, 0)), PROGRAM.request(b"range", LABEL, numbers=(0, 2)))
    yield case("it stays after a bad command line", b"table 0\n", b"table \n", KEPT)
    yield case("a good one takes its place", table(LOW, EAST), *map(written, (label(20), label(20, 7))), read_label(b"low"))
    yield case("bad ones and one with no line", *(table(*lines) + KEPT for lines in ([b"x\n"], [LOW, b"x\n"], [])))
    yield case("nothing is left of a longer table", SMALL, table(EAST), written(LABEL), *map(read_label, (b"pair", b"low")))


# Large tables

def longest_texts():
    text, of_range = LONGEST_TEXTS
    hierarchy, _, categories = text.partition(b":")
    turned = b",".join(reversed(categories.split(b",")))
    yield case("as many entries as there may be, with the longest names", table(*FULL), SEES_ALL)
    yield case("the longest label, and with abbreviations", written(TOP), written(TOP, 0, ABBREVIATED))
    for what, contents, size in (("label", TOP, len(text)), ("range", LONGEST_RANGE, len(of_range))):
        yield case(f"the longest {what}, with a byte too little and with just enough", capacity(size - 1), written(contents),
                   capacity(size), written(contents))
    yield case("they are read", capacity(MOST_CAPACITY), read_label(text), read_range(of_range),
               read_label(text_in(table_of(*FULL), TOP, variant=ABBREVIATED)))
    yield case("in falling order, and with one category again", read_label(hierarchy + b":" + turned),
               read_label(text + b"," + turned[:LONGEST_NAME]))
    yield case("a byte more is no line of text, whatever stands before it", read_range(of_range + b"0"))
    yield case("the first and the last entries", written(label(0, 0)), written(FULL[-1].value, 1, 1),
               written(label(56, 56), 1, 1), written(label(199, 255)), read_label(FULL[-1].name), read_label(FULL[0].name))


def many_lines():
    most, one_more = short_table(MOST_ENTRIES), of_category(0, b"one-more")
    yield SEES_ALL
    yield case("as many entries as there may be", tried(*most), read_label(b"low:c511"), read_label(b"low:c511,c255"))
    yield case("one more", tried(*most, one_more))
    yield case("a faulty line more", tried(*most, b"x\n"))
    yield case("two more", tried(*most, one_more, of_category(1, b"two-more")))
    yield case("a repeat in the last line", tried(*most[:-1], LOW))
    yield case("a repeat in the last line, and one more", tried(*most[:-1], LOW, one_more))


def table_buffer():
    exact, over = labels_table(TABLE_BUFFER), labels_table(TABLE_BUFFER + 60)
    yield SEES_ALL
    yield case("a table as long as the buffer", table(*exact), written(numbered_label(len(exact) - 1), ALIAS_FORM),
               read_label(b"n000".ljust(LONGEST_NAME - 1, b"x")))
    yield case("with its last line a repeat", tried(*exact[:-1], exact[-2]))
    yield case("with a line more", tried(*exact, LOW))
    yield case("a table of which the last LF does not fit", tried(*labels_table(TABLE_BUFFER + 1)))
    yield case("one of which a line is cut in its middle, and requests that are skipped", tried(*over, KEPT))
    yield case("one of which a line before that is bad", tried(*over[:6], over[5], *over[7:]))
    yield case("a small table after them", SMALL, KEPT)


# Numbers

def capacities():
    low, bounds = label(20), Range(label(20), label(20, 7))
    yield SMALL
    for size in (0, 1, 2, 3, 7, 8, 10, 11, 17, 18, MOST_CAPACITY - 1, MOST_CAPACITY):
        yield case(f"capacity {size}", capacity(size), subject(TOP), *map(written, (low, bounds.high, bounds)),
                   subject(low), written(bounds))
    yield case("more than the most, which changes nothing", subject(TOP))
    for size in (MOST_CAPACITY + 1, 2 ** 16, *FAR, MOST_CAPACITY):
        yield capacity(7) + capacity(size) + written(bounds.high)


def numbers_out_of_bounds():
    yield SMALL
    for number in (2, 3, 10, 255, 256, 256 + 1, *FAR):
        yield case(f"number {number}", *(written(contents, *numbers) for contents in (LABEL, RANGE)
                                         for numbers in ((number, 0), (0, number), (number, number))))
        yield subject(label(0), number) + KEPT
    yield case("a subject that is refused changes nothing", *map(subject, (b"x\n", b"\n", RANGE)), KEPT)


# The protocol

def between(requests):
    """Requests after those of the small table, and what is left of it."""
    return itertools.chain([SMALL], requests, [KEPT])


def every_kind():
    """With an empty line after each, at which a table ends."""
    for request in cases.every_kind(PROGRAM):
        yield SMALL + request + b"\n" + KEPT


def misplaced_lines():
    good = written(LABEL)
    command, operand = good.splitlines(keepends=True)
    yield case("empty lines and comments between requests", b"\n\n#\n##\n#table\n# table\n\n", good)
    for what, line in (("an empty line", b"\n"), ("a comment", b"# comment\n")):
        yield case(f"{what} before the operand, which is then not taken", command, line, operand)
        yield case(f"{what} for a text, and the text after it", b"read-label\n", line, b"low\n", b"read-range\n", line,
                   b"-L low -H low\n")
    yield case("one operand too many", good, operand, read_label(b"low"), b"low\n")
    yield case("no operand: the next command is taken for it", command, capacity(0))
    yield case("no text: the next command is taken for it", b"read-label\n", capacity(0), b"read-range\n", capacity(0))
    yield case("an operand for a command that has none", capacity(MOST_CAPACITY), operand)
    yield case("a second empty line after a table", table(*ENTRIES), b"\n", good)
    yield case("no empty line after a table: requests are lines of it", table(*ENTRIES)[:-1], good, b"\n", good,
               table(*ENTRIES))
    yield from cases.no_commands()


UNKNOWN_WORDS = [*(command_line(word, [0] * command.numbers)[:-1] for commands in (mac_cmd.COMMANDS, segments_cmd.COMMANDS)
                   for word, command in commands.items()),
                 b"check 0 0 0 2 0", b"read", b"read label", b"read_label", b"readlabel", b"label-read", b"-label", b"read-",
                 b"text", b"tabletable", b"low", b"low:east", b"-L low -H low", b"0", b"0 0", b"\0", b"\xff"]


def number_forms():
    for word in (b"subject", b"capacity", b"label", b"range"):
        numbers = PROGRAM.numbers.get(word, [0] * COMMANDS[word].numbers)
        yield SMALL
        yield from (request + KEPT for request in cases.number_forms(word, numbers, b"".join(PROGRAM.operands(word))))


# Random requests

def random_text(rng, known):
    """A text to read, damaged at times."""
    any_text, read = rng.choice(((label_text_in, read_label), (range_text_in, read_range)))
    text = any_text(rng, known)
    return read(damaged_text(rng, text) if at_times(rng, 0.2) else text)


def random_contents(rng, known):
    """A label or range to write, at times for a new subject or with another capacity."""
    contents = rng.choice((label_in, range_in))(rng, known)
    near = subject_near(rng, rng.choice((contents.low, contents.high)) if isinstance(contents, Range) else contents)
    if at_times(rng, 0.5):
        yield subject(near.label, int(near.read_override))
    if at_times(rng, 0.2):
        yield capacity(rng.choice((MOST_CAPACITY, rng.randrange(60))))
    command, operand = written(contents, rng.choice(FORMS), rng.choice(VARIANTS)).splitlines(keepends=True)
    yield command + cases.damaged_at_times(rng, operand, 0.02)


def random_table(rng, most):
    """A table, bad at times, and requests that have to do with its names."""
    entries = any_entries(rng, most)
    known = table_of(*entries)
    yield table(*(spoiled(rng, entries) if entries and at_times(rng, 0.1) else entries))
    for _ in range(RANDOM_REQUESTS):
        yield random_text(rng, known) if at_times(rng, 0.5) else b"".join(random_contents(rng, known))


def random_tables(rng, count, most=20):
    return b"".join(b"".join(random_table(rng, most)) for _ in range(count))


def random_requests(rng):
    yield case(f"{RANDOM_TABLES} random tables with {RANDOM_REQUESTS} texts each", random_tables(rng, RANDOM_TABLES))


# What is not stored

def at_the_start():
    """Requests on what the program starts with: no name, the lowest label with no override, and the most room."""
    bounds = Range(label(0), label(20, 7))
    yield written(label(0)) + written(label(1)) + read_label(b"low") + read_range(b"-L low -H low")
    yield table(of_hierarchy(0, b"bottom"), *ENTRIES)
    yield written(label(0)) + written(label(20)) + read_label(b"bottom") + read_label(b"low") + written(bounds)
    yield table(*FULL) + subject(TOP) + written(LONGEST_RANGE)


def tables_at_the_end():
    """Tables that the end of the input ends."""
    lines, exact, over = b"".join(map(write, ENTRIES)), *(b"".join(labels_table(TABLE_BUFFER + more)) for more in (0, 1))
    for what, end in (("no line", b""), ("no empty line", lines), ("no last LF", lines[:-1]),
                      ("one byte for a line", lines + b"0"), ("a bad line, and no last LF", lines + b"x\n" + lines[:-1]),
                      ("as long as the buffer", exact), ("some lines more", exact + lines),
                      ("a byte more", exact + b"0"), ("a byte less", exact[:-1]),
                      ("an LF that does not fit", over), ("as long as the buffer with no last LF", over[:-1]),
                      ("a last line of a megabyte", lines + b"0" * MEGABYTE)):
        yield f"a table at the end: {what}", SMALL + KEPT + b"table\n" + end


def texts_at_the_end():
    for what, text in (("no byte", b""), ("a good text", b"low"), ("a good text and a CR", b"low\r"),
                       ("as many bytes as a text may have", b"x" * (TEXT_BUFFER - 1)), ("one more", b"x" * TEXT_BUFFER)):
        yield f"a text with no LF at the end: {what}", SMALL + KEPT + b"read-label\n" + text
    yield "a range with no LF at the end", SMALL + KEPT + b"read-range\n-L low -H pair"
    yield "the longest range with no LF at the end", table(*FULL) + SEES_ALL + read_range(LONGEST_TEXTS[1])[:-1]


def cut_off_under_a_bad_table():
    """Requests that the end of the input cuts off before or in their operand, after a bad table."""
    bad = SMALL + table(LOW, b"x\n")
    for command in (b"label 0 0\n", b"range 0 0\n", b"read-label\n", b"read-range\n", b"label 2 0\n", b"range 0 2\n", b"subject 0\n"):
        for what, operand in (("no operand", b""), ("no last LF", write(LABEL)[:-1])):
            yield f"a bad table, then {command.decode().strip()} with {what}", bad + command + operand


def long_texts():
    text = LONGEST_TEXTS[1]
    yield "the longest range, and one byte less and more", table(*FULL) + SEES_ALL + b"".join(
        map(read_range, (text, text[:-1], text + b"0", text)))
    for size in (TEXT_BUFFER - 1, TEXT_BUFFER):
        yield f"texts of {size} bytes", SMALL + b"".join(
            read(b"-L low".ljust(size, b"x")) + KEPT for read in (read_label, read_range))
    for what, fill in (("x", b"x"), ("good names", b"low,"), ("NUL", b"\0"), ("ff", b"\xff"), ("blanks", b" ")):
        line = fill * (MEGABYTE // len(fill))
        yield f"texts of a megabyte of {what}, then requests", SMALL + b"".join(
            read(line) + KEPT for read in (read_label, read_range))


def long_tables():
    lines = b"".join(map(write, ENTRIES))
    *almost, last = labels_table(TABLE_BUFFER)
    almost = b"".join(almost)
    exact = almost + last
    for what, data in (("a line of a megabyte", lines + b"0" * MEGABYTE + b"\n" + lines),
                       ("a line of a megabyte of NUL", lines + b"\0" * MEGABYTE + b"\n"),
                       ("a line of every byte", lines + bytes(byte for byte in range(256) if byte != 10) + b"\n"),
                       ("a megabyte of short lines", b"x\n" * (MEGABYTE // 2)),
                       ("a megabyte of comments", b"# comment\n" * (MEGABYTE // 10)),
                       ("a megabyte of good lines", exact * (MEGABYTE // len(exact))),
                       ("a line that is too long where the buffer ends", almost + b"0" * 600 + b"\n" + lines),
                       ("lines as long as the line buffer", filled(b"", b"0", b"", LINE_BUFFER) * 200)):
        yield f"a table of {what}, then requests", SMALL + table(data) + KEPT + read_label(b"low") + SMALL + KEPT
    yield "large and small tables in turns", 10 * b"".join(
        request + KEPT for request in (table(exact), SMALL, table(*short_table(MOST_ENTRIES + 1)), SMALL))


def longer_runs():
    yield "requests before the first table", b"".join(at_the_start())
    yield from itertools.chain(tables_at_the_end(), texts_at_the_end(), cut_off_under_a_bad_table(), long_texts(), long_tables())
    for seed in range(2, 5):
        yield f"long random run {seed}", random_tables(random.Random(seed), 200)
    yield "random tables of some hundred entries", random_tables(random.Random(5), 8, MOST_ENTRIES)


SECTIONS = [
    ("Document 01's example", example),
    ("Each refusal, and which comes first", each_refusal),
    ("Forms and variants", forms),
    ("Several names for one number", several_names),
    ("Hierarchies and categories at borders", borders),
    ("Aliases of labels that are almost the same", near_aliases),
    ("Good and bad texts", texts),
    ("Texts by their length", text_sizes),
    ("What a subject sees", sight),
    ("Names that are repeated, or almost", repeats),
    ("Bad lines of tables", bad_lines),
    ("A bad table in place", bad_table_kept),
    ("The longest texts", longest_texts),
    ("Many entries", many_lines),
    ("The table buffer", table_buffer),
    ("Capacities", capacities),
    ("Numbers out of bounds", numbers_out_of_bounds),
    ("Bad operands", lambda: between(cases.bad_operands(PROGRAM))),
    ("Operands of every kind", every_kind),
    ("Lines between requests and in the place of operands", lambda: between(misplaced_lines())),
    ("Bad command lines", lambda: between(cases.bad_words(PROGRAM, range(4), UNKNOWN_WORDS))),
    ("Numbers", number_forms),
    ("Lines about as long as the line buffer, and longer", lambda: between(cases.line_sizes(PROGRAM))),
    ("Odd bytes", lambda: between(cases.odd_bytes(PROGRAM))),
]


def after_the_worked_run(rng):
    return cases.stored(SECTIONS, random_requests(rng), read_label(b"low")[:-1])
