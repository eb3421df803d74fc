# The requests of mac_cmd's stored input that follow its worked run: each refusal, each boundary, then random ones.
# A comment line in the input says what each is about.

import cases
from cases import BAD_NUMBERS, GOOD_NUMBERS, SEPARATORS, Program, case, filled, replaced
from mac_cmd import COMMANDS
from protocol import NUMBERS_END
from rules import (CATEGORIES, LONGEST_ABBREVIATION, LONGEST_NAME, OF_CATEGORY, OF_HIERARCHY, OF_LABEL, REGIONS,
                   Alias, Label, Range, Tuple, sealed, write)
from samples import (ALIAS, ANY, BORDER_HIERARCHIES, BORDER_LABELS, BORDER_TUPLES, FULL_TUPLE, LABEL, RANGE, TOP,
                     WORD_BORDERS, label, near, sum_changed, tuple_of, unchecked_line)

RANDOM_REQUESTS = 600


# Lines of kinds 01 to 04

GOOD_CONTENTS = [
    ("the least label", label(0)),
    ("the greatest label", TOP),
    ("categories at word borders", label(20, *WORD_BORDERS)),
    ("a range of one label", Range(LABEL, LABEL)),
    ("the range of all labels", Range(label(0), TOP)),
    ("the empty tuple", Tuple()),
    ("all of virus prevention", tuple_of(virus=Range(label(0), Label(19, CATEGORIES)))),
    ("all of the user region", tuple_of(user=Range(label(20), Label(179, CATEGORIES)))),
    ("all of the administrative region", tuple_of(admin=Range(label(180), TOP))),
    ("the first and the last region", tuple_of(virus=Range(label(0), label(0)), admin=Range(label(180), label(199)))),
    ("the longest line, a full tuple", FULL_TUPLE),
    ("a name of hierarchy 0", Alias(OF_HIERARCHY, 0, b"a")),
    ("a name of hierarchy 199", Alias(OF_HIERARCHY, 199, b"Z")),
    ("a name of category 0", Alias(OF_CATEGORY, 0, b"z")),
    ("a name of category 200", Alias(OF_CATEGORY, 200, b"A")),
    ("a name of category 255", Alias(OF_CATEGORY, 255, b"c255")),
    ("a name of a label", Alias(OF_LABEL, LABEL, b"east", b"e")),
    ("a name with every character that is no letter", Alias(OF_CATEGORY, 7, b"a0123456789_-.", b"z9876543210.-_")),
    ("an abbreviation equal to its name", Alias(OF_CATEGORY, 7, b"east", b"east")),
    ("the longest name", Alias(OF_CATEGORY, 7, b"n" * LONGEST_NAME)),
    ("the longest abbreviation", Alias(OF_CATEGORY, 7, b"n", b"a" * LONGEST_ABBREVIATION)),
    ("the longest line of kind 04", Alias(OF_LABEL, TOP, b"N" * LONGEST_NAME, b"A" * LONGEST_ABBREVIATION)),
]


def tuple_with(region, low, high):
    """A tuple with one range, at `region`."""
    ranges = [None] * len(REGIONS)
    ranges[region] = Range(label(low), label(high))
    return Tuple(tuple(ranges))


def invalid_tuples():
    for i, region in enumerate(REGIONS):
        first, last = region[0], region[-1]
        yield f"region {i}: the low end has the higher hierarchy", tuple_with(i, last, first)
        yield f"region {i}: the range ends after the region", tuple_with(i, first, last + 1)
        if first > 0:
            yield f"region {i}: the range begins before the region", tuple_with(i, first - 1, last)
        for j, other in enumerate(REGIONS):
            if j != i:
                yield f"region {i}: the range is in region {j}", tuple_with(i, other[0], other[-1])
        incomparable = Range(label(first, 1), label(last, 2))
        yield f"region {i} of three: incomparable ends", Tuple(FULL_TUPLE.ranges[:i] + (incomparable,) + FULL_TUPLE.ranges[i + 1:])


# Neighbours in ASCII of what names are made of, separators of text, and bytes with the high bit set.
BAD_IN_NAMES = b"\0\n\r ,/:@[^`{\x7f\x80\xe1\xff"
BAD_AT_THE_START = b"09_-."


def misspelt():
    for byte in BAD_IN_NAMES:
        yield f"byte {byte:02x} at the end", b"a" + bytes([byte])
    for byte in BAD_IN_NAMES + BAD_AT_THE_START:
        yield f"byte {byte:02x} at the start", bytes([byte]) + b"z"


def invalid_aliases():
    for alias_class in (0, 4, 255):
        yield f"class {alias_class}", Alias(alias_class, 20, b"low")
    for hierarchy in (200, 255):
        yield f"a name of hierarchy {hierarchy}", Alias(OF_HIERARCHY, hierarchy, b"low")
    yield "a name of a label of hierarchy 200", Alias(OF_LABEL, label(200), b"low")
    yield "name length 0", Alias(OF_CATEGORY, 7, b"")
    yield "name length 0 with an abbreviation", Alias(OF_CATEGORY, 7, b"", b"e")
    yield "name length 32", Alias(OF_CATEGORY, 7, b"n" * (LONGEST_NAME + 1))
    yield "name length 200", Alias(OF_CATEGORY, 7, b"n" * 200)
    yield "abbreviation length 16", Alias(OF_CATEGORY, 7, b"east", b"a" * (LONGEST_ABBREVIATION + 1))
    for what, text in misspelt():
        yield "name: " + what, Alias(OF_CATEGORY, 7, text)
        yield "abbreviation: " + what, Alias(OF_CATEGORY, 7, b"east", text)


def invalid_contents():
    yield "a label of hierarchy 200", label(200)
    yield "a label of hierarchy 255", label(255)
    yield "a range with a high end of hierarchy 200", Range(label(20), label(200))
    yield "a range with both ends of hierarchy 200", Range(label(200), label(200))
    yield "a range whose low end has the higher hierarchy", Range(label(21), label(20))
    for category in WORD_BORDERS:
        yield f"a range whose low end alone has category {category}", Range(label(20, category), label(30))
    yield "a range with incomparable ends", Range(label(20, 1), label(30, 2))
    yield from invalid_tuples()
    yield from invalid_aliases()


def wrong_frames():
    """Kinds and bodies that are no line's, whatever the contents."""
    body, ends, name = LABEL.body(), RANGE.body(), b"\x04east"
    for kind in (0x00, 0x05, 0x10, 0x81, 0xff):
        yield f"kind {kind:02x} with the body of a label", bytes([kind]) + body
    for kind in range(0, 6):
        yield f"kind {kind:02x} with no body", bytes([kind])
    yield "a label with a byte less", b"\x01" + body[:-1]
    yield "a label with a byte more", b"\x01" + body + b"\0"
    yield "a label with the body of a range", b"\x01" + ends
    yield "a range with the body of a label", b"\x02" + body
    yield "a range with a byte less", b"\x02" + ends[:-1]
    yield "a range with a byte more", b"\x02" + ends + b"\0"
    for bit in range(3, 8):
        yield f"presence bit {bit} alone", bytes([3, 1 << bit])
    yield "presence bit 3 and a range", b"\x03\x08" + ends
    yield "presence bits 1 and 7 and one range", b"\x03\x82" + ends
    yield "presence bits 0 to 3 and three ranges", b"\x03\x0f" + FULL_TUPLE.body()[1:]
    yield "a tuple with no presence bit and a byte more", b"\x03\x00\x00"
    yield "a tuple with no presence bit and a range", b"\x03\x00" + ends
    yield "a tuple with one presence bit and no range", b"\x03\x02"
    yield "a tuple with one presence bit and a byte less", b"\x03\x02" + ends[:-1]
    yield "a tuple with one presence bit and a byte more", b"\x03\x02" + ends + b"\0"
    yield "a full tuple with two ranges", b"\x03\x07" + FULL_TUPLE.body()[1:-len(ends)]
    yield "a full tuple with a byte more", b"\x03" + FULL_TUPLE.body() + b"\0"
    yield "class 1 with a label", b"\x04\x01" + body + name + b"\0"
    yield "class 2 with two bytes", b"\x04\x02\x07\x07" + name + b"\0"
    yield "class 3 with one byte", b"\x04\x03\x14" + name + b"\0"
    yield "class 4 with a label", b"\x04\x04" + body + name + b"\0"
    yield "a class and nothing after it", b"\x04\x02"
    yield "a value and nothing after it", b"\x04\x02\x07"
    yield "a name length and nothing after it", b"\x04\x02\x07\x04"
    yield "a name that ends early", b"\x04\x02\x07\x04eas"
    yield "a name length that takes in all the rest", b"\x04\x02\x07\x06easter"
    yield "a name length one short", b"\x04\x02\x07\x03east\0"
    yield "a name length of 255 with four bytes", b"\x04\x02\x07\xffeast\0"
    yield "an abbreviation that ends early", b"\x04\x02\x07" + name + b"\x02e"
    yield "an abbreviation length with no bytes after it", b"\x04\x02\x07" + name + b"\x01"
    yield "an abbreviation length of 255 with one byte", b"\x04\x02\x07" + name + b"\xffe"
    yield "a byte after an empty abbreviation", b"\x04\x02\x07" + name + b"\0e"
    yield "a byte after the abbreviation", b"\x04\x02\x07" + name + b"\x01e\0"


def wrong_texts():
    """Lines that differ from a good one in their characters or in the sum."""
    line = write(ALIAS)  # 040114036c6f770092
    text = line[:-1]
    yield "an odd number of digits, one too many", text + b"0\n"
    yield "an odd number of digits, one too few", text[:-1] + b"\n"
    yield "a digit alone", b"0\n"
    yield "a zero byte alone", b"00\n"
    yield "an upper-case digit", replaced(line, b"6c", b"6C")
    yield "every letter in upper case", line.upper()
    yield "the sum in upper case", b"0300FD\n"
    yield "a blank at the start", b" " + line
    yield "a blank inside", replaced(line, b"6c", b"6c ")
    yield "a blank between the digits of a byte", replaced(line, b"6c", b"6 c")
    yield "a blank at the end", text + b" \n"
    yield "two blanks at the end", text + b"  \n"
    yield "a tab at the end", text + b"\t\n"
    yield "CR before LF", text + b"\r\n"
    yield "two CRs before LF", text + b"\r\r\n"
    yield "NUL before LF", text + b"\0\n"
    yield "two NULs before LF", text + b"\0\0\n"
    yield "high bytes before LF", text + b"\xff\xff\n"
    yield "a NUL for a digit 0", b"\0" + line[1:]
    yield "a high byte for a digit 4", replaced(line, b"4", b"\xb4")
    for digit, other in ((b"0", b"@"), (b"c", b"<"), (b"f", b"?"), (b"9", b"`"), (b"6", b"g"), (b"0", b"/"), (b"6", b"G")):
        yield f"{other.decode()} for a digit {digit.decode()}", replaced(line, digit, other)
    yield "0x at the start", b"0x" + line
    yield "the sum one too large", sum_changed(line, 1)
    yield "the sum one too small", sum_changed(line, 255)
    yield "the sum off by 128", sum_changed(line, 128)
    yield "the sum zero", text[:-2] + b"00\n"
    yield "no sum", text[:-2] + b"\n"
    yield "the line twice in one", text + line
    yield "a zero byte after the sum", text + b"00\n"


def wrong_lines():
    """Each fault that a line can have by itself; all but those of `wrong_texts` have a right sum."""
    yield from wrong_texts()
    yield from ((what, sealed(frame)) for what, frame in wrong_frames())
    yield from ((what, unchecked_line(contents)) for what, contents in invalid_contents())


# Requests

PROGRAM = Program(
    COMMANDS,
    good=(b"valid 20\n", b"count\n" + write(LABEL), b"dominates\n" + write(LABEL) + write(LABEL)),
    numbered=lambda size: filled(b"valid ", b"0", b"20", size),
    with_first=lambda line: request(b"count", line),
    with_last=lambda line: request(b"dominates", LABEL, line))
request = PROGRAM.request


def echoes():
    for what, contents in GOOD_CONTENTS:
        yield case(what, request(b"echo", contents))
    for what, line in wrong_lines():
        yield case(what, request(b"echo", line))


def misplaced_lines():
    good = write(LABEL)
    yield case("empty lines and comments between requests", b"\n\n#\n##\n#valid 20\n# valid 20\n\n", request(b"valid", numbers=[20]))
    yield case("an empty line for the first operand: what follows is not taken", request(b"dominates", b"\n", good), good)
    yield case("an empty line for the second operand", request(b"dominates", good, b"\n"), good)
    yield case("a comment for the first operand", request(b"dominates", b"#\n", good), good)
    yield case("a comment for the second operand", request(b"dominates", good, b"#\n"), good)
    yield case("one operand too many", request(b"count", good), good)
    yield case("one operand too few: a command is taken for it", request(b"dominates", good), request(b"valid", numbers=[20]))
    yield from cases.no_commands()


UNKNOWN_WORDS = [b"no", b"x", b"0", b"20", b"read", b"check", b"table", b"dominatesequal", b"\0", b"\xff", b"\xc3\xa9"]


def number_forms():
    for digits in GOOD_NUMBERS + BAD_NUMBERS:
        yield b"valid " + digits + b"\n"
    for digits in GOOD_NUMBERS:
        yield b"next " + digits + b"\n" + write(label(20, *WORD_BORDERS))
    for digits in BAD_NUMBERS:
        yield b"next " + digits + b"\n"
    for separator in SEPARATORS:
        yield b"valid" + separator + b"20\n"


BORDER_NUMBERS = [0, 1, 62, 63, 64, 65, 127, 128, 191, 192, 254, 255, 256, 320, 2 ** 32, NUMBERS_END - 1]


def label_borders():
    for hierarchy in (0, 19, 20, 179, 180, 198, 199, 200, 201, 255, 256, 256 + 20, 2 ** 32, 2 ** 32 + 20, 2 ** 63, NUMBERS_END - 1):
        yield request(b"valid", numbers=[hierarchy])
    for hierarchy in BORDER_HIERARCHIES:
        yield request(b"region", label(hierarchy))
    for one in BORDER_LABELS:
        yield request(b"count", one)
        yield from (request(b"next", one, numbers=[n]) for n in BORDER_NUMBERS)
        yield from (request(b"dominates", one, other) for other in BORDER_LABELS)
    for one, other in zip(BORDER_LABELS, BORDER_LABELS[1:]):
        yield request(b"equal", one, one) + request(b"equal", one, other)
    for one, other in ((LABEL, label(30)), (LABEL, label(31, 1, 2)), (label(0), label(199)), (label(199), label(0))):
        yield from (request(word, one, other) for word in (b"dominates", b"equal", b"upper", b"lower"))


# Pairs of ranges that touch, or just do not, by hierarchy and by categories.
NEIGHBOURS = [
    (Range(label(20), label(30)), Range(label(30), label(40))),
    (Range(label(20), label(30)), Range(label(31), label(40))),
    (Range(label(20), label(30, 255)), Range(label(20, 255), label(30, 255))),
    (Range(label(20), label(30, 64)), Range(label(20, 63), label(30, 63, 64))),
    (Range(label(20, 1), label(40, 1)), Range(label(20), label(40, 2))),
    (Range(label(20, 1), label(40, 1, 2)), Range(label(20, 2), label(40, 1, 2))),
    (Range(label(0), TOP), Range(LABEL, LABEL)),
]


def range_borders():
    for hierarchy in (19, 20, 21, 29, 30, 31):
        yield request(b"contains", Range(label(20), label(30)), label(hierarchy))
    for categories in ((), (1,), (2,), (1, 2), (1, 2, 3), (255,)):
        yield request(b"contains", Range(label(20, 1), label(30, 1, 2)), label(25, *categories))
    for one, other in NEIGHBOURS:
        yield from (request(b"meet", *pair) for pair in ((one, other), (other, one), (one, one)))
    for low in BORDER_HIERARCHIES:
        for high in BORDER_HIERARCHIES:
            if low <= high:
                yield request(b"split", Range(label(low, 4), label(high, 4, 5)))


def tuple_borders():
    for one in BORDER_TUPLES:
        yield request(b"empty", one)
        yield from (request(b"contains", one, label(hierarchy)) for hierarchy in BORDER_HIERARCHIES)
        yield from (request(word, one, other) for other in BORDER_TUPLES for word in (b"within", b"meet"))


# Random requests

def random_operand(rng, kind, common):
    return cases.damaged_at_times(rng, write(near(rng, kind, common)), 0.1)


def random_request(rng):
    word = rng.choice(list(COMMANDS))
    common = ANY[Label](rng)
    numbers = [rng.randrange(rng.choice((300, 300, NUMBERS_END))) for _ in range(COMMANDS[word].numbers)]
    kinds = rng.choice(COMMANDS[word].forms)
    return request(word, *(random_operand(rng, kind, common) for kind in kinds), numbers=numbers)


def random_requests(rng):
    yield case(f"{RANDOM_REQUESTS} random requests")
    yield from (random_request(rng) for _ in range(RANDOM_REQUESTS))


SECTIONS = [
    ("Lines of each kind, good and faulty", echoes),
    ("Bad operands", lambda: cases.bad_operands(PROGRAM)),
    ("Operands of every kind", lambda: cases.every_kind(PROGRAM)),
    ("Lines between requests and in the place of operands", misplaced_lines),
    ("Bad command lines", lambda: cases.bad_words(PROGRAM, range(4), UNKNOWN_WORDS)),
    ("Numbers", number_forms),
    ("Boundaries of labels", label_borders),
    ("Boundaries of ranges", range_borders),
    ("Boundaries of tuples", tuple_borders),
    ("Lines about as long as the line buffer, and longer", lambda: cases.line_sizes(PROGRAM)),
    ("Odd bytes", lambda: cases.odd_bytes(PROGRAM)),
]


def after_the_worked_run(rng):
    return cases.stored(SECTIONS, random_requests(rng), b"valid 20")
