# Alias tables, labels, subjects and texts for the tests and the stored input of text_cmd. Numbers are few and names come
# near each other, so that several names for one number, repeats and texts that are almost good are common. Everything
# random is drawn from the generator that is passed in, so that a seed fixes it.

from protocol import LINE_BUFFER
from rules import (CATEGORIES, HIERARCHIES, LONGEST_ABBREVIATION, LONGEST_NAME, OF_CATEGORY, OF_HIERARCHY, OF_LABEL, Alias,
                   Caller, Label, Range, Refusal, is_name, write)
from samples import (LABEL, NAME_BYTES, RANGE, TOP, any_label, any_name, at_times, damaged, label, label_above,
                     label_below, some_of)
from text import DEFINITION_FORM, FORMS, MOST_ENTRIES, VARIANTS, WHOLE_NAMES, Table, names_of, write_label, write_range

SOME_HIERARCHIES = (0, 20, 30, 40, 199)
SOME_CATEGORIES = (0, 1, 2, 7, 63, 64, 255)
SOME_LABELS = [label(20), label(20, 7), LABEL, label(40, *SOME_CATEGORIES), TOP]


# Fixed tables

def of_hierarchy(hierarchy, *names):
    return Alias(OF_HIERARCHY, hierarchy, *names)


def of_category(category, *names):
    return Alias(OF_CATEGORY, category, *names)


def of_label(named, *names):
    return Alias(OF_LABEL, named, *names)


def table_of(*entries):
    return Table(b"".join(map(write, entries)))


def text_in(table, contents, form=DEFINITION_FORM, variant=WHOLE_NAMES):
    """The text of a label or range for a subject that sees every label; None where names are missing."""
    try:
        if isinstance(contents, Range):
            return write_range(table, contents, Caller(TOP), form, variant)[1]
        return write_label(table, contents, Caller(TOP), form, variant)
    except Refusal:
        return None


LOW, EAST = of_hierarchy(20, b"low"), of_category(7, b"east", b"e")  # document 01's whole table

# Names for the sample label and range.
ENTRIES = [LOW, of_hierarchy(30, b"middle", b"mid"), of_hierarchy(40, b"high"), of_category(1, b"north", b"n"),
           of_category(2, b"south", b"s"), EAST, of_label(LABEL, b"pair", b"p")]

# Several entries for one hierarchy, one category and one label, some with abbreviations.
SEVERAL = [of_hierarchy(20, b"low", b"l"), of_label(label(20, 7), b"post", b"p"), of_category(7, b"east"),
           of_hierarchy(20, b"base"), of_category(7, b"orient", b"o"), of_category(8, b"west", b"w"),
           of_label(label(20, 7), b"box"), of_label(label(20, 8), b"home", b"h"), of_hierarchy(20, b"ground", b"g"),
           of_category(7, b"sunrise"), of_label(label(20, 7), b"drop", b"d"), of_hierarchy(21, b"first")]

WEST = of_category(8, b"west", b"w")
LONG, SHORT = b"n" * (LONGEST_NAME - 1), b"a" * (LONGEST_ABBREVIATION - 1)

# Tables with names that are equal, or almost, and the number of the first bad line, or None.
REPEATS = [
    ("a name of two hierarchies", [LOW, of_hierarchy(30, b"low")], 1),
    ("a line twice", [LOW, EAST, EAST], 2),
    ("a name of a hierarchy and a category", [LOW, of_category(8, b"low")], 1),
    ("a name of a category and a label", [EAST, of_label(LABEL, b"east")], 1),
    ("a name that is an abbreviation above", [LOW, EAST, of_category(8, b"e")], 2),
    ("an abbreviation that is a name above", [LOW, EAST, of_category(8, b"west", b"low")], 2),
    ("an abbreviation twice", [LOW, EAST, of_category(8, b"west", b"e")], 2),
    ("a name that is its own abbreviation, in the first line", [of_category(8, b"w", b"w"), LOW], 0),
    ("a name that is its own abbreviation, in the last line", [LOW, EAST, of_category(8, b"west", b"west")], 2),
    ("the longest that can be both", [LOW, of_category(8, SHORT + b"b", SHORT + b"b")], 1),
    ("two repeats", [LOW, EAST, of_hierarchy(21, b"low"), of_hierarchy(22, b"east")], 2),
    ("abbreviations of the first and the last line", [EAST, LOW, WEST, of_hierarchy(30, b"top", b"e")], 3),
    ("the longest name twice", [of_category(1, LONG + b"x"), LOW, of_category(2, LONG + b"x")], 2),
    ("the longest abbreviation twice", [of_category(1, b"one", SHORT + b"x"), LOW, of_category(2, b"two", SHORT + b"x")], 2),
    ("the longest abbreviation and a name", [of_category(1, SHORT + b"x"), LOW, of_category(2, b"two", SHORT + b"x")], 2),
    ("no abbreviations", [LOW, of_hierarchy(30, b"middle"), of_hierarchy(40, b"high")], None),
    ("another case", [LOW, of_hierarchy(30, b"Low", b"loW"), EAST, of_category(8, b"E", b"East")], None),
    ("another case within a line", [LOW, of_category(8, b"w", b"W")], None),
    ("the beginnings of others", [LOW, of_hierarchy(30, b"lowest", b"lowes"), of_hierarchy(40, b"lo", b"l")], None),
    ("the ends of others", [LOW, of_hierarchy(30, b"ow", b"w"), of_hierarchy(40, b"below", b"elow")], None),
    ("the longest names with other last bytes", [LOW, *(of_category(n, LONG + b"%d" % n) for n in range(3))], None),
    ("the longest abbreviations with other last bytes",
     [LOW, *(of_category(n, b"c%d" % n, SHORT + b"%d" % n) for n in range(3))], None),
    ("the longest names with other first bytes", [LOW, of_category(1, b"x" + LONG), of_category(2, b"y" + LONG)], None),
    ("an abbreviation that is the beginning of its name", [LOW, of_category(1, LONG, LONG[:LONGEST_ABBREVIATION])], None),
    ("one number in every line", [LOW, of_hierarchy(20, b"l"), of_hierarchy(20, b"base", b"b")], None),
]


# Large tables

def full_table():
    """As many entries as there may be, each with the longest names. Those of a class differ only at their ends."""
    def names(letter, number):
        return [letter * (longest - 3) + b"%03d" % (number + offset)
                for longest, offset in ((LONGEST_NAME, 0), (LONGEST_ABBREVIATION, 500))]
    numbered = [*(of_category(c, *names(b"c", c)) for c in sorted(CATEGORIES)),
                *(of_hierarchy(h, *names(b"h", h)) for h in HIERARCHIES)]
    return numbered + [of_label(label(n, n), *names(b"l", n)) for n in range(MOST_ENTRIES - len(numbered))]


FULL = full_table()
LONGEST_RANGE = Range(Label(0, CATEGORIES), TOP)
LONGEST_TEXTS = [text_in(table_of(*FULL), contents) for contents in (TOP, LONGEST_RANGE)]


def short_table(count):
    """A table of many short names."""
    return [LOW, *(of_category(n % len(CATEGORIES), b"c%03d" % n) for n in range(1, count))]


def numbered_label(number):
    return label(number % len(HIERARCHIES), number % len(CATEGORIES))


def labels_table(size):
    """The lines of a table of `size` bytes. A line has an odd number of bytes, so there is an even number of them where
    `size` is even."""
    def line(number, length):
        return write(of_label(numbered_label(number), (b"n%03d" % number).ljust(length, b"x")))
    longest = len(line(0, LONGEST_NAME))
    count = -(-size // longest)
    count += (count - size) % 2
    shorter = (count * longest - size) // 2  # how many names are a byte, two digits, shorter
    return [line(number, LONGEST_NAME - (number < shorter)) for number in range(count)]


# Texts, good and bad ones in the table of ENTRIES

GOOD_TEXTS = [b"low", b"middle", b"mid", b"high", b"low:east", b"low:e", b"low:north,east", b"low:east,north",
              b"mid:n,south,e", b"middle:s,n", b"pair", b"p"]
BAD_TEXTS = [
    b"", b":", b",", b"low:", b":east", b"low:,", b"low:east,", b"low:,east", b"low:east,,north", b"low,east",
    b"low:east:north", b"low::east", b"low:east:", b"low:east,e", b"low:east,east", b"low:e,e", b"low:n,east,n",
    b"low:e,n,s,east", b"east", b"e", b"east,north", b"low:low", b"low:mid", b"low:pair", b"low:east,p", b"pair:east", b"p:",
    b"p:e", b"east:low", b"pair,low", b"lo", b"l", b"loww", b"lowlow", b"Low", b"LOW", b"Pair", b"low:East", b"low:E",
    b"low:eas", b"low:easte", b"low:west", b"upper", b"upper:east", b" low", b"low ", b" ", b"low :east", b"low: east",
    b"low:east ", b"low:east, north", b"low:east ,north", b"low east", b"\tlow", b"low\t", b"low\r", b"low:east\r", b"\0",
    b"low\0", b"\0low", b"low\0:east", b"low:\0", b"low:east\0", b"low:east\0,north", b"\xff", b"low\xff", b"\xeclow",
    b"low:\xff", b"lo\xf7", b"?", b"low:?", b"-", b"#", b"#low", b"# low", b"low-", b"low.", b"low_", b"low;east", b"low/east",
    b"20", b"20:7", b"low:7", b"(20,{7})", b"-L", b"-H", b"-L low", b"table", b"capacity 0", write(label(20))[:-1],
    b"n" * LONGEST_NAME, b"low:" + b"n" * (LONGEST_NAME + 1), b"low" + b"x" * 256, b"low:east" + b"x" * 256,
    b"low:" + b"east," * 100 + b"north", b"low" + b"," * 300, b"x" * LINE_BUFFER,
]
GOOD_RANGES = [b"-L low -H low", b"-L low -H high", b"-L low:east -H high:e,n", b"-L low -H pair", b"-L p -H middle:s,n",
               b"-L pair -H high:n,s,e", b"-L p -H p"]
BAD_RANGES = [
    b"", b"-", b"-L", b"-L ", b"-L low", b"-L low ", b"-L low -", b"-L low -H", b"-L low -H ", b"-L low -H  ", b"-L  -H low",
    b"-L -H low", b" -L low -H low", b"-L low -H low ", b"-L  low -H low", b"-L low  -H low", b"-L low -H  low",
    b"-L low-H low", b"-Llow -H low", b"-L low -Hlow", b"-L\tlow -H low", b"-L low\t-H low", b"-l low -h low",
    b"-L low -h low", b"-l low -H low", b"-H low -L low", b"-L low -L low", b"-H low -H low", b"-L low low", b"low -H low",
    b"-L low, -H low", b"L low H low", b"--L low -H low", b"-L low --H low", b"-L low -H low -H low", b"-L low -L low -H low",
    b"-L low -H low -", b"-L low -H ?", b"-L ? -H low", b"-L ? -H ?", b"-L low -H low?", b"-L low -H low:?",
    b"-L low -H low\r", b"-L low -H low\0", b"-L low\0-H low", b"\0-L low -H low", b"-L low -H \xff", b"-L high -H low",
    b"-L low:east -H high", b"-L low:east -H high:north", b"-L low:n -H low", b"-L pair -H middle:n", b"-L mid:n,s,e -H p",
    b"-L low -H upper", b"-L upper -H low", b"-L low:e,east -H high:e", b"-L low:e -H high:e,east", b"-L low: -H low",
    b"-L low -H low:", b"-L east -H east", b"-L -H -H low", b"-L -L -H low", b"low", b"pair", b"0 -L low -H low",
    b"1 -L low -H ?", write(RANGE)[:-1],
]


# Random tables

def near_name(rng, name):
    """A name that comes near another, if it is a name at all."""
    byte = bytes([rng.choice(NAME_BYTES)])
    return rng.choice((name + byte, name[:-1], name[:-1] + byte, name[1:], name.swapcase()))


def new_name(rng, taken, longest):
    """A name that is not among those taken, often near one of them."""
    while True:
        near = taken and at_times(rng, 0.5)
        name = near_name(rng, rng.choice(taken)) if near else any_name(rng, rng.choice((3, 8, longest)))
        if is_name(name, longest) and name not in taken:
            return name


def any_value(rng):
    """A class, and a value that is likely to come again."""
    alias_class = rng.choices((OF_HIERARCHY, OF_CATEGORY, OF_LABEL), (4, 5, 2))[0]
    some = {OF_HIERARCHY: SOME_HIERARCHIES, OF_CATEGORY: SOME_CATEGORIES, OF_LABEL: SOME_LABELS}
    return alias_class, rng.choice(some[alias_class])


def any_entries(rng, most=20):
    """The entries of a good table."""
    entries, taken = [], []
    for _ in range(rng.randint(0, most)):
        name = new_name(rng, taken, LONGEST_NAME)
        abbreviation = new_name(rng, [*taken, name], LONGEST_ABBREVIATION) if at_times(rng, 0.5) else b""
        entries.append(Alias(*any_value(rng), name, abbreviation))
        taken += names_of(entries[-1])
    return entries


def repeating(rng, entries):
    """An entry that has a name of one of these, or one name twice."""
    short = [name for entry in entries for name in names_of(entry) if len(name) <= LONGEST_ABBREVIATION]
    name = rng.choice(names_of(rng.choice(entries)))
    again = [Alias(*any_value(rng), name), Alias(*any_value(rng), b"again", b"again")]
    if short:
        again.append(Alias(*any_value(rng), b"again", rng.choice(short)))
    return rng.choice(again)


def spoiled(rng, entries):
    """The lines of a table with at least one entry, most of the time with a bad one or two among them."""
    lines = list(map(write, entries))
    for _ in range(rng.choice((1, 1, 2))):
        at = rng.randrange(len(lines))
        faulty = damaged(rng, write(rng.choice(entries)))
        lines[at:at + rng.choice((0, 1))] = [rng.choice((faulty, write(LABEL), b"# low\n", write(repeating(rng, entries))))]
    return lines


# Random labels and subjects

def values_in(table, alias_class):
    return [entry.value for entry in table.entries() if entry.alias_class == alias_class]


def label_in(rng, table):
    """A label that most of the time has names in a table."""
    labels = values_in(table, OF_LABEL)
    if at_times(rng, 0.1):
        return any_label(rng)
    if labels and at_times(rng, 0.3):
        return rng.choice(labels)
    hierarchies = values_in(table, OF_HIERARCHY) if at_times(rng, 0.95) else SOME_HIERARCHIES
    categories = values_in(table, OF_CATEGORY) if at_times(rng, 0.9) else SOME_CATEGORIES
    return Label(rng.choice(hierarchies or SOME_HIERARCHIES), some_of(rng, set(categories)))


def range_in(rng, table):
    one, other = label_in(rng, table), label_in(rng, table)
    return Range(one.lower_bound(other), one.upper_bound(other))


def subject_near(rng, seen):
    """A subject that most of the time sees a label."""
    at = rng.choice((TOP, seen, label_above(rng, seen), label_below(rng, seen), any_label(rng)))
    return Caller(at, at_times(rng, 0.2))


# Random texts

def any_text_in(rng, table, contents):
    return text_in(table, contents, rng.choice(FORMS), rng.choice(VARIANTS))


def names_in(table, *classes):
    return [name for entry in table.entries() if entry.alias_class in classes for name in names_of(entry)]


def composed(rng, table):
    """The text of a label from any names in a table, most of the time of the right classes."""
    every = names_in(table, OF_HIERARCHY, OF_CATEGORY, OF_LABEL) or [b"low"]
    hierarchies, categories = names_in(table, OF_HIERARCHY) or every, names_in(table, OF_CATEGORY) or every
    if at_times(rng, 0.1):
        hierarchies = categories = every
    chosen = rng.sample(categories, min(len(categories), rng.choice((0, 1, 1, 2, 3))))
    return rng.choice(hierarchies) + (b":" + b",".join(chosen) if chosen else b"")


def label_text_in(rng, table):
    """The text of a label, written or composed, which may be no good one."""
    given = any_text_in(rng, table, label_in(rng, table))
    return composed(rng, table) if given is None or at_times(rng, 0.5) else given


def range_text_in(rng, table):
    """The text of a range, written or composed, which may be no good one."""
    given = any_text_in(rng, table, range_in(rng, table))
    if given is None or at_times(rng, 0.5):
        return b"-L %s -H %s" % (label_text_in(rng, table), b"?" if at_times(rng, 0.1) else label_text_in(rng, table))
    return given


def damaged_text(rng, text):
    """A text with a byte dropped, doubled, added or changed, a letter in another case, or its parts turned round."""
    at = rng.randrange(len(text))
    byte = bytes([rng.choice(b" :,-?.HLeE\0\xff")])
    start, rest = text[:at], text[at:]
    return rng.choice((start + rest[1:], start + rest[:1] + rest, start + byte + rest, start + byte + rest[1:],
                       start + rest[:1].swapcase() + rest[1:], rest + start))
