# Contents of hex lines, fixed and random ones, and damage to lines, for the tests and the stored inputs. Everything
# random is drawn from the generator that is passed in, so that a seed fixes it.

from rules import (CATEGORIES, HIERARCHIES, LONGEST_ABBREVIATION, LONGEST_NAME, OF_CATEGORY, OF_HIERARCHY, OF_LABEL,
                   REGIONS, Alias, Label, Range, Tuple, sealed)

WORD_BORDERS = (0, 63, 64, 127, 128, 191, 192, 255)  # first and last categories of the four 64-bit words
NEAR_BORDERS = [h for region in REGIONS for h in (*region[:2], *region[-2:])]
LETTERS = b"ABCDEFGHIJKLMNOPQRSTUVWXYZabcdefghijklmnopqrstuvwxyz"
NAME_BYTES = LETTERS + b"0123456789_-."
HEX_DIGITS = b"0123456789abcdef"


# Fixed contents

def label(hierarchy, *categories):
    return Label(hierarchy, frozenset(categories))


def tuple_of(**ranges):
    """A tuple with the ranges given as virus, user, admin."""
    return Tuple(tuple(ranges.get(word) for word in ("virus", "user", "admin")))


LABEL = label(30, 1, 2)
TOP = Label(199, CATEGORIES)  # dominates every label
RANGE = Range(label(20), label(40, 1, 2))
TUPLE = tuple_of(user=RANGE)
FULL_TUPLE = Range(label(0), TOP).split()
ALIAS = Alias(OF_HIERARCHY, 20, b"low")
SAMPLES = {type(contents): contents for contents in (LABEL, RANGE, TUPLE, ALIAS)}

BORDER_HIERARCHIES = [end for region in REGIONS for end in (region[0], region[-1])]
BORDER_LABELS = [label(20), *(label(20, c) for c in WORD_BORDERS), label(20, *WORD_BORDERS), Label(20, CATEGORIES)]
BORDER_TUPLES = [
    Tuple(), TUPLE, FULL_TUPLE, tuple_of(virus=Range(label(0), label(19))), tuple_of(admin=Range(label(180), label(199))),
    tuple_of(user=Range(label(20), label(41, 1, 2))), tuple_of(user=Range(label(21), label(40, 1, 2))),
    tuple_of(user=Range(label(20), label(40, 1))), Range(label(19), label(20, 1, 2)).split(),
]


# Random contents

def at_times(rng, share):
    return rng.random() < share


def any_hierarchy(rng, within):
    """As often an end of `within` or near a border of a region as anywhere."""
    borders = [h for h in NEAR_BORDERS if h in within] + [within[0], within[-1]]
    return rng.choice((rng.choice(borders), rng.choice(within)))


def any_category(rng):
    return rng.randrange(len(CATEGORIES))


def some_of(rng, categories):
    """A part of `categories`: none, all, or each by chance."""
    share = rng.choice((0, 0.1, 0.5, 0.9, 1))
    return frozenset(c for c in sorted(categories) if rng.random() < share)


def any_categories(rng):
    few = frozenset(any_category(rng) for _ in range(rng.randrange(4)))
    return rng.choice((few, few | some_of(rng, WORD_BORDERS), some_of(rng, CATEGORIES)))


def any_label(rng, within=HIERARCHIES):
    return Label(any_hierarchy(rng, within), any_categories(rng))


def label_below(rng, label, within=HIERARCHIES):
    """A label with a hierarchy in `within` that `label` dominates."""
    hierarchies = range(within[0], label.hierarchy + 1)
    return Label(any_hierarchy(rng, hierarchies), some_of(rng, label.categories))


def label_above(rng, label, within=HIERARCHIES):
    """A label with a hierarchy in `within` that dominates `label`."""
    hierarchies = range(label.hierarchy, within[-1] + 1)
    return Label(any_hierarchy(rng, hierarchies), label.categories | any_categories(rng))


def range_around(rng, label, within=HIERARCHIES):
    return Range(label_below(rng, label, within), label_above(rng, label, within))


def any_range(rng, within=HIERARCHIES):
    return range_around(rng, any_label(rng, within), within)


def any_tuple(rng):
    return Tuple(tuple(any_range(rng, region) if rng.random() < 0.6 else None for region in REGIONS))


def any_name(rng, longest):
    return bytes([rng.choice(LETTERS)] + rng.choices(NAME_BYTES, k=rng.randrange(longest)))


def any_alias(rng):
    alias_class, value = rng.choice((
        (OF_HIERARCHY, any_hierarchy(rng, HIERARCHIES)),
        (OF_CATEGORY, any_category(rng)),
        (OF_LABEL, any_label(rng)),
    ))
    abbreviation = rng.choice((b"", any_name(rng, LONGEST_ABBREVIATION)))
    return Alias(alias_class, value, any_name(rng, LONGEST_NAME), abbreviation)


ANY = {Label: any_label, Range: any_range, Tuple: any_tuple, Alias: any_alias}


def near_label(rng, common):
    return rng.choice((common, common, label_below(rng, common), label_above(rng, common)))


def near_range(rng, common):
    return rng.choice((Range(common, common), range_around(rng, common)))


def near_tuple(rng, common):
    return rng.choice((FULL_TUPLE, near_range(rng, common).split()))


NEAR = {Label: near_label, Range: near_range, Tuple: near_tuple}


def near(rng, kind, common):
    """Random contents of a kind, which most of the time have to do with the label `common`."""
    if kind in NEAR and rng.random() < 0.7:
        return NEAR[kind](rng, common)
    return ANY[kind](rng)


# Damage

def unchecked_line(contents):
    """The line of contents that need not be valid, with a right sum."""
    return sealed(bytes([contents.KIND]) + contents.body())


def other_digit(rng, digit):
    return rng.choice([d for d in HEX_DIGITS if d != digit])


def digit_changed(rng, line):
    at = rng.randrange(len(line) - 1)
    return line[:at] + bytes([other_digit(rng, line[at])]) + line[at + 1:]


def digits_swapped(rng, line):
    one, other = sorted(rng.sample(range(len(line) - 1), 2))
    return line[:one] + line[other:other + 1] + line[one + 1:other] + line[one:one + 1] + line[other + 1:]


def byte_dropped(rng, line):
    at = 2 * rng.randrange(len(line) // 2)
    return line[:at] + line[at + 2:]


def letter_raised(rng, line):
    """One digit in upper case. The line must have a digit from a to f."""
    at = rng.choice([i for i, digit in enumerate(line) if digit in b"abcdef"])
    return line[:at] + line[at:at + 1].upper() + line[at + 1:]


def sum_changed(line, by):
    frame = bytearray.fromhex(line.decode())
    frame[-1] = (frame[-1] + by) % 256
    return frame.hex().encode() + b"\n"


def sum_off(rng, line):
    return sum_changed(line, rng.choice((1, 255)))


def damaged(rng, line):
    ways = [digit_changed, digits_swapped, byte_dropped, sum_off]
    if any(digit in b"abcdef" for digit in line):
        ways.append(letter_raised)
    return rng.choice(ways)(rng, line)


def resealed(line):
    """The same kind and body with the sum made right."""
    return sealed(bytes.fromhex(line.decode())[:-1])
