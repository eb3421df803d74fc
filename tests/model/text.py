# Document 01's "Names and text", in plain Python over the labels, ranges, alias entries and callers of rules.py. Written
# from the document, which calls the caller a subject, and not from the crates, so that the two can check each other.

import functools
from dataclasses import dataclass

from rules import (DENIED, INVALID, NO_NAME, OF_CATEGORY, OF_HIERARCHY, OF_LABEL, Alias, Label, Range, Refusal, fitted,
                   read, require)

MOST_ENTRIES = 512
DEFINITION_FORM, ALIAS_FORM = FORMS = range(2)
WHOLE_NAMES, ABBREVIATED = VARIANTS = range(2)
LOW_MARK, HIGH_MARK = b"-L ", b" -H "
OUT_OF_SIGHT = b"?"  # stands for a high end that the subject may not see


# Alias tables

def entry_of(line):
    """The entry in a line of a table, or None where it is faulty or of another kind."""
    try:
        contents = read(line)
    except Refusal:
        return None
    return contents if isinstance(contents, Alias) else None


def names_of(entry):
    """An entry's name, and its abbreviation where that is not empty."""
    return [entry.name, entry.abbreviation] if entry.abbreviation else [entry.name]


def fresh(names, taken):
    """Whether an entry's names differ from each other and from those that are taken."""
    return len(set(names)) == len(names) and taken.isdisjoint(names)


@dataclass(frozen=True)
class Table:
    """An alias table: the bytes of its lines, and whether more follows, from which it was cut off."""

    data: bytes = b""
    more: bool = False

    def lines(self):
        """The lines. What follows the last LF is one without an LF, and in a table that was cut off it may be empty."""
        *ended, rest = self.data.split(b"\n")
        lines = [line + b"\n" for line in ended]
        return [*lines, rest] if rest or self.more else lines

    @functools.lru_cache(maxsize=2 ** 8)  # each call asks again
    def judged(self):
        """The entries before the first bad line, and the number of that line, or None where all are good."""
        entries, taken = [], set()
        for number, line in enumerate(self.lines()):
            entry = entry_of(line)
            if number >= MOST_ENTRIES or entry is None or not fresh(names_of(entry), taken):
                return entries, number
            entries.append(entry)
            taken.update(names_of(entry))
        return entries, None

    def entries(self):
        """The entries. A bad table is refused with the number of its first bad line."""
        entries, bad = self.judged()
        require(bad is None, INVALID, bad)
        return entries


# Writing

def name_in(last, alias_class, value, variant):
    """The name of a number or label by its last entry."""
    require((alias_class, value) in last, NO_NAME)
    entry = last[alias_class, value]
    return entry.abbreviation if variant == ABBREVIATED and entry.abbreviation else entry.name


def text_of(entries, label, form, variant):
    """The text of a label in the form and variant."""
    last = {(entry.alias_class, entry.value): entry for entry in entries}  # where there are several, the last counts
    if form == ALIAS_FORM and (OF_LABEL, label) in last:
        return name_in(last, OF_LABEL, label, variant)
    hierarchy = name_in(last, OF_HIERARCHY, label.hierarchy, variant)
    categories = [name_in(last, OF_CATEGORY, category, variant) for category in sorted(label.categories)]
    return hierarchy + b":" + b",".join(categories) if categories else hierarchy


def write_label(table, label, subject, form, variant, capacity=None):
    entries = table.entries()
    require(label.valid() and subject.valid(), INVALID)
    require(subject.sees(label), DENIED)
    return fitted(text_of(entries, label, form, variant), capacity)


def write_range(table, bounds, subject, form, variant, capacity=None):
    """The status and the text: 0 where the subject sees both ends, 1 where it sees the low end only."""
    entries = table.entries()
    require(bounds.valid() and subject.valid(), INVALID)
    require(subject.sees(bounds.low), DENIED)
    status = 0 if subject.sees(bounds.high) else 1
    low = text_of(entries, bounds.low, form, variant)
    high = OUT_OF_SIGHT if status else text_of(entries, bounds.high, form, variant)
    return status, fitted(LOW_MARK + low + HIGH_MARK + high, capacity)


# Reading

def value_in(named, name, alias_class):
    """What a name of the class names."""
    require(name in named and named[name].alias_class == alias_class, INVALID)
    return named[name].value


def label_of(entries, text):
    """The label of a text: one name of class 1 or 3, or a class 1 name, `:` and class 2 names joined by `,`."""
    named = {name: entry for entry in entries for name in names_of(entry)}
    if text in named and named[text].alias_class == OF_LABEL:
        return named[text].value
    hierarchy, colon, rest = text.partition(b":")
    categories = [value_in(named, name, OF_CATEGORY) for name in rest.split(b",")] if colon else []
    require(len(set(categories)) == len(categories), INVALID)
    return Label(value_in(named, hierarchy, OF_HIERARCHY), frozenset(categories))


def seen(entries, text, subject):
    """The label of a text, unless the subject may not see it."""
    label = label_of(entries, text)
    require(subject.sees(label), INVALID)
    return label


def read_label(table, text, subject):
    entries = table.entries()
    require(subject.valid(), INVALID)
    return seen(entries, text, subject)


def read_range(table, text, subject):
    entries = table.entries()
    require(subject.valid(), INVALID)
    require(text.startswith(LOW_MARK), INVALID)
    low, _, high = text.removeprefix(LOW_MARK).partition(HIGH_MARK)
    bounds = Range(seen(entries, low, subject), seen(entries, high, subject))
    require(bounds.valid(), INVALID)
    return bounds
