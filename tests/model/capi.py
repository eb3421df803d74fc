# A model of the exported functions of include/lurmenize.h, over the rules in rules.py, text.py, monitor.py and segments.py.
# `answer` takes a function's name without `lurm_` and its arguments, and gives the numbers that are handed back and the
# buffer that was written to, or None where there is none. Arguments are numbers; bytes for what is read; the length of a
# buffer that is written to; and for a struct its numbers, in the order of declaration, or the number where there is one.
# python3 tests/model/capi.py < REQUESTS > ANSWERS has a request a line: the name and the arguments, a blank between them.
# A number is in decimal, a struct its numbers with `,` between them, bytes are `x` and their hex, a buffer is `b` and its
# length. An answer is the numbers, and where there is a buffer a blank, `x` and its hex.

import functools
import re
import sys
from collections import namedtuple
from pathlib import Path

import text
from monitor import FILE, FILE_KINDS, PRIVILEGES, TYPES, Credentials, Object, Request, decide
from rules import (CATEGORIES, INVALID, LONGEST_ABBREVIATION, LONGEST_NAME, OF_LABEL, REGIONS, Alias, Caller, Label, Range,
                   Refusal, Tuple, framed, read, require, write)
from segments import SLOTS, TENANTS, Segment, State, Tenant
from text import FORMS, VARIANTS, Table

HEADER = Path(__file__).resolve().parent.parent.parent / "include" / "lurmenize.h"
WORD_BITS = 64
NAME_BYTES, ABBREVIATION_BYTES = LONGEST_NAME + 1, LONGEST_ABBREVIATION + 1  # with the zero that ends a C string
FILL = b"\xa5"  # every byte of a buffer before the call

# How many numbers a struct has.
LABEL_SIZE = 1 + len(CATEGORIES) // WORD_BITS
RANGE_SIZE = 2 * LABEL_SIZE
TUPLE_SIZE = len(REGIONS) * (1 + RANGE_SIZE)
ENTRY_SIZE = 2 + LABEL_SIZE + NAME_BYTES + 1 + ABBREVIATION_BYTES + 1
TENANT_SIZE = 1 + TUPLE_SIZE
SEGMENT_SIZE = LABEL_SIZE + 2
STATE_SIZE = 1 + len(TENANTS) * TENANT_SIZE + len(SLOTS) * SEGMENT_SIZE

# Stands for a tuple with a presence that is not 0 or 1, or with an absent range that is not zeros: it has too few ranges, and
# so it is invalid.
INVALID_TUPLE = Tuple(())


# From numbers. What can't be is refused here, before the call looks at anything.

def number_below(end, number):
    require(number < end, INVALID)
    return number


def flag(number):
    return number_below(2, number) == 1


def parts(numbers, size):
    return [numbers[at:at + size] for at in range(0, len(numbers), size)]


@functools.lru_cache(maxsize=2 ** 14)  # a state has the same labels again and again
def as_label(numbers):
    hierarchy, *words = numbers
    return Label(hierarchy, frozenset(WORD_BITS * i + bit for i, word in enumerate(words) if word
                                      for bit in range(WORD_BITS) if word >> bit & 1))


def as_range(numbers):
    return Range(*map(as_label, parts(numbers, LABEL_SIZE)))


@functools.lru_cache(maxsize=2 ** 12)
def as_tuple(numbers):
    ranges = [(present, tuple(held)) for present, *held in parts(numbers, 1 + RANGE_SIZE)]
    if any(present > 1 or present == 0 and any(held) for present, held in ranges):
        return INVALID_TUPLE
    return Tuple(tuple(as_range(held) if present else None for present, held in ranges))


def as_name(held, length):
    """A name or an abbreviation: its bytes, and at least one zero after them."""
    require(length < len(held) and not any(held[length:]), INVALID)
    return bytes(held[:length])


def as_entry(numbers):
    (names, number), held, rest = numbers[:2], numbers[2:2 + LABEL_SIZE], numbers[2 + LABEL_SIZE:]
    require(number == 0 if names == OF_LABEL else not any(held), INVALID)
    name, abbreviation = rest[:NAME_BYTES + 1], rest[NAME_BYTES + 1:]
    return Alias(names, as_label(held) if names == OF_LABEL else number,
                 as_name(name[:-1], name[-1]), as_name(abbreviation[:-1], abbreviation[-1]))


def as_caller(numbers):
    return Caller(as_label(numbers[:-1]), flag(numbers[-1]))


def as_style(numbers):
    form, variant = numbers
    return FORMS[number_below(len(FORMS), form)], VARIANTS[number_below(len(VARIANTS), variant)]


def as_credentials(numbers):
    label, bounds, flags = numbers[:LABEL_SIZE], numbers[LABEL_SIZE:-len(PRIVILEGES)], numbers[-len(PRIVILEGES):]
    return Credentials(as_label(label), as_range(bounds),
                       frozenset([privilege for privilege, number in zip(PRIVILEGES, flags) if flag(number)]))


def as_object(numbers):
    """An object. The kind of what is no file is not looked at, and neither is a label or a tuple that is not there."""
    (type_number, kind, has_label, has_tuple), held = numbers[:4], numbers[4:]
    object_type = TYPES[number_below(len(TYPES), type_number)]
    return Object(object_type, FILE_KINDS[number_below(len(FILE_KINDS), kind)] if object_type == FILE else None,
                  as_label(held[:LABEL_SIZE]) if flag(has_label) else None,
                  as_tuple(held[LABEL_SIZE:]) if flag(has_tuple) else None)


@functools.lru_cache(maxsize=2 ** 12)
def as_tenant(numbers):
    return Tenant(numbers[0], as_tuple(numbers[1:])) if any(numbers) else None


@functools.lru_cache(maxsize=2 ** 14)
def as_segment(numbers):
    return Segment(as_label(numbers[:LABEL_SIZE]), *numbers[LABEL_SIZE:]) if any(numbers) else None


def as_state(numbers):
    segments = 1 + len(TENANTS) * TENANT_SIZE
    return State(numbers[0], tuple(map(as_tenant, parts(numbers[1:segments], TENANT_SIZE))),
                        tuple(map(as_segment, parts(numbers[segments:], SEGMENT_SIZE))))


def as_it_is(argument):
    return argument


# To numbers

def label_numbers(label):
    bits = sum(1 << category for category in label.categories)
    return (label.hierarchy, *(bits >> at & (1 << WORD_BITS) - 1 for at in range(0, len(CATEGORIES), WORD_BITS)))


def range_numbers(bounds):
    return label_numbers(bounds.low) + label_numbers(bounds.high)


def tuple_numbers(ranges):
    return sum(((0,) * (1 + RANGE_SIZE) if r is None else (1, *range_numbers(r)) for r in ranges.ranges), ())


def name_numbers(name, size):
    return (*name.ljust(size, b"\0"), len(name))


def entry_numbers(entry):
    value = (0, *label_numbers(entry.value)) if entry.alias_class == OF_LABEL else (entry.value, *(0,) * LABEL_SIZE)
    return (entry.alias_class, *value, *name_numbers(entry.name, NAME_BYTES),
            *name_numbers(entry.abbreviation, ABBREVIATION_BYTES))


@functools.lru_cache(maxsize=2 ** 12)
def tenant_numbers(tenant):
    return (0,) * TENANT_SIZE if tenant is None else (tenant.ceiling, *tuple_numbers(tenant.clearance))


@functools.lru_cache(maxsize=2 ** 14)
def segment_numbers(segment):
    return (0,) * SEGMENT_SIZE if segment is None else (*label_numbers(segment.label), segment.pages, segment.version)


def state_numbers(state):
    flat = [state.pool]
    for tenant in state.tenants:
        flat.extend(tenant_numbers(tenant))
    for segment in state.segments:
        flat.extend(segment_numbers(segment))
    return tuple(flat)


# What is handed back: `granted` of what the call gives, `refused` of a refusal's lurm_answer, each with the arguments.

def grant_numbers(value=0):
    """The lurm_answer of a grant."""
    return 0, 0, int(value)


def refusal_numbers(refusal):
    """The lurm_answer of a refusal, which may carry the number 0."""
    return (refusal.number, 0, 0) if refusal.detail is None else (refusal.number, 1, refusal.detail)


class Alone:
    """A number and no lurm_answer, of a function that is never refused."""

    def granted(self, arguments, value):
        return (value,), None


class Number:
    """A lurm_answer alone."""

    def granted(self, arguments, value):
        return grant_numbers(value), None

    def refused(self, arguments, refusal):
        return refusal, None


class Contents:
    """A lurm_answer and a struct of so many numbers."""

    def __init__(self, size, numbers):
        self.size, self.numbers = size, numbers

    def granted(self, arguments, contents):
        return (*grant_numbers(), *self.numbers(contents)), None

    def refused(self, arguments, refusal):
        return (*refusal, *(0,) * self.size), None


class Written:
    """A lurm_answer, and a line or text at the front of the buffer, which is the last argument."""

    def granted(self, arguments, written):
        return grant_numbers(len(written)), written + FILL * (arguments[-1] - len(written))

    def refused(self, arguments, refusal):
        return refusal, FILL * arguments[-1]


class WrittenWithStatus(Written):
    def granted(self, arguments, status_and_text):
        status, written = status_and_text
        numbers, buffer = super().granted(arguments, written)
        return (*numbers, status), buffer

    def refused(self, arguments, refusal):
        numbers, buffer = super().refused(arguments, refusal)
        return (*numbers, 0), buffer


class Outcome:
    """A state, a lurm_answer, and what a look shows. A refusal hands back the state in the numbers that it came in."""

    def granted(self, arguments, after_and_grant):
        after, grant = after_and_grant
        shown, value = (grant, 0) if isinstance(grant, Segment) else (None, grant or 0)
        return (*state_numbers(after), *grant_numbers(value), *segment_numbers(shown)), None

    def refused(self, arguments, refusal):
        before = arguments[0] if isinstance(arguments[0], tuple) else (0,) * STATE_SIZE  # a make has no state
        return (*before, *refusal, *segment_numbers(None)), None


# The functions

@functools.cache
def version():
    """The header's LURM_VERSION."""
    major, minor, patch = (int(re.search(rf"#define LURM_VERSION_{part} (\d+)", HEADER.read_text())[1])
                           for part in ("MAJOR", "MINOR", "PATCH"))
    return major * 1_000_000 + minor * 1_000 + patch


def has_category(label, category):
    require(label.valid() and category in CATEGORIES, INVALID)
    return category in label.categories


def with_category(label, category):
    require(label.valid() and category in CATEGORIES, INVALID)
    return Label(label.hierarchy, label.categories | {category})


def next_category(label, start):
    """The least category from `start` on, or the number of categories that there are."""
    found = label.next_category(start)
    return len(CATEGORIES) if found is None else found


def reader_of(kind):
    def read_contents(line):
        contents = read(line)
        require(isinstance(contents, kind), INVALID)
        return contents
    return read_contents


def label_text(data, more, caller, style, label, capacity):
    return text.write_label(Table(data, more), label, caller, *style, capacity)


def range_text(data, more, caller, style, bounds, capacity):
    return text.write_range(Table(data, more), bounds, caller, *style, capacity)


def label_read(data, more, caller, given):
    return text.read_label(Table(data, more), given, caller)


def range_read(data, more, caller, given):
    return text.read_range(Table(data, more), given, caller)


def pages_in_use(state, tenant):
    require(state.sound() and state.admitted(tenant), INVALID)
    return state.pages_of(tenant)


def label_last(call):
    """A tenant's call, which has the subject's label after the tenant in the header, and last in the model."""
    return lambda state, tenant, label, *numbers: call(state, tenant, *numbers, label)


Function = namedtuple("Function", "takes call gives")  # how each argument is taken, the call, and what is handed back


def function(takes, call, gives):
    return Function([WORDS[word] for word in takes.split()], call, gives)


WORDS = {"number": as_it_is, "bytes": as_it_is, "buffer": as_it_is, "flag": flag, "label": as_label, "range": as_range,
         "tuple": as_tuple, "entry": as_entry, "caller": as_caller, "style": as_style, "credentials": as_credentials,
         "object": as_object, "state": as_state}
NUMBER, WRITTEN, OUTCOME = Number(), Written(), Outcome()
LABEL, RANGE = Contents(LABEL_SIZE, label_numbers), Contents(RANGE_SIZE, range_numbers)
TUPLE, ENTRY = Contents(TUPLE_SIZE, tuple_numbers), Contents(ENTRY_SIZE, entry_numbers)

FUNCTIONS = {
    "version": function("", version, Alone()),
    "dominates": function("label label", Label.dominates, NUMBER),
    "equal": function("label label", Label.equal, NUMBER),
    "upper_bound": function("label label", Label.upper_bound, LABEL),
    "lower_bound": function("label label", Label.lower_bound, LABEL),
    "region_of": function("label", Label.region, NUMBER),
    "has_category": function("label number", has_category, NUMBER),
    "with_category": function("label number", with_category, LABEL),
    "next_category": function("label number", next_category, NUMBER),
    "range_contains": function("range label", Range.contains, NUMBER),
    "range_meet": function("range range", Range.meet, RANGE),
    "range_split": function("range", Range.split, TUPLE),
    "tuple_is_empty": function("tuple", Tuple.empty, NUMBER),
    "tuple_contains": function("tuple label", Tuple.contains, NUMBER),
    "tuple_within": function("tuple tuple", Tuple.within, NUMBER),
    "tuple_meet": function("tuple tuple", Tuple.meet, TUPLE),
    "line_kind": function("bytes", lambda line: framed(line)[0], NUMBER),
    "write_label": function("label buffer", write, WRITTEN),
    "write_range": function("range buffer", write, WRITTEN),
    "write_tuple": function("tuple buffer", write, WRITTEN),
    "write_entry": function("entry buffer", write, WRITTEN),
    "read_label": function("bytes", reader_of(Label), LABEL),
    "read_range": function("bytes", reader_of(Range), RANGE),
    "read_tuple": function("bytes", reader_of(Tuple), TUPLE),
    "read_entry": function("bytes", reader_of(Alias), ENTRY),
    "check_alias_table": function("bytes flag", lambda data, more: len(Table(data, more).entries()), NUMBER),
    "write_label_text": function("bytes flag caller style label buffer", label_text, WRITTEN),
    "write_range_text": function("bytes flag caller style range buffer", range_text, WrittenWithStatus()),
    "read_label_text": function("bytes flag caller bytes", label_read, LABEL),
    "read_range_text": function("bytes flag caller bytes", range_read, RANGE),
    "check": function("caller credentials object number number", lambda *asked: decide(Request(*asked)), NUMBER),
    "make": function("number", State.make, OUTCOME),
    "admit": function("state number number tuple", State.admit, OUTCOME),
    "set_ceiling": function("state number number", State.set_ceiling, OUTCOME),
    "open": function("state number label number", label_last(State.open), OUTCOME),
    "size": function("state number label number number", label_last(State.size), OUTCOME),
    "post": function("state number label number number", label_last(State.post), OUTCOME),
    "close": function("state number label number", label_last(State.close), OUTCOME),
    "look": function("state number label number", label_last(State.look), OUTCOME),
    "sound": function("state", State.sound, NUMBER),
    "pages_in_use": function("state number", pages_in_use, NUMBER),
}


def answer(name, arguments):
    """The numbers that a function hands back, and the buffer, or None where there is none."""
    called = FUNCTIONS[name]
    try:
        grant = called.call(*(take(given) for take, given in zip(called.takes, arguments, strict=True)))
    except Refusal as refusal:
        return called.gives.refused(arguments, refusal_numbers(refusal))
    return called.gives.granted(arguments, grant)


# Lines

def argument_of(word):
    if word.startswith("x"):
        return bytes.fromhex(word[1:])
    if word.startswith("b"):
        return int(word[1:])
    return tuple(map(int, word.split(","))) if "," in word else int(word)


def request_of(line):
    """The name and the arguments in a line."""
    name, *words = line.split()
    return name, [argument_of(word) for word in words]


def answer_line(line):
    numbers, buffer = answer(*request_of(line))
    return ",".join(map(str, numbers)) + ("" if buffer is None else f" x{buffer.hex()}")


def main():
    for line in sys.stdin:
        print(answer_line(line))


if __name__ == "__main__":
    main()
