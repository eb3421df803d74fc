# The arguments of each exported function, case by case: a seed, a function's name and a number give one case.

import random
from dataclasses import replace

from capi import ABBREVIATION_BYTES, NAME_BYTES, entry_numbers, label_numbers
from capi import FUNCTIONS as MODELLED
from header import FUNCTIONS
from monitor import FILE, FILE_KINDS, TYPES
from monitor_cmd_cases import random_attribute_type, random_caller, random_intents, random_object, random_type
from pools import Pools, damaged_state
from rules import Alias, Label, Range, Tuple, write
from samples import (ANY, LETTERS, WORD_BORDERS, any_alias, any_category, any_label, any_range, any_tuple, at_times,
                     range_around)
from segment_samples import any_caller, any_operator_call, any_tenant_call
from segments import MOST_PAGES
from text import FORMS, VARIANTS
from text_samples import (BAD_RANGES, BAD_TEXTS, GOOD_RANGES, GOOD_TEXTS, damaged_text, label_in, label_text_in, range_in,
                          range_text_in, spoiled, subject_near, text_in)
from values import any_line, bent, flag, length_about, near_each_other, number, numbers_of, other_number, spoilt

assert list(FUNCTIONS) == list(MODELLED)
NO_LABEL, NO_TUPLE = (0,) * 5, (0,) * 33
ROOM = 200  # bytes, more than the longest line of an entry


# Labels, ranges, tuples and lines

def nothing(rng, pools, at):
    return ()


def label_and_category(rng, pools, at):
    """A label, and a category that it has, one next to that, or any other; at times a number that is none."""
    label = any_label(rng)
    category = rng.choice((any_category(rng), rng.choice(WORD_BORDERS), rng.choice(sorted(label.categories) or (0,))))
    return numbers_of(rng, label), number(rng, max(0, category + rng.choice((0, 0, -1, 1))), 0.2)


def of_kinds(*kinds):
    return lambda rng, pools, at: tuple(numbers_of(rng, contents) for contents in near_each_other(rng, kinds))


def to_write(kind):
    def arguments(rng, pools, at):
        contents = ANY[kind](rng)
        return numbers_of(rng, contents), length_about(rng, len(write(contents)))
    return arguments


def entry_to_write(rng, pools, at):
    """An alias entry, at times with a name or an abbreviation of one byte too many, in the place of the zero after it."""
    entry = any_alias(rng)
    if not at_times(rng, 0.03):
        return numbers_of(rng, entry), length_about(rng, len(write(entry)))
    field, size = rng.choice((("name", NAME_BYTES), ("abbreviation", ABBREVIATION_BYTES)))
    return entry_numbers(replace(entry, **{field: bytes(rng.choices(LETTERS, k=size))})), ROOM


def to_read(kind):
    return lambda rng, pools, at: (any_line(rng, kind),)


def any_kind_of_line(rng, pools, at):
    return (any_line(rng, rng.choice(list(ANY))),)


# Names and text

def alias_table_alone(rng, pools, at):
    """An alias table, now and then with fresh damage, most of the time to one that is not long, which takes less time to
    judge."""
    known, data = pools.alias_table(pools.some(rng, at))
    if at_times(rng, 0.4 if len(data) < 10_000 else 0.1):
        entries = known.entries()
        data = b"".join(spoiled(rng, entries)) if entries and at_times(rng, 0.5) else spoilt(rng, data)
    return data, flag(rng, 0.1)


def itself(rng, label):
    return label


def either_end(rng, bounds):
    return rng.choice((bounds.low, bounds.high))


def caller_numbers(rng, caller):
    return bent(rng, "lurm_caller", (*label_numbers(caller.label), int(caller.read_override)), 0.04)


def text_to_write(contents_in, seen_of):
    def arguments(rng, pools, at):
        known, data = pools.alias_table(pools.some(rng, at))
        contents = contents_in(rng, known)
        form, variant = rng.choice(FORMS), rng.choice(VARIANTS)
        text = text_in(known, contents, form, variant) or b""
        return (data, flag(rng, 0.04), caller_numbers(rng, subject_near(rng, seen_of(rng, contents))),
                bent(rng, "lurm_style", (form, variant), 0.03), numbers_of(rng, contents, 0.04), length_about(rng, len(text)))
    return arguments


def text_to_read(contents_in, seen_of, text_in_table, fixed):
    def arguments(rng, pools, at):
        known, data = pools.alias_table(pools.some(rng, at))
        contents = contents_in(rng, known)
        text = text_in(known, contents, rng.choice(FORMS), rng.choice(VARIANTS))
        if text is None or at_times(rng, 0.2):
            text = text_in_table(rng, known)
        if at_times(rng, 0.25):
            text = rng.choice((damaged_text(rng, text), spoilt(rng, text), rng.choice(fixed), rng.randbytes(rng.randrange(99))))
        return data, flag(rng, 0.04), caller_numbers(rng, subject_near(rng, seen_of(rng, contents))), text
    return arguments


# The monitor

def credentials(rng, subject):
    bounds = range_around(rng, subject) if at_times(rng, 0.97) else any_range(rng)
    return bent(rng, "lurm_credentials", (*numbers_of(rng, subject, 0), *numbers_of(rng, bounds, 0),
                                          *(rng.randrange(2) for _ in range(3))), 0.05)


def thing(rng, label, ranges, object_type, kind):
    """An object. What it does not have is zeros or anything, and so is the kind of what is no file."""
    has = label is not None, ranges is not None
    if at_times(rng, 0.5):
        label, ranges = label or any_label(rng), ranges or any_tuple(rng)
    kind_number = number(rng, FILE_KINDS.index(kind), 0.02 if object_type == FILE else 0.4)
    numbers = (TYPES.index(object_type), kind_number, *map(int, has),
               *(NO_LABEL if label is None else numbers_of(rng, label, 0.03 if has[0] else 0.5)),
               *(NO_TUPLE if ranges is None else numbers_of(rng, ranges, 0.03 if has[1] else 0.5)))
    return bent(rng, "lurm_object", numbers, 0.04)


def to_check(rng, pools, at):
    subject = any_label(rng)
    object_type, kind = random_type(rng), rng.choice(FILE_KINDS)
    intents = random_intents(rng, object_type, kind) if at_times(rng, 0.9) else rng.randrange(rng.choice((64, 128)))
    label, ranges = random_object(rng, subject)
    return (caller_numbers(rng, random_caller(rng, subject, label)), credentials(rng, subject),
            thing(rng, label, ranges, object_type, kind), number(rng, intents), number(rng, random_attribute_type(rng)))


# Shared memory

def some_state(rng, pools, at, share=0.1):
    """A state that a run reaches, and its numbers, at times damaged."""
    state, numbers = pools.state(pools.some(rng, at))
    return state, damaged_state(rng, numbers) if at_times(rng, share) else numbers


def call_of(rng, name, state, any_call):
    """A call of this name that has to do with what a state holds."""
    while True:
        call = any_call(rng, state)
        if call.name == name:
            return call


def tenants_call(name):
    def arguments(rng, pools, at):
        state, numbers = some_state(rng, pools, at)
        call = call_of(rng, name, state, any_tenant_call)
        tenant, *more = (number(rng, given) for given in call.numbers)
        return (numbers, tenant, numbers_of(rng, call.label, 0.03), *more)
    return arguments


def operators_call(name):
    def arguments(rng, pools, at):
        state, numbers = some_state(rng, pools, at)
        call = call_of(rng, name, state, any_operator_call)
        return (numbers, *(number(rng, given) for given in call.numbers),
                *(numbers_of(rng, clearance, 0.05) for clearance in call.operands))
    return arguments


def to_make(rng, pools, at):
    pool = rng.choice((1, MOST_PAGES, rng.randint(1, MOST_PAGES)))
    return (rng.choice((0, MOST_PAGES + 1, pool, pool, other_number(rng, pool))),)


def state_alone(rng, pools, at):
    return (some_state(rng, pools, at, 0.6)[1],)


def state_and_tenant(rng, pools, at):
    state, numbers = some_state(rng, pools, at)
    return numbers, number(rng, any_caller(rng, state))


CASES = {
    "version": nothing,
    "dominates": of_kinds(Label, Label),
    "equal": of_kinds(Label, Label),
    "upper_bound": of_kinds(Label, Label),
    "lower_bound": of_kinds(Label, Label),
    "region_of": of_kinds(Label),
    "has_category": label_and_category,
    "with_category": label_and_category,
    "next_category": label_and_category,
    "range_contains": of_kinds(Range, Label),
    "range_meet": of_kinds(Range, Range),
    "range_split": of_kinds(Range),
    "tuple_is_empty": of_kinds(Tuple),
    "tuple_contains": of_kinds(Tuple, Label),
    "tuple_within": of_kinds(Tuple, Tuple),
    "tuple_meet": of_kinds(Tuple, Tuple),
    "line_kind": any_kind_of_line,
    "write_label": to_write(Label),
    "write_range": to_write(Range),
    "write_tuple": to_write(Tuple),
    "write_entry": entry_to_write,
    "read_label": to_read(Label),
    "read_range": to_read(Range),
    "read_tuple": to_read(Tuple),
    "read_entry": to_read(Alias),
    "check_alias_table": alias_table_alone,
    "write_label_text": text_to_write(label_in, itself),
    "write_range_text": text_to_write(range_in, either_end),
    "read_label_text": text_to_read(label_in, itself, label_text_in, GOOD_TEXTS + BAD_TEXTS),
    "read_range_text": text_to_read(range_in, either_end, range_text_in, GOOD_RANGES + BAD_RANGES),
    "check": to_check,
    "make": to_make,
    "admit": operators_call("admit"),
    "set_ceiling": operators_call("set_ceiling"),
    "open": tenants_call("open"),
    "size": tenants_call("size"),
    "post": tenants_call("post"),
    "close": tenants_call("close"),
    "look": tenants_call("look"),
    "sound": state_alone,
    "pages_in_use": state_and_tenant,
}


class Cases:
    """The cases of a seed."""

    def __init__(self, seed):
        self.seed, self.pools = seed, Pools(seed)

    def arguments(self, name, at):
        return CASES[name](random.Random(f"{self.seed} {name} {at}"), self.pools, at)
