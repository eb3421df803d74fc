# Document 01's rules for labels, ranges, tuples, alias entries and hex lines, in plain Python.
# Written from the document and not from the crates, so that the two can check each other.

import functools
import re
from dataclasses import dataclass


# "Numbers handed back"

NO_PRIVILEGE = 1
NO_NAME = 2
BUFFER_SHORT = 7
NO_PAGES = 12
DENIED = 13
IN_USE = 16
INVALID = 22
NO_PLACE = 28
NO_COMMON_LABEL = 33


class Refusal(Exception):
    """A refusal: its number, and the one more number that 7 and a bad table's 22 carry."""

    def __init__(self, number, detail=None):
        super().__init__(number, detail)
        self.number = number
        self.detail = detail


def require(met, number, detail=None):
    """One check: refuses with the number unless it is met."""
    if not met:
        raise Refusal(number, detail)


def fitted(text, capacity):
    """What is to be written. With a capacity, a text that is longer is refused with its length."""
    require(capacity is None or len(text) <= capacity, BUFFER_SHORT, len(text))
    return text


# "Labels and regions"

HIERARCHIES = range(200)
CATEGORIES = frozenset(range(256))
REGIONS = (range(0, 20), range(20, 180), range(180, 200))  # virus prevention, user, administrative


def refuses_invalid(call):
    """Any call but a test of validity, given something invalid, answers 22 before its other checks."""

    @functools.wraps(call)
    def checked(*arguments):
        if not all(a.valid() for a in arguments if hasattr(a, "valid")):
            raise Refusal(INVALID)
        return call(*arguments)

    return checked


@dataclass(frozen=True)
class Label:
    hierarchy: int
    categories: frozenset = frozenset()

    KIND = 1

    def valid(self):
        return self.hierarchy in HIERARCHIES and self.categories <= CATEGORIES

    @refuses_invalid
    def dominates(self, other):
        return self.hierarchy >= other.hierarchy and self.categories >= other.categories

    @refuses_invalid
    def equal(self, other):
        return self == other

    @refuses_invalid
    def upper_bound(self, other):
        return Label(max(self.hierarchy, other.hierarchy), self.categories | other.categories)

    @refuses_invalid
    def lower_bound(self, other):
        return Label(min(self.hierarchy, other.hierarchy), self.categories & other.categories)

    @refuses_invalid
    def category_count(self):
        return len(self.categories)

    @refuses_invalid
    def next_category(self, start):
        """The least category at or above `start`, or None."""
        return min((c for c in self.categories if c >= start), default=None)

    @refuses_invalid
    def region(self):
        """The region's index in REGIONS."""
        return next(i for i, region in enumerate(REGIONS) if self.hierarchy in region)

    # "Hex lines": hierarchy, then categories, c at bit c mod 8 of byte c / 8.

    def body(self):
        bits = sum(1 << c for c in self.categories)
        return bytes([self.hierarchy]) + bits.to_bytes(32, "little")

    @classmethod
    def take(cls, source):
        hierarchy = source.byte()
        bits = int.from_bytes(source.bytes(32), "little")
        return cls(hierarchy, frozenset(c for c in CATEGORIES if bits >> c & 1))


# Who asks: a "subject" of "Names and text", and the caller of the monitor in request 2026-01

@dataclass(frozen=True)
class Caller:
    label: Label
    read_override: bool = False

    def valid(self):
        return self.label.valid()

    def sees(self, label):
        return self.read_override or self.label.dominates(label)


# "Ranges and tuples"

@dataclass(frozen=True)
class Range:
    low: Label
    high: Label

    KIND = 2

    def valid(self):
        return self.low.valid() and self.high.valid() and self.high.dominates(self.low)

    @refuses_invalid
    def contains(self, label):
        return self.high.dominates(label) and label.dominates(self.low)

    @refuses_invalid
    def meet(self, other):
        """A label is in both exactly if it lies between these two, so there is none unless they are a range."""
        common = Range(self.low.upper_bound(other.low), self.high.lower_bound(other.high))
        if not common.valid():
            raise Refusal(NO_COMMON_LABEL)
        return common

    @refuses_invalid
    def split(self):
        """The tuple of a range: hierarchies cut at region borders, both ends' categories kept."""
        return Tuple(tuple(self.part(region) for region in REGIONS))

    def part(self, region):
        first = max(self.low.hierarchy, region[0])
        last = min(self.high.hierarchy, region[-1])
        if first > last:
            return None
        return Range(Label(first, self.low.categories), Label(last, self.high.categories))

    # "Hex lines": low, high.

    def body(self):
        return self.low.body() + self.high.body()

    @classmethod
    def take(cls, source):
        low = Label.take(source)
        return cls(low, Label.take(source))


def meet_or_none(one, other):
    """The meet of what two tuples have for a region: a range, or None."""
    if one is None or other is None:
        return None
    try:
        return one.meet(other)
    except Refusal:
        return None


@dataclass(frozen=True)
class Tuple:
    ranges: tuple = (None,) * len(REGIONS)  # by region, a Range or None

    KIND = 3

    def valid(self):
        return len(self.ranges) == len(REGIONS) and all(
            r is None or r.valid() and r.low.hierarchy in region and r.high.hierarchy in region
            for r, region in zip(self.ranges, REGIONS))

    @refuses_invalid
    def empty(self):
        return all(r is None for r in self.ranges)

    @refuses_invalid
    def contains(self, label):
        there = self.ranges[label.region()]
        return there is not None and there.contains(label)

    @refuses_invalid
    def meet(self, other):
        return Tuple(tuple(map(meet_or_none, self.ranges, other.ranges)))

    @refuses_invalid
    def within(self, other):
        """Each label of a range is in another range exactly if both its ends are."""
        return all(r is None or other.contains(r.low) and other.contains(r.high) for r in self.ranges)

    # "Hex lines": byte of presence, then the present ranges in that order.

    def body(self):
        present = sum(1 << i for i, r in enumerate(self.ranges) if r is not None)
        return bytes([present]) + b"".join(r.body() for r in self.ranges if r is not None)

    @classmethod
    def take(cls, source):
        present = source.byte()
        if present >> len(REGIONS):
            raise Refusal(INVALID)
        return cls(tuple(Range.take(source) if present >> i & 1 else None for i in range(len(REGIONS))))


# "Hex lines", kind 04, and what "Names and text" says of any line of kind 04

OF_HIERARCHY, OF_CATEGORY, OF_LABEL = 1, 2, 3
LONGEST_NAME = 31
LONGEST_ABBREVIATION = 15
NAME = re.compile(rb"[A-Za-z][A-Za-z0-9_.-]*")


def is_name(text, longest):
    return len(text) <= longest and NAME.fullmatch(text) is not None


@dataclass(frozen=True)
class Alias:
    alias_class: int
    value: object  # a number, or a Label under OF_LABEL
    name: bytes
    abbreviation: bytes = b""

    KIND = 4

    def value_valid(self):
        if self.alias_class == OF_HIERARCHY:
            return self.value in HIERARCHIES
        if self.alias_class == OF_CATEGORY:
            return self.value in CATEGORIES
        return self.alias_class == OF_LABEL and isinstance(self.value, Label) and self.value.valid()

    def valid(self):
        return (self.value_valid() and is_name(self.name, LONGEST_NAME)
                and (self.abbreviation == b"" or is_name(self.abbreviation, LONGEST_ABBREVIATION)))

    def body(self):
        value = self.value.body() if self.alias_class == OF_LABEL else bytes([self.value])
        return bytes([self.alias_class]) + value + counted(self.name) + counted(self.abbreviation)

    @classmethod
    def take(cls, source):
        alias_class = source.byte()
        value = Label.take(source) if alias_class == OF_LABEL else source.byte()
        name = source.bytes(source.byte())
        return cls(alias_class, value, name, source.bytes(source.byte()))


def counted(text):
    return bytes([len(text)]) + text


# "Hex lines"

KINDS = {contents.KIND: contents for contents in (Label, Range, Tuple, Alias)}
LINE = re.compile(rb"(?:[0-9a-f]{2})+\n")
LONGEST_FRAME = 201  # a full tuple's, with its sum: 402 digits


class Source:
    """The bytes of a body, taken from the front."""

    def __init__(self, data):
        self.rest = data

    def bytes(self, count):
        if count > len(self.rest):
            raise Refusal(INVALID)
        taken, self.rest = self.rest[:count], self.rest[count:]
        return taken

    def byte(self):
        return self.bytes(1)[0]


def sealed(frame):
    """The line of a kind and body: the last byte makes the sum of all a multiple of 256."""
    return (frame + bytes([-sum(frame) % 256])).hex().encode() + b"\n"


def write(contents, capacity=None):
    """The line of `contents`. With a capacity, a line that is longer is refused with its length."""
    require(contents.valid(), INVALID)
    return fitted(sealed(bytes([contents.KIND]) + contents.body()), capacity)


def framed(line):
    """The bytes of a line but for its sum: a known kind, then any body that is no longer than the longest. Any fault of the frame is
    refused with 22."""
    require(LINE.fullmatch(line), INVALID)
    frame = bytes.fromhex(line[:-1].decode())
    require(sum(frame) % 256 == 0 and len(frame) <= LONGEST_FRAME and frame[0] in KINDS, INVALID)
    return frame[:-1]


def read(line):
    """The contents of a line, its LF included. Any fault is refused with 22."""
    frame = framed(line)
    source = Source(frame[1:])
    contents = KINDS[frame[0]].take(source)
    require(not source.rest and contents.valid(), INVALID)
    return contents
