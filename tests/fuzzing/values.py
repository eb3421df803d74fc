# Random values for the arguments of the exported functions: good ones by the model's own generators, and damage to them.
# Everything random is drawn from the generator that is passed in, so that a seed fixes it.

import mac_cmd_cases
from capi import entry_numbers, label_numbers, range_numbers, tuple_numbers
from header import LAYOUTS
from rules import Alias, Label, Range, Tuple, sealed, write
from samples import ANY, any_label, at_times, damaged, digit_changed, near, resealed

NUMBERS_OF = {Label: label_numbers, Range: range_numbers, Tuple: tuple_numbers, Alias: entry_numbers}
STRUCT_OF = {Label: "lurm_label", Range: "lurm_range", Tuple: "lurm_tuple", Alias: "lurm_entry"}
WRONG_LINES = [line for _, line in mac_cmd_cases.wrong_lines()]
BODIES = (0, 1, 2, 5, 33, 34, 66, 67, 132, 133, 198, 199, 200, 255, 4000)  # bytes, about as long as those of lines
CUTS = 8, 16, 32, 63  # bits: numbers that differ by 2 to one of these are the same once they are cut to so many
BORDERS = 0, 1, 2, 3, 6, 15, 16, 31, 32, 63, 64, 199, 200, 255, 256, 2 ** 32 - 1, 2 ** 32, 2 ** 63, 2 ** 64 - 1
ODD_BYTES = b"\0\n\r -#:,?0aAfFgG\x7f\x80\xff"


# Numbers

def other_number(rng, number, bits=64):
    """Another number of so many bits: next to the one given, one that is cut to it, at a border, or anywhere."""
    next_to = rng.choice((number + 1, number - 1, number ^ 1 << rng.randrange(bits)))
    beyond, border = 2 ** min(rng.choice(CUTS), bits - 1), rng.choice(BORDERS)
    return rng.choice((next_to, number + beyond, number - beyond, border, border + beyond, rng.getrandbits(bits))) % 2 ** bits


def some_place(rng, layout, numbers):
    """A number of a struct: one in use, or one of any field, so that a field of which there are few gets its turn."""
    in_use = [at for at, number in enumerate(numbers) if number]
    return rng.choice(in_use if in_use and at_times(rng, 0.3) else rng.choice(list(layout.at.values())))


def off(rng, struct, numbers):
    """A struct's numbers with some of them changed, most of the time one."""
    changed, layout = list(numbers), LAYOUTS[struct]
    for _ in range(rng.choice((1, 1, 1, 2, 3))):
        at = some_place(rng, layout, changed)
        changed[at] = other_number(rng, changed[at], layout.bits[at])
    return tuple(changed)


def anything(rng, struct):
    """A struct with any numbers, or any small ones, among which there are flags."""
    most = rng.choice((1, 8, 64))
    return tuple(rng.getrandbits(min(bits, most)) for bits in LAYOUTS[struct].bits)


def bent(rng, struct, numbers, share=0.12):
    """The numbers of a struct, at times with some changed, or with no good one among them."""
    if not at_times(rng, share):
        return numbers
    return off(rng, struct, numbers) if at_times(rng, 0.9) else anything(rng, struct)


def numbers_of(rng, contents, share=0.12):
    """The numbers of a label, range, tuple or entry, at times damaged. Few numbers make a label invalid."""
    share *= 2 if isinstance(contents, Label) else 1
    return bent(rng, STRUCT_OF[type(contents)], NUMBERS_OF[type(contents)](contents), share)


def number(rng, good, share=0.04):
    """A number that stands by itself, at times another one than is good."""
    return other_number(rng, good) if at_times(rng, share) else good


def flag(rng, share):
    """A flag, 1 for a share of the time, and now and then none at all."""
    return number(rng, int(at_times(rng, share)), 0.02)


def near_each_other(rng, kinds):
    """Contents of these kinds that most of the time have to do with one label."""
    common = any_label(rng)
    return [near(rng, kind, common) for kind in kinds]


# Lengths of buffers

def length_about(rng, needed):
    """The length of a buffer: what is needed, a byte less or more, none, or any."""
    some = rng.randrange(needed + 100)
    return max(0, rng.choice((needed, needed, needed + 1, needed - 1, needed - 1, 0, needed + 300, some)))


# Bytes

def byte_changed(rng, data):
    at = rng.randrange(len(data))
    byte = rng.choice((data[at] ^ 1 << rng.randrange(8), rng.choice(ODD_BYTES)))
    return data[:at] + bytes([byte]) + data[at + 1:]


def spoilt(rng, data):
    """Bytes with one changed, added or dropped, cut off at either end, or twice."""
    if not data:
        return bytes([rng.choice(ODD_BYTES)])
    at = rng.randrange(len(data))
    return rng.choice((byte_changed(rng, data), data[:at], data[at:], data[:-1], data + data, data[:at] + data[at + 1:],
                       data[:at] + bytes([rng.choice(ODD_BYTES)]) + data[at:]))


# Lines

def other_body(rng, line):
    """A line with a right sum whose body has another byte, or one more or less."""
    frame = bytearray.fromhex(line.decode())
    at = rng.randrange(1, len(frame))
    frame[at:at + rng.choice((0, 1))] = rng.randbytes(rng.choice((0, 1)))
    return sealed(bytes(frame[:-1])) if len(frame) > 1 else line


def bad_line(rng, line):
    """A line that comes near a good one; now and then it is a good one again."""
    return rng.choice((
        lambda: damaged(rng, line), lambda: resealed(digit_changed(rng, line)), lambda: other_body(rng, line),
        lambda: spoilt(rng, line), lambda: line[:-1] + b"\r\n", lambda: rng.choice(WRONG_LINES),
        lambda: sealed(bytes([rng.randrange(6)]) + rng.randbytes(rng.choice(BODIES))),
        lambda: rng.randbytes(rng.randrange(600)), lambda: b""))()


def any_line(rng, kind):
    """A line, as often as not good, most of the time of this kind."""
    line = write(ANY[kind if at_times(rng, 0.8) else rng.choice(list(ANY))](rng))
    return line if at_times(rng, 0.5) else bad_line(rng, line)
