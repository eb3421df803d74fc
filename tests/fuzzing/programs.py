# Inputs for the programs, case by case: a seed, a program's name and a number give one. They are requests by the model's
# own generators, pieces of the stored inputs, and both of these damaged. A program is run on one and held to its model.

import random
import subprocess
from collections import namedtuple
from pathlib import Path

import mac_cmd
import mac_cmd_cases
import monitor_cmd
import monitor_cmd_cases
import segments_cmd
import segments_cmd_cases
import text_cmd
import text_cmd_cases
from cases import BAD_NUMBERS, GOOD_NUMBERS
from protocol import LINE_BUFFER, first_difference, lines_of
from rules import LINE
from samples import at_times
from text import MOST_ENTRIES
from text_cmd import TABLE_BUFFER, TEXT_BUFFER
from text_samples import FULL, LONGEST_TEXTS, labels_table, short_table
from values import ODD_BYTES, bad_line, byte_changed

ROOT = Path(__file__).resolve().parent.parent.parent
TIME_LIMIT = 20  # seconds
LONG = (LINE_BUFFER - 2, LINE_BUFFER - 1, LINE_BUFFER, LINE_BUFFER + 1, 4096, TEXT_BUFFER - 1, TEXT_BUFFER, TABLE_BUFFER)


# Random requests

def mac_requests(rng):
    return b"".join(mac_cmd_cases.random_request(rng) for _ in range(rng.randrange(60)))


def monitor_requests(rng):
    return b"".join(monitor_cmd_cases.random_request(rng) for _ in range(rng.randrange(40)))


def segments_requests(rng):
    return b"".join(segments_cmd_cases.random_calls(rng, rng.randrange(150)))


def large_table(rng):
    """A table about as large as there may be, by lines or by bytes, and reads of the longest range."""
    table = rng.choice((short_table(MOST_ENTRIES), short_table(MOST_ENTRIES + 1), FULL,
                        labels_table(TABLE_BUFFER + rng.choice((0, 0, 1, 2)))))
    return text_cmd_cases.table(*table) + text_cmd_cases.SEES_ALL + b"".join(
        text_cmd_cases.read_range(text) for text in (LONGEST_TEXTS[1], b"-L low -H low", LONGEST_TEXTS[1] + b"0"))


def text_requests(rng):
    if at_times(rng, 0.12):
        return large_table(rng)
    return text_cmd_cases.random_tables(rng, rng.randrange(4), rng.choice((3, 20, 20, 150)))


Program = namedtuple("Program", "answers requests")
PROGRAMS = {
    "mac_cmd": Program(mac_cmd.answers, mac_requests),
    "monitor_cmd": Program(monitor_cmd.answers, monitor_requests),
    "segments_cmd": Program(segments_cmd.answers, segments_requests),
    "text_cmd": Program(text_cmd.answers, text_requests),
}
STORED = {name: (ROOT / "crates" / name / "stdin").read_bytes().splitlines(keepends=True) for name in PROGRAMS}


def piece(rng, lines):
    """Some lines that follow each other."""
    start = rng.randrange(len(lines))
    return lines[start:start + rng.choice((1, 10, 40, 120))]


def whole_requests(rng, name):
    """Lines with no damage but where pieces end."""
    requests = list(lines_of(PROGRAMS[name].requests(rng)))
    return rng.choice((requests, requests, piece(rng, STORED[name]), requests + piece(rng, STORED[name]),
                       STORED[name][:150] + piece(rng, STORED[name])))


# Damage to lines. Each takes the lines, of which there is at least one, and a place among them.

def line_changed(change):
    return lambda rng, lines, at: lines[:at] + [change(rng, lines[at])] + lines[at + 1:]


def line_dropped(rng, lines, at):
    return lines[:at] + lines[at + 1:]


def line_moved(rng, lines, at):
    rest = line_dropped(rng, lines, at)
    to = rng.randrange(len(lines))
    return rest[:to] + [lines[at]] + rest[to:]


def lines_swapped(rng, lines, at):
    swapped, other = list(lines), rng.randrange(len(lines))
    swapped[at], swapped[other] = lines[other], lines[at]
    return swapped


def lines_repeated(rng, lines, at):
    return lines[:at] + lines[at:at + rng.choice((1, 1, 3))] * rng.choice((2, 2, 3, 30)) + lines[at:]


def cut_off(rng, lines, at):
    """The input ends anywhere in a line, most of the time not far from its end."""
    at = at if at_times(rng, 0.3) else len(lines) - 1
    return lines[:at] + [lines[at][:rng.randrange(len(lines[at]))]]


def no_last_lf(rng, lines, at):
    return lines[:-1] + [lines[-1].rstrip(b"\n")]


def spliced(rng, lines, at):
    """Lines of some program's stored input between the others."""
    return lines[:at] + piece(rng, STORED[rng.choice(list(STORED))])[:rng.choice((1, 5))] + lines[at:]


def line_put_in(line_of):
    return lambda rng, lines, at: lines[:at] + [line_of(rng)] + lines[at:]


def long_line(rng):
    return bytes([rng.choice(b"x#0f\0\xff")]) * rng.choice(LONG) + b"\n"


def binary_line(rng):
    return rng.randbytes(rng.choice((1, 20, 300))) + b"\n"


def other_numbers(rng, line):
    """The line with one word replaced by a number, huge or odd ones too."""
    words = line.rstrip(b"\n").split(b" ")
    words[rng.randrange(len(words))] = rng.choice((rng.choice(GOOD_NUMBERS), rng.choice(BAD_NUMBERS),
                                                   b"%d" % rng.getrandbits(64), b"%d" % rng.randrange(70)))
    return b" ".join(words) + b"\n"


def cr_before_lf(rng, line):
    return line.rstrip(b"\n") + b"\r\n"


def frame_changed(rng, lines, at):
    """A hex line, the next that there is, changed in a way that may leave its sum right."""
    at = next((i for i in range(at, len(lines)) if LINE.fullmatch(lines[i]) and len(lines[i]) > 5), None)
    return lines if at is None else lines[:at] + [bad_line(rng, lines[at])] + lines[at + 1:]


def byte_put_in(rng, line):
    at = rng.randrange(len(line))
    return line[:at] + bytes([rng.choice(ODD_BYTES)]) + line[at:]


DAMAGE = [
    line_changed(byte_changed), line_changed(byte_changed), line_changed(other_numbers), line_changed(other_numbers),
    line_changed(cr_before_lf), line_changed(byte_put_in), line_changed(lambda rng, line: b"#" + line), frame_changed,
    frame_changed, line_dropped, line_moved, lines_swapped, lines_repeated, cut_off, no_last_lf, spliced,
    line_put_in(long_line), line_put_in(binary_line), line_put_in(lambda rng: b"\n"),
]


def damaged(rng, lines):
    for _ in range(rng.choice((1, 2, 4, 12))):
        if lines:
            lines = rng.choice(DAMAGE)(rng, lines, rng.randrange(len(lines)))
            lines = [line for line in lines if line]
    return lines


def program_input(seed, name, at):
    rng = random.Random(f"{seed} {name} {at}")
    if at_times(rng, 0.02):
        return rng.randbytes(rng.randrange(3000))
    lines = whole_requests(rng, name)
    return b"".join(lines if at_times(rng, 0.2) else damaged(rng, lines))


# Running

def path_of(name):
    return ROOT / "crates" / name / "out" / name


def difference(name, data):
    """What is wrong with a program's run on an input, or None, and what it should print."""
    expected = PROGRAMS[name].answers(data)
    try:
        done = subprocess.run([path_of(name)], input=data, capture_output=True, timeout=TIME_LIMIT)
    except subprocess.TimeoutExpired:
        return f"not done in {TIME_LIMIT} seconds", expected
    if done.returncode != 0:
        return f"status {done.returncode}", expected
    if done.stderr:
        return f"error output {done.stderr[:80]}", expected
    return None if done.stdout == expected else first_difference(done.stdout, expected), expected
