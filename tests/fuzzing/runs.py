# The two halves of a run: the exported functions, in a process of their own, since a fault there may end it, and the
# programs. Each goes round by turns until its time is over, counts the answers, and keeps the first difference of each.

import os
import pickle
import re
import signal
import struct
import time
import traceback
from collections import Counter, namedtuple
from mmap import mmap

import capi
import programs
import shrink
from functions import Cases
from header import FUNCTIONS
from library import Fault

TURN = 0.04  # seconds for one function or program at a time
TIME_LIMIT = 60  # seconds for a case, a smaller one found too
REFUSED = re.compile(rb"^error ([0-9]+)( [0-9]+)?", re.MULTILINE)


Refused = namedtuple("Refused", "number carries")  # a refusal, and whether it carries one more number


class Tally:
    """What a function or program was asked and answered. `found` is the first difference, in words, and its case."""

    def __init__(self):
        self.cases, self.answers, self.differences, self.found = 0, Counter(), 0, None

    def differing(self, words, case):
        self.differences += 1
        self.found = self.found or (words, case)


def one_turn(name, tally, one_case):
    """Runs the next cases, just one where there are no others: of a function that takes nothing."""
    end = time.monotonic() + TURN
    while True:
        one_case(name, tally.cases, tally)
        tally.cases += 1
        if time.monotonic() >= end or name in FUNCTIONS and not FUNCTIONS[name].parameters:
            return


def turns(tallies, one_case, deadline, ended=lambda name: None):
    while time.monotonic() < deadline:
        for name, tally in tallies.items():
            one_turn(name, tally, one_case)
            ended(name)


# Functions

WORD = {"number": str, "struct": lambda numbers: ",".join(map(str, numbers)), "bytes": lambda data: f"x{data.hex()}",
        "buffer": lambda length: f"b{length}"}


def request_line(name, arguments):
    """The line that asks capi.py for the same."""
    words = (WORD[parameter.kind](given) for parameter, given in zip(FUNCTIONS[name].parameters, arguments))
    return " ".join((name, *words)).encode() + b"\n"


def answered(library, name, arguments, guarded):
    """What the library answers, a fault that is seen in place of it, and what the model answers."""
    try:
        given = library.answer(name, arguments, guarded)
    except Fault as fault:
        given = str(fault)
    return given, capi.answer(name, arguments)


def kind_of_answer(name, numbers):
    """The refusal, "granted", or "granted 0" where the grant has the value 0."""
    at = FUNCTIONS[name].result.at
    if "refusal" not in at:  # a number alone
        return "granted"
    refusal, carries, value = (numbers[at[field][0]] for field in ("refusal", "carries", "value"))
    return Refused(refusal, carries) if refusal else "granted" if value else "granted 0"


def told_apart(given, expected):
    """In what two answers differ, as text."""
    if isinstance(given, str):
        return given
    if given[0] != expected[0]:
        at = [at for at, (one, other) in enumerate(zip(expected[0], given[0])) if one != other][:4]
        return "; ".join(f"number {i}: expected {expected[0][i]}, handed back {given[0][i]}" for i in at)
    return f"buffer: expected {expected[1][:60]}, written {given[1][:60]}"


def function_case(library, cases):
    def one_case(name, at, tally):
        arguments, guarded = cases.arguments(name, at), at % 2 == 1
        given, expected = answered(library, name, arguments, guarded)
        tally.answers[kind_of_answer(name, expected[0])] += 1
        if given != expected:
            if tally.found is None:
                arguments = shrink.smaller_arguments(arguments, lambda smaller: differs(library, name, smaller, guarded))
            tally.differing(told_apart(*answered(library, name, arguments, guarded)), request_line(name, arguments))
    return one_case


def differs(library, name, arguments, guarded):
    given, expected = answered(library, name, arguments, guarded)
    return given != expected


class Progress:
    """The case that a process is at, where another process sees it too."""

    def __init__(self):
        self.memory = mmap(-1, 16)

    def put(self, which, at):
        struct.pack_into("<QQ", self.memory, 0, which, at)

    def get(self):
        return struct.unpack_from("<QQ", self.memory)


def function_process(library, cases, tallies, deadline, progress, send):
    """Makes calls until the deadline, and hands on each tally after each turn."""
    one_case, names = function_case(library, cases), list(FUNCTIONS)

    def noted(name, at, tally):
        progress.put(names.index(name), at)
        signal.alarm(TIME_LIMIT)  # which ends the process
        one_case(name, at, tally)

    with open(send, "wb") as pipe:
        turns(tallies, noted, deadline, lambda name: (pickle.dump((name, tallies[name]), pipe), pipe.flush()))


def received(pipe):
    """What is in a pipe up to its end, which a process that ended early may have left in the middle of something."""
    while True:
        try:
            yield pickle.load(pipe)
        except (EOFError, pickle.UnpicklingError):
            return


def until_it_ends(library, cases, tallies, deadline):
    """One process of calls: the status with which it ended, and the case that it was at."""
    receive, send = os.pipe()
    progress = Progress()
    child = os.fork()
    if child == 0:
        os.close(receive)
        try:
            function_process(library, cases, tallies, deadline, progress, send)
            os._exit(0)
        except BaseException:
            traceback.print_exc()
            os._exit(3)
    os.close(send)
    with open(receive, "rb") as pipe:
        tallies.update(received(pipe))
    return os.waitstatus_to_exitcode(os.waitpid(child, 0)[1]), progress.get()


def run_functions(library, seed, seconds):
    """Tallies by function. One whose call ends the process is not called again."""
    cases, deadline = Cases(seed), time.monotonic() + seconds
    tallies, ended = {name: Tally() for name in FUNCTIONS}, {}
    while tallies:
        status, (which, at) = until_it_ends(library, cases, tallies, deadline)
        if status == 0:
            break
        if status > 0:
            raise SystemExit("the fuzzer itself failed")
        name = list(FUNCTIONS)[which]
        ended[name] = tallies.pop(name)
        ended[name].differing(f"ended by signal {-status}", request_line(name, cases.arguments(name, at)))
    return {name: tallies.get(name) or ended[name] for name in FUNCTIONS}


# Programs

def program_case(seed):
    def one_case(name, at, tally):
        data = programs.program_input(seed, name, at)
        wrong, expected = programs.difference(name, data)
        refused = Counter(Refused(int(number), bool(more)) for number, more in REFUSED.findall(expected))
        tally.answers += refused
        tally.answers["granted"] += expected.count(b"\n") - refused.total()
        if wrong:
            if tally.found is None:
                data = shrink.smaller_input(data, lambda smaller: programs.difference(name, smaller)[0])
            tally.differing(programs.difference(name, data)[0], data)
    return one_case


def run_programs(seed, seconds):
    tallies = {name: Tally() for name in programs.PROGRAMS}
    turns(tallies, program_case(seed), time.monotonic() + seconds)
    return tallies
