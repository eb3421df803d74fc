# What the models of the programs share, as docs/PROGRAMS.md describes it: lines, command lines, operands and answers.
# What a program does is its table of commands.

import functools
import re
import sys
from collections import namedtuple

from rules import INVALID, Refusal, read, require, write

LINE_BUFFER = 512
NUMBER = re.compile(rb"[0-9]+")
NUMBERS_END = 2 ** 64
DASH = b"-\n"
LEFT_OUT = type(None)  # the kind of an operand that a dash stands for


def lines_of(data):
    """The input's lines, each with its LF, which a last one may lack."""
    *ended, last = data.split(b"\n")
    yield from (line + b"\n" for line in ended)
    if last:
        yield last


def whole(line, buffer=LINE_BUFFER):
    """The line; None for a bad one, which has no LF or does not fit the buffer, and where there is none."""
    return line if line is not None and line.endswith(b"\n") and len(line) <= buffer else None


def number(digits):
    if not NUMBER.fullmatch(digits) or int(digits) >= NUMBERS_END:
        raise Refusal(INVALID)
    return int(digits)


def command_of(commands, line):
    """The command and the numbers of a command line."""
    if line is None:
        raise Refusal(INVALID)
    word, *digits = line[:-1].split(b" ")
    command = commands.get(word)
    if command is None or len(digits) != command.numbers:
        raise Refusal(INVALID)
    return command, [number(d) for d in digits]


@functools.lru_cache(maxsize=2 ** 14)  # long inputs have the same operands again and again
def operand(line):
    """The contents of an operand line; None where the operand is left out."""
    return None if line == DASH else read(line)


def hex_operands(lines, command):
    """The contents of a command's operand lines. All of them are taken before any is looked at."""
    taken = [whole(next(lines, None)) for _ in command.forms[0]]
    require(None not in taken, INVALID)
    operands = [operand(line) for line in taken]
    require(tuple(map(type, operands)) in command.forms, INVALID)
    return operands


# How many numbers a command has, the kinds of operands that it takes, each way that it takes them, what it calls, and how
# its operands are taken from the lines.
Command = namedtuple("Command", "numbers forms call operands", defaults=[hex_operands])


def keeping(kept, commands):
    """Commands whose calls get, before all else, what a program keeps between requests."""
    return {word: command._replace(call=functools.partial(command.call, kept)) for word, command in commands.items()}


def printed(answer):
    """What is printed of an answer; a list is an answer of several lines."""
    if isinstance(answer, list):
        return b"".join(map(printed, answer))
    if isinstance(answer, bool):
        answer = "yes" if answer else "no"
    elif answer is None:
        answer = "none"
    elif not isinstance(answer, (int, str)):
        return write(answer)
    return b"%s\n" % str(answer).encode()


def error(refusal):
    """What is printed of a refusal, with the one more number that it may carry."""
    return printed(f"error {refusal.number}" if refusal.detail is None else f"error {refusal.number} {refusal.detail}")


def answer(commands, line, lines):
    """The answer to the request that begins with `line`; its operands are taken from `lines`."""
    try:
        command, numbers = command_of(commands, line)
        return printed(command.call(*numbers, *command.operands(lines, command)))
    except Refusal as refusal:
        return error(refusal)


def skipped(line):
    """Whether a line between requests gets no answer: an empty line or a comment."""
    return line is not None and (line == b"\n" or line.startswith(b"#"))


def answers(commands, data):
    lines = lines_of(data)
    return b"".join(answer(commands, line, lines) for line in map(whole, lines) if not skipped(line))


def first_difference(printed, expected):
    """Where two outputs differ first, as text."""
    ours, theirs = expected.split(b"\n"), printed.split(b"\n")
    at = next((i for i, (a, b) in enumerate(zip(ours, theirs)) if a != b), min(len(ours), len(theirs)))
    shown = [lines[at][:80] if at < len(lines) else None for lines in (ours, theirs)]
    return f"line {at + 1}: expected {shown[0]}, printed {shown[1]}"


def run(program):
    """Runs a program, given from bytes to bytes, from standard input to standard output."""
    sys.stdout.buffer.write(program(sys.stdin.buffer.read()))
