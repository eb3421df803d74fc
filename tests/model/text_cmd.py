# A model of the program text_cmd, as docs/PROGRAMS.md describes it, over the rules in text.py:
# python3 tests/model/text_cmd.py < INPUT > OUTPUT. `answers` is the same from bytes to bytes.

import itertools

import protocol
import text
from protocol import Command, hex_operands, whole
from rules import INVALID, Caller, Label, Range, Refusal, require
from text import FORMS, VARIANTS, Table

TABLE_BUFFER = 65_536
TEXT_BUFFER = 16_454  # the longest range and its LF
MOST_CAPACITY = 20_000


# Operands

def text_operand(lines, _):
    """A line of text, without its LF."""
    line = whole(next(lines, None), TEXT_BUFFER)
    require(line is not None, INVALID)
    return [line[:-1]]


def looked_at_later(take):
    """An operand that is taken like others, but for the call to look at: it gets the refusal of a bad one."""
    def operand(lines, command):
        try:
            return take(lines, command)
        except Refusal as refusal:
            return [refusal]
    return operand


def table_operand(lines, _):
    """The lines up to an empty one, which is taken too, or to the end, and of these what the buffer takes. A line that
    is bad by itself, too long for a line or with no LF, is a faulty one of the table in any case."""
    given = b"".join(itertools.takewhile(lambda line: line != b"\n", lines))
    return [Table(given[:TABLE_BUFFER], len(given) > TABLE_BUFFER)]


# Commands

class Console:
    """What the program keeps between requests."""

    def __init__(self):
        self.table = Table()
        self.subject = Caller(Label(0))
        self.capacity = MOST_CAPACITY


def take_table(console, table):
    """A bad table takes the old one's place too."""
    console.table = table
    return f"table {len(table.entries())}"


def take_subject(console, override, label):
    require(override in (0, 1), INVALID)
    console.subject = Caller(label, override == 1)
    return "ok"


def take_capacity(console, capacity):
    require(capacity <= MOST_CAPACITY, INVALID)
    console.capacity = capacity
    return "ok"


def under(table, operand):
    """The operand, where the table is good and it is good too. Document 01 has a bad table before everything else."""
    table.entries()
    if isinstance(operand, Refusal):
        raise operand
    return operand


def label_text(console, form, variant, operand):
    require(form in FORMS and variant in VARIANTS, INVALID)
    label = under(console.table, operand)
    return text.write_label(console.table, label, console.subject, form, variant, console.capacity).decode()


def range_text(console, form, variant, operand):
    require(form in FORMS and variant in VARIANTS, INVALID)
    bounds = under(console.table, operand)
    status, written = text.write_range(console.table, bounds, console.subject, form, variant, console.capacity)
    return f"{status} {written.decode()}"


def label_read(console, operand):
    return text.read_label(console.table, under(console.table, operand), console.subject)


def range_read(console, operand):
    return text.read_range(console.table, under(console.table, operand), console.subject)


COMMANDS = {
    b"table": Command(0, [(Table,)], take_table, table_operand),
    b"subject": Command(1, [(Label,)], take_subject),
    b"capacity": Command(1, [()], take_capacity),
    b"label": Command(2, [(Label,)], label_text, looked_at_later(hex_operands)),
    b"range": Command(2, [(Range,)], range_text, looked_at_later(hex_operands)),
    b"read-label": Command(0, [(bytes,)], label_read, looked_at_later(text_operand)),
    b"read-range": Command(0, [(bytes,)], range_read, looked_at_later(text_operand)),
}


def answers(data):
    return protocol.answers(protocol.keeping(Console(), COMMANDS), data)


if __name__ == "__main__":
    protocol.run(answers)
