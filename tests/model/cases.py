# What the stored inputs of the programs share: requests, and the cases of the protocol that every program has.
# A comment line in the input says what each case is about.

from dataclasses import dataclass, field

from protocol import DASH, LEFT_OUT, LINE_BUFFER, NUMBERS_END
from rules import write
from samples import ALIAS, LABEL, SAMPLES, damaged, sum_changed

MEGABYTE = 2 ** 20


def case(what, *lines):
    return b"# %s\n" % what.encode() + b"".join(lines)


def command_line(word, numbers):
    return b" ".join([word, *(b"%d" % n for n in numbers)]) + b"\n"


def operand_line(operand):
    """The line of an operand that is contents, a line already, or None for one that is left out."""
    if operand is None:
        return DASH
    return operand if isinstance(operand, bytes) else write(operand)


def filled(start, fill, end, size):
    """A line of `size` bytes with its LF, `fill` repeated between `start` and `end`."""
    return start + fill * (size - len(start) - len(end) - 1) + end + b"\n"


def replaced(line, old, new):
    """The line with the first `old` replaced. It has to be there."""
    assert old in line
    return line.replace(old, new, 1)


def samples(kinds):
    return [SAMPLES[kind] for kind in kinds]


@dataclass(frozen=True)
class Program:
    """What the cases of the protocol need to know of a program."""

    commands: dict
    good: tuple  # good requests, the shortest first
    numbered: object  # makes a good request with a command line of a given size
    with_first: object  # makes a request of a line for its first operand, which should be a label
    with_last: object  # makes a request of a line for its last operand, with others before it where there are any
    numbers: dict = field(default_factory=dict)  # by word, the numbers of a good request where zeros are not good
    others: dict = field(default_factory=dict)  # by word, the lines of good operands that are no hex lines

    def request(self, word, *operands, numbers=None):
        """A request with the numbers, or those of a good one, and with what `operand_line` takes as operands."""
        if numbers is None:
            numbers = self.numbers.get(word, [0] * self.commands[word].numbers)
        return command_line(word, numbers) + b"".join(map(operand_line, operands))

    def operands(self, word):
        """The lines of a good request's operands."""
        if word in self.others:
            return self.others[word]
        return [write(contents) for contents in samples(self.commands[word].forms[0])]


# Operands

def bad_operands_for(good, command):
    """What may stand in the place of a good operand line that can't be left out."""
    yield "a wrong sum", sum_changed(good, 1)
    yield "an empty line", b"\n"
    yield "a comment", b"# no operand\n"
    yield "a dash", DASH
    yield "a number", b"20\n"
    yield "a command", command
    yield "a line that is too long", filled(good[:-1], b"0", b"", LINE_BUFFER + 1)


def may_be_left_out(command, at):
    return any(form[at] is LEFT_OUT for form in command.forms)


def bad_operands(program):
    a_command = program.good[0].splitlines(keepends=True)[0]
    for word, command in program.commands.items():
        good = program.operands(word) if word not in program.others else []
        for at, operand in enumerate(good):
            for what, line in bad_operands_for(operand, a_command):
                if line != DASH or not may_be_left_out(command, at):
                    yield case(f"{word.decode()}, operand {at + 1}: {what}",
                               program.request(word, *good[:at], line, *good[at + 1:]))
        if len(good) > 1:
            yield case(f"{word.decode()}, every operand bad", program.request(word, *(sum_changed(line, 1) for line in good)))


def kinds_of_operands(count):
    """All sequences of `count` kinds."""
    if count == 0:
        return [()]
    return [kinds + (kind,) for kinds in kinds_of_operands(count - 1) for kind in SAMPLES]


def every_kind(program):
    for word, command in program.commands.items():
        for kinds in kinds_of_operands(len(command.forms[0])):
            names = " ".join(kind.__name__.lower() for kind in kinds)
            yield case(f"{word.decode()} {names}".rstrip(), program.request(word, *samples(kinds)))


# Command lines

def no_commands():
    """Lines that are not skipped between requests."""
    yield case("a blank before #", b" # no comment\n")
    yield case("a line of one blank", b" \n")
    yield case("a line of CR", b"\r\n")
    yield case("a dash", DASH)


def word_forms(word, line):
    """Command lines that come near `line`, which is good, and are not."""
    text = line[:-1]
    yield "upper case", text.upper()
    yield "a capital", text.capitalize()
    yield "the word cut", replaced(text, word, word[:-1])
    yield "a letter more", replaced(text, word, word + b"s")
    yield "a leading blank", b" " + text
    yield "a trailing blank", text + b" "
    yield "a leading tab", b"\t" + text
    yield "a trailing tab", text + b"\t"
    yield "CR before LF", text + b"\r"
    yield "a trailing NUL", text + b"\0"
    yield "a leading NUL", b"\0" + text
    yield "a high byte at the end", text + b"\xff"
    yield "a high byte in the word", bytes([text[0] | 0x80]) + text[1:]
    yield "an operand on the command line", text + b" " + write(ALIAS)[:-1]


def bad_words(program, counts, unknown):
    """Near misses of each word, other counts of numbers, and words that are unknown."""
    for word, command in program.commands.items():
        for what, text in word_forms(word, program.request(word)):
            yield case(f"{word.decode()}: {what}", text + b"\n")
        for count in counts:
            if count != command.numbers:
                yield case(f"{word.decode()} with a wrong count of numbers takes no operand", command_line(word, [1] * count),
                           *program.operands(word))
    for word in unknown:
        yield case("an unknown word", word + b"\n")
    yield case("a hex line", write(LABEL))


GOOD_NUMBERS = [b"0", b"00", b"19", b"019", b"0" * 40 + b"199", b"0" * 40 + b"200", b"%d" % (NUMBERS_END - 1),
                b"000%d" % (NUMBERS_END - 1)]
BAD_NUMBERS = [
    b"", b" 20", b"20 ", b"  ", b"\t20", b"20\t", b"20\r", b"+20", b"-20", b"-0", b"+", b"-", b"2 0", b"20,", b"20.", b"20.0",
    b"2e1", b"0x14", b"0b1", b"1_9", b"a", b"20a", b"a20", b"2/", b"2:", b"/", b":", b"\0", b"20\0", b"\xb2\xb0", b"\xd9\xa2",
    b"%d" % NUMBERS_END, b"%d" % (NUMBERS_END + 20), b"0%d" % (NUMBERS_END + 20), b"%d" % (2 * NUMBERS_END + 20),
    b"%d" % (NUMBERS_END - 1) + b"0", b"99999999999999999999", b"%d" % (2 ** 128), b"%d" % (2 ** 128 + 20), b"9" * 400,
]
SEPARATORS = [b"", b"\t", b"\0", b"\xa0", b"=", b":", b"\r", b"  "]  # what is not one blank


def number_forms(word, numbers, operands):
    """Each number of a good request in turn in every form. One with a bad form takes no operand."""
    good = [b"%d" % number for number in numbers]
    for at in range(len(good)):
        before, after = [word, *good[:at]], good[at + 1:]
        for digits in GOOD_NUMBERS:
            yield b" ".join([*before, digits, *after]) + b"\n" + operands
        for digits in BAD_NUMBERS:
            yield b" ".join([*before, digits, *after]) + b"\n"
        for separator in SEPARATORS:
            yield b" ".join(before) + separator + b" ".join(good[at:]) + b"\n"


# Lines

def line_sizes(program):
    for size in (LINE_BUFFER - 1, LINE_BUFFER, LINE_BUFFER + 1, 2 * LINE_BUFFER, 2 * LINE_BUFFER + 1):
        yield case(f"a number, a word, a comment and two operands in lines of {size} bytes",
                   program.numbered(size),
                   filled(b"", b"x", b"", size),
                   filled(b"# ", b"x", b"", size),
                   program.with_first(filled(write(LABEL)[:-1], b"0", b"", size)),
                   program.with_last(filled(b"", b"\0", b"", size)))
    over = b"x" * LINE_BUFFER
    yield case("a request after the bytes that fit is part of the line", over + program.good[0])
    yield case("the same in a comment", b"#" + over[1:] + program.good[0])
    yield case("the same in an operand", program.with_first(over + write(LABEL)))
    yield case("the next request is taken from its start", program.with_first(write(LABEL)))


def odd_bytes(program):
    every = bytes(b for b in range(256) if b not in b"\n#")
    yield case("every byte but LF and #", every + b"\n")
    yield case("the same in a comment", b"#" + every + b"\n")
    yield case("the same in an operand", program.with_first(every + b"\n"))
    yield case("NULs", b"\0\0\0\n")
    yield case("NULs in an operand", program.with_first(b"\0" * 70 + b"\n"))
    yield case("high bytes", b"\xff\xfe\n")
    yield case("high bytes in an operand", program.with_first(b"\xff" * 70 + b"\n"))


# The whole

def damaged_at_times(rng, line, share):
    return damaged(rng, line) if rng.random() < share else line


def stored(sections, at_random, cut):
    """All that follows the worked run: the sections, the random requests, and a request that is cut off before its last LF."""
    fixed = b"".join(case(what, *requests()) for what, requests in sections)
    return fixed + b"".join(at_random) + cut
