# The requests of monitor_cmd's stored input that follow its worked run: document 01's rules of the monitor case by case,
# each refusal and boundary, who asks, the protocol, then all intents and random requests. A comment line in the input says
# what each is about. `every_request` has the larger runs, which are not stored.

import itertools

import cases
import mac_cmd
from cases import Program, case, command_line, filled, operand_line
from monitor import (DESTRUCTIVE_READS, DIRECTORY, EXECUTE, FIFO, FILE, FILE_KINDS, GET_ATTRIBUTE, INTENTS, OF_LABEL,
                     OF_TUPLE, OTHER, PRIVILEGES, READ, READ_OVERRIDE, REGULAR, RELABEL, SEARCH, SET_ATTRIBUTE, TYPES,
                     WRITE, WRITE_OVERRIDE)
from monitor_cmd import COMMANDS
from protocol import DASH, NUMBERS_END
from rules import CATEGORIES, HIERARCHIES, Caller, Label, Range, Tuple, write
from samples import (ALIAS, BORDER_HIERARCHIES, BORDER_LABELS, BORDER_TUPLES, FULL_TUPLE, LABEL, RANGE, TOP, TUPLE,
                     WORD_BORDERS, any_label, any_range, any_tuple, at_times, label, label_above, label_below, near_label,
                     near_range, range_around, tuple_of, unchecked_line)

RANDOM_REQUESTS = 1000


# Requests

def bits(names, *chosen):
    """The number with the bits of some names set."""
    return sum(1 << names.index(name) for name in chosen)


def asking(*chosen):
    return bits(INTENTS, *chosen)


def holding(*chosen):
    return bits(PRIVILEGES, *chosen)


ALL_PRIVILEGES = holding(*PRIVILEGES)
EVERY_PRIVILEGE = range(ALL_PRIVILEGES + 1)  # each set of them
SUBJECT, BOUNDS = LABEL, RANGE  # (30,{1,2}) in [(20,{}),(40,{1,2})]
ABOVE, BELOW, BESIDE = label(40, 1, 2), label(20, 1), label(40, 1)  # of the subject's label
INSIDE = TUPLE  # contains it
OUTSIDE = tuple_of(user=Range(label(20), label(40, 1)))  # does not, for want of a category


def check(privileges=0, object_type=FILE, file_kind=REGULAR, intents=asking(READ), attribute_type=0, subject=SUBJECT,
          bounds=BOUNDS, object_label=SUBJECT, object_tuple=None, caller=TOP, caller_override=0):
    """A request: a read of a regular file at the subject's own label, by a caller that sees every label, but for what is
    given. Types and kinds are given by name or as any number."""
    if object_type in TYPES:
        object_type = TYPES.index(object_type)
    if file_kind in FILE_KINDS:
        file_kind = FILE_KINDS.index(file_kind)
    numbers = (privileges, object_type, file_kind, intents, attribute_type, caller_override)
    operands = (subject, bounds, object_label, object_tuple, caller)
    return command_line(b"check", numbers) + b"".join(map(operand_line, operands))


PROGRAM = Program(
    COMMANDS,
    good=(check(), check(object_label=None, object_tuple=INSIDE)),
    numbered=lambda size: filled(b"check 0 0 0 ", b"0", b"2 0 0", size) + OPERANDS,
    with_first=lambda line: check(subject=line),
    with_last=lambda line: check(caller=line),
    numbers={b"check": (0, 0, 0, asking(READ), 0, 0)})
OPERANDS = check().split(b"\n", 1)[1]


# The rules case by case

def having(object_label, object_tuple):
    """What an object has, for `check`."""
    return dict(object_label=object_label, object_tuple=object_tuple)


OBJECTS = [
    ("a label above", having(ABOVE, None)),
    ("an equal label", having(SUBJECT, None)),
    ("a label below", having(BELOW, None)),
    ("an incomparable label", having(BESIDE, None)),
    ("a tuple that contains the subject's label", having(None, INSIDE)),
    ("a tuple that does not contain it", having(None, OUTSIDE)),
]


def with_privileges(number):
    """The privileges of a number, in words."""
    return " and ".join(name for bit, name in enumerate(PRIVILEGES) if number >> bit & 1) or "no privilege"


def askable(intent):
    """Types and kinds of which an intent may be asked: those of a file, and where it may be asked of other types, a read of
    all of them and the rest of those whose reads are writes too."""
    yield FILE, DIRECTORY if intent == SEARCH else REGULAR
    if intent not in (EXECUTE, SEARCH):
        yield from ((object_type, REGULAR) for object_type in TYPES
                    if object_type in DESTRUCTIVE_READS or intent == READ and object_type != FILE)


def every_rule():
    for intent in INTENTS:
        for object_type, file_kind in askable(intent):
            for what, has in OBJECTS:
                for held in EVERY_PRIVILEGE:
                    yield case(f"{intent}, {object_type}, {what}, {with_privileges(held)}",
                               check(held, object_type, file_kind, asking(intent), OF_LABEL, **has))


# Step 1

BAD_INTENTS = [0, 63, 64, 64 + asking(READ), 128, 256 + asking(READ), 2 ** 32, 2 ** 32 + asking(READ), 2 ** 63,
               2 ** 63 + asking(READ), NUMBERS_END - 1]
BAD_ATTRIBUTE_TYPES = [0, 3, 4, 255, 256 + OF_LABEL, 2 ** 32, 2 ** 32 + OF_LABEL, 2 ** 63 + OF_TUPLE, NUMBERS_END - 1]
ATTRIBUTE_INTENTS = [(GET_ATTRIBUTE,), (SET_ATTRIBUTE,), (GET_ATTRIBUTE, SET_ATTRIBUTE), (READ, GET_ATTRIBUTE)]


def bad_credentials():
    yield "below the range", dict(subject=label(19, 1, 2))
    yield "above the range", dict(subject=label(41, 1, 2))
    yield "beside the range: a category that the high end lacks", dict(subject=label(30, 1, 2, 3))
    yield ("beside the range: a category of the low end missing",
           dict(subject=label(30, 1), bounds=Range(label(20, 2), label(40, 1, 2))))
    yield "above a range of one label", dict(bounds=Range(BELOW, BELOW))
    yield "below a range of one label", dict(bounds=Range(ABOVE, ABOVE))
    yield "outside, in another region", dict(subject=label(180), bounds=Range(label(20), label(179)))


def faults():
    """What makes a request that would be granted 22 by the first step, as changes of it."""
    for number in BAD_INTENTS:
        yield f"intents {number}", dict(intents=number, attribute_type=OF_LABEL)
    for file_kind in FILE_KINDS:
        yield f"execute with search, {file_kind} file", dict(intents=asking(EXECUTE, SEARCH), file_kind=file_kind)
    for what, changes in bad_credentials():
        yield "the subject's label " + what, changes
    yield "neither label nor tuple", dict(object_label=None, object_tuple=None)
    for intent, of in ((EXECUTE, REGULAR), (SEARCH, DIRECTORY)):
        for object_type, file_kind in itertools.product(TYPES, FILE_KINDS):
            if (object_type, file_kind) != (FILE, of):
                yield (f"{intent}, {object_type}, {file_kind}",
                       dict(intents=asking(intent), object_type=object_type, file_kind=file_kind))
    for chosen in ATTRIBUTE_INTENTS:
        for number in BAD_ATTRIBUTE_TYPES:
            yield (f"{' and '.join(chosen)} with attribute type {number}",
                   dict(intents=asking(*chosen), attribute_type=number))


def nothing_denied(changes):
    """The changes, with all privileges and an object at the subject's label."""
    return {"privileges": ALL_PRIVILEGES, "object_label": changes.get("subject", SUBJECT), **changes}


def first_step():
    for what, changes in faults():
        yield case(what, check(**nothing_denied(changes)))


def no_faults():
    """What comes near a fault of the first step and is none, as changes of a request that is granted."""
    for missing, file_kind in ((EXECUTE, DIRECTORY), (SEARCH, REGULAR)):
        chosen = set(INTENTS) - {missing}
        yield f"all intents but {missing}", dict(intents=asking(*chosen), file_kind=file_kind, attribute_type=OF_LABEL)
    yield "the subject's label at the low end", dict(subject=BOUNDS.low)
    yield "the subject's label at the high end", dict(subject=BOUNDS.high)
    yield "a range of one label", dict(bounds=Range(SUBJECT, SUBJECT))
    yield "the range of all labels", dict(bounds=Range(label(0), TOP))
    yield "an object's label outside the subject's range", dict(object_label=label(0))
    for number in (OF_LABEL, OF_TUPLE):
        for chosen in ATTRIBUTE_INTENTS:
            yield (f"{' and '.join(chosen)} with attribute type {number}",
                   dict(intents=asking(*chosen), attribute_type=number))
    for number in BAD_ATTRIBUTE_TYPES:
        yield f"no attribute intent, so attribute type {number} does not count", dict(attribute_type=number)
    for object_type, file_kind in itertools.product(TYPES, FILE_KINDS):
        yield (f"read and write, {object_type}, {file_kind}",
               dict(intents=asking(WRITE, READ), object_type=object_type, file_kind=file_kind))


def near_the_first_step():
    for what, changes in no_faults():
        yield case(what, check(**nothing_denied(changes)))


INVALID_LABELS = [("hierarchy 200", label(200)), ("hierarchy 255", label(255))]
INVALID_RANGES = [
    ("the low end above the high end", Range(label(40), label(20))),
    ("incomparable ends", Range(label(20, 1), label(40, 2))),
    ("a high end of hierarchy 200", Range(label(20), label(200, 1, 2))),
]
INVALID_TUPLES = [
    ("a range in another region", Tuple((RANGE, None, None))),
    ("incomparable ends", tuple_of(user=Range(label(20, 1), label(40, 2)))),
]


def invalid_contents():
    """They have no line that can be read, so the line is refused."""
    for what, contents in INVALID_LABELS:
        yield case(f"subject's label: {what}", check(subject=unchecked_line(contents)))
        yield case(f"object's label: {what}", check(object_label=unchecked_line(contents)))
        yield case(f"object's label beside a valid tuple: {what}", check(object_label=unchecked_line(contents), object_tuple=INSIDE))
        for override, (of, has) in itertools.product((0, 1), (("a label", {}), ("a tuple alone", having(None, INSIDE)))):
            yield case(f"caller's label, {with_override(override)}, object with {of}: {what}",
                       check(**has, caller=unchecked_line(contents), caller_override=override))
    for what, contents in INVALID_RANGES:
        yield case(f"subject's range: {what}", check(bounds=unchecked_line(contents)))
    for what, contents in INVALID_TUPLES:
        yield case(f"object's tuple: {what}", check(object_label=None, object_tuple=unchecked_line(contents)))
        yield case(f"object's tuple beside a valid label: {what}", check(object_tuple=unchecked_line(contents)))


# The order of the steps

def denied_too(changes):
    """The changes, with set attribute, which the label denies and for which relabel is missing."""
    asked = changes.get("intents", asking(READ)) | asking(SET_ATTRIBUTE)
    return {"object_label": ABOVE, "attribute_type": OF_LABEL, **changes, "intents": asked}


def order_of_steps():
    for what, changes in faults():
        if changes.get("intents") != 0:  # with set attribute these would be good intents
            yield case(f"22 before 13 and 1: {what}", check(**denied_too(changes)))
    for chosen in ((READ, SET_ATTRIBUTE), (WRITE, GET_ATTRIBUTE, SET_ATTRIBUTE)):
        for what, has in OBJECTS:
            for held in EVERY_PRIVILEGE:
                yield case(f"{' and '.join(chosen)}, {what}, {with_privileges(held)}",
                           check(held, intents=asking(*chosen), attribute_type=OF_TUPLE, **has))
    for object_type in TYPES:
        for held in (0, holding(READ_OVERRIDE, WRITE_OVERRIDE), holding(RELABEL)):
            yield case(f"set attribute, {object_type}, equal label, {with_privileges(held)}",
                       check(held, object_type, intents=asking(SET_ATTRIBUTE), attribute_type=OF_LABEL))


# Label and tuple

def label_and_tuple():
    """The tuple must not widen what the label denies, nor narrow what it allows."""
    labels = ("an equal label", SUBJECT), ("a label below", BELOW), ("a label above", ABOVE)
    tuples = ("a tuple that contains", INSIDE), ("a tuple that does not", OUTSIDE), ("an empty tuple", Tuple())
    for (one, object_label), (other, object_tuple) in itertools.product(labels, tuples):
        for intent in (WRITE, READ, GET_ATTRIBUTE, SET_ATTRIBUTE):
            for held in (0, ALL_PRIVILEGES):
                yield case(f"{intent}, {one} and {other}, {with_privileges(held)}",
                           check(held, intents=asking(intent), attribute_type=OF_LABEL, **having(object_label, object_tuple)))


def no_label():
    """An empty tuple is a tuple, and contains nothing."""
    for what, object_tuple in (("an empty tuple", Tuple()), ("neither label nor tuple", None)):
        for intent in INTENTS:
            object_type, file_kind = next(askable(intent))
            for held in (0, holding(READ_OVERRIDE), holding(WRITE_OVERRIDE), ALL_PRIVILEGES):
                yield case(f"{intent}, {what}, {with_privileges(held)}",
                           check(held, object_type, file_kind, asking(intent), OF_TUPLE, **having(None, object_tuple)))
        for object_type, held in itertools.product(DESTRUCTIVE_READS, EVERY_PRIVILEGE):
            yield case(f"read, {object_type}, {what}, {with_privileges(held)}",
                       check(held, object_type, **having(None, object_tuple)))


def alone(subject, intent, object_label, object_tuple=None):
    """A request without privileges, of a subject whose range is its label alone."""
    return check(intents=asking(intent), subject=subject, bounds=Range(subject, subject), **having(object_label, object_tuple))


def borders():
    for one in BORDER_LABELS:
        yield from (alone(one, READ, other) for other in BORDER_LABELS)
        for hierarchy in (19, 20, 21):
            yield from (alone(one, intent, Label(hierarchy, one.categories)) for intent in (WRITE, READ))
    for object_tuple in BORDER_TUPLES:
        yield from (alone(label(hierarchy), WRITE, None, object_tuple) for hierarchy in BORDER_HIERARCHIES)


# Who asks

BLIND = label(0)  # sees neither the subject's label nor the object's, where nothing else is said
SOME_CALLERS = [Label(hierarchy, frozenset(chosen)) for hierarchy in (10, 20, 25, 30, 35, 40, 50)
                for size in range(4) for chosen in itertools.combinations((1, 2, 3), size)]
BOTH = [(f"{what} and a tuple", having(has["object_label"], INSIDE)) for what, has in OBJECTS if has["object_label"]]
OVERRIDES = [0, holding(READ_OVERRIDE), holding(WRITE_OVERRIDE), holding(READ_OVERRIDE, WRITE_OVERRIDE)]


def with_override(number):
    """The caller's number, in words."""
    return "with the caller's override" if number else "without the caller's override"


def relation(one, other):
    """How a label stands to another."""
    if one.equal(other):
        return "equal to"
    if one.dominates(other):
        return "above"
    return "below" if other.dominates(one) else "incomparable to"


def callers_beside(*labels):
    """A caller's label for each way in which one can stand to these labels, all of them taken together."""
    found = {}
    for at in SOME_CALLERS:
        found.setdefault(tuple(relation(at, one) for one in labels), at)
    return found


def callers_and_labels():
    """Every way in which a caller can stand to the subject and the object, for each object, which may have no label. The
    privileges are the subject's, and do not help the caller."""
    for what, has in (*OBJECTS, *BOTH):
        labels = [SUBJECT, has["object_label"]] if has["object_label"] else [SUBJECT]
        for ways, at in callers_beside(*labels).items():
            stands = " and ".join(f"{way} {whose}" for way, whose in zip(ways, ("the subject's", "the object's")))
            for override, held in itertools.product((0, 1), (0, ALL_PRIVILEGES)):
                yield case(f"{what}, a caller's label {stands}, {with_override(override)}, {with_privileges(held)}",
                           check(held, **has, caller=at, caller_override=override))


def callers_and_intents():
    """Each intent on each type, by callers that see one of the two labels and not the other."""
    seen = ("the subject's label alone", SUBJECT, ABOVE), ("the object's label alone", BELOW, BELOW)
    for object_type, intent in itertools.product(TYPES, INTENTS):
        if object_type == FILE or intent not in (EXECUTE, SEARCH):
            for (what, caller, at), override in itertools.product(seen, (0, 1)):
                yield case(f"{intent}, {object_type}, a caller that sees {what}, {with_override(override)}",
                           check(ALL_PRIVILEGES, object_type, DIRECTORY if intent == SEARCH else REGULAR, asking(intent),
                                 OF_LABEL, object_label=at, caller=caller, caller_override=override))


def order_with_callers():
    for what, changes in faults():
        yield case(f"22 before 13 of the caller: {what}", check(**nothing_denied(changes), caller=BLIND))
    for override, held in itertools.product((0, 1), EVERY_PRIVILEGE):
        for what, has in (("an equal label", having(SUBJECT, None)), ("a label above", having(ABOVE, None))):
            yield case(f"13 before 1: set attribute, {what}, {with_override(override)}, {with_privileges(held)}",
                       check(held, intents=asking(SET_ATTRIBUTE), attribute_type=OF_LABEL, **has, caller=BLIND,
                             caller_override=override))
    for (what, has), override in itertools.product(OBJECTS, (0, 1)):
        yield case(f"a caller that sees every label, {what}, {with_override(override)}: it makes no 1",
                   check(**has, caller_override=override))


def asking_for_themselves():
    """The caller is the subject. What it may not see it may not ask about, by whatever override of the subject's."""
    for (what, has), intent in itertools.product(OBJECTS, (WRITE, READ)):
        for held, override in itertools.product(OVERRIDES, (0, 1)):
            yield case(f"{intent}, {what}, {with_privileges(held)}, {with_override(override)}",
                       check(held, intents=asking(intent), **has, caller=SUBJECT, caller_override=override))
    for held in OVERRIDES:
        yield case(f"write, a label above, asked by a caller at that label, {with_privileges(held)}",
                   check(held, intents=asking(WRITE), object_label=ABOVE, caller=ABOVE))


def no_part_of_callers():
    """The ends of the subject's range and of the object's tuple need not be in sight, and neither need a label that is not
    there."""
    far = tuple_of(admin=Range(label(180), TOP))
    for what, has in (("a tuple of all labels", having(None, FULL_TUPLE)), ("a tuple far above", having(None, far)),
                      ("an equal label and a tuple of all labels", having(SUBJECT, FULL_TUPLE)),
                      ("an equal label and a tuple far above", having(SUBJECT, far))):
        for bounds, held in itertools.product((BOUNDS, Range(SUBJECT, SUBJECT), Range(label(0), TOP)), (0, ALL_PRIVILEGES)):
            yield case(f"{what}, a caller at the subject's label, {with_privileges(held)}",
                       check(held, bounds=bounds, **has, caller=SUBJECT))


def seen_or_not(lower, at, callers):
    """Requests about a subject, and about an object, at a label, the other being at one that all these callers see."""
    for caller, (subject, object_label) in itertools.product(callers, ((at, lower), (lower, at))):
        yield check(ALL_PRIVILEGES, subject=subject, bounds=Range(subject, subject), object_label=object_label, caller=caller)


def borders_of_callers():
    for category in WORD_BORDERS:
        yield case(f"category {category}, by callers with each other category, with it, and with all",
                   *seen_or_not(label(20), label(20, category),
                                (Label(199, CATEGORIES - {category}), label(20, category), TOP)))
    for hierarchy in BORDER_HIERARCHIES:
        about = [label(h) for h in (hierarchy - 1, hierarchy, hierarchy + 1) if h in HIERARCHIES]
        yield case(f"hierarchy {hierarchy}, by callers about there", *seen_or_not(label(0), label(hierarchy), about))


# Numbers that mean nothing

OUT_OF_BOUNDS = {
    "privileges": (8, 9, 15, 16, 255, 256, 2 ** 32, 2 ** 32 + 1, 2 ** 63, NUMBERS_END - 1),
    "object_type": (6, 7, 8, 255, 256, 2 ** 32, 2 ** 32 + 1, NUMBERS_END - 1),
    "file_kind": (3, 4, 255, 256, 2 ** 32, 2 ** 32 + 1, NUMBERS_END - 1),
    "caller_override": (2, 3, 255, 256, 2 ** 32, 2 ** 32 + 1, 2 ** 63, NUMBERS_END - 1),
}


def out_of_bounds():
    for field, numbers in OUT_OF_BOUNDS.items():
        what = field.replace("_", " ")
        for number in numbers:
            yield case(f"{what} {number}: the five operands are taken", check(**{field: number}))
            yield case(f"{what} {number}, and the rest is refused too", check(**denied_too({field: number}), caller=BLIND))
    yield case("all four, and every operand bad",
               check(8, 6, 3, 0, 0, b"\n", b"# comment\n", b"--\n", b"20\n", DASH, caller_override=2))
    for object_type, number in itertools.product(TYPES, OUT_OF_BOUNDS["file_kind"]):
        yield case(f"file kind {number} of a {object_type}", check(object_type=object_type, file_kind=number))
    for intent in (EXECUTE, SEARCH):
        yield case(f"{intent} on a fifo of file kind 3", check(object_type=FIFO, file_kind=3, intents=asking(intent)))
    yield case("the greatest numbers there are", check(7, 5, 2, caller_override=1))


# The protocol

def dashes():
    """Lines that come near a dash."""
    yield "two dashes", b"--\n"
    yield "a dash and a blank", b"- \n"
    yield "a blank and a dash", b" -\n"
    yield "a dash and CR", b"-\r\n"
    yield "a dash and NUL", b"-\0\n"
    yield "a dash and a hex line", b"-" + write(LABEL)
    yield "two dashes and a blank between", b"- -\n"
    yield "a dash in a comment", b"#-\n"
    yield "another dash", b"\xe2\x80\x93\n"
    yield "an underscore", b"_\n"


def with_operand(at, line):
    """A good request with a label and a tuple, but for one operand."""
    operands = [SUBJECT, BOUNDS, SUBJECT, INSIDE, TOP]
    operands[at] = line
    return PROGRAM.request(b"check", *operands)


def operands_at_each_place():
    for at in range(5):
        for what, line in dashes():
            yield case(f"operand {at + 1}: {what}", with_operand(at, line))
        for operand in (LABEL, RANGE, TUPLE, ALIAS, None):
            what = "left out" if operand is None else f"a {type(operand).__name__.lower()}"
            yield case(f"operand {at + 1}: {what}", with_operand(at, operand))
        yield case(f"operand {at + 1}: invalid, with a right sum", with_operand(at, unchecked_line(label(200))))
    for operands in itertools.product((SUBJECT, None), (BOUNDS, None), (SUBJECT, None), (INSIDE, None), (TOP, None)):
        given = [str(at + 1) for at, operand in enumerate(operands) if operand is not None]
        yield case(f"operands given: {' '.join(given) or 'none'}", PROGRAM.request(b"check", *operands))
    yield case("the first two in the other order", PROGRAM.request(b"check", BOUNDS, SUBJECT, SUBJECT, INSIDE, TOP))
    yield case("the object's two in the other order", PROGRAM.request(b"check", SUBJECT, BOUNDS, INSIDE, SUBJECT, TOP))
    yield case("the same with a dash", PROGRAM.request(b"check", SUBJECT, BOUNDS, INSIDE, None, TOP))
    yield case("the last two in the other order", PROGRAM.request(b"check", SUBJECT, BOUNDS, SUBJECT, TOP, INSIDE))
    yield case("the same with a dash", PROGRAM.request(b"check", SUBJECT, BOUNDS, SUBJECT, TOP, None))
    yield case("the caller's label first", PROGRAM.request(b"check", TOP, SUBJECT, BOUNDS, SUBJECT, INSIDE))


def misplaced_lines():
    good = check()
    lines = good.splitlines(keepends=True)
    yield case("empty lines and comments between requests", b"\n\n#\n##\n#check 0 0 0 2 0 0\n# check 0 0 0 2 0 0\n\n", good)
    for at in range(1, len(lines)):
        for what, line in (("an empty line", b"\n"), ("a comment", b"# comment\n")):
            yield case(f"{what} before operand {at}: the last one is not taken", *lines[:at], line, *lines[at:])
    yield case("one operand too many", good, DASH)
    yield case("one operand too few: the next command is taken for it", *lines[:-1], good)
    yield case("no operands: the next request is taken for them", lines[0], good)
    yield case("two requests, one after the other", good, good)
    yield from cases.no_commands()


UNKNOWN_WORDS = [*(command_line(word, [0] * command.numbers)[:-1] for word, command in mac_cmd.COMMANDS.items()),
                 b"checkcheck 0 0 0 2 0 0", b"check_ 0 0 0 2 0 0", b"0 0 0 0 2 0 0", b"0 0 0 2 0 0", b"make 100", b"table",
                 b"\0", b"\xff"]


def number_forms():
    numbers = PROGRAM.numbers[b"check"]
    yield from cases.number_forms(b"check", numbers, OPERANDS)
    yield b"check " + b" ".join(b"0" * 50 + b"%d" % number for number in numbers) + b"\n" + OPERANDS


# All intents, types and kinds

LAST_INTENTS = 64  # one above the last good number
SOME_OBJECTS = [
    ("a label below", TYPES, holding(WRITE_OVERRIDE), BELOW),
    ("an incomparable label", (FILE, *DESTRUCTIVE_READS), holding(READ_OVERRIDE, RELABEL), BESIDE),
]


def every_intent():
    for what, types, held, object_label in SOME_OBJECTS:
        yield case(f"intents 0 to {LAST_INTENTS}, {', '.join(types)}, each kind, {what}, {with_privileges(held)}")
        for asked, object_type, file_kind in itertools.product(range(LAST_INTENTS + 1), types, FILE_KINDS):
            yield check(held, object_type, file_kind, asked, OF_LABEL, object_label=object_label)


EVERY_OBJECT = [
    *OBJECTS,
    ("an empty tuple", having(None, Tuple())),
    ("an equal label and a tuple that does not contain it", having(SUBJECT, OUTSIDE)),
    ("a label above and a tuple that contains the subject's", having(ABOVE, INSIDE)),
]


def every_request():
    """Runs that hold every intent, type, kind, attribute type and set of privileges, one for each object, by a caller that
    sees every label."""
    numbers = itertools.product(EVERY_PRIVILEGE, range(len(TYPES)), range(len(FILE_KINDS)),
                                range(LAST_INTENTS + 1), range(OF_TUPLE + 2))
    lines = [command_line(b"check", (*n, 0)) for n in numbers]
    for what, has in EVERY_OBJECT:
        operands = check(**has).split(b"\n", 1)[1]
        yield f"all {len(lines)} requests on {what}", operands.join(lines) + operands


# Random requests

def random_object(rng, subject):
    """A label, a tuple, both or, now and then, neither."""
    object_label = near_label(rng, subject) if rng.random() < 0.75 else any_label(rng)
    object_tuple = near_range(rng, subject).split() if rng.random() < 0.5 else any_tuple(rng)
    there = rng.choices(((True, False), (False, True), (True, True), (False, False)), weights=(12, 6, 6, 1))[0]
    return [operand if is_there else None for operand, is_there in zip((object_label, object_tuple), there)]


def random_caller(rng, subject, object_label):
    """A caller that sees the subject's label, and the object's where there is one, two times in three or so: what is
    decided after it is asked for often too."""
    both = subject if object_label is None else subject.upper_bound(object_label)
    near_one = near_label(rng, rng.choice((subject, object_label or subject)))
    sees, may_not = (both, label_above(rng, both)), (near_one, label_below(rng, both), any_label(rng))
    return Caller(rng.choice(sees if at_times(rng, 0.4) else may_not), at_times(rng, 0.1))


def random_intents(rng, object_type, file_kind):
    """Most of the time some that may be asked of the object, few of them oftener than many."""
    if rng.random() < 0.05:
        return rng.choice((rng.randrange(LAST_INTENTS + 1), rng.randrange(NUMBERS_END)))
    possible = [WRITE, READ, GET_ATTRIBUTE, SET_ATTRIBUTE]
    if object_type == FILE and file_kind != OTHER:
        possible.append(EXECUTE if file_kind == REGULAR else SEARCH)
    return asking(*rng.sample(possible, rng.choice((1, 1, 2, 3))))


def random_attribute_type(rng):
    return rng.choice((OF_LABEL, OF_TUPLE)) if rng.random() < 0.95 else rng.choice((0, 3, rng.randrange(NUMBERS_END)))


def random_type(rng):
    """Any, but oftenest a file or one whose reads are writes too."""
    return rng.choice((FILE, *DESTRUCTIVE_READS, rng.choice(TYPES)))


def random_request(rng):
    subject = any_label(rng)
    bounds = range_around(rng, subject) if rng.random() < 0.97 else any_range(rng)
    object_type, file_kind = random_type(rng), rng.choice(FILE_KINDS)
    chosen = random_intents(rng, object_type, file_kind)
    object_label, object_tuple = random_object(rng, subject)
    caller = random_caller(rng, subject, object_label)
    operands = [None if operand is None else cases.damaged_at_times(rng, write(operand), 0.01)
                for operand in (subject, bounds, object_label, object_tuple, caller.label)]
    return check(rng.choice(EVERY_PRIVILEGE), object_type, file_kind, chosen, random_attribute_type(rng), *operands,
                 caller_override=int(caller.read_override))


def random_requests(rng):
    yield case(f"{RANDOM_REQUESTS} random requests")
    yield from (random_request(rng) for _ in range(RANDOM_REQUESTS))


SECTIONS = [
    ("Each intent, by label and tuple, with each set of privileges", every_rule),
    ("The first step: 22, with all privileges and nothing denied", first_step),
    ("What comes near that and is granted", near_the_first_step),
    ("Lines of invalid contents", invalid_contents),
    ("The order of the steps", order_of_steps),
    ("Label and tuple together", label_and_tuple),
    ("No label", no_label),
    ("Boundaries of labels and tuples", borders),
    ("Who asks: how the caller's label stands to the subject's and the object's", callers_and_labels),
    ("Who asks: each intent on each type", callers_and_intents),
    ("Who asks: the order of the steps", order_with_callers),
    ("Who asks: a process that asks for itself", asking_for_themselves),
    ("Who asks: what plays no part", no_part_of_callers),
    ("Who asks: boundaries of labels", borders_of_callers),
    ("Numbers that name no privileges, type, kind or override", out_of_bounds),
    ("Bad operands", lambda: cases.bad_operands(PROGRAM)),
    ("What may stand for an operand", operands_at_each_place),
    ("Lines between requests and in the place of operands", misplaced_lines),
    ("Bad command lines", lambda: cases.bad_words(PROGRAM, range(9), UNKNOWN_WORDS)),
    ("Numbers", number_forms),
    ("Lines about as long as the line buffer, and longer", lambda: cases.line_sizes(PROGRAM)),
    ("Odd bytes", lambda: cases.odd_bytes(PROGRAM)),
    ("All intents", every_intent),
]


def after_the_worked_run(rng):
    return cases.stored(SECTIONS, random_requests(rng), check()[:-1])
