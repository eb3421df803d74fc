# A model of the program monitor_cmd, as docs/PROGRAMS.md describes it, over the rules in monitor.py:
# python3 tests/model/monitor_cmd.py < INPUT > OUTPUT. `answers` is the same from bytes to bytes.

import functools

import protocol
from monitor import FILE, FILE_KINDS, PRIVILEGES, TYPES, Credentials, Object, Request, decide, named
from protocol import LEFT_OUT, Command
from rules import INVALID, Caller, Label, Range, Refusal, Tuple


def below(end, number):
    """A number that has a meaning only below `end`."""
    if number >= end:
        raise Refusal(INVALID)
    return number


def check(privileges, object_type, file_kind, intents, attribute_type, caller_override, label, bounds, object_label,
          object_tuple, caller_label):
    caller = Caller(caller_label, below(2, caller_override) == 1)
    held = named(below(2 ** len(PRIVILEGES), privileges), PRIVILEGES)
    type_name = TYPES[below(len(TYPES), object_type)]
    # The kind counts only for files: elsewhere it may be any number.
    kind_name = FILE_KINDS[below(len(FILE_KINDS), file_kind)] if type_name == FILE else None
    thing = Object(type_name, kind_name, object_label, object_tuple)
    return decide(Request(caller, Credentials(label, bounds, frozenset(held)), thing, intents, attribute_type))


# The object's label, its tuple or both may be left out; that one of them must be there is the monitor's rule.
FORMS = [(Label, Range, of_label, of_tuple, Label) for of_label in (Label, LEFT_OUT) for of_tuple in (Tuple, LEFT_OUT)]
COMMANDS = {b"check": Command(6, FORMS, check)}

answers = functools.partial(protocol.answers, COMMANDS)

if __name__ == "__main__":
    protocol.run(answers)
