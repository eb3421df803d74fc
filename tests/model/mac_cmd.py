# A model of the program mac_cmd, as docs/PROGRAMS.md describes it, over the rules in rules.py:
# python3 tests/model/mac_cmd.py < INPUT > OUTPUT. `answers` is the same from bytes to bytes.

import functools

import protocol
from protocol import Command
from rules import Alias, Label, Range, Tuple

REGION_WORDS = ("virus", "user", "admin")

COMMANDS = {
    b"dominates": Command(0, [(Label, Label)], Label.dominates),
    b"equal": Command(0, [(Label, Label)], Label.equal),
    b"upper": Command(0, [(Label, Label)], Label.upper_bound),
    b"lower": Command(0, [(Label, Label)], Label.lower_bound),
    b"valid": Command(1, [()], lambda hierarchy: Label(hierarchy).valid()),
    b"count": Command(0, [(Label,)], Label.category_count),
    b"next": Command(1, [(Label,)], lambda start, label: label.next_category(start)),
    b"region": Command(0, [(Label,)], lambda label: REGION_WORDS[label.region()]),
    b"contains": Command(0, [(Range, Label), (Tuple, Label)], lambda bounds, label: bounds.contains(label)),
    b"meet": Command(0, [(Range, Range), (Tuple, Tuple)], lambda one, other: one.meet(other)),
    b"within": Command(0, [(Tuple, Tuple)], Tuple.within),
    b"empty": Command(0, [(Tuple,)], Tuple.empty),
    b"split": Command(0, [(Range,)], Range.split),
    b"echo": Command(0, [(Label,), (Range,), (Tuple,), (Alias,)], lambda contents: contents),
}

answers = functools.partial(protocol.answers, COMMANDS)

if __name__ == "__main__":
    protocol.run(answers)
