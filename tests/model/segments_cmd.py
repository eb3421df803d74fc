# A model of the program segments_cmd, as docs/PROGRAMS.md describes it, over the rules in segments.py:
# python3 tests/model/segments_cmd.py < INPUT > OUTPUT. `answers` is the same from bytes to bytes.

import protocol
from protocol import Command
from rules import INVALID, Label, Tuple, require
from segments import SLOTS, TENANTS, State


class Console:
    """What the program keeps between requests: a state, which starts as zeros."""

    def __init__(self):
        self.state = State()


def ok(_):
    return "ok"


def place(slot):
    return f"place {slot}"


def shown(segment):
    return [f"shown {segment.pages} {segment.version}", segment.label]


def calling(call, answered=ok):
    """What a command does that makes a call: a granted one leaves its state in the place of the old one."""
    def make_call(console, *arguments):
        console.state, grant = call(console.state, *arguments)
        return answered(grant)
    return make_call


def tenant_line(state, tenant):
    return f"tenant {tenant} ceiling {state.tenants[tenant].ceiling} pages {state.pages_of(tenant)}"


def place_line(slot, segment):
    categories = " ".join(map(str, sorted(segment.label.categories))) or "-"
    return (f"place {slot} pages {segment.pages} edition {segment.version} "
            f"hierarchy {segment.label.hierarchy} categories {categories}")


def show(console):
    state = console.state
    require(state.sound(), INVALID)
    return [f"pool {state.pool}",
            *(tenant_line(state, tenant) for tenant in TENANTS if state.admitted(tenant)),
            *(place_line(slot, state.segments[slot]) for slot in SLOTS if state.segments[slot] is not None),
            "end"]


COMMANDS = {
    b"make": Command(1, [()], calling(lambda _, pool: State.make(pool))),
    b"admit": Command(2, [(Tuple,)], calling(State.admit)),
    b"ceiling": Command(2, [()], calling(State.set_ceiling)),
    b"open": Command(2, [(Label,)], calling(State.open, place)),
    b"size": Command(3, [(Label,)], calling(State.size)),
    b"post": Command(3, [(Label,)], calling(State.post)),
    b"look": Command(2, [(Label,)], calling(State.look, shown)),
    b"close": Command(2, [(Label,)], calling(State.close)),
    b"show": Command(0, [()], show),
}


def answers(data):
    return protocol.answers(protocol.keeping(Console(), COMMANDS), data)


if __name__ == "__main__":
    protocol.run(answers)
