# Document 01's rules of the monitor, with the caller of request 2026-01 and the receiving of request 2026-03, in plain
# Python over the labels, ranges, tuples and callers of rules.py. Written from the documents and not from the crates, so
# that the two can check each other.

from dataclasses import dataclass

from rules import DENIED, INVALID, NO_PRIVILEGE, Caller, Label, Range, Tuple, require

# Privileges and intents are in the order of their bits, types and file kinds in that of their numbers.
PRIVILEGES = READ_OVERRIDE, WRITE_OVERRIDE, RELABEL = "read override", "write override", "relabel"
TYPES = FILE, FIFO, PROCESS, MESSAGE_QUEUE, SHARED_MEMORY, SEMAPHORE = (
    "file", "fifo", "process", "message queue", "shared memory", "semaphore")
FILE_KINDS = REGULAR, DIRECTORY, OTHER = "regular", "directory", "other"
INTENTS = WRITE, READ, EXECUTE, SEARCH, GET_ATTRIBUTE, SET_ATTRIBUTE = (
    "write", "read", "execute", "search", "get attribute", "set attribute")
OF_LABEL, OF_TUPLE = 1, 2  # attribute types

ATTRIBUTE_INTENTS = {GET_ATTRIBUTE, SET_ATTRIBUTE}
CHANGES = {WRITE, SET_ATTRIBUTE}
DESTRUCTIVE_READS = FIFO, MESSAGE_QUEUE  # to read one of these takes away what is read


def named(number, names):
    """Those of `names` whose bits are set in a number."""
    return {name for bit, name in enumerate(names) if number >> bit & 1}


@dataclass(frozen=True)
class Credentials:
    label: Label
    range: Range
    privileges: frozenset = frozenset()

    def valid(self):
        return self.label.valid() and self.range.valid() and self.range.contains(self.label)


@dataclass(frozen=True)
class Object:
    type: str
    file_kind: str  # counts only for files
    label: Label = None
    tuple: Tuple = None

    def valid(self):
        """Each of label and tuple that is there must be, whichever governs."""
        return all(given.valid() for given in (self.label, self.tuple) if given is not None)

    def is_file(self, kind):
        return self.type == FILE and self.file_kind == kind


@dataclass(frozen=True)
class Request:
    caller: Caller
    credentials: Credentials
    object: Object
    intents: int
    attribute_type: int = 0  # counts only with an attribute intent

    def asked(self):
        return named(self.intents, INTENTS)


def bad(request):
    """Step 1: whether the request is refused whatever the credentials allow."""
    asked, thing = request.asked(), request.object
    return (request.intents == 0 or request.intents > 63
            or {EXECUTE, SEARCH} <= asked
            or not request.caller.valid() or not request.credentials.valid() or not thing.valid()
            or thing.label is None and thing.tuple is None
            or EXECUTE in asked and not thing.is_file(REGULAR)
            or SEARCH in asked and not thing.is_file(DIRECTORY)
            or bool(asked & ATTRIBUTE_INTENTS) and request.attribute_type not in (OF_LABEL, OF_TUPLE))


def in_sight(request):
    """Whether the caller sees the credentials' label and the object's, where there is one."""
    labels = request.credentials.label, request.object.label
    return all(request.caller.sees(label) for label in labels if label is not None)


def tried(request):
    """The intents that are tried: a read that takes away what it reads is a read and a write together."""
    asked = request.asked()
    return asked | {WRITE} if READ in asked and request.object.type in DESTRUCTIVE_READS else asked


def met(intent, subject, thing):
    """Whether the subject's label alone allows an intent. A label governs where both are there."""
    if thing.label is None:
        return thing.tuple.contains(subject)
    return subject.equal(thing.label) if intent in CHANGES else subject.dominates(thing.label)


def override(intent):
    """The privilege by which an intent passes where its test is not met."""
    return WRITE_OVERRIDE if intent in CHANGES else READ_OVERRIDE


def decide(request):
    """Grants with 1 if any privilege was needed, else with 0."""
    require(not bad(request), INVALID)
    require(in_sight(request), DENIED)
    subject, privileges = request.credentials.label, request.credentials.privileges
    needed = {override(intent) for intent in tried(request) if not met(intent, subject, request.object)}
    require(needed <= privileges, DENIED)
    if SET_ATTRIBUTE in request.asked():
        needed.add(RELABEL)
    require(needed <= privileges, NO_PRIVILEGE)
    return 1 if needed else 0
