# Document 01's rules of the board of shared segments, in plain Python over the labels and tuples of rules.py.
# Written from the document and not from the crates, so that the two can check each other.

import functools
from collections import namedtuple
from dataclasses import dataclass, replace

from rules import DENIED, IN_USE, INVALID, NO_PAGES, NO_PLACE, NO_PRIVILEGE, Label, Refusal, Tuple, require

MOST_PAGES = 1_048_576
PAGES = range(1, MOST_PAGES + 1)  # of a pool, and those that a call may ask for
TENANTS = range(8)  # tenant numbers
SLOTS_EACH = 8
SLOTS = range(SLOTS_EACH * len(TENANTS))  # place numbers
VERSIONS = range(2 ** 64)


remembered = functools.lru_cache(maxsize=2 ** 14)  # for what each call asks again of the whole state


def with_item(items, at, item):
    return items[:at] + (item,) + items[at + 1:]


@dataclass(frozen=True)
class Tenant:
    """What an admitted tenant has."""

    ceiling: int
    clearance: Tuple

    @remembered
    def sound(self):
        return self.ceiling >= 1 and self.clearance.valid() and not self.clearance.empty()

    @remembered
    def clears(self, label):
        return label.valid() and self.clearance.contains(label)


@dataclass(frozen=True)
class Segment:
    """What a filled place holds."""

    label: Label
    pages: int
    version: int  # edition


@dataclass(frozen=True)
class State:
    """The state, which document 01 calls the board. None stands where it has zeros. Each call gives the state that it
    leaves and what it answers, None where that is nothing more than the grant; `make` alone takes no state."""

    pool: int = 0
    tenants: tuple = (None,) * len(TENANTS)  # by tenant number, a Tenant or None
    segments: tuple = (None,) * len(SLOTS)  # by place number, a Segment or None

    def slots_of(self, tenant):
        """The slots that a tenant number owns. Nothing else says who owns which."""
        return range(SLOTS_EACH * tenant, SLOTS_EACH * (tenant + 1))

    def filled_by(self, tenant):
        """The segments at a tenant's slots."""
        return [self.segments[slot] for slot in self.slots_of(tenant) if self.segments[slot] is not None]

    def pages_of(self, tenant):
        return sum(segment.pages for segment in self.filled_by(tenant))

    def ceilings(self):
        return sum(tenant.ceiling for tenant in self.tenants if tenant is not None)

    def admitted(self, tenant):
        return tenant in TENANTS and self.tenants[tenant] is not None

    def sound(self):
        return (self.pool in PAGES
                and len(self.tenants) == len(TENANTS) and len(self.segments) == len(SLOTS)
                and all(tenant is None or tenant.sound() for tenant in self.tenants)
                and self.ceilings() <= self.pool
                and all(map(self.sound_at, TENANTS)))

    def sound_at(self, tenant):
        """Whether a tenant may hold what stands at its slots."""
        filled = self.filled_by(tenant)
        if not self.admitted(tenant):
            return not filled
        record = self.tenants[tenant]
        return self.pages_of(tenant) <= record.ceiling and all(
            record.clears(s.label) and s.pages >= 1 and s.version in VERSIONS for s in filled)

    def with_tenant(self, tenant, record):
        return replace(self, tenants=with_item(self.tenants, tenant, record))

    def with_segment(self, slot, segment):
        return replace(self, segments=with_item(self.segments, slot, segment))

    # The operator's calls

    @classmethod
    def make(cls, pool):
        require(pool in PAGES, INVALID)
        return cls(pool), None

    def admit(self, tenant, ceiling, clearance):
        require(self.sound(), INVALID)
        require(tenant in TENANTS and clearance.valid() and not clearance.empty() and ceiling >= 1, INVALID)
        require(not self.admitted(tenant), IN_USE)
        require(self.ceilings() + ceiling <= self.pool, NO_PAGES)
        return self.with_tenant(tenant, Tenant(ceiling, clearance)), None

    def set_ceiling(self, tenant, ceiling):
        require(self.sound(), INVALID)
        require(self.admitted(tenant) and ceiling >= 1, INVALID)
        require(ceiling >= self.pages_of(tenant), IN_USE)
        now = self.tenants[tenant]
        require(self.ceilings() - now.ceiling + ceiling <= self.pool, NO_PAGES)
        return self.with_tenant(tenant, replace(now, ceiling=ceiling)), None

    # The tenants' calls: the tenant's number, then what the call asks for, then the subject's label

    def require_subject(self, tenant, label, asked):
        """What every one of them checks first; `asked` is whether its other numbers are good."""
        require(self.sound(), INVALID)
        require(self.admitted(tenant) and label.valid() and asked, INVALID)
        require(self.tenants[tenant].clears(label), NO_PRIVILEGE)

    def require_own(self, tenant, slot, label):
        """The segment at a slot, which has to be the tenant's own and at the subject's label."""
        there = self.segments[slot]
        require(slot in self.slots_of(tenant) and there is not None and label.equal(there.label), DENIED)
        return there

    def require_pages(self, tenant, more):
        require(self.pages_of(tenant) + more <= self.tenants[tenant].ceiling, NO_PAGES)

    def open(self, tenant, pages, label):
        self.require_subject(tenant, label, pages in PAGES)
        slot = next((slot for slot in self.slots_of(tenant) if self.segments[slot] is None), None)
        require(slot is not None, NO_PLACE)
        self.require_pages(tenant, pages)
        return self.with_segment(slot, Segment(label, pages, 0)), slot

    def size(self, tenant, slot, pages, label):
        self.require_subject(tenant, label, slot in SLOTS and pages in PAGES)
        there = self.require_own(tenant, slot, label)
        self.require_pages(tenant, pages - there.pages)
        return self.with_segment(slot, replace(there, pages=pages)), None

    def post(self, tenant, slot, version, label):
        self.require_subject(tenant, label, slot in SLOTS)
        there = self.require_own(tenant, slot, label)
        return self.with_segment(slot, replace(there, version=version)), None

    def look(self, tenant, slot, label):
        self.require_subject(tenant, label, slot in SLOTS)
        there = self.segments[slot]
        require(there is not None and label.dominates(there.label), DENIED)
        return self, there

    def close(self, tenant, slot, label):
        self.require_subject(tenant, label, slot in SLOTS)
        self.require_own(tenant, slot, label)
        return self.with_segment(slot, None), None


# Calls as values

Answer = namedtuple("Answer", "refusal grant")  # a refusal's number, or None and what the grant answers


@dataclass(frozen=True)
class Call:
    """A call: its name, its numbers, of which the first is the tenant's in all but `make`, and the label or tuple that
    comes with it."""

    name: str
    numbers: tuple
    operands: tuple = ()

    @property
    def tenant(self):
        return self.numbers[0]

    @property
    def slot(self):
        """The slot of a tenant call other than an open."""
        return self.numbers[1]

    @property
    def label(self):
        """The subject's label, in a tenant call."""
        return self.operands[0]


def tenant_call(name, *numbers, label):
    return Call(name, numbers, (label,))


def step(state, call):
    """The state that a call leaves, and its answer. A refusal leaves the state as it was."""
    try:
        after, grant = getattr(state, call.name)(*call.numbers, *call.operands)
    except Refusal as refusal:
        return state, Answer(refusal.number, None)
    return after, Answer(None, grant)
