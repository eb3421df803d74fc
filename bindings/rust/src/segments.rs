//! The account of shared memory segments.

use crate::raw;
pub use crate::raw::{Segment, Slot, TenantId};
use crate::{Label, Refusal, Tuple};

impl TenantId {
    /// The tenant with this number, if there is one.
    pub const fn new(number: u64) -> TenantId {
        TenantId { number }
    }
}

impl Slot {
    /// The slot with this number, if there is one.
    pub const fn new(number: u64) -> Slot {
        Slot { number }
    }
}

/// The state: the pool, the tenants and the segments. It keeps the rules that every call asks of it, since it comes of [`make`](State::make) and
/// calls, or of numbers that were tested for them.
///
/// A call that is granted changes the state where it stands; one that is refused leaves it as it was. Every call refuses with [`Refusal::Invalid`]
/// a tenant that is not there, a slot above 63, an invalid label or tuple, and pages that are 0 or more than 1,048,576. A tenant's calls are made by
/// a subject with a label, and refused with [`Refusal::Perm`] where that is not in the tenant's clearance.
///
/// ```
/// use lurmenize::{Label, Range, Refusal, Slot, State, TenantId};
///
/// let label = Label::new(20, &[]);
/// let clearance = Range::new(label, Label::new(40, &[1])).split()?;
/// let mut state = State::make(100)?;
/// let tenant = TenantId::new(1);
/// state.admit(tenant, 40, &clearance)?;
/// let slot = state.open(tenant, &label, 30)?;
/// assert_eq!(slot, Slot::new(8));
/// assert_eq!(state.open(tenant, &label, 11), Err(Refusal::NoMem));
/// assert_eq!(state.look(tenant, &label, slot)?.pages, 30);
/// # Ok::<(), Refusal>(())
/// ```
///
/// Its numbers can be kept elsewhere, and are tested where they come back:
///
/// ```
/// use lurmenize::{Refusal, State};
///
/// let state = State::make(100)?;
/// let mut numbers = *state.as_raw();
/// assert_eq!(State::try_from(numbers), Ok(state));
/// numbers.tenants[0].ceiling = 101;
/// assert_eq!(State::try_from(numbers), Err(Refusal::Invalid));
/// # Ok::<(), Refusal>(())
/// ```
#[derive(Clone, Debug, PartialEq, Eq, Hash)]
pub struct State(raw::State);

impl State {
    /// A state with this pool and no tenants.
    pub fn make(pool: u64) -> Result<State, Refusal> {
        let outcome = raw::lurm_make(pool);
        outcome.answer.number().map(|_| State(outcome.state))
    }

    /// Its numbers.
    pub fn as_raw(&self) -> &raw::State {
        &self.0
    }

    /// Takes the state that a granted call leaves, and gives what the call answers.
    fn keep(&mut self, outcome: raw::Outcome) -> Result<u64, Refusal> {
        let value = outcome.answer.number()?;
        self.0 = outcome.state;
        Ok(value)
    }

    /// Admits a tenant with a ceiling on its pages and a clearance, which is not empty. [`Refusal::Busy`] where it is admitted already,
    /// [`Refusal::NoMem`] where the pool has no room.
    pub fn admit(&mut self, tenant: TenantId, ceiling: u64, clearance: &Tuple) -> Result<(), Refusal> {
        self.keep(raw::lurm_admit(self.0, tenant, ceiling, clearance.into())).map(drop)
    }

    /// Gives a tenant another ceiling. [`Refusal::Busy`] where it has more pages than that in use, [`Refusal::NoMem`] where the pool has no room.
    pub fn set_ceiling(&mut self, tenant: TenantId, ceiling: u64) -> Result<(), Refusal> {
        self.keep(raw::lurm_set_ceiling(self.0, tenant, ceiling)).map(drop)
    }

    /// Opens a segment in the tenant's lowest empty slot and gives the slot. [`Refusal::NoSpace`] where there is none, [`Refusal::NoMem`] where the
    /// tenant's pages would be more than its ceiling.
    pub fn open(&mut self, tenant: TenantId, label: &Label, pages: u64) -> Result<Slot, Refusal> {
        self.keep(raw::lurm_open(self.0, tenant, *label, pages)).map(Slot::new)
    }

    /// Gives a segment another number of pages. [`Refusal::Access`] where the slot is not the tenant's own, or empty, or its label is not the
    /// subject's; [`Refusal::NoMem`] where the tenant's pages would be more than its ceiling.
    pub fn size(&mut self, tenant: TenantId, label: &Label, slot: Slot, pages: u64) -> Result<(), Refusal> {
        self.keep(raw::lurm_size(self.0, tenant, *label, slot, pages)).map(drop)
    }

    /// Gives a segment another version. [`Refusal::Access`] as for [`size`](State::size).
    pub fn post(&mut self, tenant: TenantId, label: &Label, slot: Slot, version: u64) -> Result<(), Refusal> {
        self.keep(raw::lurm_post(self.0, tenant, *label, slot, version)).map(drop)
    }

    /// Empties a slot. [`Refusal::Access`] as for [`size`](State::size).
    pub fn close(&mut self, tenant: TenantId, label: &Label, slot: Slot) -> Result<(), Refusal> {
        self.keep(raw::lurm_close(self.0, tenant, *label, slot)).map(drop)
    }

    /// What a slot holds, whoever's it is. [`Refusal::Access`] where it is empty, or the subject's label does not dominate its label. A look never
    /// changes the state.
    pub fn look(&self, tenant: TenantId, label: &Label, slot: Slot) -> Result<Segment, Refusal> {
        let outcome = raw::lurm_look(self.0, tenant, *label, slot);
        outcome.answer.number().map(|_| outcome.shown)
    }

    /// The pages that a tenant has in use.
    pub fn pages_in_use(&self, tenant: TenantId) -> Result<u64, Refusal> {
        raw::lurm_pages_in_use(self.0, tenant).number()
    }
}

/// [`Refusal::Invalid`] where the numbers don't keep the rules that every call asks of a state (`lurm_sound`).
impl TryFrom<raw::State> for State {
    type Error = Refusal;

    fn try_from(state: raw::State) -> Result<State, Refusal> {
        if raw::lurm_sound(state).test()? {
            Ok(State(state))
        } else {
            Err(Refusal::Invalid)
        }
    }
}
