//! Calls on states: runs of random calls from a made state on, with calls on damaged states between them.

use crate::call;
use crate::case::Cases;
use crate::inputs;
use crate::numbers::one_off;
use crate::random::Random;
use lurmenize::raw::*;

/// What the calls of a run have in common.
struct Run {
    /// Few enough to be met again.
    labels: Vec<Label>,
    /// By what numbers of pages are multiplied.
    scale: u64,
}

/// A tenant that is mostly one of the first three.
fn tenant(random: &mut Random) -> TenantId {
    let wider = random.wider(1);
    TenantId { number: random.pick(&[0, 0, 0, 0, 1, 1, 1, 1, 2, 2, 2, 7, 8, wider]) }
}

/// A slot that is mostly one of a tenant's first, or of another's.
fn slot(random: &mut Random, tenant: TenantId) -> Slot {
    let wider = random.wider(8);
    let number = match random.below(10) {
        0 => random.pick(&[63, 64, 65, wider, wider]),
        1 | 2 => random.below(24),
        _ => tenant.number.wrapping_mul(8).wrapping_add(random.below(4)),
    };
    Slot { number }
}

fn pages(random: &mut Random, run: &Run) -> u64 {
    match random.below(12) {
        0 => random.pick(&[0, MAX_PAGES, MAX_PAGES + 1, u64::MAX]),
        1 => 1 + random.below(60 * run.scale),
        _ => 1 + random.below(3 * run.scale),
    }
}

fn clearance(random: &mut Random, run: &Run) -> Tuple {
    let with = random.pick(&run.labels);
    match random.below(6) {
        0 => inputs::input_tuple(random),
        1 => inputs::empty_tuple(),
        2 | 3 => inputs::tuple_with(random, &with),
        _ => inputs::whole_tuple(),
    }
}

/// A label of the run, or once in a while any.
fn subject(random: &mut Random, run: &Run) -> Label {
    if random.once_in(12) {
        inputs::input_label(random)
    } else {
        random.pick(&run.labels)
    }
}

/// One call of the operator, or a question.
fn operator_call(random: &mut Random, cases: &mut Cases, run: &Run, state: State) -> State {
    let (tenant, ceiling) = (tenant(random), pages(random, run).saturating_mul(random.pick(&[1, 5, 20])));
    let after = match random.below(4) {
        0 => {
            let clearance = clearance(random, run);
            call!(cases, lurm_admit(state, tenant, ceiling, clearance))
        }
        1 => call!(cases, lurm_set_ceiling(state, tenant, ceiling)),
        2 => {
            call!(cases, lurm_pages_in_use(state, tenant));
            return state;
        }
        _ => {
            call!(cases, lurm_sound(state));
            return state;
        }
    };
    after.state
}

/// The tenant, the label and the slot of a segment that is there, or None where the slot that was picked is empty.
fn owner(random: &mut Random, state: &State) -> Option<(TenantId, Label, Slot)> {
    let number = random.below(18);
    let segment = &state.segments[number as usize];
    (segment.pages > 0).then_some((TenantId { number: number / 8 }, segment.label, Slot { number }))
}

/// One call of a tenant, half of the time on a segment of its own where there is one.
fn tenant_call(random: &mut Random, cases: &mut Cases, run: &Run, state: State) -> State {
    let (any, label, pages) = (tenant(random), subject(random, run), pages(random, run));
    let call = (any, label, slot(random, any));
    let (tenant, label, slot) = if random.once_in(2) { owner(random, &state).unwrap_or(call) } else { call };
    let after = match random.below(10) {
        0..=4 => call!(cases, lurm_open(state, tenant, label, pages)),
        5 => call!(cases, lurm_size(state, tenant, label, slot, pages)),
        6 => {
            let version = random.number();
            call!(cases, lurm_post(state, tenant, label, slot, version))
        }
        7 => call!(cases, lurm_close(state, tenant, label, slot)),
        _ => call!(cases, lurm_look(state, tenant, label, slot)),
    };
    after.state
}

/// The first call of a run, and now and then one that is refused.
fn made(random: &mut Random, cases: &mut Cases, run: &Run) -> State {
    if random.once_in(3) {
        let pool = random.pick(&[0, MAX_PAGES, MAX_PAGES + 1, u64::MAX]);
        call!(cases, lurm_make(pool));
    }
    let pool = (30 + random.below(200)) * run.scale;
    call!(cases, lurm_make(pool)).state
}

/// The state with a number changed: any, or one of those that a type of fewer bits would cut to what they were.
fn damaged(random: &mut Random, state: &State) -> State {
    let mut damaged = *state;
    let (tenant, region) = (&mut damaged.tenants[random.index(2)], random.index(REGIONS));
    let segment = &mut damaged.segments[random.index(18)];
    match random.below(8) {
        0 => tenant.clearance.ranges[region].present = random.wider(tenant.clearance.ranges[region].present),
        1 => tenant.clearance.ranges[region].range.high.hierarchy = random.wider(tenant.clearance.ranges[region].range.high.hierarchy),
        2 => segment.label.hierarchy = random.wider(segment.label.hierarchy),
        _ => return one_off(random, state),
    }
    damaged
}

pub fn run(random: &mut Random, cases: &mut Cases, length: usize) {
    let base = inputs::label(random);
    let labels = vec![base, base, inputs::dominated_by(random, &base), inputs::dominating(random, &base)];
    let run = Run { labels, scale: random.pick(&[1, 10, 4000]) };
    let mut state = made(random, cases, &run);
    for tenant in [0, 1].map(|number| TenantId { number }) {
        let (ceiling, clearance) = ((10 + random.below(20)) * run.scale, inputs::whole_tuple());
        state = call!(cases, lurm_admit(state, tenant, ceiling, clearance)).state;
    }
    for _ in 0..length {
        let call = if random.once_in(3) { operator_call } else { tenant_call };
        if random.once_in(8) {
            let damaged = damaged(random, &state);
            call(random, cases, &run, damaged);
        } else {
            state = call(random, cases, &run, state);
        }
    }
}
