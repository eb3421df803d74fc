//! Calls on a board with eight tenants and sixty-four filled places.
//!
//! Each version keeps its board as its callers do: the ordinary one is changed where it stands, the proved one is passed by value and
//! stored again from the outcome, which is part of the call's time. What a call uses up is put back by one plain assignment, timed in both.

use super::{prepared, Case};
use crate::by_value;
use crate::convert::answer;
use crate::harness::{side, side_with_undo, Side, Sides};
use crate::ordinary::board::{Board, Place, Segment, Tenant, TenantId, PLACES, TENANTS};
use crate::ordinary::label::Label;
use crate::ordinary::range::{Range, Tuple};
use crate::ordinary::Refusal;
use crate::random::Random;
use lurmenize::raw;

const CALLS: usize = 512;
const POOL: u64 = 1_000_000;
const CEILING: u64 = 100_000;
/// Eight places of at most this many pages stay within a ceiling.
const MOST_PAGES: u64 = 5_000;

/// What is compared: the answer, what is shown, and the board that is left.
type Left = (raw::Answer, raw::Segment, raw::State);

/// A clearance in the user region.
fn clearance(random: &mut Random) -> Tuple {
    let low = Label { hierarchy: random.between(20, 40) as u8, categories: [0; 4] };
    let categories = std::array::from_fn(|_| random.next() | random.next());
    let high = Label { hierarchy: random.between(140, 179) as u8, categories };
    Tuple([None, Some(Range { low, high }), None])
}

/// A label in such a clearance: once in four its highest, else one with some of its categories.
fn cleared_label(random: &mut Random, clearance: &Tuple) -> Label {
    let Tuple([_, Some(Range { low, high }), _]) = clearance else {
        unreachable!("clearances are in the user region");
    };
    if random.once_in(4) {
        return *high;
    }
    let hierarchy = random.between(low.hierarchy.into(), high.hierarchy.into()) as u8;
    Label { hierarchy, categories: high.categories.map(|word| word & random.next() & random.next()) }
}

fn full_board(random: &mut Random) -> Board {
    let tenants: [Tenant; TENANTS] = std::array::from_fn(|_| Tenant { ceiling: CEILING, clearance: clearance(random) });
    let places = std::array::from_fn(|place| {
        let label = cleared_label(random, &tenants[place / 8].clearance);
        Some(Segment { label, pages: random.between(1, MOST_PAGES), edition: random.next() })
    });
    Board { pool: POOL, tenants: tenants.map(Some), places }
}

/// What a call is handed; L is the version's label. A call uses what it takes, `number` as pages, edition or ceiling.
#[derive(Clone, Copy)]
struct Call<L> {
    tenant: u64,
    label: L,
    place: usize,
    number: u64,
}

/// The numbers in the header's types.
impl Call<raw::Label> {
    fn tenant(&self) -> raw::TenantId {
        raw::TenantId::new(self.tenant)
    }

    fn slot(&self) -> raw::Slot {
        raw::Slot::new(self.place as u64)
    }
}

/// Calls at places of the tenant's own, under the label there.
fn own_calls(random: &mut Random, board: &Board) -> Vec<Call<Label>> {
    prepared(CALLS, random, |random| {
        let place = random.below(PLACES);
        let label = board.places[place].expect("a filled place").label;
        Call { tenant: place as u64 / 8, label, place, number: random.between(1, MOST_PAGES) }
    })
}

/// Calls under any label of the tenant's clearance, `looks` at any place, else at the tenant's own.
fn cleared_calls(random: &mut Random, board: &Board, looks: bool) -> Vec<Call<Label>> {
    prepared(CALLS, random, |random| {
        let tenant = random.below(TENANTS);
        let label = cleared_label(random, &board.tenants[tenant].expect("a tenant").clearance);
        let place = if looks { random.below(PLACES) } else { tenant * 8 + random.below(8) };
        Call { tenant: tenant as u64, label, place, number: random.between(1, MOST_PAGES) }
    })
}

/// Ceilings that cover the pages in use, and that fit the pool whatever the other tenants have of them.
fn ceiling_calls(random: &mut Random, tenants: std::ops::Range<usize>) -> Vec<Call<Label>> {
    prepared(CALLS, random, |random| {
        let tenant = tenants.start + random.below(tenants.len());
        Call { tenant: tenant as u64, label: Label { hierarchy: 0, categories: [0; 4] }, place: 0, number: random.between(50_000, 120_000) }
    })
}

/// What a grant answers, as the header has it.
trait Granted {
    fn seen(self) -> (u64, raw::Segment);
}

impl Granted for () {
    fn seen(self) -> (u64, raw::Segment) {
        (0, raw::Segment::default())
    }
}

impl Granted for Place {
    fn seen(self) -> (u64, raw::Segment) {
        (self.0, raw::Segment::default())
    }
}

impl Granted for Segment {
    fn seen(self) -> (u64, raw::Segment) {
        (0, self.into())
    }
}

fn left<T: Granted>(board: &Board, result: Result<T, Refusal>) -> Left {
    let seen = result.map(Granted::seen);
    let shown = seen.map_or_else(|_| raw::Segment::default(), |(_, shown)| shown);
    (answer(seen.map(|(value, _)| value)), shown, board.into())
}

fn raw_call(call: &Call<Label>) -> Call<raw::Label> {
    Call { tenant: call.tenant, label: call.label.into(), place: call.place, number: call.number }
}

/// A call whose state is stored where the one that was passed stands.
fn stored(
    call: impl Fn(&mut raw::State, &Call<raw::Label>) -> raw::Outcome,
) -> impl Fn(&mut raw::State, &Call<raw::Label>) -> (raw::Answer, raw::Segment) {
    move |state, asked| {
        let outcome = call(state, asked);
        *state = outcome.state;
        (outcome.answer, outcome.shown)
    }
}

/// Both versions of a call, and for each how its board is made ready for the next call.
fn sides_with_undo<T: Granted + 'static>(
    board: &Board,
    calls: Vec<Call<Label>>,
    ordinary: impl Fn(&mut Board, &Call<Label>) -> Result<T, Refusal> + 'static,
    ordinary_undo: impl Fn(&mut Board, &Call<Label>) + 'static,
    proved: impl Fn(&mut raw::State, &Call<raw::Label>) -> raw::Outcome + 'static,
    proved_undo: impl Fn(&mut raw::State, &Call<raw::Label>) + 'static,
) -> Sides<Left> {
    let raw_calls = calls.iter().map(raw_call).collect();
    vec![
        side_with_undo(board.clone(), calls, ordinary, ordinary_undo, left),
        side_with_undo(raw::State::from(board), raw_calls, stored(proved), proved_undo, |state, (answer, shown)| (answer, shown, *state)),
    ]
}

fn sides<T: Granted + 'static>(
    board: &Board,
    calls: Vec<Call<Label>>,
    ordinary: impl Fn(&mut Board, &Call<Label>) -> Result<T, Refusal> + 'static,
    proved: impl Fn(&mut raw::State, &Call<raw::Label>) -> raw::Outcome + 'static,
) -> Sides<Left> {
    sides_with_undo(board, calls, ordinary, |_, _| (), proved, |_, _| ())
}

/// Every place is filled, so that each open is refused with 28.
fn open_refused(random: &mut Random) -> Sides<Left> {
    let board = full_board(random);
    sides(
        &board,
        cleared_calls(random, &board, false),
        |board, call| board.open(TenantId(call.tenant), &call.label, call.number),
        |state, call| raw::lurm_open(*state, call.tenant(), call.label, call.number),
    )
}

/// One of the tenant's places is emptied by an assignment before each open, which fills it.
fn open_granted(random: &mut Random) -> Sides<Left> {
    let board = full_board(random);
    sides(
        &board,
        cleared_calls(random, &board, false),
        |board, call| {
            board.places[call.place] = None;
            board.open(TenantId(call.tenant), &call.label, call.number)
        },
        |state, call| {
            state.segments[call.place] = raw::Segment::default();
            raw::lurm_open(*state, call.tenant(), call.label, call.number)
        },
    )
}

fn size(random: &mut Random) -> Sides<Left> {
    let board = full_board(random);
    sides(
        &board,
        own_calls(random, &board),
        |board, call| board.size(TenantId(call.tenant), &call.label, Place(call.place as u64), call.number),
        |state, call| raw::lurm_size(*state, call.tenant(), call.label, call.slot(), call.number),
    )
}

fn post(random: &mut Random) -> Sides<Left> {
    let board = full_board(random);
    sides(
        &board,
        own_calls(random, &board),
        |board, call| board.post(TenantId(call.tenant), &call.label, Place(call.place as u64), call.number),
        |state, call| raw::lurm_post(*state, call.tenant(), call.label, call.slot(), call.number),
    )
}

/// The ordinary version behind the header's interface, and the proved one.
fn post_passed(random: &mut Random) -> Sides<Left> {
    let board = full_board(random);
    let state = raw::State::from(&board);
    let calls: Vec<_> = own_calls(random, &board).iter().map(raw_call).collect();
    let passed = |call: fn(raw::State, &Call<raw::Label>) -> raw::Outcome, calls: Vec<Call<raw::Label>>| {
        side(state, calls, stored(move |state, asked| call(*state, asked)), |state, (answer, shown)| (answer, shown, *state))
    };
    vec![
        passed(|state, call| by_value::post(state, call.tenant(), call.label, call.slot(), call.number), calls.clone()),
        passed(|state, call| raw::lurm_post(state, call.tenant(), call.label, call.slot(), call.number), calls),
    ]
}

fn look(random: &mut Random) -> Sides<Left> {
    let board = full_board(random);
    sides(
        &board,
        cleared_calls(random, &board, true),
        |board, call| board.look(TenantId(call.tenant), &call.label, Place(call.place as u64)),
        |state, call| raw::lurm_look(*state, call.tenant(), call.label, call.slot()),
    )
}

/// The place is filled again by an assignment after each close.
fn close(random: &mut Random) -> Sides<Left> {
    let board = full_board(random);
    let (places, segments) = (board.places, raw::State::from(&board).segments);
    sides_with_undo(
        &board,
        own_calls(random, &board),
        |board, call| board.close(TenantId(call.tenant), &call.label, Place(call.place as u64)),
        move |board, call| board.places[call.place] = places[call.place],
        |state, call| raw::lurm_close(*state, call.tenant(), call.label, call.slot()),
        move |state, call| state.segments[call.place] = segments[call.place],
    )
}

/// The last tenant is missing, and its places are empty. Its record is removed by an assignment after each admission.
fn admit(random: &mut Random) -> Sides<Left> {
    const LAST: usize = TENANTS - 1;
    let mut board = full_board(random);
    let clearance = board.tenants[LAST].expect("a tenant").clearance;
    let raw_clearance = raw::Tuple::from(clearance);
    board.tenants[LAST] = None;
    board.places[LAST * 8..].fill(None);
    sides_with_undo(
        &board,
        ceiling_calls(random, LAST..TENANTS),
        move |board, call| board.admit(TenantId(call.tenant), call.number, &clearance),
        |board, _| board.tenants[LAST] = None,
        move |state, call| raw::lurm_admit(*state, call.tenant(), call.number, raw_clearance),
        |state, _| state.tenants[LAST] = raw::Tenant::default(),
    )
}

fn set_ceiling(random: &mut Random) -> Sides<Left> {
    let board = full_board(random);
    sides(
        &board,
        ceiling_calls(random, 0..TENANTS),
        |board, call| board.set_ceiling(TenantId(call.tenant), call.number),
        |state, call| raw::lurm_set_ceiling(*state, call.tenant(), call.number),
    )
}

/// Sound boards, few enough for the processor's second cache.
fn sound(random: &mut Random) -> Sides<raw::Answer> {
    let boards = prepared(16, random, full_board);
    let states: Vec<raw::State> = boards.iter().map(raw::State::from).collect();
    let ordinary: Box<dyn Side<raw::Answer>> = side((), boards, |_, board| board.is_sound(), |_, sound| answer(Ok(sound.into())));
    vec![ordinary, side((), states, |_, state| raw::lurm_sound(*state), |_, answer| answer)]
}

pub fn cases() -> Vec<Case> {
    vec![
        Case::new("open, refused: no place", open_refused),
        Case::new("open, granted", open_granted),
        Case::new("size", size),
        Case::new("post", post),
        Case::new("post, by value", post_passed),
        Case::new("look", look),
        Case::new("close", close),
        Case::new("admit", admit),
        Case::new("set_ceiling", set_ceiling),
        Case::new("sound", sound),
    ]
}
