//! One measurement for all cases: first every answer is compared, then the sides are timed in turn, round by round.

use std::fmt::Debug;
use std::hint::black_box;
use std::time::{Duration, Instant};

/// A round of one side takes at least this long, so that reading the clock does not count.
const ROUND: Duration = Duration::from_millis(2);

/// One implementation with its inputs. A is what all sides of a case are compared by.
pub trait Side<A> {
    fn inputs(&self) -> usize;
    /// The whole answer to an input, and all that the call leaves, from the state as prepared.
    fn seen(&self, input: usize) -> A;
    /// The time of so many passes over all inputs.
    fn time(&mut self, passes: u32) -> Duration;
}

/// A side made of functions. `call` is timed; so is `undo`, which makes the state ready for the next call where `call` used it up.
struct Functions<S, I, C, U, V> {
    state: S,
    inputs: Vec<I>,
    call: C,
    undo: U,
    view: V,
}

impl<S, I, O, A, C, U, V> Side<A> for Functions<S, I, C, U, V>
where
    S: Clone,
    C: Fn(&mut S, &I) -> O,
    U: Fn(&mut S, &I),
    V: Fn(&S, O) -> A,
{
    fn inputs(&self) -> usize {
        self.inputs.len()
    }

    fn seen(&self, input: usize) -> A {
        let mut state = self.state.clone();
        let output = (self.call)(&mut state, &self.inputs[input]);
        (self.view)(&state, output)
    }

    fn time(&mut self, passes: u32) -> Duration {
        let start = Instant::now();
        for _ in 0..passes {
            for input in &self.inputs {
                let output = (self.call)(&mut self.state, black_box(input));
                // By reference: handed over by value, a large answer would be copied once more.
                black_box(&output);
                (self.undo)(&mut self.state, input);
            }
        }
        start.elapsed()
    }
}

/// A side whose calls change `state`. `view` gives what is compared.
pub fn side_with_undo<S: Clone + 'static, I: 'static, O, A>(
    state: S,
    inputs: Vec<I>,
    call: impl Fn(&mut S, &I) -> O + 'static,
    undo: impl Fn(&mut S, &I) + 'static,
    view: impl Fn(&S, O) -> A + 'static,
) -> Box<dyn Side<A>> {
    Box::new(Functions { state, inputs, call, undo, view })
}

/// The same where each call finds the state fit for it.
pub fn side<S: Clone + 'static, I: 'static, O, A>(
    state: S,
    inputs: Vec<I>,
    call: impl Fn(&mut S, &I) -> O + 'static,
    view: impl Fn(&S, O) -> A + 'static,
) -> Box<dyn Side<A>> {
    side_with_undo(state, inputs, call, |_, _| (), view)
}

/// The sides of a case: the ordinary version, the proved one, then others.
pub type Sides<A> = Vec<Box<dyn Side<A>>>;

/// Mean times of a call in nanoseconds, one for each round, by side.
pub type Times = Vec<Vec<f64>>;

/// What can be measured, whatever its answers are.
pub trait Measurable {
    fn measure(&mut self, rounds: usize) -> Result<Times, String>;
}

impl<A: PartialEq + Debug> Measurable for Sides<A> {
    fn measure(&mut self, rounds: usize) -> Result<Times, String> {
        compare(self)?;
        let passes: Vec<u32> = self.iter_mut().map(|side| passes_of(side.as_mut())).collect();
        let mut times = vec![Vec::with_capacity(rounds); self.len()];
        for round in 0..rounds {
            for turn in 0..self.len() {
                let side = (round + turn) % self.len();
                let time = self[side].time(passes[side]);
                let calls = f64::from(passes[side]) * self[side].inputs() as f64;
                times[side].push(time.as_secs_f64() * 1e9 / calls);
            }
        }
        Ok(times)
    }
}

fn compare<A: PartialEq + Debug>(sides: &Sides<A>) -> Result<(), String> {
    for input in 0..sides[0].inputs() {
        let expected = sides[0].seen(input);
        for side in &sides[1..] {
            let seen = side.seen(input);
            if seen != expected {
                return Err(format!("answers differ on input {input}:\n{expected:?}\n{seen:?}"));
            }
        }
    }
    Ok(())
}

/// How many passes over its inputs fill a round; the first pass only warms up.
fn passes_of<A>(side: &mut dyn Side<A>) -> u32 {
    side.time(1);
    let mut passes = 1;
    while side.time(passes) < ROUND {
        passes *= 2;
    }
    passes
}
