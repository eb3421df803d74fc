//! Requests and answers in the line protocol of `tests/model/capi.py`.

use crate::numbers::{numbers_of, Numbers};
use lurmenize::raw::*;
use std::fmt::Write;

/// A call: the request, and what the library answered.
pub struct Case {
    pub function: &'static str,
    pub request: String,
    pub answer: String,
    pub outcome: Answer,
}

/// What a function hands back has an answer in it.
pub trait Answered: Numbers {
    fn answer(&self) -> Answer;
}

impl Answered for Answer {
    fn answer(&self) -> Answer {
        *self
    }
}

macro_rules! answered {
    ($($name:ident)*) => {
        $(impl Answered for $name {
            fn answer(&self) -> Answer {
                self.answer
            }
        })*
    };
}

answered! { LabelAnswer RangeAnswer TupleAnswer EntryAnswer RangeWritten Outcome }

/// An argument that is a number or a struct.
pub fn value(argument: &impl Numbers) -> String {
    numbers_of(argument).iter().map(u64::to_string).collect::<Vec<_>>().join(",")
}

/// An argument that is read.
pub fn bytes(argument: &[u8]) -> String {
    argument.iter().fold(String::from("x"), |mut text, byte| {
        write!(text, "{byte:02x}").unwrap();
        text
    })
}

/// What every byte of a buffer is before the call.
pub const FILL: u8 = 0xa5;

#[derive(Default)]
pub struct Cases(pub Vec<Case>);

impl Cases {
    /// Keeps a call that writes to no buffer.
    pub fn add(&mut self, function: &'static str, arguments: &[String], answered: &impl Answered) {
        self.keep(function, arguments, answered, value(answered));
    }

    /// Keeps a call that writes to a buffer, which comes last.
    pub fn add_written(&mut self, function: &'static str, arguments: &[String], answered: &impl Answered, buffer: &[u8]) {
        let arguments = [arguments, &[format!("b{}", buffer.len())]].concat();
        self.keep(function, &arguments, answered, format!("{} {}", value(answered), bytes(buffer)));
    }

    fn keep(&mut self, function: &'static str, arguments: &[String], answered: &impl Answered, answer: String) {
        let function = function.trim_start_matches("lurm_");
        self.0.push(Case { function, request: format!("{function} {}", arguments.join(" ")), answer, outcome: answered.answer() });
    }
}

/// Calls a function that has no pointers, keeps the call, and gives what was handed back.
#[macro_export]
macro_rules! call {
    ($cases:expr, $function:ident($($argument:expr),*)) => {{
        let answered = lurmenize::raw::$function($($argument),*);
        $cases.add(stringify!($function), &[$($crate::case::value(&$argument)),*], &answered);
        answered
    }};
}
