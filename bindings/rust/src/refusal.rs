//! What functions answer where they don't grant.

use crate::raw;
use crate::{Entry, Label, Range, Tuple};
use std::fmt;

/// A refusal. Each has the number of the POSIX error whose name it bears.
///
/// A bad alias table is always [`BadLine`](Refusal::BadLine), whichever function it is passed to, and nothing else is. All else that is refused with
/// 22 is [`Invalid`](Refusal::Invalid).
#[derive(Clone, Copy, Debug, PartialEq, Eq, Hash)]
pub enum Refusal {
    /// 1: no privilege or clearance.
    Perm,
    /// 2: no name.
    NoEnt,
    /// 7: the buffer is too short; this length is needed.
    TooBig(usize),
    /// 12: no pages.
    NoMem,
    /// 13: denied.
    Access,
    /// 16: in use.
    Busy,
    /// 22: what was passed is invalid.
    Invalid,
    /// 22: the alias table is bad; this is its first bad line, counted from 0.
    BadLine(usize),
    /// 28: no empty slot.
    NoSpace,
    /// 33: no common label.
    Domain,
    /// An answer that no function of this version gives, as it is. The library that is linked is of another [version](crate::version) then.
    Unknown(raw::Answer),
}

impl Refusal {
    /// Its number.
    pub fn number(self) -> u32 {
        match self {
            Refusal::Perm => raw::EPERM,
            Refusal::NoEnt => raw::ENOENT,
            Refusal::TooBig(_) => raw::E2BIG,
            Refusal::NoMem => raw::ENOMEM,
            Refusal::Access => raw::EACCES,
            Refusal::Busy => raw::EBUSY,
            Refusal::Invalid | Refusal::BadLine(_) => raw::EINVAL,
            Refusal::NoSpace => raw::ENOSPC,
            Refusal::Domain => raw::EDOM,
            Refusal::Unknown(answer) => answer.refusal,
        }
    }

    /// The refusal in an answer that is not a grant.
    fn of(answer: raw::Answer) -> Refusal {
        let known = match answer.carries {
            0 if answer.value == 0 => Refusal::plain(answer.refusal),
            1 => usize::try_from(answer.value).ok().and_then(|carried| Refusal::carrying(answer.refusal, carried)),
            _ => None,
        };
        known.unwrap_or(Refusal::Unknown(answer))
    }

    /// A refusal that is its number alone.
    fn plain(number: u32) -> Option<Refusal> {
        Some(match number {
            raw::EPERM => Refusal::Perm,
            raw::ENOENT => Refusal::NoEnt,
            raw::ENOMEM => Refusal::NoMem,
            raw::EACCES => Refusal::Access,
            raw::EBUSY => Refusal::Busy,
            raw::EINVAL => Refusal::Invalid,
            raw::ENOSPC => Refusal::NoSpace,
            raw::EDOM => Refusal::Domain,
            _ => return None,
        })
    }

    /// A refusal that carries one more number.
    fn carrying(number: u32, carried: usize) -> Option<Refusal> {
        match number {
            raw::E2BIG => Some(Refusal::TooBig(carried)),
            raw::EINVAL => Some(Refusal::BadLine(carried)),
            _ => None,
        }
    }
}

impl fmt::Display for Refusal {
    fn fmt(&self, f: &mut fmt::Formatter<'_>) -> fmt::Result {
        match self {
            Refusal::Perm => f.write_str("no privilege or clearance"),
            Refusal::NoEnt => f.write_str("no name"),
            Refusal::TooBig(length) => write!(f, "buffer short: {length} bytes are needed"),
            Refusal::NoMem => f.write_str("no pages"),
            Refusal::Access => f.write_str("denied"),
            Refusal::Busy => f.write_str("in use"),
            Refusal::Invalid => f.write_str("invalid"),
            Refusal::BadLine(line) => write!(f, "invalid alias table: line {line}"),
            Refusal::NoSpace => f.write_str("no place"),
            Refusal::Domain => f.write_str("no common label"),
            Refusal::Unknown(raw::Answer { refusal, carries, value }) => {
                write!(f, "no refusal of this library: refusal {refusal}, carries {carries}, value {value}")
            }
        }
    }
}

impl std::error::Error for Refusal {}

/// What a grant answers, or the refusal. An answer that no function gives is refused, and never taken for a grant.
impl raw::Answer {
    /// Any number.
    pub(crate) fn number(self) -> Result<u64, Refusal> {
        match self {
            raw::Answer { refusal: 0, carries: 0, value } => Ok(value),
            refused => Err(Refusal::of(refused)),
        }
    }

    /// A number that stands for a choice, which is taken from `choices` by its place there.
    pub(crate) fn choice<T: Copy>(self, choices: &[T]) -> Result<T, Refusal> {
        let chosen = usize::try_from(self.number()?).ok().and_then(|value| choices.get(value));
        chosen.copied().ok_or(Refusal::Unknown(self))
    }

    /// A yes or no.
    pub(crate) fn test(self) -> Result<bool, Refusal> {
        self.choice(&[false, true])
    }

    /// A count.
    pub(crate) fn count(self) -> Result<usize, Refusal> {
        usize::try_from(self.number()?).map_err(|_| Refusal::Unknown(self))
    }

    /// The length of what was written to the front of `out`.
    pub(crate) fn length_in(self, out: &[u8]) -> Result<usize, Refusal> {
        self.count().and_then(|length| if length <= out.len() { Ok(length) } else { Err(Refusal::Unknown(self)) })
    }

    /// What was written to the front of `out`.
    pub(crate) fn text_in(self, out: &[u8]) -> Result<String, Refusal> {
        let written = out.get(..self.length_in(out)?).and_then(|front| std::str::from_utf8(front).ok());
        written.map(String::from).ok_or(Refusal::Unknown(self))
    }
}

/// What stands beside a grant.
macro_rules! beside {
    ($($answer:ident: $field:ident is $type:ty;)*) => {
        $(impl raw::$answer {
            /// What is granted, or the refusal.
            pub(crate) fn granted(self) -> Result<$type, Refusal> {
                self.answer.number()?;
                self.$field.try_into().map_err(|_| Refusal::Unknown(self.answer))
            }
        })*
    };
}

beside! {
    LabelAnswer: label is Label;
    RangeAnswer: range is Range;
    TupleAnswer: tuple is Tuple;
    EntryAnswer: entry is Entry;
}

#[cfg(test)]
mod tests {
    use super::*;

    fn answer(refusal: u32, carries: u32, value: u64) -> raw::Answer {
        raw::Answer { refusal, carries, value }
    }

    fn unknown<T>(answer: raw::Answer) -> Result<T, Refusal> {
        Err(Refusal::Unknown(answer))
    }

    #[test]
    fn what_is_carried_tells_refusals_apart() {
        assert_eq!(answer(22, 0, 0).number(), Err(Refusal::Invalid));
        assert_eq!(answer(22, 1, 0).number(), Err(Refusal::BadLine(0)));
        assert_eq!(answer(22, 1, 9).number(), Err(Refusal::BadLine(9)));
        assert_eq!(answer(7, 1, 0).number(), Err(Refusal::TooBig(0)));
        assert_eq!(answer(7, 1, 71).number(), Err(Refusal::TooBig(71)));
    }

    #[test]
    fn every_refusal_has_its_number() {
        let plain = [1, 2, 12, 13, 16, 22, 28, 33].map(|number| (number, Refusal::plain(number)));
        let carrying = [7, 22].map(|number| (number, Refusal::carrying(number, 5)));
        for (number, refusal) in plain.into_iter().chain(carrying) {
            assert_eq!(refusal.map(Refusal::number), Some(number));
        }
    }

    /// Every combination of some numbers.
    fn odd_answers() -> impl Iterator<Item = raw::Answer> {
        let refusals = [0, 1, 3, 7, 12, 22, 33, 34, u32::MAX];
        let carrying = refusals.into_iter().flat_map(|refusal| [0, 1, 2, u32::MAX].map(|carries| (refusal, carries)));
        carrying.flat_map(|(refusal, carries)| [0, 1, 5, u64::MAX].map(|value| answer(refusal, carries, value)))
    }

    /// No answer stops a caller, and none but a grant as it should be is taken for one.
    #[test]
    fn answers_that_no_function_gives_are_unknown() {
        for given in odd_answers() {
            let known = match (given.refusal, given.carries, given.value) {
                (0, 0, value) => Ok(value),
                (7, 1, length) => Err(Refusal::TooBig(length as usize)),
                (22, 1, line) => Err(Refusal::BadLine(line as usize)),
                (1, 0, 0) => Err(Refusal::Perm),
                (12, 0, 0) => Err(Refusal::NoMem),
                (22, 0, 0) => Err(Refusal::Invalid),
                (33, 0, 0) => Err(Refusal::Domain),
                _ => unknown(given),
            };
            assert_eq!(given.number(), known);
            assert!(known.is_ok() || known.map_err(Refusal::number) == Err(given.refusal));
        }
    }

    #[test]
    fn grants_out_of_bounds_are_unknown() {
        for value in [2, 3, u64::MAX] {
            let given = answer(0, 0, value);
            assert_eq!(given.test(), unknown(given));
            assert_eq!(given.choice(&["first", "second"]), unknown(given));
        }
        let given = answer(0, 0, u64::MAX);
        assert_eq!(given.length_in(&[0; 8]), unknown(given));
        assert_eq!(given.text_in(&[0; 8]), unknown(given));
        let given = answer(0, 0, 2);
        assert_eq!(given.text_in(b"lo"), Ok("lo".to_string()));
        assert_eq!(given.text_in(b"\xff\xffa"), unknown(given));
    }

    #[test]
    fn what_stands_beside_a_grant_is_tested() {
        let mut tuple = raw::TupleAnswer::default();
        assert_eq!(tuple.granted(), Ok(Tuple::default()));
        tuple.tuple.ranges[1].present = 2;
        assert_eq!(tuple.granted(), unknown(answer(0, 0, 0)));
        assert_eq!(raw::EntryAnswer::default().granted(), unknown(answer(0, 0, 0)));
        let refused = raw::EntryAnswer { answer: answer(22, 0, 0), ..raw::EntryAnswer::default() };
        assert_eq!(refused.granted(), Err(Refusal::Invalid));
    }
}
