//! The structs as the numbers that they hold, in the order of declaration.

use crate::random::Random;
use lurmenize::raw::*;

pub trait Numbers: Sized {
    fn put(&self, numbers: &mut Vec<u64>);
    fn take(numbers: &mut dyn Iterator<Item = u64>) -> Self;
}

macro_rules! integers {
    ($($type:ty)*) => {
        $(impl Numbers for $type {
            fn put(&self, numbers: &mut Vec<u64>) {
                numbers.push(*self as u64);
            }

            fn take(numbers: &mut dyn Iterator<Item = u64>) -> $type {
                numbers.next().unwrap() as $type
            }
        })*
    };
}

integers! { u8 u32 u64 usize }

impl<T: Numbers, const N: usize> Numbers for [T; N] {
    fn put(&self, numbers: &mut Vec<u64>) {
        self.iter().for_each(|item| item.put(numbers));
    }

    fn take(numbers: &mut dyn Iterator<Item = u64>) -> [T; N] {
        std::array::from_fn(|_| T::take(numbers))
    }
}

macro_rules! structs {
    ($($name:ident { $($field:ident)* })*) => {
        $(impl Numbers for $name {
            fn put(&self, numbers: &mut Vec<u64>) {
                let $name { $($field),* } = self;
                $($field.put(numbers);)*
            }

            fn take(numbers: &mut dyn Iterator<Item = u64>) -> $name {
                $(let $field = Numbers::take(numbers);)*
                $name { $($field),* }
            }
        })*
    };
}

structs! {
    Label { hierarchy categories }
    Range { low high }
    RegionRange { present range }
    Tuple { ranges }
    Answer { refusal carries value }
    LabelAnswer { answer label }
    RangeAnswer { answer range }
    TupleAnswer { answer tuple }
    Name { bytes length }
    Abbreviation { bytes length }
    Entry { names number label name abbreviation }
    EntryAnswer { answer entry }
    Caller { label read_override }
    Style { form variant }
    RangeWritten { answer status }
    Credentials { label range read_override write_override relabel }
    Object { r#type kind has_label has_tuple label tuple }
    TenantId { number }
    Slot { number }
    Tenant { ceiling clearance }
    Segment { label pages version }
    State { pool tenants segments }
    Outcome { state answer shown }
}

pub fn numbers_of(value: &impl Numbers) -> Vec<u64> {
    let mut numbers = Vec::new();
    value.put(&mut numbers);
    numbers
}

/// The same with one number changed, cut to what its field can hold.
pub fn one_off<T: Numbers>(random: &mut Random, value: &T) -> T {
    let mut numbers = numbers_of(value);
    let at = random.index(numbers.len());
    let before = numbers[at];
    numbers[at] = match random.below(7) {
        0 => before.wrapping_add(1),
        1 => before.wrapping_sub(1),
        2 => before ^ 1 << random.below(64),
        3 => before ^ 1 << random.below(8),
        4 => before ^ 1 << random.pick(&[8, 16, 32]),
        5 => 0,
        _ => random.number(),
    };
    T::take(&mut numbers.into_iter())
}
