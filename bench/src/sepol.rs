//! libsepol's levels and its dominance, by way of sepol.c.

use crate::ordinary::label::Label;
use std::ptr::NonNull;

#[repr(C)]
struct RawLevel {
    _opaque: [u8; 0],
}

extern "C" {
    fn bench_sepol_level(hierarchy: u32, categories: *const u8, count: usize) -> *mut RawLevel;
    fn bench_sepol_free(level: *mut RawLevel);
    fn bench_sepol_dominates(a: *const RawLevel, b: *const RawLevel) -> i32;
}

/// A label as libsepol holds it: its categories are a list of nodes of 64 bits.
pub struct Level(NonNull<RawLevel>);

impl Level {
    pub fn new(label: &Label) -> Level {
        let categories: Vec<u8> = label.category_numbers().collect();
        // SAFETY: pointer and length are those of the numbers.
        let level = unsafe { bench_sepol_level(label.hierarchy.into(), categories.as_ptr(), categories.len()) };
        Level(NonNull::new(level).expect("memory for a level"))
    }

    pub fn dominates(&self, other: &Level) -> bool {
        // SAFETY: both levels were made above and live.
        unsafe { bench_sepol_dominates(self.0.as_ptr(), other.0.as_ptr()) != 0 }
    }
}

impl Drop for Level {
    fn drop(&mut self) {
        // SAFETY: the level was made above and is not used any more.
        unsafe { bench_sepol_free(self.0.as_ptr()) }
    }
}
