//! Labels for mandatory access control, a reference monitor, and an account of shared memory segments.
//!
//! The rules are written in Rattle, a verified language, and linked as `liblurmenize.a`; this crate has none of its own. It turns Rust's types into
//! those of the C interface ([`raw`]) and back. `docs/LINKING.md` says how to build, and what is proved.
//!
//! - [`Label`], [`Range`], [`Tuple`]: what a label is, and what a set of labels is.
//! - `write_line` and `read_line` of each, [`Entry`], [`line_kind`]: hex lines.
//! - [`AliasTable`]: labels and ranges as text, by the names of an alias table, for a [`Caller`].
//! - [`check`]: the monitor's decision for a [`Caller`], about [`Credentials`], an [`Object`] and [`Intents`].
//! - [`State`]: tenants, their ceilings, and their segments.
//!
//! Types hold what is invalid too, so that input can be passed as it is: functions test it at each call, and no value stops them. What is refused is
//! a [`Refusal`], never a value. Nothing is cut on the way: what a type has no room for is refused where it is converted (`try_from`), and so are the
//! numbers of an unsound state, so that a [`State`] is always sound.
//!
//! ```
//! use lurmenize::{Label, Refusal};
//!
//! let a = Label::new(20, &[1]);
//! let b = Label::new(30, &[2]);
//! assert_eq!(a.upper_bound(&b)?, Label::new(30, &[1, 2]));
//! assert_eq!(a.lower_bound(&b)?, Label::new(20, &[]));
//! # Ok::<(), Refusal>(())
//! ```
#![deny(missing_docs)]
#![deny(unsafe_op_in_unsafe_fn)]

#[cfg(not(all(target_arch = "x86_64", target_os = "linux")))]
compile_error!("liblurmenize.a is for x86-64 Linux");

mod caller;
mod label;
mod line;
mod monitor;
mod range;
pub mod raw;
mod refusal;
mod segments;
mod text;

pub use caller::Caller;
pub use label::{Categories, Label, Region};
pub use line::{line_kind, Entry, LineKind, Named};
pub use monitor::{check, Class, Credentials, Decision, FileKind, Intents, Object};
pub use range::{Range, Tuple};
pub use refusal::Refusal;
pub use segments::{Segment, Slot, State, TenantId};
pub use text::{AliasTable, Ends, Form, Style, Variant};

/// The version of the library that is linked: a million times the major number, a thousand times the minor one, and the patch. It should be
/// [`raw::VERSION`], for which this crate is made.
///
/// ```
/// assert_eq!(lurmenize::version(), lurmenize::raw::VERSION);
/// ```
pub fn version() -> u64 {
    raw::lurm_version()
}

/// The Rust examples of the page are run.
#[cfg(doctest)]
#[doc = include_str!("../../../docs/LINKING.md")]
struct LinkingPage;
