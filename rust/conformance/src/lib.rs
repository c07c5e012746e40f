//! What the desk is held against: a small program that keeps a plain list of latest places, each with its minute, and the
//! rectangles that are watched.
//!
//! [`Plain`] answers calls from these alone. [`Both`] hands every call to desk and list and compares, with the plain rule for
//! what waits and what is stale.
//! [`Xorshift`] makes the same run every time.
#![forbid(unsafe_code)]

mod both;
mod file;
mod plain;
mod rule;
mod xorshift;

pub use both::Both;
pub use file::{in_order, line_text, lines_of, FileLine};
pub use plain::{Fix, Plain, Told};
pub use xorshift::Xorshift;
