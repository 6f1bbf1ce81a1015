//! A second implementation of the margin engine, in plain Rust from `docs/ACCOUNT.md` and `docs/MARGIN.md`.
//!
//! It keeps its account in maps and works in 128-bit numbers throughout, unlike the proved crates.

mod account;
mod assess;
mod inputs;
mod source;

pub use account::{Account, Entry, Kind};
pub use assess::{assess, Assessment, Refusal};
pub use inputs::{journal, settings, Call, Settings};
pub use source::Source;

/// A half goes away from zero; `unit` is above 0.
pub fn rounded_off(value: i128, unit: i128) -> i128 {
    let size = (2 * value.abs() + unit) / (2 * unit);
    if value < 0 {
        -size
    } else {
        size
    }
}
