//! A second implementation of the parameter file's check and of the margin engine, in plain Rust, and what the proved
//! programs are compared with it by: damaged files, random days, times.
//!
//! The rules it follows are in `docs/`: `RULES.md` for the check, `SOURCES.md`, `ACCOUNT.md` and `MARGIN.md` for the engine,
//! `PROGRAMS.md` for both command lines. Nothing here shares code with the proved crates.

pub mod arguments;
pub mod cases;
pub mod check;
pub mod days;
pub mod margin;
pub mod number;
pub mod programs;
pub mod random;
pub mod report;
pub mod sample;
