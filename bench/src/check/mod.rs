//! The check of a parameter file: one pass over its bytes, and the first question answered no ends it.

mod cells;
mod checked;
mod heading;
mod rows;
#[cfg(test)]
mod tests;

pub use checked::{CheckedFile, Entitlement, EntitlementType, ReturnSet, Tier};
pub use heading::{tail_count, Parameters, HEADING_NAMES};

/// The longest file that is read, in bytes.
pub const MAX_FILE_BYTES: usize = 67_108_864;
/// The greatest stock number.
pub const MAX_STOCK: u32 = 99_999;
/// The number of lines ahead of the rows.
pub const HEADING_LINES: u32 = 13;

/// What is asked of a file, in the order of the questions' numbers.
#[derive(Clone, Copy, Debug, PartialEq, Eq, PartialOrd, Ord)]
pub enum Question {
    Length = 1,
    LinePresent = 2,
    Name = 3,
    Cells = 4,
    Form = 5,
    Range = 6,
    FirstOfItsKind = 7,
    RowsTogether = 8,
}

impl Question {
    pub fn number(self) -> u32 {
        self as u32
    }
}

/// The first question answered no, and the line it is answered no on; 0 where it is the length.
#[derive(Clone, Copy, Debug, PartialEq, Eq)]
pub struct Fault {
    pub question: Question,
    pub line: u32,
}

/// Asks all questions of the bytes.
pub fn check(bytes: &[u8]) -> Result<CheckedFile, Fault> {
    if bytes.is_empty() || bytes.len() > MAX_FILE_BYTES {
        return Err(Fault { question: Question::Length, line: 0 });
    }
    let mut reader = cells::Reader::new(bytes);
    let parameters = heading::read(&mut reader)?;
    rows::read(&mut reader, parameters)
}
