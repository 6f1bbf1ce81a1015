//! The bytes of a file taken apart into lines and cells, from the front to the end.

use super::{Fault, Question};
use crate::number::{leading_decimal, Decimal};

/// A place in the bytes, and the number of the line it is in.
pub struct Reader<'a> {
    bytes: &'a [u8],
    at: usize,
    line: u32,
}

impl<'a> Reader<'a> {
    pub fn new(bytes: &'a [u8]) -> Self {
        Reader { bytes, at: 0, line: 1 }
    }

    pub fn line(&self) -> u32 {
        self.line
    }

    /// The number of bytes that are still to come.
    pub fn bytes_left(&self) -> usize {
        self.bytes.len() - self.at
    }

    /// A fault on the present line.
    pub fn fault(&self, question: Question) -> Fault {
        Fault { question, line: self.line }
    }

    /// Is there no further line? Asked at the front of a line.
    pub fn is_at_end(&self) -> bool {
        self.at == self.bytes.len()
    }

    /// Does the present cell end here: at a comma, at a line end, or where the bytes end?
    fn is_at_cell_end(&self) -> bool {
        match self.bytes.get(self.at) {
            None | Some(b',' | b'\n') => true,
            Some(b'\r') => self.bytes.get(self.at + 1) == Some(&b'\n'),
            Some(_) => false,
        }
    }

    /// The bytes up to the first of `stops` or the line's end, whichever comes first.
    fn take_until(&mut self, stops: impl Fn(u8) -> bool) -> &'a [u8] {
        let rest = &self.bytes[self.at..];
        let mut length = rest.iter().position(|&byte| byte == b'\n' || stops(byte)).unwrap_or(rest.len());
        if rest.get(length) == Some(&b'\n') && length > 0 && rest[length - 1] == b'\r' {
            length -= 1;
        }
        self.at += length;
        &rest[..length]
    }

    /// The present cell, up to its comma or the line's end.
    pub fn cell(&mut self) -> &'a [u8] {
        self.take_until(|byte| byte == b',')
    }

    /// What is left of the present line, without its line end.
    pub fn rest_of_line(&mut self) -> &'a [u8] {
        self.take_until(|_| false)
    }

    /// Steps over the comma behind a cell; false where the line ends instead.
    pub fn next_cell(&mut self) -> bool {
        let comma = self.bytes.get(self.at) == Some(&b',');
        self.at += usize::from(comma);
        comma
    }

    /// Steps over the line end behind the line's last cell.
    pub fn next_line(&mut self) {
        self.at += match self.bytes.get(self.at) {
            Some(b'\r') => 2,
            Some(_) => 1,
            None => 0,
        };
        self.line += 1;
    }

    /// The present cell as a decimal, if it has that form. The cell is taken either way.
    #[inline]
    pub fn decimal(&mut self) -> Option<Decimal> {
        if let Some((value, length)) = leading_decimal(&self.bytes[self.at..]) {
            self.at += length;
            if self.is_at_cell_end() {
                return Some(value);
            }
        }
        self.cell();
        None
    }

    /// Asks that only empty cells follow on the line.
    pub fn only_empty_cells_follow(&mut self) -> Result<(), Fault> {
        while self.next_cell() {
            if !self.cell().is_empty() {
                return Err(self.fault(Question::Cells));
            }
        }
        Ok(())
    }
}
