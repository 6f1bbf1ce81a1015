//! A valid file kept as lines of cells, so that it can be damaged before it is written out.

use super::spelling;
use crate::check::{HEADING_NAMES, MAX_STOCK};
use crate::random::Random;

pub type Cell = Vec<u8>;

/// A line's cells, and whether it ends in CR LF instead of LF.
#[derive(Clone)]
pub struct Line {
    pub cells: Vec<Cell>,
    pub carriage_return: bool,
}

/// What a row was made as.
#[derive(Clone, Copy, PartialEq, Eq)]
pub struct RowMade {
    pub stock: u32,
    pub field_type: u32,
    pub entitlement_type: u32,
}

pub struct Draft {
    pub lines: Vec<Line>,
    /// At most so many lines are written out.
    pub lines_written: usize,
    pub ends_in_line_end: bool,
    pub hvar_scenarios: u32,
    pub svar_scenarios: u32,
    /// What was made of each line from line 14 on.
    pub rows: Vec<RowMade>,
}

/// The number of lines ahead of the rows.
pub const HEADING: usize = 13;

impl Draft {
    /// A file with some rows of any kind, or none.
    pub fn any(random: &mut Random) -> Draft {
        let most = random.between(0, 4);
        Draft::with_rows(random, 0, most)
    }

    /// A file with two portfolio stocks, two flat ones and two with entitlements at least, and unread rows.
    pub fn rich(random: &mut Random) -> Draft {
        Draft::with_rows(random, 2, 4)
    }

    fn with_rows(random: &mut Random, least: i64, most: i64) -> Draft {
        let (hvar, svar) = (scenario_count(random), scenario_count(random));
        let mut draft = Draft {
            lines: Vec::new(),
            lines_written: usize::MAX,
            ends_in_line_end: !random.once_in(4),
            hvar_scenarios: hvar,
            svar_scenarios: svar,
            rows: Vec::new(),
        };
        draft.add_heading(random);
        draft.add_rows(random, least, most);
        let always = random.once_in(4);
        let sometimes = random.once_in(4);
        for line in &mut draft.lines {
            line.carriage_return = always || (sometimes && random.once_in(2));
        }
        draft
    }

    fn add_heading(&mut self, random: &mut Random) {
        let weight = spelling::value(random, 0, 10_000);
        let (day, month, year) = *random.pick(&[
            (2, 5, 2023),
            (29, 2, 2024),
            (1, 1, 2000),
            (31, 12, 2099),
            (28, 2, 2023),
            (30, 9, 2031),
            (9, 10, 2044),
        ]);
        let (hvar_level, svar_level) = (level(random, self.hvar_scenarios), level(random, self.svar_scenarios));
        let stress_tests = spelling::value(random, 0, 100_000) as u32;
        let step = spelling::value(random, 1, 1_000_000) as u32;
        let holiday = spelling::value(random, 0, 10_000_000_000);
        let values = [
            spelling::date(random, day, month, year),
            spelling::decimal(random, weight, 4),
            spelling::decimal(random, 10_000 - weight, 4),
            spelling::integer(random, self.hvar_scenarios),
            spelling::integer(random, self.svar_scenarios),
            spelling::integer(random, stress_tests),
            spelling::decimal(random, hvar_level, 4),
            spelling::decimal(random, svar_level, 4),
            spelling::integer(random, 4),
            spelling::integer(random, 4),
            spelling::integer(random, step),
            spelling::decimal(random, holiday, 10),
        ];
        for (name, value) in HEADING_NAMES.iter().zip(values) {
            self.push(vec![name.as_bytes().to_vec(), value]);
        }
        let mut names = vec![b"InstrumentId".to_vec(), b"FieldType".to_vec()];
        names.extend(
            (1..=self.hvar_scenarios.max(self.svar_scenarios)).map(|scenario| scenario.to_string().into_bytes()),
        );
        self.push(names);
    }

    fn push(&mut self, cells: Vec<Cell>) {
        self.lines.push(Line { cells, carriage_return: false });
    }

    /// Between `least` and `most` stocks of each tier and of entitlements, and unread rows, in any order.
    fn add_rows(&mut self, random: &mut Random, least: i64, most: i64) {
        let mut rows = Vec::new();
        let mut stocks = different_stocks(random, 2 * most as usize);
        let mut made = |stock, field_type, entitlement_type| rows.push(RowMade { stock, field_type, entitlement_type });
        for _ in 0..random.between(least, most) {
            let stock = stocks.pop().unwrap_or(1);
            made(stock, 1, 0);
            made(stock, 2, 0);
        }
        for _ in 0..random.between(least, most) {
            made(stocks.pop().unwrap_or(2), 3, 0);
        }
        let entitled = random.between(least, least + 1) as usize;
        for stock in different_stocks(random, entitled) {
            for entitlement_type in 1..=3 {
                if random.once_in(2) || entitlement_type == 2 {
                    made(stock, 7, entitlement_type);
                }
            }
        }
        for _ in 0..random.between(least, most) {
            made(random.between(1, MAX_STOCK.into()) as u32, random.between(4, 6) as u32, 0);
        }
        random.shuffle(&mut rows);
        for row in rows {
            let cells = self.row_cells(random, row);
            self.push(cells);
            self.rows.push(row);
        }
    }

    /// A row's cells in legal spellings, with empty cells at its end now and then.
    pub fn row_cells(&self, random: &mut Random, row: RowMade) -> Vec<Cell> {
        let mut cells = vec![row.stock.to_string().into_bytes(), spelling::integer(random, row.field_type)];
        let mut decimal = |low, high, places| {
            let value = spelling::value(random, low, high);
            spelling::decimal(random, value, places)
        };
        match row.field_type {
            1 => cells.extend((0..self.hvar_scenarios).map(|_| decimal(-400_000_000, 400_000_000, 8))),
            2 => cells.extend((0..self.svar_scenarios).map(|_| decimal(-400_000_000, 400_000_000, 8))),
            3 => cells.push(decimal(0, 10_000, 4)),
            7 => {
                let price = decimal(0, 99_990_000, 4);
                let percentages = [decimal(-40_000, 40_000, 4), decimal(-40_000, 40_000, 4)];
                cells.push(spelling::integer(random, row.entitlement_type));
                cells.push(price);
                cells.extend(percentages);
            }
            _ => {
                let words: [&[u8]; 10] =
                    [b"", b"0.5", b"x", b"-", b"99999999999", b"\r", b" ", b"\"a\"", b"\xff\x00", b"1876"];
                cells.extend((0..random.below(5)).map(|_| random.pick(&words).to_vec()));
                // A CR at the end of the last cell would be taken for a part of the line end.
                if cells.last().is_some_and(|cell| cell.ends_with(b"\r")) {
                    cells.push(b"end".to_vec());
                }
            }
        }
        if random.once_in(4) {
            cells.extend((0..random.below(4)).map(|_| Cell::new()));
        }
        cells
    }

    /// The number of cells that a row needs, stock and type among them.
    pub fn needed_cells(&self, field_type: u32) -> usize {
        match field_type {
            1 => 2 + self.hvar_scenarios as usize,
            2 => 2 + self.svar_scenarios as usize,
            3 => 3,
            7 => 6,
            _ => 2,
        }
    }

    /// The indices in `lines` of the rows made with a type that `wanted` takes.
    pub fn lines_of(&self, wanted: impl Fn(u32) -> bool) -> Vec<usize> {
        (0..self.rows.len()).filter(|&row| wanted(self.rows[row].field_type)).map(|row| HEADING + row).collect()
    }

    /// Puts a cell in its place; cells are added where the line has too few.
    pub fn set(&mut self, line: usize, cell: usize, text: &[u8]) {
        let cells = &mut self.lines[line].cells;
        while cells.len() <= cell {
            cells.push(Cell::new());
        }
        cells[cell] = text.to_vec();
    }

    /// The file itself.
    pub fn bytes(&self) -> Vec<u8> {
        let mut bytes = Vec::new();
        let written = self.lines.len().min(self.lines_written);
        for (place, line) in self.lines[..written].iter().enumerate() {
            bytes.extend(line.cells.join(&b','));
            let last = place + 1 == written;
            // A last line without any bytes is only there if its line end is.
            if !last || self.ends_in_line_end || line.cells.concat().is_empty() {
                bytes.extend_from_slice(if line.carriage_return { b"\r\n" } else { b"\n" });
            }
        }
        bytes
    }
}

/// Mostly a few scenarios, so that files stay small.
fn scenario_count(random: &mut Random) -> u32 {
    match random.below(12) {
        0 => 1,
        1 => random.between(9, 130) as u32,
        _ => random.between(1, 6) as u32,
    }
}

/// A level in ten-thousandths that leaves a tail of 1 to 100.
fn level(random: &mut Random, scenarios: u32) -> i64 {
    let lowest = 10_000 - (1_000_000 / i64::from(scenarios)).min(10_000);
    spelling::value(random, lowest, 9_999)
}

/// So many different stock numbers, the least and the greatest often among them.
fn different_stocks(random: &mut Random, count: usize) -> Vec<u32> {
    let mut stocks = Vec::new();
    while stocks.len() < count {
        let stock = spelling::value(random, 1, MAX_STOCK.into()) as u32;
        if !stocks.contains(&stock) {
            stocks.push(stock);
        }
    }
    stocks
}
