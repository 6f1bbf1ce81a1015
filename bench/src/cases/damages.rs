//! What can be wrong with a file, each with the fault that it must be answered by.

use super::draft::{Cell, Draft, Line, RowMade, HEADING};
use super::spelling;
use crate::check::{Fault, Question, HEADING_NAMES};
use crate::random::Random;

/// Damages a rich draft and tells the fault that follows, were it the only damage.
pub type Damage = fn(&mut Draft, &mut Random) -> Fault;

pub const ALL: &[(&str, Damage)] = &[
    ("2: lines missing", lines_missing),
    ("3: wrong name", wrong_name),
    ("3: blank line in the heading", blank_heading_line),
    ("3: wrong line 13", wrong_column_names),
    ("4: heading line without a value", value_missing),
    ("4: heading line with a cell too many", value_too_many),
    ("4: row of one cell", row_of_one_cell),
    ("4: row with a cell missing", row_cell_missing),
    ("4: row with a cell too many", row_cell_too_many),
    ("5: form of a heading value", heading_form),
    ("5: form of a stock", stock_form),
    ("5: form of a type", type_form),
    ("5: form of a row's cell", row_form),
    ("6: range of a heading value", heading_range),
    ("6: sum of the weights", weights_sum),
    ("6: tail count", tail_out_of_range),
    ("6: range of a stock or type", stock_or_type_range),
    ("6: range of a return", return_range),
    ("6: range of a flat rate", flat_rate_range),
    ("6: range of an entitlement", entitlement_range),
    ("7: return row repeated", return_row_repeated),
    ("7: flat rate repeated", flat_rate_repeated),
    ("7: entitlement repeated", entitlement_repeated),
    ("8: one return row without the other", return_row_alone),
    ("8: flat rate beside returns", flat_beside_returns),
    ("8: two stocks at fault", two_stocks_at_odds),
];

/// The fault on the line with this index.
fn fault(question: Question, index: usize) -> Fault {
    Fault { question, line: index as u32 + 1 }
}

/// The indices of all lines but the 13 of the heading; there are some in a rich draft.
fn any_row(draft: &Draft, random: &mut Random) -> usize {
    HEADING + random.index(draft.rows.len())
}

fn row_of(draft: &Draft, random: &mut Random, wanted: impl Fn(u32) -> bool) -> usize {
    *random.pick(&draft.lines_of(wanted))
}

fn made(draft: &Draft, index: usize) -> RowMade {
    draft.rows[index - HEADING]
}

// Question 2.

fn lines_missing(draft: &mut Draft, random: &mut Random) -> Fault {
    let left = random.between(1, 12) as usize;
    draft.lines_written = left;
    draft.ends_in_line_end = random.once_in(2);
    fault(Question::LinePresent, left)
}

// Question 3.

fn wrong_name(draft: &mut Draft, random: &mut Random) -> Fault {
    let line = random.index(12);
    let name = HEADING_NAMES[line];
    let other = HEADING_NAMES[(line + 1) % 12];
    let wrong = [
        name.to_lowercase(),
        format!("{name} "),
        format!(" {name}"),
        name[1..].into(),
        format!("{name}x"),
        other.into(),
        String::new(),
        format!("\u{feff}{name}"),
    ];
    let wrong = random.pick(&wrong).clone();
    draft.set(line, 0, wrong.as_bytes());
    if random.once_in(3) {
        draft.lines[line].cells.truncate(1);
        if draft.lines[line].cells[0].is_empty() {
            draft.set(line, 0, b"x");
        }
    }
    fault(Question::Name, line)
}

fn blank_heading_line(draft: &mut Draft, random: &mut Random) -> Fault {
    let line = random.index(HEADING);
    let blank = Line { cells: vec![Cell::new()], carriage_return: random.once_in(2) };
    if random.once_in(2) {
        draft.lines[line] = blank;
    } else {
        draft.lines.insert(line, blank);
        draft.lines.remove(HEADING);
    }
    fault(Question::Name, line)
}

fn wrong_column_names(draft: &mut Draft, random: &mut Random) -> Fault {
    let line = HEADING - 1;
    let cells = &mut draft.lines[line].cells;
    // An earlier damage may have left fewer cells.
    let scenarios = cells.len().saturating_sub(2);
    match random.below(7) {
        0 => {
            cells.pop();
        }
        1 => cells.push(Cell::new()),
        2 => cells.push((scenarios + 1).to_string().into_bytes()),
        3 if scenarios > 0 => {
            let place = 2 + random.index(scenarios);
            cells[place].insert(0, b'0');
        }
        4 => cells[0] = b"InstrumentID".to_vec(),
        5 if cells.len() > 1 => cells[1] = b"FieldType ".to_vec(),
        _ => cells.truncate(1),
    }
    fault(Question::Name, line)
}

// Question 4.

fn value_missing(draft: &mut Draft, random: &mut Random) -> Fault {
    let line = random.index(12);
    draft.lines[line].cells.truncate(1);
    fault(Question::Cells, line)
}

fn value_too_many(draft: &mut Draft, random: &mut Random) -> Fault {
    let line = random.index(12);
    let more: &[u8] = random.pick::<&[u8]>(&[b"", b"0", b"x", b","]);
    draft.lines[line].cells.push(more.to_vec());
    if random.once_in(4) {
        draft.set(line, 1, b"x");
    }
    fault(Question::Cells, line)
}

fn row_of_one_cell(draft: &mut Draft, random: &mut Random) -> Fault {
    let line = any_row(draft, random);
    let only: &[u8] = random.pick::<&[u8]>(&[b"", b"700", b"x", b"0", b"100000", b"\r", b" "]);
    draft.lines[line].cells = vec![only.to_vec()];
    fault(Question::Cells, line)
}

fn row_cell_missing(draft: &mut Draft, random: &mut Random) -> Fault {
    let line = row_of(draft, random, |field_type| matches!(field_type, 1 | 2 | 3 | 7));
    let needed = draft.needed_cells(made(draft, line).field_type);
    let left = random.between(2, needed as i64 - 1) as usize;
    draft.lines[line].cells.truncate(left);
    if left > 2 && random.once_in(3) {
        draft.set(line, 2 + random.index(left - 2), b"x");
    }
    fault(Question::Cells, line)
}

fn row_cell_too_many(draft: &mut Draft, random: &mut Random) -> Fault {
    let line = row_of(draft, random, |field_type| matches!(field_type, 1 | 2 | 3 | 7));
    let needed = draft.needed_cells(made(draft, line).field_type);
    let more: &[u8] = random.pick::<&[u8]>(&[b"0", b"x", b" ", b"-0.5", b"\r"]);
    let place = needed + random.index(3);
    draft.set(line, place, more);
    // Behind a CR something must follow, or it is taken for a part of the line end.
    if more == b"\r" {
        draft.set(line, place + 1, b"x");
    }
    if random.once_in(3) {
        draft.set(line, 2 + random.index(needed - 2), b"");
    }
    fault(Question::Cells, line)
}

// Question 5.

const NO_DECIMAL: &[&[u8]] = &[
    b"", b"-", b".", b".5", b"0.", b"-.5", b"+0.5", b"--0", b"00000", b"12345", b"0.12345678901", b"0.00000000000",
    b"1e0", b" 0", b"0 ", b"0..5", b"0.5.0", b"0.-5", b"0\r0", b"x", b"\xb2", b"0x1", b"0/1", b"0:1", b"0\0",
];
const NO_INTEGER: &[&[u8]] = &[
    b"", b"-", b"-1", b"+1", b"4.0", b"4.", b"0000000004", b"1234567890", b" 4", b"4 ", b"x", b"4x", b"\xb2", b"/4",
    b":4", b"4\0",
];
const NO_DATE: &[&[u8]] = &[
    b"", b"2/5", b"2/5/23", b"2/5/02023", b"002/5/2023", b"2/005/2023", b"/5/2023", b"2//2023", b"2/5/", b"2/5/2023/",
    b"2-5-2023", b"2023/5/2", b" 2/5/2023", b"2/5/2023 ", b"-2/5/2023", b"2/5/2O23", b"2.0/5/2023", b"20230502",
];

fn heading_form(draft: &mut Draft, random: &mut Random) -> Fault {
    let line = random.index(12);
    let wrong = match line {
        0 => random.pick(NO_DATE),
        3 | 4 | 5 | 8 | 9 | 10 => random.pick(NO_INTEGER),
        _ => random.pick(NO_DECIMAL),
    };
    draft.set(line, 1, wrong);
    fault(Question::Form, line)
}

fn stock_form(draft: &mut Draft, random: &mut Random) -> Fault {
    let line = any_row(draft, random);
    let wrong: &[u8] = random.pick::<&[u8]>(&[
        b"", b"0", b"00", b"0700", b"-7", b"+7", b"7.0", b" 7", b"7 ", b"x", b"1234567890", b"000000007", b"7\r",
    ]);
    draft.set(line, 0, wrong);
    match random.below(4) {
        0 => draft.set(line, 1, b"8"),
        1 => draft.lines[line].cells.truncate(2),
        _ => {}
    }
    fault(Question::Form, line)
}

fn type_form(draft: &mut Draft, random: &mut Random) -> Fault {
    let line = any_row(draft, random);
    let wrong = random.pick(NO_INTEGER);
    draft.set(line, 1, wrong);
    match random.below(4) {
        0 => draft.set(line, 0, b"100000"),
        1 => draft.lines[line].cells.truncate(2),
        _ => {}
    }
    fault(Question::Form, line)
}

fn row_form(draft: &mut Draft, random: &mut Random) -> Fault {
    let line = row_of(draft, random, |field_type| matches!(field_type, 1 | 2 | 3 | 7));
    let field_type = made(draft, line).field_type;
    let needed = draft.needed_cells(field_type);
    if random.once_in(2) {
        draft.set(line, 2 + random.index(needed - 2), b"5");
    }
    let place = 2 + random.index(needed - 2);
    let wrong = if field_type == 7 && place == 2 { random.pick(NO_INTEGER) } else { random.pick(NO_DECIMAL) };
    draft.set(line, place, wrong);
    fault(Question::Form, line)
}

// Question 6.

fn heading_range(draft: &mut Draft, random: &mut Random) -> Fault {
    let line = random.index(12);
    let wrong: &[&[u8]] = match line {
        0 => &[
            b"29/2/2023", b"31/12/1999", b"1/1/2100", b"0/1/2023", b"1/0/2023", b"1/13/2023", b"32/1/2023",
            b"31/4/2023", b"31/11/2023", b"30/2/2024", b"00/00/0000", b"29/02/2021", b"99/99/9999",
        ],
        1 | 2 | 6 | 7 => {
            &[b"1.0001", b"-0.0001", b"2", b"-1", b"0.00001", b"0.99995", b"9999.9999999999", b"1.0000000001"]
        }
        3 | 4 => &[b"0", b"4001", b"999999999", b"000000000"],
        5 => &[b"100001", b"999999999"],
        8 | 9 => &[b"3", b"5", b"0", b"40"],
        10 => &[b"0", b"1000001", b"999999999"],
        _ => &[b"1.0000000001", b"-0.0000000001", b"2", b"-1"],
    };
    let wrong = random.pick(wrong);
    draft.set(line, 1, wrong);
    fault(Question::Range, line)
}

fn weights_sum(draft: &mut Draft, random: &mut Random) -> Fault {
    let historical = spelling::value(random, 0, 10_000);
    let mut stress = spelling::value(random, 0, 10_000);
    if historical + stress == 10_000 {
        stress = if stress == 0 { 1 } else { stress - 1 };
    }
    let (historical, stress) = (spelling::decimal(random, historical, 4), spelling::decimal(random, stress, 4));
    draft.set(1, 1, &historical);
    draft.set(2, 1, &stress);
    fault(Question::Range, 2)
}

/// A level of 1 leaves no tail, and more than 100 scenarios at a low level leave one too long.
fn tail_out_of_range(draft: &mut Draft, random: &mut Random) -> Fault {
    let stress = random.once_in(2);
    let line = if stress { 7 } else { 6 };
    if random.once_in(2) {
        let scenarios = random.between(101, 4_000);
        let lowest_allowed = (10_000 * scenarios - 1_000_000 + scenarios - 1) / scenarios;
        let too_low = spelling::value(random, 0, lowest_allowed - 1);
        draft.set(if stress { 4 } else { 3 }, 1, &spelling::integer(random, scenarios as u32));
        draft.set(line, 1, &spelling::decimal(random, too_low, 4));
    } else {
        draft.set(line, 1, &spelling::decimal(random, 10_000, 4));
    }
    fault(Question::Range, line)
}

fn stock_or_type_range(draft: &mut Draft, random: &mut Random) -> Fault {
    let line = any_row(draft, random);
    if random.once_in(2) {
        let wrong: &[u8] = random.pick::<&[u8]>(&[b"100000", b"100001", b"999999999"]);
        draft.set(line, 0, wrong);
    } else {
        let wrong: &[u8] = random.pick::<&[u8]>(&[b"0", b"8", b"10", b"999999999", b"000000000", b"08"]);
        draft.set(line, 1, wrong);
    }
    match random.below(4) {
        0 => draft.lines[line].cells.truncate(2),
        1 => draft.lines[line].cells.push(b"x".to_vec()),
        _ => {}
    }
    fault(Question::Range, line)
}

fn return_range(draft: &mut Draft, random: &mut Random) -> Fault {
    let line = row_of(draft, random, |field_type| field_type <= 2);
    let needed = draft.needed_cells(made(draft, line).field_type);
    let wrong: &[u8] = random.pick::<&[u8]>(&[
        b"4.00000001", b"-4.00000001", b"5", b"-9999", b"0.123456789", b"-0.000000001", b"0.0000000001",
        b"4.0000000001", b"9999.9999999999", b"42", b"43",
    ]);
    draft.set(line, 2 + random.index(needed - 2), wrong);
    fault(Question::Range, line)
}

fn flat_rate_range(draft: &mut Draft, random: &mut Random) -> Fault {
    let line = row_of(draft, random, |field_type| field_type == 3);
    let wrong: &[u8] = random.pick::<&[u8]>(&[b"1.0001", b"-0.0001", b"2", b"0.00001", b"-1", b"0.1200000001"]);
    draft.set(line, 2, wrong);
    fault(Question::Range, line)
}

fn entitlement_range(draft: &mut Draft, random: &mut Random) -> Fault {
    let line = row_of(draft, random, |field_type| field_type == 7);
    let place = 2 + random.index(4);
    let wrong: &[&[u8]] = match place {
        2 => &[b"0", b"4", b"999999999", b"10"],
        3 => &[b"9999.0001", b"-0.0001", b"9999.9999", b"0.00001", b"-1"],
        _ => &[b"4.0001", b"-4.0001", b"0.00001", b"-0.00001", b"5", b"-9999"],
    };
    let wrong = random.pick(wrong);
    draft.set(line, place, wrong);
    fault(Question::Range, line)
}

// Question 7.

fn return_row_repeated(draft: &mut Draft, random: &mut Random) -> Fault {
    row_repeated(draft, random, |field_type| field_type <= 2)
}

fn flat_rate_repeated(draft: &mut Draft, random: &mut Random) -> Fault {
    row_repeated(draft, random, |field_type| field_type == 3)
}

fn entitlement_repeated(draft: &mut Draft, random: &mut Random) -> Fault {
    row_repeated(draft, random, |field_type| field_type == 7)
}

/// A second row of a stock and type somewhere behind the first, spelled and valued anew.
fn row_repeated(draft: &mut Draft, random: &mut Random, wanted: fn(u32) -> bool) -> Fault {
    let first = row_of(draft, random, wanted);
    let row = made(draft, first);
    let cells = draft.row_cells(random, row);
    let place = first + 1 + random.index(draft.lines.len() - first);
    draft.lines.insert(place, Line { cells, carriage_return: random.once_in(2) });
    draft.rows.insert(place - HEADING, row);
    fault(Question::FirstOfItsKind, place)
}

// Question 8.

/// One return row of a stock becomes an unread row.
fn return_row_alone(draft: &mut Draft, random: &mut Random) -> Fault {
    let dropped = row_of(draft, random, |field_type| field_type <= 2);
    let stock = made(draft, dropped).stock;
    draft.set(dropped, 1, b"4");
    draft.rows[dropped - HEADING].field_type = 4;
    first_row_of(draft, stock)
}

/// A stock with returns gets a flat rate at any place.
fn flat_beside_returns(draft: &mut Draft, random: &mut Random) -> Fault {
    let stock = made(draft, row_of(draft, random, |field_type| field_type <= 2)).stock;
    let row = RowMade { stock, field_type: 3, entitlement_type: 0 };
    let cells = draft.row_cells(random, row);
    let place = HEADING + random.index(draft.rows.len() + 1);
    draft.lines.insert(place, Line { cells, carriage_return: random.once_in(2) });
    draft.rows.insert(place - HEADING, row);
    first_row_of(draft, stock)
}

/// Two stocks with a fault of their own each; the earlier first row is named.
fn two_stocks_at_odds(draft: &mut Draft, random: &mut Random) -> Fault {
    let stock = made(draft, row_of(draft, random, |field_type| field_type <= 2)).stock;
    let another =
        draft.rows.iter().find(|row| row.field_type <= 2 && row.stock != stock).map_or(stock, |row| row.stock);
    for (stock, field_type) in [(stock, 1), (another, 2)] {
        if let Some(row) = draft.rows.iter().position(|row| row.stock == stock && row.field_type == field_type) {
            draft.set(HEADING + row, 1, b"4");
            draft.rows[row].field_type = 4;
        }
    }
    let (one, other) = (first_row_of(draft, stock), first_row_of(draft, another));
    if one.line < other.line {
        one
    } else {
        other
    }
}

/// The first row of types 1 to 3 of the stock, which question 8 names.
fn first_row_of(draft: &Draft, stock: u32) -> Fault {
    let first = draft.rows.iter().position(|row| row.stock == stock && row.field_type <= 3).unwrap_or(0);
    fault(Question::RowsTogether, HEADING + first)
}
