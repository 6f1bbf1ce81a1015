//! Line 14 and after: the rows.

use super::cells::Reader;
use super::checked::{CheckedFile, Entitlement, EntitlementType};
use super::{Fault, Parameters, Question, MAX_STOCK};
use crate::number::{self, Decimal};

const RETURN_PLACES: usize = 8;
const MAX_RETURN_HUNDRED_MILLIONTHS: i64 = 400_000_000;
const WHOLE_IN_TEN_THOUSANDTHS: i64 = 10_000;
const MAX_PRICE_TEN_THOUSANDTHS: i64 = 99_990_000;
const MAX_PERCENTAGE_TEN_THOUSANDTHS: i64 = 40_000;

/// Reads every row, then asks which rows stand together.
pub fn read(reader: &mut Reader, parameters: Parameters) -> Result<CheckedFile, Fault> {
    let mut file = CheckedFile::without_rows(parameters, reader.bytes_left());
    while !reader.is_at_end() {
        read_row(reader, &mut file)?;
        reader.next_line();
    }
    match first_line_at_odds(&file) {
        Some(line) => Err(Fault { question: Question::RowsTogether, line }),
        None => Ok(file),
    }
}

/// The earliest line of a stock whose rows do not stand together.
fn first_line_at_odds(file: &CheckedFile) -> Option<u32> {
    file.stocks.iter().filter(|rows| !rows.stand_together()).map(|rows| rows.first_line).min()
}

fn read_row(reader: &mut Reader, file: &mut CheckedFile) -> Result<(), Fault> {
    let stock_cell = reader.cell();
    if !reader.next_cell() {
        return Err(reader.fault(Question::Cells));
    }
    let (stock, field_type) = match (number::stock(stock_cell), number::integer(reader.cell())) {
        (Some(stock), Some(field_type)) => (stock, field_type),
        _ => return Err(reader.fault(Question::Form)),
    };
    if stock > MAX_STOCK {
        return Err(reader.fault(Question::Range));
    }
    match field_type {
        1 | 2 => read_returns(reader, file, stock, field_type == 1),
        3 => read_flat_rate(reader, file, stock),
        4..=6 => {
            reader.rest_of_line();
            Ok(())
        }
        7 => read_entitlement(reader, file, stock),
        _ => Err(reader.fault(Question::Range)),
    }
}

/// A row of types 1 and 2: a return for each scenario.
fn read_returns(reader: &mut Reader, file: &mut CheckedFile, stock: u32, historical: bool) -> Result<(), Fault> {
    let parameters = file.parameters();
    let count = if historical { parameters.hvar_scenarios } else { parameters.svar_scenarios };
    let start = file.returns.len() as u32;
    read_return_cells(reader, count, &mut file.returns)?;
    let line = reader.line();
    let rows = file.rows_mut(stock);
    let place = if historical { &mut rows.historical } else { &mut rows.stress };
    if place.is_some() {
        return Err(reader.fault(Question::FirstOfItsKind));
    }
    *place = Some(start);
    if rows.first_line == 0 {
        rows.first_line = line;
    }
    Ok(())
}

/// Reads `count` returns and keeps them. All cells are counted before a form matters, and all forms before a range.
fn read_return_cells(reader: &mut Reader, count: u32, returns: &mut Vec<i32>) -> Result<(), Fault> {
    let mut forms = true;
    let mut ranges = true;
    for _ in 0..count {
        if !reader.next_cell() {
            return Err(reader.fault(Question::Cells));
        }
        match reader.decimal() {
            None => forms = false,
            Some(value) => match return_value(value) {
                Some(worth) => returns.push(worth),
                None => ranges = false,
            },
        }
    }
    reader.only_empty_cells_follow()?;
    answered(reader, forms, ranges)
}

/// A return in hundred-millionths, if it is in range and places.
fn return_value(value: Decimal) -> Option<i32> {
    value.within(RETURN_PLACES, -MAX_RETURN_HUNDRED_MILLIONTHS, MAX_RETURN_HUNDRED_MILLIONTHS).map(|worth| worth as i32)
}

/// The answer of a row whose cells are all there: its forms first, then its ranges.
fn answered(reader: &Reader, forms: bool, ranges: bool) -> Result<(), Fault> {
    if !forms {
        Err(reader.fault(Question::Form))
    } else if !ranges {
        Err(reader.fault(Question::Range))
    } else {
        Ok(())
    }
}

/// Exactly `N` cells behind the row's type; only empty ones may follow.
fn read_cells<'a, const N: usize>(reader: &mut Reader<'a>) -> Result<[&'a [u8]; N], Fault> {
    let mut cells: [&[u8]; N] = [&[]; N];
    for cell in &mut cells {
        if !reader.next_cell() {
            return Err(reader.fault(Question::Cells));
        }
        *cell = reader.cell();
    }
    reader.only_empty_cells_follow()?;
    Ok(cells)
}

/// A row of type 3: a flat rate.
fn read_flat_rate(reader: &mut Reader, file: &mut CheckedFile, stock: u32) -> Result<(), Fault> {
    let [rate] = read_cells(reader)?;
    let rate = number::decimal(rate).ok_or(reader.fault(Question::Form))?;
    let rate = rate.within(4, 0, WHOLE_IN_TEN_THOUSANDTHS).ok_or(reader.fault(Question::Range))?;
    let rows = file.rows_mut(stock);
    if rows.flat_rate_ten_thousandths.is_some() {
        return Err(reader.fault(Question::FirstOfItsKind));
    }
    rows.flat_rate_ten_thousandths = Some(rate as u32);
    if rows.first_line == 0 {
        rows.first_line = reader.line();
    }
    Ok(())
}

/// A row of type 7: an entitlement's type, its price, its short and its long percentage.
fn read_entitlement(reader: &mut Reader, file: &mut CheckedFile, stock: u32) -> Result<(), Fault> {
    let [kind, price, short, long] = read_cells(reader)?;
    let forms = (number::integer(kind), number::decimal(price), number::decimal(short), number::decimal(long));
    let (Some(kind), Some(price), Some(short), Some(long)) = forms else {
        return Err(reader.fault(Question::Form));
    };
    let price = price.within(4, 0, MAX_PRICE_TEN_THOUSANDTHS);
    let ranges = (EntitlementType::from_number(kind), price, percentage(short), percentage(long));
    let (Some(kind), Some(price), Some(short_percentage), Some(long_percentage)) = ranges else {
        return Err(reader.fault(Question::Range));
    };
    let entitlement = Entitlement { price: price as u32, short_percentage, long_percentage };
    if !file.keep_entitlement(stock, kind, entitlement) {
        return Err(reader.fault(Question::FirstOfItsKind));
    }
    Ok(())
}

/// The size of a percentage in ten-thousandths, if it is in range and places.
fn percentage(value: Decimal) -> Option<u32> {
    value
        .within(4, -MAX_PERCENTAGE_TEN_THOUSANDTHS, MAX_PERCENTAGE_TEN_THOUSANDTHS)
        .map(|worth| worth.unsigned_abs() as u32)
}
