//! Settings files and journals.

use crate::number;

/// What an account is opened with. Amounts are whole dollars, the multiplier counts hundredths, the floor rate
/// ten-thousandths.
#[derive(Clone, Debug)]
pub struct Settings {
    pub multiplier: i128,
    pub credit: i128,
    pub floor_rate: i128,
    pub liquidation: i128,
    pub structured_product: i128,
    pub position_limit: i128,
    pub credit_risk: i128,
    pub ad_hoc: i128,
    pub ipo: Vec<u32>,
    /// Is every IPO stock within 0 to 99,999?
    ipo_in_range: bool,
}

impl Settings {
    pub fn in_range(&self) -> bool {
        let amounts = [self.liquidation, self.structured_product, self.position_limit, self.credit_risk, self.ad_hoc];
        (100..=400).contains(&self.multiplier)
            && (0..=1_000_000_000).contains(&self.credit)
            && (0..=10_000).contains(&self.floor_rate)
            && amounts.iter().all(|amount| (0..=1_000_000_000_000).contains(amount))
            && self.ipo_in_range
    }
}

/// A journal's line.
#[derive(Clone, Copy, Debug)]
pub enum Call {
    Post([i64; 6]),
    Cancel(i64),
}

/// An optional minus and 1 to 18 digits.
fn whole(cell: &[u8]) -> Option<i64> {
    let (negative, digits) = match cell {
        [b'-', digits @ ..] => (true, digits),
        digits => (false, digits),
    };
    if digits.is_empty() || digits.len() > 18 || !digits.iter().all(u8::is_ascii_digit) {
        return None;
    }
    let size = digits.iter().fold(0i64, |size, digit| size * 10 + i64::from(digit - b'0'));
    Some(if negative { -size } else { size })
}

/// The lines of a text, without their ends.
fn lines(bytes: &[u8]) -> Vec<&[u8]> {
    let mut lines: Vec<&[u8]> = bytes.split(|&byte| byte == b'\n').collect();
    let last = lines.pop().unwrap_or(b"");
    for line in &mut lines {
        *line = line.strip_suffix(b"\r").unwrap_or(line);
    }
    if !last.is_empty() {
        lines.push(last);
    }
    lines
}

/// The settings, or the number of the first line at fault.
pub fn settings(bytes: &[u8]) -> Result<Settings, usize> {
    const NAMES: [&str; 9] = [
        "Multiplier", "Credit", "Floor_Rate", "Liquidation", "Structured_Product", "Position_Limit", "Credit_Risk",
        "Ad_Hoc", "IPO",
    ];
    let lines = lines(bytes);
    let mut values = [0i128; 8];
    let mut ipo = Vec::new();
    let mut ipo_in_range = true;
    for (place, name) in NAMES.iter().enumerate() {
        let fault = place + 1;
        let line = lines.get(place).ok_or(fault)?;
        let cells: Vec<&[u8]> = line.split(|&byte| byte == b',').collect();
        if cells[0] != name.as_bytes() {
            return Err(fault);
        }
        if place == 8 {
            if cells.len() > 17 {
                return Err(fault);
            }
            for cell in &cells[1..] {
                let stock = whole(cell).ok_or(fault)?;
                ipo_in_range &= (0..=99_999).contains(&stock);
                ipo.push(u32::try_from(stock).unwrap_or(u32::MAX));
            }
            continue;
        }
        let [_, value] = cells[..] else { return Err(fault) };
        let places = match place {
            0 => Some(2),
            2 => Some(4),
            _ => None,
        };
        values[place] = match places {
            Some(places) => number::decimal(value).and_then(|decimal| decimal.scaled(places)).ok_or(fault)?.into(),
            None => whole(value).ok_or(fault)?.into(),
        };
    }
    if lines.len() > NAMES.len() {
        return Err(NAMES.len() + 1);
    }
    let [multiplier, credit, floor_rate, liquidation, structured_product, position_limit, credit_risk, ad_hoc] = values;
    Ok(Settings {
        multiplier,
        credit,
        floor_rate,
        liquidation,
        structured_product,
        position_limit,
        credit_risk,
        ad_hoc,
        ipo,
        ipo_in_range,
    })
}

/// The calls of a journal, or the number of the first line at fault.
pub fn journal(bytes: &[u8]) -> Result<Vec<Call>, usize> {
    let mut calls = Vec::new();
    for (place, line) in lines(bytes).into_iter().enumerate() {
        calls.push(call(line).ok_or(place + 1)?);
    }
    Ok(calls)
}

fn call(line: &[u8]) -> Option<Call> {
    let cells: Vec<&[u8]> = line.split(|&byte| byte == b',').collect();
    match cells[..] {
        [b"post", a, b, c, d, e, f] => {
            Some(Call::Post([whole(a)?, whole(b)?, whole(c)?, whole(d)?, whole(e)?, whole(f)?]))
        }
        [b"cancel", number] => Some(Call::Cancel(whole(number)?)),
        _ => None,
    }
}
