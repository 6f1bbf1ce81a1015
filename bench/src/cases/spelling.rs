//! The legal spellings of a value, one chosen at random.

use crate::random::Random;

/// A decimal of `value` × 10^-`places`: zeros in front up to four digits, zeros behind up to ten, -0 too.
pub fn decimal(random: &mut Random, value: i64, places: usize) -> Vec<u8> {
    let unit = 10u64.pow(places as u32);
    let size = value.unsigned_abs();
    let mut whole = (size / unit).to_string();
    let mut fraction = if places == 0 { String::new() } else { format!("{:0places$}", size % unit) };
    while fraction.ends_with('0') {
        fraction.pop();
    }
    if random.once_in(4) {
        whole = format!("{whole:0>width$}", width = random.between(1, 4) as usize);
    }
    if random.once_in(3) {
        let width = random.between(0, 10) as usize;
        fraction = format!("{fraction:0<width$}");
    }
    let minus = if value < 0 || (value == 0 && random.once_in(3)) { "-" } else { "" };
    let point = if fraction.is_empty() { "" } else { "." };
    format!("{minus}{whole}{point}{fraction}").into_bytes()
}

/// An integer with zeros in front, up to nine digits.
pub fn integer(random: &mut Random, value: u32) -> Vec<u8> {
    let width = if random.once_in(4) { random.between(1, 9) as usize } else { 1 };
    format!("{value:0>width$}").into_bytes()
}

/// A day, month and year; day and month with one digit or two.
pub fn date(random: &mut Random, day: u32, month: u32, year: u32) -> Vec<u8> {
    let (day_width, month_width) = (random.between(1, 2) as usize, random.between(1, 2) as usize);
    format!("{day:0>day_width$}/{month:0>month_width$}/{year}").into_bytes()
}

/// A number from `low` to `high`, often one of the two or next to it.
pub fn value(random: &mut Random, low: i64, high: i64) -> i64 {
    match random.below(8) {
        0 => low,
        1 => high,
        2 if low < high => *random.pick(&[low + 1, high - 1]),
        3 if low <= 0 && high >= 0 => 0,
        _ => random.between(low, high),
    }
}
