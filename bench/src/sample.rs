//! A parameter file in the shape of the one that the clearing house publishes, of any size, from a seed.
//!
//! Rows come as the clearing house prints them: type after type, and within a type by stock.

use crate::check::{HEADING_NAMES, MAX_STOCK};
use crate::random::Random;
use std::fs::{self, File};
use std::io::{BufWriter, Result, Write};
use std::path::{Path, PathBuf};

/// How large the file is to be, and from what seed.
#[derive(Clone, Copy, Debug)]
pub struct Shape {
    pub seed: u64,
    pub portfolio_stocks: usize,
    pub hvar_scenarios: usize,
    pub svar_scenarios: usize,
}

impl Shape {
    /// The sizes of the clearing house's sample: about 50 MB.
    pub const PUBLISHED: Shape =
        Shape { seed: 1, portfolio_stocks: 2_500, hvar_scenarios: 1_000, svar_scenarios: 1_018 };

    /// One flat-rate stock for eight portfolio stocks: 312 beside 2,500.
    fn flat_stocks(&self) -> usize {
        self.portfolio_stocks / 8
    }
}

/// The most portfolio stocks for which there are stock numbers enough.
pub const MAX_PORTFOLIO_STOCKS: usize = 80_000;
/// Ordinary shares are listed below this number; larger files go beyond.
const ORDINARY_SHARES: usize = 9_999;

/// Writes the whole file.
pub fn write(shape: Shape, out: &mut impl Write) -> Result<()> {
    let mut random = Random::new(shape.seed);
    let (portfolio, flat) = choose_stocks(&shape, &mut random);
    write_heading(&shape, out)?;
    write_returns(&portfolio, 1, shape.hvar_scenarios, 20_000, &mut random, out)?;
    write_returns(&portfolio, 2, shape.svar_scenarios, 60_000, &mut random, out)?;
    for stock in &flat {
        writeln!(out, "{stock},3,{}", random.pick(&["0.12", "0.3", "0.45", "0.5", "1"]))?;
    }
    write_unread(&portfolio, &mut random, out)?;
    write_entitlements(&portfolio, &mut random, out)
}

/// Different stock numbers in ascending order, dealt out to the two tiers.
fn choose_stocks(shape: &Shape, random: &mut Random) -> (Vec<u32>, Vec<u32>) {
    let mut flat_left = shape.flat_stocks();
    let mut left = shape.portfolio_stocks + flat_left;
    let pool = if left <= ORDINARY_SHARES { ORDINARY_SHARES } else { MAX_STOCK as usize };
    let (mut portfolio, mut flat) = (Vec::new(), Vec::new());
    for stock in 1..=pool {
        if random.index(pool + 1 - stock) >= left {
            continue;
        }
        if random.index(left) < flat_left {
            flat.push(stock as u32);
            flat_left -= 1;
        } else {
            portfolio.push(stock as u32);
        }
        left -= 1;
    }
    (portfolio, flat)
}

fn write_heading(shape: &Shape, out: &mut impl Write) -> Result<()> {
    let (hvar, svar) = (shape.hvar_scenarios.to_string(), shape.svar_scenarios.to_string());
    let values = ["2/5/2023", "0.75", "0.25", &hvar, &svar, "200", "0.994", "0.98", "4", "4", "10000", "0.4142135623"];
    for (name, value) in HEADING_NAMES.iter().zip(values) {
        writeln!(out, "{name},{value}")?;
    }
    write!(out, "InstrumentId,FieldType")?;
    for scenario in 1..=shape.hvar_scenarios.max(shape.svar_scenarios) {
        write!(out, ",{scenario}")?;
    }
    writeln!(out)
}

/// A row of returns for each stock; `spread` is their usual size in millionths.
fn write_returns(
    stocks: &[u32],
    field_type: u32,
    count: usize,
    spread: i64,
    random: &mut Random,
    out: &mut impl Write,
) -> Result<()> {
    let mut row = Vec::new();
    for stock in stocks {
        row.clear();
        write!(row, "{stock},{field_type}")?;
        for _ in 0..count {
            row.push(b',');
            push_return(random, spread, &mut row);
        }
        row.push(b'\n');
        out.write_all(&row)?;
    }
    Ok(())
}

/// A return of six places, now and then of seven, without zeros at its end.
fn push_return(random: &mut Random, spread: i64, row: &mut Vec<u8>) {
    let millionths = random.between(-spread, spread) + random.between(-spread, spread);
    let (mut size, mut places) = (millionths.unsigned_abs(), 6);
    if random.once_in(20) {
        size = size * 10 + random.below(10);
        places = 7;
    }
    while places > 0 && size % 10 == 0 {
        size /= 10;
        places -= 1;
    }
    if millionths < 0 && size > 0 {
        row.push(b'-');
    }
    if places == 0 {
        let _ = write!(row, "{size}");
    } else {
        let unit = 10u64.pow(places as u32);
        let _ = write!(row, "{}.{:0places$}", size / unit, size % unit);
    }
}

/// Rows that the check leaves unread: liquidation, structured products and their thresholds.
fn write_unread(stocks: &[u32], random: &mut Random, out: &mut impl Write) -> Result<()> {
    for stock in stocks {
        let (rate, beta, price) = (random.between(15, 60), random.between(20, 220), random.between(10, 50_000));
        writeln!(
            out,
            "{stock},4,0.{rate:04},{}.{:02},250000000,{}.{:02}",
            beta / 100,
            beta % 100,
            price / 100,
            price % 100
        )?;
    }
    for underlying in stocks.iter().step_by(25) {
        let (delta, price) = (random.between(100, 9_000), random.between(10, 500));
        let product = 20_000 + underlying % 70_000;
        writeln!(out, "{product},5,{underlying},0.{delta:04},100,0.{price:03}")?;
        writeln!(out, "{product},6,0.02,100")?;
    }
    Ok(())
}

fn write_entitlements(stocks: &[u32], random: &mut Random, out: &mut impl Write) -> Result<()> {
    for stock in stocks.iter().step_by(20) {
        let entitlement_type = random.between(1, 3);
        let price = if entitlement_type == 3 { 100 } else { random.between(1, 9_999) };
        let (short, long) = (random.between(0, 100), random.between(0, 100));
        let hundredths = |value: i64| format!("{}.{:02}", value / 100, value % 100);
        writeln!(
            out,
            "{stock},7,{entitlement_type},{},-{},{}",
            hundredths(price),
            hundredths(short),
            hundredths(long)
        )?;
    }
    Ok(())
}

/// Where the comparisons keep what they write once: below `bench/target/`.
pub fn folder() -> Result<PathBuf> {
    let folder = Path::new(env!("CARGO_MANIFEST_DIR")).join("target");
    fs::create_dir_all(&folder)?;
    Ok(folder)
}

/// The file in the published sample's shape, written on the first call.
pub fn published_file() -> Result<PathBuf> {
    let path = folder()?.join("rpf01.csv");
    if !path.is_file() {
        let unfinished = path.with_extension("unfinished");
        let mut out = BufWriter::new(File::create(&unfinished)?);
        write(Shape::PUBLISHED, &mut out)?;
        out.flush()?;
        fs::rename(&unfinished, &path)?;
    }
    Ok(path)
}

#[cfg(test)]
mod tests {
    use super::*;
    use crate::check::{check, Tier};

    #[test]
    fn a_generated_file_passes_and_holds_what_was_asked_for() {
        for seed in 0..5 {
            let shape = Shape { seed, portfolio_stocks: 40, hvar_scenarios: 30, svar_scenarios: 25 };
            let mut bytes = Vec::new();
            write(shape, &mut bytes).unwrap();
            let file = check(&bytes).unwrap();
            assert_eq!(file.stocks_in(Tier::Portfolio), 40);
            assert_eq!(file.stocks_in(Tier::Flat), 5);
            assert_eq!(file.entitlement_count(), 2);
        }
    }

    #[test]
    fn the_same_seed_gives_the_same_file() {
        let shape = Shape { seed: 7, portfolio_stocks: 9, hvar_scenarios: 3, svar_scenarios: 4 };
        let (mut one, mut two) = (Vec::new(), Vec::new());
        write(shape, &mut one).unwrap();
        write(shape, &mut two).unwrap();
        assert_eq!(one, two);
    }
}
