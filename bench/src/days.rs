//! Random days: a small parameter file, settings, and journals in which offices repeat, reorder and mistype their calls.

use crate::random::Random;
use std::fmt::Write;

/// The texts of one day, and the options that it is run with.
pub struct Day {
    pub rpf: String,
    pub settings: String,
    pub journals: Vec<String>,
    pub options: Vec<String>,
}

/// The stocks that a day speaks of; the last two have no rows in most files.
const STOCKS: [u32; 14] = [1, 5, 11, 22, 33, 44, 388, 700, 941, 1876, 3690, 9988, 50_000, 99_999];

/// A day from a seed and a number.
pub fn random_day(seed: u64, number: u64) -> Day {
    let mut random = Random::new(seed.wrapping_mul(0x1_0000_0001).wrapping_add(number));
    let large = random.once_in(8);
    let rpf = parameter_file(&mut random);
    let settings = settings(&mut random);
    let count = 1 + random.index(3);
    let mut journals: Vec<String> = Vec::new();
    for _ in 0..count {
        let again = !journals.is_empty() && random.once_in(4);
        let text = if again { random.pick(&journals).clone() } else { journal(&mut random, large) };
        journals.push(text);
    }
    Day { rpf, settings, journals, options: options(&mut random) }
}

fn options(random: &mut Random) -> Vec<String> {
    let mut options = vec!["--csv".to_string()];
    if !random.once_in(4) {
        options.push("--trace".into());
    }
    if random.once_in(3) {
        let places = *random.pick(&["1", "3", "8", "20", "0", "4096", "4097", "007", "99999999999999999999999"]);
        options.extend(["--places".into(), places.into()]);
    }
    if random.once_in(3) {
        let holdings = *random.pick(&["0", "1", "2", "5", "64", "65", "99999999999999999999999"]);
        options.extend(["--holdings".into(), holdings.into()]);
    }
    if random.once_in(6) {
        let rate = *random.pick(&["0.06", "0.0600", "0.0599", "1", "1.0001", "0.12", "-0.06", "2"]);
        options.extend(["--fallback".into(), rate.into()]);
    }
    options
}

fn parameter_file(random: &mut Random) -> String {
    let counts = [random.between(1, 9), random.between(1, 9)];
    let weight = *random.pick(&[0i64, 2_500, 5_000, 7_500, 9_999, 10_000]);
    let mut text = String::new();
    let _ = writeln!(text, "Valuation_DT,2/5/2023");
    let _ = writeln!(text, "HVaR_WGT,{}", decimal(weight, 4));
    let _ = writeln!(text, "SVaR_WGT,{}", decimal(10_000 - weight, 4));
    let _ = writeln!(text, "HVaR_Scen_Count,{}\nSVaR_Scen_Count,{}\nSTV_Count,0", counts[0], counts[1]);
    let _ = writeln!(text, "HVaR_CL,{}", decimal(random.between(0, 9_999), 4));
    let _ = writeln!(text, "SVaR_CL,{}", decimal(random.between(0, 9_999), 4));
    let _ = writeln!(text, "HVaR_Measure,4\nSVaR_Measure,4");
    let _ = writeln!(text, "Rounding,{}", *random.pick(&[1, 7, 100, 10_000, 1_000_000]));
    let _ = writeln!(text, "Holiday_Factor,{}", decimal(*random.pick(&[0, 1, 4_142_135_623, 10_000_000_000]), 10));
    text.push_str("InstrumentId,FieldType");
    for scenario in 1..=counts[0].max(counts[1]) {
        let _ = write!(text, ",{scenario}");
    }
    text.push('\n');
    let extreme = random.once_in(5);
    for stock in STOCKS {
        let common = stock < 50_000 || random.once_in(3);
        match random.index(4) {
            _ if !common || random.once_in(40) => {}
            0 | 1 => {
                for (kind, count) in [(1, counts[0]), (2, counts[1])] {
                    let _ = write!(text, "{stock},{kind}");
                    for _ in 0..count {
                        let most = if extreme { 400_000_000 } else { 12_000_000 };
                        let _ = write!(text, ",{}", decimal(random.between(-most, most), 8));
                    }
                    text.push('\n');
                }
            }
            _ => {
                let rate = *random.pick(&[0i64, 600, 1_200, 1_200, 3_333, 10_000]);
                let _ = writeln!(text, "{stock},3,{}", decimal(rate, 4));
            }
        }
        for entitlement in 1..=3 {
            if !random.once_in(25) {
                let (short, long) = (random.between(-40_000, 40_000), random.between(-40_000, 40_000));
                let _ = writeln!(text, "{stock},7,{entitlement},4.5,{},{}", decimal(short, 4), decimal(long, 4));
            }
        }
    }
    text
}

fn settings(random: &mut Random) -> String {
    let mut text = String::new();
    let multiplier = *random.pick(&["1", "1.00", "2.5", "4", "1.01", "0.99", "4.01", "999.9", "-1"]);
    let usual = !random.once_in(6);
    let amount = |random: &mut Random| {
        if random.once_in(20) {
            *random.pick(&["-1", "1000000000001", "999999999999999999", "-999999999999999999"])
        } else {
            *random.pick(&["0", "0", "40", "50", "123456789", "1000000000000"])
        }
    };
    let _ = writeln!(text, "Multiplier,{}", if usual { "1.00" } else { multiplier });
    let credit = *random.pick(&["0", "1000", "5000000", "0005000000", "1000000000", "1000000001", "-1"]);
    let _ = writeln!(text, "Credit,{}", if usual { "1000" } else { credit });
    let floor = *random.pick(&["0", "0.0250", "0.5", "1", "1.0001", "-0", "-0.0001"]);
    let _ = writeln!(text, "Floor_Rate,{}", if usual { "0.0250" } else { floor });
    for name in ["Liquidation", "Structured_Product", "Position_Limit", "Credit_Risk", "Ad_Hoc"] {
        let value = if usual { "50" } else { amount(random) };
        let _ = writeln!(text, "{name},{value}");
    }
    text.push_str("IPO");
    for _ in 0..random.index(5) {
        let _ = write!(text, ",{}", random.pick(&STOCKS));
    }
    if random.once_in(20) {
        text.push_str(*random.pick::<&str>(&[",0", ",-1", ",100000", ",00011"]));
    }
    if !random.once_in(3) {
        text.push_str(*random.pick::<&str>(&["\n", "\r\n"]));
    }
    text
}

fn journal(random: &mut Random, large: bool) -> String {
    let mut text = String::new();
    let most = if random.once_in(10) { 60 } else { 16 };
    let calls = random.index(most);
    let numbers = 1 + random.between(0, 24);
    for _ in 0..calls {
        let number = if random.once_in(25) {
            *random.pick(&[0, -1, 999_999_999, 1_000_000_000, 100_000_000_000_000_000])
        } else {
            random.between(1, numbers)
        };
        if random.once_in(5) {
            let _ = write!(text, "cancel,{number}");
        } else {
            let kind = if random.once_in(40) {
                *random.pick(&[-1i64, 4, 7])
            } else if random.once_in(3) {
                random.between(1, 3)
            } else {
                0
            };
            let stock = if random.once_in(40) {
                *random.pick(&[0, 100_000, -5])
            } else {
                i64::from(*random.pick(&STOCKS[..12]))
            };
            let most = if large { 20_000_000_000 } else { 3_000_000 };
            let size = |random: &mut Random| {
                if random.once_in(60) {
                    *random.pick(&[20_000_000_000i64, 20_000_000_001, -20_000_000_000, -20_000_000_001, 0])
                } else {
                    random.between(-most, most)
                }
            };
            let (quantity, contract, market) = (size(random), size(random), size(random));
            let _ = write!(text, "post,{number},{kind},{stock},{quantity},{contract},{market}");
        }
        text.push_str(if random.once_in(6) { "\r\n" } else { "\n" });
    }
    text
}

/// A number of units of 10^-places as a decimal.
fn decimal(units: i64, places: usize) -> String {
    let unit = 10i64.pow(places as u32);
    let sign = if units < 0 { "-" } else { "" };
    format!("{sign}{}.{:0places$}", units.abs() / unit, units.abs() % unit)
}
