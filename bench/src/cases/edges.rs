//! Cases that chance would hardly make: the greatest sizes, and a file cut at every byte.

use super::Case;
use crate::check::{Fault, Question, HEADING_NAMES, MAX_FILE_BYTES, MAX_STOCK};

/// Every edge case, one after another; a few are as long as a file may be.
pub fn edges() -> impl Iterator<Item = Case> {
    let small =
        single_bytes().chain(cut_at_every_byte()).chain(calendar_edges()).chain(heading_edges()).chain(row_ranges());
    small.chain(scenario_edges()).chain(row_edges()).chain(length_edges())
}

/// That the file passes, or the question and the line that refuse it.
type Expected = Result<(), (Question, u32)>;

fn case(name: impl Into<String>, bytes: Vec<u8>, expected: Expected) -> Case {
    let expected = expected.map_err(|(question, line)| Fault { question, line });
    Case { name: name.into(), bytes, expected: Some(expected) }
}

/// A heading of so many scenarios at these levels.
fn heading(hvar_scenarios: u32, svar_scenarios: u32, hvar_level: &str, svar_level: &str) -> Vec<u8> {
    let (hvar, svar) = (hvar_scenarios.to_string(), svar_scenarios.to_string());
    let values =
        ["2/5/2023", "0.75", "0.25", &hvar, &svar, "200", hvar_level, svar_level, "4", "4", "10000", "0.4142135623"];
    let mut text: String =
        HEADING_NAMES.iter().zip(values).flat_map(|(name, value)| [*name, ",", value, "\n"]).collect();
    text.push_str("InstrumentId,FieldType");
    for scenario in 1..=hvar_scenarios.max(svar_scenarios) {
        text.push(',');
        text.push_str(&scenario.to_string());
    }
    text.push('\n');
    text.into_bytes()
}

fn heading_and(rows: &str) -> Vec<u8> {
    [heading(1, 1, "0", "0"), rows.as_bytes().to_vec()].concat()
}

/// A file of one byte has a first line with a wrong name, whatever the byte.
fn single_bytes() -> impl Iterator<Item = Case> {
    (0..=255u8).map(|byte| case(format!("edge: the single byte {byte}"), vec![byte], Err((Question::Name, 1))))
}

/// A small valid file up to each of its bytes, with LF and with CR LF.
fn cut_at_every_byte() -> impl Iterator<Item = Case> {
    let rows = "5,1,0.1\n5,2,-4\n33,3,0.12,\n44,7,1,4,-0.5,0.25\n5,4,x";
    let with_line_feeds = heading_and(rows);
    let with_carriage_returns = String::from_utf8_lossy(&with_line_feeds).replace('\n', "\r\n").into_bytes();
    [with_line_feeds, with_carriage_returns].into_iter().flat_map(|whole| {
        (0..=whole.len()).map(move |length| Case {
            name: format!("edge: cut after {length} bytes"),
            bytes: whole[..length].to_vec(),
            expected: None,
        })
    })
}

/// The values of a valid heading.
const VALUES: [&str; 12] =
    ["2/5/2023", "0.75", "0.25", "40", "50", "200", "0.5", "0.7", "4", "4", "10000", "0.4142135623"];

/// A file that ends with this value on this line: what follows is missing, so a good value leads to question 2.
fn heading_up_to(line: usize, value: &str, good: bool) -> Case {
    let lines = HEADING_NAMES.iter().zip(VALUES).take(line - 1).flat_map(|(name, value)| [*name, ",", value, "\n"]);
    let text: String = lines.chain([HEADING_NAMES[line - 1], ",", value, "\n"]).collect();
    let fault = if good { (Question::LinePresent, line as u32 + 1) } else { (Question::Range, line as u32) };
    case(format!("edge: {value} on line {line}"), text.into_bytes(), Err(fault))
}

/// The last day of each month passes and the next does not, in a leap year and in another.
fn calendar_edges() -> impl Iterator<Item = Case> {
    let days = [31, 28, 31, 30, 31, 30, 31, 31, 30, 31, 30, 31];
    let months = (1..=12).zip(days).flat_map(|(month, days)| {
        let years = [(2000, true), (2023, false), (2024, true), (2099, false)];
        years.map(|(year, leap)| (month, year, days + u32::from(leap && month == 2)))
    });
    months.flat_map(|(month, year, days)| {
        let day = |day: u32, good| heading_up_to(1, &format!("{day}/{month}/{year}"), good);
        [day(0, false), day(1, true), day(days, true), day(days + 1, false)]
    })
}

/// Both ends of every range of lines 1 to 12, and one unit beyond each.
fn heading_edges() -> impl Iterator<Item = Case> {
    let ranges: [(usize, &[&str], &[&str]); 12] = [
        (1, &["1/1/2000", "31/12/2099"], &["31/12/1999", "1/1/2100", "1/13/2023", "1/0/2023"]),
        (2, &["0", "1", "0.0001", "0.9999"], &["-0.0001", "1.0001", "0.00001"]),
        (3, &["0.25", "0.2500000000"], &["0.2499", "0.2501", "0", "1", "0.24999"]),
        (4, &["1", "4000"], &["0", "4001"]),
        (5, &["1", "4000"], &["0", "4001"]),
        (6, &["0", "100000"], &["100001"]),
        (7, &["0", "0.9999"], &["-0.0001", "1", "1.0001", "0.99999"]),
        (8, &["0", "0.9999"], &["-0.0001", "1", "1.0001", "0.99999"]),
        (9, &["4"], &["3", "5"]),
        (10, &["4"], &["3", "5"]),
        (11, &["1", "1000000"], &["0", "1000001"]),
        (12, &["0", "1", "0.0000000001"], &["-0.0000000001", "1.0000000001"]),
    ];
    ranges.into_iter().flat_map(|(line, good, bad)| {
        let good = good.iter().map(move |value| heading_up_to(line, value, true));
        good.chain(bad.iter().map(move |value| heading_up_to(line, value, false)))
    })
}

/// Both ends of every range of a row's cells, and one unit beyond each.
fn row_ranges() -> impl Iterator<Item = Case> {
    let good = [
        "1,4",
        "99999,4",
        "5,1,4\n5,2,-4",
        "5,1,0.00000001\n5,2,-0.1234567800",
        "5,3,0",
        "5,3,1",
        "5,3,0.0001",
        "5,7,1,0,0,0",
        "5,7,3,9999,4,-4",
        "5,7,2,0.0001,-4,4",
        "5,6",
        "5,007,1,0,0,0",
    ];
    let bad = [
        "100000,4", "5,0", "5,8", "5,1,4.00000001", "5,2,-4.00000001", "5,1,0.123456789", "5,2,0.0000000001",
        "5,3,-0.0001", "5,3,1.0001", "5,3,0.00001", "5,7,0,0,0,0", "5,7,4,0,0,0", "5,7,1,-0.0001,0,0",
        "5,7,1,9999.0001,0,0", "5,7,1,0.00001,0,0", "5,7,1,0,4.0001,0", "5,7,1,0,-4.0001,0", "5,7,1,0,0,4.0001",
        "5,7,1,0,0,-4.0001", "5,7,1,0,0.00001,0", "5,7,1,0,0,0.00001",
    ];
    let good = good.into_iter().map(|rows| (rows, Ok(())));
    let bad = bad.into_iter().map(|row| (row, Err((Question::Range, 14))));
    good.chain(bad).map(|(rows, expected)| case(format!("edge: {rows:?}"), heading_and(rows), expected))
}

fn scenario_edges() -> impl Iterator<Item = Case> {
    let with_returns = |hvar, svar, hvar_level, svar_level| {
        let mut bytes = heading(hvar, svar, hvar_level, svar_level);
        for (field_type, count) in [(1, hvar), (2, svar)] {
            bytes.extend(format!("99999,{field_type}{}\n", ",-4.0000000000".repeat(count as usize)).into_bytes());
        }
        bytes
    };
    [
        case("edge: 4,000 scenarios", with_returns(4_000, 4_000, "0.975", "0.9999"), Ok(())),
        case("edge: 4,000 and 1 scenarios", with_returns(4_000, 1, "0.975", "0"), Ok(())),
        case("edge: 1 and 4,000 scenarios", with_returns(1, 4_000, "0.9999", "0.975"), Ok(())),
        case("edge: 4,001 scenarios", with_returns(4_001, 4_000, "0.999", "0.999"), Err((Question::Range, 4))),
        case("edge: 4,001 stress scenarios", with_returns(4_000, 4_001, "0.999", "0.999"), Err((Question::Range, 5))),
        case("edge: a tail of 100", with_returns(100, 100, "0", "-0.0"), Ok(())),
        case("edge: a tail of 101", with_returns(101, 100, "0", "0"), Err((Question::Range, 7))),
        case("edge: a stress tail of 101", with_returns(100, 101, "0", "0"), Err((Question::Range, 8))),
        case("edge: 100 times 1.0025", with_returns(4_000, 4_000, "0.9749", "0.975"), Err((Question::Range, 7))),
        case("edge: the published sizes", with_returns(1_000, 1_018, "0.994", "0.98"), Ok(())),
    ]
    .into_iter()
}

fn row_edges() -> impl Iterator<Item = Case> {
    let every_stock: String = (1..=MAX_STOCK).map(|stock| format!("{stock},3,1\n")).collect();
    let returns_backwards: String = (1..=MAX_STOCK).rev().map(|stock| format!("{stock},2,0\n{stock},1,0\n")).collect();
    let without_one = returns_backwards.replacen("50000,1,0\n", "50000,4,0\n", 1);
    let last_repeated = format!("{every_stock}99999,3,0");
    let many_unread = "1,4\n".repeat(300_000);
    let line_at_odds = 14 + 2 * (MAX_STOCK - 50_000);
    [
        case("edge: every stock flat", heading_and(&every_stock), Ok(())),
        case("edge: every stock with returns", heading_and(&returns_backwards), Ok(())),
        case(
            "edge: one stock of all without its row",
            heading_and(&without_one),
            Err((Question::RowsTogether, line_at_odds)),
        ),
        case(
            "edge: the last stock again",
            heading_and(&last_repeated),
            Err((Question::FirstOfItsKind, 14 + MAX_STOCK)),
        ),
        case(
            "edge: many lines, then a blank one",
            heading_and(&format!("{many_unread}\n")),
            Err((Question::Cells, 300_014)),
        ),
        case("edge: a million empty cells", heading_and(&format!("5,3,0.12{}", ",".repeat(1_000_000))), Ok(())),
        case(
            "edge: a million digits",
            heading_and(&format!("5,3,{}", "0".repeat(1_000_000))),
            Err((Question::Form, 14)),
        ),
        case(
            "edge: a million minus signs",
            heading_and(&format!("5,3,{}", "-".repeat(1_000_000))),
            Err((Question::Form, 14)),
        ),
        case(
            "edge: a stock of a million digits",
            heading_and(&format!("{},3,0", "1".repeat(1_000_000))),
            Err((Question::Form, 14)),
        ),
        case(
            "edge: a value of a million digits",
            format!("Valuation_DT,{}", "1".repeat(1_000_000)).into_bytes(),
            Err((Question::Form, 1)),
        ),
        case("edge: a million blank lines", vec![b'\n'; 1_000_000], Err((Question::Name, 1))),
        case("edge: a million commas", vec![b','; 1_000_000], Err((Question::Name, 1))),
    ]
    .into_iter()
}

/// The longest file passes, and one byte more is refused before anything else is asked.
fn length_edges() -> impl Iterator<Item = Case> {
    let padded = |mut bytes: Vec<u8>, length| {
        bytes.resize(length, b'x');
        bytes
    };
    let lengths: [(&str, usize, &str, Expected); 4] = [
        ("edge: the longest file", MAX_FILE_BYTES, "5,4,", Ok(())),
        ("edge: the longest file, damaged", MAX_FILE_BYTES, "5,3,", Err((Question::Form, 14))),
        ("edge: one byte too long", MAX_FILE_BYTES + 1, "5,4,", Err((Question::Length, 0))),
        ("edge: one byte too long, damaged", MAX_FILE_BYTES + 1, "x,", Err((Question::Length, 0))),
    ];
    let empty = case("edge: an empty file", Vec::new(), Err((Question::Length, 0)));
    let long = lengths
        .into_iter()
        .map(move |(name, length, row, expected)| case(name, padded(heading_and(row), length), expected));
    std::iter::once(empty).chain(long)
}
