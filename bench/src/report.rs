//! What the program prints: lines for scripts, and a report for people.

use crate::check::{CheckedFile, Fault, Question, Tier};
use std::fmt::Write;

/// The lines of `--csv`.
pub fn csv(verdict: &Result<CheckedFile, Fault>) -> String {
    match verdict {
        Ok(file) => {
            let mut lines = String::from("checked\n");
            for (name, value) in figures(file, |count| count.to_string()) {
                let _ = writeln!(lines, "{name},{value}");
            }
            lines
        }
        Err(fault) => format!("refused,{},{}\n", fault.question.number(), fault.line),
    }
}

/// The report for people.
pub fn text(verdict: &Result<CheckedFile, Fault>) -> String {
    match verdict {
        Ok(file) => {
            let mut lines = String::from("The file passes every question.\n");
            for (name, value) in figures(file, separated) {
                let _ = writeln!(lines, "  {:<18}{value:>14}", name.replace('_', " "));
            }
            lines
        }
        Err(Fault { question, line: 0 }) => format!("question {}: {}\n", question.number(), words(*question)),
        Err(Fault { question, line }) => format!("question {}, line {line}: {}\n", question.number(), words(*question)),
    }
}

/// Name and value of each figure that a checked file is reported by, counts written by `count`.
fn figures(file: &CheckedFile, count: fn(u64) -> String) -> Vec<(&'static str, String)> {
    let parameters = file.parameters();
    let date = parameters.valuation_date;
    let holiday = parameters.holiday_factor;
    vec![
        ("valuation_date", format!("{}-{:02}-{:02}", date.year, date.month, date.day)),
        ("hvar_weight", four_places(parameters.hvar_weight_ten_thousandths)),
        ("svar_weight", four_places(parameters.svar_weight_ten_thousandths)),
        ("hvar_scenarios", count(parameters.hvar_scenarios.into())),
        ("svar_scenarios", count(parameters.svar_scenarios.into())),
        ("hvar_tail", count(parameters.hvar_tail.into())),
        ("svar_tail", count(parameters.svar_tail.into())),
        ("step", count(parameters.step_dollars.into())),
        ("holiday_factor", format!("{}.{:010}", holiday / 10_000_000_000, holiday % 10_000_000_000)),
        ("portfolio_stocks", count(file.stocks_in(Tier::Portfolio) as u64)),
        ("flat_stocks", count(file.stocks_in(Tier::Flat) as u64)),
        ("entitlements", count(file.entitlement_count() as u64)),
    ]
}

fn four_places(ten_thousandths: u32) -> String {
    format!("{}.{:04}", ten_thousandths / 10_000, ten_thousandths % 10_000)
}

/// A count with its thousands separated.
fn separated(count: u64) -> String {
    let digits = count.to_string();
    let mut text = String::new();
    for (place, digit) in digits.chars().enumerate() {
        if place > 0 && (digits.len() - place).is_multiple_of(3) {
            text.push(',');
        }
        text.push(digit);
    }
    text
}

/// What a question answered no means.
pub fn words(question: Question) -> &'static str {
    match question {
        Question::Length => "the file is empty or longer than 67,108,864 bytes",
        Question::LinePresent => "one of the first 13 lines is missing",
        Question::Name => "the line does not have the name or the column names it must have",
        Question::Cells => "a cell is missing, or there is one too many",
        Question::Form => "a cell does not have the form of its value",
        Question::Range => "a value is out of range or has too many places",
        Question::FirstOfItsKind => "the stock already has such a row",
        Question::RowsTogether => "the stock's rows of returns and of a flat rate do not stand together",
    }
}

#[cfg(test)]
mod tests {
    use super::*;
    use crate::check::check;

    #[test]
    fn the_worked_day_is_reported_as_documented() {
        let bytes = include_bytes!("../../samples/worked_day.csv");
        let expected = "checked\nvaluation_date,2023-05-02\nhvar_weight,0.7500\nsvar_weight,0.2500\nhvar_scenarios,4\n\
                        svar_scenarios,5\nhvar_tail,2\nsvar_tail,2\nstep,100\nholiday_factor,0.4142135623\n\
                        portfolio_stocks,2\nflat_stocks,1\nentitlements,1\n";
        assert_eq!(csv(&check(bytes)), expected);
    }

    #[test]
    fn the_sample_passes() {
        let answer = csv(&check(include_bytes!("../../samples/rpf01.csv")));
        assert!(answer.ends_with("portfolio_stocks,20\nflat_stocks,12\nentitlements,5\n"), "{answer}");
    }

    #[test]
    fn a_refusal_is_one_line() {
        assert_eq!(csv(&check(b"")), "refused,1,0\n");
        assert_eq!(csv(&check(b"Valuation_DT,2/5/2023\n")), "refused,2,2\n");
        assert_eq!(
            text(&check(b"Valuation_DT,2/5/23\n")),
            "question 5, line 1: a cell does not have the form of its value\n"
        );
    }

    #[test]
    fn thousands_are_separated() {
        assert_eq!(separated(0), "0");
        assert_eq!(separated(999), "999");
        assert_eq!(separated(1_000), "1,000");
        assert_eq!(separated(1_000_000), "1,000,000");
    }
}
