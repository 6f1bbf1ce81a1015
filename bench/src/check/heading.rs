//! Lines 1 to 13: the parameters of the day.

use super::cells::Reader;
use super::{Fault, Question};
use crate::number::{self, Date};

/// The names on lines 1 to 12, in their order.
pub const HEADING_NAMES: [&str; 12] = [
    "Valuation_DT", "HVaR_WGT", "SVaR_WGT", "HVaR_Scen_Count", "SVaR_Scen_Count", "STV_Count", "HVaR_CL", "SVaR_CL",
    "HVaR_Measure", "SVaR_Measure", "Rounding", "Holiday_Factor",
];

const WHOLE_IN_TEN_THOUSANDTHS: i64 = 10_000;
const MAX_SCENARIOS: u32 = 4_000;
const MAX_STRESS_TESTS: u32 = 100_000;
const MAX_TAIL: u32 = 100;
const MEASURE: u32 = 4;
const MAX_STEP_DOLLARS: u32 = 1_000_000;
const HOLIDAY_FACTOR_PLACES: usize = 10;
const MAX_HOLIDAY_FACTOR: i64 = 10_000_000_000;

/// What lines 1 to 12 lay down.
#[derive(Clone, Copy, Debug, PartialEq, Eq)]
pub struct Parameters {
    pub valuation_date: Date,
    pub hvar_weight_ten_thousandths: u32,
    pub svar_weight_ten_thousandths: u32,
    pub hvar_scenarios: u32,
    pub svar_scenarios: u32,
    pub hvar_tail: u32,
    pub svar_tail: u32,
    pub step_dollars: u32,
    /// The holiday factor in units of 10^-10.
    pub holiday_factor: u64,
}

/// How many of the worst scenarios a level leaves: (1 - level) × scenarios, rounded up.
pub fn tail_count(level_ten_thousandths: u32, scenarios: u32) -> u32 {
    ((10_000 - level_ten_thousandths) * scenarios).div_ceil(10_000)
}

/// Reads lines 1 to 13.
pub fn read(reader: &mut Reader) -> Result<Parameters, Fault> {
    let mut names = HEADING_NAMES.iter();
    let mut heading = Heading { reader, names: &mut names };
    let valuation_date = heading.date()?;
    let hvar_weight_ten_thousandths = heading.fraction(|_| true)?;
    let svar_weight_ten_thousandths = heading.fraction(|svar| hvar_weight_ten_thousandths + svar == 10_000)?;
    let hvar_scenarios = heading.integer(1, MAX_SCENARIOS)?;
    let svar_scenarios = heading.integer(1, MAX_SCENARIOS)?;
    heading.integer(0, MAX_STRESS_TESTS)?;
    let hvar_level = heading.fraction(|level| has_a_tail(level, hvar_scenarios))?;
    let svar_level = heading.fraction(|level| has_a_tail(level, svar_scenarios))?;
    heading.integer(MEASURE, MEASURE)?;
    heading.integer(MEASURE, MEASURE)?;
    let step_dollars = heading.integer(1, MAX_STEP_DOLLARS)?;
    let holiday_factor = heading.decimal(HOLIDAY_FACTOR_PLACES, MAX_HOLIDAY_FACTOR, |_| true)? as u64;
    read_column_names(reader, hvar_scenarios.max(svar_scenarios))?;
    Ok(Parameters {
        valuation_date,
        hvar_weight_ten_thousandths,
        svar_weight_ten_thousandths,
        hvar_scenarios,
        svar_scenarios,
        hvar_tail: tail_count(hvar_level, hvar_scenarios),
        svar_tail: tail_count(svar_level, svar_scenarios),
        step_dollars,
        holiday_factor,
    })
}

fn has_a_tail(level_ten_thousandths: u32, scenarios: u32) -> bool {
    (1..=MAX_TAIL).contains(&tail_count(level_ten_thousandths, scenarios))
}

/// The lines of a name and a value, one after another.
struct Heading<'r, 'a, 'n> {
    reader: &'r mut Reader<'a>,
    names: &'n mut std::slice::Iter<'static, &'static str>,
}

impl<'a> Heading<'_, 'a, '_> {
    /// The value cell of the next line, which has its name and exactly two cells.
    fn value(&mut self) -> Result<&'a [u8], Fault> {
        let name = self.names.next().map_or("", |name| *name);
        if self.reader.is_at_end() {
            return Err(self.reader.fault(Question::LinePresent));
        }
        if self.reader.cell() != name.as_bytes() {
            return Err(self.reader.fault(Question::Name));
        }
        if !self.reader.next_cell() {
            return Err(self.reader.fault(Question::Cells));
        }
        let value = self.reader.cell();
        if self.reader.next_cell() {
            return Err(self.reader.fault(Question::Cells));
        }
        Ok(value)
    }

    /// Asks form and range of what the value was read as, and goes on to the next line.
    fn answered<T>(&mut self, read: Option<T>, in_range: impl Fn(&T) -> bool) -> Result<T, Fault> {
        let value = read.ok_or(self.reader.fault(Question::Form))?;
        if !in_range(&value) {
            return Err(self.reader.fault(Question::Range));
        }
        self.reader.next_line();
        Ok(value)
    }

    fn date(&mut self) -> Result<Date, Fault> {
        let value = self.value()?;
        self.answered(number::date(value), |date| date.is_real())
    }

    fn integer(&mut self, low: u32, high: u32) -> Result<u32, Fault> {
        let value = self.value()?;
        self.answered(number::integer(value), |integer| (low..=high).contains(integer))
    }

    /// A decimal from 0 to `high`, in units of 10^-`places`, that is also `fit`.
    fn decimal(&mut self, places: usize, high: i64, fit: impl Fn(i64) -> bool) -> Result<i64, Fault> {
        let value = self.value()?;
        let read = number::decimal(value).map(|decimal| decimal.within(places, 0, high).filter(|&worth| fit(worth)));
        let worth = self.answered(read, Option::is_some)?;
        Ok(worth.unwrap_or_default())
    }

    /// A decimal from 0 to 1 of four places, in ten-thousandths, that is also `fit`.
    fn fraction(&mut self, fit: impl Fn(u32) -> bool) -> Result<u32, Fault> {
        let worth = self.decimal(4, WHOLE_IN_TEN_THOUSANDTHS, |worth| fit(worth as u32))?;
        Ok(worth as u32)
    }
}

/// Reads line 13, which is compared as text.
fn read_column_names(reader: &mut Reader, scenarios: u32) -> Result<(), Fault> {
    if reader.is_at_end() {
        return Err(reader.fault(Question::LinePresent));
    }
    let mut expected = String::from("InstrumentId,FieldType");
    for scenario in 1..=scenarios {
        expected.push(',');
        expected.push_str(&scenario.to_string());
    }
    if reader.rest_of_line() != expected.as_bytes() {
        return Err(reader.fault(Question::Name));
    }
    reader.next_line();
    Ok(())
}
