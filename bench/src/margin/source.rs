//! Where returns and rates come from: a checked file, or one rate for all stocks.

use crate::check::{CheckedFile, EntitlementType, ReturnSet, Tier, MAX_STOCK};

pub enum Source {
    File(Box<CheckedFile>),
    Fallback(u32),
}

/// What an assessment needs of the parameters, by set of scenarios: weight, scenario count, tail count.
#[derive(Clone, Copy)]
pub struct SetParameters {
    pub set: ReturnSet,
    pub weight_ten_thousandths: u32,
    pub scenarios: usize,
    pub tail: usize,
}

impl Source {
    pub fn sets(&self) -> [SetParameters; 2] {
        match self {
            Source::File(file) => {
                let p = file.parameters();
                [
                    SetParameters {
                        set: ReturnSet::Historical,
                        weight_ten_thousandths: p.hvar_weight_ten_thousandths,
                        scenarios: p.hvar_scenarios as usize,
                        tail: p.hvar_tail as usize,
                    },
                    SetParameters {
                        set: ReturnSet::Stress,
                        weight_ten_thousandths: p.svar_weight_ten_thousandths,
                        scenarios: p.svar_scenarios as usize,
                        tail: p.svar_tail as usize,
                    },
                ]
            }
            Source::Fallback(_) => {
                [(ReturnSet::Historical, 10_000), (ReturnSet::Stress, 0)].map(|(set, weight_ten_thousandths)| {
                    SetParameters { set, weight_ten_thousandths, scenarios: 1, tail: 1 }
                })
            }
        }
    }

    pub fn step_dollars(&self) -> i128 {
        match self {
            Source::File(file) => file.parameters().step_dollars.into(),
            Source::Fallback(_) => 250_000,
        }
    }

    pub fn holiday_factor(&self) -> i128 {
        match self {
            Source::File(file) => file.parameters().holiday_factor.into(),
            Source::Fallback(_) => 0,
        }
    }

    pub fn tier(&self, stock: u32) -> Option<Tier> {
        match self {
            Source::File(file) => file.tier(stock),
            Source::Fallback(_) => (1..=MAX_STOCK).contains(&stock).then_some(Tier::Flat),
        }
    }

    pub fn flat_rate_ten_thousandths(&self, stock: u32) -> Option<u32> {
        match self {
            Source::File(file) => file.flat_rate_ten_thousandths(stock),
            Source::Fallback(rate) => Some(*rate),
        }
    }

    /// The short and the long percentage of an entitlement.
    pub fn percentages(&self, stock: u32, kind: EntitlementType) -> Option<(u32, u32)> {
        match self {
            Source::File(file) => file.entitlement(stock, kind).map(|e| (e.short_percentage, e.long_percentage)),
            Source::Fallback(_) => None,
        }
    }

    pub fn returns(&self, stock: u32, set: ReturnSet) -> &[i32] {
        match self {
            Source::File(file) => file.returns(stock, set).unwrap_or(&[]),
            Source::Fallback(_) => &[],
        }
    }
}
