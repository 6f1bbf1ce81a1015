//! What a checked file means, found by stock without another look at its text.

use super::{Parameters, MAX_STOCK};

/// How a stock is margined.
#[derive(Clone, Copy, Debug, PartialEq, Eq)]
pub enum Tier {
    Portfolio,
    Flat,
}

/// The two sets of scenarios.
#[derive(Clone, Copy, Debug, PartialEq, Eq)]
pub enum ReturnSet {
    Historical,
    Stress,
}

/// The three types of entitlement that a corporate action gives.
#[derive(Clone, Copy, Debug, PartialEq, Eq)]
pub enum EntitlementType {
    DistributionInSpecie = 1,
    RightsIssue = 2,
    CashDividend = 3,
}

impl EntitlementType {
    pub const ALL: [EntitlementType; 3] =
        [EntitlementType::DistributionInSpecie, EntitlementType::RightsIssue, EntitlementType::CashDividend];

    pub fn from_number(number: u32) -> Option<Self> {
        Self::ALL.into_iter().find(|&entitlement| entitlement as u32 == number)
    }

    fn place(self) -> usize {
        self as usize - 1
    }
}

/// An entitlement's price and percentages, in ten-thousandths; a percentage is its size.
#[derive(Clone, Copy, Debug, PartialEq, Eq)]
pub struct Entitlement {
    pub price: u32,
    pub short_percentage: u32,
    pub long_percentage: u32,
}

/// The rows of one stock.
#[derive(Clone, Copy, Debug, Default)]
pub(super) struct StockRows {
    /// The first line that lays down a return row or a flat rate; 0 while there is none.
    pub first_line: u32,
    /// Where the historical returns begin among all returns kept.
    pub historical: Option<u32>,
    /// Where the stress returns begin among all returns kept.
    pub stress: Option<u32>,
    pub flat_rate_ten_thousandths: Option<u32>,
    /// Which of all entitlements kept are this stock's, by type.
    entitlements: [Option<u32>; 3],
}

impl StockRows {
    /// Both return rows or neither, and no flat rate beside them.
    pub fn stand_together(&self) -> bool {
        self.historical.is_some() == self.stress.is_some()
            && !(self.historical.is_some() && self.flat_rate_ten_thousandths.is_some())
    }

    fn tier(&self) -> Option<Tier> {
        match (self.historical, self.flat_rate_ten_thousandths) {
            (Some(_), _) => Some(Tier::Portfolio),
            (None, Some(_)) => Some(Tier::Flat),
            (None, None) => None,
        }
    }
}

/// A parameter file that passed every question.
#[derive(Debug)]
pub struct CheckedFile {
    parameters: Parameters,
    /// For each stock number 1 more than its place among `stocks`; 0 where it has no row.
    places: Vec<u32>,
    pub(super) stocks: Vec<StockRows>,
    /// All returns kept, in hundred-millionths, row after row.
    pub(super) returns: Vec<i32>,
    entitlements: Vec<Entitlement>,
}

impl CheckedFile {
    /// A file without rows yet; `file_bytes` bounds what its rows can hold.
    pub(super) fn without_rows(parameters: Parameters, file_bytes: usize) -> Self {
        // A return takes two bytes of text at least, so this room is never outgrown; what stays unused is never touched.
        let returns = Vec::with_capacity(file_bytes / 2);
        CheckedFile {
            parameters,
            places: vec![0; MAX_STOCK as usize + 1],
            stocks: Vec::new(),
            returns,
            entitlements: Vec::new(),
        }
    }

    /// The rows of a stock, for writing; `stock` is at most `MAX_STOCK`.
    pub(super) fn rows_mut(&mut self, stock: u32) -> &mut StockRows {
        let place = &mut self.places[stock as usize];
        if *place == 0 {
            self.stocks.push(StockRows::default());
            *place = self.stocks.len() as u32;
        }
        &mut self.stocks[*place as usize - 1]
    }

    /// Keeps an entitlement; false where the stock has one of this type already.
    pub(super) fn keep_entitlement(&mut self, stock: u32, kind: EntitlementType, entitlement: Entitlement) -> bool {
        let next = self.entitlements.len() as u32;
        let kept = &mut self.rows_mut(stock).entitlements[kind.place()];
        if kept.is_some() {
            return false;
        }
        *kept = Some(next);
        self.entitlements.push(entitlement);
        true
    }

    fn rows(&self, stock: u32) -> Option<&StockRows> {
        let place = *self.places.get(stock as usize)?;
        self.stocks.get((place as usize).checked_sub(1)?)
    }

    pub fn parameters(&self) -> &Parameters {
        &self.parameters
    }

    pub fn tier(&self, stock: u32) -> Option<Tier> {
        self.rows(stock)?.tier()
    }

    pub fn flat_rate_ten_thousandths(&self, stock: u32) -> Option<u32> {
        self.rows(stock)?.flat_rate_ten_thousandths
    }

    pub fn entitlement(&self, stock: u32, kind: EntitlementType) -> Option<Entitlement> {
        let kept = self.rows(stock)?.entitlements[kind.place()]?;
        self.entitlements.get(kept as usize).copied()
    }

    /// The returns of a stock in hundred-millionths, one for each scenario of the set.
    pub fn returns(&self, stock: u32, set: ReturnSet) -> Option<&[i32]> {
        let rows = self.rows(stock)?;
        let (start, count) = match set {
            ReturnSet::Historical => (rows.historical?, self.parameters.hvar_scenarios),
            ReturnSet::Stress => (rows.stress?, self.parameters.svar_scenarios),
        };
        self.returns.get(start as usize..(start + count) as usize)
    }

    /// How many stocks are in the tier.
    pub fn stocks_in(&self, tier: Tier) -> usize {
        self.stocks.iter().filter(|rows| rows.tier() == Some(tier)).count()
    }

    /// How many entitlement rows there are.
    pub fn entitlement_count(&self) -> usize {
        self.entitlements.len()
    }
}
