//! Posts and cancels.

use crate::check::{EntitlementType, MAX_STOCK};
use std::collections::HashMap;

const MAX_NUMBER: i64 = 999_999_999;
const MAX_SIZE: u64 = 20_000_000_000;

/// The stock itself, or one of its entitlements.
#[derive(Clone, Copy, Debug, PartialEq, Eq, PartialOrd, Ord, Hash)]
pub enum Kind {
    Stock,
    Entitlement(u32),
}

impl Kind {
    fn from_number(number: i64) -> Option<Kind> {
        match number {
            0 => Some(Kind::Stock),
            1..=3 => Some(Kind::Entitlement(number as u32)),
            _ => None,
        }
    }

    pub fn number(self) -> u32 {
        match self {
            Kind::Stock => 0,
            Kind::Entitlement(number) => number,
        }
    }

    pub fn entitlement(self) -> Option<EntitlementType> {
        match self {
            Kind::Stock => None,
            Kind::Entitlement(number) => EntitlementType::from_number(number),
        }
    }
}

/// A live entry.
#[derive(Clone, Copy, Debug)]
pub struct Entry {
    pub kind: Kind,
    pub stock: u32,
    pub contract_value: i64,
    pub market_value: i64,
}

/// What is known of each number: its live entry, or that it is cancelled.
pub struct Account {
    places: usize,
    numbers: HashMap<i64, Option<Entry>>,
}

impl Account {
    pub fn with_places(places: usize) -> Account {
        Account { places, numbers: HashMap::new() }
    }

    pub fn live(&self) -> impl Iterator<Item = &Entry> {
        self.numbers.values().flatten()
    }

    fn answer(&self) -> usize {
        self.live().count()
    }

    /// Posts an entry of these numbers, in a journal's order; answers the count of live entries, or a question.
    pub fn post(
        &mut self,
        [number, kind, stock, quantity, contract_value, market_value]: [i64; 6],
    ) -> Result<usize, u32> {
        if !(1..=MAX_NUMBER).contains(&number) {
            return Err(21);
        }
        let kind = Kind::from_number(kind).ok_or(22u32)?;
        if !(1..=i64::from(MAX_STOCK)).contains(&stock) {
            return Err(22);
        }
        if [quantity, contract_value, market_value].iter().any(|size| size.unsigned_abs() > MAX_SIZE) {
            return Err(23);
        }
        match self.numbers.get(&number) {
            Some(None) => return Err(24),
            Some(Some(_)) => return Err(25),
            None if self.numbers.len() >= self.places => return Err(26),
            None => {}
        }
        self.numbers.insert(number, Some(Entry { kind, stock: stock as u32, contract_value, market_value }));
        Ok(self.answer())
    }

    pub fn cancel(&mut self, number: i64) -> Result<usize, u32> {
        if !(1..=MAX_NUMBER).contains(&number) {
            return Err(21);
        }
        match self.numbers.get(&number) {
            Some(None) => return Err(24),
            Some(Some(_)) => {}
            None if self.numbers.len() >= self.places => return Err(26),
            None => {}
        }
        self.numbers.insert(number, None);
        Ok(self.answer())
    }
}
