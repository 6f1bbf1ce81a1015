//! The figures.

use super::source::SetParameters;
use super::{rounded_off, Account, Kind, Settings, Source};
use crate::check::Tier;
use std::collections::BTreeMap;

const MAX_GROSS: i128 = 20_000_000_000;
const MAX_MARGIN: i128 = 900_000_000;
const MAX_HOLDINGS: usize = 64;
const RETURN_UNIT: i128 = 100_000_000;

#[derive(Debug, PartialEq, Eq)]
pub struct Assessment {
    /// Name and amount of each figure, in the order of the report.
    pub figures: [(&'static str, i128); 12],
    /// Kind, stock and market value, spare places included.
    pub holdings: Vec<(u32, u32, i128)>,
}

#[derive(Debug, PartialEq, Eq)]
pub enum Refusal {
    TooManyHoldings,
    Uncovered { kind: u32, stock: u32 },
    Gross,
    Margin,
}

type Positions = BTreeMap<(Kind, u32), i128>;

/// Assesses the live entries over a source; `places` is the length of the holdings list.
pub fn assess(account: &Account, settings: &Settings, source: &Source, places: usize) -> Result<Assessment, Refusal> {
    if places > MAX_HOLDINGS {
        return Err(Refusal::TooManyHoldings);
    }
    let mut positions = Positions::new();
    let mut mark = 0;
    for entry in account.live() {
        *positions.entry((entry.kind, entry.stock)).or_default() += i128::from(entry.market_value);
        mark += i128::from(entry.market_value) - i128::from(entry.contract_value);
    }
    for &(kind, stock) in positions.keys() {
        let covered = match kind.entitlement() {
            None => source.tier(stock).is_some(),
            Some(entitlement) => source.percentages(stock, entitlement).is_some(),
        };
        if !covered {
            return Err(Refusal::Uncovered { kind: kind.number(), stock });
        }
    }
    if positions.values().map(|value| value.abs()).sum::<i128>() > MAX_GROSS {
        return Err(Refusal::Gross);
    }
    let in_tier = |tier| -> Vec<(u32, i128)> {
        let stocks =
            positions.iter().filter(|((kind, stock), _)| *kind == Kind::Stock && source.tier(*stock) == Some(tier));
        stocks.map(|((_, stock), value)| (*stock, *value)).collect()
    };
    let (portfolio_tier, flat_tier) = (in_tier(Tier::Portfolio), in_tier(Tier::Flat));

    let portfolio = portfolio_margin(&portfolio_tier, settings, source);
    let flat = flat_margin(&flat_tier, settings, source);
    if portfolio + flat > MAX_MARGIN {
        return Err(Refusal::Margin);
    }
    let corporate = corporate_margin(&positions, source);
    let holiday = rounded_off(source.holiday_factor() * (portfolio + flat), 10_000_000_000);
    let aggregate = portfolio + flat + corporate + holiday + settings.liquidation + settings.structured_product;
    let step = source.step_dollars();
    let rounded = (aggregate + step - 1) / step * step;
    let (favourable, requirement) = (mark.max(0), (-mark).max(0));
    let net = (rounded - favourable).max(0);
    let credited = (net - settings.credit).max(0);
    let total = credited + requirement + settings.position_limit + settings.credit_risk + settings.ad_hoc;
    Ok(Assessment {
        figures: [
            ("portfolio", portfolio),
            ("flat_rate", flat),
            ("corporate_action", corporate),
            ("holiday", holiday),
            ("aggregate", aggregate),
            ("rounded", rounded),
            ("favourable", favourable),
            ("requirement", requirement),
            ("net", net),
            ("credited", credited),
            ("total", total),
            ("positions", portfolio_tier.len() as i128),
        ],
        holdings: holdings(&positions, places),
    })
}

fn portfolio_margin(tier: &[(u32, i128)], settings: &Settings, source: &Source) -> i128 {
    let (own, common): (Vec<_>, Vec<_>) = tier.iter().copied().partition(|(stock, _)| settings.ipo.contains(stock));
    let mut groups: Vec<Vec<(u32, i128)>> = own.into_iter().map(|position| vec![position]).collect();
    groups.push(common);
    let sets = source.sets();
    let tails = sets.map(|set| groups.iter().map(|group| tail_sum(group, set, source)).sum::<i128>());
    let (hist_tail, stress_tail) = (sets[0].tail as i128, sets[1].tail as i128);
    let loss = -(i128::from(sets[0].weight_ten_thousandths) * stress_tail * tails[0]
        + i128::from(sets[1].weight_ten_thousandths) * hist_tail * tails[1]);
    let floor = settings.floor_rate * greater_side(tier.iter().map(|&(_, value)| value)) * hist_tail * stress_tail;
    rounded_off(loss.max(floor), 10_000 * hist_tail * stress_tail)
}

fn tail_sum(group: &[(u32, i128)], set: SetParameters, source: &Source) -> i128 {
    let mut totals = vec![0i128; set.scenarios];
    for &(stock, value) in group {
        for (total, &ret) in totals.iter_mut().zip(source.returns(stock, set.set)) {
            *total += rounded_off(value * i128::from(ret), RETURN_UNIT);
        }
    }
    totals.sort_unstable();
    totals[..set.tail].iter().sum()
}

fn greater_side(values: impl Iterator<Item = i128>) -> i128 {
    let (mut long, mut short) = (0, 0);
    for value in values {
        if value > 0 {
            long += value
        } else {
            short -= value
        }
    }
    long.max(short)
}

fn flat_margin(tier: &[(u32, i128)], settings: &Settings, source: &Source) -> i128 {
    let mut categories: BTreeMap<u32, Vec<i128>> = BTreeMap::new();
    for &(stock, value) in tier {
        categories.entry(source.flat_rate_ten_thousandths(stock).unwrap_or(0)).or_default().push(value);
    }
    let cost =
        |(rate, values): (u32, Vec<i128>)| i128::from(rate) * settings.multiplier * greater_side(values.into_iter());
    rounded_off(categories.into_iter().map(cost).sum(), 1_000_000)
}

fn corporate_margin(positions: &Positions, source: &Source) -> i128 {
    let mut sum = 0;
    for (&(kind, stock), &value) in positions {
        if let Some((short, long)) = kind.entitlement().and_then(|kind| source.percentages(stock, kind)) {
            sum += value.abs() * i128::from(if value > 0 { long } else { short });
        }
    }
    rounded_off(sum, 10_000)
}

fn holdings(positions: &Positions, places: usize) -> Vec<(u32, u32, i128)> {
    let mut all: Vec<_> = positions.iter().map(|(&(kind, stock), &value)| (kind.number(), stock, value)).collect();
    all.sort_by_key(|&(kind, stock, value)| (-value.abs(), kind, stock));
    all.resize(all.len().max(places), (0, 0, 0));
    all.truncate(places);
    all
}
