//! Seeded schedules and books that are accepted, but for a few whose sums are not.

use super::rates;
use crate::random::Random;
use crate::raw::*;

/// How many records a book has, and how its counterparties hang together.
#[derive(Clone, Copy, Debug)]
pub struct Shape {
    pub counterparties: u64,
    pub assets: u64,
    pub mitigants: u64,
    pub parents: Parents,
}

#[derive(Clone, Copy, Debug)]
pub enum Parents {
    None,
    Some,
    /// Each the child of the one before.
    Chain,
}

/// A schedule and a book of any shape: mostly small, so that exposures meet in few groups.
pub fn random(random: &mut Random) -> (RawSchedule, RawBook) {
    let shape = random_shape(random);
    let scale = random_scale(random, &shape);
    let schedule = random_schedule(random, scale);
    let mut book = random_book(random, &shape, scale);
    book.specialist = random.chance(33) as u8;
    // Now and then in a fund that is no specialist, which 17 turns back.
    if book.specialist == 1 || random.chance(5) {
        retrocede(random, 50, &mut book);
    }
    (schedule, book)
}

fn random_shape(random: &mut Random) -> Shape {
    let parents = random.pick(&[Parents::None, Parents::Some, Parents::Some, Parents::Chain]);
    let (counterparties, assets, mitigants) = match random.below(1_000) {
        0..=19 => (random.below(3), 0, 0),
        20..=849 => (random.between(1, 8), random.between(1, 24), random.below(24)),
        850..=979 => (random.between(1, 60), random.between(1, 80), random.below(90)),
        // Few assets with many mitigants, on both sides of what one byte counts.
        980..=994 => (random.between(1, 4), random.between(1, 3), random.between(200, 900)),
        995..=997 => (random.between(1, 500), random.between(1, 900), random.below(1_501)),
        _ => (500, 900, 1_500),
    };
    Shape { counterparties, assets, mitigants, parents }
}

/// The size of an amount: a power of ten that the sum of the stresses mostly leaves within M.
fn random_scale(random: &mut Random, shape: &Shape) -> u64 {
    let exponent = random.below(14) as u32;
    let scale = 10u64.pow(exponent);
    if random.chance(97) {
        scale.min(MOST / (2 * shape.assets + 2)).max(1)
    } else {
        scale
    }
}

/// A schedule, every fourth of version 2.
pub fn random_schedule(random: &mut Random, scale: u64) -> RawSchedule {
    let mut schedule = RawSchedule::published();
    match random.below(100) {
        0..=24 => {}
        25..=34 => schedule.rows.iter_mut().for_each(|row| row.fixed = amount(random, scale)),
        35..=44 => schedule.rows = [random_row(random, scale); 8],
        45..=69 => {
            let few = [random_row(random, scale), random_row(random, scale), random_row(random, 1)];
            schedule.rows = std::array::from_fn(|_| random.pick(&few));
        }
        _ => schedule.rows = std::array::from_fn(|_| random_row(random, scale)),
    }
    if random.chance(60) {
        let few = [0, 1, 33, 34, 50, 66, 99, 100, random.below(101) as u16];
        schedule.percents = std::array::from_fn(|_| random.pick(&few));
    }
    if random.chance(25) {
        schedule = rates::restated(random, &schedule);
    }
    schedule
}

fn random_row(random: &mut Random, scale: u64) -> RawRow {
    let few = [0, 0, 0, 1, 25, 50, 125, 250, 500, 999, 1_000, 1_001, 1_500];
    let mut rate = || {
        if random.chance(60) {
            random.pick(&few)
        } else {
            random.below(1_501) as u16
        }
    };
    let rates = [rate(), rate(), rate()];
    let fixed = if random.chance(50) { 0 } else { amount(random, scale) };
    RawRow { rates, fixed }
}

/// An amount of about a scale, often one at a boundary, seldom M.
pub fn amount(random: &mut Random, scale: u64) -> u64 {
    let amount = match random.below(100) {
        0..=7 => 0,
        8..=11 => 1,
        12..=19 => scale,
        20..=24 => scale + 1,
        25..=29 => scale / 2,
        30 => MOST,
        31..=59 => random.between(0, scale / 10),
        _ => random.between(0, scale),
    };
    amount.min(MOST)
}

pub fn random_book(random: &mut Random, shape: &Shape, scale: u64) -> RawBook {
    let mut book = RawBook::empty(0, 0, 0);
    book.counterparties = random_counterparties(random, shape);
    book.assets = (0..shape.assets).map(|_| random_asset(random, shape, scale)).collect();
    if shape.assets > 0 {
        add_mitigants(random, shape, scale, &mut book);
    }
    set_totals(random, scale, &mut book);
    book
}

fn random_counterparties(random: &mut Random, shape: &Shape) -> Vec<RawCounterparty> {
    let counterparty = |place: u64| RawCounterparty {
        parent: match shape.parents {
            Parents::None => 0,
            Parents::Some => random.below(place) as u16,
            Parents::Chain => place as u16 - 1,
        },
        grade: if random.chance(55) { random.between(1, 3) } else { random.below(8) } as u8,
        kind: random.pick(&[0, 0, 1, 1, 1, 2, 3, 4, 4]),
        flags: if random.chance(50) { 0 } else { random.below(8) as u8 },
    };
    (1..=shape.counterparties).map(counterparty).collect()
}

fn random_asset(random: &mut Random, shape: &Shape, scale: u64) -> RawAsset {
    let asset = RawAsset {
        kind: random.between(1, 11) as u8,
        flags: random.chance(8) as u8,
        counterparty: random.between(1, shape.counterparties) as u16,
        value: amount(random, scale),
        offsets: if random.chance(25) { amount(random, scale / 4) } else { 0 },
        deductions: if random.chance(20) { amount(random, scale / 4) } else { 0 },
        ..Default::default()
    };
    if asset.kind == 9 || random.chance(30) {
        reinsurance(random, asset, scale)
    } else {
        asset
    }
}

/// Months on both sides of each step after a downgrade, and any other.
fn deciding_months(random: &mut Random) -> [u8; 11] {
    [0, 1, 2, 3, 4, 11, 12, 23, 24, 255, random.below(30) as u8]
}

pub fn reinsurance(random: &mut Random, asset: RawAsset, scale: u64) -> RawAsset {
    let entry = random.below(3) as u8;
    let months = deciding_months(random);
    let value = asset.value.min(scale + 1);
    RawAsset {
        kind: 9,
        flags: asset.flags | (random.chance(40) as u8) << 1,
        entry,
        months: if entry == 0 { 0 } else { random.pick(&months) },
        value,
        offsets: asset.offsets.min(value),
        insurance_stress: amount(random, scale).min(scale + 1),
        combination_stress: amount(random, scale).min(scale + 1),
        ..asset
    }
}

/// Makes so many in a hundred of the reinsurance assets retrocessions.
pub fn retrocede(random: &mut Random, percent: u64, book: &mut RawBook) {
    for asset in book.assets.iter_mut().filter(|asset| asset.kind == 9) {
        if random.chance(percent) {
            let months = deciding_months(random);
            (asset.entry, asset.months) = (3, random.pick(&months));
        }
    }
}

/// Hands the mitigants to assets, more often to reinsurance.
fn add_mitigants(random: &mut Random, shape: &Shape, scale: u64, book: &mut RawBook) {
    for _ in 0..shape.mitigants {
        let (one, other) = (random.index(book.assets.len()), random.index(book.assets.len()));
        let taker = if book.assets[one].kind == 9 { one } else { other };
        book.assets[taker].mitigants += 1;
    }
    let mitigant = |_| RawMitigant {
        form: random.between(1, 5) as u8,
        flags: if random.chance(60) { 31 } else { random.below(32) as u8 },
        counterparty: random.between(1, shape.counterparties) as u16,
        value: amount(random, scale / 2),
    };
    book.mitigants = (0..shape.mitigants).map(mitigant).collect();
}

/// Gives one or two assets some hundred mitigants more.
pub fn crowd(random: &mut Random, book: &mut RawBook) {
    for _ in 0..random.between(1, 2) {
        let more = random.pick(&[200, 254, 255, 256, 257, 300, 512]);
        if book.assets.is_empty() || book.mitigants.len() + more > 1_500 {
            return;
        }
        let place = random.index(book.assets.len());
        let before: usize =
            book.assets[..place].iter().map(|asset| usize::from(asset.mitigants)).sum();
        let counterparty = random.between(1, book.counterparties.len() as u64) as u16;
        let one = RawMitigant { form: 1, flags: 31, counterparty, value: random.below(50) };
        book.mitigants.splice(before..before, vec![one; more]);
        book.assets[place].mitigants += more as u16;
    }
}

/// Total, base and excluded, such that 14 and 15 mostly accept them.
pub fn set_totals(random: &mut Random, scale: u64, book: &mut RawBook) {
    let reinsurance = || book.assets.iter().filter(|asset| asset.kind == 9);
    let values: u64 = reinsurance().map(|asset| asset.value).sum();
    let room = MOST.saturating_sub(values);
    let times = random.pick(&[0, 1, 5, 20]);
    let more = amount(random, scale.saturating_mul(times)).min(room);
    book.total = (values + more).min(MOST);
    book.base = amount(random, book.total / 2 + 1) as i64;
    if random.chance(15) {
        book.base = -book.base;
    }
    book.excluded = if random.chance(30) { amount(random, more / 2 + 1) } else { 0 };
    book.excluded = book.excluded.min(MOST);
}

/// A book as a fund might have it, under the published schedule: a few large groups, a quarter
/// reinsurance, most mitigants recognised. It is accepted.
pub fn lifelike(random: &mut Random, shape: &Shape) -> RawBook {
    let scale = 1_000_000_000;
    let mut book = random_book(random, shape, scale);
    for asset in &mut book.assets {
        asset.value = asset.value.min(scale);
        asset.offsets = asset.offsets.min(asset.value / 2);
    }
    let banks: Vec<u16> =
        (1..).zip(&book.counterparties).filter(|(_, c)| c.kind == 1).map(|(p, _)| p).collect();
    for mitigant in &mut book.mitigants {
        mitigant.flags = if random.chance(80) { 31 } else { mitigant.flags };
        if !banks.is_empty() && random.chance(80) {
            mitigant.counterparty = random.pick(&banks);
        }
    }
    book.total = book.assets.iter().map(|asset| asset.value).sum();
    book.base = (book.total / 10) as i64;
    book.excluded = 0;
    book
}
