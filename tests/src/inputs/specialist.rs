//! Specialist funds (C-11): the limits of tiers 13 to 15 beside those of the other tiers, and
//! seeded funds that mostly retrocede.

use super::books::{self, Parents, Shape};
use super::extremes::sixteen_tiers;
use super::{rates, Input};
use crate::random::Random;
use crate::raw::*;

/// The rates of tiers 13 to 15 and those beside them.
const RATES: [u16; 13] = [0, 1, 169, 170, 171, 329, 330, 331, 499, 500, 501, 1_000, 1_500];

pub fn all() -> Vec<Input> {
    let parts = [limits(), ties(), ranks()];
    parts.into_iter().flatten().collect()
}

/// All rows of these VAF rates, without second rate, base and fixed amount; all of a limit is kept
/// after a downgrade.
fn plain_rows(rates: [u16; 8]) -> RawSchedule {
    let rows = rates.map(|rate| RawRow { rates: [rate, 0, 0], fixed: 0 });
    RawSchedule { percents: [100, 100], rows, ..RawSchedule::published() }
}

/// VAF′ from 0 on, with VAF at it and above, and with a base and fixed amounts that win in every
/// other row and without.
fn limits() -> Vec<Input> {
    let large = [999, 1_000, 1_001, 999_999, 1_000_001, MOST - 29, MOST];
    let mut inputs = Vec::new();
    for vaf_prime in (0..=210).chain(large) {
        for (more, base) in [(0, 0), (29, MOST as i64), (29, -(MOST as i64))] {
            let mut book = sixteen_tiers(1, 7, vaf_prime);
            book.total = (vaf_prime + more).min(MOST);
            book.excluded += book.total - vaf_prime;
            book.base = base;
            inputs.push(Input::new("specialist limits", &RawSchedule::published(), &book));
            let none = RawSchedule { percents: [0, 0], ..plain_rows([0; 8]) };
            inputs.push(Input::new("specialist limits", &none, &book));
        }
    }
    inputs
}

/// All other tiers at one limit, at and beside that of 13, 14 or 15, down to where these tie with
/// each other.
fn ties() -> Vec<Input> {
    let mut inputs = Vec::new();
    for rate in RATES {
        for vaf in [0, 1, 2, 3, 5, 6, 7, 12, 71, 100, 1_000, 1_001] {
            for amount in [1, 2, 50] {
                let book = sixteen_tiers(2, amount, vaf);
                inputs.push(Input::new("specialist ties", &plain_rows([rate; 8]), &book));
            }
        }
    }
    inputs
}

/// Tiers 13 to 15 at each rank among the others: the rates of the rows in turn, rising and falling.
fn ranks() -> Vec<Input> {
    let rates = [100, 170, 171, 250, 330, 400, 500, 600];
    let mut inputs = Vec::new();
    for turn in 0..8 {
        let mut turned = rates;
        turned.rotate_left(turn);
        let mut falling = turned;
        falling.reverse();
        for amount in [1, 30, 170, 400] {
            for rows in [turned, falling] {
                let book = sixteen_tiers(1, amount, 1_000);
                inputs.push(Input::new("specialist ranks", &plain_rows(rows), &book));
            }
        }
    }
    inputs
}

/// A small specialist fund with few groups, most of its assets retrocessions, under rates beside
/// those of tiers 13 to 15, in either version. Now and then it is not marked as one.
pub fn random(random: &mut Random) -> (RawSchedule, RawBook) {
    let shape = Shape {
        counterparties: random.between(1, 6),
        assets: random.between(1, 16),
        mitigants: random.below(8),
        parents: random.pick(&[Parents::None, Parents::Some, Parents::Chain]),
    };
    let scale = random.pick(&[3, 10, 100, 1_000, 1_000_000, MOST / 40]);
    let mut book = books::random_book(random, &shape, scale);
    for asset in &mut book.assets {
        if random.chance(60) {
            *asset = books::reinsurance(random, *asset, scale);
        }
    }
    books::retrocede(random, 75, &mut book);
    books::set_totals(random, scale, &mut book);
    book.specialist = random.chance(92) as u8;
    (random_schedule(random, scale), book)
}

fn random_schedule(random: &mut Random, scale: u64) -> RawSchedule {
    let mut schedule = RawSchedule::published();
    if random.chance(80) {
        schedule.rows = std::array::from_fn(|_| random_row(random, scale));
    }
    if random.chance(50) {
        schedule.percents = std::array::from_fn(|_| random.pick(&[0, 33, 34, 50, 66, 67, 100]));
    }
    if random.chance(25) {
        schedule = rates::beside_ten_times(random, &schedule);
    }
    schedule
}

fn random_row(random: &mut Random, scale: u64) -> RawRow {
    let mut rate = |percent| if random.chance(percent) { random.pick(&RATES) } else { 0 };
    let rates = [rate(95), rate(20), rate(30)];
    let fixed = if random.chance(25) { books::amount(random, scale) } else { 0 };
    RawRow { rates, fixed }
}
