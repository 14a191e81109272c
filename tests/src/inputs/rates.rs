//! Rates in ten-thousandths (C-15): which versions of a schedule pass, the bounds of each, what a
//! rate counts in each beside percents, fixed amounts, W and the rates of C-11; and seeded funds,
//! mostly under schedules of version 2.

use super::edges::sample;
use super::extremes::sixteen_tiers;
use super::{books, specialist, Family, Input, Room};
use crate::random::Random;
use crate::raw::*;

pub fn all() -> Vec<Input> {
    let parts = [
        versions(),
        bounds(),
        percents_and_amounts(),
        damage(),
        rooms(),
        single_rates(),
        small_limits(),
        ties(),
        same_numbers(),
        lessened(),
        wrapping(),
        largest(),
    ];
    parts.into_iter().flatten().collect()
}

/// The published limits in a version.
fn published(version: u16) -> RawSchedule {
    match version {
        2 => RawSchedule::published().tenfold(),
        _ => RawSchedule { version, ..RawSchedule::published() },
    }
}

/// All rows of the same three rates, and nothing fixed.
fn plain(version: u16, rates: [u16; 3]) -> RawSchedule {
    RawSchedule { rows: [RawRow { rates, fixed: 0 }; 8], ..published(version) }
}

/// Each of a schedule's rates, by its row and its place there.
fn each_rate() -> impl Iterator<Item = (usize, usize)> {
    (0..8).flat_map(|row| (0..3).map(move |rate| (row, rate)))
}

/// One group with 1 in each tier, so that each limit shows; VAF, VAF′ and base are the same.
fn every_tier(vaf: u64) -> RawBook {
    RawBook { base: vaf as i64, ..sixteen_tiers(1, 1, vaf) }
}

/// A version with rates that pass in both versions, and with such that pass in the second alone.
fn of_version(version: u16) -> [RawSchedule; 2] {
    [published(1), published(2)].map(|rates| RawSchedule { version, ..rates })
}

/// Each value of either byte of the version, with both sorts of rates.
fn versions() -> Vec<Input> {
    let mut inputs = Vec::new();
    for byte in 0..=255 {
        for version in [byte, byte << 8 | 1, byte << 8 | 2] {
            for schedule in of_version(version) {
                inputs.push(Input::new("schedule versions", &schedule, &sample()));
            }
        }
    }
    inputs
}

/// A few versions that pass and such that do not, each with both sorts of rates.
pub fn few_versions() -> impl Iterator<Item = RawSchedule> {
    [0, 1, 2, 3, 256, 257, 258, 513, 65_535].into_iter().flat_map(of_version)
}

/// Rates beside the most of either version, some of whose tenfold is small in 16 bits, at each
/// place of versions that pass and of such that do not.
fn bounds() -> Vec<Input> {
    let numbers = [
        0, 1_499, 1_500, 1_501, 6_553, 6_554, 8_053, 8_054, 13_108, 14_999, 15_000, 15_001, 32_768,
        60_000, 65_535,
    ];
    let mut inputs = Vec::new();
    for (row, rate) in each_rate() {
        for number in numbers {
            for version in [0, 1, 2, 3] {
                let mut schedule = published(version);
                schedule.rows[row].rates[rate] = number;
                inputs.push(Input::new("rates", &schedule, &every_tier(1_000)));
            }
        }
    }
    inputs
}

/// What is the same in both versions: percents and fixed amounts, and their bounds.
fn percents_and_amounts() -> Vec<Input> {
    let percents = [0, 1, 33, 34, 66, 99, 100, 101, 340, 660, 999, 1_000, 1_001, 65_535];
    let amounts =
        [1, 9, 10, 12_345, MOST / 10, MOST - 1, MOST, MOST + 1, 10 * MOST, 10 * MOST + 1, u64::MAX];
    let mut inputs = Vec::new();
    for version in [1, 2] {
        let mut push = |change: &dyn Fn(&mut RawSchedule)| {
            let mut schedule = published(version);
            change(&mut schedule);
            inputs.push(Input::new("percents and amounts", &schedule, &every_tier(1_000)));
        };
        for place in 0..2 {
            percents.iter().for_each(|&percent| push(&|it| it.percents[place] = percent));
        }
        for row in 0..8 {
            amounts.iter().for_each(|&amount| push(&|it| it.rows[row].fixed = amount));
        }
    }
    inputs
}

/// A schedule of version 2 with each of its bits turned, and of each length.
fn damage() -> Vec<Input> {
    let whole = Input::new("damaged rates", &published(2), &every_tier(1_000));
    let turned = |bit: usize| {
        let mut input = whole.clone();
        input.schedule[bit / 8] ^= 1 << (bit % 8);
        input
    };
    let resized = |length| {
        let mut input = whole.clone();
        input.schedule.resize(length, 0);
        input
    };
    (0..8 * whole.schedule.len()).map(turned).chain((0..=130).map(resized)).collect()
}

fn rooms() -> Vec<Input> {
    let input = Input::new("rates in rooms", &published(2), &every_tier(1_000));
    let lengths = (0..=800).step_by(10).chain(705..=720);
    lengths.map(|length| Input { room: Room::Bytes(length), ..input.clone() }).collect()
}

/// One rate of one row, and no other part of a limit: 4.37 per cent, and numbers that are another
/// part in the other version.
fn single_rates() -> Vec<Input> {
    let mut inputs = Vec::new();
    for (row, rate) in each_rate() {
        for number in [1, 43, 44, 437, 438, 1_500, 4_370, 15_000] {
            for vaf in [22, 23, 71, 10_000, MOST - 1, MOST] {
                for version in [1, 2] {
                    let mut schedule = plain(version, [0; 3]);
                    schedule.rows[row].rates[rate] = number;
                    inputs.push(Input::new("single rates", &schedule, &every_tier(vaf)));
                }
            }
        }
    }
    inputs
}

/// VAF from 0 on, and so all limits from 0 on (T6 and T7 among them), under ten times the published
/// rates, and one ten-thousandth more and less; nothing is fixed.
fn small_limits() -> Vec<Input> {
    let large = [999, 1_000, 1_001, 9_999, 10_001, MOST - 29, MOST];
    let mut inputs = Vec::new();
    for vaf in (0..=210).chain(large) {
        for more in [-1, 0, 1] {
            let mut schedule = published(2);
            for row in &mut schedule.rows {
                row.rates = row.rates.map(|rate| rate.saturating_add_signed(more));
                row.fixed = 0;
            }
            inputs.push(Input::new("small limits", &schedule, &every_tier(vaf)));
        }
    }
    inputs
}

/// All other tiers at one limit, at and beside that of 13, 14 or 15, which are per mille whatever
/// the version.
fn ties() -> Vec<Input> {
    let numbers = [
        0, 1, 170, 330, 500, 1_699, 1_700, 1_701, 3_299, 3_300, 3_301, 4_999, 5_000, 5_001, 15_000,
    ];
    let mut inputs = Vec::new();
    for number in numbers {
        for vaf in [6, 71, 100, 999, 10_000, 10_001, 1_000_003] {
            for amount in [1, 50] {
                let book = sixteen_tiers(2, amount, vaf);
                let schedule = RawSchedule { percents: [100, 100], ..plain(2, [number, 0, 0]) };
                inputs.push(Input::new("ties", &schedule, &book));
            }
        }
    }
    inputs
}

/// Schedules that differ in the version alone, and pass in both.
fn same_numbers() -> Vec<Input> {
    let mut inputs = Vec::new();
    for number in [1, 10, 150, 170, 330, 437, 500, 1_500] {
        for vaf in [71, 1_000, 10_007, MOST] {
            for fixed in [0, 50] {
                for version in [1, 2] {
                    let mut schedule = plain(version, [number; 3]);
                    schedule.rows.iter_mut().for_each(|row| row.fixed = fixed);
                    inputs.push(Input::new("same numbers", &schedule, &every_tier(vaf)));
                }
            }
        }
    }
    inputs
}

/// A deposit of so much with one bank, by cash that covers a part of the bills of another, and so
/// much of its bills beside: W.
fn with_w(w: u64, deposit: u64, vaf: u64) -> RawBook {
    let mut book = RawBook::empty(vaf, 0, 0);
    let bank = RawCounterparty { kind: 1, grade: 1, ..Default::default() };
    let [issuer, other] = [bank, bank].map(|bank| book.counterparty(bank));
    let cash = [RawMitigant { form: 1, flags: 31, counterparty: other, value: deposit }];
    let mut left = w + deposit;
    while left > 0 {
        let value = left.min(MOST);
        let bills = RawAsset { kind: 3, counterparty: issuer, value, ..Default::default() };
        book.asset(bills, if book.assets.is_empty() { &cash } else { &[] });
        left -= value;
    }
    book
}

/// Row d's two rates alone.
fn row_d(version: u16, first: u16, second: u16) -> RawSchedule {
    let mut schedule = plain(version, [0; 3]);
    schedule.rows[1].rates = [first, second, 0];
    schedule
}

/// The whole cents of a rate's product, as the version has the rate.
pub fn product(version: u16, rate: u16, vaf: u64) -> u64 {
    let under = if version == 2 { 10_000 } else { 1_000 };
    (u128::from(rate) * u128::from(vaf) / under) as u64
}

/// W at and beside the product that it lessens, and next to none.
fn lessened() -> Vec<Input> {
    let rates = [(1, 1), (1, 500), (1, 1_500), (2, 1), (2, 437), (2, 5_000), (2, 15_000)];
    let mut inputs = Vec::new();
    for (version, rate) in rates {
        for vaf in [71, 9_999, 10_000, 10_001, MOST] {
            for second in [0, rate / 3] {
                let product = product(version, rate, vaf);
                for w in [0, 1, product.saturating_sub(1), product, product + 1] {
                    let schedule = row_d(version, rate, second);
                    inputs.push(Input::new("lessened", &schedule, &with_w(w, 50, vaf)));
                }
            }
        }
    }
    inputs
}

/// The least W whose 10,000 times is `turns` times 2^64 or just more: 8,384 more at one turn.
fn wrapping_w(turns: u64) -> u64 {
    ((u128::from(turns) << 64).div_ceil(10_000)) as u64
}

/// W whose 10,000 times is almost nothing in 64 bits, beside that, and the largest W.
fn wrapping() -> Vec<Input> {
    let around = |turns| [wrapping_w(turns) - 1, wrapping_w(turns), wrapping_w(turns) + 1];
    let mut inputs = Vec::new();
    for w in (1..=4).flat_map(around).chain([900 * MOST - 1]) {
        for (version, rate, second) in [(1, 1_500, 0), (1, 500, 250), (2, 15_000, 0), (2, 437, 1)] {
            let schedule = row_d(version, rate, second);
            inputs.push(Input::new("wrapping", &schedule, &with_w(w, 1, MOST)));
        }
    }
    // W alone: without a deposit no line shows row d.
    inputs.push(Input::new("wrapping", &published(2), &with_w(900 * MOST, 0, MOST)));
    inputs
}

/// The largest products, with percents and without, and beside fixed amounts.
fn largest() -> Vec<Input> {
    let most = MOST as i64;
    let mut inputs = Vec::new();
    for (version, rate) in [(1, 1_500), (2, 14_999), (2, 15_000)] {
        for percents in [[100, 100], [99, 1], [66, 34], [0, 0]] {
            for fixed in [0, MOST - 1, MOST] {
                for base in [most, 0, -most] {
                    let mut schedule = RawSchedule { percents, ..plain(version, [rate; 3]) };
                    schedule.rows.iter_mut().for_each(|row| row.fixed = fixed);
                    let book = RawBook { base, ..every_tier(MOST) };
                    inputs.push(Input::new("largest rates", &schedule, &book));
                }
            }
        }
    }
    inputs
}

/// A rate of version 2: any, often one of note in one of the versions.
fn random_rate(random: &mut Random) -> u16 {
    let few = [
        0, 1, 9, 10, 25, 250, 437, 1_499, 1_500, 1_501, 1_700, 3_300, 5_000, 9_999, 10_001, 14_999,
        15_000,
    ];
    if random.chance(50) {
        random.pick(&few)
    } else {
        random.below(15_001) as u16
    }
}

/// A schedule of version 1 in version 2, half of them with some rates that are a few
/// ten-thousandths from ten times theirs.
pub fn beside_ten_times(random: &mut Random, schedule: &RawSchedule) -> RawSchedule {
    let mut schedule = schedule.tenfold();
    if random.chance(50) {
        for rate in schedule.rows.iter_mut().flat_map(|row| &mut row.rates) {
            if random.chance(50) {
                *rate = (*rate + random.below(21) as u16).saturating_sub(10).min(15_000);
            }
        }
    }
    schedule
}

/// The same, a third of them with some rates from the whole range of version 2.
pub fn restated(random: &mut Random, schedule: &RawSchedule) -> RawSchedule {
    let mut schedule = beside_ten_times(random, schedule);
    if random.chance(33) {
        for rate in schedule.rows.iter_mut().flat_map(|row| &mut row.rates) {
            if random.chance(50) {
                *rate = random_rate(random);
            }
        }
    }
    schedule
}

/// Mostly of version 2; now and then of one that does not pass, or with a rate that does not.
fn random_schedule(random: &mut Random, scale: u64) -> RawSchedule {
    let mut schedule = books::random_schedule(random, scale);
    if schedule.version == 1 && random.chance(90) {
        schedule = restated(random, &schedule);
    }
    if random.chance(4) {
        schedule.version = random.pick(&[0, 1, 3, 0x0102, 0x0200, 0x0201]);
    }
    if random.chance(4) {
        let rates = &mut schedule.rows[random.index(8)].rates;
        rates[random.index(3)] = random.pick(&[1_500, 1_501, 15_000, 15_001, 60_000]);
    }
    schedule
}

/// A book as the report gets it, of any fund or of a specialist one, one with every tier, or one
/// whose bills lessen row d; under rates in ten-thousandths.
pub fn random(random: &mut Random) -> (RawSchedule, RawBook) {
    match random.below(100) {
        0..=44 => under_rates(random, books::random),
        45..=64 => under_rates(random, specialist::random),
        65..=89 => {
            let book = random_tiers(random);
            (random_schedule(random, book.total / 20 + 1), book)
        }
        90..=97 => random_w(random),
        _ => random_wrapping(random),
    }
}

fn under_rates(random: &mut Random, family: Family) -> (RawSchedule, RawBook) {
    let (_, book) = family(random);
    (random_schedule(random, book.total / 20 + 1), book)
}

/// Every tier in one to three groups.
fn random_tiers(random: &mut Random) -> RawBook {
    let any = random.between(1, MOST);
    let vaf = random.pick(&[71, 1_000, 9_999, 10_000, 1_000_003, 1_000_000_007, MOST, any]);
    let amount = vaf / random.pick(&[4, 10, 50, 200]) + random.below(3);
    let groups = random.between(1, 3) as u16;
    let mut book = sixteen_tiers(groups, amount.min(MOST / 33), vaf);
    let base = books::amount(random, vaf) as i64;
    book.base = if random.chance(15) { -base } else { base };
    book
}

/// W at or beside the product of row d's first rate.
fn random_w(random: &mut Random) -> (RawSchedule, RawBook) {
    let vaf = random.pick(&[71, 10_000, 1_000_003, 1_000_000_007, MOST]);
    let mut schedule = random_schedule(random, vaf / 20);
    schedule.rows[1].fixed = 0;
    let [first, second, _] = schedule.rows[1].rates;
    schedule.rows[1].rates[1] = random.pick(&[0, second, first / 4]);
    let product = product(schedule.version, first, vaf);
    let less = random.pick(&[0, 1, 2, product / 3, product / 2]);
    let w = product.saturating_sub(less) + random.below(2);
    (schedule, with_w(w, random.between(1, vaf / 2), vaf))
}

/// W whose 10,000 times is in 64 bits no more than the product that it lessens.
fn random_wrapping(random: &mut Random) -> (RawSchedule, RawBook) {
    let version = random.pick(&[1, 2, 2]);
    let second = random.below(100) as u16;
    let schedule = match version {
        1 => row_d(1, random.between(100, 1_500) as u16, second),
        _ => row_d(2, random.between(1_000, 15_000) as u16, second),
    };
    let more = random.below(MOST / 20);
    let w = wrapping_w(random.between(1, 4)) + random.pick(&[0, 1, more]);
    (schedule, with_w(w, random.between(1, MOST), MOST))
}
