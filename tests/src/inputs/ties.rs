//! Ties before rounding (C-17): groups with tiers whose limits are equal in cents and differ before
//! they are rounded down, or are equal altogether; then seeded funds of that sort.

use super::billings::bank;
use super::rates::product;
use super::Input;
use crate::random::Random;
use crate::raw::*;
use std::collections::BTreeSet;

/// What limits are taken of: any VAF and VAF′, the base, and W.
#[derive(Clone, Copy, Default)]
struct Fund {
    vaf: u64,
    vaf_prime: u64,
    base: i64,
    w: u64,
}

/// A tier and what a group has in it.
type Exposure = (u8, u64);

/// The places of the rows that tiers are of.
const ROW_C: usize = 0;
const ROW_D: usize = 1;
const ROW_E: usize = 2;
const ROW_F: usize = 3;
const ROW_G: usize = 4;
const ROW_H: usize = 5;
const ROW_I: usize = 6;

const ALL_TIERS: [u8; 16] = [0, 1, 2, 3, 4, 5, 6, 7, 8, 9, 10, 11, 12, 13, 14, 15];

/// Every near tie that is listed, each input another.
pub fn all() -> Vec<Input> {
    let parts = [
        ("near ties: VAF against VAF′", vaf_against_vaf_prime()),
        ("near ties: percents", percents()),
        ("near ties: W", lessened()),
        ("near ties: bases", bases()),
        ("near ties: fixed amounts", fixed_amounts()),
        ("near ties: ten-thousandths", ten_thousandths()),
        ("near ties: retrocessions", retrocessions()),
        ("near ties: truly equal", truly_equal()),
        ("near ties: nothing in cents", nothing_in_cents()),
        ("near ties: one cent for all", one_cent_for_all()),
        ("near ties: small parts", drawn(160, random_small_parts)),
        ("near ties: large", large()),
        ("near ties: mixed", drawn(1_500, random_mixed)),
    ];
    let mut met = BTreeSet::new();
    let mut inputs = Vec::new();
    for (name, part) in parts {
        let new = |input: &Input| met.insert((input.schedule.clone(), input.book.clone()));
        inputs.extend(part.into_iter().filter(new).map(|input| Input { name, ..input }));
    }
    inputs
}

/// A book of a specialist fund without records; VAF is its total.
fn empty(fund: &Fund) -> RawBook {
    RawBook { specialist: 1, ..RawBook::empty(fund.vaf, fund.base, 0) }
}

/// Appends a group with these exposures, each in two parts behind each other's: a bank, and below
/// it an ungraded name, a registered life company and a province. The first part of a deposit is
/// the cash that covers another asset.
fn add_group(book: &mut RawBook, exposures: &[Exposure]) {
    let bank = book.counterparty(bank());
    let child = RawCounterparty { parent: bank, ..Default::default() };
    let name = book.counterparty(child);
    let life = book.counterparty(RawCounterparty { kind: 4, grade: 1, ..child });
    let province = book.counterparty(RawCounterparty { kind: 3, ..child });
    let held =
        |kind, counterparty, value| RawAsset { kind, counterparty, value, ..Default::default() };
    let reinsured = |counterparty, entry, months, combination_stress| RawAsset {
        entry,
        months,
        combination_stress,
        ..held(9, counterparty, 0)
    };
    let asset = |tier, amount| match tier {
        0 => held(11, name, amount),
        1 => reinsured(name, 0, 0, amount),
        2 => held(6, name, amount),
        3 => reinsured(bank, 0, 0, amount),
        4..=6 => reinsured(name, 2, [12, 3, 0][usize::from(tier) - 4], amount),
        7..=9 => reinsured(name, 1, [12, 3, 0][usize::from(tier) - 7], amount),
        10 => held(10, life, amount),
        11 => held(5, province, amount),
        12 => held(4, bank, amount),
        _ => reinsured(name, 3, [0, 3, 12][usize::from(tier) - 13], amount),
    };
    for &(tier, amount) in exposures.iter().filter(|(_, amount)| *amount > 1) {
        let part = amount / 3 + 1;
        let cash = RawMitigant { form: 1, flags: 31, counterparty: bank, value: part };
        match tier {
            12 => book.asset(held(11, name, part), &[cash]),
            _ => book.asset(asset(tier, part), &[]),
        }
    }
    for &(tier, amount) in exposures {
        let part = if amount > 1 { amount / 3 + 1 } else { 0 };
        book.asset(asset(tier, amount - part), &[]);
    }
}

/// Appends bank bills that are W, with a bank of a group of its own, and makes VAF′ what it is to
/// be: by assets that are excluded, or by linked reinsurance.
fn complete(book: &mut RawBook, fund: &Fund) {
    let bank = book.counterparty(bank());
    let mut bills = fund.w;
    while bills > 0 {
        let value = bills.min(MOST);
        book.asset(RawAsset { kind: 3, counterparty: bank, value, ..Default::default() }, &[]);
        bills -= value;
    }
    let stressed: u64 = book.assets.iter().map(|asset| asset.combination_stress).sum();
    let more = fund.vaf_prime.saturating_sub(fund.vaf + stressed);
    if more > 0 {
        let linked = RawAsset { kind: 9, flags: 1, counterparty: bank, ..Default::default() };
        book.asset(RawAsset { combination_stress: more, ..linked }, &[]);
    }
    book.excluded = (fund.vaf + stressed).saturating_sub(fund.vaf_prime).min(MOST);
}

/// A fund with one group of these exposures.
fn book(fund: &Fund, exposures: &[Exposure]) -> RawBook {
    let mut book = empty(fund);
    add_group(&mut book, exposures);
    complete(&mut book, fund);
    book
}

fn input(schedule: &RawSchedule, fund: &Fund, exposures: &[Exposure]) -> Input {
    Input::new("near ties", schedule, &book(fund, exposures))
}

/// A schedule of these rows, c, d, e, f, g, h and i, and of none for A3.
fn schedule(version: u16, percents: [u16; 2], rows: [RawRow; 7]) -> RawSchedule {
    let mut all = [none(); 8];
    all[..7].copy_from_slice(&rows);
    RawSchedule { version, percents, rows: all, ..RawSchedule::published() }
}

fn none() -> RawRow {
    RawRow { rates: [0; 3], fixed: 0 }
}

fn rate(first: u16) -> RawRow {
    RawRow { rates: [first, 0, 0], fixed: 0 }
}

fn second_rate(second: u16) -> RawRow {
    RawRow { rates: [0, second, 0], fixed: 0 }
}

fn base_rate(base: u16) -> RawRow {
    RawRow { rates: [0, 0, base], fixed: 0 }
}

fn fixed(fixed: u64) -> RawRow {
    RawRow { rates: [0; 3], fixed }
}

/// The published schedule without its fixed amounts, in a version.
fn published_rates(version: u16) -> RawSchedule {
    let mut schedule = RawSchedule::published();
    schedule.rows.iter_mut().for_each(|row| row.fixed = 0);
    if version == 2 {
        schedule = schedule.tenfold();
    }
    schedule
}

/// Exposures of these tiers, whose limits are about so many cents: any two of them pass the limit;
/// they share it; the higher numbers have more, and the last one alone passes it.
fn around(tiers: &[u8], cents: u64) -> [Vec<Exposure>; 3] {
    let count = tiers.len() as u64;
    let each = |amount: u64| tiers.iter().map(|&tier| (tier, amount)).collect();
    let rising = (1..).zip(tiers).map(|(place, &tier)| (tier, place * (cents / count + 1)));
    [each(cents / 2 + 1), each((cents / count).max(1)), rising.collect()]
}

/// VAF on both sides of VAF′: tier 1 before tier 0 and tier 3 before tier 2 where VAF′ is less.
fn vaf_against_vaf_prime() -> Vec<Input> {
    let mut inputs = Vec::new();
    for vaf in 1..=110u64 {
        for (less, more) in [(7, 0), (3, 0), (2, 0), (1, 0), (0, 0), (0, 1)] {
            let vaf_prime = vaf.saturating_sub(less) + more;
            let fund = Fund { vaf, vaf_prime, ..Default::default() };
            let version = 1 + (vaf % 2) as u16;
            let exposures = around(&[0, 1, 2, 3], product(1, 50, vaf));
            for exposures in &exposures[1..] {
                inputs.push(input(&published_rates(version), &fund, exposures));
            }
        }
    }
    inputs
}

/// What a percent keeps of a fixed amount, beside whole cents and beside what another keeps.
fn percents() -> Vec<Input> {
    let mut inputs = Vec::new();
    for percents @ [first, second] in [[66, 34], [99, 98], [67, 33], [50, 25]] {
        for e in 1..=45 {
            for g in [e, e + 1] {
                let [of_first, of_second] =
                    [first, second].map(|percent| u64::from(percent) * e / 100);
                let mut rows = [none(); 7];
                rows[ROW_E] = fixed(e);
                rows[ROW_G] = fixed(g);
                rows[ROW_C] = fixed(of_first);
                rows[ROW_H] = fixed(of_first);
                rows[ROW_D] = fixed(of_second);
                rows[ROW_I] = fixed(of_second);
                let schedule = schedule(1, percents, rows);
                let tiers = [0, 2, 4, 5, 7, 8, 11, 12];
                let exposures = around(&tiers, of_first);
                let fund = Fund { vaf: 1_000, vaf_prime: 1_000, ..Default::default() };
                inputs.push(input(&schedule, &fund, &exposures[(e % 2) as usize]));
                inputs.push(input(&schedule, &fund, &exposures[2]));
            }
        }
    }
    inputs
}

/// What W leaves of row d's product, beside rates of VAF, of VAF′ and whole cents.
fn lessened() -> Vec<Input> {
    let mut inputs = Vec::new();
    for (version, unit) in [(1, 1u16), (2, 10)] {
        for vaf in 21..=60 {
            for cents in 0..=2 {
                for of_d in [500 * unit, 333 * unit + 1, 777 * unit - 1] {
                    let w = product(version, of_d, vaf) - cents;
                    let fund = Fund { vaf, vaf_prime: vaf - 1, w, ..Default::default() };
                    let beside = |tenths: u64| {
                        rate(((10 * cents + tenths) * 100 * u64::from(unit) / vaf) as u16 + 1)
                    };
                    let mut rows = [none(); 7];
                    rows[ROW_D] = rate(of_d);
                    rows[ROW_I] = beside(8);
                    rows[ROW_H] = beside(4);
                    rows[ROW_F] = beside(2);
                    rows[ROW_C] = fixed(cents);
                    let schedule = schedule(version, [66, 34], rows);
                    let exposures = around(&[0, 1, 2, 3, 10, 11, 12], cents);
                    inputs.push(input(&schedule, &fund, &exposures[(vaf % 3) as usize]));
                }
            }
        }
    }
    inputs
}

/// A base whose parts differ by a fraction, beside whole cents and beside a lower part of VAF.
fn bases() -> Vec<Input> {
    let mut inputs = Vec::new();
    for (version, unit) in [(1, 1), (2, 10)] {
        for base in 1..=150 {
            let cents = product(version, 124 * unit, base);
            let mut rows = [none(); 7];
            rows[ROW_I] = base_rate(125 * unit);
            rows[ROW_H] = base_rate(124 * unit);
            rows[ROW_F] = base_rate(124 * unit + 1);
            rows[ROW_C] = fixed(cents);
            rows[ROW_D] = RawRow { rates: [1, 1, 125 * unit - 1], fixed: cents };
            let schedule = schedule(version, [66, 34], rows);
            let fund = Fund { vaf: base, vaf_prime: base, base: base as i64, w: 0 };
            let exposures = around(&[0, 1, 2, 3, 10, 11, 12], cents);
            inputs.push(input(&schedule, &fund, &exposures[(base % 2) as usize]));
            inputs.push(input(&schedule, &fund, &exposures[2]));
        }
    }
    inputs
}

/// Whole cents beside a first or second rate that gives them and a fraction, in either row.
fn fixed_amounts() -> Vec<Input> {
    let mut inputs = Vec::new();
    for vaf in 1..=90 {
        for number in [25, 437, 1_333] {
            let cents = product(1, number, vaf);
            let [by_rate, whole] = [rate(number), fixed(cents)];
            let fund = Fund { vaf, vaf_prime: vaf, ..Default::default() };
            let mut rows = [none(); 7];
            rows[ROW_I] = by_rate;
            rows[ROW_H] = whole;
            rows[ROW_F] = second_rate(number);
            rows[ROW_C] = whole;
            rows[ROW_D] = RawRow { fixed: cents, ..by_rate };
            let exposures = around(&[0, 1, 2, 3, 10, 11, 12], cents);
            let one = schedule(1, [66, 34], rows);
            inputs.push(input(&one, &fund, &exposures[(vaf % 2) as usize]));
            rows.swap(ROW_I, ROW_H);
            let other = schedule(1, [66, 34], rows);
            inputs.push(input(&other, &fund, &exposures[2]));
        }
    }
    inputs
}

/// C-15: rates that a ten-thousandth parts, the higher numbers with the lower ones and the other way
/// about; and the same per mille, where they are one.
fn ten_thousandths() -> Vec<Input> {
    let rows = [ROW_I, ROW_H, ROW_F, ROW_C, ROW_D];
    let mut inputs = Vec::new();
    for vaf in (10..=170).chain([999, 1_000, 1_001]) {
        for (falling, pattern) in [(true, 0), (true, 2), (false, 2)] {
            let mut fine = [none(); 7];
            for (place, row) in (0..).zip(rows) {
                fine[row] = rate(if falling { 439 - place } else { 435 + place });
            }
            let fund = Fund { vaf, vaf_prime: vaf, ..Default::default() };
            let exposures = around(&[0, 1, 2, 3, 10, 11, 12], product(2, 437, vaf));
            let schedule = schedule(2, [66, 34], fine);
            inputs.push(input(&schedule, &fund, &exposures[pattern]));
        }
        let mut coarse = [none(); 7];
        rows.iter().for_each(|&row| coarse[row] = rate(43));
        let fund = Fund { vaf, vaf_prime: vaf, ..Default::default() };
        let exposures = around(&[0, 1, 2, 3, 10, 11, 12], product(1, 43, vaf));
        inputs.push(input(&schedule(1, [66, 34], coarse), &fund, &exposures[2]));
    }
    inputs
}

/// Tiers 13 to 15 beside each other, and beside rates of VAF a little above theirs and below.
fn retrocessions() -> Vec<Input> {
    let mut inputs = Vec::new();
    for vaf_prime in 0..=40 {
        for (version, unit) in [(1, 1u16), (2, 10)] {
            for rates in [[500, 330, 170], [501, 331, 171], [499, 329, 169]] {
                let [of_13, of_14, of_15] = rates.map(|number| rate(number * unit));
                let mut rows = [none(); 7];
                (rows[ROW_I], rows[ROW_H], rows[ROW_F]) = (of_13, of_14, of_15);
                rows[ROW_C] = fixed(product(1, 500, vaf_prime));
                rows[ROW_D] = fixed(product(1, 330, vaf_prime));
                (rows[ROW_E], rows[ROW_G]) = (of_13, of_14);
                let schedule = schedule(version, [66, 34], rows);
                let fund = Fund { vaf: vaf_prime + 1, vaf_prime, ..Default::default() };
                let tiers = [0, 1, 2, 3, 7, 8, 10, 11, 12, 13, 14, 15];
                let exposures = around(&tiers, product(1, 500, vaf_prime));
                inputs.push(input(&schedule, &fund, &exposures[0]));
                inputs.push(input(&schedule, &fund, &exposures[2]));
            }
        }
    }
    inputs
}

/// Limits that are equal before rounding too, whole or not: by the same rate, by twice the rate and
/// half of it kept, by a base as large as VAF.
fn truly_equal() -> Vec<Input> {
    let mut inputs = Vec::new();
    for vaf in 1..=60 {
        for (version, unit) in [(1, 1), (2, 10)] {
            let mut rows = [rate(500 * unit); 7];
            rows[ROW_E] = rate(1_000 * unit);
            rows[ROW_G] = base_rate(1_000 * unit);
            rows[ROW_F] = second_rate(500 * unit);
            rows[ROW_H] = base_rate(500 * unit);
            let schedule = schedule(version, [50, 50], rows);
            let fund = Fund { vaf, vaf_prime: vaf, base: vaf as i64, w: 0 };
            let exposures = around(&ALL_TIERS, vaf / 2);
            inputs.push(input(&schedule, &fund, &exposures[(vaf % 2) as usize]));
        }
    }
    inputs
}

/// Limits of no whole cent, each another part of one.
fn nothing_in_cents() -> Vec<Input> {
    let mut inputs = Vec::new();
    for vaf in 0..=24u64 {
        for vaf_prime in [vaf, vaf.saturating_sub(1), vaf + 1, vaf / 2] {
            for version in [1, 2] {
                let fund = Fund { vaf, vaf_prime, ..Default::default() };
                let exposures = around(&ALL_TIERS, 4 * u64::from(version));
                inputs.push(input(&published_rates(version), &fund, &exposures[2]));
            }
        }
    }
    inputs
}

/// The thirteen tiers of rows within one cent: the rows' rates a few ten-thousandths apart, in
/// several orders.
fn one_cent_for_all() -> Vec<Input> {
    let mut inputs = Vec::new();
    for turn in 0..7 {
        for reversed in [false, true] {
            for vaf in [11, 40, 97, 98, 99, 200, 301] {
                for percents in [[100, 99], [99, 98]] {
                    let mut order: [u16; 7] = std::array::from_fn(|place| place as u16);
                    order.rotate_left(turn);
                    if reversed {
                        order.reverse();
                    }
                    let rows = order.map(|more| rate(430 + more));
                    let schedule = schedule(2, percents, rows);
                    let fund = Fund { vaf, vaf_prime: vaf - 1, ..Default::default() };
                    let exposures = around(&ALL_TIERS[..13], product(2, 430, vaf));
                    inputs.push(input(&schedule, &fund, &exposures[2]));
                }
            }
        }
    }
    inputs
}

/// Amounts near M: a cent of VAF, a percent of a fixed amount, W, a base whose part differs from
/// VAF's by a few ten-thousandths of a cent, and halves.
fn large() -> Vec<Input> {
    let mut inputs = Vec::new();
    for less in 0..40 {
        let fund = Fund { vaf: MOST - less, vaf_prime: MOST - less - 1, ..Default::default() };
        let of_vaf = |rate| product(1, rate, fund.vaf);
        for (tiers, cents) in [([0, 1], of_vaf(25)), ([2, 3], of_vaf(50))] {
            for exposures in around(&tiers, cents) {
                inputs.push(input(&published_rates(1), &fund, &exposures));
            }
        }

        let e = MOST - less;
        let mut rows = [fixed(e * 66 / 100); 7];
        rows[ROW_E] = fixed(e);
        rows[ROW_G] = fixed(e - 1);
        let tiers = [0, 2, 5, 8, 10, 11, 12];
        let exposures = around(&tiers, MOST / 20);
        inputs.push(input(&schedule(1, [66, 34], rows), &fund, &exposures[2]));

        let mut rows = [rate(500), rate(1_000), none(), rate(500), none(), rate(500), none()];
        rows[ROW_I] = fixed(of_vaf(500));
        let lessened = Fund { w: MOST / 2, ..fund };
        let exposures = around(&[0, 2, 3, 10, 11, 12, 13], MOST / 20);
        inputs.push(input(&schedule(1, [66, 34], rows), &lessened, &exposures[2]));

        let (schedule, fund) = unlike_in_ten_thousandths(666_000_000 - less, less % 20);
        let exposures = around(&[0, 2, 10, 11, 12], MOST * 7 / 5);
        inputs.push(input(&schedule, &fund, &exposures[(less % 3) as usize]));
    }
    inputs
}

/// 15,000 ten-thousandths of VAF, which is about 15,000 times `times`, and 14,999 of the base, which
/// are `less` ten-thousandths of a cent less.
fn unlike_in_ten_thousandths(times: u64, less: u64) -> (RawSchedule, Fund) {
    let mut rows = [rate(15_000); 7];
    rows[ROW_H] = base_rate(14_999);
    rows[ROW_F] = base_rate(14_999);
    rows[ROW_D] = base_rate(14_999);
    let vaf = 14_999 * times + less;
    let base = (15_000 * times + less) as i64;
    (schedule(2, [66, 34], rows), Fund { vaf, vaf_prime: vaf, base, w: 0 })
}

/// So many inputs that a generator makes.
fn drawn(count: u64, made: fn(&mut Random) -> (RawSchedule, Fund, Vec<Exposure>)) -> Vec<Input> {
    let one = |number| {
        let (schedule, fund, exposures) = made(&mut Random::new(17, number));
        input(&schedule, &fund, &exposures)
    };
    (0..count).map(one).collect()
}

/// A fund with near ties, now and then with a second such group; any of those above in small and in
/// large.
pub fn random(random: &mut Random) -> (RawSchedule, RawBook) {
    let (schedule, fund, exposures) = match random.below(100) {
        0..=59 => random_mixed(random),
        60..=74 => random_small_parts(random),
        75..=84 => {
            let vaf = random.between(1, 200);
            let vaf_prime = random.between(vaf - vaf / 8, vaf + vaf / 20);
            let fund = Fund { vaf, vaf_prime, base: random.below(vaf) as i64, w: 0 };
            let version = random.between(1, 2) as u16;
            (published_rates(version), fund, random_exposures(random, product(1, 50, vaf)))
        }
        _ => {
            let times = random.between(600_000_000, 666_666_000);
            let (schedule, fund) = unlike_in_ten_thousandths(times, random.below(25));
            let mut amount = |tier| (tier, random.between(MOST / 10, MOST * 7 / 5));
            (schedule, fund, [0, 2, 10, 11, 12].map(&mut amount).to_vec())
        }
    };
    let mut book = empty(&fund);
    add_group(&mut book, &exposures);
    if random.chance(20) {
        add_group(&mut book, &exposures[exposures.len() / 2..]);
    }
    complete(&mut book, &fund);
    (schedule, book)
}

/// Exposures around so many cents in a few tiers, in many or in all.
fn random_exposures(random: &mut Random, cents: u64) -> Vec<Exposure> {
    let cents = cents.min(MOST / 90);
    let percent = random.pick(&[40, 70, 100]);
    let mut exposures = Vec::new();
    for tier in ALL_TIERS {
        if random.chance(percent) || tier == 15 && exposures.is_empty() {
            let any = random.between(1, cents + 1);
            let amounts = [1, any, cents / 3 + 1, cents / 2 + 1, cents.max(1), cents + 1];
            exposures.push((tier, random.pick(&amounts)));
        }
    }
    exposures
}

/// 99 per cent of row g's rate of VAF′ and 98 of row e's, which is a few millionths of VAF′ less: more
/// than a cent each, and a few cents at most.
fn random_small_parts(random: &mut Random) -> (RawSchedule, Fund, Vec<Exposure>) {
    let times = random.between(104, 150);
    let any = random.below(10);
    let less = random.pick(&[1, 1, any]);
    let mut rows = [none(); 7];
    rows[ROW_E] = rate((99 * times + less) as u16);
    rows[ROW_G] = rate((98 * times + less) as u16);
    rows[ROW_I] = rate((99 * 98 * times / 100) as u16);
    rows[ROW_H] = rate((99 * 98 * times / 100 + 1) as u16);
    let vaf_prime = random.pick(&[1, 2, 7, 8, 8, 9]);
    let fund = Fund { vaf: vaf_prime, vaf_prime, ..Default::default() };
    (schedule(2, [99, 98], rows), fund, random_exposures(random, 15))
}

/// The cents that the limits of a fund are to be.
struct Aim {
    version: u16,
    fund: Fund,
    cents: u64,
}

impl Aim {
    /// What the version's rates are parts of.
    fn unit(&self) -> u128 {
        if self.version == 2 {
            10_000
        } else {
            1_000
        }
    }

    /// The least and the greatest number whose `step` parts of `unit` are the cents, rounded down;
    /// the greatest is below the least where there is none.
    fn between(&self, unit: u128, step: u128) -> (u128, u128) {
        let cents = u128::from(self.cents);
        match step {
            0 => (1, 0),
            _ => ((cents * unit).div_ceil(step), ((cents + 1) * unit - 1) / step),
        }
    }

    /// A row that gives the cents by one of its four parts, where the percent is kept and this VAF is
    /// used, and gives less by the others.
    fn row(&self, random: &mut Random, percent: u64, vaf: u64) -> RawRow {
        let percent = u128::from(percent);
        let of = |amount: u64| self.between(100 * self.unit(), percent * u128::from(amount));
        let (least_fixed, most_fixed) = self.between(100, percent);
        let most_rate = self.unit() * 3 / 2;
        let below = |random: &mut Random, least: u128| {
            let less = least.saturating_sub(1).min(most_rate) as u64;
            if random.chance(30) {
                random.between(less / 2, less) as u16
            } else {
                0
            }
        };
        let mut row = none();
        let ranges = [of(vaf), of(vaf), of(self.fund.base.unsigned_abs())];
        for (rate, (least, _)) in row.rates.iter_mut().zip(ranges) {
            *rate = below(random, least);
        }
        let place = random.pick(&[0, 0, 1, 2]);
        let (least, greatest) = (ranges[place].0, ranges[place].1.min(most_rate));
        if least <= greatest && random.chance(75) {
            row.rates[place] = random.between(least as u64, greatest as u64) as u16;
            row.fixed = if random.chance(30) { least_fixed.saturating_sub(1) as u64 } else { 0 };
        } else {
            row.fixed = random.between(least_fixed as u64, most_fixed as u64);
        }
        row.fixed = row.fixed.min(MOST);
        row
    }
}

/// Each row's limit made in any way, all of them within one cent.
fn random_mixed(random: &mut Random) -> (RawSchedule, Fund, Vec<Exposure>) {
    let version = random.pick(&[1, 2, 2]);
    let vaf = match random.below(4) {
        0 => random.between(1, 60),
        1 => random.between(1, 1_000),
        2 => random.between(1, 10_000),
        _ => MOST - random.below(100),
    };
    let vaf_prime = match random.below(4) {
        0 => vaf,
        1 => (vaf + random.below(4)).min(MOST),
        _ => vaf - random.below(vaf.min(7)),
    };
    let base = (vaf / 2 + random.below(vaf)).min(MOST) as i64;
    let cents = match random.below(4) {
        0 => random.below(4),
        1 => vaf_prime * random.pick(&[500, 330, 170]) / 1_000,
        _ => random.below(vaf + 1),
    };
    let any = random.between(1, 100) as u16;
    let percents = [random.pick(&[100, 66, any]), random.pick(&[99, 34, 50])];
    let mut aim = Aim { version, fund: Fund { vaf, vaf_prime, base, w: 0 }, cents };
    let [first, second] = percents.map(u64::from);
    let mut rows = [none(); 7];
    for (place, row) in rows.iter_mut().enumerate() {
        let kept = random.pick(&[100, first, first, second]);
        *row = match place {
            ROW_E | ROW_G => aim.row(random, kept, vaf_prime),
            ROW_H | ROW_I if random.chance(50) => aim.row(random, 100, vaf_prime),
            _ => aim.row(random, 100, vaf),
        };
    }
    let of_d = random.between(1, (aim.unit() * 3 / 2) as u64) as u16;
    if random.chance(50) && product(version, of_d, vaf) >= cents {
        rows[ROW_D] = rate(of_d);
        aim.fund.w = product(version, of_d, vaf) - cents;
    }
    (schedule(version, percents, rows), aim.fund, random_exposures(random, cents))
}
