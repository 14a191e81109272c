//! The largest books, reports, sums and counts, and the smallest and largest schedules.

use super::{Input, Room};
use crate::raw::*;

const COUNTERPARTIES: u16 = 500;
const ASSETS: usize = 900;
const MITIGANTS: usize = 1_500;

pub fn all() -> Vec<Input> {
    let parts = [
        largest_reports(),
        largest_groups(),
        largest_exposures(),
        largest_reinsurance(),
        counts_and_chains(),
    ];
    parts.into_iter().flatten().collect()
}

fn bank() -> RawCounterparty {
    RawCounterparty { kind: 1, grade: 1, ..Default::default() }
}

/// All rates, percents and fixed amounts at 0, or at their most in either version.
fn schedules() -> [RawSchedule; 4] {
    let rows = |rate, fixed| [RawRow { rates: [rate; 3], fixed }; 8];
    let published = RawSchedule::published();
    let most = RawSchedule { percents: [100, 100], rows: rows(1_500, MOST), ..published.clone() };
    [
        RawSchedule { percents: [0, 0], rows: rows(0, 0), ..published.clone() },
        RawSchedule { version: 2, rows: rows(15_000, MOST), ..most.clone() },
        most,
        published,
    ]
}

fn under_all_schedules(name: &'static str, books: &[RawBook]) -> Vec<Input> {
    let under = |book| schedules().map(|schedule| Input::new(name, &schedule, book));
    books.iter().flat_map(under).collect()
}

/// A book whose report has a line for every asset and every mitigant, 2,400 in all: each of 500
/// banks has tiers 0 (any other), 12 (cash), 11 (guarantee) and 2 (debt), and 400 of them 3
/// (reinsurance).
pub fn largest_report_book() -> RawBook {
    let mut book = RawBook::empty(MOST, MOST as i64, 0);
    book.counterparties = vec![bank(); usize::from(COUNTERPARTIES)];
    let parts =
        [1, 4, 3].into_iter().flat_map(|form| (1..=COUNTERPARTIES).map(move |at| (form, at)));
    let mut mitigants =
        parts.map(|(form, counterparty)| RawMitigant { form, flags: 31, counterparty, value: 10 });
    for number in 0..ASSETS {
        let counterparty = 1 + number as u16 % COUNTERPARTIES;
        let plain = RawAsset { kind: 11, counterparty, value: 1_000, ..Default::default() };
        let reinsurance = RawAsset { kind: 9, combination_stress: 1_000, ..plain };
        let asset = if number < usize::from(COUNTERPARTIES) { plain } else { reinsurance };
        let count = if number < MITIGANTS - ASSETS { 2 } else { 1 };
        let own: Vec<RawMitigant> = mitigants.by_ref().take(count).collect();
        book.asset(asset, &own);
    }
    book
}

/// The same of a specialist fund: in place of tier 0 each bank has 13 (a retrocession, of whatever
/// months, since the banks are graded).
pub fn largest_specialist_book() -> RawBook {
    let mut book = largest_report_book();
    book.specialist = 1;
    for (number, asset) in book.assets[..usize::from(COUNTERPARTIES)].iter_mut().enumerate() {
        let (months, combination_stress) = (number as u8, asset.value);
        *asset = RawAsset { kind: 9, entry: 3, months, combination_stress, ..*asset };
    }
    book
}

fn largest_reports() -> Vec<Input> {
    let under = |book: RawBook| {
        let input = Input::new("largest report", &RawSchedule::published(), &book);
        [-40, -1, 0, 1].map(|more| Input { room: Room::Beside(more), ..input.clone() })
    };
    [largest_report_book(), largest_specialist_book()].into_iter().flat_map(under).collect()
}

/// A specialist fund of so many groups, each with an exposure of the amount in each of the sixteen
/// tiers: twelve are its assets', four those of the mitigants of one of them. VAF and VAF′ are
/// `vaf`.
pub fn sixteen_tiers(groups: u16, amount: u64, vaf: u64) -> RawBook {
    let reinsurance = 11 * u64::from(groups) * amount;
    let mut book = RawBook { specialist: 1, ..RawBook::empty(vaf, 0, reinsurance) };
    for _ in 0..groups {
        let bank = book.counterparty(bank());
        let child = RawCounterparty { parent: bank, ..Default::default() };
        let ungraded = book.counterparty(child);
        let registered = book.counterparty(RawCounterparty { kind: 4, grade: 1, ..child });

        let of = |counterparty, entry, months| RawAsset {
            kind: 9,
            entry,
            months,
            counterparty,
            combination_stress: amount,
            ..Default::default()
        };
        // Tiers 3 and 1, then 9, 8 and 7, 6, 5 and 4, 13, 14 and 15.
        book.asset(of(bank, 0, 0), &[]);
        book.asset(of(ungraded, 0, 0), &[]);
        for (entry, months) in
            [1, 2, 3].into_iter().flat_map(|entry| [0, 3, 12].map(|m| (entry, m)))
        {
            book.asset(of(ungraded, entry, months), &[]);
        }
        // Tier 10, and by cash, guarantee, debt and a security 12, 11, 2 and 0.
        let premiums = RawAsset {
            kind: 10,
            counterparty: registered,
            value: 5 * amount,
            ..Default::default()
        };
        let parts = [(1, bank), (4, bank), (3, bank), (2, ungraded)];
        let mitigants = parts.map(|(form, counterparty)| RawMitigant {
            form,
            flags: 31,
            counterparty,
            value: amount,
        });
        book.asset(premiums, &mitigants);
    }
    book
}

/// All sixteen tiers in one group, and in as many as 900 assets make.
fn largest_groups() -> Vec<Input> {
    let books = [
        sixteen_tiers(1, 1, 1_000),
        sixteen_tiers(1, MOST / 11, MOST),
        sixteen_tiers(75, 1, MOST),
        sixteen_tiers(75, MOST / 825, MOST),
        sixteen_tiers(75, MOST / 825, 0),
    ];
    under_all_schedules("largest groups", &books)
}

/// 900 assets of M with one bank: exposures, W and excess of 9,000 M, at bases of M and -M.
fn largest_exposures() -> Vec<Input> {
    let kinds = [1, 2, 3, 4, 5, 6, 7, 8, 10, 11];
    let book = |kind, base| {
        let mut book = RawBook::empty(MOST, base, 0);
        book.counterparty(bank());
        let asset = RawAsset { kind, counterparty: 1, value: MOST, ..Default::default() };
        (0..ASSETS).for_each(|_| book.asset(asset, &[]));
        // One deposit, so that W lessens a limit.
        book.assets[ASSETS - 1].kind = 4;
        book
    };
    let books: Vec<RawBook> = kinds
        .into_iter()
        .flat_map(|kind| [MOST as i64, -(MOST as i64)].map(|base| book(kind, base)))
        .collect();
    under_all_schedules("largest exposures", &books)
}

/// 900 reinsurance assets: the largest that are accepted, and sums of 9,000 M that are not.
fn largest_reinsurance() -> Vec<Input> {
    let share = MOST / ASSETS as u64;
    let book = |total, asset: RawAsset| {
        let mut book = RawBook::empty(total, MOST as i64, 0);
        book.specialist = u8::from(asset.entry == 3);
        let grade = u8::from(asset.months == 0);
        book.counterparty(RawCounterparty { grade, ..Default::default() });
        (0..ASSETS).for_each(|_| book.asset(RawAsset { kind: 9, counterparty: 1, ..asset }, &[]));
        book
    };
    let none = RawAsset::default();
    let books = [
        book(MOST, RawAsset { value: share, combination_stress: share, ..none }),
        book(0, RawAsset { combination_stress: share, ..none }),
        book(0, RawAsset { flags: 2, insurance_stress: share, ..none }),
        book(MOST, RawAsset { value: share, offsets: share, ..none }),
        book(MOST, RawAsset { value: share, offsets: share, combination_stress: MOST, ..none }),
        book(MOST, RawAsset { value: MOST, ..none }),
        book(0, RawAsset { combination_stress: MOST, ..none }),
        book(0, RawAsset { flags: 2, insurance_stress: MOST, ..none }),
        book(MOST, RawAsset { deductions: MOST, combination_stress: MOST, ..none }),
        book(MOST, RawAsset { entry: 3, value: share, combination_stress: share, ..none }),
        book(0, RawAsset { entry: 3, months: 3, combination_stress: share, ..none }),
        book(0, RawAsset { entry: 3, months: 12, combination_stress: share, ..none }),
        book(0, RawAsset { entry: 3, months: 24, combination_stress: share, ..none }),
    ];
    under_all_schedules("largest reinsurance", &books)
}

/// Counts that add up to 58,981,500; all mitigants on one asset; a chain of 500 parents.
fn counts_and_chains() -> Vec<Input> {
    let mut counts = largest_report_book();
    counts.assets.iter_mut().for_each(|asset| asset.mitigants = 65_535);

    let mut one_asset = RawBook::empty(MOST, 0, 0);
    one_asset.counterparty(bank());
    let cover = RawMitigant { form: 1, flags: 31, counterparty: 1, value: MOST / 1_000 };
    let asset = RawAsset { kind: 7, counterparty: 1, value: MOST, ..Default::default() };
    one_asset.asset(asset, &[cover; MITIGANTS]);

    let mut chain = largest_report_book();
    (0..COUNTERPARTIES)
        .zip(&mut chain.counterparties)
        .for_each(|(parent, counterparty)| counterparty.parent = parent);

    under_all_schedules("counts and chains", &[counts, one_asset, chain])
}
