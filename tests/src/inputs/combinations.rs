//! Every combination of the fields that decide a tier, a recognition or a cap: a book has a group
//! for each of the 320 sorts of counterparty, and there is a book for each of the rest.

use super::Input;
use crate::raw::*;

pub fn all() -> Vec<Input> {
    let parts = [tiers(), reinsurance_tiers(), recognitions(), caps()];
    parts.into_iter().flatten().collect()
}

/// Kinds 0 to 4 with grades 0 to 7 and each set of flags.
fn sorts() -> impl Iterator<Item = RawCounterparty> {
    (0..5 * 8 * 8).map(|sort| RawCounterparty {
        parent: 0,
        grade: (sort % 8) as u8,
        kind: (sort / 8 % 5) as u8,
        flags: (sort / 40) as u8,
    })
}

pub fn book_of_sorts() -> RawBook {
    let mut book = RawBook::empty(1_000_000, 100_000, 1_000);
    book.counterparties = sorts().collect();
    book
}

/// Each kind but reinsurance with each sort of counterparty.
fn tiers() -> Vec<Input> {
    let kinds = [1, 2, 3, 4, 5, 6, 7, 8, 10, 11];
    let book = |kind| {
        let mut book = book_of_sorts();
        for counterparty in 1..=320 {
            let value = 100 + u64::from(counterparty);
            book.asset(RawAsset { kind, counterparty, value, ..Default::default() }, &[]);
        }
        Input::new("tiers", &small_fixed(), &book)
    };
    kinds.into_iter().map(book).collect()
}

/// Reinsurance with each entry, each month that decides and each sort of counterparty, in a
/// specialist fund and in another (where 17 turns entry 3 back).
fn reinsurance_tiers() -> Vec<Input> {
    let months = [0, 1, 2, 3, 4, 10, 11, 12, 13, 22, 23, 24, 25, 254, 255];
    let entries = [1, 2, 3].into_iter().flat_map(|entry| months.map(|month| (entry, month)));
    let book = |specialist, entry, months| {
        let mut book = book_of_sorts();
        book.specialist = specialist;
        for counterparty in 1..=320 {
            let combination_stress = 100 + u64::from(counterparty);
            let asset = RawAsset {
                kind: 9,
                entry,
                months,
                counterparty,
                combination_stress,
                ..Default::default()
            };
            book.asset(asset, &[]);
        }
        Input::new("reinsurance tiers", &small_fixed(), &book)
    };
    let entries = [(0, 0)].into_iter().chain(entries);
    entries.flat_map(|(entry, months)| [0, 1].map(|fund| book(fund, entry, months))).collect()
}

/// What mitigants cover: a loan, reinsurance, or a retrocession of a specialist fund.
#[derive(Clone, Copy, PartialEq, Eq)]
enum Covered {
    Loan,
    Reinsurance,
    Retrocession,
}

impl Covered {
    const ALL: [Covered; 3] = [Covered::Loan, Covered::Reinsurance, Covered::Retrocession];

    fn book(self) -> RawBook {
        RawBook { specialist: u8::from(self == Covered::Retrocession), ..book_of_sorts() }
    }

    fn asset(self, counterparty: u16, amount: u64) -> RawAsset {
        let loan = RawAsset { kind: 7, counterparty, value: amount, ..Default::default() };
        let reinsurance = RawAsset { kind: 9, value: 0, combination_stress: amount, ..loan };
        match self {
            Covered::Loan => loan,
            Covered::Reinsurance => reinsurance,
            Covered::Retrocession => RawAsset { entry: 3, ..reinsurance },
        }
    }
}

/// Each form with each set of flags and each sort of counterparty, on each of these.
fn recognitions() -> Vec<Input> {
    let mut inputs = Vec::new();
    for form in 1..=5 {
        for flags in 0..32 {
            for covered in Covered::ALL {
                let book = mitigated(form, flags, covered);
                inputs.push(Input::new("recognitions", &small_fixed(), &book));
            }
        }
    }
    inputs
}

fn mitigated(form: u8, flags: u8, covered: Covered) -> RawBook {
    let mut book = covered.book();
    let borrower = book.counterparty(RawCounterparty { kind: 4, grade: 5, ..Default::default() });
    for counterparty in 1..=320 {
        let amount = 100 + u64::from(counterparty);
        let mitigant = RawMitigant { form, flags, counterparty, value: amount - 60 };
        book.asset(covered.asset(borrower, amount), &[mitigant]);
    }
    book
}

/// How much of each may be covered, for each sort of counterparty, with nets of 100 and 101 and two
/// good mitigants.
fn caps() -> Vec<Input> {
    let mut inputs = Vec::new();
    for covered in Covered::ALL {
        for net in [0, 1, 100, 101] {
            for values in [[net, net], [30, 30], [70, 0], [0, 70]] {
                inputs.push(Input::new("caps", &small_fixed(), &capped(covered, net, values)));
            }
        }
    }
    inputs
}

fn capped(covered: Covered, net: u64, values: [u64; 2]) -> RawBook {
    let mut book = covered.book();
    let bank = book.counterparty(RawCounterparty { kind: 1, grade: 1, ..Default::default() });
    let home = book.counterparty(RawCounterparty { kind: 2, grade: 1, ..Default::default() });
    for counterparty in 1..=320 {
        let cash = RawMitigant { form: 1, flags: 31, counterparty: bank, value: values[0] };
        let security = RawMitigant { form: 2, flags: 31, counterparty: home, value: values[1] };
        book.asset(covered.asset(counterparty, net), &[cash, security]);
    }
    book
}

/// The published rates with fixed amounts that small books can pass.
fn small_fixed() -> RawSchedule {
    let mut schedule = RawSchedule::published();
    schedule.rows.iter_mut().for_each(|row| row.fixed /= 10_000_000);
    schedule
}
