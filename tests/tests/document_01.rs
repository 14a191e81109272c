//! Document 01's checked sums, T1 to T10, and its table of refusals (with document 02's examples of
//! 3 and 6), through the library, with the figures that the document gives.

use weightrose_tests::cases::{refusal, refused_book, report};
use weightrose_tests::inputs::largest_report_book;
use weightrose_tests::raw::*;
use weightrose_tests::weightrose::{self, Answer, Refusal, LARGEST_BOOK, LARGEST_REPORT};

const TOTAL: u64 = 10_000_000_000;
const BASE: i64 = 1_000_000_000;

fn refused_schedule(change: impl FnOnce(&mut RawSchedule)) -> Refusal {
    let mut schedule = RawSchedule::published();
    change(&mut schedule);
    refusal(&schedule.bytes(), &book().bytes(), LARGEST_REPORT)
}

/// The book of the checked sums, still without records.
fn book() -> RawBook {
    RawBook::empty(TOTAL, BASE, 0)
}

fn held(book: &mut RawBook, kind: u8, counterparty: u16, value: u64) {
    book.asset(RawAsset { kind, counterparty, value, ..Default::default() }, &[]);
}

/// Reinsurance whose value and combination stress are the same.
fn reinsurance(counterparty: u16, value: u64) -> RawAsset {
    RawAsset { kind: 9, counterparty, value, combination_stress: value, ..Default::default() }
}

fn bank() -> RawCounterparty {
    RawCounterparty { kind: 1, grade: 1, ..Default::default() }
}

#[test]
fn the_published_schedule() {
    assert_eq!(weightrose::published()[..], RawSchedule::published().bytes()[..]);
    let mut long = [7; 130];
    assert_eq!(weightrose::published_into(&mut long), 122);
    assert_eq!(long[..122], weightrose::published());
    assert_eq!(long[122..], [7; 8]);
    for length in 0..122 {
        let mut short = vec![7; length];
        assert_eq!(weightrose::published_into(&mut short), 0);
        assert!(short.iter().all(|&byte| byte == 7));
    }
}

#[test]
fn t1_an_empty_book() {
    let report = report(&book());
    assert_eq!(report.bytes.len(), 72);
    assert_eq!(report.bytes[..8], *b"ACR\0\x01\0\0\0");
    assert_eq!((report.vaf(), report.vaf_prime(), report.all_net()), (TOTAL, TOTAL, 0));
    assert_eq!(report.charge(), 0);
}

#[test]
fn t2_two_tiers_of_one_name() {
    let mut book = book();
    book.counterparty(RawCounterparty::default());
    held(&mut book, 11, 1, 300_000_000);
    held(&mut book, 6, 1, 300_000_000);
    let report = report(&book);
    assert_eq!(
        report.printed(),
        "1 0 300000000 250000000 250000000 50000000\n\
         1 2 300000000 500000000 250000000 50000000\n\
         charge 100000000\n"
    );
    assert!(report.lines().iter().all(|line| line.set == 0b101));
}

#[test]
fn t3_at_the_limit_and_one_more() {
    for (value, excess) in [(250_000_000, 0), (250_000_001, 1)] {
        let mut book = book();
        book.counterparty(RawCounterparty::default());
        held(&mut book, 11, 1, value);
        assert_eq!(report(&book).lines()[0].amounts[3], excess);
    }
}

#[test]
fn t4_deposits_and_another_banks_bills() {
    for (bills, charge) in [(1_000_000_000, 0), (1_000_000_001, 1)] {
        let mut book = book();
        book.counterparties = vec![bank(), bank()];
        held(&mut book, 4, 1, 4_000_000_000);
        held(&mut book, 3, 2, bills);
        assert_eq!(report(&book).charge(), charge);
    }
}

#[test]
fn t5_deposits_and_bills_of_one_bank() {
    let mut book = book();
    book.counterparty(bank());
    held(&mut book, 4, 1, 4_000_000_000);
    held(&mut book, 3, 1, 1_000_000_000);
    assert_eq!(report(&book).charge(), 1_000_000_000);
}

#[test]
fn t6_a_limit_is_rounded_down() {
    for (total, limit) in [(39, 0), (40, 1)] {
        let mut book = RawBook::empty(total, 0, 0);
        book.counterparty(RawCounterparty::default());
        held(&mut book, 11, 1, 1);
        let report = report(&book);
        assert_eq!(report.vaf(), total);
        assert_eq!(report.lines()[0].amounts[1], limit);
    }
}

#[test]
fn t7_rounded_once_after_the_percent() {
    let mut book = RawBook::empty(71, 0, 0);
    book.counterparty(RawCounterparty::default());
    book.asset(RawAsset { entry: 2, months: 12, ..reinsurance(1, 1) }, &[]);
    let report = report(&book);
    assert_eq!(report.vaf_prime(), 71);
    assert_eq!((report.lines()[0].tier, report.lines()[0].amounts[1]), (4, 3));
}

#[test]
fn t8_a3_counts_up_to_each_limit() {
    let mut book = book();
    for place in 1..=3 {
        book.counterparty(RawCounterparty { grade: 1, ..Default::default() });
        book.asset(reinsurance(place, 600_000_000), &[]);
    }
    assert_eq!(report(&book).charge(), 550_000_000);
}

#[test]
fn t9_half_may_be_covered() {
    for (kind, covered) in [(0, 50), (4, 101)] {
        let mut book = book();
        book.counterparty(RawCounterparty { kind, ..Default::default() });
        book.counterparty(bank());
        let letter = RawMitigant { form: 5, flags: 8, counterparty: 2, value: 101 };
        book.asset(reinsurance(1, 101), &[letter]);
        let report = report(&book);
        let of_bank = report.lines().into_iter().find(|line| line.top == 2).unwrap();
        assert_eq!((of_bank.tier, of_bank.amounts[0]), (11, covered));
        assert_eq!(report.all_net(), 101);
    }
}

#[test]
fn t10_the_stress_that_counts() {
    for (flags, stressed) in [(0, 100), (2, 120)] {
        let mut book = book();
        book.counterparty(RawCounterparty::default());
        let asset = reinsurance(1, 0);
        book.asset(
            RawAsset { flags, insurance_stress: 120, combination_stress: 100, ..asset },
            &[],
        );
        assert_eq!(report(&book).all_net(), stressed);
    }
}

#[test]
fn refusals_1_to_4() {
    let short = &weightrose::published()[..121];
    assert_eq!(refusal(short, &book().bytes(), LARGEST_REPORT), Refusal::ScheduleLength);
    assert_eq!(refused_schedule(|schedule| schedule.mark = *b"ACB\0"), Refusal::ScheduleMark);
    assert_eq!(refused_schedule(|schedule| schedule.version = 3), Refusal::ScheduleVersion);
    assert_eq!(
        refused_schedule(|schedule| schedule.rows[7].rates[2] = 1_501),
        Refusal::ScheduleRates
    );
}

#[test]
fn refusals_5_to_9() {
    assert_eq!(refusal(&weightrose::published(), &[], LARGEST_REPORT), Refusal::BookLength);
    assert_eq!(refused_book(&RawBook { specialist: 2, ..book() }), Refusal::BookMark);
    assert_eq!(refused_book(&RawBook { version: 0, ..book() }), Refusal::BookVersion);
    let mut assets = book();
    assets.counterparty(RawCounterparty::default());
    (0..901).for_each(|_| held(&mut assets, 11, 1, 1));
    assert_eq!(refused_book(&assets), Refusal::BookCounts);
    assert_eq!(refused_book(&RawBook { base: -(MOST as i64) - 1, ..book() }), Refusal::BookAmounts);
}

#[test]
fn refusals_10_to_12_with_their_places() {
    let mut parent = book();
    parent.counterparties = vec![bank(), RawCounterparty { parent: 2, ..bank() }];
    assert_eq!(refused_book(&parent), Refusal::Counterparty(2));
    let mut asset = book();
    asset.counterparty(bank());
    held(&mut asset, 11, 1, 1);
    held(&mut asset, 11, 0, 1);
    assert_eq!(refused_book(&asset), Refusal::Asset(2));
    let mut mitigant = book();
    mitigant.counterparty(bank());
    let good = RawMitigant { form: 1, flags: 0, counterparty: 1, value: 1 };
    let asset = RawAsset { kind: 11, counterparty: 1, value: 1, ..Default::default() };
    mitigant.asset(asset, &[good, good, RawMitigant { form: 6, ..good }]);
    assert_eq!(refused_book(&mitigant), Refusal::Mitigant(3));
}

#[test]
fn refusals_13_to_16() {
    let mut counts = book();
    counts.counterparty(bank());
    counts.mitigants.push(RawMitigant { form: 1, flags: 0, counterparty: 1, value: 1 });
    assert_eq!(refused_book(&counts), Refusal::MitigantCounts);
    let mut values = RawBook::empty(4, 0, 0);
    values.counterparty(bank());
    values.asset(reinsurance(1, 5), &[]);
    assert_eq!(refused_book(&values), Refusal::ReinsuranceValues);
    assert_eq!(refused_book(&RawBook::empty(0, 0, 1)), Refusal::StressedAssets);
    assert_eq!(refusal(&weightrose::published(), &book().bytes(), 71), Refusal::BufferShort);
}

/// The largest book and the largest report have the lengths that the header names.
#[test]
fn the_largest_report() {
    let book = largest_report_book();
    assert_eq!((LARGEST_BOOK, LARGEST_REPORT), (63_240, 96_072));
    assert_eq!(book.bytes().len(), LARGEST_BOOK);
    let report = report(&book);
    assert_eq!(report.bytes.len(), LARGEST_REPORT);
    assert_eq!(report.lines().len(), 2_400);
}

#[test]
fn an_answer_packs_and_unpacks() {
    for number in 0..25u64 {
        for low in [0, 1, 500, 65_535, 65_536] {
            let packed = number << 32 | low;
            let answer = Answer::unpacked(packed);
            let known = match number {
                0 => true,
                10..=12 | 17 | 18 => low <= 65_535,
                1..=16 | 19..=22 => low == 0,
                _ => false,
            };
            assert_eq!(answer.map(Answer::packed), Some(packed).filter(|_| known));
        }
    }
}
