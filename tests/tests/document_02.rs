//! Document 02's requests through the library, with their figures and both sides of each of their
//! boundaries: C-11, specialist reinsurers; C-12, lines straight into the lent report; C-13, desks
//! and the converter; C-14, the bills; C-15, rates in ten-thousandths; C-16, how much more may be
//! bought; C-17, ties before rounding; C-18, the half of a reinsurer; C-19, movements through the
//! day.

use weightrose_tests::cases::{
    answers, answers_under, bills, bills_under, not_answered, not_billed, refusal, refused,
    refused_book, report, report_under, Day, Report,
};
use weightrose_tests::compare::{
    bought, in_tier_order, library, library_bills, library_headroom, outcome, room, runs, standing,
    Subject,
};
use weightrose_tests::inputs::{
    largest_report_book, largest_specialist_book, near_ties, sample, shared_halves, sixteen_tiers,
    small_fund, Asking, Askings, Billing, Billings, Input, Inputs, KINDS,
};
use weightrose_tests::random::Random;
use weightrose_tests::raw::*;
use weightrose_tests::second::{bills_by, halves_of, headroom_by, rebuilt, report_by, tried, Slip};
use weightrose_tests::weightrose::{
    amount, bill, convert, headroom, packed_add, packed_bills, packed_headroom, packed_remove,
    packed_report, published, Answer, Refusal, ANSWER, ASSET, BILLS, HEADER, LARGEST_BOOK,
    LARGEST_REPORT, LINE, MOST_COST_RATE, MOST_QUESTIONS, MOST_RATE_PER_MILLE,
    MOST_RATE_TEN_THOUSANDTHS, QUESTION, SCHEDULE, SCHEDULE_PER_MILLE, SCHEDULE_TEN_THOUSANDTHS,
};

const TOTAL: u64 = 10_000_000_000;
const BASE: i64 = 1_000_000_000;

/// A specialist fund, still without records.
fn specialist(total: u64, base: i64) -> RawBook {
    RawBook { specialist: 1, ..RawBook::empty(total, base, 0) }
}

/// Reinsurance of entry class 3 whose value and combination stress are the same.
fn retrocession(counterparty: u16, months: u8, value: u64) -> RawAsset {
    RawAsset {
        kind: 9,
        entry: 3,
        months,
        counterparty,
        value,
        combination_stress: value,
        ..Default::default()
    }
}

fn graded() -> RawCounterparty {
    RawCounterparty { grade: 1, ..Default::default() }
}

/// A specialist fund with ungraded retrocessions of 1 in tiers 13, 14 and 15; VAF is so much more
/// than VAF′.
fn three_tiers(vaf_prime: u64, more: u64) -> RawBook {
    let mut book = specialist(vaf_prime + more, 0);
    book.excluded = more + 3;
    book.counterparty(RawCounterparty::default());
    for months in [0, 3, 12] {
        book.asset(RawAsset { value: 0, combination_stress: 1, ..retrocession(1, months, 0) }, &[]);
    }
    book
}

fn tiers(report: &Report) -> Vec<u8> {
    report.lines().iter().map(|line| line.tier).collect()
}

/// The limits of tiers 13, 14 and 15.
fn limits(report: &Report) -> [u64; 3] {
    let lines = report.lines();
    [13, 14, 15].map(|tier| lines.iter().find(|line| line.tier == tier).unwrap().amounts[1])
}

/// Kinds 0 to 4 with each set of flags and each grade, every one of them a group.
fn every_sort() -> Vec<RawCounterparty> {
    let mut sorts = Vec::new();
    for kind in 0..5 {
        for flags in 0..8 {
            sorts.extend((0..8).map(|grade| RawCounterparty { parent: 0, grade, kind, flags }));
        }
    }
    sorts
}

/// A specialist fund that has the asset with each of the counterparties.
fn with_each(counterparties: &[RawCounterparty], asset: RawAsset) -> RawBook {
    let mut book = specialist(TOTAL, BASE);
    book.counterparties = counterparties.to_vec();
    for counterparty in 1..=counterparties.len() as u16 {
        book.asset(RawAsset { counterparty, ..asset }, &[]);
    }
    book
}

/// The asset's tier with each of them.
fn tiers_with(counterparties: &[RawCounterparty], asset: RawAsset) -> Vec<u8> {
    let lines = report(&with_each(counterparties, asset)).lines();
    assert_eq!(lines.len(), counterparties.len());
    assert!((1..).zip(&lines).all(|(place, line)| line.top == place));
    lines.iter().map(|line| line.tier).collect()
}

#[test]
fn c11_graded_gives_13_and_months_decide_the_rest() {
    let ungraded = [
        (0, 13),
        (1, 13),
        (2, 13),
        (3, 14),
        (11, 14),
        (12, 15),
        (23, 15),
        (24, 1),
        (25, 1),
        (255, 1),
    ];
    let sorts = every_sort();
    for (months, tier) in ungraded {
        let found = tiers_with(&sorts, retrocession(0, months, 1));
        for (sort, found) in sorts.iter().zip(found) {
            let expected = if (1..=3).contains(&sort.grade) { 13 } else { tier };
            assert_eq!(found, expected, "{sort:?}, month {months}");
        }
    }
}

/// Those that entry 3 puts into tier 13 are in e, g or h without it.
#[test]
fn c11_overrides_e_g_and_h() {
    let mut sorts = every_sort();
    sorts.retain(|sort| (1..=3).contains(&sort.grade));
    let mut without = tiers_with(&sorts, RawAsset { entry: 0, ..retrocession(0, 0, 1) });
    without.sort_unstable();
    without.dedup();
    assert_eq!(without, [3, 6, 9]);
    assert!(tiers_with(&sorts, retrocession(0, 0, 1)).iter().all(|&tier| tier == 13));
}

/// Without entry 3, a specialist fund's report is any other fund's.
#[test]
fn c11_the_mark_alone_changes_nothing() {
    let mut books = vec![sample(), sixteen_tiers(2, 100, 1_000)];
    books[1].assets.iter_mut().filter(|asset| asset.entry == 3).for_each(|asset| asset.entry = 2);
    for (entry, months) in [(0, 0), (1, 0), (1, 3), (1, 12), (1, 24), (2, 2), (2, 11), (2, 23)] {
        books.push(with_each(&every_sort(), RawAsset { entry, ..retrocession(0, months, 1) }));
    }
    for book in books {
        let [unmarked, marked] =
            [0, 1].map(|fund| report(&RawBook { specialist: fund, ..book.clone() }));
        assert_eq!(unmarked.bytes, marked.bytes);
    }
}

#[test]
fn c11_refuses_17_at_the_first_such_asset() {
    for linked in [0, 1] {
        let mut book = specialist(TOTAL, BASE);
        book.counterparty(graded());
        for entry in [1, 3, 0, 3] {
            book.asset(RawAsset { entry, flags: linked, ..retrocession(1, 0, 5) }, &[]);
        }
        report(&book);
        book.specialist = 0;
        assert_eq!(refused_book(&book), Refusal::SpecialistEntry(2));
        book.assets[0].entry = 3;
        assert_eq!(refused_book(&book), Refusal::SpecialistEntry(1));
        book.assets[..3].iter_mut().for_each(|asset| asset.entry = 2);
        assert_eq!(refused_book(&book), Refusal::SpecialistEntry(4));
    }
    let mut largest = largest_specialist_book();
    largest.assets[..499].iter_mut().for_each(|asset| (asset.entry, asset.months) = (0, 0));
    largest.specialist = 0;
    assert_eq!(refused_book(&largest), Refusal::SpecialistEntry(500));
}

/// 13, then 17, then 14, 15 and 16: each fault is put before those that are there already.
#[test]
fn c11_refuses_17_behind_13_and_before_14() {
    let in_71_bytes = |book: &RawBook| refusal(&published(), &book.bytes(), 71);
    let mut book = specialist(5, 0);
    book.counterparty(graded());
    book.asset(retrocession(1, 0, 5), &[]);
    assert_eq!(in_71_bytes(&book), Refusal::BufferShort);
    book.excluded = 6;
    assert_eq!(in_71_bytes(&book), Refusal::StressedAssets);
    book.total = 4;
    assert_eq!(in_71_bytes(&book), Refusal::ReinsuranceValues);
    book.specialist = 0;
    assert_eq!(in_71_bytes(&book), Refusal::SpecialistEntry(1));
    book.assets[0].mitigants = 1;
    assert_eq!(in_71_bytes(&book), Refusal::MitigantCounts);
    // 17 before each of 15 and 16 alone.
    let mut stressed = RawBook { specialist: 0, excluded: 6, ..specialist(5, 0) };
    stressed.counterparty(graded());
    stressed.asset(retrocession(1, 0, 5), &[]);
    assert_eq!(refused_book(&stressed), Refusal::SpecialistEntry(1));
    stressed.excluded = 0;
    assert_eq!(in_71_bytes(&stressed), Refusal::SpecialistEntry(1));
}

#[test]
fn c11_header_bytes_12_to_15() {
    for byte in 2..=255 {
        let book = RawBook { specialist: byte, ..specialist(TOTAL, BASE) };
        assert_eq!(refused_book(&book), Refusal::BookMark);
    }
    for fund in [0, 1] {
        for zeros in [[1, 0, 0], [0, 1, 0], [0, 0, 1]] {
            let book = RawBook { specialist: fund, zeros, ..specialist(TOTAL, BASE) };
            assert_eq!(refused_book(&book), Refusal::BookMark);
        }
    }
}

#[test]
fn c11_entry_classes() {
    let with = |change: fn(&mut RawAsset)| {
        let mut book = specialist(TOTAL, BASE);
        book.counterparty(graded());
        book.asset(retrocession(1, 0, 5), &[]);
        book.asset(retrocession(1, 0, 5), &[]);
        change(&mut book.assets[1]);
        book
    };
    report(&with(|asset| asset.months = 255));
    for change in [
        (|asset| asset.entry = 4) as fn(&mut RawAsset),
        |asset| asset.entry = 255,
        |asset| (asset.entry, asset.months) = (0, 1),
    ] {
        let mut book = with(change);
        assert_eq!(refused_book(&book), Refusal::Asset(2));
        book.specialist = 0;
        assert_eq!(refused_book(&book), Refusal::Asset(2));
    }
    for kind in [1, 2, 3, 4, 5, 6, 7, 8, 10, 11] {
        let mut book = with(|asset| asset.combination_stress = 0);
        book.assets[1].kind = kind;
        assert_eq!(refused_book(&book), Refusal::Asset(2));
        book.assets[1].entry = 0;
        report(&book);
    }
}

/// 35.5, 23.43 and 12.07 cents, whatever the schedule, the base and VAF.
#[test]
fn c11_limits_at_71() {
    let mut most = RawSchedule::published();
    most.rows = [RawRow { rates: [1_500; 3], fixed: MOST }; 8];
    let mut least = RawSchedule::published();
    least.rows = [RawRow { rates: [0; 3], fixed: 0 }; 8];
    for rows in [RawSchedule::published(), most, least] {
        for percents in [[66, 34], [100, 100], [0, 0], [0, 100]] {
            let schedule = RawSchedule { percents, ..rows.clone() }.bytes();
            for (base, more) in [(0, 0), (MOST as i64, 0), (-(MOST as i64), 1_000)] {
                let book = RawBook { base, ..three_tiers(71, more) };
                let report = report_under(&schedule, &book);
                assert_eq!((report.vaf(), report.vaf_prime()), (71 + more, 71));
                assert_eq!(limits(&report), [35, 23, 12]);
                assert_eq!(tiers(&report), [15, 14, 13]);
            }
        }
    }
}

/// Rounded down each. They tie before that where VAF′ is 0 alone, and the lower number is first
/// there (C-17).
#[test]
fn c11_small_limits_and_their_ties() {
    for (vaf_prime, expected, order) in [
        (0, [0, 0, 0], [13, 14, 15]),
        (1, [0, 0, 0], [15, 14, 13]),
        (2, [1, 0, 0], [15, 14, 13]),
        (3, [1, 0, 0], [15, 14, 13]),
        (4, [2, 1, 0], [15, 14, 13]),
        (5, [2, 1, 0], [15, 14, 13]),
        (6, [3, 1, 1], [15, 14, 13]),
        (7, [3, 2, 1], [15, 14, 13]),
        (1_000, [500, 330, 170], [15, 14, 13]),
        (MOST - 3, [4_999_999_999_998, 3_299_999_999_999, 1_699_999_999_999], [15, 14, 13]),
        (MOST, [5_000_000_000_000, 3_300_000_000_000, 1_700_000_000_000], [15, 14, 13]),
    ] {
        let report = report(&three_tiers(vaf_prime, 0));
        assert_eq!(limits(&report), expected, "VAF′ {vaf_prime}");
        assert_eq!(tiers(&report), order, "VAF′ {vaf_prime}");
    }
}

#[test]
fn c11_at_the_limit_and_one_more() {
    for (months, limit) in [(2, 5_000_000_000), (3, 3_300_000_000), (12, 1_700_000_000)] {
        for (value, charge) in [(limit, 0), (limit + 1, 1)] {
            let mut book = specialist(TOTAL, BASE);
            book.counterparty(RawCounterparty::default());
            book.asset(retrocession(1, months, value), &[]);
            assert_eq!(report(&book).charge(), charge);
        }
    }
}

/// VAF and VAF′ 1,000 and 100 in each tier: 15, 14 and 13 stand between g and e, and cascade.
#[test]
fn c11_all_sixteen_tiers() {
    let report = report(&sixteen_tiers(1, 100, 1_000));
    assert_eq!(
        report.printed(),
        "1 0 100 25 25 75\n\
         1 1 100 25 0 100\n\
         1 4 100 42 17 83\n\
         1 2 100 50 8 92\n\
         1 3 100 50 0 100\n\
         1 5 100 82 32 68\n\
         1 6 100 125 43 57\n\
         1 15 100 170 45 55\n\
         1 14 100 330 160 0\n\
         1 13 100 500 230 0\n\
         1 7 100 680000000 679999630 0\n\
         1 8 100 1320000000 1319999530 0\n\
         1 9 100 2000000000 1999999430 0\n\
         1 10 100 2000000000 1999999330 0\n\
         1 11 100 2000000000 1999999230 0\n\
         1 12 100 2000000000 1999999130 0\n\
         charge 804\n"
    );
    assert!(report.lines().iter().all(|line| line.set == 65_535));
    // 25, 50, 42, 82 and 100 of tiers 1 and 3 to 6, over an A3 limit of 125.
    assert_eq!(report.a3_sum(), 299);
}

/// T8's three reinsurers as retrocessionaires: A3 counts them from month 24 on, in tier 1.
#[test]
fn c11_a3_counts_no_retrocession() {
    for (grade, months, a3_sum, charge) in [
        (1, 0, 0, 0),
        (1, 255, 0, 0),
        (0, 2, 0, 0),
        (0, 3, 0, 0),
        (0, 23, 0, 0),
        (0, 24, 750_000_000, 1_050_000_000),
    ] {
        let mut book = specialist(TOTAL, BASE);
        for place in 1..=3 {
            book.counterparty(RawCounterparty { grade, ..Default::default() });
            book.asset(retrocession(place, months, 600_000_000), &[]);
        }
        let report = report(&book);
        assert_eq!((report.a3_sum(), report.charge()), (a3_sum, charge));
    }
}

/// T9's asset as a retrocession: half may be covered, but for an approved affiliate or registered
/// company, and the remainder is in the retrocession's own tier.
#[test]
fn c11_half_may_be_covered() {
    for (kind, flags, covered) in [(0, 0, 50), (0, 2, 101), (4, 0, 101)] {
        for (months, tier) in [(0, 13), (3, 14), (12, 15), (24, 1)] {
            let mut book = specialist(TOTAL, BASE);
            book.counterparty(RawCounterparty { kind, flags, ..Default::default() });
            book.counterparty(RawCounterparty { kind: 1, grade: 1, ..Default::default() });
            let letter = RawMitigant { form: 5, flags: 8, counterparty: 2, value: 101 };
            book.asset(retrocession(1, months, 101), &[letter]);
            let lines = report(&book).lines();
            let of = |top| lines.iter().find(|line| line.top == top);
            let bank = of(2).map(|line| (line.tier, line.amounts[0]));
            assert_eq!(bank, Some((11, covered)));
            let remainder = of(1).map(|line| (line.tier, line.amounts[0]));
            assert_eq!(remainder, Some((tier, 101 - covered)).filter(|_| covered < 101));
        }
    }
}

/// A specialist fund's book and report are no larger than another's.
#[test]
fn c11_the_largest_report() {
    let book = largest_specialist_book();
    assert_eq!(book.bytes().len(), LARGEST_BOOK);
    let report = report(&book);
    assert_eq!(report.bytes.len(), LARGEST_REPORT);
    assert_eq!(tiers(&report).iter().filter(|&&tier| tier == 13).count(), 500);
}

/// Whatever stands in the buffer, wherever it begins and however long it is: the same report, and
/// every byte beside it as it was.
#[test]
fn c12_lines_change_their_own_bytes_alone() {
    for book in [RawBook::empty(TOTAL, BASE, 0), sample(), largest_report_book()] {
        let wanted = report(&book).bytes;
        for filling in [0x00, 0xff, 0x5a] {
            for (start, behind) in [(0, 0), (1, 1), (3, LINE - 1), (7, LINE), (5, LINE + 1)] {
                let end = start + wanted.len();
                let mut area = vec![filling; end + behind + 1];
                let lent = &mut area[start..end + behind];
                assert_eq!(packed_report(&published(), &book.bytes(), lent), wanted.len() as u64);
                assert!(area[start..end] == wanted);
                assert!(area[..start].iter().chain(&area[end..]).all(|&byte| byte == filling));
            }
        }
    }
}

/// The bytes of a book of version 1 converted, in a buffer of their length; no byte of the book
/// is another but byte 4.
fn converted(book: &RawBook) -> Vec<u8> {
    let old = book.bytes();
    let mut new = vec![0xa5; old.len()];
    assert_eq!(convert(&old, &mut new), Answer::Written(old.len()));
    new
}

/// The refusal of a book that the converter gets.
fn not_converted(book: &[u8], room: usize) -> Refusal {
    refused(room, |output| convert(book, output))
}

/// A name with three assets, the second of which has so many mitigants.
fn with_mitigants(count: usize) -> RawBook {
    let mut book = RawBook::empty(TOTAL, BASE, 0);
    let bank = book.counterparty(RawCounterparty { kind: 1, grade: 1, ..Default::default() });
    let name = book.counterparty(RawCounterparty::default());
    let asset = RawAsset { kind: 11, counterparty: name, value: 200_000_000, ..Default::default() };
    let cash = RawMitigant { form: 1, flags: 31, counterparty: bank, value: 1_000 };
    book.asset(asset, &[]);
    book.asset(asset, &vec![cash; count]);
    book.asset(asset, &[cash]);
    book
}

/// The report of bytes that are accepted, under the published schedule.
fn report_of(book: &[u8]) -> Vec<u8> {
    let mut buffer = vec![0; LARGEST_REPORT];
    let length = packed_report(&published(), book, &mut buffer);
    assert_eq!(length >> 32, 0, "refused: {length:#x}");
    buffer.truncate(length as usize);
    buffer
}

/// "both books get the same report, and the old one can be rebuilt from the new".
#[test]
fn c13_nothing_is_lost() {
    let largest = largest_specialist_book();
    for book in [RawBook::empty(TOTAL, BASE, 0), sample(), with_mitigants(255), largest] {
        let (old, new) = (book.bytes(), converted(&book));
        assert_eq!(new, RawBook { version: 2, ..book.clone() }.bytes());
        assert_eq!(report_of(&new), report_of(&old));
        assert_eq!(rebuilt(&new), old);
    }
}

/// "byte 7 holds the desk, 0 to 255": whatever the desks, the report is that of the version 1 book.
#[test]
fn c13_a_report_reads_no_desk() {
    for book in [sample(), with_mitigants(255)] {
        let wanted = report(&book).bytes;
        for desk in 0..=255 {
            let mut at_desks = RawBook { version: 2, ..book.clone() };
            for (place, asset) in (0..).zip(&mut at_desks.assets) {
                asset.desk = desk ^ place;
            }
            assert_eq!(report(&at_desks).bytes, wanted);
        }
    }
}

/// "Refusal 7 now passes versions 1 and 2"; "The converter takes only version 1, any other is its
/// refusal 7".
#[test]
fn c13_versions() {
    let book = sample().bytes();
    for version in (0..=300).chain([512, 513, 514, 0x0101, 0x0201, 0x0202, 65_535]) {
        let mut other = book.clone();
        other[4..6].copy_from_slice(&u16::to_le_bytes(version));
        let mut buffer = vec![0; LARGEST_REPORT];
        let reported = packed_report(&published(), &other, &mut buffer) >> 32 == 0;
        assert_eq!(reported, matches!(version, 1 | 2), "version {version}");
        if version != 1 {
            assert_eq!(not_converted(&other, book.len()), Refusal::BookVersion);
        }
    }
    // 7 before 8, behind 6 and 5.
    let mut short = book[..book.len() - 1].to_vec();
    assert_eq!(not_converted(&short, book.len()), Refusal::BookCounts);
    short[4] = 2;
    assert_eq!(not_converted(&short, book.len()), Refusal::BookVersion);
    short[12] = 2;
    assert_eq!(not_converted(&short, book.len()), Refusal::BookMark);
    assert_eq!(not_converted(&short[..39], book.len()), Refusal::BookLength);
}

/// "It gives 18 when an asset has more than 255 mitigants, with its place, between 15 and 16."
#[test]
fn c13_more_than_255_mitigants() {
    assert_eq!(converted(&with_mitigants(255))[40 + 8 + 48 + 6..][..2], [255, 0]);
    // 0x0101 is 257 in version 1, whose low byte alone is 1.
    for count in [256, 257, 300, 512, 1_499] {
        let book = with_mitigants(count);
        let bytes = book.bytes();
        assert!(!report_of(&bytes).is_empty());
        for room in [bytes.len() + 1, bytes.len(), bytes.len() - 1, 0] {
            assert_eq!(not_converted(&bytes, room), Refusal::ManyMitigants(2));
        }
        let beside_15 = RawBook { excluded: TOTAL + 1, ..book };
        assert_eq!(not_converted(&beside_15.bytes(), 0), Refusal::StressedAssets);
    }
    // The first of two; a count that does not add up is 13.
    let mut two = with_mitigants(256);
    let asset = RawAsset { kind: 11, counterparty: 1, ..Default::default() };
    two.asset(asset, &vec![two.mitigants[0]; 256]);
    assert_eq!(not_converted(&two.bytes(), 0), Refusal::ManyMitigants(2));
    two.assets[1].mitigants = 0x0101;
    assert_eq!(not_converted(&two.bytes(), 0), Refusal::MitigantCounts);
    // Together they may have more.
    let mut many = with_mitigants(200);
    many.asset(asset, &vec![many.mitigants[0]; 200]);
    converted(&many);
}

/// "16 compares the output with the book's length": no byte behind it is written.
#[test]
fn c13_the_output() {
    for book in [RawBook::empty(TOTAL, BASE, 0), sample(), largest_report_book()] {
        let (bytes, new) = (book.bytes(), converted(&book));
        for short in 1..=bytes.len().min(40) {
            assert_eq!(not_converted(&bytes, bytes.len() - short), Refusal::BufferShort);
        }
        for more in [1, 7, 1_000] {
            let mut area = vec![0x5a; bytes.len() + more + 2];
            let end = 1 + bytes.len();
            let answer = convert(&bytes, &mut area[1..end + more]);
            assert_eq!(answer, Answer::Written(bytes.len()));
            assert!(area[1..end] == new);
            assert!(area[0] == 0x5a && area[end..].iter().all(|&byte| byte == 0x5a));
        }
    }
}

/// Every byte string gets an answer: a converted book converted again, books cut off anywhere.
#[test]
fn c13_any_bytes() {
    let new = converted(&sample());
    assert_eq!(not_converted(&new, new.len()), Refusal::BookVersion);
    assert_eq!(not_converted(&[], 0), Refusal::BookLength);
    let old = sample().bytes();
    for length in 0..old.len() {
        let refusal = not_converted(&old[..length], old.len());
        let wanted = if length < 40 { Refusal::BookLength } else { Refusal::BookCounts };
        assert_eq!(refusal, wanted);
    }
}

/// A book of version 2, still without records, whose limit in tier i is 250,000,000.
fn at_desks() -> RawBook {
    RawBook { version: 2, ..RawBook::empty(TOTAL, BASE, 0) }
}

fn bank() -> RawCounterparty {
    RawCounterparty { kind: 1, ..graded() }
}

fn held(desk: u8, kind: u8, counterparty: u16, value: u64) -> RawAsset {
    RawAsset { kind, counterparty, value, desk, ..Default::default() }
}

/// One ungraded name with these desks' assets of kind 11, in this order.
fn of_one_name(assets: &[(u8, u64)]) -> RawBook {
    let mut book = at_desks();
    let name = book.counterparty(RawCounterparty::default());
    assets.iter().for_each(|&(desk, value)| book.asset(held(desk, 11, name, value), &[]));
    book
}

/// T2 with its assets at desks 7 and 255.
fn t2_at_desks() -> RawBook {
    let mut book = of_one_name(&[(7, 300_000_000)]);
    book.asset(held(255, 6, 1, 300_000_000), &[]);
    book
}

/// Graded reinsurers, each a group of its own, with these nets at these desks.
fn reinsurers(nets: &[(u8, u64)]) -> RawBook {
    let mut book = at_desks();
    for &(desk, net) in nets {
        let name = book.counterparty(graded());
        book.asset(RawAsset { entry: 0, desk, ..retrocession(name, 0, net) }, &[]);
    }
    book
}

/// "A line's unserved part is its excess."
#[test]
fn c14_the_cut_falls_within_a_line() {
    let (one, other) = ((3, 150_000_000), (5, 150_000_000));
    assert_eq!(bills(&of_one_name(&[one, other]), 1_000), [(5, 5_000_000)]);
    assert_eq!(bills(&of_one_name(&[other, one]), 1_000), [(3, 5_000_000)]);
    let again = of_one_name(&[one, other, one]);
    assert_eq!(bills(&again, 1_000), [(3, 15_000_000), (5, 5_000_000)]);
    // At the limit, and one cent of cost more.
    assert_eq!(bills(&of_one_name(&[one, (5, 100_000_000)]), 1_000), []);
    assert_eq!(bills(&of_one_name(&[one, (5, 100_000_009)]), 1_000), []);
    assert_eq!(bills(&of_one_name(&[one, (5, 100_000_010)]), 1_000), [(5, 1)]);
    // Behind the cut every line is excess, whatever its size.
    let behind = of_one_name(&[(1, 250_000_000), (2, 10), (3, 0), (4, 300_000_000)]);
    assert_eq!(bills(&behind, 1_000), [(2, 1), (4, 30_000_000)]);
}

/// "what stands is given to the exposure lines in book order, each asset's covered parts before its
/// remainder": cash with the bank is in the tier of its deposits, whose limit is 5,000,000,000.
#[test]
fn c14_covered_parts_among_remainders() {
    let billed = |order: [u8; 3]| {
        let mut book = at_desks();
        let bank = book.counterparty(bank());
        let name = book.counterparty(RawCounterparty::default());
        for desk in order {
            match desk {
                1 => book.asset(held(1, 4, bank, 4_000_000_000), &[]),
                2 => {
                    let cash = RawMitigant { form: 1, flags: 31, counterparty: bank, value: 0 };
                    let parts =
                        [500_000_000, 1_500_000_000].map(|value| RawMitigant { value, ..cash });
                    book.asset(held(2, 11, name, 2_100_000_000), &parts);
                }
                _ => book.asset(held(3, 4, bank, 1_000_000_000), &[]),
            }
        }
        bills(&book, 1)
    };
    assert_eq!(billed([1, 2, 3]), [(2, 100_000), (3, 100_000)]);
    assert_eq!(billed([1, 3, 2]), [(2, 200_000)]);
    assert_eq!(billed([2, 1, 3]), [(1, 100_000), (3, 100_000)]);
    assert_eq!(billed([2, 3, 1]), [(1, 200_000)]);
    assert_eq!(billed([3, 1, 2]), [(2, 200_000)]);
    assert_eq!(billed([3, 2, 1]), [(1, 200_000)]);
}

/// A part and the remainder of one asset, each in a tier of its own with an excess: both are billed
/// to the asset's desk, and neither to a desk that holds assets of the part's counterparty.
#[test]
fn c14_a_covered_part_goes_to_its_assets_desk() {
    let mut book = at_desks();
    let bank = book.counterparty(bank());
    let name = book.counterparty(RawCounterparty::default());
    book.asset(held(1, 4, bank, 5_000_000_000), &[]);
    let cash = RawMitigant { form: 1, flags: 31, counterparty: bank, value: 300_000_000 };
    book.asset(held(2, 11, name, 1_000_000_000), &[cash]);
    book.asset(held(3, 11, name, 0), &[]);
    // 300,000,000 of the part and 700,000,000 - 250,000,000 of the remainder.
    assert_eq!(bills(&book, 100), [(2, 7_500_000)]);
    assert_eq!(report(&book).charge(), 750_000_000);
}

/// "Within a group's tier": parent and child share it, other groups do not.
#[test]
fn c14_within_a_group() {
    let mut book = at_desks();
    for parent in [0, 1, 0] {
        book.counterparty(RawCounterparty { parent, ..Default::default() });
    }
    for (desk, counterparty) in [(1, 2), (2, 3), (3, 1), (4, 3)] {
        book.asset(held(desk, 11, counterparty, 200_000_000), &[]);
    }
    assert_eq!(bills(&book, 1_000), [(3, 15_000_000), (4, 15_000_000)]);
    book.counterparties[1].parent = 0;
    assert_eq!(bills(&book, 1_000), [(4, 15_000_000)]);
    book.counterparties[2].parent = 2;
    assert_eq!(bills(&book, 1_000), [(2, 15_000_000), (4, 20_000_000)]);
}

/// "what stands" is what the cascade leaves: T2's second tier is within its limit of 500,000,000,
/// and has an excess of 50,000,000.
#[test]
fn c14_what_the_cascade_leaves() {
    assert_eq!(bills(&t2_at_desks(), 1_000), [(7, 5_000_000), (255, 5_000_000)]);
    // Tiers 0 and 2 are served apart, though desk 9 holds the first asset of either.
    let mut book = of_one_name(&[(9, 260_000_000)]);
    book.asset(held(9, 6, 1, 10_000_000), &[]);
    book.asset(held(8, 11, 1, 10_000_000), &[]);
    book.asset(held(7, 6, 1, 245_000_000), &[]);
    assert_eq!(bills(&book, 1_000), [(7, 500_000), (8, 1_000_000), (9, 1_000_000)]);
}

/// "as does every line of a version 1 book"; a converted one is billed the same.
#[test]
fn c14_a_version_1_book_goes_to_desk_0() {
    let old = RawBook { version: 1, ..t2_at_desks() };
    assert_eq!(bills(&old, 1_000), [(0, 10_000_000)]);
    let mut buffer = [0; BILLS];
    assert_eq!(packed_bills(&published(), &converted(&old), 1_000, &mut buffer), BILLS as u64);
    assert_eq!(bill(&buffer, 0), 10_000_000);
    // 256 mitigants: byte 7 is 1, and no desk.
    let many = with_mitigants(256);
    assert_eq!(many.bytes()[40 + 8 + 48 + 6..][..2], [0, 1]);
    assert_eq!(report(&many).charge(), 349_743_000);
    assert_eq!(bills(&many, 1_000), [(0, 34_974_300)]);
}

/// "The A3 excess goes to desk 0": T8's is 250,000,000, beside 100,000,000 of each reinsurer.
#[test]
fn c14_the_a3_excess_goes_to_desk_0() {
    let t8 = reinsurers(&[(10, 600_000_000), (20, 600_000_000), (255, 600_000_000)]);
    assert_eq!(bills(&t8, 1), [(0, 25_000), (10, 10_000), (20, 10_000), (255, 10_000)]);
    let of_desk_0 = reinsurers(&[(0, 600_000_000), (20, 600_000_000), (0, 600_000_000)]);
    assert_eq!(bills(&of_desk_0, 1), [(0, 45_000), (20, 10_000)]);
    // Within the limits of tiers and groups, and one cent over that of A3.
    let most = [(1, 500_000_000), (2, 500_000_000), (3, 250_000_000)];
    assert_eq!(bills(&reinsurers(&most), 1_000), []);
    let over = [(1, 500_000_000), (2, 500_000_000), (3, 250_000_010)];
    assert_eq!(bills(&reinsurers(&over), 1_000), [(0, 1)]);
    assert_eq!(bills(&RawBook { version: 1, ..t8 }, 1), [(0, 55_000)]);
}

/// "the running excess times the rate, rounded down, less the same figure before that desk".
#[test]
fn c14_rounding() {
    let behind_the_limit = |excesses: &[(u8, u64)], rate| {
        let assets = [&[(9, 250_000_000)], excesses].concat();
        bills(&of_one_name(&assets), rate)
    };
    // Bill by bill both would be 0.
    assert_eq!(behind_the_limit(&[(1, 5_000), (2, 5_000)], 1), [(2, 1)]);
    assert_eq!(behind_the_limit(&[(2, 5_000), (1, 5_000)], 1), [(2, 1)]);
    assert_eq!(behind_the_limit(&[(1, 5_000), (2, 4_999)], 1), []);
    assert_eq!(behind_the_limit(&[(1, 3_333), (2, 3_333), (3, 3_334)], 1), [(3, 1)]);
    // 0.9999, 1.9998 and 3 cents; bill by bill 0, 0 and 1.
    assert_eq!(behind_the_limit(&[(1, 3_333), (2, 3_333), (3, 3_334)], 3), [(2, 1), (3, 2)]);
    // From desk 0 on, whatever the order of the book: 1.5 and 2.4, not 0.9 and 2.4.
    assert_eq!(behind_the_limit(&[(200, 9_000), (100, 15_000)], 1), [(100, 1), (200, 1)]);
    assert_eq!(behind_the_limit(&[(100, 9_000), (200, 15_000)], 1), [(200, 2)]);
    // A3's 4,999 and 5,001 of desk 0's own make one cent together, and with desk 1's they do there.
    let with_a3 =
        |desk| bills(&reinsurers(&[(desk, 500_005_001), (30, 500_000_000), (30, 250_004_999)]), 1);
    assert_eq!(with_a3(0), [(0, 1)]);
    assert_eq!(with_a3(1), [(1, 1)]);
}

/// "The cost rate is in ten-thousandths, up to 1,000": "19 when the rate exceeds 1,000".
#[test]
fn c14_rates() {
    let book = t2_at_desks();
    assert_eq!(MOST_COST_RATE, 1_000);
    assert_eq!(bills(&book, 0), []);
    for rate in [1, 2, 437, 999, 1_000] {
        assert_eq!(bills(&book, rate), [(7, 5_000 * rate), (255, 5_000 * rate)]);
    }
    let bits = (16..64).flat_map(|bit| [1 << bit, (1 << bit) + 1_000]);
    for rate in [1_001, 1_002, 10_000, u64::MAX - 1, u64::MAX].into_iter().chain(bits) {
        for room in [BILLS, BILLS - 1, 0] {
            assert_eq!(not_billed(&published(), &book.bytes(), rate, room), Refusal::CostRate);
        }
    }
}

/// Desk 255 has the last eight bytes; 250 lines of 1,000,000 stand.
#[test]
fn c14_all_desks() {
    let assets: Vec<(u8, u64)> = (0..=255).map(|desk| (desk, 1_000_000)).collect();
    let billed: Vec<(u8, u64)> = (250..=255).map(|desk| (desk, 100_000)).collect();
    assert_eq!(bills(&of_one_name(&assets), 1_000), billed);
    let turned: Vec<(u8, u64)> = assets.iter().rev().copied().collect();
    let billed: Vec<(u8, u64)> = (0..=5).map(|desk| (desk, 100_000)).collect();
    assert_eq!(bills(&of_one_name(&turned), 1_000), billed);
    let last = of_one_name(&[(0, 250_000_000), (255, 0x01_0203_0405 * 10)]);
    let mut buffer = [0xa5; BILLS];
    assert_eq!(packed_bills(&published(), &last.bytes(), 1_000, &mut buffer), BILLS as u64);
    assert_eq!(buffer[BILLS - 8..], [5, 4, 3, 2, 1, 0, 0, 0]);
    assert!(buffer[..BILLS - 8].iter().all(|&byte| byte == 0));
}

/// What has no limit, and what is linked, is in no tier: nothing of it is billed, and nothing of
/// what stands is given to it.
#[test]
fn c14_nothing_without_a_limit_is_billed() {
    let mut book = at_desks();
    let home = book.counterparty(RawCounterparty { kind: 2, ..Default::default() });
    let life = book.counterparty(RawCounterparty { kind: 4, flags: 1, ..graded() });
    let cash = RawMitigant { form: 1, flags: 31, counterparty: home, value: MOST };
    book.asset(held(1, 1, home, MOST), &[]);
    book.asset(held(2, 2, life, MOST), &[]);
    book.asset(RawAsset { flags: 1, ..held(3, 11, home, MOST) }, &[cash]);
    let security = RawMitigant { form: 2, ..cash };
    book.asset(held(4, 11, life, MOST), &[security]);
    assert_eq!(bills(&book, 1_000), []);
    book.asset(held(5, 11, home, 250_000_010), &[]);
    assert_eq!(bills(&book, 1_000), [(5, 1)]);
}

/// "The bills must add up to the charge times the rate, rounded down, to the cent", whatever the
/// desks.
#[test]
fn c14_the_bills_add_up() {
    let largest = [largest_report_book(), largest_specialist_book()];
    let groups = [sixteen_tiers(1, 100, 1_000), sixteen_tiers(75, MOST / 825, MOST)];
    let published = published();
    let nothing_stands =
        RawSchedule { rows: [RawRow { rates: [0; 3], fixed: 0 }; 8], ..RawSchedule::published() };
    for book in largest.into_iter().chain(groups).chain([sample(), t2_at_desks()]) {
        for schedule in [&published[..], &nothing_stands.bytes()] {
            let charge = report_under(schedule, &book).charge();
            for (desks, rate) in [(256, 1), (256, 999), (100, 1_000), (7, 333), (1, 1_000)] {
                let mut book = RawBook { version: 2, ..book.clone() };
                for (place, asset) in book.assets.iter_mut().enumerate() {
                    asset.desk = (place * 11 % desks) as u8;
                }
                let sum: u64 =
                    bills_under(schedule, &book, rate).iter().map(|&(_, bill)| bill).sum();
                assert_eq!(u128::from(sum), u128::from(charge) * u128::from(rate) / 10_000);
            }
        }
    }
}

/// 900 assets of M with one name: the largest charge, at the largest rate.
#[test]
fn c14_the_largest_bills() {
    let mut book = RawBook { version: 2, ..RawBook::empty(MOST, 0, 0) };
    let name = book.counterparty(RawCounterparty::default());
    (0..900u16).for_each(|number| book.asset(held(number as u8, 11, name, MOST), &[]));
    assert_eq!(report(&book).charge(), 900 * MOST - MOST / 40);
    // Desks 0 to 131 have four of them, the others three; M / 40 stands, at desk 0.
    let bill = |desk: u8| match desk {
        0 => 4 * MOST / 10 - MOST / 400,
        1..=131 => 4 * MOST / 10,
        _ => 3 * MOST / 10,
    };
    let wanted: Vec<(u8, u64)> = (0..=255).map(|desk| (desk, bill(desk))).collect();
    assert_eq!(bills(&book, 1_000), wanted);
    book.version = 1;
    assert_eq!(bills(&book, 1_000), [(0, 90 * MOST - MOST / 400)]);
}

/// Buffers with any bytes in them, at any place and longer than needed: these are written, and
/// no other byte is.
fn writes_alone(wanted: &[u8], write: impl Fn(&mut [u8]) -> u64) {
    for filling in [0x00, 0xff, 0x5a] {
        for (start, behind) in [(0, 0), (1, 1), (3, 7), (7, 8), (5, 9), (2, 100_000)] {
            let end = start + wanted.len();
            let mut area = vec![filling; end + behind + 1];
            assert_eq!(write(&mut area[start..end + behind]), wanted.len() as u64);
            assert!(area[start..end] == *wanted);
            assert!(area[..start].iter().chain(&area[end..]).all(|&byte| byte == filling));
        }
    }
}

/// "They are 256 amounts of eight bytes, and 16 compares that length": no other byte is written,
/// and what was there before does not matter.
#[test]
fn c14_the_buffer() {
    assert_eq!(BILLS, 2_048);
    for book in [RawBook::empty(TOTAL, BASE, 0), t2_at_desks(), largest_report_book()] {
        let bytes = book.bytes();
        let mut wanted = [0; BILLS];
        assert_eq!(packed_bills(&published(), &bytes, 1_000, &mut wanted), BILLS as u64);
        for room in (0..BILLS).step_by(89).chain(BILLS - 10..BILLS) {
            assert_eq!(not_billed(&published(), &bytes, 1_000, room), Refusal::BufferShort);
        }
        writes_alone(&wanted, |lent| packed_bills(&published(), &bytes, 1_000, lent));
    }
}

/// A book that is accepted, and can be refused for anything.
fn refusable(version: u16) -> RawBook {
    let mut book = RawBook { version, ..specialist(5, 0) };
    book.counterparty(graded());
    let cash = RawMitigant { form: 1, flags: 31, counterparty: 1, value: 1 };
    book.asset(retrocession(1, 0, 5), &[cash]);
    book
}

/// 15, 14, 17, 13, then 12 to 1 of that book, whatever is refused behind them: each fault is put
/// before those that are there already. `refused` takes a schedule, a book and a buffer's length.
fn refused_15_to_1(
    mut book: RawBook,
    room: usize,
    refused: impl Fn(&[u8], &[u8], usize) -> Refusal,
) {
    let mut schedule = published().to_vec();
    type Fault = (fn(&mut RawBook), Refusal);
    let faults: [Fault; 11] = [
        (|book| book.excluded = 6, Refusal::StressedAssets),
        (|book| book.total = 4, Refusal::ReinsuranceValues),
        (|book| book.specialist = 0, Refusal::SpecialistEntry(1)),
        (|book| book.assets[0].mitigants = 2, Refusal::MitigantCounts),
        (|book| book.mitigants[0].form = 6, Refusal::Mitigant(1)),
        (|book| book.assets[0].kind = 12, Refusal::Asset(1)),
        (|book| book.counterparties[0].parent = 1, Refusal::Counterparty(1)),
        (|book| book.excluded = MOST + 1, Refusal::BookAmounts),
        (|book| book.counts = Some([1, 901, 1]), Refusal::BookCounts),
        (|book| book.version = 3, Refusal::BookVersion),
        (|book| book.specialist = 2, Refusal::BookMark),
    ];
    for (fault, wanted) in faults {
        fault(&mut book);
        assert_eq!(refused(&schedule, &book.bytes(), room), wanted);
    }
    let short = &book.bytes()[..39];
    assert_eq!(refused(&schedule, short, 0), Refusal::BookLength);
    for (place, byte, wanted) in [
        (6, 101, Refusal::ScheduleRates),
        (4, 3, Refusal::ScheduleVersion),
        (3, 1, Refusal::ScheduleMark),
    ] {
        schedule[place] = byte;
        assert_eq!(refused(&schedule, short, 0), wanted);
    }
    assert_eq!(refused(&schedule[..121], short, 0), Refusal::ScheduleLength);
}

/// 16, 19, 15, 14, 17, 13, then 12 to 1: each fault is put before those that are there already.
#[test]
fn c14_refusals_in_their_order() {
    let book = refusable(2);
    let (bytes, room) = (book.bytes(), BILLS - 1);
    assert_eq!(not_billed(&published(), &bytes, 1_000, room), Refusal::BufferShort);
    assert_eq!(not_billed(&published(), &bytes, 1_001, room), Refusal::CostRate);
    refused_15_to_1(book, room, |schedule, book, room| not_billed(schedule, book, 1_001, room));
    assert_eq!(not_billed(&[], &[], u64::MAX, 0), Refusal::ScheduleLength);
}

/// Every byte string gets the report's own refusal: books cut off anywhere.
#[test]
fn c14_any_bytes() {
    let book = t2_at_desks().bytes();
    for length in 0..book.len() {
        let wanted = refusal(&published(), &book[..length], LARGEST_REPORT);
        for rate in [0, 1_001] {
            assert_eq!(not_billed(&published(), &book[..length], rate, BILLS), wanted);
        }
    }
}

/// The published limits in version 2.
fn in_ten_thousandths() -> RawSchedule {
    RawSchedule::published().tenfold()
}

/// All rows of these rates and this fixed amount; all of a limit is kept after a downgrade.
fn plain(version: u16, rates: [u16; 3], fixed: u64) -> RawSchedule {
    let rows = [RawRow { rates, fixed }; 8];
    RawSchedule { version, percents: [100, 100], rows, ..RawSchedule::published() }
}

/// One group with 1 in each tier; VAF, VAF′ and base are the same.
fn every_tier(vaf: u64) -> RawBook {
    RawBook { base: vaf as i64, ..sixteen_tiers(1, 1, vaf) }
}

/// The limits of tiers 0 to 12.
fn limits_by_tier(report: &Report) -> [u64; 13] {
    let lines = report.lines();
    let limit = |tier| lines.iter().find(|line| line.tier == tier).unwrap().amounts[1];
    std::array::from_fn(|tier| limit(tier as u8))
}

/// "A client has an adjusted rate of 4.37 per cent": of a VAF of 10,000,000,000 that is
/// 437,000,000, between 43 and 44 per mille. The published quarter of the base is 250,000,000.
#[test]
fn c15_the_clients_rate() {
    let property = |schedule: &RawSchedule, value| {
        let mut book = RawBook::empty(TOTAL, BASE, 0);
        book.counterparty(RawCounterparty::default());
        book.asset(held(0, 8, 1, value), &[]);
        report_under(&schedule.bytes(), &book).printed()
    };
    let mut schedule = in_ten_thousandths();
    schedule.rows[5].rates[0] = 437;
    assert_eq!(property(&schedule, 437_000_000), "1 2 437000000 437000000 437000000 0\ncharge 0\n");
    assert_eq!(property(&schedule, 437_000_001), "1 2 437000001 437000000 437000000 1\ncharge 1\n");
    let mut schedule = RawSchedule::published();
    schedule.rows[5].rates[0] = 43;
    assert_eq!(property(&schedule, 1), "1 2 1 430000000 430000000 0\ncharge 0\n");
    schedule.rows[5].rates[0] = 44;
    assert_eq!(property(&schedule, 1), "1 2 1 440000000 440000000 0\ncharge 0\n");
}

/// The rows of tiers 0 to 12.
const ROWS: [usize; 13] = [6, 6, 5, 5, 4, 4, 4, 2, 2, 2, 3, 0, 1];

/// 437 at each place alone: 3.1027 cents of 71, 437,000,000,000 of M; for d's first rate W takes
/// one cent off. C-11's three are per mille whatever stands in the schedule.
#[test]
fn c15_437_at_each_place() {
    for (vaf, part, of_c11) in [
        (71, 3, [35, 23, 12]),
        (MOST, 437_000_000_000, [5_000_000_000_000, 3_300_000_000_000, 1_700_000_000_000]),
    ] {
        for (row, place) in (0..8).flat_map(|row| [(row, 0), (row, 1), (row, 2)]) {
            let mut schedule = plain(2, [0; 3], 0);
            schedule.rows[row].rates[place] = 437;
            let report = report_under(&schedule.bytes(), &every_tier(vaf));
            let wanted = |tier: usize| {
                let w = u64::from(tier == 12 && place == 0);
                if ROWS[tier] == row {
                    part - w
                } else {
                    0
                }
            };
            assert_eq!(limits_by_tier(&report), std::array::from_fn(wanted));
            assert_eq!(report.a3_limit(), if row == 7 { part } else { 0 });
            assert_eq!(limits(&report), of_c11);
        }
    }
}

/// T6 and T7 in ten-thousandths: 0.9984 and 1.0023, 0.9960 and 1 cent; 2.9982, 3.0006 and 3.0175,
/// the last two of which are 2 where 8.8253 and 8.875 are rounded before the percent.
#[test]
fn c15_rounded_down_once() {
    for (vaf, rate, limit) in [(39, 256, 0), (39, 257, 1), (40, 249, 0), (40, 250, 1)] {
        let mut schedule = in_ten_thousandths();
        schedule.rows[6].rates[0] = rate;
        let report = report_under(&schedule.bytes(), &RawBook { base: 0, ..every_tier(vaf) });
        assert_eq!(limits_by_tier(&report)[..2], [limit, limit]);
    }
    for (rate, limit) in [(1_242, 2), (1_243, 3), (1_250, 3)] {
        let mut schedule = in_ten_thousandths();
        schedule.rows[4].rates[0] = rate;
        let report = report_under(&schedule.bytes(), &RawBook { base: 0, ..every_tier(71) });
        assert_eq!(limits_by_tier(&report)[4], limit);
    }
}

/// A schedule's bytes in version 2 with ten times each rate, where they are of version 1 and 16
/// bits hold that.
fn tenfold(schedule: &[u8]) -> Option<Vec<u8>> {
    if schedule.len() != SCHEDULE || schedule[4..6] != [1, 0] {
        return None;
    }
    let mut bytes = schedule.to_vec();
    bytes[4] = 2;
    for row in bytes[10..].chunks_mut(14) {
        for rate in row[..6].chunks_mut(2) {
            let number = u16::from_le_bytes([rate[0], rate[1]]).checked_mul(10)?;
            rate.copy_from_slice(&number.to_le_bytes());
        }
    }
    Some(bytes)
}

/// Whether the subject writes something under a schedule of version 1. Under ten times its rates in
/// version 2 it must leave the same.
fn written_tenfold(subject: Subject, input: &Input) -> bool {
    let Some(schedule) = tenfold(&input.schedule) else {
        return false;
    };
    let room = room(input);
    let one = outcome(subject, input, room);
    let other = outcome(subject, &Input { schedule, ..input.clone() }, room);
    assert!(one == other, "answers {:#x} and {:#x}", one.answer, other.answer);
    one.answer >> 32 == 0
}

/// "A version 1 rate counts ten times": ten times the rates in version 2 get the same answer and
/// the same bytes, whatever the book, the buffer, the cost rate and the questions.
#[test]
fn c15_ten_times_the_rates() {
    let inputs = Inputs::new(15);
    let seeded = inputs.fixed()..inputs.fixed() + 8_000;
    let reports = seeded.filter(|&number| written_tenfold(&library, &inputs.get(number)));
    assert!(reports.count() > 1_000);
    let billings = Billings::new(15);
    let seeded = billings.fixed()..billings.fixed() + 8_000;
    let bills = seeded.filter(|&number| {
        let Billing { input, rate } = billings.get(number);
        written_tenfold(&|schedule, book, lent| library_bills(schedule, book, rate, lent), &input)
    });
    assert!(bills.count() > 1_000);
    let askings = Askings::new(15);
    let seeded = askings.fixed()..askings.fixed() + 8_000;
    let answered = seeded.filter(|&number| {
        let Asking { input, questions } = askings.get(number);
        let subject: Subject =
            &|schedule, book, lent| library_headroom(schedule, book, &questions, lent);
        written_tenfold(subject, &input)
    });
    assert!(answered.count() > 1_000);
    for book in [sample(), largest_report_book(), largest_specialist_book(), every_tier(MOST)] {
        let wanted = report(&book).bytes;
        assert_eq!(report_under(&in_ten_thousandths().bytes(), &book).bytes, wanted);
    }
}

/// The same numbers under the other version are another limit: 1,500 per mille of 1,000, and 1,500
/// ten-thousandths. T2 under the published numbers in version 2 has a tenth of its limits.
#[test]
fn c15_the_version_decides() {
    let mut book = RawBook::empty(1_000, 0, 0);
    book.counterparty(RawCounterparty::default());
    book.asset(held(0, 11, 1, 1_500), &[]);
    let printed = |version| report_under(&plain(version, [1_500; 3], 0).bytes(), &book).printed();
    assert_eq!(printed(1), "1 0 1500 1500 1500 0\ncharge 0\n");
    assert_eq!(printed(2), "1 0 1500 150 150 1350\ncharge 1350\n");
    let mut schedule = published();
    schedule[4] = 2;
    assert_eq!(
        report_under(&schedule, &t2_at_desks()).printed(),
        "1 0 300000000 25000000 25000000 275000000\n\
         1 2 300000000 50000000 25000000 275000000\n\
         charge 550000000\n"
    );
}

/// The refusal of a schedule, by a report, by bills and by answers; none where all accept it.
fn refused_schedule(schedule: &RawSchedule) -> Option<Refusal> {
    let (schedule, book) = (schedule.bytes(), sample().bytes());
    let answer = packed_report(&schedule, &book, &mut [0; LARGEST_REPORT]);
    let refusal = match Answer::unpacked(answer).expect("an answer") {
        Answer::Refused(refusal) => Some(refusal),
        Answer::Written(_) => None,
    };
    let of_bills = not_billed(&schedule, &book, 1_001, 0);
    assert_eq!(of_bills, refusal.unwrap_or(Refusal::CostRate));
    let of_answers = not_answered(&schedule, &book, &[0], 0);
    assert_eq!(of_answers, refusal.unwrap_or(Refusal::Questions));
    refusal
}

/// "rates in ten-thousandths, at most 15,000": "refusal 4 reads 15,000 for version 2", and 1,500
/// for version 1, each at every place.
#[test]
fn c15_the_most_of_a_rate() {
    assert_eq!((SCHEDULE_PER_MILLE, SCHEDULE_TEN_THOUSANDTHS), (1, 2));
    assert_eq!((MOST_RATE_PER_MILLE, MOST_RATE_TEN_THOUSANDTHS), (1_500, 15_000));
    // Ten times 6,554 is 4 in 16 bits.
    let beside: [(u16, &[u16], &[u16]); 2] = [
        (1, &[1_499, 1_500], &[1_501, 6_554, 14_999, 15_000, 15_001, 65_535]),
        (2, &[1_500, 1_501, 14_999, 15_000], &[15_001, 15_002, 16_384, 32_768, 65_535]),
    ];
    for (version, accepted, refused) in beside {
        for (row, place) in (0..8).flat_map(|row| [(row, 0), (row, 1), (row, 2)]) {
            let with = |rate| {
                let mut schedule = plain(version, [1_500; 3], 0);
                schedule.rows[row].rates[place] = rate;
                refused_schedule(&schedule)
            };
            assert!(accepted.iter().all(|&rate| with(rate).is_none()));
            assert!(refused.iter().all(|&rate| with(rate) == Some(Refusal::ScheduleRates)));
        }
    }
}

/// Percents are per cent and fixed amounts cents in both versions, and have the same bounds: 66 and
/// 34 per cent of 12,345 are 8,147.7 and 4,197.3.
#[test]
fn c15_percents_and_fixed_amounts() {
    let mut wanted = [12_345; 13];
    (wanted[5], wanted[8], wanted[4], wanted[7]) = (8_147, 8_147, 4_197, 4_197);
    for version in [1, 2] {
        let schedule = RawSchedule { percents: [66, 34], ..plain(version, [0; 3], 12_345) };
        let report = report_under(&schedule.bytes(), &every_tier(1_000));
        assert_eq!((limits_by_tier(&report), report.a3_limit()), (wanted, 12_345));
        for place in 0..2 {
            for (percent, refusal) in [
                (100, None),
                (101, Some(Refusal::ScheduleRates)),
                (660, Some(Refusal::ScheduleRates)),
            ] {
                let mut schedule = schedule.clone();
                schedule.percents[place] = percent;
                assert_eq!(refused_schedule(&schedule), refusal);
            }
        }
        for row in 0..8 {
            for (fixed, refusal) in [(MOST, None), (MOST + 1, Some(Refusal::ScheduleRates))] {
                let mut schedule = schedule.clone();
                schedule.rows[row].fixed = fixed;
                assert_eq!(refused_schedule(&schedule), refusal);
            }
        }
    }
}

/// "Refusal 3 passes 1 and 2 (its example is now 3)"; checked behind 2 and before 4.
#[test]
fn c15_versions() {
    for version in (0..=300).chain([512, 513, 514, 0x0201, 0x0202, 65_535]) {
        let passes = matches!(version, 1 | 2);
        let schedule = RawSchedule { version, ..RawSchedule::published() };
        let wanted = Some(Refusal::ScheduleVersion).filter(|_| !passes);
        assert_eq!(refused_schedule(&schedule), wanted, "version {version}");
        let mut rates = schedule;
        rates.rows[6].rates[1] = 60_000;
        let wanted = if passes { Refusal::ScheduleRates } else { Refusal::ScheduleVersion };
        assert_eq!(refused_schedule(&rates), Some(wanted), "version {version}");
        rates.mark[2] = b'B';
        assert_eq!(refused_schedule(&rates), Some(Refusal::ScheduleMark), "version {version}");
    }
}

/// C-11's tiers under schedules of version 2, at their least and at their most: 35.5, 23.43 and
/// 12.07 cents.
#[test]
fn c15_specialist_funds() {
    for rates in [0, 500, 5_000, 15_000] {
        for percents in [[100, 100], [0, 0], [66, 34]] {
            let schedule = RawSchedule { percents, ..plain(2, [rates; 3], 0) };
            for (base, more) in [(0, 0), (MOST as i64, 0), (-(MOST as i64), 1_000)] {
                let book = RawBook { base, ..three_tiers(71, more) };
                assert_eq!(limits(&report_under(&schedule.bytes(), &book)), [35, 23, 12]);
            }
        }
    }
}

/// Deposits of 1, and bills of another bank for so much: W. Row d's limit, where nothing else has
/// one.
fn limit_beside(w: u64, version: u16, rates: [u16; 3], fixed: u64) -> u64 {
    let mut book = RawBook::empty(MOST, 0, 0);
    book.counterparties = vec![bank(), bank()];
    let cash = RawMitigant { form: 1, flags: 31, counterparty: 2, value: 1 };
    book.asset(held(0, 3, 1, w % MOST + 1), &[cash]);
    (0..w / MOST).for_each(|_| book.asset(held(0, 3, 1, MOST), &[]));
    let mut schedule = plain(version, [0; 3], 0);
    schedule.rows[1] = RawRow { rates, fixed };
    let report = report_under(&schedule.bytes(), &book);
    assert_eq!(report.all_net(), w + 1);
    report.lines().iter().find(|line| line.tier == 12).unwrap().amounts[1]
}

/// W lessens the first rate's product, at most 15,000,000,000,000, in whole cents.
#[test]
fn c15_w() {
    let product = 15_000_000_000_000;
    for (version, rate) in [(1, 1_500), (2, 15_000)] {
        assert_eq!(limit_beside(1, version, [rate, 0, 0], 0), product - 1);
        assert_eq!(limit_beside(product - 1, version, [rate, 0, 0], 0), 1);
        assert_eq!(limit_beside(product, version, [rate, 0, 0], 0), 0);
        assert_eq!(limit_beside(product + 1, version, [rate, 0, 0], 0), 0);
    }
    assert_eq!(limit_beside(436_999_999_990, 2, [437, 0, 0], 0), 10);
    assert_eq!(limit_beside(436_999_999_990, 2, [437, 1, 0], 0), 1_000_000_000);
}

/// 10,000 W passes 64 bits, by almost nothing: at 1,844,674,407,370,956 by 8,384. No product is
/// left, only the second rate's, a tenth of M, and the fixed amount.
#[test]
fn c15_w_past_64_bits() {
    for w in
        [1_844_674_407_370_956, 3_689_348_814_741_911, 5_534_023_222_112_866, 7_378_697_629_483_821]
    {
        assert!(10_000u64.wrapping_mul(w) < 10_000);
        for w in [w - 1, w, w + 1] {
            for (version, first, second) in [(1, 1_500, 100), (2, 15_000, 1_000)] {
                assert_eq!(limit_beside(w, version, [first, 0, 0], 7), 7);
                assert_eq!(limit_beside(w, version, [first, second, 0], 7), MOST / 10);
            }
        }
    }
    // 900 assets of M, the most there are.
    assert_eq!(limit_beside(900 * MOST - 1, 2, [15_000, 0, 0], 7), 7);
}

/// 15,000 of a VAF and a base of M: 1.5 M, which times 10,000 and 100 is just below 2^64.
#[test]
fn c15_the_largest_limits() {
    for (percents, first, second) in [
        ([100, 100], 15_000_000_000_000, 15_000_000_000_000),
        ([99, 1], 14_850_000_000_000, 150_000_000_000),
        ([66, 34], 9_900_000_000_000, 5_100_000_000_000),
        ([0, 0], 0, 0),
    ] {
        let mut wanted = [15_000_000_000_000; 13];
        (wanted[5], wanted[8], wanted[4], wanted[7]) = (first, first, second, second);
        for (version, rate) in [(1, 1_500), (2, 15_000)] {
            for fixed in [0, MOST] {
                let schedule = RawSchedule { percents, ..plain(version, [rate; 3], fixed) };
                let report = report_under(&schedule.bytes(), &every_tier(MOST));
                assert_eq!(limits_by_tier(&report), wanted);
                assert_eq!(report.a3_limit(), 15_000_000_000_000);
            }
        }
    }
}

/// T2 with row i at 2.37 per cent, and T8 with row z at 12.37: the desks pay for 63,000,000 and
/// 37,000,000 above 237,000,000 and 263,000,000, desk 0 for 1,500,000,000 less 1,237,000,000.
#[test]
fn c15_bills() {
    let mut schedule = in_ten_thousandths();
    schedule.rows[6].rates[0] = 237;
    schedule.rows[7].rates[0] = 1_237;
    let schedule = schedule.bytes();
    assert_eq!(
        report_under(&schedule, &t2_at_desks()).printed(),
        "1 0 300000000 237000000 237000000 63000000\n\
         1 2 300000000 500000000 263000000 37000000\n\
         charge 100000000\n"
    );
    assert_eq!(bills_under(&schedule, &t2_at_desks(), 437), [(7, 2_753_100), (255, 1_616_900)]);
    let t8 = reinsurers(&[(10, 600_000_000), (20, 600_000_000), (255, 600_000_000)]);
    assert_eq!(report_under(&schedule, &t8).a3_limit(), 1_237_000_000);
    let billed = [(0, 26_300), (10, 10_000), (20, 10_000), (255, 10_000)];
    assert_eq!(bills_under(&schedule, &t8, 1), billed);
}

/// The published schedule stays what it was: version 1, per mille.
#[test]
fn c15_the_published_schedule() {
    assert_eq!(published()[4..6], SCHEDULE_PER_MILLE.to_le_bytes());
    assert_eq!(tenfold(&published()), Some(in_ten_thousandths().bytes()));
}

fn ask(counterparty: u16, kind: u8) -> RawQuestion {
    RawQuestion { counterparty, kind }
}

/// Each kind that may be asked about, with each counterparty of a book.
fn ask_all(book: &RawBook) -> Vec<RawQuestion> {
    let places = 1..=book.counterparties.len() as u16;
    places.flat_map(|place| KINDS.map(|kind| ask(place, kind))).collect()
}

/// Fixed amounts for rows c, d, f, h and i, and nothing else.
fn fixed_limits([c, d, f, h, i]: [u64; 5]) -> Vec<u8> {
    let mut schedule = plain(1, [0; 3], 0);
    for (row, fixed) in [(0, c), (1, d), (3, f), (5, h), (6, i)] {
        schedule.rows[row].fixed = fixed;
    }
    schedule.bytes()
}

/// A bank and its child, an ungraded name, with these kinds and values of the bank.
fn of_a_bank(assets: &[(u8, u64)]) -> RawBook {
    let mut book = RawBook::empty(TOTAL, BASE, 0);
    book.counterparty(bank());
    book.counterparty(RawCounterparty { parent: 1, ..Default::default() });
    assets.iter().for_each(|&(kind, value)| book.asset(held(0, kind, 1, value), &[]));
    book
}

/// T2's name has 250,000,000 standing in tier i, which is full, and 250,000,000 in tier h, which is
/// full with it. Of a bank instead, deposits go up to 5,000,000,000.
#[test]
fn c16_the_group_of_t2() {
    let t2 = t2_at_desks();
    assert_eq!(answers(&t2, &[ask(1, 11), ask(1, 6), ask(1, 4)]), [0, 0, 0]);
    // Ungraded, kind 4 is in tier i. Of a graded one it is in h, of a bank in d.
    let mut graded_name = t2.clone();
    graded_name.counterparties[0] = graded();
    assert_eq!(answers(&graded_name, &[ask(1, 4)]), [0]);
    let mut of_bank = t2;
    of_bank.counterparties[0] = bank();
    let questions = [ask(1, 11), ask(1, 6), ask(1, 4), ask(1, 3), ask(1, 1)];
    let wanted = [0, 0, 4_500_000_000, 2_000_000_000, 0];
    assert_eq!(report(&of_bank).charge(), 100_000_000);
    assert_eq!(answers(&of_bank, &questions), wanted);
}

/// T3: up to the limit of 250,000,000, then nothing.
#[test]
fn c16_up_to_the_limit() {
    for (value, room) in [
        (0, 250_000_000),
        (1, 249_999_999),
        (249_999_999, 1),
        (250_000_000, 0),
        (250_000_001, 0),
        (MOST, 0),
    ] {
        assert_eq!(answers(&of_one_name(&[(0, value)]), &[ask(1, 11)]), [room]);
    }
}

/// Tiers i, h and c at 100, 200 and 300: what stands below counts above, and a tier that is full
/// leaves nothing below it.
#[test]
fn c16_tiers_above_and_below() {
    let schedule = fixed_limits([300, 900, 0, 200, 100]);
    let answered = |i, h, c| {
        let book = of_a_bank(&[(11, i), (6, h), (3, c)]);
        answers_under(&schedule, &book, &[ask(1, 11), ask(1, 6), ask(1, 3)])
    };
    assert_eq!(answered(0, 0, 0), [100, 200, 300]);
    assert_eq!(answered(40, 0, 0), [60, 160, 260]);
    assert_eq!(answered(40, 100, 0), [60, 60, 160]);
    assert_eq!(answered(0, 0, 250), [50, 50, 50]);
    assert_eq!(answered(0, 150, 0), [50, 50, 150]);
    // A cent under, at and over a limit of a higher tier.
    assert_eq!(answered(40, 159, 0), [1, 1, 101]);
    assert_eq!(answered(40, 160, 0), [0, 0, 100]);
    assert_eq!(answered(40, 161, 0), [0, 0, 100]);
    // Tiers i and h have room, and c is full.
    assert_eq!(answered(40, 10, 250), [0, 0, 0]);
    assert_eq!(answered(40, 10, 249), [1, 1, 1]);
    // An excess is cut, and does not stand: 100 of the 170 in i, and 100 of the 170 in h.
    assert_eq!(answered(170, 0, 0), [0, 100, 200]);
    assert_eq!(answered(170, 170, 0), [0, 0, 100]);
    assert_eq!(answered(170, 30, 60), [0, 70, 110]);
}

/// A tier that the group has not yet, below, between and above those that it has.
#[test]
fn c16_a_tier_that_the_group_has_not() {
    let book = of_a_bank(&[(11, 40), (4, 500)]);
    // Rank i, h, c, d: what is bought between counts in d too.
    let between = [ask(1, 6), ask(1, 3)];
    assert_eq!(answers_under(&fixed_limits([300, 900, 0, 200, 100]), &book, &between), [160, 260]);
    assert_eq!(answers_under(&fixed_limits([300, 700, 0, 200, 100]), &book, &between), [160, 160]);
    assert_eq!(answers_under(&fixed_limits([300, 540, 0, 200, 100]), &book, &between), [0, 0]);
    // c above d: only its own limit counts.
    let above = fixed_limits([950, 540, 0, 200, 100]);
    assert_eq!(answers_under(&above, &book, &between), [0, 410]);
    // h below i.
    let below = fixed_limits([300, 900, 0, 50, 100]);
    assert_eq!(answers_under(&below, &book, &between), [50, 260]);
    assert_eq!(answers_under(&fixed_limits([300, 900, 0, 50, 60]), &book, &between), [20, 260]);
    // A group that has none at all, and one without records.
    let none = of_a_bank(&[]);
    assert_eq!(answers_under(&below, &none, &between), [50, 300]);
    assert_eq!(answers_under(&below, &of_a_bank(&[(11, 0)]), &between), [50, 300]);
}

/// Equal limits: whichever tier is asked about, all that stands in them counts.
#[test]
fn c16_equal_limits() {
    let questions = [ask(1, 11), ask(1, 6), ask(1, 3), ask(1, 4)];
    for (assets, room) in [
        (vec![], 100),
        (vec![(11, 40)], 60),
        (vec![(6, 40)], 60),
        (vec![(4, 40)], 60),
        (vec![(11, 30), (4, 30)], 40),
        (vec![(11, 30), (6, 30), (4, 39)], 1),
        (vec![(11, 30), (6, 30), (4, 40)], 0),
        (vec![(11, 30), (6, 30), (4, 41)], 0),
    ] {
        let schedule = fixed_limits([100, 100, 100, 100, 100]);
        assert_eq!(answers_under(&schedule, &of_a_bank(&assets), &questions), [room; 4]);
    }
    // One cent beside: h at 101 has one cent more, for itself and for nothing below it.
    let book = of_a_bank(&[(11, 30), (4, 30)]);
    let beside = fixed_limits([100, 100, 0, 101, 100]);
    assert_eq!(answers_under(&beside, &book, &questions), [40, 41, 40, 40]);
}

/// "A kind without limit answers M", whatever the charge; of counterparties that fail its condition
/// the kind has a limit.
#[test]
fn c16_a_kind_without_limit() {
    let mut book = RawBook::empty(TOTAL, BASE, 0);
    let home = book.counterparty(RawCounterparty { kind: 2, ..Default::default() });
    let related = book.counterparty(RawCounterparty { kind: 4, flags: 1, ..graded() });
    let life = book.counterparty(RawCounterparty { kind: 4, ..graded() });
    let province = book.counterparty(RawCounterparty { kind: 3, ..Default::default() });
    let without = [ask(home, 1), ask(related, 2)];
    let limited = [ask(home, 2), ask(related, 1), ask(life, 2), ask(province, 1)];
    let (h, i) = (500_000_000, 250_000_000);
    assert_eq!(answers(&book, &without), [MOST, MOST]);
    assert_eq!(answers(&book, &limited), [i, h, h, i]);
    for counterparty in 1..=4 {
        book.asset(held(0, 11, counterparty, MOST), &[]);
    }
    book.asset(held(0, 1, home, MOST), &[]);
    assert_eq!(answers(&book, &without), [MOST, MOST]);
    assert_eq!(answers(&book, &limited), [0, h - i, h - i, 0]);
}

/// "the greatest amount up to M": limits of M and of one and a half M.
#[test]
fn c16_up_to_m() {
    let half = MOST / 2;
    for (rate, value, room) in [
        (1_000, 0, MOST),
        (1_000, 1, MOST - 1),
        (1_500, 0, MOST),
        (1_500, half - 1, MOST),
        (1_500, half, MOST),
        (1_500, half + 1, MOST - 1),
        (1_500, MOST, half),
    ] {
        let mut book = RawBook::empty(MOST, 0, 0);
        book.counterparty(RawCounterparty::default());
        book.asset(held(0, 11, 1, value), &[]);
        for schedule in [plain(1, [rate, 0, 0], 0), plain(2, [10 * rate, 0, 0], 0)] {
            let schedule = schedule.bytes();
            assert_eq!(answers_under(&schedule, &book, &[ask(1, 11), ask(1, 6)]), [room, room]);
        }
    }
}

/// "that group's tier": the tier by the counterparty that is asked about, the group by its topmost
/// parent, wherever in the group it stands.
#[test]
fn c16_a_counterparty_that_is_no_top() {
    let mut book = RawBook::empty(TOTAL, BASE, 0);
    let name = RawCounterparty::default();
    book.counterparty(name);
    book.counterparty(RawCounterparty { parent: 1, ..bank() });
    book.counterparty(RawCounterparty { parent: 2, ..name });
    book.counterparty(name);
    book.asset(held(0, 11, 1, 100_000_000), &[]);
    book.asset(held(0, 4, 2, 20_000_000), &[]);
    let of_tier_i: Vec<RawQuestion> = (1..=4).map(|place| ask(place, 11)).collect();
    let rooms = [150_000_000, 150_000_000, 150_000_000, 250_000_000];
    assert_eq!(answers(&book, &of_tier_i), rooms);
    // Deposits: of the bank in d, of the others in i.
    let deposits: Vec<RawQuestion> = (1..=4).map(|place| ask(place, 4)).collect();
    let rooms = [150_000_000, 4_880_000_000, 150_000_000, 250_000_000];
    assert_eq!(answers(&book, &deposits), rooms);
    book.counterparties[1].parent = 0;
    assert_eq!(answers(&book, &[ask(2, 4), ask(3, 11)]), [4_980_000_000, 250_000_000]);
    // A chain of 500, all of whose assets are the first one's.
    let mut chain = largest_report_book();
    for (parent, counterparty) in (0..).zip(&mut chain.counterparties) {
        counterparty.parent = parent;
    }
    let mut single = chain.clone();
    chain.assets.iter_mut().for_each(|asset| asset.counterparty = 1);
    chain.mitigants.iter_mut().for_each(|mitigant| mitigant.counterparty = 1);
    single.assets.iter_mut().for_each(|asset| asset.counterparty = 500);
    for book in [chain, single] {
        let [first, last] = [1, 500].map(|place| answers(&book, &[ask(place, 11), ask(place, 4)]));
        assert_eq!(first, last);
    }
}

/// "the report's limits held": VAF stays, and with it W, which bank bills would raise and which
/// lessens the limit of deposits; 5,000,000,000 less 1,000,000,000 of these.
#[test]
fn c16_limits_held() {
    let mut book = RawBook::empty(TOTAL, BASE, 0);
    book.counterparties = vec![bank(), bank()];
    book.asset(held(0, 4, 1, 4_000_000_000), &[]);
    book.asset(held(0, 3, 2, 1_000_000_000), &[]);
    // T4: one cent more of the bills raises the charge by row d's limit, which is held here.
    let questions = [ask(2, 3), ask(1, 4), ask(2, 4), ask(1, 3)];
    let rooms = [1_500_000_000, 0, 3_000_000_000, 0];
    assert_eq!(answers(&book, &questions), rooms);
}

/// A3 is held: T8's reinsurers have an A3 excess of 250,000,000 and excesses of 100,000,000 in tier
/// h reinsurance. That takes the room of what ranks at or below, and leaves that of the rest.
#[test]
fn c16_a3_held() {
    let t8 = reinsurers(&[(0, 600_000_000), (0, 600_000_000), (0, 600_000_000)]);
    assert_eq!(answers(&t8, &[ask(1, 11), ask(2, 6), ask(3, 8)]), [0, 0, 0]);
    // Within their tiers, over A3's limit: the charge is A3's alone, and room is room.
    let over = reinsurers(&[(0, 450_000_000), (0, 450_000_000), (0, 450_000_000)]);
    assert_eq!(report(&over).charge(), 100_000_000);
    assert_eq!(answers(&over, &[ask(1, 11), ask(2, 6), ask(3, 8)]), [50_000_000; 3]);
}

/// C-11: no question is of tiers 13 to 15, which count among the others. 500, 330 and 170 of VAF′
/// 1,000, with 100 in each.
#[test]
fn c16_specialist_funds() {
    let mut book = specialist(1_000, 0);
    book.excluded = 300;
    book.counterparty(RawCounterparty::default());
    for months in [0, 3, 12] {
        let asset = RawAsset { combination_stress: 100, ..retrocession(1, months, 0) };
        book.asset(asset, &[]);
    }
    // 70, 130 and 200 are left at 15, 14 and 13, each for what ranks below it.
    for (limit, room) in [
        (0, 0),
        (50, 50),
        (169, 70),
        (170, 70),
        (171, 71),
        (229, 129),
        (230, 130),
        (330, 130),
        (331, 131),
        (400, 200),
        (500, 200),
        (501, 201),
        (900, 600),
    ] {
        let schedule = fixed_limits([0, 0, 0, 0, limit]);
        assert_eq!(answers_under(&schedule, &book, &[ask(1, 11)]), [room], "limit {limit}");
    }
}

/// Whatever is asked beside it, before it and behind it: "each answer equals what the question gets
/// when sent singly".
#[test]
fn c16_sent_singly() {
    for book in [sample(), t2_at_desks(), sixteen_tiers(2, 10, 1_000), with_mitigants(256)] {
        let mut questions = ask_all(&book);
        let singly = |question: &RawQuestion| answers(&book, &[*question])[0];
        let wanted: Vec<u64> = questions.iter().map(singly).collect();
        assert_eq!(answers(&book, &questions), wanted);
        questions.reverse();
        assert!(answers(&book, &questions).iter().rev().eq(&wanted));
        let again: Vec<RawQuestion> = questions.iter().cycle().take(200).copied().collect();
        assert!(answers(&book, &again).iter().eq(wanted.iter().rev().cycle().take(200)));
    }
}

/// Desks and the version of a book change no answer.
#[test]
fn c16_both_versions_of_a_book() {
    for book in [sample(), with_mitigants(255), largest_report_book()] {
        let questions = &ask_all(&book)[..40.min(10 * book.counterparties.len())];
        let wanted = answers(&book, questions);
        let mut at_desks = RawBook { version: 2, ..book };
        for (place, asset) in (0..).zip(&mut at_desks.assets) {
            asset.desk = (place * 7) as u8;
        }
        assert_eq!(answers(&at_desks, questions), wanted);
    }
}

/// The library's charge of a book's bytes.
fn charge(schedule: &[u8], book: &[u8]) -> u64 {
    let mut report = vec![0; LARGEST_REPORT];
    assert_eq!(packed_report(schedule, book, &mut report) >> 32, 0);
    u64::from_le_bytes(report[64..72].try_into().unwrap())
}

/// "without raising the charge; one cent more raises it": on small funds every amount from 0 on is
/// tried, by the second implementation's charge, and by the library's own report of the book with
/// so much more. Its header's amounts stay, and no limit is a part of one or lessened by W.
#[test]
fn c16_every_amount_tried() {
    let last = 400;
    let (mut funds, mut rooms) = (0, 0);
    for number in 0..300 {
        let (schedule, book) = small_fund(&mut Random::new(16, number));
        let (schedule, bytes) = (schedule.bytes(), book.bytes());
        let questions = ask_all(&book);
        let found = answers_under(&schedule, &book, &questions);
        let list = RawQuestion::list(&questions);
        let by_trying = tried(&schedule, &bytes, &list, last).expect("an accepted book");
        let before = charge(&schedule, &bytes);
        for ((question, answer), by_trying) in questions.iter().zip(found).zip(by_trying) {
            assert_eq!(answer.min(last), by_trying, "{question:?}");
            let with = |more| charge(&schedule, &bought(&bytes, *question, more).unwrap());
            if answer == MOST {
                assert_eq!(with(MOST), before);
                continue;
            }
            assert!(answer < last, "{question:?}");
            rooms += u64::from(answer > 0);
            // Every fifth fund by its reports too.
            if number % 5 == 0 {
                assert!((0..=answer).all(|more| with(more) == before), "{question:?}");
                assert!((answer + 1..answer + 9).all(|more| with(more) > before), "{question:?}");
            }
        }
        funds += u64::from(before > 0);
    }
    assert!(funds > 100 && rooms > 2_000, "{funds} with a charge, {rooms} with room");
}

/// "a list of up to 200 questions": 0, 1, 200 and 201.
#[test]
fn c16_how_many_questions() {
    assert_eq!((QUESTION, ANSWER, MOST_QUESTIONS), (3, 8, 200));
    let book = t2_at_desks();
    assert_eq!(answers(&book, &[]), []);
    assert_eq!(headroom(&published(), &book.bytes(), &[], &mut []), Answer::Written(0));
    let mut of_bank = book.clone();
    of_bank.counterparties[0] = bank();
    for count in [1, 2, 199, 200] {
        assert_eq!(answers(&of_bank, &vec![ask(1, 4); count]), vec![4_500_000_000; count]);
    }
    for count in [201, 202, 255, 256, 400, 456, 21_846] {
        let list = RawQuestion::list(&vec![ask(1, 4); count]);
        for room in [ANSWER * count, ANSWER * 200, 0] {
            let refusal = not_answered(&published(), &of_bank.bytes(), &list, room);
            assert_eq!(refusal, Refusal::Questions, "{count} questions");
        }
    }
    // Without a counterparty no place is in range; an empty list is.
    let none = RawBook::empty(TOTAL, BASE, 0);
    assert_eq!(answers(&none, &[]), []);
    for place in [0, 1, 65_535] {
        let list = RawQuestion::list(&[ask(place, 11)]);
        assert_eq!(not_answered(&published(), &none.bytes(), &list, 8), Refusal::Questions);
    }
}

/// "or its bytes aren't three a question": 600 bytes are the longest list.
#[test]
fn c16_bytes_of_a_list() {
    let book = of_a_bank(&[(4, 1)]).bytes();
    let list = RawQuestion::list(&vec![ask(1, 4); 300]);
    for length in (0..=31).chain(590..=620) {
        let answer = headroom(&published(), &book, &list[..length], &mut [0; 8 * 300]);
        let accepted = length % 3 == 0 && length <= 600;
        let wanted = if accepted {
            Answer::Written(length / 3 * 8)
        } else {
            Answer::Refused(Refusal::Questions)
        };
        assert_eq!(answer, wanted, "{length} bytes");
    }
    for (length, room) in [(1, 0), (2, 0), (2, 8), (4, 8), (4, 7), (601, 1_600), (602, 0)] {
        let refusal = not_answered(&published(), &book, &list[..length], room);
        assert_eq!(refusal, Refusal::Questions, "{length} bytes");
    }
}

/// "20 when a place or kind is out of range": 1 to C, and 1 to 11 but 9, at each spot of a list.
#[test]
fn c16_places_and_kinds() {
    for counterparties in [1, 2, 255, 256, 257, 500] {
        let mut book = RawBook::empty(TOTAL, BASE, 0);
        book.counterparties = vec![graded(); usize::from(counterparties)];
        let bytes = book.bytes();
        let accepted = |count: usize, spot: usize, question| {
            let mut list = vec![ask(1, 11); count];
            list[spot] = question;
            let list = RawQuestion::list(&list);
            match headroom(&published(), &bytes, &list, &mut [0; 1_600]) {
                Answer::Written(length) => length == 8 * count,
                Answer::Refused(refusal) => {
                    assert_eq!(refusal, Refusal::Questions);
                    assert_eq!(not_answered(&published(), &bytes, &list, 0), Refusal::Questions);
                    false
                }
            }
        };
        for (count, spot) in [(1, 0), (3, 0), (3, 1), (3, 2), (200, 0), (200, 100), (200, 199)] {
            let last = counterparties;
            for place in [0, 1, last - 1, last, last + 1, last + 256, 32_768, 65_535] {
                let wanted = (1..=last).contains(&place);
                assert_eq!(accepted(count, spot, ask(place, 6)), wanted, "place {place}");
            }
            for kind in 0..=255 {
                let wanted = matches!(kind, 1..=8 | 10 | 11);
                assert_eq!(accepted(count, spot, ask(last, kind)), wanted, "kind {kind}");
            }
        }
    }
}

/// "21 when the answer buffer is shorter than eight bytes a question": no other byte is written, and
/// what was there before does not matter.
#[test]
fn c16_the_buffer() {
    let book = of_a_bank(&[(11, 40), (4, 500)]);
    let bytes = book.bytes();
    for count in [0, 1, 2, 3, 17, 200] {
        let questions: Vec<RawQuestion> =
            ask_all(&book).iter().cycle().take(count).copied().collect();
        let (list, wanted) = (RawQuestion::list(&questions), answers(&book, &questions));
        let room = ANSWER * count;
        for short in (1..=room.min(20)).chain([room / 2, room].into_iter().filter(|&it| it > 0)) {
            let refusal = not_answered(&published(), &bytes, &list, room - short);
            assert_eq!(refusal, Refusal::AnswersShort, "{short} bytes short");
        }
        let wanted: Vec<u8> = wanted.into_iter().flat_map(u64::to_le_bytes).collect();
        writes_alone(&wanted, |lent| packed_headroom(&published(), &bytes, &list, lent));
    }
}

/// 21, 20, 15, 14, 17, 13, then 12 to 1: each fault is put before those that are there already. No
/// list is refused 16.
#[test]
fn c16_refusals_in_their_order() {
    let book = refusable(1);
    let bytes = book.bytes();
    assert_eq!(not_answered(&published(), &bytes, &[1, 0, 11], 7), Refusal::AnswersShort);
    let lists: [&[u8]; 7] =
        [&[0, 0, 11], &[2, 0, 11], &[1, 0, 0], &[1, 0, 9], &[1, 0, 12], &[1, 0, 11, 1], &[1, 0]];
    for (list, room) in lists.into_iter().flat_map(|list| [(list, 7), (list, 1_600)]) {
        assert_eq!(not_answered(&published(), &bytes, list, room), Refusal::Questions);
    }
    let list = [1, 0, 9];
    refused_15_to_1(book, 7, |schedule, book, room| not_answered(schedule, book, &list, room));
    assert_eq!(not_answered(&[], &[], &[9; 601], 0), Refusal::ScheduleLength);
}

/// Every byte string gets the report's own refusal: books cut off anywhere, lists good and bad.
#[test]
fn c16_any_bytes() {
    let book = t2_at_desks().bytes();
    for length in 0..book.len() {
        let wanted = refusal(&published(), &book[..length], LARGEST_REPORT);
        for list in [&[1, 0, 11][..], &[], &[0, 0]] {
            assert_eq!(not_answered(&published(), &book[..length], list, 8), wanted);
        }
    }
}

/// A fund of these VAF and VAF′ without base, with a name that has so much in tiers 0 and 1, at desks
/// 3 and 5.
fn in_tiers_0_and_1(vaf: u64, vaf_prime: u64, [of_0, of_1]: [u64; 2]) -> RawBook {
    let mut book = RawBook { version: 2, ..RawBook::empty(vaf, 0, vaf + of_1 - vaf_prime) };
    let name = book.counterparty(RawCounterparty::default());
    book.asset(held(3, 11, name, of_0), &[]);
    book.asset(RawAsset { combination_stress: of_1, ..held(5, 9, name, 0) }, &[]);
    book
}

/// What document 01's program prints, and what it printed before C-17, by the second implementation
/// with document 01's own ranking.
fn now_and_before(schedule: &RawSchedule, book: &RawBook) -> [String; 2] {
    let now = report_under(&schedule.bytes(), book);
    let mut buffer = vec![0; LARGEST_REPORT];
    let before =
        report_by(&Slip::RankedByCents, &schedule.bytes(), &book.bytes(), &mut buffer).packed();
    assert_eq!(before, now.bytes.len() as u64);
    buffer.truncate(now.bytes.len());
    [now, Report { bytes: buffer }].map(|report| report.printed())
}

/// "With VAF 41, VAF′ 40 and base 0, tier 1 comes before tier 0": 1.000 and 1.025 cents. Their
/// excesses are other ones, and the charge is not.
#[test]
fn c17_the_requests_row() {
    let book = in_tiers_0_and_1(41, 40, [2, 3]);
    let report = report(&book);
    assert_eq!((report.vaf(), report.vaf_prime()), (41, 40));
    for schedule in [RawSchedule::published(), in_ten_thousandths()] {
        assert_eq!(
            now_and_before(&schedule, &book),
            ["1 1 3 1 1 2\n1 0 2 1 0 2\ncharge 4\n", "1 0 2 1 1 1\n1 1 3 1 0 3\ncharge 4\n"]
        );
    }
}

/// VAF and VAF′ on both sides of each other, and of where the cents part.
#[test]
fn c17_vaf_against_vaf_prime() {
    for (vaf, vaf_prime, wanted) in [
        (40, 40, "1 0 2 1 1 1\n1 1 3 1 0 3\ncharge 4\n"),
        (40, 41, "1 0 2 1 1 1\n1 1 3 1 0 3\ncharge 4\n"),
        (79, 40, "1 1 3 1 1 2\n1 0 2 1 0 2\ncharge 4\n"),
        (79, 78, "1 1 3 1 1 2\n1 0 2 1 0 2\ncharge 4\n"),
        (80, 79, "1 1 3 1 1 2\n1 0 2 2 1 1\ncharge 3\n"),
        (79, 80, "1 0 2 1 1 1\n1 1 3 2 1 2\ncharge 3\n"),
        (39, 38, "1 1 3 0 0 3\n1 0 2 0 0 2\ncharge 5\n"),
        (1, 0, "1 1 3 0 0 3\n1 0 2 0 0 2\ncharge 5\n"),
        (0, 0, "1 0 2 0 0 2\n1 1 3 0 0 3\ncharge 5\n"),
        (0, 1, "1 0 2 0 0 2\n1 1 3 0 0 3\ncharge 5\n"),
    ] {
        let book = in_tiers_0_and_1(vaf, vaf_prime, [2, 3]);
        assert_eq!(report(&book).printed(), wanted, "VAF {vaf}, VAF′ {vaf_prime}");
    }
    // 249,999,999,999.975 and 249,999,999,999.950.
    let book = in_tiers_0_and_1(MOST - 1, MOST - 2, [200_000_000_000, 100_000_000_000]);
    assert_eq!(
        report(&book).printed(),
        "1 1 100000000000 249999999999 249999999999 0\n\
         1 0 200000000000 249999999999 149999999999 50000000001\n\
         charge 50000000001\n"
    );
}

/// A fund of VAF 150 without base, whose bank has 4, 5 and 6 in tiers 0, 2 and 11.
fn in_tiers_0_2_and_11() -> RawBook {
    RawBook { total: 150, base: 0, ..of_a_bank(&[(11, 4), (6, 5), (3, 6)]) }
}

/// Three tiers at 10.05, 10.20 and 10.35 cents in each order: the charge is 5 in all of them, and
/// before C-17 every one was cut as the first.
#[test]
fn c17_three_tiers_within_a_cent() {
    let before = "1 0 4 10 10 0\n1 2 5 10 6 0\n1 11 6 10 1 5\ncharge 5\n";
    for ([i, h, c], wanted) in [
        ([67, 68, 69], before),
        ([67, 69, 68], "1 0 4 10 10 0\n1 11 6 10 6 0\n1 2 5 10 0 5\ncharge 5\n"),
        ([68, 67, 69], "1 2 5 10 10 0\n1 0 4 10 5 0\n1 11 6 10 1 5\ncharge 5\n"),
        ([69, 67, 68], "1 2 5 10 10 0\n1 11 6 10 5 1\n1 0 4 10 0 4\ncharge 5\n"),
        ([68, 69, 67], "1 11 6 10 10 0\n1 0 4 10 4 0\n1 2 5 10 0 5\ncharge 5\n"),
        ([69, 68, 67], "1 11 6 10 10 0\n1 2 5 10 4 1\n1 0 4 10 0 4\ncharge 5\n"),
    ] {
        let mut schedule = plain(1, [0; 3], 0);
        for (row, rate) in [(6, i), (5, h), (0, c)] {
            schedule.rows[row].rates[0] = rate;
        }
        assert_eq!(now_and_before(&schedule, &in_tiers_0_2_and_11()), [wanted, before]);
    }
}

/// "only truly equal ones by number": 10 cents by a rate, a fixed amount, a second rate and a base
/// rate, then a hundredth of a cent more of VAF's, in tiers 0 and 11. Tier 12 has 7.
#[test]
fn c17_truly_equal_ones_by_number() {
    let mut schedule = plain(1, [0; 3], 0);
    schedule.rows[6].rates = [10, 0, 0];
    schedule.rows[5].fixed = 10;
    schedule.rows[0].rates = [0, 10, 0];
    schedule.rows[1].rates = [0, 0, 125];
    let by_number = "1 0 4 10 10 0\n1 2 5 10 6 0\n1 11 6 10 1 5\n1 12 7 10 0 7\ncharge 12\n";
    let mut book = RawBook { total: 1_000, base: 80, ..in_tiers_0_2_and_11() };
    book.asset(held(0, 4, 1, 7), &[]);
    assert_eq!(now_and_before(&schedule, &book), [by_number, by_number]);
    book.total = 1_001;
    let now = "1 2 5 10 10 0\n1 12 7 10 5 2\n1 0 4 10 0 4\n1 11 6 10 0 6\ncharge 12\n";
    assert_eq!(now_and_before(&schedule, &book), [now, by_number]);
    // Equal ones that are no whole cents: 10.05 each.
    let book = in_tiers_0_2_and_11();
    let equal = plain(1, [67, 0, 0], 0);
    let by_number = "1 0 4 10 10 0\n1 2 5 10 6 0\n1 11 6 10 1 5\ncharge 5\n";
    assert_eq!(now_and_before(&equal, &book), [by_number, by_number]);
}

/// A bank with 7 in tier 11, and its ungraded child's reinsurance, 6 each, by entry and months.
fn downgraded(reinsurance: &[(u8, u8)]) -> RawBook {
    let mut book = RawBook { total: 1_000, base: 0, ..of_a_bank(&[(3, 7)]) };
    book.excluded = 6 * reinsurance.len() as u64;
    for &(entry, months) in reinsurance {
        let asset = RawAsset { entry, months, combination_stress: 6, ..held(0, 9, 2, 0) };
        book.asset(asset, &[]);
    }
    book
}

/// The percent kept makes the difference: 66 per cent of 16 are 10.56, beside 10 in tier 11; 66 per
/// cent of 50 are 33, beside 33.
#[test]
fn c17_a_percent() {
    let of = |percents, e, g, c| {
        let mut schedule = RawSchedule { percents, ..plain(1, [0; 3], 0) };
        for (row, fixed) in [(2, e), (4, g), (0, c), (7, 1_000)] {
            schedule.rows[row].fixed = fixed;
        }
        schedule
    };
    let book = downgraded(&[(1, 3)]);
    let before = "1 8 6 10 10 0\n1 11 7 10 4 3\ncharge 3\n";
    assert_eq!(
        now_and_before(&of([66, 34], 16, 0, 10), &book),
        ["1 11 7 10 10 0\n1 8 6 10 3 3\ncharge 3\n", before]
    );
    // All of 10 is kept: truly equal.
    assert_eq!(now_and_before(&of([100, 34], 10, 0, 10), &book), [before, before]);
    let equal = "1 8 6 33 33 0\n1 11 7 33 27 0\ncharge 0\n";
    assert_eq!(now_and_before(&of([66, 34], 50, 0, 33), &book), [equal, equal]);
    // Two percents: 50 of row g's 21 are 10.50 in tier 5, and 25 of row e's 41 are 10.25 in tier 7.
    assert_eq!(
        now_and_before(&of([50, 25], 41, 21, 100), &downgraded(&[(2, 3), (1, 12)])),
        [
            "1 7 6 10 10 0\n1 5 6 10 4 2\n1 11 7 100 90 0\ncharge 2\n",
            "1 5 6 10 10 0\n1 7 6 10 4 2\n1 11 7 100 90 0\ncharge 2\n"
        ]
    );
}

/// W makes the difference: half of 41 less W of 10 are 10.50 in tier 12, beside 26 per cent, 10.66,
/// in tier 0. Another W makes other cents.
#[test]
fn c17_w() {
    let mut schedule = plain(1, [0; 3], 0);
    schedule.rows[0].fixed = 100;
    schedule.rows[1].rates = [500, 0, 0];
    schedule.rows[6].rates = [260, 0, 0];
    let with_w = |w| {
        let mut book = RawBook::empty(41, 0, 0);
        book.counterparties = vec![bank(), bank()];
        for (kind, counterparty, value) in [(11, 1, 6), (4, 1, 7), (3, 2, w)] {
            book.asset(held(0, kind, counterparty, value), &[]);
        }
        now_and_before(&schedule, &book)
    };
    assert_eq!(
        with_w(10),
        [
            "1 12 7 10 10 0\n1 0 6 10 3 3\n2 11 10 100 100 0\ncharge 3\n",
            "1 0 6 10 10 0\n1 12 7 10 4 3\n2 11 10 100 100 0\ncharge 3\n"
        ]
    );
    for (w, wanted) in [
        (9, "1 0 6 10 10 0\n1 12 7 11 5 2\n2 11 9 100 100 0\ncharge 2\n"),
        (11, "1 12 7 9 9 0\n1 0 6 10 3 3\n2 11 11 100 100 0\ncharge 3\n"),
        (21, "1 12 7 0 0 7\n1 0 6 10 10 0\n2 11 21 100 100 0\ncharge 7\n"),
    ] {
        assert_eq!(with_w(w), [wanted, wanted]);
    }
}

/// C-15: of 1,000, 437 ten-thousandths are 43.70 and 438 are 43.80; 43 per mille are truly equal, and
/// so are 430 ten-thousandths.
#[test]
fn c17_ten_thousandths() {
    let book = RawBook { total: 1_000, base: 0, ..of_a_bank(&[(11, 30), (6, 20)]) };
    let of = |version, i, h| {
        let mut schedule = plain(version, [0; 3], 0);
        (schedule.rows[6].rates[0], schedule.rows[5].rates[0]) = (i, h);
        now_and_before(&schedule, &book)
    };
    let h_first = "1 2 20 43 43 0\n1 0 30 43 23 7\ncharge 7\n";
    let i_first = "1 0 30 43 43 0\n1 2 20 43 13 7\ncharge 7\n";
    assert_eq!(of(2, 438, 437), [h_first, i_first]);
    assert_eq!(of(2, 437, 438), [i_first, i_first]);
    assert_eq!(of(2, 430, 430), [i_first, i_first]);
    assert_eq!(of(1, 43, 43), [i_first, i_first]);
}

/// C-11's tiers, whose rates are per mille under either version: half of 21 are 10.50 in tier 13,
/// beside rates of tier 0 on both sides of that.
#[test]
fn c17_specialist_funds() {
    let mut book = specialist(21, 0);
    book.excluded = 7;
    book.counterparty(RawCounterparty::default());
    book.asset(held(0, 11, 1, 6), &[]);
    book.asset(RawAsset { combination_stress: 7, ..retrocession(1, 0, 0) }, &[]);
    let first_0 = "1 0 6 10 10 0\n1 13 7 10 4 3\ncharge 3\n";
    let first_13 = "1 13 7 10 10 0\n1 0 6 10 3 3\ncharge 3\n";
    for (version, rate, wanted) in [
        (1, 499, first_0),
        (1, 500, first_0),
        (1, 501, first_13),
        (2, 4_999, first_0),
        (2, 5_000, first_0),
        (2, 5_001, first_13),
    ] {
        let found = now_and_before(&plain(version, [rate, 0, 0], 0), &book);
        assert_eq!(found, [wanted, first_0], "rate {rate}");
    }
}

/// C-14: 25 per mille of VAF 4,001 are 100.025, and of VAF′ 4,000 they are 100. Tier 1 is served
/// first, so that desk 3's asset in tier 0 is cut, and no more desk 5's in tier 1.
#[test]
fn c17_bills_of_two_desks() {
    let book = in_tiers_0_and_1(4_001, 4_000, [80, 90]);
    assert_eq!(
        now_and_before(&RawSchedule::published(), &book),
        [
            "1 1 90 100 100 0\n1 0 80 100 10 70\ncharge 70\n",
            "1 0 80 100 100 0\n1 1 90 100 20 70\ncharge 70\n"
        ]
    );
    assert_eq!(bills(&book, 1_000), [(3, 7)]);
    let mut before = [0; BILLS];
    let bytes = book.bytes();
    bills_by(&Slip::RankedByCents, &published(), &bytes, 1_000, &mut before);
    assert_eq!([3, 5].map(|desk| bill(&before, desk)), [0, 7]);
    // The other way about, and truly equal: as before.
    for vaf_prime in [4_001, 4_002] {
        let book = in_tiers_0_and_1(4_001, vaf_prime, [80, 90]);
        assert_eq!(bills(&book, 1_000), [(5, 7)]);
    }
}

/// C-16: at equal limits all that stands counts, whatever the order. 30 and 40 stand of 100, and of
/// 200 in tier 2; or 100 stand, all that can.
#[test]
fn c17_questions_are_answered_as_before() {
    let questions = [ask(1, 11), ask(1, 6)];
    let list = RawQuestion::list(&questions);
    for ([of_0, of_1], wanted) in [
        ([30, 40], [30, 130]),
        ([0, 40], [60, 160]),
        ([30, 0], [70, 170]),
        ([60, 40], [0, 100]),
        ([60, 39], [1, 101]),
        ([80, 90], [0, 100]),
        ([500, 1], [0, 100]),
    ] {
        for vaf_prime in [4_000, 4_001] {
            let book = in_tiers_0_and_1(4_001, vaf_prime, [of_0, of_1]);
            assert_eq!(answers(&book, &questions), wanted, "VAF′ {vaf_prime}");
            let mut before = [0; 2 * ANSWER];
            let old = Slip::RankedByCents;
            headroom_by(&old, &published(), &book.bytes(), &list, &mut before);
            assert_eq!(before.to_vec(), wanted.map(u64::to_le_bytes).concat());
        }
    }
}

/// A report's lines in runs of one group and limit: of each run, all of its lines but left and
/// excess, by tier, and the sum of its excesses.
fn but_for_order(report: &[u8]) -> Vec<(Vec<Vec<u8>>, u64)> {
    let kept = |run: &Vec<&[u8]>| {
        let mut lines: Vec<Vec<u8>> = run.iter().map(|line| line[..24].to_vec()).collect();
        lines.sort_unstable();
        (lines, run.iter().map(|line| amount(line, 4)).sum())
    };
    runs(&report[HEADER..]).iter().map(kept).collect()
}

/// What stays, over all near ties that are listed: the answer, the header and with it group excess
/// and charge, the lines but for order, left and excess where limits are equal, and the sum of the
/// excesses there; every answer to a question; and the sum of the bills. Most of the reports, and
/// many bills, are other bytes.
#[test]
fn c17_what_stays() {
    let old = Slip::RankedByCents;
    let questions = [ask(2, 11), ask(2, 6), ask(3, 10), ask(4, 5), ask(1, 4), ask(1, 3)];
    let list = RawQuestion::list(&questions);
    let inputs = near_ties();
    let (mut reports, mut bills) = (0, 0);
    for (number, input) in inputs.iter().enumerate() {
        let Input { schedule, book, .. } = input;
        let mut made = [vec![0; LARGEST_REPORT], vec![0; LARGEST_REPORT]];
        let now = packed_report(schedule, book, &mut made[0]);
        let before = report_by(&old, schedule, book, &mut made[1]).packed();
        assert_eq!((now >> 32, now), (0, before), "input {number}");
        made.iter_mut().for_each(|report| report.truncate(now as usize));
        assert_eq!(made[0][..HEADER], made[1][..HEADER], "input {number}");
        assert_eq!(but_for_order(&made[0]), but_for_order(&made[1]), "input {number}");
        assert!(runs(&made[1][HEADER..]).iter().all(|run| in_tier_order(run)), "input {number}");
        reports += u64::from(made[0] != made[1]);

        let mut answers = [[0; 6 * ANSWER]; 2];
        headroom(schedule, book, &list, &mut answers[0]);
        headroom_by(&old, schedule, book, &list, &mut answers[1]);
        assert_eq!(answers[0], answers[1], "input {number}");

        let mut of_desks = book.clone();
        of_desks[4] = 2;
        let assets = usize::from(of_desks[8]);
        let first = 40 + 4 * usize::from(of_desks[6]);
        (0..assets).for_each(|asset| of_desks[first + 48 * asset + 7] = asset as u8);
        let mut billed = [[0; BILLS]; 2];
        packed_bills(schedule, &of_desks, 1_000, &mut billed[0]);
        bills_by(&old, schedule, &of_desks, 1_000, &mut billed[1]);
        let sum = |bills: &[u8; BILLS]| (0..=255).map(|desk| bill(bills, desk)).sum::<u64>();
        assert_eq!(sum(&billed[0]), sum(&billed[1]), "input {number}");
        bills += u64::from(billed[0] != billed[1]);
    }
    let count = inputs.len();
    assert!(count > 7_500 && reports > 6_000 && bills > 2_000, "{count}: {reports}, {bills}");
}

/// Entry classes and months of an ungraded reinsurer's treaties, so that each has a tier of its own.
const APART: [(u8, u8, u8); 7] =
    [(0, 0, 1), (1, 0, 9), (1, 3, 8), (1, 12, 7), (2, 0, 6), (2, 3, 5), (2, 12, 4)];

/// A treaty whose remainder is in the tier that this number of `APART` has.
fn treaty(number: usize, counterparty: u16, net: u64) -> RawAsset {
    let (entry, months, _) = APART[number];
    RawAsset { entry, ..retrocession(counterparty, months, net) }
}

/// A good letter of credit.
fn letter(bank: u16, value: u64) -> RawMitigant {
    RawMitigant { form: 5, flags: 8, counterparty: bank, value }
}

/// The reinsurer of `of_a_reinsurer`, and the bank of its first treaty's letter.
const REINSURER: u16 = 1;
const FIRST_BANK: u16 = 2;

/// A fund with a reinsurer, an ungraded name, and with a bank for each of seven treaties.
fn of_a_reinsurer() -> RawBook {
    let mut book = RawBook::empty(TOTAL, BASE, 0);
    book.counterparty(RawCounterparty::default());
    book.counterparties.extend([bank(); 7]);
    book
}

/// Treaties of these nets, each with a letter of so much of its own bank's, or with none.
fn with_letters(treaties: &[(u64, u64)]) -> RawBook {
    let mut book = of_a_reinsurer();
    for (number, &(net, value)) in treaties.iter().enumerate() {
        let letters = [letter(FIRST_BANK + number as u16, value)];
        book.asset(treaty(number, REINSURER, net), &letters[..usize::from(value > 0)]);
    }
    book
}

fn exposure(report: &Report, top: u16, tier: u8) -> u64 {
    let lines = report.lines();
    let line = lines.iter().find(|line| (line.top, line.tier) == (top, tier));
    line.map_or(0, |line| line.amounts[0])
}

/// What is covered and what remains of each of the first so many treaties, by the lines of their
/// banks and of the reinsurer.
fn covered_and_left(report: &Report, treaties: usize) -> Vec<[u64; 2]> {
    let of = |number: usize| {
        let covered = exposure(report, FIRST_BANK + number as u16, 11);
        [covered, exposure(report, REINSURER, APART[number].2)]
    };
    (0..treaties).map(of).collect()
}

/// The same of treaties with letters.
fn halves(treaties: &[(u64, u64)]) -> Vec<[u64; 2]> {
    let report = report(&with_letters(treaties));
    assert_eq!(report.all_net(), treaties.iter().map(|(net, _)| net).sum::<u64>());
    covered_and_left(&report, treaties.len())
}

/// The report of a book as it was before C-18, by the second implementation with document 01's half.
fn report_before(book: &RawBook) -> Report {
    let mut buffer = vec![0; LARGEST_REPORT];
    let packed =
        report_by(&Slip::HalfOfEachTreaty, &published(), &book.bytes(), &mut buffer).packed();
    assert_eq!(packed >> 32, 0);
    buffer.truncate(packed as usize);
    Report { bytes: buffer }
}

/// "Two treaties of 101 and 99 with good letters of 101 only on the first cover 100", and not 50.
#[test]
fn c18_the_requests_row() {
    assert_eq!(halves(&[(101, 101), (99, 0)]), [[100, 1], [0, 99]]);
    let before = report_before(&with_letters(&[(101, 101), (99, 0)]));
    assert_eq!(covered_and_left(&before, 2), [[50, 51], [0, 99]]);
    // "good letters": two of 101 together cover the same.
    let mut book = of_a_reinsurer();
    book.asset(treaty(0, REINSURER, 101), &[letter(FIRST_BANK, 50), letter(FIRST_BANK, 51)]);
    book.asset(treaty(1, REINSURER, 99), &[]);
    assert_eq!(covered_and_left(&report(&book), 2), [[100, 1], [0, 99]]);
    // Both in one tier, as the program prints them.
    book.assets[1].entry = 0;
    assert_eq!(
        report(&book).printed(),
        "1 1 100 250000000 250000000 0\n2 11 100 2500000000 2500000000 0\ncharge 0\n"
    );
}

/// "each up to its own net": on the second treaty alone 99 of the half of 100 can be drawn.
#[test]
fn c18_up_to_its_own_net() {
    assert_eq!(halves(&[(101, 0), (99, 101)]), [[0, 101], [99, 0]]);
    assert_eq!(halves(&[(101, 0), (99, 98)]), [[0, 101], [98, 1]]);
    assert_eq!(halves(&[(10, 1_000), (190, 1_000)]), [[10, 0], [90, 100]]);
    assert_eq!(halves(&[(0, 1_000), (190, 1_000)]), [[0, 0], [95, 95]]);
    assert_eq!(halves(&[(190, 0), (0, 1_000)]), [[0, 190], [0, 0]]);
    // More than half of its own net, and all of it.
    assert_eq!(halves(&[(100, 80), (100, 0)]), [[80, 20], [0, 100]]);
    assert_eq!(halves(&[(100, 0), (100, 100)]), [[0, 100], [100, 0]]);
    let before = report_before(&with_letters(&[(100, 80), (100, 0)]));
    assert_eq!(covered_and_left(&before, 2), [[50, 50], [0, 100]]);
}

/// "rounded down once": of the sum, and not of each.
#[test]
fn c18_rounded_down_once() {
    assert_eq!(halves(&[(1, 1), (1, 0)]), [[1, 0], [0, 1]]);
    assert_eq!(halves(&[(1, 0), (1, 1)]), [[0, 1], [1, 0]]);
    assert_eq!(halves(&[(1, 1), (1, 1)]), [[1, 0], [0, 1]]);
    assert_eq!(halves(&[(1, 1), (1, 1), (1, 1)]), [[1, 0], [0, 1], [0, 1]]);
    assert_eq!(halves(&[(1, 1), (1, 1), (1, 1), (1, 0)]), [[1, 0], [1, 0], [0, 1], [0, 1]]);
    for (nets, half) in [((101, 98), 99), ((101, 99), 100), ((101, 100), 100), ((101, 101), 101)] {
        assert_eq!(halves(&[(nets.0, 101), (nets.1, 0)])[0], [half, nets.0 - half]);
    }
    assert_eq!(halves(&[(1, 1)]), [[0, 1]]);
}

/// "in book order": the first may draw all of it, and the next ones what it left.
#[test]
fn c18_in_book_order() {
    assert_eq!(halves(&[(101, 101), (101, 101)]), [[101, 0], [0, 101]]);
    assert_eq!(halves(&[(101, 100), (101, 101)]), [[100, 1], [1, 100]]);
    assert_eq!(halves(&[(100, 100), (100, 100), (100, 100)]), [[100, 0], [50, 50], [0, 100]]);
    assert_eq!(halves(&[(100, 30), (100, 100), (100, 100)]), [[30, 70], [100, 0], [20, 80]]);
    assert_eq!(halves(&[(100, 0), (100, 100), (100, 100)]), [[0, 100], [100, 0], [50, 50]]);
    assert_eq!(halves(&[(20, 20), (500, 90), (80, 80)]), [[20, 0], [90, 410], [80, 0]]);
    // It runs out at the third: a cent before, just there and a cent behind.
    for (value, third) in [(49, 2), (50, 1), (51, 0)] {
        let found = halves(&[(100, 50), (52, value), (50, 2), (0, 1)]);
        assert_eq!(found[2], [third, 50 - third]);
    }
    // As many as have a tier of their own: 7 of 100, of which 350 are drawn.
    let all = halves(&[(100, 60); 7]);
    let covered: Vec<u64> = all.iter().map(|[covered, _]| *covered).collect();
    assert_eq!(covered, [60, 60, 60, 60, 60, 50, 0]);
}

/// What is drawn is "what their recognised mitigants cover", and not their value; each mitigant
/// covers "the lesser of its value and what may still be covered".
#[test]
fn c18_what_is_drawn() {
    // 100 of the half; the first treaty's letters come to 3,000 and cover its net of 30.
    assert_eq!(halves(&[(30, 3_000), (170, 3_000)]), [[30, 0], [70, 100]]);
    // Two banks on the first treaty: in order, as far as the half goes.
    let mut book = of_a_reinsurer();
    let both = [letter(FIRST_BANK, 60), letter(FIRST_BANK + 2, 60)];
    book.asset(treaty(0, REINSURER, 150), &both);
    book.asset(treaty(1, REINSURER, 51), &[letter(FIRST_BANK + 1, 51)]);
    let made = report(&book);
    assert_eq!(covered_and_left(&made, 2), [[60, 50], [0, 51]]);
    assert_eq!(exposure(&made, FIRST_BANK + 2, 11), 40);
}

/// Cash, securities, debt and guarantees draw as letters do, each as an exposure of its own.
#[test]
fn c18_other_mitigants() {
    let mut book = of_a_reinsurer();
    let home = book.counterparty(RawCounterparty { kind: 2, ..Default::default() });
    let issuer = book.counterparty(graded());
    let of = |form, flags, counterparty| RawMitigant { form, flags, counterparty, value: 30 };
    let mitigants = [
        of(1, 17, FIRST_BANK),
        of(2, 18, home),
        of(3, 17, issuer),
        of(4, 8, FIRST_BANK + 1),
        of(5, 8, FIRST_BANK + 2),
    ];
    for (number, mitigant) in mitigants.into_iter().enumerate() {
        book.asset(treaty(number, REINSURER, 50), &[mitigant]);
    }
    // 125 of 250: all of the first four, and 5 of the last.
    let made = report(&book);
    let left = APART[..5].iter().map(|&(_, _, tier)| exposure(&made, REINSURER, tier));
    assert_eq!(left.collect::<Vec<u64>>(), [20, 20, 20, 20, 45]);
    let parts = [(FIRST_BANK, 12), (issuer, 2), (FIRST_BANK + 1, 11), (FIRST_BANK + 2, 11)];
    assert_eq!(parts.map(|(top, tier)| exposure(&made, top, tier)), [30, 30, 30, 5]);
}

/// "recognised mitigants": others cover and draw nothing; "one without draws nothing".
#[test]
fn c18_what_is_not_recognised() {
    let no_terms = RawMitigant { flags: 23, ..letter(FIRST_BANK, 101) };
    let mut of_none = of_a_reinsurer();
    let ungraded = of_none.counterparty(RawCounterparty { kind: 1, ..Default::default() });
    for bad in [no_terms, letter(REINSURER, 101), letter(ungraded, 101)] {
        let mut book = of_none.clone();
        book.asset(treaty(0, REINSURER, 101), &[bad]);
        book.asset(treaty(1, REINSURER, 99), &[letter(FIRST_BANK + 1, 99)]);
        assert_eq!(covered_and_left(&report(&book), 2), [[0, 101], [99, 0]]);
        // Beside a good one on the same treaty.
        let mut book = of_none.clone();
        book.asset(treaty(0, REINSURER, 101), &[bad, letter(FIRST_BANK, 40), bad]);
        book.asset(treaty(1, REINSURER, 99), &[letter(FIRST_BANK + 1, 99)]);
        assert_eq!(covered_and_left(&report(&book), 2), [[40, 61], [60, 39]]);
    }
}

/// "unlinked": a linked treaty neither adds to the half nor draws on it.
#[test]
fn c18_a_linked_treaty() {
    let linked = RawAsset { flags: 1, ..treaty(0, REINSURER, 1_000) };
    let own = [
        (treaty(0, REINSURER, 101), letter(FIRST_BANK, 101)),
        (treaty(1, REINSURER, 99), letter(FIRST_BANK + 1, 99)),
    ];
    for place in 0..3 {
        let mut book = of_a_reinsurer();
        for number in 0..3 {
            if number == place {
                book.asset(linked, &[letter(FIRST_BANK + 2, 1_000)]);
            }
            if let Some((treaty, letter)) = own.get(number) {
                book.asset(*treaty, &[*letter]);
            }
        }
        let report = report(&book);
        assert_eq!(covered_and_left(&report, 3), [[100, 1], [0, 99], [0, 0]]);
        assert_eq!(report.all_net(), 1_200);
    }
    // One of two linked: the other one's half is its own, as T9's.
    let mut book = with_letters(&[(101, 101), (99, 0)]);
    book.assets[1].flags = 1;
    assert_eq!(covered_and_left(&report(&book), 2), [[50, 51], [0, 0]]);
}

/// Other assets with the reinsurer neither add to its half nor draw on it; they are covered up to
/// their nets.
#[test]
fn c18_other_kinds() {
    let cash = RawMitigant { form: 1, flags: 17, counterparty: FIRST_BANK + 4, value: 700 };
    for kind in KINDS {
        let mut book = of_a_reinsurer();
        book.asset(treaty(0, REINSURER, 101), &[letter(FIRST_BANK, 101)]);
        book.asset(held(0, kind, REINSURER, 900), &[cash]);
        book.asset(treaty(1, REINSURER, 99), &[letter(FIRST_BANK + 1, 99)]);
        let report = report(&book);
        let found = [0, 1].map(|number| exposure(&report, FIRST_BANK + number, 11));
        assert_eq!(found, [100, 0], "kind {kind}");
        assert_eq!(exposure(&report, FIRST_BANK + 4, 12), 700, "kind {kind}");
    }
}

/// "that counterparty's": halves of two reinsurers of one group, or of two groups, are apart.
#[test]
fn c18_two_reinsurers() {
    for parent in [REINSURER, 0] {
        let mut book = of_a_reinsurer();
        let other = book.counterparty(RawCounterparty { parent, ..Default::default() });
        book.asset(treaty(0, REINSURER, 101), &[letter(FIRST_BANK, 200)]);
        book.asset(treaty(1, other, 300), &[letter(FIRST_BANK + 1, 1_000)]);
        book.asset(treaty(2, REINSURER, 99), &[letter(FIRST_BANK + 2, 200)]);
        book.asset(treaty(3, other, 1), &[letter(FIRST_BANK + 3, 1)]);
        let report = report(&book);
        let covered = [0, 1, 2, 3].map(|number| exposure(&report, FIRST_BANK + number, 11));
        assert_eq!(covered, [100, 150, 0, 0]);
    }
}

/// "neither of kind 4 nor an approved affiliate" (01): such ones have no half, and each of their
/// treaties may be covered whole; every other sort of counterparty has one.
#[test]
fn c18_who_has_a_half() {
    for sort in every_sort() {
        let mut book = of_a_reinsurer();
        book.counterparties[0] = sort;
        book.asset(treaty(0, REINSURER, 101), &[letter(FIRST_BANK, 101)]);
        book.asset(treaty(1, REINSURER, 99), &[letter(FIRST_BANK + 1, 99)]);
        let report = report(&book);
        let covered = [0, 1].map(|number| exposure(&report, FIRST_BANK + number, 11));
        let whole = sort.kind == 4 || sort.flags & 2 != 0;
        assert_eq!(covered, if whole { [101, 99] } else { [100, 0] }, "{sort:?}");
    }
    // An affiliate in the reinsurer's group.
    let mut book = of_a_reinsurer();
    let affiliate = RawCounterparty { parent: REINSURER, flags: 2, ..Default::default() };
    let affiliate = book.counterparty(affiliate);
    book.asset(treaty(0, affiliate, 500), &[letter(FIRST_BANK, 500)]);
    book.asset(treaty(1, REINSURER, 101), &[letter(FIRST_BANK + 1, 101)]);
    book.asset(treaty(2, affiliate, 300), &[letter(FIRST_BANK + 2, 200)]);
    book.asset(treaty(3, REINSURER, 99), &[letter(FIRST_BANK + 3, 99)]);
    let found = covered_and_left(&report(&book), 4);
    assert_eq!(found, [[500, 0], [100, 1], [200, 100], [0, 99]]);
}

/// "nets": after stress, netted liabilities and deductions, none of them below 0.
#[test]
fn c18_nets() {
    let plain = treaty(0, REINSURER, 0);
    let of = |value, offsets, deductions, combination_stress| RawAsset {
        value,
        offsets,
        deductions,
        combination_stress,
        ..plain
    };
    let rises = RawAsset { flags: 2, insurance_stress: 101, ..of(500, 0, 0, 7) };
    let does_not = RawAsset { flags: 0, ..rises };
    for (first, half) in [
        (of(500, 0, 0, 101), 100),
        (of(500, 20, 30, 151), 100),
        (of(500, 20, 30, 51), 50),
        (of(500, 300, 300, 101), 49),
        (of(500, 101, 0, 101), 49),
        (rises, 100),
        (does_not, 53),
    ] {
        let mut book = of_a_reinsurer();
        book.asset(first, &[]);
        book.asset(treaty(1, REINSURER, 99), &[letter(FIRST_BANK + 1, 1_000)]);
        let report = report(&book);
        assert_eq!(exposure(&report, FIRST_BANK + 1, 11), half.min(99), "{first:?}");
        assert_eq!(exposure(&report, REINSURER, 9), 99 - half.min(99), "{first:?}");
    }
}

/// C-11: a retrocession adds to the half and draws on it like any other treaty.
#[test]
fn c18_retrocessions() {
    for (months, tier) in [(0, 13), (3, 14), (12, 15)] {
        let mut book = RawBook { specialist: 1, ..of_a_reinsurer() };
        book.asset(retrocession(REINSURER, months, 101), &[letter(FIRST_BANK, 60)]);
        book.asset(treaty(0, REINSURER, 99), &[letter(FIRST_BANK + 1, 99)]);
        let report = report(&book);
        let covered = [0, 1].map(|number| exposure(&report, FIRST_BANK + number, 11));
        assert_eq!(covered, [60, 40]);
        assert_eq!([tier, 1].map(|tier| exposure(&report, REINSURER, tier)), [41, 59]);
    }
}

/// "T9 is unchanged, having one treaty": 50 of 101, and 101 of a registered reinsurer. So is every
/// report in which no half is shared.
#[test]
fn c18_t9_is_unchanged() {
    assert_eq!(halves(&[(101, 101)]), [[50, 51]]);
    let mut registered = with_letters(&[(101, 101)]);
    registered.counterparties[0].kind = 4;
    assert_eq!(covered_and_left(&report(&registered), 1), [[101, 0]]);
    let inputs = Inputs::new(18);
    let mut same = 0;
    for number in inputs.fixed()..inputs.fixed() + 10_000 {
        let Input { schedule, book, .. } = inputs.get(number);
        if halves_of(&schedule, &book).is_none_or(|met| met.of_several) {
            continue;
        }
        let mut made = [vec![0; LARGEST_REPORT], vec![0; LARGEST_REPORT]];
        let now = packed_report(&schedule, &book, &mut made[0]);
        let before = report_by(&Slip::HalfOfEachTreaty, &schedule, &book, &mut made[1]);
        assert_eq!((now, &made[0]), (before.packed(), &made[1]), "input {number}");
        same += 1;
    }
    assert!(same > 2_000, "{same}");
}

/// "Parts and remainder add up to net" (01): what is without limit, linked or not, and all lines'
/// exposures come to all net, on all listed inputs of C-18.
#[test]
fn c18_parts_and_remainders_add_up() {
    let mut reports = 0;
    for input in shared_halves() {
        let mut buffer = vec![0; LARGEST_REPORT];
        let packed = packed_report(&input.schedule, &input.book, &mut buffer);
        if packed >> 32 > 0 {
            continue;
        }
        buffer.truncate(packed as usize);
        let report = Report { bytes: buffer };
        let exposures: u64 = report.lines().iter().map(|line| line.amounts[0]).sum();
        assert_eq!(amount(&report.bytes, 4) + exposures, report.all_net(), "{}", input.name);
        reports += 1;
    }
    assert!(reports > 3_000, "{reports}");
}

/// W is made of what letters cover: with 100 covered and no longer 50, the limit of deposits is 50
/// less. A3 counts what remains: 100, and no longer 150.
#[test]
fn c18_w_and_a3() {
    let mut book = with_letters(&[(101, 101), (99, 0)]);
    book.assets.iter_mut().for_each(|asset| (asset.entry, asset.months) = (0, 0));
    book.asset(held(0, 4, FIRST_BANK + 1, 1), &[]);
    let limit = |report: &Report| {
        let lines = report.lines();
        lines.iter().find(|line| line.tier == 12).map(|line| line.amounts[1])
    };
    let [now, before] = [report(&book), report_before(&book)];
    assert_eq!([limit(&now), limit(&before)], [TOTAL / 2 - 100, TOTAL / 2 - 50].map(Some));
    assert_eq!([now.a3_sum(), before.a3_sum()], [100, 150]);
}

/// C-14: the request's treaties a hundredfold, at desks 3 and 5, under limits of 4,000 for all tiers.
/// The bank's 10,000 are cut by 6,000, which is desk 3's, and of the reinsurer's 100 and 9,900 the
/// second by 6,000, which is desk 5's. Before C-18 it was 1,000 of the bank's 5,000, 1,100 of the
/// reinsurer's 5,100, and all of its 9,900.
#[test]
fn c18_bills() {
    let mut book = with_letters(&[(101, 101), (99, 0)]);
    (book.version, book.assets[1].entry) = (2, 0);
    (book.assets[0].desk, book.assets[1].desk) = (3, 5);
    book.assets.iter_mut().for_each(|asset| asset.combination_stress *= 100);
    book.mitigants[0].value *= 100;
    let mut schedule = plain(1, [0; 3], 4_000);
    schedule.rows[7].fixed = MOST;
    let schedule = schedule.bytes();
    assert_eq!(bills_under(&schedule, &book, 1_000), [(3, 600), (5, 600)]);
    let mut before = [0; BILLS];
    bills_by(&Slip::HalfOfEachTreaty, &schedule, &book.bytes(), 1_000, &mut before);
    assert_eq!([3, 5].map(|desk| bill(&before, desk)), [210, 990]);
    // Letters on the second alone: the bank's 9,900, and a remainder of 10,100 for desk 3.
    let mut second = book.clone();
    (second.assets[0].mitigants, second.assets[1].mitigants) = (0, 1);
    assert_eq!(bills_under(&schedule, &second, 1_000), [(3, 610), (5, 590)]);
}

/// C-16: what more may be bought of the bank's bills, and of any other asset with the reinsurer,
/// hangs on the half. Limits are 200 for all tiers, of which 100 stand with the bank, and 100 with
/// the reinsurer. Before C-18 it was 50 and 150.
#[test]
fn c18_questions() {
    let book = with_letters(&[(101, 101), (99, 0)]);
    let schedule = plain(1, [0; 3], 200).bytes();
    let questions = [ask(FIRST_BANK, 3), ask(FIRST_BANK, 11), ask(REINSURER, 11)];
    assert_eq!(answers_under(&schedule, &book, &questions), [100, 100, 100]);
    let list = RawQuestion::list(&questions);
    let mut before = [0; 3 * ANSWER];
    headroom_by(&Slip::HalfOfEachTreaty, &schedule, &book.bytes(), &list, &mut before);
    assert_eq!([0, 1, 2].map(|question| amount(&before, question)), [150, 150, 50]);
    // Letters on the second alone: 99 and 101.
    let other = with_letters(&[(101, 0), (99, 101)]);
    let questions = [ask(FIRST_BANK + 1, 3), ask(REINSURER, 11)];
    assert_eq!(answers_under(&schedule, &other, &questions), [101, 99]);
}

/// C-13: a converted book has the same halves, and the order of its desks does not matter.
#[test]
fn c18_both_versions_of_a_book() {
    for treaties in [[(101, 101), (99, 0)], [(101, 0), (99, 101)], [(101, 101), (101, 101)]] {
        let mut book = with_letters(&treaties);
        let wanted = report(&book).bytes;
        assert_eq!(report_of(&converted(&book)), wanted);
        book.version = 2;
        for desks in [[1, 2], [2, 1]] {
            (book.assets[0].desk, book.assets[1].desk) = (desks[0], desks[1]);
            assert_eq!(report(&book).bytes, wanted);
        }
    }
}

/// The largest sums: nets of M twice, which VAF′ leaves where M is excluded; 900 treaties of one
/// reinsurer that come to M; and 900 of M, which 15 turns back, linked or not.
#[test]
fn c18_the_largest_halves() {
    let mut book = with_letters(&[(MOST, MOST), (MOST, MOST)]);
    book.assets.iter_mut().for_each(|asset| asset.value = 0);
    (book.total, book.base, book.excluded) = (0, 0, MOST);
    assert_eq!(covered_and_left(&report(&book), 2), [[MOST, 0], [0, MOST]]);
    book.mitigants[0].value = MOST - 1;
    assert_eq!(covered_and_left(&report(&book), 2), [[MOST - 1, 1], [1, MOST - 1]]);

    let of_many = |asset: RawAsset| {
        let mut book = of_a_reinsurer();
        (book.total, book.base) = (0, 0);
        (0..900).for_each(|_| book.asset(asset, &[letter(FIRST_BANK, MOST)]));
        book
    };
    let share = MOST / 900;
    let many = of_many(RawAsset { value: 0, ..treaty(0, REINSURER, share) });
    let made = report(&many);
    assert_eq!(exposure(&made, FIRST_BANK, 11), 900 * share / 2);
    assert_eq!(exposure(&made, REINSURER, 1), 900 * share - 900 * share / 2);
    let most = RawAsset { value: 0, ..treaty(0, REINSURER, MOST) };
    assert_eq!(refused_book(&of_many(most)), Refusal::StressedAssets);
    assert_eq!(refused_book(&of_many(RawAsset { flags: 1, ..most })), Refusal::StressedAssets);
}

fn comes(book: &RawBook, asset: RawAsset) -> Movement {
    Movement::Add(asset.record(book.version))
}

/// The book with an asset more, behind the last one and without mitigants.
fn with_one_more(book: &RawBook, asset: RawAsset) -> RawBook {
    let mut book = book.clone();
    book.assets.push(asset);
    book
}

/// The book without the asset at a place, from 1, and without its mitigants.
fn with_one_less(book: &RawBook, place: u64) -> RawBook {
    let mut less = RawBook { assets: Vec::new(), mitigants: Vec::new(), ..book.clone() };
    let mut mitigants = book.mitigants.iter().copied();
    for (number, &asset) in (1..).zip(&book.assets) {
        let own: Vec<RawMitigant> = mitigants.by_ref().take(asset.mitigants.into()).collect();
        if number != place {
            less.asset(asset, &own);
        }
    }
    less
}

/// A movement after which the buffer starts with the bytes of this book, those past its end being as
/// they were, and the report is that of this book made afresh.
fn moves(day: &mut Day, movement: &Movement, wanted: &RawBook) -> Report {
    let before = day.buffer.clone();
    let made = day.report(movement);
    let bytes = wanted.bytes();
    let (book, rest) = day.buffer.split_at(bytes.len());
    assert!(book == bytes, "another book after {movement:?}");
    assert!(rest == &before[bytes.len()..], "bytes past the end changed by {movement:?}");
    assert!(made.bytes == report_under(&day.schedule, wanted).bytes, "the report, {movement:?}");
    made
}

/// The name of T2, its first asset, and the other one that comes and goes.
#[test]
fn c19_one_more_and_one_less() {
    let mut book = RawBook::empty(TOTAL, BASE, 0);
    book.counterparty(RawCounterparty::default());
    let mut day = Day::of(&book, 100);
    let (other, traded) = (held(0, 11, 1, 300_000_000), held(0, 6, 1, 300_000_000));
    let one = with_one_more(&book, other);
    let printed = moves(&mut day, &comes(&book, other), &one).printed();
    assert_eq!(printed, "1 0 300000000 250000000 250000000 50000000\ncharge 50000000\n");
    let two = with_one_more(&one, traded);
    let printed = moves(&mut day, &comes(&book, traded), &two).printed();
    assert_eq!(
        printed,
        "1 0 300000000 250000000 250000000 50000000\n\
         1 2 300000000 500000000 250000000 50000000\ncharge 100000000\n"
    );
    let last = with_one_less(&two, 1);
    let printed = moves(&mut day, &Movement::Remove(1), &last).printed();
    assert_eq!(printed, "1 2 300000000 500000000 500000000 0\ncharge 0\n");
    let made = moves(&mut day, &Movement::Remove(1), &book);
    assert_eq!((made.printed(), made.bytes.len()), ("charge 0\n".to_string(), HEADER));
    assert_eq!(day.refusal(&Movement::Remove(1), HEADER), Refusal::Movement);
}

/// One that comes and goes again leaves the book as it was; what it moved past the end stays there.
#[test]
fn c19_there_and_back() {
    for version in [1, 2] {
        let book = RawBook { version, ..sample() };
        let (old, room) = (book.bytes(), 130);
        let mut day = Day::of(&book, room);
        let start = day.clone();
        let asset = held(7 * u8::from(version == 2), 8, 2, 99);
        let more = with_one_more(&book, asset);
        moves(&mut day, &comes(&book, asset), &more);
        moves(&mut day, &Movement::Remove(5), &book);
        let (end, longer) = (old.len(), more.bytes());
        assert_eq!(day.buffer[..end], old);
        assert_eq!(day.buffer[end..end + ASSET], longer[end..]);
        assert_eq!(day.buffer[end + ASSET..], start.buffer[end + ASSET..]);
        // The same record again: every byte is as it was with it.
        moves(&mut day, &comes(&book, asset), &more);
        assert_eq!(day.buffer[..longer.len()], longer);
    }
}

/// "takes the asset at a place away with its mitigants and closes up": the first, those between and
/// the last, with none, one, two and more than a byte counts.
#[test]
fn c19_with_its_mitigants() {
    let wide = with_mitigants(300);
    let narrow = RawBook { version: 2, ..with_mitigants(255) };
    let converted = RawBook { version: 2, ..sample() };
    for book in [sample(), converted, wide, narrow, sixteen_tiers(2, 100, 20_000)] {
        for (place, room) in (1..=book.assets.len() as u64).zip([0, 1, 48, 99].into_iter().cycle())
        {
            let mut day = Day::of(&book, room);
            moves(&mut day, &Movement::Remove(place), &with_one_less(&book, place));
        }
        // One after the other, until none is there: from the first, from the last, from between.
        for order in 0..3 {
            let (mut book, mut day) = (book.clone(), Day::of(&book, 7));
            while !book.assets.is_empty() {
                let left = book.assets.len() as u64;
                let place = [1, left, left / 2 + 1][order];
                book = with_one_less(&book, place);
                moves(&mut day, &Movement::Remove(place), &book);
            }
            assert!(book.mitigants.is_empty());
            assert_eq!(day.refusal(&Movement::Remove(1), LARGEST_REPORT), Refusal::Movement);
        }
    }
}

/// "22 when the place taken away isn't there": every number gets an answer.
#[test]
fn c19_places() {
    let mut empty = sample();
    (empty.assets, empty.mitigants) = (Vec::new(), Vec::new());
    for book in [sample(), empty] {
        let last = book.assets.len() as u64;
        let mut day = Day::of(&book, 50);
        let beside = [0, last + 1, last + 2, 255, 256, 257, 900, 901, 65_535];
        let longer = [8, 16, 31, 32, 40, 48, 63].map(|bit| 1 << bit);
        let longer = longer.into_iter().flat_map(|bits| [bits, bits + 1, bits + last]);
        for place in beside.into_iter().chain(longer).chain([u64::MAX, u64::MAX - 1]) {
            let movement = Movement::Remove(place);
            assert_eq!(day.refusal(&movement, LARGEST_REPORT), Refusal::Movement, "{place}");
        }
        for place in 1..=last {
            let mut day = day.clone();
            moves(&mut day, &Movement::Remove(place), &with_one_less(&book, place));
        }
    }
}

/// "22 when .. the record isn't 48 bytes".
#[test]
fn c19_bytes_of_a_record() {
    let mut full = sample();
    full.assets.resize(900, held(0, 11, 1, 5));
    for book in [sample(), RawBook { version: 2, ..sample() }, RawBook::empty(5, 0, 0), full] {
        let mut day = Day::of(&book, 96);
        let record = held(0, 7, 2, 77).bytes();
        for length in (0..=100).chain([144, 43_200]).filter(|&length| length != ASSET) {
            let bytes: Vec<u8> = record.iter().copied().cycle().take(length).collect();
            let movement = Movement::Add(bytes);
            assert_eq!(day.refusal(&movement, LARGEST_REPORT), Refusal::Movement, "{length}");
        }
    }
    let mut day = Day::of(&sample(), 96);
    let asset = held(0, 7, 2, 77);
    moves(&mut day, &comes(&sample(), asset), &with_one_more(&sample(), asset));
}

/// "a 48-byte asset record without mitigants": one that counts some is 13 of the resulting book, and
/// in version 2 byte 7 is no count but the desk.
#[test]
fn c19_a_record_that_counts_mitigants() {
    for version in [1, 2] {
        for book in [sample(), of_one_name(&[])] {
            let book = RawBook { version, ..book };
            let record = held(0, 11, 1, 700).record(version);
            for (six, seven) in [(1, 0), (2, 0), (255, 0), (1, 1), (0, 1), (0, 2), (0, 255)] {
                let mut record = record.clone();
                record[6..8].copy_from_slice(&[six, seven]);
                let (mut day, movement) = (Day::of(&book, ASSET), Movement::Add(record));
                if version == 2 && six == 0 {
                    let more = with_one_more(&book, held(seven, 11, 1, 700));
                    moves(&mut day, &movement, &more);
                } else {
                    let refusal = day.refusal(&movement, LARGEST_REPORT);
                    assert_eq!(refusal, Refusal::MitigantCounts, "{version}, {six}, {seven}");
                }
            }
        }
    }
    // What comes to a desk is billed to it.
    let book = of_one_name(&[(3, 200_000_000)]);
    let mut day = Day::of(&book, ASSET);
    day.report(&comes(&book, held(9, 11, 1, 100_000_000)));
    let mut billed = [0; BILLS];
    assert_eq!(packed_bills(&published(), &day.buffer, 1_000, &mut billed), BILLS as u64);
    assert_eq!([3, 9].map(|desk| bill(&billed, desk)), [0, 5_000_000]);
}

/// 899 assets, 900, and no more: "N ≤ 900".
#[test]
fn c19_900_assets() {
    for version in [1, 2] {
        let mut book = RawBook { version, ..sample() };
        book.assets.resize(899, held(0, 11, 1, 5));
        let mut day = Day::of(&book, 3 * ASSET);
        let asset = held(0, 6, 4, 88);
        let full = with_one_more(&book, asset);
        moves(&mut day, &comes(&book, asset), &full);
        let bad = [
            asset,
            RawAsset { kind: 12, ..asset },
            RawAsset { mitigants: 1, ..asset },
            RawAsset { kind: 9, entry: 3, value: MOST, ..asset },
        ];
        for (asset, room) in bad.into_iter().flat_map(|bad| [(bad, LARGEST_REPORT), (bad, 0)]) {
            assert_eq!(day.refusal(&comes(&book, asset), room), Refusal::BookCounts);
        }
        let mut exact = Day::of(&full, 0);
        assert_eq!(exact.refusal(&comes(&book, asset), 0), Refusal::BookCounts);
        assert_eq!(day.refusal(&Movement::Add(vec![12; 47]), 0), Refusal::Movement);
        assert_eq!(day.refusal(&Movement::Remove(901), 0), Refusal::Movement);
        let less = with_one_less(&full, 900);
        moves(&mut day, &Movement::Remove(900), &less);
        moves(&mut day, &comes(&book, asset), &full);
        moves(&mut day, &Movement::Remove(1), &with_one_less(&full, 1));
    }
}

/// "16 where either buffer is short": the book's for the resulting book, the report's for its report,
/// or both. A book that gets shorter always has room.
#[test]
fn c19_the_buffers() {
    let book = sample();
    let asset = held(0, 11, 4, 700);
    let (more, less) = (with_one_more(&book, asset), with_one_less(&book, 2));
    let [of_more, of_less] = [&more, &less].map(|book| report(book).bytes.len());
    for room in [0, 1, 12, 46, 47] {
        let mut day = Day::of(&book, room);
        for report in [0, 71, of_more - 1, of_more, LARGEST_REPORT] {
            assert_eq!(day.refusal(&comes(&book, asset), report), Refusal::BufferShort);
        }
        for report in [0, 71, 72, of_less - 1] {
            assert_eq!(day.refusal(&Movement::Remove(2), report), Refusal::BufferShort);
        }
        moves(&mut day, &Movement::Remove(2), &less);
    }
    for room in [48, 49, 100] {
        let mut day = Day::of(&book, room);
        for report in [0, 71, 72, of_more - 1] {
            assert_eq!(day.refusal(&comes(&book, asset), report), Refusal::BufferShort);
        }
        moves(&mut day, &comes(&book, asset), &more);
    }
    // Reports of their length, at any place and among any bytes.
    let bytes = report(&more).bytes;
    writes_alone(&bytes, |lent| {
        let mut buffer = Day::of(&book, 48).buffer;
        packed_add(&published(), &asset.bytes(), &mut buffer, lent)
    });
    let bytes = report(&less).bytes;
    writes_alone(&bytes, |lent| packed_remove(&published(), 2, &mut book.bytes(), lent));
}

/// What the resulting book is refused by comes before 16, whichever buffer is short.
#[test]
fn c19_the_result_before_16() {
    let book = RawBook { excluded: 0, ..sample() };
    let good = held(0, 9, 3, 10);
    let cases = [
        (RawAsset { kind: 12, ..good }, Refusal::Asset(5)),
        (RawAsset { counterparty: 5, ..good }, Refusal::Asset(5)),
        (RawAsset { offsets: 11, ..good }, Refusal::Asset(5)),
        (RawAsset { deductions: MOST + 1, ..good }, Refusal::Asset(5)),
        (RawAsset { mitigants: 1, ..good }, Refusal::MitigantCounts),
        (RawAsset { entry: 3, ..good }, Refusal::SpecialistEntry(5)),
        (RawAsset { value: TOTAL, ..good }, Refusal::ReinsuranceValues),
        (RawAsset { combination_stress: MOST, ..good }, Refusal::StressedAssets),
        // Each before those below it.
        (RawAsset { kind: 12, mitigants: 1, entry: 3, ..good }, Refusal::Asset(5)),
        (RawAsset { mitigants: 1, entry: 3, value: TOTAL, ..good }, Refusal::MitigantCounts),
        (RawAsset { entry: 3, value: TOTAL, ..good }, Refusal::SpecialistEntry(5)),
        (RawAsset { value: TOTAL, combination_stress: MOST, ..good }, Refusal::ReinsuranceValues),
    ];
    for (asset, wanted) in cases {
        for (room, report) in [(48, LARGEST_REPORT), (48, 0), (47, LARGEST_REPORT), (0, 71)] {
            let mut day = Day::of(&book, room);
            assert_eq!(day.refusal(&comes(&book, asset), report), wanted, "{asset:?}");
        }
    }
}

/// 14 and 15 by a treaty that comes, on both sides of their boundaries.
#[test]
fn c19_one_more_refused_14_and_15() {
    let mut book = RawBook::empty(100, 0, 30);
    book.counterparty(graded());
    book.asset(RawAsset { entry: 0, ..retrocession(1, 0, 40) }, &[]);
    let treaty = |value, stress| RawAsset { combination_stress: stress, ..held(0, 9, 1, value) };
    // 40 and 60 are the total, 40 and 61 more.
    let mut day = Day::of(&book, ASSET);
    assert_eq!(day.refusal(&comes(&book, treaty(61, 61)), 0), Refusal::ReinsuranceValues);
    moves(&mut day, &comes(&book, treaty(60, 60)), &with_one_more(&book, treaty(60, 60)));
    // VAF′ is 70 or less; one without stress takes its value of that, which leaves 0, or less.
    let mut low = Day::of(&RawBook { excluded: 41, ..book.clone() }, ASSET);
    assert_eq!(low.refusal(&comes(&book, treaty(60, 0)), 0), Refusal::StressedAssets);
    let lowest = RawBook { excluded: 40, ..book.clone() };
    let made = moves(
        &mut Day::of(&lowest, ASSET),
        &comes(&book, treaty(60, 0)),
        &with_one_more(&lowest, treaty(60, 0)),
    );
    assert_eq!(made.vaf_prime(), 0);
    // To M by one's stress, and a cent past it.
    let (mut day, stress) = (Day::of(&book, ASSET), MOST - 70);
    assert_eq!(day.refusal(&comes(&book, treaty(0, stress + 1)), 0), Refusal::StressedAssets);
    let made =
        moves(&mut day, &comes(&book, treaty(0, stress)), &with_one_more(&book, treaty(0, stress)));
    assert_eq!(made.vaf_prime(), MOST);
}

/// 15 by a treaty that goes: without its stress less is left than is excluded, or without its value
/// more than M.
#[test]
fn c19_one_less_refused_15() {
    for (excluded, refused) in [(29, false), (30, false), (31, true), (60, true)] {
        let mut book = RawBook::empty(10, 0, excluded);
        book.counterparty(graded());
        book.asset(RawAsset { combination_stress: 30, ..held(0, 9, 1, 0) }, &[]);
        book.asset(RawAsset { combination_stress: 20, ..held(0, 9, 1, 0) }, &[]);
        let mut day = Day::of(&book, 0);
        if refused {
            assert_eq!(day.refusal(&Movement::Remove(1), 0), Refusal::StressedAssets);
            assert_eq!(day.refusal(&Movement::Remove(1), LARGEST_REPORT), Refusal::StressedAssets);
        } else {
            let made = moves(&mut day, &Movement::Remove(1), &with_one_less(&book, 1));
            assert_eq!(made.vaf_prime(), 30 - excluded);
        }
        // The one that stays is in its place.
        if excluded <= 40 {
            let less = with_one_less(&book, 2);
            moves(&mut Day::of(&book, 0), &Movement::Remove(2), &less);
        }
    }
    for (stress, refused) in [(10, false), (11, true)] {
        let mut book = RawBook::empty(MOST, 0, 10);
        book.counterparty(graded());
        book.asset(held(0, 9, 1, 20), &[]);
        book.asset(RawAsset { combination_stress: stress, ..held(0, 9, 1, 0) }, &[]);
        let mut day = Day::of(&book, 0);
        if refused {
            assert_eq!(day.refusal(&Movement::Remove(1), 0), Refusal::StressedAssets);
        } else {
            let made = moves(&mut day, &Movement::Remove(1), &with_one_less(&book, 1));
            assert_eq!(made.vaf_prime(), MOST);
        }
    }
}

/// The refusal of a movement of the book that a buffer of these bytes starts with.
fn not_moved(schedule: &[u8], buffer: &[u8], movement: &Movement, room: usize) -> Refusal {
    let mut day = Day { schedule: schedule.to_vec(), buffer: buffer.to_vec() };
    day.refusal(movement, room)
}

/// 16, then what the resulting book is refused by, 22, then 15, 14, 17, 13 and 12 to 1 of the book as
/// it stands: each fault is put before those that are there already.
#[test]
fn c19_refusals_in_their_order() {
    for version in [1, 2] {
        let book = refusable(version);
        let bytes = book.bytes();
        let good = held(0, 11, 1, 1);
        assert_eq!(not_moved(&published(), &bytes, &comes(&book, good), 0), Refusal::BufferShort);
        assert_eq!(not_moved(&published(), &bytes, &Movement::Remove(1), 71), Refusal::BufferShort);
        let bad = comes(&book, RawAsset { kind: 12, ..good });
        assert_eq!(not_moved(&published(), &bytes, &bad, 0), Refusal::Asset(2));
        let Movement::Add(record) = bad else { unreachable!() };
        for movement in [
            Movement::Add(record[..47].to_vec()),
            Movement::Add([&record[..], &[0]].concat()),
            Movement::Add(Vec::new()),
            Movement::Remove(0),
            Movement::Remove(2),
            Movement::Remove(u64::MAX),
        ] {
            assert_eq!(not_moved(&published(), &bytes, &movement, 0), Refusal::Movement);
            refused_15_to_1(book.clone(), 0, |schedule, book, room| {
                // Bytes behind the book are never looked at, where there is a whole header.
                let behind = if book.len() < 40 { &[][..] } else { &[0xff; 60] };
                let longer = [book, behind].concat();
                let found = not_moved(schedule, &longer, &movement, room);
                assert_eq!(not_moved(schedule, book, &movement, room), found);
                found
            });
            assert_eq!(not_moved(&[], &[], &movement, 0), Refusal::ScheduleLength);
        }
    }
}

/// A movement that would make the book good is refused by the book as it stands all the same.
#[test]
fn c19_the_book_as_it_stands_first() {
    let mut book = refusable(1);
    book.asset(held(0, 9, 1, 1), &[]);
    let away = |place| Movement::Remove(place);
    assert_eq!(not_moved(&published(), &book.bytes(), &away(2), 500), Refusal::ReinsuranceValues);
    let mut book = RawBook { specialist: 0, ..refusable(1) };
    assert_eq!(not_moved(&published(), &book.bytes(), &away(1), 500), Refusal::SpecialistEntry(1));
    (book.specialist, book.assets[0].months, book.assets[0].entry) = (1, 3, 0);
    assert_eq!(not_moved(&published(), &book.bytes(), &away(1), 500), Refusal::Asset(1));
    let mut book = refusable(1);
    book.excluded = 6;
    let treaty = RawAsset { combination_stress: 9, ..held(0, 9, 1, 0) };
    let buffer = Day::of(&book, 48).buffer;
    assert_eq!(
        not_moved(&published(), &buffer, &comes(&book, treaty), 500),
        Refusal::StressedAssets
    );
}

/// "its length read from its counts (8 if the buffer is shorter)": behind 6 and 7, and behind 5 where
/// there is no header. A longer buffer's rest is any bytes.
#[test]
fn c19_the_length_is_in_the_counts() {
    let book = sample();
    let bytes = book.bytes();
    for movement in [Movement::Remove(1), Movement::Remove(0), comes(&book, held(0, 7, 2, 9))] {
        for length in 0..bytes.len() {
            let wanted = if length < 40 { Refusal::BookLength } else { Refusal::BookCounts };
            let short = &bytes[..length];
            assert_eq!(not_moved(&published(), short, &movement, LARGEST_REPORT), wanted);
            for (place, byte, first) in [(0, b'B', Refusal::BookMark), (4, 3, Refusal::BookVersion)]
            {
                let mut short = short.to_vec();
                if let Some(changed) = short.get_mut(place) {
                    *changed = byte;
                }
                let wanted = if length < 40 { Refusal::BookLength } else { first };
                assert_eq!(not_moved(&published(), &short, &movement, 0), wanted);
            }
        }
    }
    // Counts that say one record more, or more than there may be, whatever follows.
    for (counts, refused) in [
        ([4, 4, 6], true),
        ([5, 4, 5], true),
        ([4, 5, 5], true),
        ([501, 0, 0], true),
        ([0, 901, 0], true),
        ([0, 0, 1_501], true),
        ([65_535; 3], true),
        ([4, 4, 5], false),
    ] {
        let counted = RawBook { counts: Some(counts), ..book.clone() };
        let mut day = Day::of(&counted, 0);
        if refused {
            assert_eq!(day.refusal(&Movement::Remove(1), 0), Refusal::BookCounts, "{counts:?}");
        } else {
            moves(&mut day, &Movement::Remove(1), &with_one_less(&book, 1));
        }
        day.buffer.resize(100_000, 0xff);
        if counts.iter().any(|&count| count > 500) {
            assert_eq!(day.refusal(&Movement::Remove(1), 0), Refusal::BookCounts, "{counts:?}");
        }
    }
}

/// C-11: a retrocession comes to a specialist fund, and to no other.
#[test]
fn c19_specialist_funds() {
    let mut book = specialist(TOTAL, BASE);
    book.counterparty(RawCounterparty::default());
    let mut day = Day::of(&book, 4 * ASSET);
    for (months, tier) in [(0, 13), (3, 14), (12, 15), (24, 1)] {
        let asset = retrocession(1, months, 1_000);
        book = with_one_more(&book, asset);
        let made = moves(&mut day, &comes(&book, asset), &book);
        assert!(tiers(&made).contains(&tier));
    }
    let plain = RawBook { specialist: 0, assets: Vec::new(), ..book.clone() };
    let mut day = Day::of(&plain, 4 * ASSET);
    let asset = retrocession(1, 0, 1_000);
    let refusal = day.refusal(&comes(&plain, asset), LARGEST_REPORT);
    assert_eq!(refusal, Refusal::SpecialistEntry(1));
    let first = held(0, 7, 1, 5);
    moves(&mut day, &comes(&plain, first), &with_one_more(&plain, first));
    assert_eq!(day.refusal(&comes(&plain, asset), 0), Refusal::SpecialistEntry(2));
}

/// C-18: a treaty that comes lengthens the half on which an earlier one of its reinsurer draws, and
/// one that goes leaves the others what it drew.
#[test]
fn c19_halves() {
    let first = with_letters(&[(101, 101)]);
    let mut day = Day::of(&first, 200);
    let both = with_letters(&[(101, 101), (99, 0)]);
    let made = moves(&mut day, &comes(&first, both.assets[1]), &both);
    assert_eq!(covered_and_left(&made, 2), [[100, 1], [0, 99]]);
    let made = moves(&mut day, &Movement::Remove(2), &first);
    assert_eq!(covered_and_left(&made, 1), [[50, 51]]);
    // Another reinsurer's treaty, and a linked one, change nothing of it.
    for asset in [treaty(1, FIRST_BANK, 99), RawAsset { flags: 1, ..both.assets[1] }] {
        let more = with_one_more(&first, asset);
        let made = moves(&mut day, &comes(&first, asset), &more);
        assert_eq!(covered_and_left(&made, 1), [[50, 51]]);
        moves(&mut day, &Movement::Remove(2), &first);
    }
    // The first drew all of the half: without it, and its letters, the second draws on its own.
    let book = with_letters(&[(101, 101), (101, 101), (10, 0)]);
    let mut day = Day::of(&book, 0);
    let made = moves(&mut day, &Movement::Remove(1), &with_one_less(&book, 1));
    assert_eq!(exposure(&made, FIRST_BANK, 11), 0);
    assert_eq!(exposure(&made, FIRST_BANK + 1, 11), 55);
    assert_eq!(exposure(&made, REINSURER, APART[1].2), 46);
}

/// "Header amounts .. stay", and what is taken of them does not: netted liabilities that come lessen
/// VAF and with it every group's limit.
#[test]
fn c19_a_report_made_afresh() {
    let mut book = RawBook::empty(1_000_000, 0, 0);
    book.counterparties = vec![RawCounterparty::default(), graded(), bank(), bank()];
    book.asset(held(0, 11, 1, 30_000), &[]);
    let mut day = Day::of(&book, 500);
    let limit = |made: &Report| made.lines().iter().find(|line| line.tier == 0).unwrap().amounts[1];
    let netted =
        RawAsset { offsets: 400_000, combination_stress: 500_000, ..held(0, 9, 2, 500_000) };
    let more = with_one_more(&book, netted);
    let made = moves(&mut day, &comes(&book, netted), &more);
    assert_eq!((made.vaf(), limit(&made), made.lines()[0].amounts[3]), (600_000, 15_000, 15_000));
    let made = moves(&mut day, &Movement::Remove(2), &book);
    assert_eq!((made.vaf(), limit(&made), made.charge()), (1_000_000, 25_000, 5_000));
    // Bills of one bank, as they come, lessen the other's limit for deposits.
    let schedule = RawSchedule {
        rows: std::array::from_fn(|row| RawRow {
            rates: if row == 1 { [500, 0, 0] } else { [250, 0, 0] },
            fixed: 0,
        }),
        ..RawSchedule::published()
    };
    day.schedule = schedule.bytes();
    let deposit = with_one_more(&book, held(0, 4, 3, 480_000));
    let made = moves(&mut day, &comes(&book, deposit.assets[1]), &deposit);
    assert_eq!(made.charge(), 0);
    let bills = with_one_more(&deposit, held(0, 3, 4, 30_000));
    let made = moves(&mut day, &comes(&book, bills.assets[2]), &bills);
    assert_eq!(made.charge(), 10_000);
}

/// Any movement of a day: mostly assets of each kind, and places that are there.
fn any_movement(random: &mut Random, book: &RawBook) -> (Movement, Option<RawBook>) {
    let (assets, parties) = (book.assets.len() as u64, book.counterparties.len() as u64);
    if random.chance(45) {
        let place = random.below(assets + 2);
        let less = (1..=assets).contains(&place).then(|| with_one_less(book, place));
        return (Movement::Remove(place), less);
    }
    let mut asset = held(
        if book.version == 2 { random.below(256) as u8 } else { 0 },
        random.between(1, 12) as u8,
        random.between(1, parties) as u16,
        random.below(2_000),
    );
    if asset.kind == 9 {
        asset.entry = random.below(4) as u8;
        asset.months = if asset.entry > 0 { random.below(26) as u8 } else { 0 };
        (asset.combination_stress, asset.offsets) = (random.below(2_000), asset.value / 3);
    }
    (comes(book, asset), Some(with_one_more(book, asset)))
}

/// "For every list of movements under one schedule, refused ones left out": after each the report is
/// that of a book made afresh from the assets then present, and it is refused where that book is.
#[test]
fn c19_days() {
    let (mut accepted, mut refused) = (0, 0);
    for number in 0..60 {
        let random = &mut Random::new(19, number);
        let (schedule, mut book) = small_fund(random);
        book.version = 1 + (number % 2) as u16;
        book.total = random.pick(&[5_000, 20_000, 1_000_000]);
        let mut day = Day::of(&book, random.pick(&[100, 500, 5_000]));
        day.schedule = if number % 3 == 0 { schedule.tenfold() } else { schedule }.bytes();
        let mut report = vec![0; LARGEST_REPORT];
        if packed_report(&day.schedule, &book.bytes(), &mut report) >> 32 > 0 {
            continue;
        }
        for _ in 0..60 {
            let (movement, after) = any_movement(random, &book);
            let afresh = |book: &RawBook| packed_report(&day.schedule, &book.bytes(), &mut report);
            let fits = |book: &RawBook| book.bytes().len() <= day.buffer.len();
            let wanted = match after.as_ref().map(afresh) {
                None => Some(Refusal::Movement),
                Some(packed) => match Answer::unpacked(packed).unwrap() {
                    Answer::Refused(refusal) => Some(refusal),
                    Answer::Written(_) if !after.as_ref().is_some_and(fits) => {
                        Some(Refusal::BufferShort)
                    }
                    Answer::Written(_) => None,
                },
            };
            match wanted {
                Some(wanted) => {
                    assert_eq!(day.refusal(&movement, LARGEST_REPORT), wanted, "{movement:?}");
                    refused += 1;
                }
                None => {
                    book = after.unwrap();
                    moves(&mut day, &movement, &book);
                    assert_eq!(standing(&day.buffer), book.bytes());
                    accepted += 1;
                }
            }
        }
    }
    assert!(accepted > 1_000 && refused > 500, "{accepted} accepted, {refused} refused");
}

/// The largest books, whose reports are the largest too.
#[test]
fn c19_the_largest_books() {
    for (number, book) in [largest_report_book(), largest_specialist_book()].iter().enumerate() {
        let book = RawBook { version: 1 + number as u16, ..book.clone() };
        assert_eq!(book.bytes().len(), LARGEST_BOOK);
        let mut day = Day::of(&book, 0);
        let less = with_one_less(&book, 1);
        moves(&mut day, &Movement::Remove(1), &less);
        let asset = held(0, 11, 500, 1_000);
        let more = with_one_more(&less, asset);
        moves(&mut day, &comes(&book, asset), &more);
        moves(&mut day, &Movement::Remove(900), &less);
        moves(&mut day, &Movement::Remove(450), &with_one_less(&less, 450));
    }
}
