//! What the C header promises of a call beside its answer: any number of threads at once, and so
//! much stack at most.

use std::thread;
use weightrose_tests::compare::{
    compare, compare_bills, compare_headroom, compare_movements, library, library_bills,
    library_convert, library_headroom, library_moved, second, second_bills, second_convert,
    second_headroom, second_moved,
};
use weightrose_tests::inputs::{
    at_desks, largest_report_book, largest_specialist_book, lifelike, sixteen_tiers, Askings,
    Billings, Conversions, Inputs, Movings, Parents, Shape, KINDS,
};
use weightrose_tests::random::Random;
use weightrose_tests::raw::{RawAsset, RawQuestion};
use weightrose_tests::weightrose::{
    packed_add, packed_bills, packed_convert, packed_headroom, packed_remove, packed_report,
    published, takes_book, takes_schedule, version_number, ANSWER, BILLS, LARGEST_REPORT,
    MOST_QUESTIONS,
};

/// The stack that `weightrose.h` names, and some for the thread's own frames.
const STACK: usize = 256 * 1024;
const OWN_STACK: usize = 32 * 1024;

#[test]
fn threads_at_once() {
    let inputs = Inputs::new(23);
    let seeded =
        |share: usize| inputs.fixed() + share * 2_000..inputs.fixed() + (share + 1) * 2_000;
    let (conversions, billings, askings) =
        (Conversions::new(23), Billings::new(23), Askings::new(23));
    let movings = Movings::new(23);
    let agrees = |number: usize| {
        compare(&library, &second, &inputs.get(number)).is_ok()
            && compare(&library_convert, &second_convert, &conversions.get(number)).is_ok()
            && compare_bills(&library_bills, &second_bills, &billings.get(number)).is_ok()
            && compare_headroom(&library_headroom, &second_headroom, &askings.get(number)).is_ok()
            && compare_movements(&library_moved, &second_moved, &movings.get(number)).is_ok()
    };
    thread::scope(|scope| {
        for share in 0..4 {
            let (seeded, agrees) = (&seeded, &agrees);
            scope.spawn(move || assert!(seeded(share).all(agrees)));
        }
    });
}

/// The largest books, one with all sixteen tiers in each group, one with a chain of 500 parents.
#[test]
fn a_small_stack() {
    let shape =
        Shape { counterparties: 500, assets: 900, mitigants: 1_500, parents: Parents::Chain };
    let chain = lifelike(&mut Random::new(117, 0), &shape);
    let groups = sixteen_tiers(75, 1, 1_000);
    for mut raw in [largest_report_book(), largest_specialist_book(), groups, chain] {
        let book = raw.bytes();
        at_desks(&mut Random::new(117, 0), &mut raw);
        let billed = raw.bytes();
        let mut buffer = vec![0; LARGEST_REPORT];
        let last = raw.counterparties.len();
        let question = |number: usize| RawQuestion {
            counterparty: (last - number % last) as u16,
            kind: KINDS[number % KINDS.len()],
        };
        let list: Vec<RawQuestion> = (0..MOST_QUESTIONS).map(question).collect();
        let list = RawQuestion::list(&list);
        let call = move || {
            assert_eq!(packed_convert(&book, &mut buffer), book.len() as u64);
            for book in [&book, &billed] {
                assert_eq!(packed_bills(&published(), book, 1_000, &mut buffer), BILLS as u64);
                let answers = packed_headroom(&published(), book, &list, &mut buffer);
                assert_eq!(answers, (ANSWER * MOST_QUESTIONS) as u64);
            }
            for book in [&book, &billed] {
                let (mut lent, last) = (book.clone(), raw.assets.len() as u64);
                for place in [1, last / 2, last - 2] {
                    assert_eq!(packed_remove(&published(), place, &mut lent, &mut buffer) >> 32, 0);
                }
                let record = RawAsset { mitigants: 0, ..raw.assets[0] }.bytes();
                assert_eq!(packed_add(&published(), &record, &mut lent, &mut buffer) >> 32, 0);
            }
            packed_report(&published(), &book, &mut buffer)
        };
        let thread = thread::Builder::new().stack_size(STACK + OWN_STACK).spawn(call).unwrap();
        assert_eq!(thread.join().unwrap() >> 32, 0);
    }
}

/// Of every version that a schedule or a book may say, the library tells by its own version whether
/// it takes it, and takes it just then.
#[test]
fn versions_taken() {
    let book = sixteen_tiers(1, 1, 1_000).bytes();
    let mut buffer = vec![0; LARGEST_REPORT];
    for version in 0..=u16::MAX {
        let of_version = |bytes: &[u8]| {
            let mut other = bytes.to_vec();
            other[4..6].copy_from_slice(&version.to_le_bytes());
            other
        };
        let answer = packed_report(&of_version(&published()), &book, &mut buffer);
        assert_eq!(takes_schedule(version), answer >> 32 != 3, "schedules of version {version}");
        let answer = packed_report(&published(), &of_version(&book), &mut buffer);
        assert_eq!(takes_book(version), answer >> 32 != 7, "books of version {version}");
    }
    assert!(takes_schedule(1) && takes_schedule(2) && takes_book(1) && takes_book(2));
}

/// The version is the one that the C header has.
#[test]
fn version_of_the_header() {
    let header = include_str!("../../include/weightrose.h");
    let part = |name: &str| -> u32 {
        let defined = format!("#define WEIGHTROSE_VERSION_{name} ");
        let line = header.lines().find_map(|line| line.strip_prefix(&defined)).unwrap();
        line.parse().unwrap()
    };
    assert_eq!(version_number(), part("MAJOR") * 65_536 + part("MINOR") * 256 + part("PATCH"));
}
