//! What a comparison with a library from before C-18 lets pass: what there was before, where treaties
//! share a half, and no other difference.

use weightrose_tests::compare::{
    compare_before, compare_before_by, compare_bills_before, compare_headroom_before, library,
    library_bills, library_headroom, second, second_before, second_bills, second_headroom, Lent,
    Subject,
};
use weightrose_tests::inputs::{
    shared_halves, Asking, Askings, Billing, Billings, Input, Inputs, Room,
};
use weightrose_tests::raw::*;
use weightrose_tests::second::{bills_by, halves_of, headroom_by, report_by, Slip};

/// A fund without assets: a bank, and below a parent a reinsurer, an affiliate and a registered one.
const BANK: u16 = 1;
const REINSURER: u16 = 3;
const AFFILIATE: u16 = 4;
const REGISTERED: u16 = 5;

fn input(assets: &[(RawAsset, bool)]) -> Input {
    let mut book = RawBook::empty(10_000, 1_000, 0);
    let below = RawCounterparty { parent: 2, ..Default::default() };
    book.counterparties = vec![
        RawCounterparty { kind: 1, grade: 1, ..Default::default() },
        RawCounterparty::default(),
        below,
        RawCounterparty { flags: 2, ..below },
        RawCounterparty { kind: 4, ..below },
    ];
    let letter = RawMitigant { form: 5, flags: 8, counterparty: BANK, value: 101 };
    for &(asset, covered) in assets {
        book.asset(asset, &[letter][..usize::from(covered)]);
    }
    Input::new("before", &RawSchedule::published(), &book)
}

fn treaty(counterparty: u16, net: u64) -> RawAsset {
    RawAsset { kind: 9, counterparty, combination_stress: net, ..Default::default() }
}

/// The request's two treaties, with letters on the first.
fn two_treaties() -> Input {
    input(&[(treaty(REINSURER, 101), true), (treaty(REINSURER, 99), false)])
}

/// A wrong variant of the second implementation, as a subject.
fn wrong(slip: &Slip) -> impl Fn(&[u8], &[u8], &mut Lent) -> u64 + '_ {
    move |schedule, book, lent| report_by(slip, schedule, book, lent.buffer()).packed()
}

/// The second implementation as it was, one byte of its report changed.
fn spoiled_before(schedule: &[u8], book: &[u8], lent: &mut Lent) -> u64 {
    let packed = second_before(schedule, book, lent);
    lent.buffer()[71] ^= 1;
    packed
}

/// Whether both are compared without an error, and if so whether they differ.
fn differs(before: Subject, input: &Input) -> Option<bool> {
    compare_before(&library, before, input).ok().map(|(_, differs)| differs)
}

#[test]
fn what_there_was_before_passes() {
    let input = two_treaties();
    assert_eq!(differs(&second_before, &input), Some(true));
    assert_eq!(differs(&second, &input), Some(false));
    // In a buffer that is too short for one of both reports, or for both.
    let one_line = [(treaty(REINSURER, 1), true), (treaty(REINSURER, 1), true)];
    for room in [0, 71, 72, 111, 112, 151, 152, 200] {
        let input = Input { room: Room::Bytes(room), ..self::input(&one_line) };
        assert_eq!(differs(&second_before, &input), Some(room >= 112), "{room} bytes");
    }
}

#[test]
fn nothing_else_passes() {
    let input = input(&[(treaty(REINSURER, 101), true), (treaty(REINSURER, 99), true)]);
    assert_eq!(differs(&second_before, &input), Some(true));
    for slip in [Slip::NeverDrawn, Slip::HalvesRoundedUpPerTreaty, Slip::CurrencyAskedOfGuarantees]
    {
        assert_eq!(differs(&wrong(&slip), &input), None, "{slip:?}");
    }
    assert_eq!(differs(&spoiled_before, &input), None);
    let beside: Subject = &|schedule, book, lent| {
        lent.area()[0] ^= 1;
        second_before(schedule, book, lent)
    };
    assert_eq!(differs(beside, &input), None);
    let refused: Subject = &|_, _, _| 16 << 32;
    assert_eq!(differs(refused, &input), None);
}

/// Only treaties that share a half let anything pass at all, whatever there was before.
#[test]
fn where_no_half_is_shared_nothing_passes() {
    let linked = |net| RawAsset { flags: 1, ..treaty(REINSURER, net) };
    let loan = RawAsset { kind: 7, value: 99, ..treaty(REINSURER, 0) };
    let nothing: &[(RawAsset, bool)] = &[];
    let one = (treaty(REINSURER, 101), true);
    for (shared, assets) in [
        (true, &[one, (treaty(REINSURER, 99), true)][..]),
        (true, &[one, (treaty(REINSURER, 0), false)]),
        (true, &[one, (linked(99), true), (loan, true), one]),
        (false, nothing),
        (false, &[one]),
        (false, &[one, (linked(99), true), (linked(99), false)]),
        (false, &[one, (loan, true), (loan, false)]),
        (false, &[one, (treaty(2, 99), true)]),
        (false, &[one, (treaty(BANK, 99), true), (treaty(AFFILIATE, 99), true)]),
        (false, &[(treaty(AFFILIATE, 101), true), (treaty(AFFILIATE, 99), true)]),
        (false, &[(treaty(REGISTERED, 101), true), (treaty(REGISTERED, 99), true)]),
    ] {
        let input = input(assets);
        let met = halves_of(&input.schedule, &input.book).expect("an accepted book");
        assert_eq!(met.of_several, shared);
        let compared = compare_before_by(&spoiled_before, &library, &spoiled_before, &input);
        assert_eq!(compared.is_ok(), shared, "{} assets", assets.len());
    }
    let mut refused = Input { room: Room::Bytes(200), ..two_treaties() };
    refused.book[4] = 3;
    assert!(compare_before_by(&spoiled_before, &library, &spoiled_before, &refused).is_err());
}

/// The first seeded input on which a subject parts from the library by more than C-18.
fn caught(inputs: &Inputs, subject: Subject) -> Option<usize> {
    let mut seeded = inputs.fixed()..inputs.fixed() + 20_000;
    seeded.find(|&number| compare_before(&library, subject, &inputs.get(number)).is_err())
}

/// Each wrong variant is still caught but document 01's own half, which is what is let pass.
#[test]
fn slips_do_not_pass() {
    let inputs = Inputs::new(117);
    let passes = |slip: &&Slip| caught(&inputs, &wrong(slip)).is_none();
    let of_report = Slip::ALL.iter().filter(|slip| slip.of_report());
    let passing: Vec<Slip> = of_report.filter(passes).copied().collect();
    assert_eq!(passing, [Slip::HalfOfEachTreaty]);
    assert_eq!(caught(&inputs, &second), None);
}

/// The same of bills and answers.
#[test]
fn slips_of_other_entries_do_not_pass() {
    let (billings, askings) = (Billings::new(117), Askings::new(117));
    let billed = |slip: Option<Slip>| {
        let mut seeded = billings.fixed()..billings.fixed() + 5_000;
        let before = |schedule: &[u8], book: &[u8], rate, lent: &mut Lent| match slip {
            Some(slip) => bills_by(&slip, schedule, book, rate, lent.buffer()).packed(),
            None => second_bills(schedule, book, rate, lent),
        };
        seeded.all(|number| {
            compare_bills_before(&library_bills, &before, &billings.get(number)).is_ok()
        })
    };
    let answered = |slip: Option<Slip>| {
        let mut seeded = askings.fixed()..askings.fixed() + 5_000;
        let before = |schedule: &[u8], book: &[u8], questions: &[u8], lent: &mut Lent| match slip {
            Some(slip) => headroom_by(&slip, schedule, book, questions, lent.buffer()).packed(),
            None => second_headroom(schedule, book, questions, lent),
        };
        seeded.all(|number| {
            compare_headroom_before(&library_headroom, &before, &askings.get(number)).is_ok()
        })
    };
    for (slip, bills_pass, answers_pass) in [
        (None, true, true),
        (Some(Slip::HalfOfEachTreaty), true, true),
        (Some(Slip::AnsweredByHalvesOfEachTreaty), true, true),
        (Some(Slip::BilledByHalvesOfEachTreaty), false, true),
        (Some(Slip::HalfOfTheGroup), false, false),
        (Some(Slip::HalvesRoundedPerTreaty), false, false),
        (Some(Slip::DrawnFromTheLastTreaty), false, false),
        (Some(Slip::NeverDrawn), false, false),
        (Some(Slip::CashAsLoan), false, false),
    ] {
        assert_eq!((billed(slip), answered(slip)), (bills_pass, answers_pass), "{slip:?}");
    }
}

/// On the listed inputs of C-18 many a report, many bills and many answers are other ones.
#[test]
fn many_differ() {
    let inputs = shared_halves();
    let (mut reports, mut bills, mut answers) = (0, 0, 0);
    for input in &inputs {
        reports += usize::from(differs(&second_before, input) == Some(true));
        let billing =
            Billing { input: Input { room: Room::Bytes(2_048), ..input.clone() }, rate: 1_000 };
        let before = |schedule: &[u8], book: &[u8], rate, lent: &mut Lent| {
            bills_by(&Slip::HalfOfEachTreaty, schedule, book, rate, lent.buffer()).packed()
        };
        let compared = compare_bills_before(&library_bills, &before, &billing);
        bills += usize::from(compared.is_ok_and(|(_, differs)| differs));
        let list =
            [RawQuestion { counterparty: 1, kind: 3 }, RawQuestion { counterparty: 1, kind: 4 }];
        let asking = Asking {
            input: Input { room: Room::Bytes(16), ..input.clone() },
            questions: RawQuestion::list(&list),
        };
        let before = |schedule: &[u8], book: &[u8], questions: &[u8], lent: &mut Lent| {
            headroom_by(&Slip::HalfOfEachTreaty, schedule, book, questions, lent.buffer()).packed()
        };
        let compared = compare_headroom_before(&library_headroom, &before, &asking);
        answers += usize::from(compared.is_ok_and(|(_, differs)| differs));
    }
    let count = inputs.len();
    assert!(
        2 * reports > count && 10 * bills > count && 10 * answers > count,
        "of {count}: {reports}, {bills}, {answers}"
    );
}
