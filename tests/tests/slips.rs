//! The comparison can fail: each wrong variant of the second implementation, and each stand-in for
//! a library, is caught by it.

use weightrose_tests::compare::{
    adds_up, as_afresh, compare, compare_bills, compare_headroom, compare_movements, library,
    library_bills, library_convert, library_headroom, library_moved, may_be_bought, outcome, room,
    second, second_bills, second_convert, second_headroom, second_moved, standing, Answerer,
    Biller, Lent, Mover, Subject, GUARD,
};
use weightrose_tests::inputs::{
    sample, Asking, Askings, Billings, Conversions, Input, Inputs, Movings, Room,
};
use weightrose_tests::raw::{Movement, RawSchedule};
use weightrose_tests::second::{bills_by, convert_by, headroom_by, moved_by, report_by, Slip};
use weightrose_tests::weightrose::{
    amount, bill, report, Answer, Refusal, ANSWER, BILLS, HEADER, LARGEST_REPORT, LINE, QUESTION,
};

const SEED: u64 = 117;
const SEEDED: usize = 20_000;
const SEEDED_CONVERSIONS: usize = 10_000;
const SEEDED_BILLINGS: usize = 20_000;
const SEEDED_ASKINGS: usize = 20_000;
const SEEDED_MOVINGS: usize = 20_000;

/// Changes the byte at a place, where there is one.
fn change(bytes: &mut [u8], place: usize) {
    bytes.iter_mut().skip(place).take(1).for_each(|byte| *byte ^= 1);
}

/// An answer as it is, the first byte of the buffer changed where it is a refusal.
fn changing_by_refusal(packed: u64, lent: &mut Lent) -> u64 {
    if let Some(Answer::Refused(_)) = Answer::unpacked(packed) {
        change(lent.buffer(), 0);
    }
    packed
}

/// The first seeded input on which a subject parts from the library.
fn caught(inputs: &Inputs, subject: Subject) -> Option<usize> {
    let mut seeded = inputs.fixed()..inputs.fixed() + SEEDED;
    seeded.find(|&number| compare(&library, subject, &inputs.get(number)).is_err())
}

#[test]
fn each_slip_is_caught() {
    let inputs = Inputs::new(SEED);
    let passes = |slip: &Slip| {
        let wrong = |schedule: &[u8], book: &[u8], lent: &mut Lent| {
            report_by(slip, schedule, book, lent.buffer()).packed()
        };
        caught(&inputs, &wrong).is_none()
    };
    let of_report = Slip::ALL.iter().copied().filter(|slip| slip.of_report());
    let missed: Vec<Slip> = of_report.filter(passes).collect();
    assert!(missed.is_empty(), "not caught: {missed:?}");
}

/// The first seeded input of the converter on which a subject parts from the library.
fn caught_converting(inputs: &Conversions, subject: Subject) -> Option<usize> {
    let mut seeded = inputs.fixed()..inputs.fixed() + SEEDED_CONVERSIONS;
    seeded.find(|&number| compare(&library_convert, subject, &inputs.get(number)).is_err())
}

/// C-13: those of the converter, and those of what both entries read.
#[test]
fn each_slip_of_the_converter_is_caught() {
    let inputs = Conversions::new(SEED);
    let of_both =
        [Slip::Version1CountOfOneByte, Slip::AnyByte12Marks, Slip::SpecialistEntryAfter14];
    let of_converter = Slip::ALL.iter().copied().filter(|slip| slip.of_converter());
    let passes = |slip: &Slip| {
        let wrong =
            |_: &[u8], book: &[u8], lent: &mut Lent| convert_by(slip, book, lent.buffer()).packed();
        caught_converting(&inputs, &wrong).is_none()
    };
    let missed: Vec<Slip> = of_converter.chain(of_both).filter(passes).collect();
    assert!(missed.is_empty(), "not caught: {missed:?}");
}

/// C-13: bytes that a converter could leave or change, and an answer that does not look at the book.
#[test]
fn bytes_converted_out_of_place_are_caught() {
    type Spoil = fn(&[u8], usize, &mut [u8]);
    let slips: [(&str, Spoil); 5] = [
        ("a byte after the book", |_, length, lent| change(lent, length)),
        ("the last byte left as it was", |before, length, lent| {
            lent[length - 1] = before[length - 1]
        }),
        ("the version left as it was", |before, _, lent| lent[4] = before[4]),
        ("version 3", |_, _, lent| lent[4] = 3),
        ("the book itself", |_, _, lent| lent[4] = 1),
    ];
    let inputs = Conversions::new(SEED);
    for (name, spoil) in slips {
        let wrong: Subject = &|schedule, book, lent| {
            let before = lent.buffer().to_vec();
            let packed = second_convert(schedule, book, lent);
            if let Some(Answer::Written(length)) = Answer::unpacked(packed) {
                spoil(&before, length, lent.buffer());
            }
            packed
        };
        assert!(caught_converting(&inputs, wrong).is_some(), "{name} was not caught");
    }
    let by_refusal: Subject =
        &|schedule, book, lent| changing_by_refusal(second_convert(schedule, book, lent), lent);
    assert!(caught_converting(&inputs, by_refusal).is_some());
    let nothing: Subject = &|_, book, _| book.len() as u64;
    assert!(caught_converting(&inputs, nothing).is_some());
}

/// The first seeded input of the bills on which a biller parts from the library.
fn caught_billing(inputs: &Billings, biller: Biller) -> Option<usize> {
    let mut seeded = inputs.fixed()..inputs.fixed() + SEEDED_BILLINGS;
    seeded.find(|&number| compare_bills(&library_bills, biller, &inputs.get(number)).is_err())
}

/// C-14: those of the bills, and those of the report that reach a bill.
#[test]
fn each_slip_of_the_bills_is_caught() {
    let inputs = Billings::new(SEED);
    let passes = |slip: &Slip| {
        let wrong = |schedule: &[u8], book: &[u8], rate, lent: &mut Lent| {
            bills_by(slip, schedule, book, rate, lent.buffer()).packed()
        };
        caught_billing(&inputs, &wrong).is_none()
    };
    let reaches = |slip: &Slip| slip.of_bills() || slip.of_report() && !slip.of_report_alone();
    let missed: Vec<Slip> = Slip::ALL.iter().copied().filter(reaches).filter(passes).collect();
    assert!(missed.is_empty(), "not caught: {missed:?}");
}

/// C-14: bytes that bills could leave or change, and bills that look right from afar.
#[test]
fn bills_out_of_place_are_caught() {
    type Spoil = fn(&[u8], &mut [u8]);
    let slips: [(&str, Spoil); 8] = [
        ("a byte after the bills", |_, lent| change(lent, BILLS)),
        ("the last byte left as it was", |before, lent| lent[BILLS - 1] = before[BILLS - 1]),
        ("the last bill left as it was", |before, lent| {
            lent[BILLS - 8..BILLS].copy_from_slice(&before[BILLS - 8..BILLS]);
        }),
        ("bills of 0 left as they were", |before, lent| {
            for (bill, before) in lent[..BILLS].chunks_mut(8).zip(before.chunks(8)) {
                if bill == [0; 8] {
                    bill.copy_from_slice(before);
                }
            }
        }),
        ("bytes in the other order", |_, lent| {
            lent[..BILLS].chunks_mut(8).for_each(<[u8]>::reverse);
        }),
        ("bills from desk 1 on", |_, lent| lent[..BILLS].rotate_right(8)),
        ("all to desk 0", |_, lent| {
            let sum: u64 = (0..=255).map(|desk| bill(lent, desk)).sum();
            lent[..BILLS].fill(0);
            lent[..8].copy_from_slice(&sum.to_le_bytes());
        }),
        ("the bills left as they were", |before, lent| lent.copy_from_slice(before)),
    ];
    let inputs = Billings::new(SEED);
    for (name, spoil) in slips {
        let wrong: Biller = &|schedule, book, rate, lent| {
            let before = lent.buffer().to_vec();
            let packed = second_bills(schedule, book, rate, lent);
            if packed >> 32 == 0 {
                spoil(&before, lent.buffer());
            }
            packed
        };
        assert!(caught_billing(&inputs, wrong).is_some(), "{name} was not caught");
    }
    let by_refusal: Biller = &|schedule, book, rate, lent| {
        changing_by_refusal(second_bills(schedule, book, rate, lent), lent)
    };
    assert!(caught_billing(&inputs, by_refusal).is_some());
    for refusal in [Refusal::CostRate, Refusal::BufferShort] {
        let refused: Biller = &|_, _, _, _| Answer::Refused(refusal).packed();
        assert!(caught_billing(&inputs, refused).is_some());
    }
}

/// C-14: "The bills must add up": bills that do not are seen by the library's own report.
#[test]
fn bills_that_do_not_add_up_are_caught() {
    let inputs = Billings::new(SEED);
    let wrong_sum = |slip: Slip| {
        (inputs.fixed()..inputs.fixed() + SEEDED_BILLINGS).any(|number| {
            let billing = inputs.get(number);
            let wrong: Subject = &|schedule, book, lent| {
                bills_by(&slip, schedule, book, billing.rate, lent.buffer()).packed()
            };
            let outcome = outcome(wrong, &billing.input, BILLS);
            outcome.answer == BILLS as u64
                && adds_up(&billing, &outcome.area[GUARD..GUARD + BILLS]).is_err()
        })
    };
    for slip in [
        Slip::EachBillRoundedByItself,
        Slip::A3ExcessForgotten,
        Slip::A3CostRoundedApart,
        Slip::CostRoundedUp,
        Slip::StandsUpToItsLimit,
        Slip::LinkedAssetsServed,
        Slip::Desk255LeftOut,
    ] {
        assert!(wrong_sum(slip), "{slip:?}");
    }
    // The sum alone would not show these: they are caught by the second implementation.
    for slip in [Slip::DesksNotRead, Slip::ServedFromTheLastAsset, Slip::RoundingLeftToDesk0] {
        assert!(!wrong_sum(slip), "{slip:?}");
    }
}

/// The first seeded input of the questions on which an answerer parts from the library.
fn caught_answering(inputs: &Askings, answerer: Answerer) -> Option<usize> {
    let mut seeded = inputs.fixed()..inputs.fixed() + SEEDED_ASKINGS;
    seeded
        .find(|&number| compare_headroom(&library_headroom, answerer, &inputs.get(number)).is_err())
}

/// C-16: those of the answers, and those of the report that reach one.
#[test]
fn each_slip_of_the_answers_is_caught() {
    let inputs = Askings::new(SEED);
    let passes = |slip: &Slip| {
        let wrong = |schedule: &[u8], book: &[u8], questions: &[u8], lent: &mut Lent| {
            headroom_by(slip, schedule, book, questions, lent.buffer()).packed()
        };
        caught_answering(&inputs, &wrong).is_none()
    };
    let of_report =
        |slip: &Slip| slip.of_report() && !slip.of_report_alone() && !slip.of_no_answer();
    let reaches = |slip: &Slip| slip.of_headroom() || of_report(slip);
    let missed: Vec<Slip> = Slip::ALL.iter().copied().filter(reaches).filter(passes).collect();
    assert!(missed.is_empty(), "not caught: {missed:?}");
}

/// C-17: no answer to a question and no charge hangs on the order of tiers whose limits are equal in
/// cents. Each such order is another one somewhere, or it would not be caught by the reports.
#[test]
fn the_order_of_equal_limits_changes_no_answer() {
    let (inputs, askings) = (Inputs::new(SEED), Askings::new(SEED));
    let answers = |slip: &Slip| {
        let same = |schedule: &[u8], book: &[u8], questions: &[u8], lent: &mut Lent| {
            headroom_by(slip, schedule, book, questions, lent.buffer()).packed()
        };
        let seeded = askings.fixed()..askings.fixed() + SEEDED_ASKINGS / 20;
        seeded
            .into_iter()
            .all(|number| compare_headroom(&library_headroom, &same, &askings.get(number)).is_ok())
    };
    let headers = |slip: &Slip| {
        let same = |schedule: &[u8], book: &[u8], lent: &mut Lent| {
            report_by(slip, schedule, book, lent.buffer()).packed()
        };
        let seeded = inputs.fixed()..inputs.fixed() + SEEDED / 10;
        seeded.into_iter().all(|number| {
            let input = inputs.get(number);
            let room = room(&input);
            let [one, other] = [&library as Subject, &same].map(|it| outcome(it, &input, room));
            let header = |area: &[u8]| area[..area.len().min(GUARD + HEADER)].to_vec();
            one.answer == other.answer && header(&one.area) == header(&other.area)
        })
    };
    let of_order = Slip::ALL.iter().filter(|slip| slip.of_equal_limits());
    for slip in of_order {
        assert!(answers(slip) && headers(slip), "{slip:?}");
    }
}

/// C-16: bytes that answers could leave or change, and answers that look right from afar.
#[test]
fn answers_out_of_place_are_caught() {
    type Spoil = fn(&[u8], usize, &mut [u8]);
    let slips: [(&str, Spoil); 9] = [
        ("a byte after the answers", |_, length, lent| change(lent, length)),
        ("the last byte left as it was", |before, length, lent| {
            lent[length - 1] = before[length - 1];
        }),
        ("the last answer left as it was", |before, length, lent| {
            lent[length - ANSWER..length].copy_from_slice(&before[length - ANSWER..length]);
        }),
        ("answers of 0 left as they were", |before, length, lent| {
            for (answer, before) in lent[..length].chunks_mut(ANSWER).zip(before.chunks(ANSWER)) {
                if answer == [0; ANSWER] {
                    answer.copy_from_slice(before);
                }
            }
        }),
        ("bytes in the other order", |_, length, lent| {
            lent[..length].chunks_mut(ANSWER).for_each(<[u8]>::reverse);
        }),
        ("answers from the last on", |_, length, lent| {
            let answers: Vec<u8> = lent[..length].rchunks(ANSWER).flatten().copied().collect();
            lent[..length].copy_from_slice(&answers);
        }),
        ("answers by size", |_, length, lent| {
            let mut amounts: Vec<u64> =
                (0..length / ANSWER).map(|number| amount(lent, number)).collect();
            amounts.sort_unstable();
            let bytes: Vec<u8> = amounts.into_iter().flat_map(u64::to_le_bytes).collect();
            lent[..length].copy_from_slice(&bytes);
        }),
        ("the first answer for all", |_, length, lent| {
            (ANSWER..length).step_by(ANSWER).for_each(|at| lent.copy_within(..ANSWER, at));
        }),
        ("the answers left as they were", |before, _, lent| lent.copy_from_slice(before)),
    ];
    let inputs = Askings::new(SEED);
    for (name, spoil) in slips {
        let wrong: Answerer = &|schedule, book, questions, lent| {
            let before = lent.buffer().to_vec();
            let packed = second_headroom(schedule, book, questions, lent);
            if let Some(Answer::Written(length @ 1..)) = Answer::unpacked(packed) {
                spoil(&before, length, lent.buffer());
            }
            packed
        };
        assert!(caught_answering(&inputs, wrong).is_some(), "{name} was not caught");
    }
    let by_refusal: Answerer = &|schedule, book, questions, lent| {
        changing_by_refusal(second_headroom(schedule, book, questions, lent), lent)
    };
    assert!(caught_answering(&inputs, by_refusal).is_some());
    let with_place: Answerer =
        &|schedule, book, questions, lent| match second_headroom(schedule, book, questions, lent) {
            packed if packed >> 32 == 20 => packed | 1,
            packed => packed,
        };
    assert!(caught_answering(&inputs, with_place).is_some());
    let in_questions: Answerer =
        &|schedule, book, questions, lent| match second_headroom(schedule, book, questions, lent) {
            packed if packed >> 32 == 0 => packed / ANSWER as u64,
            packed => packed,
        };
    assert!(caught_answering(&inputs, in_questions).is_some());
    for refusal in [Refusal::Questions, Refusal::AnswersShort] {
        let refused: Answerer = &|_, _, _, _| Answer::Refused(refusal).packed();
        assert!(caught_answering(&inputs, refused).is_some());
    }
}

/// C-16: "without raising the charge; one cent more raises it": answers of which that is not so are
/// seen by the library's own reports.
#[test]
fn answers_that_do_not_hold_are_caught() {
    let inputs = Askings::new(SEED);
    let does_not_hold = |slip: Slip| {
        (inputs.fixed()..inputs.fixed() + SEEDED_ASKINGS).any(|number| {
            let mut asking = inputs.get(number);
            let length = asking.questions.len() / QUESTION * ANSWER;
            asking.input.room = Room::Bytes(length);
            let Asking { input, questions } = &asking;
            let wrong: Subject = &|schedule, book, lent| {
                headroom_by(&slip, schedule, book, questions, lent.buffer()).packed()
            };
            let outcome = outcome(wrong, input, length);
            outcome.answer == length as u64
                && length > 0
                && may_be_bought(&asking, &outcome.area[GUARD..GUARD + length]).is_err()
        })
    };
    for slip in [
        Slip::AskedOfTheCounterpartyAlone,
        Slip::TierOfTheTopmostParent,
        Slip::WithoutLimitAnswers0,
        Slip::OwnTierAlone,
        Slip::GroupsTiersAlone,
        Slip::EqualLimitsNotAsked,
        Slip::ExposureForStanding,
        Slip::GroupsWithAnExcessAnswer0,
        Slip::OneCentMore,
        Slip::OneCentLess,
        Slip::MostNotReached,
        Slip::LimitsWithTheAmount,
        Slip::AnswersBoughtInTurn,
    ] {
        assert!(does_not_hold(slip), "{slip:?}");
    }
}

/// The first seeded input of movements on which a mover parts from the library.
fn caught_moving(inputs: &Movings, mover: Mover) -> Option<usize> {
    let mut seeded = inputs.fixed()..inputs.fixed() + SEEDED_MOVINGS;
    seeded.find(|&number| compare_movements(&library_moved, mover, &inputs.get(number)).is_err())
}

/// C-19: those of movements, and those of the report, which a movement writes too.
#[test]
fn each_slip_of_movements_is_caught() {
    let inputs = Movings::new(SEED);
    let passes = |slip: &Slip| {
        let wrong = |schedule: &[u8], movement: &Movement, book: &mut Lent, report: &mut Lent| {
            moved_by(slip, schedule, movement, book.buffer(), report.buffer()).packed()
        };
        caught_moving(&inputs, &wrong).is_none()
    };
    // A movement's buffers have slips of their own.
    let of_report = |slip: &Slip| slip.of_report() && *slip != Slip::ExactBufferRefused;
    let reaches = |slip: &Slip| slip.of_movements() || of_report(slip);
    let missed: Vec<Slip> = Slip::ALL.iter().copied().filter(reaches).filter(passes).collect();
    assert!(missed.is_empty(), "not caught: {missed:?}");
}

/// C-19: bytes that a movement could leave or change in either buffer.
#[test]
fn movements_out_of_place_are_caught() {
    /// The book's buffer and the report's, before and after, and the report's length.
    type Spoil = fn([&[u8]; 2], [&mut [u8]; 2], usize);
    let slips: [(&str, Spoil); 14] = [
        ("a byte past the new end", |_, [book, _], _| {
            let end = standing(book).len();
            change(book, end);
        }),
        ("the last byte of the buffer", |_, [book, _], _| change(book, book.len() - 1)),
        ("the last byte of the book left as it was", |[before, _], [book, _], _| {
            let last = standing(book).len() - 1;
            book[last] = before[last];
        }),
        ("the count of assets left as it was", |[before, _], [book, _], _| {
            book[8..10].copy_from_slice(&before[8..10]);
        }),
        ("the count of mitigants left as it was", |[before, _], [book, _], _| {
            book[10..12].copy_from_slice(&before[10..12]);
        }),
        ("one byte of the count of assets", |[before, _], [book, _], _| book[9] = !before[9]),
        ("the header alone", |[before, _], [book, _], _| {
            book[40..].copy_from_slice(&before[40..]);
        }),
        ("all but the header", |[before, _], [book, _], _| {
            book[..40].copy_from_slice(&before[..40]);
        }),
        ("the total", |_, [book, _], _| change(book, 16)),
        ("the mark", |_, [book, _], _| change(book, 3)),
        ("a byte after the report", |_, [_, report], length| change(report, length)),
        ("the last byte of the report left as it was", |[_, before], [_, report], length| {
            report[length - 1] = before[length - 1];
        }),
        ("the report left as it was", |[_, before], [_, report], _| report.copy_from_slice(before)),
        ("the charge of 0", |_, [_, report], _| report[64..72].fill(0)),
    ];
    let inputs = Movings::new(SEED);
    for (name, spoil) in slips {
        let wrong: Mover = &|schedule, movement, book, report| {
            let before = [book.buffer().to_vec(), report.buffer().to_vec()];
            let packed = second_moved(schedule, movement, book, report);
            if let Some(Answer::Written(length)) = Answer::unpacked(packed) {
                spoil([&before[0], &before[1]], [book.buffer(), report.buffer()], length);
            }
            packed
        };
        assert!(caught_moving(&inputs, wrong).is_some(), "{name} was not caught");
    }
}

/// C-19: bytes beside either buffer, those that a refusal changes, and answers that look at nothing.
#[test]
fn movements_beside_their_buffers_are_caught() {
    let beside = |of_book: bool, behind: bool| {
        let wrong: Mover = &|schedule, movement, book, report| {
            let packed = second_moved(schedule, movement, book, report);
            let area = if of_book { book.area() } else { report.area() };
            let place = if behind { area.len() - GUARD } else { GUARD - 1 };
            area[place] ^= 1;
            packed
        };
        caught_moving(&Movings::new(SEED), wrong).is_some()
    };
    for (of_book, behind) in [(false, false), (false, true), (true, false), (true, true)] {
        assert!(beside(of_book, behind));
    }
    let inputs = Movings::new(SEED);
    for number in OF_MOVEMENT {
        for of_book in [false, true] {
            let by_refusal: Mover = &|schedule, movement, book, report| {
                let packed = second_moved(schedule, movement, book, report);
                let lent = if of_book { book.buffer() } else { report.buffer() };
                if packed >> 32 == number {
                    change(lent, lent.len().saturating_sub(1));
                }
                packed
            };
            assert!(caught_moving(&inputs, by_refusal).is_some(), "{number}, {of_book}");
        }
    }
    let with_place: Mover =
        &|schedule, movement, book, report| match second_moved(schedule, movement, book, report) {
            packed if packed >> 32 == 22 => packed | 1,
            packed => packed,
        };
    assert!(caught_moving(&inputs, with_place).is_some());
    for refusal in [Refusal::Movement, Refusal::BufferShort, Refusal::BookCounts] {
        let refused: Mover = &|_, _, _, _| Answer::Refused(refusal).packed();
        assert!(caught_moving(&inputs, refused).is_some());
    }
}

/// The refusals of a movement.
const OF_MOVEMENT: [u64; 18] = [1, 2, 3, 4, 5, 6, 7, 8, 9, 10, 11, 12, 13, 14, 15, 16, 17, 22];

/// C-19: "those of a report made afresh": reports that are not are seen by the library's own.
#[test]
fn reports_not_made_afresh_are_caught() {
    let inputs = Movings::new(SEED);
    let not_afresh = |slip: Slip| {
        let wrong: Mover = &|schedule, movement, book, report| {
            moved_by(&slip, schedule, movement, book.buffer(), report.buffer()).packed()
        };
        (inputs.fixed()..inputs.fixed() + SEEDED_MOVINGS / 20).any(|number| {
            let moving = inputs.get(number);
            let Ok(left) = compare_movements(wrong, wrong, &moving) else {
                return false;
            };
            let mut accepted = left.iter().filter(|moved| moved.answer >> 32 == 0);
            accepted.any(|moved| as_afresh(&moving.input.schedule, moved).is_err())
        })
    };
    for slip in [
        Slip::ReportOfTheStandingBook,
        Slip::LimitsOfTheStandingBook,
        Slip::MovedByHalvesOfEachTreaty,
        Slip::BookStays,
    ] {
        assert!(not_afresh(slip), "{slip:?}");
    }
    // A report of the wrong assets would not show these: they are caught by the second
    // implementation.
    for slip in [Slip::AddedAtTheFront, Slip::ClosedUpWithTheLast, Slip::TotalFollows] {
        assert!(!not_afresh(slip), "{slip:?}");
    }
}

#[test]
fn the_right_one_is_not_caught() {
    let inputs = Inputs::new(SEED);
    assert_eq!(caught(&inputs, &second), None);
    assert_eq!(caught_converting(&Conversions::new(SEED), &second_convert), None);
    assert_eq!(caught_billing(&Billings::new(SEED), &second_bills), None);
    assert_eq!(caught_answering(&Askings::new(SEED), &second_headroom), None);
    assert_eq!(caught_moving(&Movings::new(SEED), &second_moved), None);
}

/// A subject that answers as the second implementation and then spoils what it lent.
fn spoiling(schedule: &[u8], book: &[u8], lent: &mut Lent, spoil: fn(&mut Lent, Answer)) -> u64 {
    let packed = second(schedule, book, lent);
    spoil(lent, Answer::unpacked(packed).unwrap());
    packed
}

fn is_caught(name: &str, subject: Subject) {
    assert!(caught(&Inputs::new(SEED), subject).is_some(), "{name} was not caught");
}

#[test]
fn bytes_written_out_of_place_are_caught() {
    let after_buffer: Subject = &|schedule, book, lent| {
        spoiling(schedule, book, lent, |lent, _| {
            let end = lent.area().len() - GUARD;
            lent.area()[end] ^= 1;
        })
    };
    is_caught("a byte after the buffer", after_buffer);
    let before_buffer: Subject = &|schedule, book, lent| {
        spoiling(schedule, book, lent, |lent, _| lent.area()[GUARD - 1] ^= 1)
    };
    is_caught("a byte before the buffer", before_buffer);
    let after_report: Subject = &|schedule, book, lent| {
        spoiling(schedule, book, lent, |lent, answer| {
            if let Answer::Written(length) = answer {
                change(lent.buffer(), length);
            }
        })
    };
    is_caught("a byte after the report", after_report);
    let by_refusal: Subject =
        &|schedule, book, lent| changing_by_refusal(second(schedule, book, lent), lent);
    is_caught("a byte changed by a refusal", by_refusal);
}

/// C-12: what a part that puts a line could do beside that, and what a buffer between would.
#[test]
fn lines_put_out_of_place_are_caught() {
    type Spoil = fn(&[u8], &mut [u8]);
    let slips: [(&str, Spoil); 5] = [
        ("a byte before the line", |_, report| report[HEADER - 1] ^= 1),
        ("two zero bytes left as they were", |before, report| {
            report[HEADER + 6..HEADER + 8].copy_from_slice(&before[HEADER + 6..HEADER + 8]);
        }),
        ("lines one byte early", |before, report| {
            report.copy_within(HEADER.., HEADER - 1);
            *report.last_mut().unwrap() = before[report.len() - 1];
        }),
        ("lines one byte late", |before, report| {
            report.copy_within(HEADER..report.len() - 1, HEADER + 1);
            report[HEADER] = before[HEADER];
        }),
        ("the line before once more", |_, report| {
            if HEADER + LINE < report.len() {
                report.copy_within(HEADER..HEADER + LINE, HEADER + LINE);
            }
        }),
    ];
    for (name, spoil) in slips {
        let wrong: Subject = &|schedule, book, lent| {
            let before = lent.buffer().to_vec();
            let packed = second(schedule, book, lent);
            match Answer::unpacked(packed) {
                Some(Answer::Written(length)) if HEADER < length => {
                    spoil(&before, &mut lent.buffer()[..length]);
                }
                _ => {}
            }
            packed
        };
        is_caught(name, wrong);
    }
}

/// Document 01's stand-ins that are not slips of one sentence.
#[test]
fn stand_ins_are_caught() {
    let mut fixed = vec![0; LARGEST_REPORT];
    let length = match report(&RawSchedule::published().bytes(), &sample().bytes(), &mut fixed) {
        Answer::Written(length) => length,
        Answer::Refused(refusal) => panic!("{refusal:?}"),
    };
    let one_report: Subject = &|_, _, lent| {
        if lent.buffer().len() < length {
            return Answer::Refused(Refusal::BufferShort).packed();
        }
        lent.buffer()[..length].copy_from_slice(&fixed[..length]);
        length as u64
    };
    is_caught("one report for all", one_report);
    let untouched: Subject = &|schedule, book, lent| {
        let before = lent.area().to_vec();
        let packed = second(schedule, book, lent);
        lent.area().copy_from_slice(&before);
        packed
    };
    is_caught("a buffer untouched after acceptance", untouched);
    let more_lines: Subject = &|schedule, book, lent| {
        spoiling(schedule, book, lent, |lent, answer| {
            if answer == Answer::Written(HEADER) {
                lent.buffer()[6] += 1;
            }
        })
    };
    is_caught("a header naming lines that were not written", more_lines);
    for refusal in [
        Refusal::ScheduleLength,
        Refusal::ScheduleVersion,
        Refusal::ScheduleRates,
        Refusal::Asset(1),
        Refusal::BufferShort,
        Refusal::SpecialistEntry(1),
        Refusal::BookVersion,
    ] {
        let refused: Subject = &|_, _, _| Answer::Refused(refusal).packed();
        is_caught("one refusal for all", refused);
    }
}

#[test]
fn a_wrong_place_is_caught() {
    let first_place: Subject = &|schedule, book, lent| match second(schedule, book, lent) {
        packed if packed >> 32 == 11 => packed & !0xffff_ffff | 1,
        packed => packed,
    };
    is_caught("the first place for every bad asset", first_place);
    let input = Input::new("sample", &RawSchedule::published(), &sample());
    assert!(compare(&library, first_place, &input).is_ok());
}
