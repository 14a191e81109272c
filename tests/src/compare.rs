//! One comparison: two subjects answer the same schedule and book, by themselves or with a cost rate
//! or a list of questions, each with a buffer of its own between guard bytes, and must agree on the
//! answer and on every byte. Of movements both keep the book in a buffer of their own through the
//! day, and must agree after each of them.

use crate::inputs::{Asking, Billing, Input, Moving, Room, Step};
use crate::random::Random;
use crate::raw::{Movement, RawAsset, RawQuestion, MOST};
use crate::second::{self, Slip};
use crate::weightrose::{self, Answer, ANSWER, HEADER, LARGEST_REPORT, LINE, QUESTION};

/// Guard bytes on each side of a lent buffer.
pub const GUARD: usize = 64;

/// A lent buffer inside a larger area, so that bytes written beside it can be seen.
pub struct Lent<'a> {
    area: &'a mut [u8],
}

impl Lent<'_> {
    /// The buffer itself.
    pub fn buffer(&mut self) -> &mut [u8] {
        let end = self.area.len() - GUARD;
        &mut self.area[GUARD..end]
    }

    /// The buffer with its guard bytes, for subjects that are to be caught.
    pub fn area(&mut self) -> &mut [u8] {
        self.area
    }
}

/// Answers a schedule and a book as the library does, packed.
pub type Subject<'a> = &'a dyn Fn(&[u8], &[u8], &mut Lent) -> u64;

/// What a subject left: its answer, and the buffer with its guard bytes.
#[derive(Clone, Debug, PartialEq, Eq)]
pub struct Outcome {
    pub answer: u64,
    pub area: Vec<u8>,
}

/// An area of random bytes, the same for the same lengths.
fn filled(room: usize, book: usize) -> Vec<u8> {
    let length = room + 2 * GUARD;
    let mut random = Random::new(room as u64, book as u64);
    let mut area: Vec<u8> =
        (0..length.div_ceil(8)).flat_map(|_| random.number().to_le_bytes()).collect();
    area.truncate(length);
    area
}

pub fn outcome(subject: Subject, input: &Input, room: usize) -> Outcome {
    let mut area = filled(room, input.book.len());
    let answer = subject(&input.schedule, &input.book, &mut Lent { area: &mut area });
    Outcome { answer, area }
}

/// The buffer's length for an input: where the report decides, by the second implementation's.
pub fn room(input: &Input) -> usize {
    match input.room {
        Room::Bytes(bytes) => bytes,
        Room::Beside(more) => {
            let length = second::length(&input.schedule, &input.book).unwrap_or(0);
            (length as i64 + more).max(0) as usize
        }
    }
}

/// Where two outcomes part.
pub struct Difference {
    pub answers: [u64; 2],
    /// The first byte that differs, counted from the buffer's start.
    pub byte: Option<i64>,
}

impl std::fmt::Display for Difference {
    fn fmt(&self, out: &mut std::fmt::Formatter) -> std::fmt::Result {
        let [one, other] = self.answers;
        write!(out, "answers {one:#x} and {other:#x}, {}", bytes_said(self.byte))
    }
}

fn bytes_said(differ_at: Option<i64>) -> String {
    match differ_at {
        Some(byte) => format!("bytes differ first at {byte}"),
        None => "bytes the same".to_string(),
    }
}

/// The first byte of two areas that differs, counted from the buffer's start.
fn first_differing(one: &[u8], other: &[u8]) -> Option<i64> {
    let place = one.iter().zip(other).position(|(one, other)| one != other);
    place.map(|place| place as i64 - GUARD as i64)
}

impl Difference {
    fn of(one: &Outcome, other: &Outcome) -> Difference {
        Difference {
            answers: [one.answer, other.answer],
            byte: first_differing(&one.area, &other.area),
        }
    }
}

/// Both subjects on one input: what both left, or where they part.
pub fn compare(one: Subject, other: Subject, input: &Input) -> Result<Outcome, Difference> {
    let room = room(input);
    let [one, other] = [one, other].map(|subject| outcome(subject, input, room));
    if one == other {
        Ok(one)
    } else {
        Err(Difference::of(&one, &other))
    }
}

/// The same with a subject from before C-18: what the first left, and whether the other left
/// something else, as C-18 has it.
pub fn compare_before(
    one: Subject,
    before: Subject,
    input: &Input,
) -> Result<(Outcome, bool), Difference> {
    compare_before_by(&second_before, one, before, input)
}

/// The same of any entry, where `old` is what there was before C-18: `before` may leave something
/// else only where treaties share a half, and then it must leave what `old` does.
pub fn compare_before_by(
    old: Subject,
    one: Subject,
    before: Subject,
    input: &Input,
) -> Result<(Outcome, bool), Difference> {
    let room = room(input);
    let [one, before] = [one, before].map(|subject| outcome(subject, input, room));
    if one == before {
        return Ok((one, false));
    }
    let met = second::halves_of(&input.schedule, &input.book).unwrap_or_default();
    if met.of_several && before == outcome(old, input, room) {
        Ok((one, true))
    } else {
        Err(Difference::of(&one, &before))
    }
}

/// The lines of a report in runs: those of one group, one behind the other, that print the same
/// limit.
pub fn runs(lines: &[u8]) -> Vec<Vec<&[u8]>> {
    let lines: Vec<&[u8]> = lines.chunks(LINE).collect();
    let group_and_limit = |line: &[u8]| [&line[..2], &line[16..24]].concat();
    let runs = lines.chunk_by(|one, next| group_and_limit(one) == group_and_limit(next));
    runs.map(<[&[u8]]>::to_vec).collect()
}

/// Whether the tiers of a run rise.
pub fn in_tier_order(run: &[&[u8]]) -> bool {
    run.is_sorted_by_key(|line| line[2])
}

/// What a conversion must keep, as the library has it: the same answer and the same bytes of a
/// report of both books, into buffers of these lengths, and the old book out of the new one.
pub fn keeps(input: &Input, new: &[u8]) -> Result<(), String> {
    let length = second::length(&input.schedule, &input.book).unwrap_or(0);
    for room in [length, length.saturating_sub(1), length + 7] {
        let converted = Input { book: new.to_vec(), ..input.clone() };
        if outcome(&library, input, room) != outcome(&library, &converted, room) {
            return Err(format!("the reports of both books differ, {room} bytes lent"));
        }
    }
    if second::rebuilt(new) != input.book {
        return Err("the old book is not rebuilt".to_string());
    }
    Ok(())
}

/// Answers a schedule, a book and a cost rate as the library does, packed.
pub type Biller<'a> = &'a dyn Fn(&[u8], &[u8], u64, &mut Lent) -> u64;

/// Both billers on one input: what both left, or where they part.
pub fn compare_bills(one: Biller, other: Biller, billing: &Billing) -> Result<Outcome, Difference> {
    let Billing { input, rate } = billing;
    compare(
        &|schedule, book, lent| one(schedule, book, *rate, lent),
        &|schedule, book, lent| other(schedule, book, *rate, lent),
        input,
    )
}

/// The same with a biller from before C-18, as `compare_before` has it.
pub fn compare_bills_before(
    one: Biller,
    before: Biller,
    billing: &Billing,
) -> Result<(Outcome, bool), Difference> {
    let Billing { input, rate } = billing;
    compare_before_by(
        &|schedule, book, lent| second_bills_before(schedule, book, *rate, lent),
        &|schedule, book, lent| one(schedule, book, *rate, lent),
        &|schedule, book, lent| before(schedule, book, *rate, lent),
        input,
    )
}

/// The charge of the library's report.
fn charge(schedule: &[u8], book: &[u8]) -> Result<u64, String> {
    let mut report = vec![0; LARGEST_REPORT];
    match weightrose::report(schedule, book, &mut report) {
        Answer::Written(_) => Ok(u64::from_le_bytes(report[64..72].try_into().unwrap())),
        Answer::Refused(refusal) => Err(format!("the report is refused {}", refusal.number())),
    }
}

/// What bills must do, as the library has it: add up to the charge of the report times the rate,
/// rounded down.
pub fn adds_up(billing: &Billing, bills: &[u8]) -> Result<(), String> {
    let Billing { input, rate } = billing;
    let charge = charge(&input.schedule, &input.book).map_err(|what| format!("billed, {what}"))?;
    let wanted = u128::from(charge) * u128::from(*rate) / 10_000;
    let sum: u128 = (0..=255).map(|desk| u128::from(weightrose::bill(bills, desk))).sum();
    if sum != wanted {
        return Err(format!("the bills add up to {sum}, a charge of {charge} costs {wanted}"));
    }
    Ok(())
}

/// Answers a schedule, a book and a list of questions as the library does, packed.
pub type Answerer<'a> = &'a dyn Fn(&[u8], &[u8], &[u8], &mut Lent) -> u64;

/// Both answerers on one input: what both left, or where they part.
pub fn compare_headroom(
    one: Answerer,
    other: Answerer,
    asking: &Asking,
) -> Result<Outcome, Difference> {
    let Asking { input, questions } = asking;
    compare(
        &|schedule, book, lent| one(schedule, book, questions, lent),
        &|schedule, book, lent| other(schedule, book, questions, lent),
        input,
    )
}

/// The same with an answerer from before C-18, as `compare_before` has it.
pub fn compare_headroom_before(
    one: Answerer,
    before: Answerer,
    asking: &Asking,
) -> Result<(Outcome, bool), Difference> {
    let Asking { input, questions } = asking;
    compare_before_by(
        &|schedule, book, lent| second_headroom_before(schedule, book, questions, lent),
        &|schedule, book, lent| one(schedule, book, questions, lent),
        &|schedule, book, lent| before(schedule, book, questions, lent),
        input,
    )
}

/// "each answer equals what the question gets when sent singly", as the library has it.
pub fn as_singly(asking: &Asking, answers: &[u8]) -> Result<(), String> {
    let Asking { input, questions } = asking;
    for (question, wanted) in questions.chunks(QUESTION).zip(answers.chunks(ANSWER)) {
        let mut answer = [0xa5; ANSWER];
        let packed =
            weightrose::packed_headroom(&input.schedule, &input.book, question, &mut answer);
        if packed != ANSWER as u64 || answer != wanted {
            return Err(format!("{question:?} gets another answer when sent singly"));
        }
    }
    Ok(())
}

/// A book's bytes with one more asset of this kind, with this counterparty; the header's amounts
/// stay, and with them VAF and VAF′. None where the book has no place for it.
pub fn bought(book: &[u8], question: RawQuestion, value: u64) -> Option<Vec<u8>> {
    let [counterparties, assets] =
        [6, 8].map(|place| u16::from_le_bytes([book[place], book[place + 1]]));
    if assets == 900 {
        return None;
    }
    let RawQuestion { counterparty, kind } = question;
    let asset = RawAsset { kind, counterparty, value, ..Default::default() };
    let end = 40 + 4 * usize::from(counterparties) + 48 * usize::from(assets);
    let mut bytes = [&book[..end], &asset.bytes(), &book[end..]].concat();
    bytes[8..10].copy_from_slice(&(assets + 1).to_le_bytes());
    Some(bytes)
}

/// What the answers say, as the library's reports have it: with so much bought the charge is the
/// same, and with one cent more it is greater or the answer is M. About twenty questions of a list
/// are tried. Bank bills move W and so a limit that is held here, where row d has a first rate: of
/// these, as of books that are full, nothing is tried. Answers how many were.
pub fn may_be_bought(asking: &Asking, answers: &[u8]) -> Result<usize, String> {
    let Asking { input: Input { schedule, book, .. }, questions } = asking;
    let lessened_by_w = schedule[24..26] != [0, 0];
    let mut tried = 0;
    let before = charge(schedule, book)?;
    let all = questions.chunks(QUESTION).zip(answers.chunks(ANSWER));
    for (question, answer) in all.step_by(1 + questions.len() / (20 * QUESTION)) {
        let question = RawQuestion {
            counterparty: u16::from_le_bytes([question[0], question[1]]),
            kind: question[2],
        };
        let answer = weightrose::amount(answer, 0);
        let with = |value| bought(book, question, value).filter(|_| value <= MOST);
        if lessened_by_w && question.kind == 3 {
            continue;
        }
        let Some(book) = with(answer) else {
            continue;
        };
        if charge(schedule, &book)? != before {
            return Err(format!("{question:?}: {answer} more raises the charge"));
        }
        if let Some(book) = with(answer + 1) {
            if charge(schedule, &book)? <= before {
                return Err(format!("{question:?}: {answer} more is not the greatest"));
            }
        }
        tried += 1;
    }
    Ok(tried)
}

/// Answers a schedule and a movement as the library does, packed: the book is in the first buffer, the
/// report comes into the second.
pub type Mover<'a> = &'a dyn Fn(&[u8], &Movement, &mut Lent, &mut Lent) -> u64;

/// What a mover left after a movement: its answer, and both buffers with their guard bytes.
#[derive(Clone, Debug, PartialEq, Eq)]
pub struct Moved {
    pub answer: u64,
    pub book: Vec<u8>,
    pub report: Vec<u8>,
}

impl Moved {
    /// The book's buffer without its guard bytes.
    pub fn book(&self) -> &[u8] {
        &self.book[GUARD..self.book.len() - GUARD]
    }

    /// The report; nothing where the movement was refused.
    pub fn report(&self) -> &[u8] {
        match Answer::unpacked(self.answer) {
            Some(Answer::Written(length)) => &self.report[GUARD..GUARD + length],
            _ => &[],
        }
    }
}

/// Where two movers part: after which movement, from 1, and in which buffer.
pub struct Parting {
    pub movement: usize,
    pub answers: [u64; 2],
    /// The first byte that differs in the book's buffer and in the report's.
    pub bytes: [Option<i64>; 2],
}

impl std::fmt::Display for Parting {
    fn fmt(&self, out: &mut std::fmt::Formatter) -> std::fmt::Result {
        let Parting { movement, answers: [one, other], bytes } = self;
        let [book, report] = bytes.map(bytes_said);
        write!(out, "movement {movement}: answers {one:#x} and {other:#x}, ")?;
        write!(out, "of the book's buffer {book}, of the report's {report}")
    }
}

/// The length of the report's buffer for a movement of a book: where the report decides, by the second
/// implementation's.
fn movement_room(schedule: &[u8], step: &Step, book: &[u8]) -> usize {
    match step.room {
        Room::Bytes(bytes) => bytes,
        Room::Beside(more) => {
            let length = second::length_after(schedule, &step.movement, book).unwrap_or(HEADER);
            (length as i64 + more).max(0) as usize
        }
    }
}

/// A mover's book with guard bytes about it, as it is before any movement.
fn lent_book(book: &[u8]) -> Vec<u8> {
    let mut area = filled(book.len(), 0);
    area[GUARD..GUARD + book.len()].copy_from_slice(book);
    area
}

/// Both movers on the movements of one day, one after the other, each with a book of its own: what
/// both left after each, or where they part.
pub fn compare_movements(one: Mover, other: Mover, moving: &Moving) -> Result<Vec<Moved>, Parting> {
    let Moving { input: Input { schedule, book, .. }, steps } = moving;
    let mut books = [lent_book(book), lent_book(book)];
    let mut left = Vec::new();
    for step in steps {
        let room = movement_room(schedule, step, &books[0][GUARD..GUARD + book.len()]);
        let after = |mover: Mover, area: &mut Vec<u8>| {
            let mut report = filled(room, book.len());
            let [mut own, mut lent] = [&mut area[..], &mut report].map(|area| Lent { area });
            let answer = mover(schedule, &step.movement, &mut own, &mut lent);
            Moved { answer, book: area.clone(), report }
        };
        let [of_one, of_other] = &mut books;
        let (first, second) = (after(one, of_one), after(other, of_other));
        if first != second {
            return Err(Parting {
                movement: left.len() + 1,
                answers: [first.answer, second.answer],
                bytes: [
                    first_differing(&first.book, &second.book),
                    first_differing(&first.report, &second.report),
                ],
            });
        }
        left.push(first);
    }
    Ok(left)
}

/// The book at the start of a buffer, "its length read from its counts", which it must have.
pub fn standing(buffer: &[u8]) -> &[u8] {
    let count = |place| usize::from(u16::from_le_bytes([buffer[place], buffer[place + 1]]));
    &buffer[..40 + 4 * count(6) + 48 * count(8) + 12 * count(10)]
}

/// "the charge and the lines after it are those of a report made afresh", as the library has it: of
/// the book that the buffer starts with after a movement that was accepted.
pub fn as_afresh(schedule: &[u8], moved: &Moved) -> Result<(), String> {
    let mut afresh = vec![0xa5; moved.report().len()];
    let answer = weightrose::packed_report(schedule, standing(moved.book()), &mut afresh);
    if answer != moved.answer || afresh != moved.report() {
        return Err(format!("answered {:#x}, and afresh {answer:#x}", moved.answer));
    }
    Ok(())
}

/// The movers.
pub fn library_moved(
    schedule: &[u8],
    movement: &Movement,
    book: &mut Lent,
    report: &mut Lent,
) -> u64 {
    let (book, report) = (book.buffer(), report.buffer());
    match movement {
        Movement::Add(record) => weightrose::packed_add(schedule, record, book, report),
        Movement::Remove(place) => weightrose::packed_remove(schedule, *place, book, report),
    }
}

pub fn second_moved(
    schedule: &[u8],
    movement: &Movement,
    book: &mut Lent,
    report: &mut Lent,
) -> u64 {
    second::moved(schedule, movement, book.buffer(), report.buffer()).packed()
}

/// The answerers.
pub fn library_headroom(schedule: &[u8], book: &[u8], questions: &[u8], lent: &mut Lent) -> u64 {
    weightrose::packed_headroom(schedule, book, questions, lent.buffer())
}

pub fn second_headroom(schedule: &[u8], book: &[u8], questions: &[u8], lent: &mut Lent) -> u64 {
    second::headroom(schedule, book, questions, lent.buffer()).packed()
}

/// The billers.
pub fn library_bills(schedule: &[u8], book: &[u8], rate: u64, lent: &mut Lent) -> u64 {
    weightrose::packed_bills(schedule, book, rate, lent.buffer())
}

pub fn second_bills(schedule: &[u8], book: &[u8], rate: u64, lent: &mut Lent) -> u64 {
    second::bills(schedule, book, rate, lent.buffer()).packed()
}

/// The converters, as subjects that read no schedule.
pub fn library_convert(_: &[u8], book: &[u8], lent: &mut Lent) -> u64 {
    weightrose::packed_convert(book, lent.buffer())
}

pub fn second_convert(_: &[u8], book: &[u8], lent: &mut Lent) -> u64 {
    second::convert(book, lent.buffer()).packed()
}

/// The library, as a subject.
pub fn library(schedule: &[u8], book: &[u8], lent: &mut Lent) -> u64 {
    weightrose::packed_report(schedule, book, lent.buffer())
}

/// The second implementation, as a subject.
pub fn second(schedule: &[u8], book: &[u8], lent: &mut Lent) -> u64 {
    second::report(schedule, book, lent.buffer()).packed()
}

/// What there was before C-18, with document 01's half of each treaty by itself.
pub fn second_before(schedule: &[u8], book: &[u8], lent: &mut Lent) -> u64 {
    second::report_by(&BEFORE, schedule, book, lent.buffer()).packed()
}

fn second_bills_before(schedule: &[u8], book: &[u8], rate: u64, lent: &mut Lent) -> u64 {
    second::bills_by(&BEFORE, schedule, book, rate, lent.buffer()).packed()
}

fn second_headroom_before(schedule: &[u8], book: &[u8], questions: &[u8], lent: &mut Lent) -> u64 {
    second::headroom_by(&BEFORE, schedule, book, questions, lent.buffer()).packed()
}

const BEFORE: Slip = Slip::HalfOfEachTreaty;
