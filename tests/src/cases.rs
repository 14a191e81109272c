//! What the documents' cases ask of the library: a report by its fields, bills by desk, answers by
//! question, a day's movements one by one, or a refusal.

use crate::raw::{Movement, RawBook, RawQuestion};
use crate::weightrose::{self, Answer, Refusal, ANSWER, BILLS, HEADER, LARGEST_REPORT, LINE};

pub struct Report {
    pub bytes: Vec<u8>,
}

#[derive(Debug, PartialEq, Eq)]
pub struct Line {
    pub top: u16,
    pub tier: u8,
    pub set: u16,
    /// Exposure, limit, left, excess.
    pub amounts: [u64; 4],
}

impl Report {
    fn u16(&self, place: usize) -> u16 {
        u16::from_le_bytes(self.bytes[place..place + 2].try_into().unwrap())
    }

    fn u64(&self, place: usize) -> u64 {
        u64::from_le_bytes(self.bytes[place..place + 8].try_into().unwrap())
    }

    pub fn vaf(&self) -> u64 {
        self.u64(8)
    }

    pub fn vaf_prime(&self) -> u64 {
        self.u64(16)
    }

    pub fn all_net(&self) -> u64 {
        self.u64(24)
    }

    pub fn a3_sum(&self) -> u64 {
        self.u64(48)
    }

    pub fn a3_limit(&self) -> u64 {
        self.u64(56)
    }

    pub fn charge(&self) -> u64 {
        self.u64(64)
    }

    pub fn lines(&self) -> Vec<Line> {
        assert_eq!(self.bytes.len(), HEADER + LINE * usize::from(self.u16(6)));
        let line = |start: usize| Line {
            top: self.u16(start),
            tier: self.bytes[start + 2],
            set: self.u16(start + 4),
            amounts: std::array::from_fn(|amount| self.u64(start + 8 + 8 * amount)),
        };
        (HEADER..self.bytes.len()).step_by(LINE).map(line).collect()
    }

    /// What document 01's program prints for the report.
    pub fn printed(&self) -> String {
        let line = |line: &Line| {
            let [exposure, limit, left, excess] = line.amounts;
            format!("{} {} {exposure} {limit} {left} {excess}\n", line.top, line.tier)
        };
        let lines: String = self.lines().iter().map(line).collect();
        format!("{lines}charge {}\n", self.charge())
    }
}

/// The report of a book that is accepted, under a schedule.
pub fn report_under(schedule: &[u8], book: &RawBook) -> Report {
    let mut buffer = vec![0xa5; LARGEST_REPORT];
    match weightrose::report(schedule, &book.bytes(), &mut buffer) {
        Answer::Written(length) => Report { bytes: buffer[..length].to_vec() },
        Answer::Refused(refusal) => panic!("{refusal:?}"),
    }
}

/// The same under the published schedule.
pub fn report(book: &RawBook) -> Report {
    report_under(&weightrose::published(), book)
}

/// The refusal of a call with a buffer of that length, which must stay as it was.
pub fn refused(room: usize, call: impl FnOnce(&mut [u8]) -> Answer) -> Refusal {
    let mut buffer = vec![0xa5; room];
    let answer = call(&mut buffer);
    assert!(buffer.iter().all(|&byte| byte == 0xa5), "a refusal changed the buffer");
    match answer {
        Answer::Refused(refusal) => refusal,
        Answer::Written(length) => panic!("{length} bytes were written"),
    }
}

/// The refusal of a schedule and a book.
pub fn refusal(schedule: &[u8], book: &[u8], room: usize) -> Refusal {
    refused(room, |buffer| weightrose::report(schedule, book, buffer))
}

/// The refusal of a book under the published schedule.
pub fn refused_book(book: &RawBook) -> Refusal {
    refusal(&weightrose::published(), &book.bytes(), LARGEST_REPORT)
}

/// The bills that are not 0 of a book that is accepted, each with its desk, under a schedule.
pub fn bills_under(schedule: &[u8], book: &RawBook, rate: u64) -> Vec<(u8, u64)> {
    let mut buffer = [0xa5; BILLS];
    match weightrose::bills(schedule, &book.bytes(), rate, &mut buffer) {
        Answer::Written(length) => assert_eq!(length, BILLS),
        Answer::Refused(refusal) => panic!("{refusal:?}"),
    }
    let bills = (0..=255).map(|desk| (desk, weightrose::bill(&buffer, desk)));
    bills.filter(|&(_, bill)| bill > 0).collect()
}

/// The same under the published schedule.
pub fn bills(book: &RawBook, rate: u64) -> Vec<(u8, u64)> {
    bills_under(&weightrose::published(), book, rate)
}

/// The refusal of bills.
pub fn not_billed(schedule: &[u8], book: &[u8], rate: u64, room: usize) -> Refusal {
    refused(room, |buffer| weightrose::bills(schedule, book, rate, buffer))
}

/// How much more may be bought of what each question names, for a book that is accepted, under a
/// schedule.
pub fn answers_under(schedule: &[u8], book: &RawBook, questions: &[RawQuestion]) -> Vec<u64> {
    let mut buffer = vec![0xa5; ANSWER * questions.len()];
    let list = RawQuestion::list(questions);
    match weightrose::headroom(schedule, &book.bytes(), &list, &mut buffer) {
        Answer::Written(length) => assert_eq!(length, buffer.len()),
        Answer::Refused(refusal) => panic!("{refusal:?}"),
    }
    (0..questions.len()).map(|question| weightrose::amount(&buffer, question)).collect()
}

/// The same under the published schedule.
pub fn answers(book: &RawBook, questions: &[RawQuestion]) -> Vec<u64> {
    answers_under(&weightrose::published(), book, questions)
}

/// The refusal of a list of questions.
pub fn not_answered(schedule: &[u8], book: &[u8], questions: &[u8], room: usize) -> Refusal {
    refused(room, |buffer| weightrose::headroom(schedule, book, questions, buffer))
}

/// A day (C-19): a schedule, and a lent buffer with a book at its start.
#[derive(Clone)]
pub struct Day {
    pub schedule: Vec<u8>,
    pub buffer: Vec<u8>,
}

impl Day {
    /// Under the published schedule, with so many bytes behind the book.
    pub fn of(book: &RawBook, room: usize) -> Day {
        let mut buffer = book.bytes();
        buffer.extend((0..room).map(|byte| 0x80 | byte as u8));
        Day { schedule: weightrose::published().to_vec(), buffer }
    }

    fn call(&mut self, movement: &Movement, report: &mut [u8]) -> Answer {
        let Day { schedule, buffer } = self;
        match movement {
            Movement::Add(record) => weightrose::add(schedule, record, buffer, report),
            Movement::Remove(place) => weightrose::remove(schedule, *place, buffer, report),
        }
    }

    /// The report after a movement that is accepted. No byte behind it is written.
    pub fn report(&mut self, movement: &Movement) -> Report {
        let mut report = vec![0xa5; LARGEST_REPORT];
        let length = match self.call(movement, &mut report) {
            Answer::Written(length) => length,
            Answer::Refused(refusal) => panic!("{refusal:?}"),
        };
        assert!(report[length..].iter().all(|&byte| byte == 0xa5));
        report.truncate(length);
        Report { bytes: report }
    }

    /// The refusal of a movement with a buffer of that length for its report; both buffers must stay
    /// as they were.
    pub fn refusal(&mut self, movement: &Movement, room: usize) -> Refusal {
        let before = self.buffer.clone();
        let refusal = refused(room, |report| self.call(movement, report));
        assert!(self.buffer == before, "a refusal changed the book's buffer");
        refusal
    }
}
