//! What the converters are compared on: books and the length of the output. The schedule is that
//! under which the reports of both books must be the same.

use super::edges::sample;
use super::extremes::{largest_report_book, largest_specialist_book};
use super::{books, halves, made, specialist, versions, Family, Input, Room};
use crate::random::Random;
use crate::raw::*;

/// Seeded inputs of the report have other numbers.
const APART: u64 = 1 << 40;

/// All inputs of the converter under one seed: the fixed ones, then seeded ones without end.
pub struct Conversions {
    seed: u64,
    fixed: Vec<Input>,
}

impl Conversions {
    pub fn new(seed: u64) -> Conversions {
        let parts = [first_bytes(), counts(), faults(), rooms(), largest(), treaties()];
        Conversions { seed, fixed: parts.into_iter().flatten().collect() }
    }

    /// How many inputs do not hang on the seed.
    pub fn fixed(&self) -> usize {
        self.fixed.len()
    }

    pub fn get(&self, number: usize) -> Input {
        match self.fixed.get(number) {
            Some(input) => input.clone(),
            None => seeded(&mut Random::new(self.seed, APART + number as u64)),
        }
    }
}

/// A book and an output of its length and so many bytes more.
fn beside(name: &'static str, book: &RawBook, more: i64) -> Input {
    let mut input = Input::new(name, &RawSchedule::published(), book);
    input.room = Room::Bytes((input.book.len() as i64 + more).max(0) as usize);
    input
}

/// Each of the first sixteen bytes at each value.
fn first_bytes() -> Vec<Input> {
    let mut inputs = Vec::new();
    for place in 0..16 {
        for byte in 0..=255 {
            let mut input = beside("first bytes", &sample(), 0);
            input.book[place] = byte;
            inputs.push(input);
        }
    }
    inputs
}

/// An asset with so many mitigants, between two others with so many.
fn counting(counts: [u64; 3], linked: bool) -> RawBook {
    let mut book = RawBook::empty(1_000_000, 1_000, 0);
    let bank = book.counterparty(RawCounterparty { kind: 1, grade: 1, ..Default::default() });
    let name = book.counterparty(RawCounterparty::default());
    for (count, kind) in counts.into_iter().zip([11, 7, 6]) {
        let flags = linked as u8;
        let asset =
            RawAsset { kind, flags, counterparty: name, value: 90_000, ..Default::default() };
        let cash = |place| RawMitigant { form: 1, flags: 31, counterparty: bank, value: place };
        let mitigants: Vec<RawMitigant> = (1..=count).map(cash).collect();
        book.asset(asset, &mitigants);
    }
    book
}

/// Both sides of 255 and of the counts whose low byte is small, at each of three places.
fn counts() -> Vec<Input> {
    let mut inputs = Vec::new();
    for count in [0, 1, 254, 255, 256, 257, 258, 511, 512, 513, 767, 768, 769] {
        for other in [0, 1, 200, 255, 256] {
            for place in 0..3 {
                let mut counts = [other; 3];
                counts[place] = count;
                if counts.iter().sum::<u64>() > 1_500 {
                    continue;
                }
                let book = counting(counts, count % 2 == 1);
                inputs.extend([0, -1].map(|more| beside("counts", &book, more)));
            }
        }
    }
    inputs
}

/// Each refusal of 13 to 17 in a book with 255 and with 256 mitigants, and with no output.
fn faults() -> Vec<Input> {
    type Fault = fn(&mut RawBook);
    let faults: [Fault; 7] = [
        |_| {},
        |book| book.assets[2].mitigants += 1,
        |book| book.assets[0].mitigants = 0x0101,
        |book| {
            (book.assets[2].kind, book.assets[2].entry) = (9, 3);
        },
        |book| {
            (book.assets[2].kind, book.total) = (9, book.assets[2].value - 1);
        },
        |book| book.excluded = book.total + 1,
        |book| {
            book.assets[0].kind = 9;
            (book.assets[0].entry, book.assets[2].counterparty) = (3, 3);
        },
    ];
    let mut inputs = Vec::new();
    for fault in faults {
        for count in [0, 255, 256, 257] {
            let mut book = counting([1, count, 2], false);
            fault(&mut book);
            inputs.extend([0, -1, -100_000].map(|more| beside("faults", &book, more)));
        }
    }
    inputs
}

fn rooms() -> Vec<Input> {
    let book = sample();
    let more = (-80..=80).chain([-100_000, 1_000, 100_000]);
    let empty = RawBook::empty(0, 0, 0);
    more.flat_map(|more| [beside("rooms", &book, more), beside("rooms", &empty, more)]).collect()
}

fn largest() -> Vec<Input> {
    let books = [largest_report_book(), largest_specialist_book()];
    books.iter().flat_map(|book| [0, -1, 1].map(|more| beside("largest", book, more))).collect()
}

/// C-18: every fourth of the report's inputs.
fn treaties() -> Vec<Input> {
    let of_length = |input: Input| Input { room: Room::Bytes(input.book.len()), ..input };
    halves::all().into_iter().step_by(4).map(of_length).collect()
}

/// A book as the report gets it, mostly of version 1, every fourth with many mitigants.
fn seeded(random: &mut Random) -> Input {
    let family: Family = match random.below(100) {
        0..=19 => specialist::random,
        20..=44 => halves::random,
        _ => books::random,
    };
    let (schedule, mut book) = family(random);
    if random.chance(25) {
        books::crowd(random, &mut book);
    }
    if random.chance(10) {
        versions::at_desks(random, &mut book);
    }
    let mut input = made(random, schedule, book);
    let length = input.book.len();
    input.room = Room::Bytes(match random.below(100) {
        0..=49 => length,
        50..=64 => length.saturating_sub(1),
        65..=74 => length + 1,
        75..=84 => random.index(length + 1),
        _ => length + random.index(200),
    });
    input
}
