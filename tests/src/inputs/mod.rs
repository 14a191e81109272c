//! What library and second implementation are compared on: first every boundary, the largest books,
//! every combination of a list, the limits of specialist funds, the versions of a book and those of
//! a schedule, limits that are equal in cents alone, and several treaties with one reinsurer
//! (`edges`, `extremes`, `combinations`, `specialist`, `versions`, `rates`, `ties`, `halves`), then
//! seeded books of any fund (`books`) and, every seventh each, of a specialist one (`specialist`),
//! under rates in ten-thousandths (`rates`), with such limits (`ties`) and with such treaties
//! (`halves`), some of them with faults or damage (`faults`). The converter has a list of its own
//! (`conversions`), and so have the bills (`billings`), the questions of dealers (`askings`) and the
//! movements of a day (`movings`). An input's number and the seed make it again.

mod askings;
mod billings;
mod books;
mod combinations;
mod conversions;
mod edges;
mod extremes;
mod faults;
mod halves;
mod movings;
mod rates;
mod specialist;
mod ties;
mod versions;

pub use askings::{small_fund, Asking, Askings, KINDS};
pub use billings::{Billing, Billings};
pub use books::{lifelike, Parents, Shape};
pub use conversions::Conversions;
pub use edges::sample;
pub use extremes::{largest_report_book, largest_specialist_book, sixteen_tiers};
pub use halves::all as shared_halves;
pub use movings::{Moving, Movings, Step};
pub use ties::all as near_ties;
pub use versions::at_desks;

use crate::random::Random;
use crate::raw::{RawBook, RawSchedule};
use crate::weightrose::LARGEST_REPORT;

#[derive(Clone, Debug)]
pub struct Input {
    pub name: &'static str,
    pub schedule: Vec<u8>,
    pub book: Vec<u8>,
    pub room: Room,
}

/// How long the lent buffer is.
#[derive(Clone, Copy, Debug)]
pub enum Room {
    Bytes(usize),
    /// The report's length, and so many more.
    Beside(i64),
}

impl Input {
    pub fn new(name: &'static str, schedule: &RawSchedule, book: &RawBook) -> Input {
        Input { name, schedule: schedule.bytes(), book: book.bytes(), room: Room::Beside(0) }
    }
}

/// All inputs under one seed: the fixed ones, then seeded ones without end.
pub struct Inputs {
    seed: u64,
    fixed: Vec<Input>,
}

impl Inputs {
    pub fn new(seed: u64) -> Inputs {
        let mut fixed = edges::all();
        fixed.extend(extremes::all());
        fixed.extend(combinations::all());
        fixed.extend(specialist::all());
        fixed.extend(versions::all());
        fixed.extend(rates::all());
        fixed.extend(ties::all());
        fixed.extend(halves::all());
        Inputs { seed, fixed }
    }

    /// How many inputs do not hang on the seed.
    pub fn fixed(&self) -> usize {
        self.fixed.len()
    }

    pub fn get(&self, number: usize) -> Input {
        match self.fixed.get(number) {
            Some(input) => input.clone(),
            None => seeded(&mut Random::new(self.seed, number as u64), family(number)),
        }
    }
}

/// All inputs of the bills, of the answers or of movements under one seed: the fixed ones, then
/// seeded ones without end.
pub struct Listed<T> {
    seed: u64,
    /// Seeded inputs of the other entries have other numbers.
    apart: u64,
    fixed: Vec<T>,
    /// The fixed inputs of the report, some of which are taken too.
    reports: Vec<Input>,
    seeded: fn(&mut Random, &[Input]) -> T,
}

impl<T: Clone> Listed<T> {
    fn of(
        seed: u64,
        apart: u64,
        parts: impl IntoIterator<Item = Vec<T>>,
        seeded: fn(&mut Random, &[Input]) -> T,
    ) -> Listed<T> {
        let fixed = parts.into_iter().flatten().collect();
        Listed { seed, apart, fixed, reports: Inputs::new(seed).fixed, seeded }
    }

    /// How many inputs do not hang on the seed.
    pub fn fixed(&self) -> usize {
        self.fixed.len()
    }

    pub fn get(&self, number: usize) -> T {
        match self.fixed.get(number) {
            Some(input) => input.clone(),
            None => {
                let random = &mut Random::new(self.seed, self.apart + number as u64);
                (self.seeded)(random, &self.reports)
            }
        }
    }
}

/// Makes a seeded schedule and book.
type Family = fn(&mut Random) -> (RawSchedule, RawBook);

fn family(number: usize) -> Family {
    match number % 7 {
        3 => rates::random,
        4 => specialist::random,
        5 => ties::random,
        6 => halves::random,
        _ => books::random,
    }
}

/// A book as the report gets it.
fn of_any_family(random: &mut Random) -> (RawSchedule, RawBook) {
    let families = [books::random, specialist::random, rates::random, ties::random, halves::random];
    random.pick::<Family>(&families)(random)
}

fn seeded(random: &mut Random, family: Family) -> Input {
    let (schedule, mut book) = family(random);
    if random.chance(40) {
        versions::at_desks(random, &mut book);
    }
    let mut input = made(random, schedule, book);
    input.room = random_room(random);
    input
}

/// As it is, or with faults or damage.
fn made(random: &mut Random, schedule: RawSchedule, book: RawBook) -> Input {
    match random.below(100) {
        0..=59 => Input::new("valid", &schedule, &book),
        60..=79 => faults::spoiled(random, schedule, book),
        80..=94 => faults::damaged_book(random, &schedule, &book),
        _ => faults::damaged_schedule(random, &schedule, &book),
    }
}

fn random_room(random: &mut Random) -> Room {
    match random.below(100) {
        0..=39 => Room::Beside(0),
        40..=54 => Room::Beside(-1),
        55..=64 => Room::Beside(1),
        65..=79 => Room::Beside(random.below(161) as i64 - 80),
        80..=89 => Room::Bytes(random.index(200)),
        90..=97 => Room::Beside(random.below(4_000) as i64),
        _ => Room::Bytes(LARGEST_REPORT + random.index(2)),
    }
}
