//! Valid schedules and books made bad: by fields, several at once, or by bytes.

use super::edges::sample;
use super::Input;
use crate::random::Random;
use crate::raw::*;

/// One to four fields set to what the documents refuse, or to what stands beside it.
pub fn spoiled(random: &mut Random, mut schedule: RawSchedule, mut book: RawBook) -> Input {
    for _ in 0..random.between(1, 4) {
        match random.below(20) {
            0..=1 => spoil_schedule(random, &mut schedule),
            2..=6 => spoil_header(random, &mut book),
            7..=9 => spoil_counterparty(random, &mut book),
            10..=14 => spoil_asset(random, &mut book),
            15..=17 => spoil_mitigant(random, &mut book),
            _ => spoil_count(random, &mut book),
        }
    }
    Input::new("spoiled", &schedule, &book)
}

fn bad_amount(random: &mut Random) -> u64 {
    random.pick(&[0, MOST, MOST + 1, 1 << 63, u64::MAX])
}

fn spoil_schedule(random: &mut Random, schedule: &mut RawSchedule) {
    let row = random.index(8);
    match random.below(5) {
        0 => schedule.mark[random.index(4)] ^= 1 << random.below(8),
        1 => schedule.version = random.pick(&[0, 1, 2, 3, 0x0100, 0x0101, 0x0102, 0x0201, 65_535]),
        2 => schedule.percents[random.index(2)] = random.between(99, 102) as u16,
        3 => schedule.rows[row].rates[random.index(3)] = bad_rate(random),
        _ => schedule.rows[row].fixed = bad_amount(random),
    }
}

/// A rate beside the most of either version, any, or one whose tenfold is small in 16 bits.
fn bad_rate(random: &mut Random) -> u16 {
    match random.below(4) {
        0 => random.between(1_499, 1_502) as u16,
        1 => random.between(14_999, 15_002) as u16,
        2 => random.between(6_553, 8_054) as u16,
        _ => random.below(65_536) as u16,
    }
}

fn spoil_header(random: &mut Random, book: &mut RawBook) {
    let most = MOST as i64;
    match random.below(8) {
        0 => book.mark[random.index(4)] ^= 1 << random.below(8),
        1 => book.version = random.pick(&[0, 1, 2, 3, 0x0100, 0x0101, 0x0102, 0x0201]),
        2 => book.zeros[random.index(3)] = random.below(3) as u8,
        3 => book.specialist = random.pick(&[0, 1, 2, 255]),
        4 => book.total = bad_amount(random),
        5 => book.base = random.pick(&[most, most + 1, -most, -most - 1, i64::MIN, i64::MAX]),
        6 => book.excluded = bad_amount(random),
        _ => book.total = random.below(book.total.saturating_add(1)),
    }
}

fn spoil_counterparty(random: &mut Random, book: &mut RawBook) {
    if book.counterparties.is_empty() {
        return;
    }
    let index = random.index(book.counterparties.len());
    let counterparty = &mut book.counterparties[index];
    match random.below(4) {
        0 => counterparty.parent = index as u16 + random.below(3) as u16,
        1 => counterparty.grade = random.between(6, 15) as u8,
        2 => counterparty.kind = random.between(3, 15) as u8,
        _ => counterparty.flags |= 1 << random.below(8),
    }
}

fn spoil_asset(random: &mut Random, book: &mut RawBook) {
    if book.assets.is_empty() {
        return;
    }
    let last = book.counterparties.len() as u64;
    let index = random.index(book.assets.len());
    let asset = &mut book.assets[index];
    match random.below(11) {
        0 => asset.kind = random.pick(&[0, 1, 9, 11, 12, 255]),
        1 => asset.flags |= 1 << random.below(8),
        2 => asset.entry = random.below(5) as u8,
        3 => asset.months = random.pick(&[0, 1, 255]),
        4 => asset.counterparty = random.pick(&[0, 1, last, last + 1]) as u16,
        5 => asset.value = bad_amount(random),
        6 => asset.offsets = bad_amount(random),
        7 => asset.offsets = asset.value.saturating_add(random.below(2)),
        8 => asset.deductions = bad_amount(random),
        9 => asset.insurance_stress = bad_amount(random),
        _ => asset.combination_stress = bad_amount(random),
    }
}

fn spoil_mitigant(random: &mut Random, book: &mut RawBook) {
    if book.mitigants.is_empty() {
        return;
    }
    let last = book.counterparties.len() as u64;
    let index = random.index(book.mitigants.len());
    let mitigant = &mut book.mitigants[index];
    match random.below(4) {
        0 => mitigant.form = random.below(8) as u8,
        1 => mitigant.flags |= 1 << random.below(8),
        2 => mitigant.counterparty = random.pick(&[0, 1, last, last + 1]) as u16,
        _ => mitigant.value = bad_amount(random),
    }
}

/// A count of mitigants that is off by one or by 65,536, or records that are not counted.
fn spoil_count(random: &mut Random, book: &mut RawBook) {
    if book.assets.is_empty() {
        return;
    }
    let (one, other) = (random.index(book.assets.len()), random.index(book.assets.len()));
    match random.below(4) {
        0 => book.assets[one].mitigants = book.assets[one].mitigants.wrapping_add(1),
        1 => book.assets[one].mitigants = book.assets[one].mitigants.wrapping_sub(1),
        2 => {
            book.assets[one].mitigants = book.assets[one].mitigants.wrapping_add(32_768);
            book.assets[other].mitigants = book.assets[other].mitigants.wrapping_add(32_768);
        }
        _ => {
            book.mitigants.pop();
        }
    }
}

pub fn damaged_book(random: &mut Random, schedule: &RawSchedule, book: &RawBook) -> Input {
    let mut input = Input::new("damaged book", schedule, book);
    damage(random, &mut input.book);
    input
}

pub fn damaged_schedule(random: &mut Random, schedule: &RawSchedule, book: &RawBook) -> Input {
    let mut input = Input::new("damaged schedule", schedule, book);
    damage(random, &mut input.schedule);
    input
}

/// Bits turned, bytes overwritten, cut off, added or moved.
fn damage(random: &mut Random, bytes: &mut Vec<u8>) {
    let place = random.index(bytes.len());
    match random.below(8) {
        0..=3 => {
            for _ in 0..random.between(1, 3) {
                let place = random.index(bytes.len());
                bytes[place] ^= 1 << random.below(8);
            }
        }
        4 => bytes[place] = random.below(256) as u8,
        5 => bytes.truncate(place),
        6 => bytes.extend((0..random.between(1, 60)).map(|_| random.below(4) as u8)),
        _ => {
            bytes.remove(place);
        }
    }
}

/// A book that is accepted, and can be refused for anything.
pub fn refusable() -> RawBook {
    let mut book = RawBook { version: 2, specialist: 1, ..sample() };
    book.assets[0].entry = 3;
    book
}

/// Where the sample's assets and its mitigants start.
const ASSETS: usize = 40 + 4 * 4;
const MITIGANTS: usize = ASSETS + 48 * 4;

/// No fault of the refusable book, then those of refusals 1 to 12, each under both versions of a
/// schedule.
pub fn refused_1_to_12() -> impl Iterator<Item = impl Fn(&mut Input)> {
    type Fault = fn(&mut Input);
    let faults: [Fault; 13] = [
        |_| (),
        |input| input.schedule.truncate(121),
        |input| input.schedule[2] = b'B',
        |input| input.schedule[4] = 3,
        |input| input.schedule[6] = 101,
        |input| input.book.truncate(39),
        |input| input.book[15] = 1,
        |input| input.book[4] = 3,
        |input| input.book.push(0),
        |input| input.book[23] = 1,
        |input| input.book[40 + 3] = 8,
        |input| input.book[ASSETS] = 12,
        |input| input.book[MITIGANTS] = 6,
    ];
    let under = |fault: Fault, version| {
        move |input: &mut Input| {
            input.schedule[4] = version;
            fault(input);
        }
    };
    faults.into_iter().flat_map(move |fault| [1, 2].map(|version| under(fault, version)))
}

/// The refusable book's bytes with any of the faults of refusals 12, 13, 17, 14 and 15.
pub fn refuse_12_to_17(book: &mut [u8], faults: [bool; 5]) {
    let [mitigant, counts, entry, values, stressed] = faults;
    book[MITIGANTS] += 4 * u8::from(mitigant);
    book[ASSETS + 6] += u8::from(counts);
    book[12] = u8::from(!entry);
    if values {
        book[16..24].copy_from_slice(&999u64.to_le_bytes());
    }
    if stressed {
        book[32..40].copy_from_slice(&MOST.to_le_bytes());
    }
}

/// Each set of seven faults.
pub fn every_set() -> impl Iterator<Item = [bool; 7]> {
    (0..128).map(|set| std::array::from_fn(|bit| set >> bit & 1 == 1))
}
