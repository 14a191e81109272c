//! What movements are compared on (C-19): schedules, buffers that start with a book, and the movements
//! of a day on it, each with a buffer for its report. Most of the seeded days have one movement.

use super::askings::near_limits;
use super::billings::{bank, cash, concentrated, limits, turned_back};
use super::edges::sample;
use super::extremes::{largest_report_book, largest_specialist_book, sixteen_tiers};
use super::faults::{every_set, refusable, refuse_12_to_17, refused_1_to_12};
use super::{books, halves, made, of_any_family, random_room, specialist, ties, versions};
use super::{Input, Listed, Room};
use crate::random::Random;
use crate::raw::*;
use crate::weightrose::ASSET;

/// Seeded inputs of the other entries have other numbers.
const APART: u64 = 1 << 43;

/// An input of movements: the report's, its book being all of the buffer that is lent, and what moves
/// in it, one after the other.
#[derive(Clone, Debug)]
pub struct Moving {
    pub input: Input,
    pub steps: Vec<Step>,
}

/// A movement, and how long the buffer for the report is.
#[derive(Clone, Debug)]
pub struct Step {
    pub movement: Movement,
    pub room: Room,
}

pub type Movings = Listed<Moving>;

impl Movings {
    pub fn new(seed: u64) -> Movings {
        let parts = [
            places(),
            each_place(),
            record_lengths(),
            record_counts(),
            record_bytes(),
            buffers(),
            other_counts(),
            refusals_1_to_12(),
            refusals_12_to_22(),
            refusals_of_the_result(),
            values(),
            stresses(),
            full(),
            treaties(),
            filled_and_emptied(),
            specialist_days(),
            largest(),
        ];
        Listed::of(seed, APART, parts, seeded)
    }
}

fn add(asset: RawAsset, version: u16) -> Movement {
    Movement::Add(asset.record(version))
}

/// One movement of a book with this much room behind it, and a buffer of the report's length.
fn one(name: &'static str, book: &RawBook, room: usize, movement: Movement) -> Moving {
    day(name, &RawSchedule::published(), book, room, vec![movement])
}

fn day(
    name: &'static str,
    schedule: &RawSchedule,
    book: &RawBook,
    room: usize,
    movements: Vec<Movement>,
) -> Moving {
    of_input(Input::new(name, schedule, book), room, movements)
}

fn of_input(mut input: Input, room: usize, movements: Vec<Movement>) -> Moving {
    let random = &mut Random::new(room as u64, input.book.len() as u64);
    input.book.extend((0..room).map(|_| random.number() as u8));
    let step = |movement| Step { movement, room: Room::Beside(0) };
    Moving { input, steps: movements.into_iter().map(step).collect() }
}

fn in_room(moving: &Moving, room: Room) -> Moving {
    let mut moving = moving.clone();
    moving.steps.iter_mut().for_each(|step| step.room = room);
    moving
}

fn held(kind: u8, counterparty: u16, value: u64) -> RawAsset {
    RawAsset { kind, counterparty, value, ..Default::default() }
}

/// Reinsurance of this value and this combination stress.
fn treaty(counterparty: u16, value: u64, combination_stress: u64) -> RawAsset {
    RawAsset { combination_stress, ..held(9, counterparty, value) }
}

/// A bank, a name below it, and so many assets of the name in turn, with none to two mitigants each.
fn of_assets(version: u16, assets: usize) -> RawBook {
    let mut book = RawBook { version, ..RawBook::empty(1_000_000, 1_000, 0) };
    let bank = book.counterparty(bank());
    let name = book.counterparty(RawCounterparty { parent: bank, ..Default::default() });
    for number in 0..assets {
        let kind = [11, 7, 6, 4, 10][number % 5];
        let asset = RawAsset { desk: number as u8, ..held(kind, name, 1_000 + number as u64) };
        let mitigants = [cash(bank, 3 + number as u64), cash(bank, 500)];
        book.asset(asset, &mitigants[..number % 3]);
    }
    book
}

/// Places beside the first and the last, and such that would be there if fewer bits of them were
/// read.
fn places() -> Vec<Moving> {
    let mut inputs = Vec::new();
    for assets in [0usize, 1, 2, 3, 5, 255, 256, 257, 600, 899, 900] {
        let last = assets as u64;
        let beside = [0, 1, last.saturating_sub(1), last, last + 1, last + 2];
        let bits = [8, 16, 31, 32, 33, 40, 48, 56, 63];
        let longer = bits.into_iter().flat_map(|bit| [1 << bit, (1 << bit) + 1, (1 << bit) + last]);
        let most = [u64::MAX, u64::MAX - 1, u64::MAX - last];
        for version in [1, 2] {
            let book = of_assets(version, assets);
            // A few of them in large books.
            let step = if assets < 100 { 1 } else { 3 };
            for place in beside.into_iter().chain(longer.clone().chain(most).step_by(step)) {
                let room = place as usize % 60;
                inputs.push(one("places", &book, room, Movement::Remove(place)));
            }
        }
    }
    inputs
}

/// Each place of small books of either version, with and without bytes behind them.
fn each_place() -> Vec<Moving> {
    let mut inputs = Vec::new();
    for version in [1, 2] {
        let groups = RawBook { version, ..sixteen_tiers(2, 100, 20_000) };
        let sample = RawBook { version, ..sample() };
        for book in [sample, groups, of_assets(version, 15)] {
            for place in 1..=book.assets.len() as u64 {
                for room in [0, 1, 77] {
                    inputs.push(one("each place", &book, room, Movement::Remove(place)));
                }
            }
        }
    }
    inputs
}

/// Records of every length about that of one and of two, in books with none, some and as many assets
/// as there may be.
fn record_lengths() -> Vec<Moving> {
    let lengths = [0, 1, 2, 12, 24, 40, 46, 47, 48, 49, 50, 60, 95, 96, 97, 144, 304, 43_200];
    let mut inputs = Vec::new();
    for assets in [0, 4, 899, 900] {
        for version in [1, 2] {
            let book = of_assets(version, assets);
            for length in lengths {
                let good = held(7, 2, 77).record(version);
                let record: Vec<u8> = good.into_iter().cycle().take(length).collect();
                let whole = one("record lengths", &book, 60, Movement::Add(record));
                inputs.extend([Room::Beside(0), Room::Bytes(71)].map(|room| in_room(&whole, room)));
            }
        }
    }
    inputs
}

/// Bytes 6 and 7 of a record in both versions: a count, or a count and a desk.
fn record_counts() -> Vec<Moving> {
    let mut inputs = Vec::new();
    for (six, seven) in [0, 1, 2, 255].into_iter().flat_map(|six| [0, 1, 2, 255].map(|b| (six, b)))
    {
        for version in [1, 2] {
            for assets in [0, 3, 5] {
                let mut record = held(11, 1, 500).record(version);
                record[6..8].copy_from_slice(&[six, seven]);
                let book = of_assets(version, assets);
                inputs.push(one("record counts", &book, 48, Movement::Add(record)));
            }
        }
    }
    inputs
}

/// Each byte of a good record of a loan and of a treaty at values beside what is accepted.
fn record_bytes() -> Vec<Moving> {
    let mut inputs = Vec::new();
    let reinsurance = RawAsset {
        flags: 2,
        entry: 1,
        months: 5,
        offsets: 100,
        deductions: 10,
        insurance_stress: 700,
        ..treaty(3, 1_000, 900)
    };
    for asset in [held(7, 2, 5_000), reinsurance] {
        for specialist in [0, 1] {
            let book = RawBook { specialist, ..sample() };
            for place in 0..ASSET {
                for byte in [0, 1, 2, 3, 4, 5, 9, 11, 12, 128, 255] {
                    let mut record = asset.record(1);
                    record[place] = byte;
                    inputs.push(one("record bytes", &book, 48, Movement::Add(record)));
                }
            }
        }
    }
    inputs
}

/// Buffers of a book and of its report at, above and below what each needs, for movements that are
/// accepted, for such that 22 turns back, and for such that the resulting book does.
fn buffers() -> Vec<Moving> {
    let mut inputs = Vec::new();
    let reports = [-1, 0, 1, -40, 40, 1_000].map(Room::Beside);
    let reports = || reports.into_iter().chain([0, 71, 72].map(Room::Bytes));
    for version in [1, 2] {
        let asset = held(11, 2, 700);
        let movements = [
            add(asset, version),
            add(RawAsset { kind: 12, ..asset }, version),
            add(RawAsset { mitigants: 1, ..asset }, version),
            add(RawAsset { kind: 9, entry: 3, ..asset }, version),
            Movement::Add(asset.record(version)[..47].to_vec()),
            Movement::Remove(1),
            Movement::Remove(4),
            Movement::Remove(5),
        ];
        for movement in movements {
            let book = RawBook { version, ..sample() };
            for room in [0, 1, 46, 47, 48, 49, 96, 1_000] {
                let whole = one("buffers", &book, room, movement.clone());
                inputs.extend(reports().map(|room| in_room(&whole, room)));
            }
            for less in [1, 2, 12, 13, 48, 60, 100, 236, 267, 268, 269, 296, 308] {
                let mut short = one("buffers", &book, 0, movement.clone());
                short.input.book.truncate(short.input.book.len() - less);
                inputs.extend([Room::Beside(0), Room::Bytes(0)].map(|room| in_room(&short, room)));
            }
        }
    }
    inputs
}

/// Buffers whose counts say one record more or less of each sort, or more than there may be; with
/// bytes enough and without.
fn other_counts() -> Vec<Moving> {
    let mut inputs = Vec::new();
    for sort in 0..3 {
        for count in [0, 1, 2, 3, 5, 6, 255, 500, 501, 900, 901, 1_500, 1_501, 65_535] {
            for (mark, version) in [(b'A', 1), (b'A', 3), (b'B', 1)] {
                let mut book = RawBook { version, ..sample() };
                book.mark[0] = mark;
                let mut counts = [4, 4, 5];
                counts[sort] = count;
                book.counts = Some(counts);
                for room in [0, 48, 90_000] {
                    for movement in [Movement::Remove(2), add(held(7, 2, 9), 1)] {
                        inputs.push(one("counts", &book, room, movement));
                    }
                }
            }
        }
    }
    inputs
}

/// A good record and a good place, and what 22 turns back.
fn good_and_bad(version: u16) -> [Movement; 6] {
    let record = held(7, 2, 9).record(version);
    [
        Movement::Add(record.clone()),
        Movement::Remove(2),
        Movement::Add(record[..47].to_vec()),
        Movement::Add([&record[..], &[0]].concat()),
        Movement::Remove(0),
        Movement::Remove(5),
    ]
}

/// Each refusal of 1 to 12 of the book as it stands, under both versions of a schedule, beside good
/// and bad movements and buffers.
fn refusals_1_to_12() -> Vec<Moving> {
    let mut inputs = Vec::new();
    for refuse in refused_1_to_12() {
        for movement in good_and_bad(2) {
            for room in [Room::Beside(0), Room::Bytes(71), Room::Bytes(0)] {
                for behind in [0, 47, 48] {
                    let mut input = Input::new("refusals", &limits(100, 0), &refusable());
                    refuse(&mut input);
                    inputs.push(in_room(&of_input(input, behind, vec![movement.clone()]), room));
                }
            }
        }
    }
    inputs
}

/// Each set of refusals 12 to 15 and 17 of the book as it stands, 22 and 16 at once, checked in the
/// order 12, 13, 17, 14, 15, 22, 16.
fn refusals_12_to_22() -> Vec<Moving> {
    let mut inputs = Vec::new();
    for [of_book @ .., bad, short] in every_set() {
        let all = good_and_bad(2);
        let movements = if bad { all[2..].to_vec() } else { all[..2].to_vec() };
        for movement in movements {
            let mut input = Input::new("refusals", &limits(100, 0), &refusable());
            refuse_12_to_17(&mut input.book, of_book);
            let room = if short { Room::Bytes(71) } else { Room::Beside(0) };
            let behind = if short { 47 } else { 48 };
            inputs.push(in_room(&of_input(input, behind, vec![movement]), room));
        }
    }
    inputs
}

/// Each set of what a record can bring: 11, 13, 17, 14 and 15, and a short buffer of either sort; in
/// a book with room for it and in one of 900 assets, which is 8 before all of these.
fn refusals_of_the_result() -> Vec<Moving> {
    let mut inputs = Vec::new();
    for [kind, count, entry, value, stress, book_short, report_short] in every_set() {
        for assets in [4, 900] {
            if assets == 900 && (count || value) {
                continue;
            }
            let version = if entry { 1 } else { 2 };
            let book = of_assets(version, assets);
            let mut asset = treaty(2, 10, 10);
            asset.flags = 128 * u8::from(kind);
            asset.mitigants = u16::from(count);
            asset.entry = 3 * u8::from(entry);
            if value {
                asset.value = book.total + 1;
            }
            if stress {
                asset.combination_stress = MOST;
            }
            let behind = if book_short { 47 } else { 48 };
            let room = if report_short { Room::Beside(-1) } else { Room::Beside(0) };
            let moving = one("refusals of the result", &book, behind, add(asset, version));
            inputs.push(in_room(&moving, room));
        }
    }
    inputs
}

/// Treaties of these values and combination stresses, of one reinsurer.
fn of_treaties(total: u64, excluded: u64, treaties: &[(u64, u64)]) -> RawBook {
    let mut book = RawBook::empty(total, 0, excluded);
    let reinsurer = book.counterparty(RawCounterparty { grade: 1, ..Default::default() });
    for &(value, stress) in treaties {
        book.asset(treaty(reinsurer, value, stress), &[]);
    }
    book
}

/// Reinsurance values at the total, one cent below and one above, by a treaty that comes (14).
fn values() -> Vec<Moving> {
    let mut inputs = Vec::new();
    for total in [0, 1, 1_000, MOST] {
        for first in [0, total / 2, total] {
            for more in [-1, 0, 1] {
                let left = (total - first) as i64 + more;
                if left < 0 {
                    continue;
                }
                let book = of_treaties(total, 0, &[(first, first)]);
                let record = treaty(1, left as u64, left as u64);
                inputs.push(one("values", &book, 48, add(record, 1)));
            }
        }
    }
    inputs
}

/// VAF′ at 0 and at M, and one cent beside, by a treaty that comes and by one that goes (15): less
/// than is excluded is left without the stress of one, and more than M without the value of another.
fn stresses() -> Vec<Moving> {
    let mut inputs = Vec::new();
    for excluded in 0..=12 {
        for treaties in [[(0, 5), (0, 7)], [(3, 5), (2, 0)], [(4, 0), (0, 9)]] {
            let book = of_treaties(6, excluded, &treaties);
            for place in [1, 2, 3] {
                inputs.push(one("stresses", &book, 0, Movement::Remove(place)));
            }
            for (value, stress) in [(0, 0), (1, 0), (2, 0), (2, 1), (0, 1), (6, 6)] {
                inputs.push(one("stresses", &book, 48, add(treaty(1, value, stress), 1)));
            }
        }
    }
    for more in [-1, 0, 1] {
        let stress = (MOST as i64 / 2 + more) as u64;
        let book = of_treaties(MOST, MOST / 2, &[(10, 0), (0, 10), (0, 0)]);
        inputs.push(one("stresses", &book, 48, add(treaty(1, 0, stress), 1)));
        let book = of_treaties(MOST, 10, &[(10, 0), (0, (20 + more) as u64), (0, 0)]);
        inputs.extend([1, 2, 3].map(|place| one("stresses", &book, 0, Movement::Remove(place))));
    }
    inputs
}

/// From 898 assets to 900 and one more, which is 8, and back.
fn full() -> Vec<Moving> {
    let mut inputs = Vec::new();
    for version in [1, 2] {
        let comes = || add(held(11, 1, 5), version);
        let bad = || add(held(12, 1, 5), version);
        let goes = Movement::Remove;
        let movements = vec![
            comes(),
            bad(),
            goes(900),
            comes(),
            comes(),
            bad(),
            Movement::Add(vec![0; 47]),
            goes(901),
            goes(900),
            goes(900),
            goes(1),
            comes(),
            goes(450),
            comes(),
            comes(),
            comes(),
        ];
        for room in [96, 95, 48, 200] {
            let book = of_assets(version, 898);
            inputs.push(day("full", &limits(5_000, 0), &book, room, movements.clone()));
        }
    }
    inputs
}

/// C-18: some of the report's inputs, a treaty of one of them added once more, and each of them taken
/// away.
fn treaties() -> Vec<Moving> {
    let mut inputs = Vec::new();
    for (number, input) in halves::all().into_iter().step_by(5).enumerate() {
        let assets = count(&input.book, 8);
        if assets == 0 || assets > 100 {
            continue;
        }
        let place = number % assets;
        let again = Movement::Add(without_count(&input.book, place));
        let goes = Movement::Remove(place as u64 + 1);
        let first = Movement::Remove(1);
        inputs.push(of_input(input.clone(), 48, vec![again.clone(), goes.clone(), first.clone()]));
        inputs.push(of_input(input.clone(), 0, vec![goes]));
        inputs.push(of_input(input, 60, vec![again, first]));
    }
    inputs
}

/// A count of a book's bytes; 0 where there is no header.
fn count(book: &[u8], place: usize) -> usize {
    match book.get(place..place + 2) {
        Some(bytes) if book.len() >= 40 => usize::from(u16::from_le_bytes([bytes[0], bytes[1]])),
        _ => 0,
    }
}

/// The record of the asset of that number, from 0, without mitigants; zeros where it is not there.
fn without_count(book: &[u8], number: usize) -> Vec<u8> {
    let start = 40 + 4 * count(book, 6) + ASSET * number;
    let mut record = book.get(start..start + ASSET).map_or(vec![0; ASSET], <[u8]>::to_vec);
    record[6] = 0;
    if book.get(4) != Some(&2) {
        record[7] = 0;
    }
    record
}

/// An empty book to which assets of each kind come, and of which they go from the first, from the
/// last and from the middle, some taken away that are no longer there.
fn filled_and_emptied() -> Vec<Moving> {
    let mut inputs = Vec::new();
    for version in [1, 2] {
        for order in 0..3 {
            let mut book = of_assets(version, 0);
            book.counterparty(RawCounterparty { kind: 4, grade: 1, ..Default::default() });
            let mut movements = vec![Movement::Remove(1), Movement::Remove(0)];
            for kind in 0..=12 {
                let asset = RawAsset { desk: kind, ..held(kind, 1 + u16::from(kind % 3), 900) };
                movements.push(add(asset, version));
            }
            for left in (0..=12).rev() {
                movements.push(Movement::Remove([1, left, left / 2 + 1][order]));
            }
            movements.push(add(held(11, 2, 900), version));
            for room in [48 * 11, 48 * 11 - 1, 48 * 5, 1_000] {
                inputs.push(day("filled", &limits(700, 0), &book, room, movements.clone()));
            }
        }
    }
    inputs
}

/// Retrocessions that come to a specialist fund and to one that is none (17).
fn specialist_days() -> Vec<Moving> {
    let mut inputs = Vec::new();
    for specialist in [0, 1] {
        for months in [0, 3, 12, 24] {
            let mut book = RawBook { specialist, ..of_treaties(10_000, 0, &[(9, 9), (7, 3)]) };
            book.counterparty(RawCounterparty::default());
            let comes = |counterparty| {
                let asset = RawAsset { entry: 3, months, ..treaty(counterparty, 90, 80) };
                add(asset, 1)
            };
            let movements = vec![
                comes(1),
                comes(2),
                Movement::Remove(1),
                comes(3),
                add(treaty(2, 50, 60), 1),
                Movement::Remove(3),
                Movement::Remove(2),
            ];
            inputs.push(day("specialist", &limits(70, 0), &book, 200, movements));
        }
    }
    inputs
}

/// The largest books: the first, a middle and the last asset go, and one comes.
fn largest() -> Vec<Moving> {
    let mut inputs = Vec::new();
    for (number, book) in [largest_report_book(), largest_specialist_book()].iter().enumerate() {
        let version = 1 + number as u16;
        let book = RawBook { version, ..book.clone() };
        let comes = || add(held(11, 77, 12_345), version);
        let movements = vec![
            comes(),
            Movement::Remove(900),
            comes(),
            Movement::Remove(1),
            Movement::Remove(450),
            comes(),
        ];
        inputs.push(day("largest", &RawSchedule::published(), &book, 0, movements));
    }
    inputs
}

/// A fund as the other entries get it, or one at the edge of 14 and 15; with any buffers, and one
/// movement or a day of them.
fn seeded(random: &mut Random, reports: &[Input]) -> Moving {
    let mut input = match random.below(100) {
        0..=7 => reports[random.index(reports.len())].clone(),
        8..=27 => {
            let (schedule, mut book) = of_any_family(random);
            if random.chance(40) {
                versions::at_desks(random, &mut book);
            }
            made(random, schedule, book)
        }
        28..=30 => turned_back(random),
        number => {
            let (name, (schedule, mut book)) = match number {
                31..=44 => ("tight", tight(random)),
                45..=52 => ("concentrated", concentrated(random)),
                53..=62 => ("near ties", ties::random(random)),
                63..=80 => ("halves", halves::random(random)),
                81..=85 => ("specialist", specialist::random(random)),
                86..=91 => ("near limits", near_limits(random)),
                _ => ("any", of_any_family(random)),
            };
            if random.chance(40) {
                versions::at_desks(random, &mut book);
            }
            Input::new(name, &schedule, &book)
        }
    };
    let movements = match random.below(200) {
        0..=159 => 1,
        160..=197 => random.between(2, 9),
        _ => random.between(10, 60),
    };
    let standing = input.book.clone();
    lend(random, &mut input.book, movements);
    let mut assets = count(&standing, 8) as u64;
    let mut steps = Vec::new();
    for _ in 0..movements {
        let movement = if random.chance(50) {
            assets += 1;
            Movement::Add(random_record(random, &standing))
        } else {
            let place = random_place(random, assets);
            assets = assets.saturating_sub(1);
            Movement::Remove(place)
        };
        let long = movements > 1 && random.chance(50);
        let room = if long { Room::Beside(0) } else { random_room(random) };
        steps.push(Step { movement, room });
    }
    Moving { input, steps }
}

/// A small fund whose reinsurance values are near its total, or whose VAF′ is near 0 or M.
fn tight(random: &mut Random) -> (RawSchedule, RawBook) {
    let (schedule, mut book) =
        if random.chance(50) { specialist::random(random) } else { halves::random(random) };
    let reinsurance = || book.assets.iter().filter(|asset| asset.kind == 9);
    let held: u64 = reinsurance().map(|asset| asset.value).sum();
    let stressed: u64 = reinsurance().map(stressed_less_netted).sum();
    let little = random.below(4);
    match random.below(4) {
        0 => {
            (book.total, book.excluded) = (held + little, 0);
        }
        1 | 2 => {
            book.total = held + random.pick(&[0, little, stressed]);
            book.excluded = (book.total - held + stressed).saturating_sub(little);
        }
        _ => {
            book.total = MOST.saturating_sub(little);
            book.excluded = (stressed + 1).saturating_sub(held).saturating_sub(little);
        }
    }
    book.total = book.total.min(MOST);
    book.excluded = book.excluded.min(MOST);
    (schedule, book)
}

fn stressed_less_netted(asset: &RawAsset) -> u64 {
    let rises = asset.flags & 2 != 0;
    let stressed = asset.combination_stress.max(if rises { asset.insurance_stress } else { 0 });
    stressed.saturating_sub(asset.offsets)
}

/// Makes a book's bytes a buffer with room for so many movements and a rest, for fewer, for none, or
/// for less than the book.
fn lend(random: &mut Random, book: &mut Vec<u8>, movements: u64) {
    let (length, rooms) = (book.len(), ASSET * movements as usize);
    match random.below(100) {
        0..=34 => lengthen(random, book, rooms),
        35..=56 => {
            let rest = random.index(300);
            lengthen(random, book, rooms + rest);
        }
        57..=71 => {}
        72..=79 => lengthen(random, book, rooms - 1),
        80..=87 => {
            let rest = random.index(rooms + 1);
            lengthen(random, book, rest);
        }
        88..=91 => book.truncate(length.saturating_sub(1)),
        92..=93 => book.truncate(random.index(length + 1)),
        _ => {
            let rest = random.index(2_000);
            lengthen(random, book, rest);
        }
    }
}

fn lengthen(random: &mut Random, book: &mut Vec<u8>, more: usize) {
    book.extend((0..more).map(|_| random.number() as u8));
}

fn random_place(random: &mut Random, assets: u64) -> u64 {
    match random.below(100) {
        0..=79 if assets > 0 => random.between(1, assets),
        80..=83 => assets,
        84..=87 => assets + 1,
        88..=90 => 0,
        91..=93 => 1,
        94..=97 => {
            let bit = random.pick(&[8, 16, 16, 32, 32, 40, 48, 63]);
            (1 << bit) + random.below(assets + 2)
        }
        98 => u64::MAX - random.below(assets + 2),
        _ => random.number(),
    }
}

/// A record of one of the book's assets or of any other; every fifth with something that 11, 13 or 17
/// may refuse, and some of another length.
fn random_record(random: &mut Random, book: &[u8]) -> Vec<u8> {
    let assets = count(book, 8);
    let mut record = if assets > 0 && random.chance(65) {
        without_count(book, random.index(assets))
    } else {
        any_asset(random, book).record(2)
    };
    if book.get(4) == Some(&2) {
        record[7] = if random.chance(70) { versions::any_desk(random) } else { 0 };
    }
    if random.chance(20) {
        spoil(random, &mut record, count(book, 6) as u16);
    }
    match random.below(100) {
        0..=1 => record.truncate(ASSET - 1),
        2..=3 => record.push(random.number() as u8),
        4 => record.truncate(random.index(ASSET)),
        5 => record.extend(record.clone()),
        _ => {}
    }
    record
}

/// An asset of any kind with one of the book's counterparties, of about the size of its amounts.
fn any_asset(random: &mut Random, book: &[u8]) -> RawAsset {
    let amount = |place: usize| match book.get(place..place + 8) {
        Some(bytes) => u64::from_le_bytes(bytes.try_into().unwrap()),
        None => 0,
    };
    let about = amount(16).min(MOST) / (1 + count(book, 8) as u64) + 1;
    let scale = random.pick(&[about, about, 10, 1_000]);
    let mut asset = held(
        random.pick(&[1, 2, 3, 4, 5, 6, 7, 8, 9, 9, 9, 10, 11]),
        random.between(1, count(book, 6).max(1) as u64) as u16,
        books::amount(random, scale),
    );
    asset.flags = random.chance(8) as u8;
    if random.chance(20) {
        asset.deductions = books::amount(random, scale / 4);
    }
    if asset.kind == 9 {
        asset = books::reinsurance(random, asset, scale);
        if random.chance(25) {
            asset.entry = 3;
        }
    }
    asset
}

/// One field set to what a resulting book is refused by, or to what stands beside it.
fn spoil(random: &mut Random, record: &mut [u8], counterparties: u16) {
    let places = [0, counterparties, counterparties.wrapping_add(1)];
    let amounts = [MOST, MOST + 1, MOST / 2, u64::MAX];
    match random.below(8) {
        0 => record[0] = random.pick(&[0, 9, 11, 12, 255]),
        1 => record[1] |= 1 << random.below(8),
        2 => record[2] = random.below(5) as u8,
        3 => record[3] = random.pick(&[1, 3, 255]),
        4 => record[4..6].copy_from_slice(&random.pick(&places).to_le_bytes()),
        5 => record[6] = random.pick(&[1, 1, 2, 255]),
        6 => record[7] ^= random.pick(&[1, 2, 255]),
        _ => {
            let at = 8 * random.between(1, 5) as usize;
            record[at..at + 8].copy_from_slice(&random.pick(&amounts).to_le_bytes());
        }
    }
}
