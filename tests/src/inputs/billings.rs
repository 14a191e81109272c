//! What the bills are compared on: schedules, books at desks, cost rates and the length of the
//! buffer. Most of the seeded books have excesses at several desks.

use super::edges::sample;
use super::extremes::{self, sixteen_tiers};
use super::faults::{every_set, refusable, refuse_12_to_17, refused_1_to_12};
use super::{books, combinations, halves, made, of_any_family, rates, ties, versions};
use super::{Input, Listed, Parents, Room, Shape};
use crate::random::Random;
use crate::raw::*;
use crate::weightrose::BILLS;

/// Seeded inputs of the report and of the converter have other numbers.
const APART: u64 = 1 << 41;

/// An input of the bills: the report's, with a cost rate.
#[derive(Clone, Debug)]
pub struct Billing {
    pub input: Input,
    pub rate: u64,
}

pub type Billings = Listed<Billing>;

impl Billings {
    pub fn new(seed: u64) -> Billings {
        let parts = [
            cost_rates(),
            rooms(),
            cuts(),
            parts(),
            every_desk(),
            tiers(),
            a3(),
            rounding(),
            many_mitigants(),
            without_limit(),
            refusals_1_to_12(),
            refusals_12_to_19(),
            every_combination(),
            schedule_versions(),
            single_rates(),
            a3_rates(),
            reports_under_rates(),
            near_ties(),
            treaties(),
            sizes(),
            largest(),
        ];
        Listed::of(seed, APART, parts, seeded)
    }
}

/// Rates that pass, those beside the most, and larger ones.
const RATES: [u64; 16] =
    [0, 1, 2, 10, 99, 100, 499, 500, 998, 999, 1_000, 1_001, 1_002, 9_999, 10_000, u64::MAX];

/// Rates that would pass if fewer bits of them were read.
fn long_rates() -> impl Iterator<Item = u64> {
    (10..64).flat_map(|bit| [1 << bit, (1 << bit) + 1_000])
}

fn billing(name: &'static str, schedule: &RawSchedule, book: &RawBook, rate: u64) -> Billing {
    let input = Input { room: Room::Bytes(BILLS), ..Input::new(name, schedule, book) };
    Billing { input, rate }
}

fn in_room(billing: &Billing, room: usize) -> Billing {
    let input = Input { room: Room::Bytes(room), ..billing.input.clone() };
    Billing { input, ..*billing }
}

/// One limit for all tiers but those of retrocessions, and one for A3.
pub fn limits(limit: u64, a3: u64) -> RawSchedule {
    let mut rows = [RawRow { rates: [0; 3], fixed: limit }; 8];
    rows[7].fixed = a3;
    RawSchedule { percents: [100, 100], rows, ..RawSchedule::published() }
}

/// A book of version 2, still without records.
fn empty() -> RawBook {
    RawBook { version: 2, ..RawBook::empty(MOST / 2, 0, 0) }
}

pub fn bank() -> RawCounterparty {
    RawCounterparty { kind: 1, grade: 1, ..Default::default() }
}

fn held(desk: u8, kind: u8, counterparty: u16, value: u64) -> RawAsset {
    RawAsset { kind, counterparty, value, desk, ..Default::default() }
}

pub fn cash(counterparty: u16, value: u64) -> RawMitigant {
    RawMitigant { form: 1, flags: 31, counterparty, value }
}

/// One ungraded name with assets of these values in tier i, at these desks.
fn of_one_name(desks: &[u8], values: &[u64]) -> RawBook {
    let mut book = empty();
    let name = book.counterparty(RawCounterparty::default());
    for (&desk, &value) in desks.iter().zip(values) {
        book.asset(held(desk, 11, name, value), &[]);
    }
    book
}

/// Three reinsurers, each a group of its own in tier h, with these nets at desks 10, 0 and 20.
pub fn of_reinsurers(nets: [u64; 3]) -> RawBook {
    let mut book = empty();
    for (desk, combination_stress) in [10, 0, 20].into_iter().zip(nets) {
        let name = book.counterparty(RawCounterparty { grade: 1, ..Default::default() });
        book.asset(RawAsset { combination_stress, ..held(desk, 9, name, 0) }, &[]);
    }
    book
}

fn cost_rates() -> Vec<Billing> {
    let excesses = of_one_name(&[3, 0, 255], &[12_345, 6_789, 1_234_567]);
    let none = of_one_name(&[3, 0, 255], &[1, 2, 3]);
    let books = [excesses, none, of_reinsurers([5_000, 7_000, 9_000]), sample()];
    let at =
        |rate| books.clone().map(|book| billing("cost rates", &limits(7_000, 100), &book, rate));
    RATES.into_iter().chain(long_rates()).flat_map(at).collect()
}

/// A buffer for each number of desks, every length about that of the bills, and longer ones.
fn rooms() -> Vec<Billing> {
    let book = of_one_name(&[3, 0, 255], &[12_345, 6_789, 1_234_567]);
    let lengths = (0..BILLS).step_by(8).chain(BILLS - 20..=BILLS + 20).chain([4_096, 100_000]);
    let mut inputs = Vec::new();
    for room in lengths {
        for rate in [777, 1_001] {
            inputs.push(in_room(&billing("rooms", &limits(7_000, 0), &book, rate), room));
        }
    }
    inputs
}

/// Three lines of one group's tier on both sides of where the limit cuts them, two of them at one
/// desk, with and without a parent; at version 1 as well.
fn cuts() -> Vec<Billing> {
    let values = [0, 10, 120, 240, 250, 260, 400];
    let mut inputs = Vec::new();
    for number in 0..7 * 7 * 7 {
        let values = [number % 7, number / 7 % 7, number / 49].map(|place| values[place]);
        let mut book = of_one_name(&[9, 4, 9], &values);
        book.counterparty(RawCounterparty { parent: 1, ..Default::default() });
        book.assets[1].counterparty += (number % 2) as u16;
        inputs.push(billing("cuts", &limits(250, 0), &book, 1_000));
        if number % 5 == 0 {
            book.version = 1;
            inputs.push(billing("cuts", &limits(250, 0), &book, 1_000));
        }
    }
    inputs
}

/// Two deposits with a bank and an asset that cash with the bank covers in part, in each order: the
/// part is in the deposits' tier.
fn parts() -> Vec<Billing> {
    let orders = [[0, 1, 2], [0, 2, 1], [1, 0, 2], [1, 2, 0], [2, 0, 1], [2, 1, 0]];
    let mut inputs = Vec::new();
    for order in orders {
        for [first, covered, second] in [
            [100, 100, 100],
            [200, 100, 200],
            [260, 100, 10],
            [10, 260, 10],
            [10, 100, 260],
            [150, 300, 150],
            [0, 300, 300],
        ] {
            for more in [0, 40, 400] {
                let mut book = empty();
                let bank = book.counterparty(bank());
                let name = book.counterparty(RawCounterparty::default());
                for place in order {
                    match place {
                        0 => book.asset(held(1, 4, bank, first), &[]),
                        1 => {
                            let halves = [cash(bank, covered / 2), cash(bank, covered / 2)];
                            book.asset(held(2, 11, name, covered + more), &halves);
                        }
                        _ => book.asset(held(3, 4, bank, second), &[]),
                    }
                }
                inputs.push(billing("parts", &limits(250, 0), &book, 1_000));
            }
        }
    }
    inputs
}

/// All desks in one book, in rising order, falling and with every asset covered in part, under
/// limits that leave nothing, some and all.
fn every_desk() -> Vec<Billing> {
    let mut inputs = Vec::new();
    for version in [1, 2] {
        for limit in [0, 9_999, 640_000, 1 << 40] {
            for rate in [1, 333, 1_000] {
                for turned in [0, 255] {
                    let mut book = RawBook { version, ..empty() };
                    let bank = book.counterparty(bank());
                    let name = book.counterparty(RawCounterparty::default());
                    for desk in 0..=255 {
                        let value = 5_000 + 7 * u64::from(desk);
                        let part = cash(bank, u64::from(desk) * 11);
                        book.asset(held(desk ^ turned, 11, name, value), &[part]);
                    }
                    inputs.push(billing("every desk", &limits(limit, 0), &book, rate));
                }
            }
        }
    }
    inputs
}

/// All sixteen tiers in each group, at desks of one's own each, of few and of one.
fn tiers() -> Vec<Billing> {
    let mut inputs = Vec::new();
    for (groups, amount, vaf) in
        [(1, 100, 1_000), (1, 10_000, 100_000), (3, 777, 10_000), (75, 1_000, 100_000), (2, 90, 0)]
    {
        for desks in [256, 3, 1] {
            for rate in [7, 1_000] {
                let mut book = sixteen_tiers(groups, amount, vaf);
                book.version = 2;
                for (place, asset) in book.assets.iter_mut().enumerate() {
                    asset.desk = (place * 5 % desks) as u8;
                }
                inputs.push(billing("tiers", &RawSchedule::published(), &book, rate));
                inputs.push(billing("tiers", &limits(amount * 4, amount), &book, rate));
            }
        }
    }
    inputs
}

/// Reinsurers at and beside their limit and A3's, with excesses that round together.
fn a3() -> Vec<Billing> {
    let mut inputs = Vec::new();
    for a3 in [0, 10_000, 14_990, 15_000, 15_001, 15_010, 1 << 40] {
        for nets in
            [[5_000, 5_000, 5_000], [5_000, 5_001, 5_000], [9_999, 1, 6_001], [8_333, 3_333, 5_003]]
        {
            for rate in [1, 3, 333, 1_000] {
                let mut book = of_reinsurers(nets);
                inputs.push(billing("A3", &limits(5_000, a3), &book, rate));
                book.version = 1;
                inputs.push(billing("A3", &limits(5_000, a3), &book, rate));
            }
        }
    }
    inputs
}

/// Nothing stands: the excesses are the values, each on one side of a cent of cost.
fn rounding() -> Vec<Billing> {
    let values = [0, 1, 3_333, 5_000, 9_999, 10_000];
    let mut inputs = Vec::new();
    for number in 0..6 * 6 * 6 {
        let values = [number % 6, number / 6 % 6, number / 36].map(|place| values[place]);
        for rate in [1, 3, 999] {
            let book = of_one_name(&[0, 5, 255], &values);
            inputs.push(billing("rounding", &limits(0, 0), &book, rate));
        }
    }
    inputs
}

/// More mitigants than one byte counts: byte 7 is no desk in version 1.
fn many_mitigants() -> Vec<Billing> {
    let mut inputs = Vec::new();
    for count in [255, 256, 257, 300, 512, 1_000, 1_499] {
        for flags in [0, 1] {
            for version in [1, 2] {
                let mut book = RawBook { version, ..empty() };
                let bank = book.counterparty(bank());
                let name = book.counterparty(RawCounterparty::default());
                book.asset(held(1, 11, name, 300), &[]);
                let asset = RawAsset { flags, ..held(2, 11, name, 90_000) };
                book.asset(asset, &vec![cash(bank, 10); count]);
                book.asset(held(3, 4, bank, 5_000), &[cash(bank, 1_000)]);
                inputs.push(billing("many mitigants", &limits(2_000, 0), &book, 1_000));
            }
        }
    }
    inputs
}

/// Linked assets and exposures without limit between others of the same group, and parts that a
/// government's security covers.
fn without_limit() -> Vec<Billing> {
    let mut inputs = Vec::new();
    for limit in [0, 100, 1_000] {
        for set in 0..16u8 {
            let mut book = empty();
            let home = book.counterparty(RawCounterparty { kind: 2, ..Default::default() });
            let life = RawCounterparty { kind: 4, grade: 1, flags: 1, parent: home };
            let life = book.counterparty(life);
            let linked = |bit: u8| set >> bit & 1;
            for (bit, kind, counterparty) in [(0, 1, home), (1, 2, life), (2, 11, home)] {
                let desk = 20 * bit;
                book.asset(held(desk, 7, home, 300), &[]);
                let asset = held(desk + 1, kind, counterparty, 700);
                book.asset(RawAsset { flags: linked(bit), ..asset }, &[]);
            }
            let security = RawMitigant { form: 2, flags: 31, counterparty: home, value: 400 };
            let asset = RawAsset { flags: linked(3), ..held(90, 11, life, 500) };
            book.asset(asset, &[security]);
            inputs.push(billing("without limit", &limits(limit, 0), &book, 1_000));
        }
    }
    inputs
}

/// A billing that is accepted, and can be refused for anything.
fn whole() -> Billing {
    let mut book = refusable();
    for (desk, asset) in (1..).zip(&mut book.assets) {
        asset.desk = desk;
    }
    billing("refusals", &limits(100, 0), &book, 1_000)
}

/// Each refusal of 1 to 12 beside good and bad rates and buffers, under both versions of a
/// schedule.
fn refusals_1_to_12() -> Vec<Billing> {
    let mut inputs = Vec::new();
    for refuse in refused_1_to_12() {
        for rate in [0, 1_000, 1_001, u64::MAX] {
            for room in [BILLS, BILLS - 1, 0] {
                let mut billing = in_room(&Billing { rate, ..whole() }, room);
                refuse(&mut billing.input);
                inputs.push(billing);
            }
        }
    }
    inputs
}

/// Each set of refusals 12 to 17 and 19 at once, checked in the order 12, 13, 17, 14, 15, 19, 16.
fn refusals_12_to_19() -> Vec<Billing> {
    let with = |faults: [bool; 7]| {
        let [of_book @ .., rate, buffer] = faults;
        let mut billing = whole();
        refuse_12_to_17(&mut billing.input.book, of_book);
        billing.rate += u64::from(rate);
        billing.input.room = Room::Bytes(BILLS - usize::from(buffer));
        billing
    };
    every_set().map(with).collect()
}

/// Each sort of counterparty with each asset and each mitigant, at desks and under one limit that
/// most exposures pass.
fn every_combination() -> Vec<Billing> {
    let random = &mut Random::new(14, 1);
    let mut inputs = Vec::new();
    for mut input in combinations::all() {
        bytes_at_desks(random, &mut input.book);
        input.schedule = limits(60, 1_000).bytes();
        inputs.push(in_room(&Billing { input, rate: 1_000 }, BILLS));
    }
    inputs
}

/// C-15: versions of a schedule that pass and such that do not, with rates that pass in both and
/// with rates that pass in the second alone, beside good and bad cost rates and buffers.
fn schedule_versions() -> Vec<Billing> {
    let mut inputs = Vec::new();
    for schedule in rates::few_versions() {
        let book = sixteen_tiers(1, 1_000, 2_000);
        for (rate, room) in [(437, BILLS), (437, BILLS - 1), (1_001, BILLS), (1_001, 0)] {
            inputs.push(in_room(&billing("schedule versions", &schedule, &book, rate), room));
        }
    }
    inputs
}

/// C-15: one rate of one row, and no other limit, with every tier at desks.
fn single_rates() -> Vec<Billing> {
    let mut inputs = Vec::new();
    for (row, place) in (0..8).flat_map(|row| (0..3).map(move |place| (row, place))) {
        for number in [43, 437, 1_500, 4_370, 15_000] {
            for version in [1, 2] {
                let mut schedule = RawSchedule { version, ..limits(0, 0) };
                schedule.rows[row].rates[place] = number;
                let mut book =
                    RawBook { version: 2, base: 10_000, ..sixteen_tiers(2, 999, 10_000) };
                for (desk, asset) in (0..).zip(&mut book.assets) {
                    asset.desk = desk;
                }
                inputs.push(billing("single rates", &schedule, &book, 1_000));
            }
        }
    }
    inputs
}

/// C-15: reinsurers at and beside an A3 limit of either version, within that of their tier.
fn a3_rates() -> Vec<Billing> {
    let mut inputs = Vec::new();
    for (version, number) in [(1, 43), (1, 44), (2, 437), (2, 438), (2, 4_370), (1, 437)] {
        for place in 0..3 {
            for total in [343_226, 343_227, 343_249, 343_250, 400_000, 5_000_000] {
                let mut schedule = RawSchedule { version, ..limits(5_000, 0) };
                schedule.rows[7].rates[place] = number;
                let mut book = of_reinsurers([5_000, 4_999, 5_001]);
                // VAF′ is the total, and the base too.
                (book.total, book.base, book.excluded) = (total, total as i64, 15_000);
                inputs.push(billing("A3 rates", &schedule, &book, 1_000));
            }
        }
    }
    inputs
}

/// C-15: every fifth of the report's inputs.
fn reports_under_rates() -> Vec<Billing> {
    every_few(15, rates::all(), 5)
}

/// C-17: every third of the report's inputs, with two assets in most tiers.
fn near_ties() -> Vec<Billing> {
    every_few(17, ties::all(), 3)
}

/// C-18: every second of the report's inputs.
fn treaties() -> Vec<Billing> {
    every_few(18, halves::all(), 2)
}

/// Inputs of the report, one of so many, at desks.
fn every_few(seed: u64, inputs: Vec<Input>, step: usize) -> Vec<Billing> {
    let random = &mut Random::new(seed, 0);
    let mut billings = Vec::new();
    for mut input in inputs.into_iter().step_by(step) {
        bytes_at_desks(random, &mut input.book);
        billings.push(in_room(&Billing { input, rate: 1_000 }, BILLS));
    }
    billings
}

/// Books with as many records as tables of several sizes hold, and one more of each sort, in few
/// groups and in many.
fn sizes() -> Vec<Billing> {
    let sizes =
        [[16, 64, 64], [64, 256, 256], [128, 512, 512], [256, 800, 1_024], [499, 899, 1_499]];
    let more = [[0, 0, 0], [1, 0, 0], [0, 1, 0], [0, 0, 1]];
    let mut inputs = Vec::new();
    for (number, (size, more)) in
        sizes.into_iter().flat_map(|size| more.map(|more| (size, more))).enumerate()
    {
        for parents in [Parents::None, Parents::Some, Parents::Chain] {
            let random = &mut Random::new(14, 2 + number as u64);
            let [counterparties, assets, mitigants] =
                std::array::from_fn(|sort| size[sort] + more[sort]);
            let shape = Shape { counterparties, assets, mitigants, parents };
            let mut book = books::lifelike(random, &shape);
            versions::at_desks(random, &mut book);
            inputs.push(billing("sizes", &limits(100_000_000, 1_000_000_000), &book, 437));
        }
    }
    inputs
}

/// The report's largest inputs as they are and at desks: their charges are the largest too.
fn largest() -> Vec<Billing> {
    let random = &mut Random::new(14, 0);
    let mut inputs = Vec::new();
    for input in extremes::all() {
        let billing = Billing { input: Input { name: "largest", ..input }, rate: 1_000 };
        let mut at_desks = billing.clone();
        bytes_at_desks(random, &mut at_desks.input.book);
        inputs.extend([&billing, &at_desks].map(|billing| in_room(billing, BILLS)));
    }
    inputs
}

/// Makes a book's bytes version 2 with desks, where they are of version 1 and as long as their
/// counts say.
fn bytes_at_desks(random: &mut Random, book: &mut [u8]) {
    if book.len() < 40 || book[4..6] != [1, 0] {
        return;
    }
    book[4] = 2;
    let [counterparties, assets] =
        [6, 8].map(|place| usize::from(u16::from_le_bytes([book[place], book[place + 1]])));
    for asset in 0..assets {
        let place = 40 + 4 * counterparties + 48 * asset + 7;
        if let Some(byte) = book.get_mut(place) {
            *byte = versions::any_desk(random);
        }
    }
}

/// A concentrated fund, one with near ties or with treaties that share a half, a book as the report
/// gets it, or a fixed input of the report; with any rate and any buffer.
fn seeded(random: &mut Random, reports: &[Input]) -> Billing {
    let mut rate = random_rate(random);
    let mut input = match random.below(100) {
        0..=11 => {
            let mut input = reports[random.index(reports.len())].clone();
            if random.chance(70) {
                bytes_at_desks(random, &mut input.book);
            }
            input
        }
        12..=31 => {
            let (schedule, mut book) = of_any_family(random);
            if random.chance(70) {
                versions::at_desks(random, &mut book);
            }
            made(random, schedule, book)
        }
        32..=37 => {
            let input = turned_back(random);
            rate = random.pick(&[0, 1_000, 1_001, 1_001, u64::MAX]);
            input
        }
        38..=52 => {
            let (schedule, book) = concentrated(random);
            made(random, schedule, book)
        }
        53..=62 => {
            let (schedule, mut book) = ties::random(random);
            versions::at_desks(random, &mut book);
            Input::new("near ties", &schedule, &book)
        }
        63..=79 => {
            let (schedule, mut book) = halves::random(random);
            versions::at_desks(random, &mut book);
            Input::new("halves", &schedule, &book)
        }
        _ => {
            let (schedule, book) = concentrated(random);
            Input::new("concentrated", &schedule, &book)
        }
    };
    input.room = Room::Bytes(random_room(random));
    Billing { input, rate }
}

/// A fund, mostly with few groups, whose limits are a small part of its exposures; every fifth of
/// version 1, some of these with more mitigants of one asset than a byte counts.
pub fn concentrated(random: &mut Random) -> (RawSchedule, RawBook) {
    let (counterparties, assets, mitigants) = match random.below(100) {
        0..=89 => (random.between(1, 6), random.between(2, 20), random.below(20)),
        90..=98 => (random.between(1, 40), random.between(20, 130), random.below(130)),
        _ => (random.between(1, 200), random.between(130, 900), random.below(1_000)),
    };
    let parents = random.pick(&[Parents::None, Parents::Some, Parents::Chain]);
    let shape = Shape { counterparties, assets, mitigants, parents };
    let scale = random.pick(&[10, 1_000, 100_000, 10_000_000, MOST / (2 * assets + 10)]);
    let mut book = books::random_book(random, &shape, scale);
    match random.below(100) {
        0..=19 => reinsure(random, scale, &mut book),
        20..=39 => repeat(random, &mut book),
        _ => {}
    }
    // Now and then in a fund that is no specialist, which 17 turns back.
    if random.chance(30) {
        book.specialist = random.chance(85) as u8;
        books::retrocede(random, 40, &mut book);
    }
    books::set_totals(random, scale, &mut book);
    if random.chance(80) {
        versions::at_desks(random, &mut book);
    } else if random.chance(30) {
        books::crowd(random, &mut book);
    }
    (low_limits(random, scale), book)
}

/// A concentrated fund that 13, 17, 14 or 15 turns back, often several of them.
pub fn turned_back(random: &mut Random) -> Input {
    let (schedule, mut book) = concentrated(random);
    let place = random.index(book.assets.len());
    let asset = &mut book.assets[place];
    if random.chance(30) {
        asset.mitigants = asset.mitigants.wrapping_add(1);
    }
    if random.chance(30) {
        (asset.kind, asset.entry) = (9, 3);
        book.specialist = 0;
    }
    if random.chance(40) {
        book.total = random.below(book.total + 1);
    }
    if random.chance(60) {
        book.excluded = random.between(book.total, MOST);
    }
    Input::new("turned back", &schedule, &book)
}

/// Makes most assets reinsurance.
fn reinsure(random: &mut Random, scale: u64, book: &mut RawBook) {
    for asset in &mut book.assets {
        if random.chance(60) {
            *asset = books::reinsurance(random, *asset, scale);
        }
    }
}

/// Gives many assets the kind and counterparty of the asset before.
fn repeat(random: &mut Random, book: &mut RawBook) {
    for place in 1..book.assets.len() {
        let [before, asset] = [place - 1, place].map(|place| book.assets[place]);
        if before.kind != 9 && asset.kind != 9 && random.chance(60) {
            (book.assets[place].kind, book.assets[place].counterparty) =
                (before.kind, before.counterparty);
        }
    }
}

/// Rates and fixed amounts that exposures of the scale pass, in either version.
pub fn low_limits(random: &mut Random, scale: u64) -> RawSchedule {
    let mut schedule = RawSchedule::published();
    let row = |random: &mut Random| RawRow {
        rates: std::array::from_fn(|_| random.pick(&[0, 0, 0, 1, 5, 25, 50, 125])),
        fixed: if random.chance(60) { books::amount(random, scale).min(2 * scale) } else { 0 },
    };
    schedule.rows = std::array::from_fn(|_| row(random));
    if random.chance(30) {
        schedule.rows = [schedule.rows[0]; 8];
    }
    if random.chance(60) {
        schedule.percents = std::array::from_fn(|_| random.pick(&[0, 34, 50, 66, 100]));
    }
    if random.chance(50) {
        schedule = rates::beside_ten_times(random, &schedule);
    }
    schedule
}

fn random_rate(random: &mut Random) -> u64 {
    match random.below(100) {
        0..=2 => 0,
        3..=9 => 1,
        10..=14 => 999,
        15..=29 => 1_000,
        30..=34 => 1_001,
        35..=39 => random.pick(&RATES),
        40 => u64::MAX,
        41 => random.number(),
        42 => random.below(1_001) + random.pick(&[1 << 16, 1 << 32, 1 << 63]),
        _ => random.below(1_001),
    }
}

fn random_room(random: &mut Random) -> usize {
    match random.below(100) {
        0..=54 => BILLS,
        55..=61 => BILLS - 1,
        62..=64 => BILLS - 8,
        65..=67 => random.index(BILLS),
        68 => 0,
        69..=76 => BILLS + 1,
        77..=94 => BILLS + random.index(200),
        _ => BILLS + random.index(100_000),
    }
}
