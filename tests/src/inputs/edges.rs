//! Every refusal at its boundary: one field of a valid schedule or book changed at a time, to the
//! last value that is accepted and to the first that is not.

use super::{Input, Room};
use crate::raw::*;

/// A small valid book with records of each sort: four counterparties, four assets, five mitigants.
pub fn sample() -> RawBook {
    let mut book = RawBook::empty(10_000_000_000, 1_000_000_000, 5);
    let bank = book.counterparty(RawCounterparty { kind: 1, grade: 2, ..Default::default() });
    let child = book.counterparty(RawCounterparty { parent: bank, ..Default::default() });
    let reinsurer = book.counterparty(RawCounterparty { kind: 4, grade: 4, ..Default::default() });
    let last = book.counterparty(RawCounterparty {
        parent: child,
        grade: 7,
        flags: 7,
        ..Default::default()
    });
    let mitigant = |form, counterparty, value| RawMitigant { form, flags: 31, counterparty, value };
    let reinsurance = RawAsset {
        kind: 9,
        flags: 2,
        entry: 1,
        months: 5,
        counterparty: reinsurer,
        value: 1_000,
        offsets: 100,
        deductions: 10,
        insurance_stress: 700,
        combination_stress: 900,
        ..Default::default()
    };
    book.asset(reinsurance, &[mitigant(5, bank, 200), mitigant(1, bank, 100)]);
    let loan = RawAsset { kind: 7, counterparty: child, value: 5_000, ..Default::default() };
    book.asset(loan, &[mitigant(4, bank, 40)]);
    let linked =
        RawAsset { kind: 11, flags: 1, counterparty: child, value: 70, ..Default::default() };
    book.asset(linked, &[mitigant(3, bank, 7)]);
    let other =
        RawAsset { kind: 11, counterparty: last, value: 800, offsets: 3, ..Default::default() };
    book.asset(other, &[mitigant(2, last, 9)]);
    book
}

pub fn all() -> Vec<Input> {
    let parts = [
        schedule_bytes(),
        schedule_fields(),
        book_bytes(),
        book_counts(),
        book_amounts(),
        counterparties(),
        asset_bytes(),
        asset_numbers(),
        asset_reinsurance(),
        mitigants(),
        mitigant_counts(),
        specialist_bytes(),
        specialist_entries(),
        refusals_12_to_17(),
        reinsurance_values(),
        stressed_assets(),
        rooms(),
    ];
    parts.into_iter().flatten().collect()
}

/// The sample under the published schedule, with one thing changed.
fn schedule_with(name: &'static str, change: impl FnOnce(&mut RawSchedule)) -> Input {
    let mut schedule = RawSchedule::published();
    change(&mut schedule);
    Input::new(name, &schedule, &sample())
}

fn book_with(name: &'static str, change: impl FnOnce(&mut RawBook)) -> Input {
    let mut book = sample();
    change(&mut book);
    Input::new(name, &RawSchedule::published(), &book)
}

const VERSIONS: [u16; 9] = [0, 1, 2, 3, 256, 257, 258, 513, 65_535];

/// Amounts on both sides of M, and at the ends of 64 bits.
const AMOUNTS: [u64; 7] = [0, MOST - 1, MOST, MOST + 1, 1 << 63, (1 << 63) + MOST, u64::MAX];

fn schedule_bytes() -> Vec<Input> {
    let mut inputs = Vec::new();
    for length in (0..=130).chain([244, 1_000]) {
        let mut input = schedule_with("schedule length", |_| ());
        input.schedule.resize(length, 0);
        inputs.push(input);
    }
    for place in 0..4 {
        for byte in 0..=255 {
            inputs.push(schedule_with("schedule mark", |schedule| schedule.mark[place] = byte));
        }
    }
    inputs.push(schedule_with("schedule mark", |schedule| schedule.mark = *b"ACB\0"));
    for version in VERSIONS {
        inputs.push(schedule_with("schedule version", |schedule| schedule.version = version));
    }
    inputs
}

fn schedule_fields() -> Vec<Input> {
    let mut inputs = Vec::new();
    for percent in 0..2 {
        for value in [0, 1, 99, 100, 101, 356, 65_535] {
            inputs.push(schedule_with("schedule percent", |schedule| {
                schedule.percents[percent] = value
            }));
        }
    }
    for row in 0..8 {
        for rate in 0..3 {
            for value in [0, 1_499, 1_500, 1_501, 32_768, 65_535] {
                let change = |schedule: &mut RawSchedule| schedule.rows[row].rates[rate] = value;
                inputs.push(schedule_with("schedule rate", change));
            }
        }
        for amount in AMOUNTS {
            inputs.push(schedule_with("schedule fixed", |schedule| {
                schedule.rows[row].fixed = amount
            }));
        }
    }
    inputs
}

fn book_bytes() -> Vec<Input> {
    let mut inputs = Vec::new();
    let whole = sample().bytes().len();
    for length in (0..=88).chain(whole - 60..whole + 60).chain([70_000]) {
        let mut input = book_with("book length", |_| ());
        input.book.resize(length, 0);
        inputs.push(input);
    }
    for length in 0..=40 {
        let mut input = book_with("book without records", |_| ());
        input.book = RawBook::empty(1, 1, 1).bytes();
        input.book.truncate(length);
        inputs.push(input);
    }
    for byte in 0..=255 {
        for place in 0..4 {
            inputs.push(book_with("book mark", |book| book.mark[place] = byte));
        }
        inputs.push(book_with("specialist", |book| book.specialist = byte));
        for place in 0..3 {
            inputs.push(book_with("book zeros", |book| book.zeros[place] = byte));
        }
    }
    for version in VERSIONS {
        inputs.push(book_with("book version", |book| book.version = version));
    }
    inputs
}

/// Counts at their most and one over, with as many records behind them; and counts that are not
/// the number of records.
fn book_counts() -> Vec<Input> {
    let mut inputs = Vec::new();
    for counts in [[500, 900, 1_500], [501, 900, 1_500], [500, 901, 1_500], [500, 900, 1_501]] {
        inputs.push(Input::new("counts", &RawSchedule::published(), &book_of(counts)));
    }
    for counts in [[500, 0, 0], [501, 0, 0], [1, 900, 0], [1, 901, 0], [1, 1, 1_500], [1, 1, 1_501]]
    {
        inputs.push(Input::new("counts", &RawSchedule::published(), &book_of(counts)));
    }
    for field in 0..3 {
        for count in [0, 1, 2, 3, 4, 5, 6, 16, 500, 501, 900, 901, 1_500, 1_501, 65_535] {
            let mut counts = [4, 4, 5];
            counts[field] = count;
            inputs.push(book_with("counts", |book| book.counts = Some(counts)));
        }
    }
    // 12 counterparties or 4 mitigants take the bytes of one asset.
    for counts in [[16, 3, 5], [4, 3, 9], [4, 5, 1], [1, 4, 6], [7, 4, 4]] {
        inputs.push(book_with("counts", |book| book.counts = Some(counts)));
    }
    inputs
}

/// So many plain records; the first asset has all mitigants.
fn book_of(counts: [usize; 3]) -> RawBook {
    let mut book = RawBook::empty(MOST, 0, 0);
    book.counterparties =
        vec![RawCounterparty { kind: 1, grade: 1, ..Default::default() }; counts[0]];
    let asset = |place: usize| RawAsset {
        kind: 11,
        counterparty: 1 + (place % counts[0]) as u16,
        mitigants: if place == 0 { counts[2] as u16 } else { 0 },
        value: 7,
        ..Default::default()
    };
    book.assets = (0..counts[1]).map(asset).collect();
    book.mitigants = vec![RawMitigant { form: 1, flags: 17, counterparty: 1, value: 1 }; counts[2]];
    book
}

fn book_amounts() -> Vec<Input> {
    let mut inputs = Vec::new();
    for amount in AMOUNTS {
        inputs.push(book_with("total", |book| book.total = amount));
        inputs.push(book_with("excluded", |book| book.excluded = amount));
    }
    let most = MOST as i64;
    for base in [0, 1, -1, most, most + 1, -most, -most - 1, i64::MAX, i64::MIN, i64::MIN + 1] {
        inputs.push(book_with("base", |book| book.base = base));
    }
    inputs
}

fn counterparties() -> Vec<Input> {
    let mut inputs = Vec::new();
    for index in 0..4 {
        for parent in [0, 1, 2, 3, 4, 5, 256, 65_535] {
            inputs.push(book_with("parent", |book| book.counterparties[index].parent = parent));
        }
        for byte in 0..=255 {
            let grade_and_kind = |book: &mut RawBook| {
                book.counterparties[index].grade = byte & 15;
                book.counterparties[index].kind = byte >> 4;
            };
            inputs.push(book_with("grade and kind", grade_and_kind));
            inputs.push(book_with("counterparty flags", |book| {
                book.counterparties[index].flags = byte
            }));
        }
    }
    inputs
}

fn asset_bytes() -> Vec<Input> {
    let mut inputs = Vec::new();
    for index in 0..4 {
        for byte in 0..=255 {
            inputs.push(book_with("asset kind", |book| book.assets[index].kind = byte));
            inputs.push(book_with("asset flags", |book| book.assets[index].flags = byte));
            inputs.push(book_with("asset entry", |book| book.assets[index].entry = byte));
            inputs.push(book_with("asset months", |book| book.assets[index].months = byte));
        }
    }
    inputs
}

fn asset_numbers() -> Vec<Input> {
    let mut inputs = Vec::new();
    for index in 0..4 {
        for place in [0, 1, 2, 3, 4, 5, 256, 257, 65_535] {
            inputs.push(book_with("asset counterparty", |book| {
                book.assets[index].counterparty = place
            }));
        }
        for amount in AMOUNTS {
            inputs.push(book_with("value", |book| book.assets[index].value = amount));
            inputs.push(book_with("offsets", |book| book.assets[index].offsets = amount));
            inputs.push(book_with("deductions", |book| book.assets[index].deductions = amount));
            inputs.push(book_with("insurance stress", |book| {
                book.assets[index].insurance_stress = amount
            }));
            inputs.push(book_with("combination stress", |book| {
                book.assets[index].combination_stress = amount
            }));
        }
    }
    inputs
}

/// What only reinsurance may have, and what months and offsets need, in a specialist fund and in
/// another.
fn asset_reinsurance() -> Vec<Input> {
    let mut inputs = Vec::new();
    for (kind, specialist) in (1..=11).flat_map(|kind| [(kind, 0), (kind, 1)]) {
        let plain = move |book: &mut RawBook| {
            book.specialist = specialist;
            let asset = RawAsset {
                kind,
                counterparty: 1,
                value: 1_000,
                mitigants: 2,
                ..Default::default()
            };
            book.assets[0] = asset;
        };
        let with = |change: fn(&mut RawAsset)| {
            book_with("reinsurance only", |book| {
                plain(book);
                change(&mut book.assets[0]);
            })
        };
        inputs.push(with(|_| ()));
        inputs.push(with(|asset| asset.flags = 2));
        inputs.push(with(|asset| asset.entry = 1));
        inputs.push(with(|asset| asset.months = 1));
        inputs.push(with(|asset| (asset.entry, asset.months) = (2, 255)));
        inputs.push(with(|asset| asset.entry = 3));
        inputs.push(with(|asset| (asset.entry, asset.months) = (3, 255)));
        inputs.push(with(|asset| asset.entry = 4));
        inputs.push(with(|asset| asset.insurance_stress = 1));
        inputs.push(with(|asset| asset.combination_stress = 1));
        inputs.push(with(|asset| asset.offsets = 1_000));
        inputs.push(with(|asset| asset.offsets = 1_001));
        inputs.push(with(|asset| (asset.value, asset.offsets) = (0, 0)));
        inputs.push(with(|asset| (asset.value, asset.offsets) = (0, 1)));
    }
    inputs
}

fn mitigants() -> Vec<Input> {
    let mut inputs = Vec::new();
    for index in 0..5 {
        for byte in 0..=255 {
            inputs.push(book_with("mitigant form", |book| book.mitigants[index].form = byte));
            inputs.push(book_with("mitigant flags", |book| book.mitigants[index].flags = byte));
        }
        for place in [0, 1, 2, 3, 4, 5, 256, 257, 65_535] {
            let change = |book: &mut RawBook| book.mitigants[index].counterparty = place;
            inputs.push(book_with("mitigant counterparty", change));
        }
        for amount in AMOUNTS {
            inputs.push(book_with("mitigant value", |book| book.mitigants[index].value = amount));
        }
    }
    inputs
}

/// Counts that add to K, beside it, and to K and 65,536.
fn mitigant_counts() -> Vec<Input> {
    let mut inputs = Vec::new();
    for counts in [
        [2, 1, 1, 1],
        [5, 0, 0, 0],
        [0, 0, 0, 5],
        [0, 5, 0, 0],
        [1, 1, 1, 1],
        [2, 1, 1, 2],
        [0, 0, 0, 0],
        [65_535, 6, 0, 0],
        [65_535, 0, 0, 6],
        [32_768, 32_768, 5, 0],
        [65_535, 65_535, 7, 0],
        [65_535, 65_535, 65_535, 65_535],
    ] {
        inputs.push(book_with("mitigant counts", |book| {
            for (asset, count) in book.assets.iter_mut().zip(counts) {
                asset.mitigants = count;
            }
        }));
    }
    // K = 1, N = 0, C = 1.
    let mut book = RawBook::empty(10, 10, 0);
    book.counterparty(RawCounterparty::default());
    book.mitigants.push(RawMitigant { form: 1, flags: 0, counterparty: 1, value: 0 });
    inputs.push(Input::new("mitigant counts", &RawSchedule::published(), &book));
    inputs
}

/// The bytes around byte 12, and those of an asset's entry and months, in a specialist fund with a
/// retrocession, ungraded and graded.
fn specialist_bytes() -> Vec<Input> {
    let mut inputs = Vec::new();
    for grade in [4, 3] {
        let with = |name, change: &dyn Fn(&mut RawBook)| {
            book_with(name, |book| {
                book.specialist = 1;
                book.counterparties[2].grade = grade;
                book.assets[0].entry = 3;
                change(book);
            })
        };
        for byte in 0..=255 {
            inputs.push(with("specialist", &|book| book.specialist = byte));
            inputs.push(with("specialist zeros", &|book| book.zeros[usize::from(byte) % 3] = byte));
            inputs.push(with("specialist entry", &|book| book.assets[0].entry = byte));
            inputs.push(with("specialist months", &|book| book.assets[0].months = byte));
        }
    }
    inputs
}

/// Entry 3 at each set of four places, and at some of 900, linked and not, in a specialist fund and
/// in another (17).
fn specialist_entries() -> Vec<Input> {
    let input = |specialist, flags, count: u16, retroceded: &dyn Fn(u16) -> bool| {
        let mut book = RawBook { specialist, ..RawBook::empty(MOST, 0, 0) };
        let counterparty = book.counterparty(RawCounterparty::default());
        for place in 1..=count {
            let asset = RawAsset {
                kind: 9,
                flags,
                entry: if retroceded(place) { 3 } else { (place % 3) as u8 },
                counterparty,
                value: 1,
                combination_stress: 1,
                ..Default::default()
            };
            book.asset(asset, &[]);
        }
        Input::new("specialist entries", &RawSchedule::published(), &book)
    };
    let mut inputs = Vec::new();
    for (specialist, linked) in [(0, 0), (0, 1), (1, 0), (1, 1)] {
        for set in 0..16u16 {
            inputs.push(input(specialist, linked, 4, &|place| set >> (place - 1) & 1 == 1));
        }
        for first in [1, 255, 256, 257, 899, 900] {
            inputs.push(input(specialist, linked, 900, &|place| place >= first));
            inputs.push(input(specialist, linked, 900, &|place| place == first));
        }
    }
    inputs
}

/// Each set of refusals 12 to 17 at once, checked in the order 12, 13, 17, 14, 15, 16.
fn refusals_12_to_17() -> Vec<Input> {
    let with = |faults: [bool; 6]| {
        let [mitigant, counts, entry, values, stressed, buffer] = faults;
        let mut input = book_with("refusals 12 to 17", |book| {
            book.specialist = u8::from(!entry);
            book.assets[0].entry = 3;
            book.mitigants[4].form += 4 * u8::from(mitigant);
            book.assets[3].mitigants += u16::from(counts);
            if values {
                book.total = 999;
            }
            if stressed {
                book.excluded = MOST;
            }
        });
        if buffer {
            input.room = Room::Bytes(71);
        }
        input
    };
    (0..64).map(|set| with(std::array::from_fn(|bit| set >> bit & 1 == 1))).collect()
}

/// Two reinsurance assets with these values and combination stresses, of a total.
fn reinsurance(values: [u64; 2], stresses: [u64; 2], total: u64, excluded: u64) -> RawBook {
    let mut book = RawBook::empty(total, 0, excluded);
    let counterparty = book.counterparty(RawCounterparty::default());
    for (value, combination_stress) in values.into_iter().zip(stresses) {
        let asset =
            RawAsset { kind: 9, counterparty, value, combination_stress, ..Default::default() };
        book.asset(asset, &[]);
    }
    book
}

/// Reinsurance values at the total and one over (14).
fn reinsurance_values() -> Vec<Input> {
    let cases =
        [([2, 2], 4), ([2, 3], 4), ([4, 0], 4), ([5, 0], 4), ([0, 5], 4), ([0, 0], 0), ([1, 0], 0)];
    let large = [([MOST, 0], MOST), ([MOST, 1], MOST), ([MOST, MOST], MOST), ([MOST - 1, 1], MOST)];
    let all = cases.into_iter().chain(large);
    all.map(|(values, total)| {
        let book = reinsurance(values, values, total, 0);
        Input::new("reinsurance values", &RawSchedule::published(), &book)
    })
    .collect()
}

/// VAF′ at 0 and M and one past each (15).
fn stressed_assets() -> Vec<Input> {
    let mut inputs = Vec::new();
    for (stresses, total, excluded) in [
        ([0, 0], 0, 0),
        ([0, 0], 0, 1),
        ([0, 0], 7, 7),
        ([0, 0], 7, 8),
        ([5, 3], 0, 8),
        ([5, 3], 0, 9),
        ([0, 0], MOST, 0),
        ([1, 0], MOST, 0),
        ([1, 0], MOST, 1),
        ([1, 0], MOST, 2),
        ([MOST, 0], 0, 0),
        ([MOST, 1], 0, 0),
        ([MOST, MOST], MOST, MOST),
        ([MOST, 0], MOST, MOST),
        ([MOST, 1], MOST, MOST),
        ([0, 0], 0, MOST),
    ] {
        let book = reinsurance([0, 0], stresses, total, excluded);
        inputs.push(Input::new("stressed assets", &RawSchedule::published(), &book));
    }
    inputs
}

/// Every buffer length from none to a line past the report.
fn rooms() -> Vec<Input> {
    let mut inputs = Vec::new();
    for book in [RawBook::empty(1, 1, 0), sample()] {
        for room in 0..=400 {
            let input = Input::new("buffer", &RawSchedule::published(), &book);
            inputs.push(Input { room: Room::Bytes(room), ..input });
        }
    }
    inputs
}
