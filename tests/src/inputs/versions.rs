//! Versions of a book (C-13): which pass, and what each makes of an asset's bytes 6 and 7.

use super::edges::sample;
use super::extremes::{largest_report_book, largest_specialist_book};
use super::Input;
use crate::random::Random;
use crate::raw::*;

pub fn all() -> Vec<Input> {
    let parts = [versions(), counts_and_desks(), every_desk(), largest()];
    parts.into_iter().flatten().collect()
}

/// A book of version 2, its assets at any desks.
pub fn at_desks(random: &mut Random, book: &mut RawBook) {
    book.version = 2;
    book.assets.iter_mut().for_each(|asset| asset.desk = any_desk(random));
}

/// Any desk, often one of a few.
pub fn any_desk(random: &mut Random) -> u8 {
    if random.chance(50) {
        random.pick(&[0, 1, 7, 255])
    } else {
        random.below(256) as u8
    }
}

fn input(name: &'static str, book: &RawBook) -> Input {
    Input::new(name, &RawSchedule::published(), book)
}

/// Each value of either byte of the version, with counts of two bytes and of one.
fn versions() -> Vec<Input> {
    let mut inputs = Vec::new();
    for byte in 0..=255 {
        for version in [byte, byte << 8 | 1, byte << 8 | 2] {
            let mut book = sample();
            book.assets.iter_mut().for_each(|asset| asset.desk = 3);
            for layout in [1, 2] {
                book.version = layout;
                let mut input = input("versions", &book);
                input.book[4..6].copy_from_slice(&u16::to_le_bytes(version));
                inputs.push(input);
            }
        }
    }
    inputs
}

/// Bytes 6 and 7 of one asset, in both versions, where there are as many mitigants as one of them
/// says, or one more or less.
fn counts_and_desks() -> Vec<Input> {
    let mut inputs = Vec::new();
    for six in [0, 1, 2, 254, 255] {
        for seven in [0, 1, 2, 5, 255] {
            let counts = [u64::from(six), u64::from(six) + 256 * u64::from(seven)];
            for held in counts.into_iter().flat_map(|n| [n.saturating_sub(1), n, n + 1]) {
                if held > 1_500 {
                    continue;
                }
                for version in [1, 2] {
                    inputs.push(with_bytes(version, six, seven, held));
                }
            }
        }
    }
    inputs
}

fn with_bytes(version: u8, six: u8, seven: u8, held: u64) -> Input {
    let mut book = RawBook::empty(1_000, 0, 0);
    let name = book.counterparty(RawCounterparty::default());
    let bank = book.counterparty(RawCounterparty { kind: 1, grade: 1, ..Default::default() });
    let before = RawAsset { kind: 11, counterparty: name, value: 9, ..Default::default() };
    book.asset(before, &[]);
    let cash = |place| RawMitigant { form: 1, flags: 31, counterparty: bank, value: place };
    let mitigants: Vec<RawMitigant> = (1..=held).map(cash).collect();
    book.asset(RawAsset { value: 700_000, ..before }, &mitigants);
    let mut input = input("counts and desks", &book);
    let asset = 40 + 4 * 2 + 48;
    input.book[4] = version;
    input.book[asset + 6..asset + 8].copy_from_slice(&[six, seven]);
    input
}

/// All desks in one book, on assets of one group's tier, with and without mitigants.
fn every_desk() -> Vec<Input> {
    let mut inputs = Vec::new();
    for mitigated in [0, 1, 3] {
        let mut book = RawBook::empty(1_000_000, 1_000, 0);
        book.version = 2;
        let bank = book.counterparty(RawCounterparty { kind: 1, grade: 1, ..Default::default() });
        let name = book.counterparty(RawCounterparty::default());
        let cash = RawMitigant { form: 1, flags: 31, counterparty: bank, value: 2 };
        for desk in 0..=255 {
            let asset =
                RawAsset { kind: 11, counterparty: name, value: 500, desk, ..Default::default() };
            book.asset(asset, &vec![cash; mitigated]);
        }
        inputs.push(input("every desk", &book));
    }
    inputs
}

fn largest() -> Vec<Input> {
    let random = &mut Random::new(13, 0);
    let mut books = [largest_report_book(), largest_specialist_book()];
    books.iter_mut().for_each(|book| at_desks(random, book));
    books.iter().map(|book| input("largest at desks", book)).collect()
}
