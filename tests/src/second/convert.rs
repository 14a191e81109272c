//! The converter (C-13), record by record: the header with version 2, each asset with its count in
//! byte 6 and desk 0 in byte 7, everything else as it was; and the way back.

use super::rules::{Documents, Rules};
use super::{fund, read};
use crate::weightrose::{Answer, Refusal};

/// The answer to a book of version 1, with the same as version 2 at the front of the buffer.
pub fn convert(book: &[u8], buffer: &mut [u8]) -> Answer {
    convert_by(&Documents, book, buffer)
}

/// The same by other rules.
pub fn convert_by<R: Rules>(rules: &R, bytes: &[u8], buffer: &mut [u8]) -> Answer {
    let book = match read::book(rules, |version| rules.converter_takes(version), bytes) {
        Err(refusal) => return Answer::Refused(refusal),
        Ok(book) => book,
    };
    let short = !rules.output_accepted(buffer.len(), bytes.len());
    let found = [
        fund::refusal(rules, &book, &fund::values(rules, &book)),
        rules.too_many_mitigants(&book).map(Refusal::ManyMitigants),
        short.then_some(Refusal::BufferShort),
    ];
    if let Some(refusal) = rules.first_of_converter(found) {
        return Answer::Refused(refusal);
    }
    let counts = book.assets.iter().map(|asset| asset.count);
    let new =
        rewritten(bytes, rules.converted_version(), counts.map(|count| rules.narrowed(count)));
    let written = buffer.len().min(new.len());
    buffer[..written].copy_from_slice(&new[..written]);
    Answer::Written(written)
}

/// A book's bytes with another version, and with other bytes 6 and 7 in its assets.
fn rewritten(book: &[u8], version: u16, counts: impl Iterator<Item = [u8; 2]>) -> Vec<u8> {
    let counterparties = usize::from(u16::from_le_bytes([book[6], book[7]]));
    let (front, records) = book.split_at(40 + 4 * counterparties);
    let mut new = [&front[..4], &version.to_le_bytes(), &front[6..]].concat();
    let mut rest = records;
    for count in counts {
        let (asset, behind) = rest.split_at(48);
        new.extend_from_slice(&asset[..6]);
        new.extend(count);
        new.extend_from_slice(&asset[8..]);
        rest = behind;
    }
    new.extend_from_slice(rest);
    new
}

/// "the old one can be rebuilt from the new": the bytes of an accepted book of version 2 as those
/// of version 1, which has no desks.
pub fn rebuilt(book: &[u8]) -> Vec<u8> {
    let read = read::book(&Documents, |version| version == 2, book).expect("a book of version 2");
    rewritten(book, 1, read.assets.iter().map(|asset| asset.count.to_le_bytes()))
}
