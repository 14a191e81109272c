//! Movements through the day (C-19): a book's bytes taken apart into records, each asset with its own
//! mitigants, one asset added to the list or taken out of it, and a book printed afresh of what is
//! then present, which gets a report as any other.

use super::records::*;
use super::rules::{Documents, Rules};
use super::{checked_by, figured, write, Checked};
use crate::raw::Movement;
use crate::weightrose::{Answer, Refusal, HEADER};

/// The answer to a schedule and a movement of the book at the start of a buffer, with the new book
/// there and its report at the front of the other buffer.
pub fn moved(schedule: &[u8], movement: &Movement, book: &mut [u8], report: &mut [u8]) -> Answer {
    moved_by(&Documents, schedule, movement, book, report)
}

/// The same by other rules.
pub fn moved_by<R: Rules>(
    rules: &R,
    schedule: &[u8],
    movement: &Movement,
    book: &mut [u8],
    report: &mut [u8],
) -> Answer {
    let tried = tried(rules, schedule, movement, book, report.len());
    let Tried { found, old_length, new, bytes } = &tried;
    let [change_book, write_report] = rules.changed(*found);
    if change_book {
        let new = &new[..new.len().min(book.len())];
        let after = rules.buffer_after(book, *old_length, new);
        book.copy_from_slice(&after);
    }
    if write_report {
        let written = report.len().min(bytes.len());
        report[..written].copy_from_slice(&bytes[..written]);
    }
    match rules.first_of_movement(*found) {
        Some(refusal) => Answer::Refused(refusal),
        None => Answer::Written(rules.length_answered(bytes.len(), new.len())),
    }
}

/// What a movement would do, and what it is turned back for.
struct Tried {
    /// By 1 to 15 and 17 on the book as it stands; by 22; by the resulting book's; by 16, of the
    /// book's buffer and of the report's.
    found: [Option<Refusal>; 5],
    /// Bytes of the book as it stands.
    old_length: usize,
    /// The resulting book and its report, nothing where there is none.
    new: Vec<u8>,
    bytes: Vec<u8>,
}

fn tried<R: Rules>(
    rules: &R,
    schedule: &[u8],
    movement: &Movement,
    buffer: &[u8],
    report: usize,
) -> Tried {
    let counts = counts(buffer);
    let length = rules.standing_length(buffer.len(), counts);
    let standing = &buffer[..length.min(buffer.len())];
    let checked = checked_by(rules, schedule, standing);
    let refusal = rules.of_standing(checked.as_ref().err().copied(), buffer.len() < length);

    let taken = match movement {
        Movement::Add(_) => None,
        Movement::Remove(place) => rules.place_taken(*place, counts[1]),
    };
    let record = match movement {
        Movement::Add(record) => rules.record_added(record),
        Movement::Remove(_) => None,
    };
    let there = taken.is_some() || record.is_some();
    let of_movement = (!there).then_some(Refusal::Movement);

    // Bytes that are no book are refused above, and nothing comes of them.
    let Some(mut stored) = Stored::of(rules, standing) else {
        let found = [refusal, of_movement, None, None, None];
        return Tried { found, old_length: length, new: Vec::new(), bytes: Vec::new() };
    };
    match movement {
        Movement::Add(bytes) => {
            // What 22 turns back is added as far as it goes, for slips that look further.
            stored.add(rules, record.unwrap_or_else(|| as_record(bytes)));
        }
        Movement::Remove(_) => {
            taken.into_iter().for_each(|place| stored.take_away(rules, place));
        }
    }
    let new = stored.printed(rules, counts);
    let made = made(rules, schedule, checked.ok(), &new);
    let of_resulting = made.as_ref().err().copied();
    let of_resulting = rules.of_resulting(of_resulting, stored.version, record.as_ref());
    // A book that is refused has no report; any has a header.
    let bytes = made.unwrap_or_default();
    let report_fits = rules.report_fits(report, bytes.len().max(HEADER));
    let found = [
        refusal,
        of_movement,
        of_resulting,
        (!rules.book_fits(buffer.len(), new.len())).then_some(Refusal::BufferShort),
        (!report_fits).then_some(Refusal::BufferShort),
    ];
    Tried { found, old_length: length, new, bytes }
}

/// The report of a resulting book.
fn made<R: Rules>(
    rules: &R,
    schedule: &[u8],
    standing: Option<Checked>,
    new: &[u8],
) -> Result<Vec<u8>, Refusal> {
    let mut resulting = checked_by(rules, schedule, new)?;
    if let Some(standing) = standing {
        resulting.values = rules.values_after(&standing.values, &resulting.values);
        resulting = rules.reported(standing, resulting);
    }
    let accepted = figured(rules, resulting, TakenFor::Movements);
    Ok(write::report(rules, &accepted.figures, &accepted.groups))
}

/// C, N and K of a book's bytes; nothing where there is no header.
fn counts(book: &[u8]) -> [usize; 3] {
    if book.len() < 40 {
        return [0; 3];
    }
    [6, 8, 10].map(|place| usize::from(u16::from_le_bytes([book[place], book[place + 1]])))
}

fn as_record(bytes: &[u8]) -> [u8; 48] {
    let mut record = [0; 48];
    record.iter_mut().zip(bytes).for_each(|(to, &from)| *to = from);
    record
}

/// A book's records as they are stored.
struct Stored {
    /// Mark and zero, and the bytes 12 to 15.
    mark: [u8; 4],
    version: u16,
    fund: [u8; 4],
    amounts: Amounts,
    counterparties: Vec<[u8; 4]>,
    assets: Vec<StoredAsset>,
    /// Whether one was added.
    added: bool,
}

impl Stored {
    /// None where the bytes are not as many as their counts say.
    fn of<R: Rules>(rules: &R, book: &[u8]) -> Option<Stored> {
        let [counterparties, assets, mitigants] = counts(book);
        if book.len() != 40 + 4 * counterparties + 48 * assets + 12 * mitigants {
            return None;
        }
        let (header, records) = book.split_at(40);
        let (counterparties, records) = records.split_at(4 * counterparties);
        let (assets, mitigants) = records.split_at(48 * assets);
        let version = u16::from_le_bytes([header[4], header[5]]);
        let mut mitigants = mitigants.chunks(12).map(|record| record.try_into().unwrap());
        let asset = |record: &[u8]| {
            let count = rules.count(version, [record[6], record[7]]);
            StoredAsset {
                record: record.try_into().unwrap(),
                mitigants: mitigants.by_ref().take(usize::from(count)).collect(),
            }
        };
        let amount = |place: usize| header[place..place + 8].try_into().unwrap();
        Some(Stored {
            mark: header[..4].try_into().unwrap(),
            version,
            fund: header[12..16].try_into().unwrap(),
            amounts: [
                i128::from(u64::from_le_bytes(amount(16))),
                i128::from(i64::from_le_bytes(amount(24))),
                i128::from(u64::from_le_bytes(amount(32))),
            ],
            counterparties: counterparties.chunks(4).map(|it| it.try_into().unwrap()).collect(),
            assets: assets.chunks(48).map(asset).collect(),
            added: false,
        })
    }

    fn add<R: Rules>(&mut self, rules: &R, record: [u8; 48]) {
        let record = rules.record_kept(self.version, record);
        let place = rules.before_added(self.assets.len());
        self.assets.insert(place, StoredAsset { record, mitigants: Vec::new() });
        self.amounts = rules.amounts_after(self.amounts, &record, true);
        self.added = true;
    }

    fn take_away<R: Rules>(&mut self, rules: &R, place: usize) {
        let record = self.assets[place - 1].record;
        rules.take_away(&mut self.assets, place);
        self.amounts = rules.amounts_after(self.amounts, &record, false);
    }

    /// The book's bytes, where it had so many records of each sort before.
    fn printed<R: Rules>(&self, rules: &R, before: [usize; 3]) -> Vec<u8> {
        let mitigants = self.assets.iter().map(|asset| asset.mitigants.len()).sum();
        let after = [self.counterparties.len(), self.assets.len(), mitigants];
        let mut bytes = self.mark.to_vec();
        bytes.extend(self.version.to_le_bytes());
        let counts = rules.counts_after(before, after);
        counts.iter().for_each(|&count| bytes.extend((count as u16).to_le_bytes()));
        bytes.extend(self.fund);
        self.amounts.iter().for_each(|&amount| bytes.extend((amount as u64).to_le_bytes()));
        bytes.extend(self.counterparties.concat());
        bytes.extend(rules.laid_out(&self.assets, self.added));
        bytes
    }
}

/// Bytes of the report after a movement, whatever the buffers; none where it is refused by more than
/// 16.
pub fn length_after(schedule: &[u8], movement: &Movement, book: &[u8]) -> Option<usize> {
    let Tried { found, bytes, .. } = tried(&Documents, schedule, movement, book, 0);
    found[..3].iter().all(Option::is_none).then_some(bytes.len())
}

/// What a movement meets of its own.
#[derive(Clone, Copy, Debug, Default, PartialEq, Eq)]
pub struct MetMovement {
    /// The number of the resulting book's refusal, where the movement is refused by it.
    pub resulting: Option<u32>,
    /// Refused by 16, of the book's buffer and of the report's.
    pub book_short: bool,
    pub report_short: bool,
}

/// The same of a schedule, a movement, a book's buffer and the length of a report's.
pub fn met_by(schedule: &[u8], movement: &Movement, book: &[u8], report: usize) -> MetMovement {
    match tried(&Documents, schedule, movement, book, report).found {
        [None, None, Some(refusal), ..] => {
            MetMovement { resulting: Some(refusal.number()), ..Default::default() }
        }
        [None, None, None, of_book, of_report] => MetMovement {
            resulting: None,
            book_short: of_book.is_some(),
            report_short: of_report.is_some(),
        },
        _ => MetMovement::default(),
    }
}
