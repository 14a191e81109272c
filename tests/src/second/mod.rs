//! A second implementation of document 01, with document 02's requests C-11 and C-13 to C-19,
//! written from the documents and from nothing else.
//!
//! It reads bytes into records (`read`), takes values, exposures, tiers and limits from them
//! (`fund`), sums them by group and cuts what passes a limit (`cascade`), and writes the report
//! (`write`); a book is converted record by record (`convert`), desks are billed line by line
//! (`bills`), what more may be bought is found by trying amounts (`headroom`), and assets come and go
//! in a list of records of which a book is printed afresh (`movements`). Amounts are `i128`, rates
//! and limits exact fractions (`fraction`), so that no bound on them has to be known. Each sentence
//! that could be got wrong by itself is a method of `rules`; `slip` has the wrong variants that a
//! comparison must catch. What treaties met as they drew on a half is in `halves`.

mod bills;
mod cascade;
mod convert;
mod fraction;
mod fund;
mod halves;
mod headroom;
mod movements;
mod read;
mod records;
mod rules;
mod slip;
mod write;

pub use bills::{bills, bills_by, served_of, Served};
pub use convert::{convert, convert_by, rebuilt};
pub use halves::{halves_of, MetHalves};
pub use headroom::{headroom, headroom_by, met_of, tried, MetQuestion};
pub use movements::{length_after, met_by, moved, moved_by, MetMovement};
pub use rules::{Documents, Rules};
pub use slip::Slip;

use crate::weightrose::{Answer, Refusal};
use cascade::Sums;
use fund::Values;
use records::{Book, Limit, Line, Schedule, TakenFor, Tier};
use std::collections::BTreeMap;
use write::Figures;

/// The answer to a schedule and a book, with the report at the front of the buffer.
pub fn report(schedule: &[u8], book: &[u8], buffer: &mut [u8]) -> Answer {
    report_by(&Documents, schedule, book, buffer)
}

/// The same by other rules.
pub fn report_by<R: Rules>(rules: &R, schedule: &[u8], book: &[u8], buffer: &mut [u8]) -> Answer {
    match bytes_by(rules, schedule, book) {
        Err(refusal) => Answer::Refused(refusal),
        Ok(bytes) if !rules.buffer_accepted(buffer.len(), bytes.len()) => {
            Answer::Refused(Refusal::BufferShort)
        }
        Ok(bytes) => {
            buffer[..bytes.len()].copy_from_slice(&bytes);
            Answer::Written(bytes.len())
        }
    }
}

/// The report's length, whatever the buffer; none where schedule or book is refused.
pub fn length(schedule: &[u8], book: &[u8]) -> Option<usize> {
    bytes_by(&Documents, schedule, book).ok().map(|bytes| bytes.len())
}

fn bytes_by<R: Rules>(rules: &R, schedule: &[u8], book: &[u8]) -> Result<Vec<u8>, Refusal> {
    let accepted = accepted_by(rules, schedule, book, TakenFor::Lines)?;
    Ok(write::report(rules, &accepted.figures, &accepted.groups))
}

/// A schedule and a book that are accepted, and what their report says.
struct Accepted {
    schedule: Schedule,
    book: Book,
    values: Values,
    sums: Sums,
    limits: BTreeMap<Tier, Limit>,
    /// Each group's lines by rank.
    groups: Vec<Vec<Line>>,
    figures: Figures,
}

fn accepted_by<R: Rules>(
    rules: &R,
    schedule: &[u8],
    book: &[u8],
    taken_for: TakenFor,
) -> Result<Accepted, Refusal> {
    Ok(figured(rules, checked_by(rules, schedule, book)?, taken_for))
}

/// A schedule and a book that 1 to 15 and 17 do not turn back.
struct Checked {
    schedule: Schedule,
    book: Book,
    values: Values,
}

fn checked_by<R: Rules>(rules: &R, schedule: &[u8], book: &[u8]) -> Result<Checked, Refusal> {
    let schedule = read::schedule(rules, schedule)?;
    let book = read::book(rules, |version| rules.version_passes(version), book)?;
    let values = fund::values(rules, &book);
    match fund::refusal(rules, &book, &values) {
        Some(refusal) => Err(refusal),
        None => Ok(Checked { schedule, book, values }),
    }
}

fn figured<R: Rules>(rules: &R, checked: Checked, taken_for: TakenFor) -> Accepted {
    let Checked { schedule, book, values } = checked;
    let sums = cascade::sums(rules, &book, taken_for);
    let limits = fund::limits(rules, &schedule, book.base, &values, sums.w);
    let groups: Vec<Vec<Line>> = sums
        .groups
        .iter()
        .map(|(&top, shares)| cascade::lines(rules, top, shares, &limits))
        .collect();

    let lines = || groups.iter().flatten();
    let group_excess = lines().map(|line| line.excess).sum();
    let a3_sum = lines().map(|line| rules.a3_part(line)).sum();
    let a3_limit = fund::a3_limit(rules, &schedule, book.base, &values);
    let figures = Figures {
        vaf: values.vaf,
        vaf_prime: values.vaf_prime,
        all_net: rules.all_net(sums.linked, sums.net_of_others),
        unlimited: rules.all_unlimited(sums.linked, sums.without_limit),
        group_excess,
        a3_sum,
        a3_limit,
        charge: rules.charge(group_excess, a3_sum, a3_limit),
    };
    Accepted { schedule, book, values, sums, limits, groups, figures }
}
