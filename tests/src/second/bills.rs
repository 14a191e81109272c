//! The bills (C-14): the book's exposure lines one after the other, what stands in their group's
//! tier given to them as they come, and the cost of what was not served, desk by desk.

use super::records::*;
use super::rules::{Documents, Rules};
use super::{accepted_by, cascade, fund, Accepted};
use crate::weightrose::{Answer, Refusal, DESKS};
use std::collections::BTreeMap;

/// The answer to a schedule, a book and a cost rate, with the bills at the front of the buffer.
pub fn bills(schedule: &[u8], book: &[u8], rate: u64, buffer: &mut [u8]) -> Answer {
    bills_by(&Documents, schedule, book, rate, buffer)
}

/// The same by other rules.
pub fn bills_by<R: Rules>(
    rules: &R,
    schedule: &[u8],
    book: &[u8],
    rate: u64,
    buffer: &mut [u8],
) -> Answer {
    let accepted = accepted_by(rules, schedule, book, TakenFor::Lines);
    let found = [
        accepted.as_ref().err().copied(),
        (!rules.rate_accepted(rate)).then_some(Refusal::CostRate),
        (!rules.bills_fit(buffer.len())).then_some(Refusal::BufferShort),
    ];
    let accepted = match (rules.first_of_bills(found), accepted) {
        (Some(refusal), _) | (None, Err(refusal)) => return Answer::Refused(refusal),
        (None, Ok(accepted)) => accepted,
    };
    let excesses = served(rules, &accepted).excesses;
    let bills = rules.bills(&excesses, &|excess| rules.cost(excess, rate));
    let bytes: Vec<u8> = bills.iter().flat_map(|&bill| (bill as u64).to_le_bytes()).collect();
    let written = buffer.len().min(bytes.len());
    buffer[..written].copy_from_slice(&bytes[..written]);
    Answer::Written(written)
}

/// What the exposure lines of a book were given.
pub struct Served {
    pub excesses: [DeskExcess; DESKS],
    /// How many lines were given a part of what they are.
    pub cut: usize,
}

/// The same of a schedule and a book; none where one of them is refused.
pub fn served_of(schedule: &[u8], book: &[u8]) -> Option<Served> {
    let accepted = accepted_by(&Documents, schedule, book, TakenFor::Lines).ok()?;
    Some(served(&Documents, &accepted))
}

fn served<R: Rules>(rules: &R, accepted: &Accepted) -> Served {
    let mut accounts: BTreeMap<_, Account> = BTreeMap::new();
    for line in accepted.groups.iter().flatten() {
        let account = accounts.entry(rules.account(line.top, line.top, line.tier)).or_default();
        account.exposure += line.exposure;
        account.excess += line.excess;
        account.left += rules.stands(line);
    }
    let mut lines = exposure_lines(rules, &accepted.book);
    lines.sort_by_key(|line| rules.serving_order(line));
    let mut served = Served { excesses: [DeskExcess::default(); DESKS], cut: 0 };
    for line in lines {
        let excess = match line.tier {
            None => rules.excess_without_limit(line.amount),
            Some(tier) => {
                let account = rules.account(line.counterparty, line.top, tier);
                let account = accounts.entry(account).or_default();
                let unserved = rules.unserved(line.amount, account);
                account.left -= line.amount - unserved;
                unserved
            }
        };
        served.excesses[usize::from(line.desk)].of_lines += excess;
        served.cut += usize::from(0 < excess && excess < line.amount);
    }
    let a3_excess = accepted.figures.charge - accepted.figures.group_excess;
    for (desk, excess) in (0..=255).zip(&mut served.excesses) {
        excess.of_a3 = rules.a3_excess(desk, a3_excess);
    }
    served
}

/// The covered parts and the remainder of each asset.
fn exposure_lines<R: Rules>(rules: &R, book: &Book) -> Vec<ExposureLine> {
    let tops = cascade::tops(rules, book);
    let mut lines = Vec::new();
    let exposures = fund::exposures(rules, book, TakenFor::Bills);
    for ((asset, place), mut exposures) in book.assets.iter().zip(1..).zip(exposures) {
        if !rules.has_exposure_lines(asset) {
            continue;
        }
        let remainder = exposures.pop().expect("a remainder");
        let line = |covered, desk, exposure: Exposure| ExposureLine {
            asset: place,
            covered,
            desk,
            counterparty: exposure.counterparty,
            top: tops[&exposure.counterparty],
            tier: fund::tier(rules, &exposure, &book.counterparties[&exposure.counterparty]),
            amount: exposure.amount,
        };
        for part in exposures {
            lines.push(line(true, rules.desk_of_part(book, place, &part), part));
        }
        lines.push(line(false, asset.desk, remainder));
    }
    lines
}
