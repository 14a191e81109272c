//! The halves of reinsurers (C-18): what a book meets of them.

use super::records::*;
use super::rules::Documents;
use super::{accepted_by, fund};
use std::collections::BTreeMap;

/// What the halves of an accepted book are drawn on by.
#[derive(Clone, Copy, Debug, Default, PartialEq, Eq)]
pub struct MetHalves {
    /// Two or more unlinked treaties have one half: all that C-18 can have changed.
    pub of_several: bool,
    /// Two or more of them carry recognised mitigants.
    pub shared: bool,
    /// A treaty is covered for less than it would be had no earlier one drawn.
    pub cut_short: bool,
    /// A treaty is covered for more than half of its own net.
    pub over_half: bool,
}

/// The same of a schedule and a book; none where one of them is refused.
pub fn halves_of(schedule: &[u8], book: &[u8]) -> Option<MetHalves> {
    let accepted = accepted_by(&Documents, schedule, book, TakenFor::Lines).ok()?;
    let mut met = MetHalves::default();
    // Treaties of each half, and those with recognised mitigants.
    let mut treaties: BTreeMap<HalfName, [usize; 2]> = BTreeMap::new();
    fund::each_covered(&Documents, &accepted.book, TakenFor::Lines, |_, half, parts, covering| {
        let Some((name, half)) = half else {
            return;
        };
        let Covering { net, covered, recognised, .. } = *covering;
        let [all, with_mitigants] = treaties.entry(name).or_default();
        *all += 1;
        *with_mitigants += usize::from(!parts.is_empty());
        met.of_several |= *all > 1;
        met.shared |= *with_mitigants > 1;
        met.cut_short |= covered < recognised.min(net).min(half.whole);
        met.over_half |= 2 * covered > net;
    });
    Some(met)
}
