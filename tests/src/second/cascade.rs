//! Exposures to groups, groups to lines (P23).

use super::fund;
use super::records::*;
use super::rules::Rules;
use std::collections::BTreeMap;

/// What a group has in one tier, and the part of it that A3 counts.
#[derive(Clone, Default)]
pub struct Share {
    pub exposure: i128,
    a3_together: i128,
}

/// The fund's exposures, summed.
#[derive(Default)]
pub struct Sums {
    /// By topmost parent, then tier.
    pub groups: BTreeMap<Place, BTreeMap<Tier, Share>>,
    pub linked: i128,
    pub net_of_others: i128,
    pub without_limit: i128,
    pub w: i128,
}

/// The topmost parent of each counterparty.
pub fn tops<R: Rules>(rules: &R, book: &Book) -> BTreeMap<Place, Place> {
    let top = |&place: &Place| (place, rules.topmost(&book.counterparties, place));
    book.counterparties.keys().map(top).collect()
}

pub fn sums<R: Rules>(rules: &R, book: &Book, taken_for: TakenFor) -> Sums {
    let tops = tops(rules, book);
    let mut sums = Sums::default();
    let exposures = fund::exposures(rules, book, taken_for);
    for (asset, exposures) in book.assets.iter().zip(exposures) {
        // "A linked asset's net is unlimited and its mitigants unread."
        if asset.linked {
            sums.linked += fund::net(rules, asset);
            continue;
        }
        sums.net_of_others += fund::net(rules, asset);
        for exposure in exposures {
            let counterparty = &book.counterparties[&exposure.counterparty];
            sums.add(rules, &exposure, counterparty, tops[&exposure.counterparty]);
        }
    }
    sums
}

impl Sums {
    fn add<R: Rules>(
        &mut self,
        rules: &R,
        exposure: &Exposure,
        counterparty: &Counterparty,
        top: Place,
    ) {
        let Some(tier) = fund::tier(rules, exposure, counterparty) else {
            self.without_limit += exposure.amount;
            return;
        };
        if rules.counts_in_w(tier, exposure.kind) {
            self.w += exposure.amount;
        }
        let share = self.groups.entry(top).or_default().entry(tier).or_default();
        share.exposure += exposure.amount;
        if rules.counts_in_a3(tier, exposure, counterparty) {
            share.a3_together += exposure.amount;
        }
    }
}

/// The lines of one group, by rank.
pub fn lines<R: Rules>(
    rules: &R,
    top: Place,
    shares: &BTreeMap<Tier, Share>,
    limits: &BTreeMap<Tier, Limit>,
) -> Vec<Line> {
    let mut ranked: Vec<(&Tier, &Share)> =
        shares.iter().filter(|(_, share)| rules.has_line(share.exposure)).collect();
    ranked.sort_by_cached_key(|(tier, _)| rules.rank(**tier, &limits[tier]));
    let mut standing = 0;
    let mut lines = Vec::new();
    for (&tier, share) in ranked {
        let limit = &limits[&tier];
        let left = rules.left(tier, limit, standing);
        let excess = rules.excess(share.exposure, limit, left);
        // "standing grows by the rest".
        standing += share.exposure - excess;
        let (exposure, a3_together) = (share.exposure, share.a3_together);
        lines.push(Line { top, tier, exposure, limit: limit.cents, left, excess, a3_together });
    }
    rules.put_in_order(&mut lines, limits);
    lines
}
