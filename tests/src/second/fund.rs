//! Records to figures: values, exposures, tiers, limits, and refusals 13, 17, 14 and 15.

use super::fraction::Fraction;
use super::records::*;
use super::rules::Rules;
use crate::weightrose::Refusal;
use std::collections::BTreeMap;

/// VAF (P16), VAF′ (P20) and all reinsurance values.
#[derive(Clone)]
pub struct Values {
    pub vaf: i128,
    pub vaf_prime: i128,
    pub reinsurance: i128,
}

/// "VAF = total − all netted. VAF′ = total − reinsurance values + the sum of (stressed − netted,
/// never below 0) − excluded."
pub fn values<R: Rules>(rules: &R, book: &Book) -> Values {
    let reinsurance: Vec<&Asset> =
        book.assets.iter().filter(|asset| asset.is_reinsurance()).collect();
    let held: i128 = reinsurance.iter().map(|asset| asset.value).sum();
    let netted: i128 = reinsurance.iter().map(|asset| asset.offsets).sum();
    let stressed: i128 = reinsurance
        .iter()
        .map(|asset| rules.stressed_less_netted(asset, rules.stressed(asset)))
        .sum();
    Values {
        vaf: book.total - netted,
        vaf_prime: book.total - held + stressed - book.excluded,
        reinsurance: held,
    }
}

/// What a book of good records is turned back for, if anything: refusals 13, 17, 14 and 15.
pub fn refusal<R: Rules>(rules: &R, book: &Book, values: &Values) -> Option<Refusal> {
    let counts: Vec<u16> = book.assets.iter().map(|asset| asset.count).collect();
    let unless = |accepted: bool, refusal| Some(refusal).filter(|_| !accepted);
    rules.first_refusal([
        unless(rules.counts_accepted(&counts, book.mitigants), Refusal::MitigantCounts),
        rules.entry_not_of_fund(book).map(Refusal::SpecialistEntry),
        unless(
            rules.reinsurance_values_accepted(values.reinsurance, book.total),
            Refusal::ReinsuranceValues,
        ),
        unless(rules.vaf_prime_accepted(values.vaf_prime), Refusal::StressedAssets),
    ])
}

/// An asset's net.
pub fn net<R: Rules>(rules: &R, asset: &Asset) -> i128 {
    let value_or_stressed =
        if asset.is_reinsurance() { rules.stressed(asset) } else { asset.value };
    rules.net(asset, value_or_stressed)
}

/// The covered parts and the remainder of each asset, by its place: of a linked one, "its mitigants
/// unread", its net alone.
pub fn exposures<R: Rules>(rules: &R, book: &Book, taken_for: TakenFor) -> Vec<Vec<Exposure>> {
    let mut exposures = vec![Vec::new(); book.assets.len()];
    each_covered(rules, book, taken_for, |at, _, mut parts, covering| {
        let asset = &book.assets[at];
        let mut amount = rules.remainder(covering);
        if asset.linked {
            parts.clear();
            amount = covering.net;
        }
        let Asset { counterparty, kind, entry, months, .. } = *asset;
        parts.push(Exposure { counterparty, kind, entry, months, amount });
        exposures[at] = parts;
    });
    exposures
}

/// Hands each asset, counted from 0, to `each`, with the half that it draws on as it was before, its
/// covered parts in order, and what they come to.
pub fn each_covered<R: Rules>(
    rules: &R,
    book: &Book,
    taken_for: TakenFor,
    mut each: impl FnMut(usize, Option<(HalfName, &Half)>, Vec<Exposure>, &Covering),
) {
    let nets: Vec<i128> = book.assets.iter().map(|asset| net(rules, asset)).collect();
    let mut halves = halves(rules, book, &nets, taken_for);
    let at = |place: Place| usize::from(place) - 1;
    let mut order: Vec<Place> = (1..=book.assets.len() as Place).collect();
    order
        .sort_by_key(|&place| rules.drawing_order(place, &book.assets[at(place)], nets[at(place)]));
    for place in order {
        let (asset, net) = (&book.assets[at(place)], nets[at(place)]);
        let has_half = rules.has_half(&book.counterparties[&asset.counterparty]);
        if !(has_half && rules.draws_on_half(asset)) {
            let may = rules.may_be_covered(asset, net, None);
            let (parts, covering) = covered(rules, book, asset, net, may);
            each(at(place), None, parts, &covering);
            continue;
        }
        let name = rules.half_of(book, place, taken_for);
        let half = halves.entry(name).or_default();
        half.met += net;
        let may = rules.may_be_covered(asset, net, Some(half));
        let (parts, covering) = covered(rules, book, asset, net, may);
        each(at(place), Some((name, half)), parts, &covering);
        // A slip may draw more than there is.
        half.left = (half.left - rules.drawn(&covering)).max(0);
    }
}

/// The halves of the reinsurers, before any treaty draws (C-18).
fn halves<R: Rules>(
    rules: &R,
    book: &Book,
    nets: &[i128],
    taken_for: TakenFor,
) -> BTreeMap<HalfName, Half> {
    let mut halves: BTreeMap<HalfName, Half> = BTreeMap::new();
    for ((place, asset), &net) in (1..).zip(&book.assets).zip(nets) {
        let has_half = rules.has_half(&book.counterparties[&asset.counterparty]);
        if has_half && rules.adds_to_half(book, asset) {
            let half = halves.entry(rules.half_of(book, place, taken_for)).or_default();
            half.nets.push(rules.added_to_half(asset, net));
        }
    }
    for half in halves.values_mut() {
        half.whole = rules.half(&half.nets);
        half.left = half.whole;
    }
    halves
}

/// The parts of an asset that its recognised mitigants cover, in order, where so much may be
/// covered, and what that comes to.
fn covered<R: Rules>(
    rules: &R,
    book: &Book,
    asset: &Asset,
    net: i128,
    may: i128,
) -> (Vec<Exposure>, Covering) {
    let mut parts = Vec::new();
    let mut covering = Covering { net, ..Default::default() };
    for mitigant in &asset.mitigants {
        let counterparty = &book.counterparties[&mitigant.counterparty];
        if recognised(rules, mitigant, counterparty, asset.is_reinsurance()) {
            let amount = rules.covers(mitigant.value, may - covering.covered);
            covering.recognised += mitigant.value;
            covering.covered += amount;
            parts.push(covered_part(rules, mitigant, counterparty, amount));
        } else {
            covering.unrecognised += mitigant.value;
        }
    }
    (parts, covering)
}

fn covered_part<R: Rules>(
    rules: &R,
    mitigant: &Mitigant,
    counterparty: &Counterparty,
    amount: i128,
) -> Exposure {
    Exposure {
        counterparty: mitigant.counterparty,
        kind: rules.covered_kind(mitigant.form, counterparty),
        entry: None,
        months: 0,
        amount,
    }
}

pub fn recognised<R: Rules>(
    rules: &R,
    mitigant: &Mitigant,
    counterparty: &Counterparty,
    reinsurance: bool,
) -> bool {
    match mitigant.form {
        Form::Cash | Form::GovernmentSecurity | Form::Debt => {
            rules.collateral_recognised(mitigant, counterparty, reinsurance)
        }
        Form::Guarantee => rules.guarantee_recognised(mitigant, counterparty, reinsurance),
        Form::LetterOfCredit => {
            let as_guarantee = rules.guarantee_recognised(mitigant, counterparty, true);
            rules.letter_recognised(as_guarantee, reinsurance)
        }
    }
}

/// An exposure's tier; none where it has no limit.
pub fn tier<R: Rules>(rules: &R, exposure: &Exposure, counterparty: &Counterparty) -> Option<Tier> {
    if rules.unlimited(exposure.kind, counterparty) {
        return None;
    }
    let kept = || rules.kept_after(exposure.months);
    Some(match (exposure.kind, exposure.entry) {
        (Kind::Reinsurance, Some(Entry::Retrocession)) => {
            rules.retrocession_tier(counterparty, exposure.months)
        }
        (Kind::Reinsurance, _) if counterparty.graded() => {
            rules.graded_reinsurance_tier(counterparty)
        }
        (Kind::Reinsurance, None) => Tier::IReinsurance,
        (Kind::Reinsurance, Some(Entry::E)) => {
            downgraded_tier([Tier::E, Tier::EFirst, Tier::ESecond], kept())
        }
        (Kind::Reinsurance, Some(Entry::G)) => {
            downgraded_tier([Tier::G, Tier::GFirst, Tier::GSecond], kept())
        }
        (kind, _) => rules.tier(kind, counterparty),
    })
}

fn downgraded_tier([full, first, second]: [Tier; 3], kept: Kept) -> Tier {
    match kept {
        Kept::Full => full,
        Kept::FirstPercent => first,
        Kept::SecondPercent => second,
        Kept::Nothing => Tier::IReinsurance,
    }
}

/// The fund's limit in each tier, with `w` the W of row d.
pub fn limits<R: Rules>(
    rules: &R,
    schedule: &Schedule,
    base: i128,
    values: &Values,
    w: i128,
) -> BTreeMap<Tier, Limit> {
    let limit = |tier: Tier| {
        let basis = Basis {
            version: schedule.version,
            tier,
            row: rules.row(tier, schedule),
            fund_vaf: values.vaf,
            vaf: if rules.uses_vaf_prime(tier) { values.vaf_prime } else { values.vaf },
            base,
            w: if rules.lessened_by_w(tier) { w } else { 0 },
            kept: rules.percent(tier, schedule),
        };
        let Basis { version, row, vaf, w, kept, .. } = basis;
        let products = products(rules, &row, vaf, base, w);
        let cents = rules.limit(version, Some(tier), products, row.fixed, kept);
        (tier, Limit { cents, unrounded: rules.unrounded(&basis, products) })
    };
    Tier::ALL.into_iter().map(limit).collect()
}

/// "row z's limit (on VAF′, no percent) the A3 limit".
pub fn a3_limit<R: Rules>(rules: &R, schedule: &Schedule, base: i128, values: &Values) -> i128 {
    let vaf = rules.a3_vaf(values.vaf, values.vaf_prime);
    let row = &schedule.rows[&RowName::Z];
    let products = products(rules, row, vaf, base, 0);
    rules.limit(schedule.version, None, products, row.fixed, Fraction::whole(1))
}

/// A row's three products.
fn products<R: Rules>(rules: &R, row: &Row, vaf: i128, base: i128, w: i128) -> [Fraction; 3] {
    let [first, second] = rules.vaf_products(row, vaf, w);
    [first, second, rules.base_product(row, base)]
}
