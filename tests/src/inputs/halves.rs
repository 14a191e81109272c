//! The half of a reinsurer (C-18): several treaties with one, mitigants on some of them, and all that
//! stands beside them without adding to the half or drawing on it; then seeded funds of that sort.

use super::billings::{bank, cash, limits, low_limits};
use super::combinations::book_of_sorts;
use super::{books, rates, Input};
use crate::random::Random;
use crate::raw::*;

/// The counterparties of a fund: a bank, the home government, a graded and an ungraded name, then
/// reinsurers. Those below the first are of its group.
const BANK: u16 = 1;
const HOME: u16 = 2;
const GRADED: u16 = 3;
const UNGRADED: u16 = 4;
const REINSURER: u16 = 5;
const BELOW: u16 = 6;
const AFFILIATE: u16 = 7;
const REGISTERED: u16 = 8;
const APART: u16 = 9;
const RELATED_BANK: u16 = 10;

/// What an asset is, and its mitigants.
type Held = (RawAsset, Vec<RawMitigant>);

pub fn all() -> Vec<Input> {
    let parts = [
        ("halves: two treaties", two_treaties()),
        ("halves: three treaties", three_treaties()),
        ("halves: run out", run_out()),
        ("halves: forms", forms()),
        ("halves: between", between()),
        ("halves: groups", groups()),
        ("halves: sorts", sorts()),
        ("halves: nets", nets()),
        ("halves: retrocessions", retrocessions()),
        ("halves: desks", desks()),
        ("halves: many treaties", many_treaties()),
        ("halves: most", most()),
    ];
    let named =
        |(name, part): (_, Vec<Input>)| part.into_iter().map(move |it| Input { name, ..it });
    parts.into_iter().flat_map(named).collect()
}

/// A book of these counterparties, still without assets.
fn empty() -> RawBook {
    let mut book = RawBook::empty(1_000_000, 0, 0);
    let none = RawCounterparty::default();
    let below = RawCounterparty { parent: REINSURER, ..none };
    book.counterparties = vec![
        bank(),
        RawCounterparty { kind: 2, ..none },
        RawCounterparty { grade: 1, ..none },
        none,
        none,
        below,
        RawCounterparty { flags: 2, ..below },
        RawCounterparty { kind: 4, grade: 2, ..below },
        RawCounterparty { grade: 3, ..none },
        RawCounterparty { flags: 1, ..bank() },
    ];
    book
}

fn treaty(counterparty: u16, net: u64) -> RawAsset {
    RawAsset { kind: 9, counterparty, combination_stress: net, ..Default::default() }
}

/// A good letter of a bank.
fn letter(value: u64) -> RawMitigant {
    RawMitigant { form: 5, flags: 8, counterparty: BANK, value }
}

fn none_or(value: u64) -> Vec<RawMitigant> {
    if value == 0 {
        Vec::new()
    } else {
        vec![letter(value)]
    }
}

/// A fund of these assets, under one limit for all tiers.
fn input(limit: u64, assets: &[Held]) -> Input {
    let mut book = empty();
    assets.iter().for_each(|(asset, mitigants)| book.asset(*asset, mitigants));
    Input::new("halves", &limits(limit, limit), &book)
}

/// Treaties of these nets with letters of these values, all of one reinsurer.
fn of_one_reinsurer(limit: u64, treaties: &[(u64, u64)]) -> Input {
    let held = |&(net, letter): &(u64, u64)| (treaty(REINSURER, net), none_or(letter));
    input(limit, &treaties.iter().map(held).collect::<Vec<Held>>())
}

/// Odd and even sums, with letters on either treaty or on both: a cent, about the half, and more
/// than there is.
fn two_treaties() -> Vec<Input> {
    let nets = [0, 1, 2, 3, 50, 99, 100, 101];
    let mut inputs = Vec::new();
    for (first, second) in nets.into_iter().flat_map(|one| nets.map(|other| (one, other))) {
        let half: u64 = (first + second) / 2;
        let values = [1, half.saturating_sub(1), half, half + 1, 101, 1_000];
        for (place, value) in values.into_iter().enumerate() {
            let limit = [0, 20, 60, 100][(place + first as usize) % 4];
            for letters in [[value, 0], [0, value], [value, value]] {
                let treaties = [(first, letters[0]), (second, letters[1])];
                inputs.push(of_one_reinsurer(limit, &treaties));
            }
        }
    }
    inputs
}

/// Each of three treaties without a letter, with one of its net, or with one of all nets.
fn three_treaties() -> Vec<Input> {
    let mut inputs = Vec::new();
    for nets in [
        [1, 1, 1],
        [1, 2, 3],
        [101, 99, 100],
        [100, 100, 100],
        [50, 101, 2],
        [0, 101, 99],
        [101, 0, 1],
        [7, 500, 7],
        [500, 7, 7],
    ] {
        let sum: u64 = nets.iter().sum();
        for number in 0..27 {
            let treaties: [(u64, u64); 3] = std::array::from_fn(|place| {
                let net = nets[place];
                (net, [0, net, sum][number / 3usize.pow(place as u32) % 3])
            });
            inputs.push(of_one_reinsurer(sum / 4, &treaties));
        }
    }
    inputs
}

/// Draws that run out at each of two to six treaties: just there, a cent before and a cent behind.
fn run_out() -> Vec<Input> {
    let mut inputs = Vec::new();
    for net in [100u64, 101] {
        for count in 2..=6 {
            for last in 1..=count {
                for beside in [-1, 0, 1] {
                    let half = net * count / 2;
                    let each = half / last;
                    let rest = (half - each * (last - 1)).saturating_add_signed(beside);
                    let value = |place| match place {
                        _ if place < last => each,
                        _ if place == last => rest,
                        _ => 5,
                    };
                    let treaties: Vec<(u64, u64)> =
                        (1..=count).map(|place| (net, value(place))).collect();
                    inputs.push(of_one_reinsurer(half / 2, &treaties));
                }
            }
        }
    }
    inputs
}

/// Each form with flags that make it recognised and with such that do not, of each issuer, on one
/// treaty, with a good letter on the treaty before or behind it.
fn forms() -> Vec<Input> {
    let mut inputs = Vec::new();
    for form in 1..=5 {
        for flags in [31, 0, 8, 4, 16, 17, 18, 23, 15] {
            for counterparty in [BANK, HOME, GRADED, UNGRADED, RELATED_BANK] {
                let mitigant = RawMitigant { form, flags, counterparty, value: 70 };
                let first = (treaty(REINSURER, 101), vec![mitigant]);
                let second = (treaty(REINSURER, 99), vec![letter(80)]);
                inputs.push(input(40, &[first.clone(), second.clone()]));
                inputs.push(input(40, &[second, first.clone()]));
                let both = vec![mitigant, letter(20), mitigant];
                inputs.push(input(40, &[(treaty(REINSURER, 101), both), first]));
            }
        }
    }
    inputs
}

/// Each set of what neither adds to the half nor draws on it, before, between and behind two treaties.
fn between() -> Vec<Input> {
    let linked = RawAsset { flags: 1, ..treaty(REINSURER, 301) };
    let loan =
        |kind, value| RawAsset { kind, value, combination_stress: 0, ..treaty(REINSURER, 0) };
    let beside: [Held; 8] = [
        (linked, vec![letter(301)]),
        (RawAsset { combination_stress: 77, ..linked }, vec![]),
        (loan(7, 90), vec![cash(BANK, 60)]),
        (loan(11, 45), vec![]),
        (treaty(BELOW, 33), vec![letter(33)]),
        (treaty(AFFILIATE, 51), vec![letter(50)]),
        (treaty(REGISTERED, 61), vec![letter(70)]),
        (treaty(APART, 201), vec![letter(201)]),
    ];
    let mut inputs = Vec::new();
    for set in 0..256 {
        let mut assets = Vec::new();
        let own =
            [(treaty(REINSURER, 101), vec![letter(90)]), (treaty(REINSURER, 98), vec![letter(99)])];
        for (place, other) in beside.iter().enumerate() {
            if place == set % 3 {
                assets.push(own[0].clone());
            }
            if set >> place & 1 == 1 {
                assets.push(other.clone());
            }
            if place == 4 + set % 4 {
                assets.push(own[1].clone());
            }
        }
        inputs.push(input(60, &assets));
    }
    inputs
}

/// Two reinsurers of one group: a parent and its child, two children, and a chain.
fn groups() -> Vec<Input> {
    let nets = [1, 3, 100, 101];
    let mut inputs = Vec::new();
    for (first, second) in nets.into_iter().flat_map(|one| nets.map(|other| (one, other))) {
        for letters in [[0, 150], [150, 0], [150, 150]] {
            for (parent, one, other) in
                [(REINSURER, REINSURER, BELOW), (0, REINSURER, BELOW), (GRADED, BELOW, REINSURER)]
            {
                let mut book = empty();
                book.counterparties[usize::from(BELOW) - 1].parent = parent;
                if parent == GRADED {
                    book.counterparties[usize::from(REINSURER) - 1].parent = GRADED;
                }
                for _ in 0..2 {
                    book.asset(treaty(one, first), &none_or(letters[0]));
                    book.asset(treaty(other, second), &none_or(letters[1]));
                }
                inputs.push(Input::new("halves", &limits(50, 70), &book));
            }
        }
    }
    inputs
}

/// Two treaties with each of the 320 sorts of counterparty, one behind the other, or all second ones
/// behind all first ones.
fn sorts() -> Vec<Input> {
    let mut inputs = Vec::new();
    for nets in [[101, 99], [99, 101], [1, 1], [101, 101]] {
        for letters in [[101, 0], [0, 101], [60, 60]] {
            for apart in [false, true] {
                let mut book = book_of_sorts();
                let bank = book.counterparty(bank());
                for number in 0..640 {
                    let (sort, which) =
                        if apart { (number % 320, number / 320) } else { (number / 2, number % 2) };
                    let letter = RawMitigant { counterparty: bank, ..letter(letters[which]) };
                    let letters = if letter.value > 0 { vec![letter] } else { Vec::new() };
                    book.asset(treaty(sort as u16 + 1, nets[which]), &letters);
                }
                inputs.push(Input::new("halves", &limits(40, 900), &book));
            }
        }
    }
    inputs
}

/// Nets of stresses, netted liabilities and deductions, some of them nothing, beside one of 99.
fn nets() -> Vec<Input> {
    let mut inputs = Vec::new();
    for offsets in [0, 30, 100, 150] {
        for deductions in [0, 20, 200] {
            for insurance_stress in [0, 150] {
                for combination_stress in [100, 101] {
                    for flags in [0, 2] {
                        let first = RawAsset {
                            flags,
                            value: 170,
                            offsets,
                            deductions,
                            insurance_stress,
                            combination_stress,
                            ..treaty(REINSURER, 0)
                        };
                        let second = treaty(REINSURER, 99);
                        let [covered, bare] = [vec![letter(160)], vec![]];
                        inputs.push(input(30, &[(first, covered.clone()), (second, bare.clone())]));
                        inputs.push(input(30, &[(second, bare), (first, covered.clone())]));
                        inputs.push(input(30, &[(first, vec![]), (second, covered)]));
                    }
                }
            }
        }
    }
    inputs
}

/// Treaties of each two entry classes with one reinsurer of a specialist fund.
fn retrocessions() -> Vec<Input> {
    let mut inputs = Vec::new();
    for (one, other) in (0..4).flat_map(|one| (0..4).map(move |other| (one, other))) {
        for months in [0, 3, 12, 24] {
            for letters in [[200, 0], [0, 200], [60, 90]] {
                let mut book = RawBook { specialist: 1, ..empty() };
                for (entry, letter) in [one, other].into_iter().zip(letters) {
                    let months = if entry == 0 { 0 } else { months };
                    let asset = RawAsset { entry, months, ..treaty(REINSURER, 101) };
                    book.asset(asset, &none_or(letter));
                }
                inputs.push(Input::new("halves", &limits(45, 60), &book));
            }
        }
    }
    inputs
}

/// Four treaties of one reinsurer at four desks, in each order.
fn desks() -> Vec<Input> {
    let mut inputs = Vec::new();
    for order in 0..24 {
        let mut left = vec![0, 1, 7, 255];
        let desks = [order / 6, order / 2 % 3, order % 2, 0].map(|place| left.remove(place));
        for (limit, value) in [(0, 80), (50, 150), (120, 60)] {
            let mut book = RawBook { version: 2, ..empty() };
            for (net, desk) in [101, 60, 99, 41].into_iter().zip(desks) {
                book.asset(RawAsset { desk, ..treaty(REINSURER, net) }, &[letter(value)]);
            }
            inputs.push(Input::new("halves", &limits(limit, limit), &book));
        }
    }
    inputs
}

/// As many treaties as a book holds, of one reinsurer and of several in turn, with a letter each, with
/// two on many, or with letters on the last of them alone.
fn many_treaties() -> Vec<Input> {
    let mut inputs = Vec::new();
    for count in [100, 255, 256, 257, 899, 900] {
        for reinsurers in [1, 3] {
            for sort in 0..4 {
                let mut book = empty();
                for place in 0..count {
                    let counterparty = REINSURER + place as u16 % reinsurers * 2;
                    let letters = match sort {
                        0 => vec![letter(101)],
                        1 => vec![letter(31); 1 + usize::from(place % 3 < 2 && place < 800)],
                        2 if place > count - 40 => vec![letter(90_000)],
                        2 => vec![],
                        _ => vec![letter(place as u64 % 60)],
                    };
                    book.asset(treaty(counterparty, 101), &letters);
                }
                inputs.push(Input::new("halves", &limits(5_000, 9_000), &book));
            }
        }
    }
    inputs
}

/// Nets of about M, whose sum is up to twice that, and 900 of M, which 15 turns back.
fn most() -> Vec<Input> {
    let mut inputs = Vec::new();
    let half = MOST / 2;
    for nets in [
        [MOST, MOST],
        [MOST, MOST - 1],
        [MOST - 1, MOST],
        [MOST, 1],
        [1, MOST],
        [MOST - 1, 1],
        [half, half],
        [half, half + 1],
        [0, MOST],
    ] {
        for letters in [[MOST, 0], [0, MOST], [MOST, MOST], [half + 1, half]] {
            for limit in [0, half, MOST] {
                let mut input =
                    of_one_reinsurer(limit, &[(nets[0], letters[0]), (nets[1], letters[1])]);
                // VAF′ is M, or the sum where that is less.
                let excluded = (nets[0] + nets[1]).saturating_sub(MOST);
                input.book[16..24].fill(0);
                input.book[32..40].copy_from_slice(&excluded.to_le_bytes());
                inputs.push(input);
            }
        }
    }
    for flags in [0, 1] {
        for excluded in [0, MOST] {
            let mut book = RawBook { total: 0, excluded, ..empty() };
            let asset = RawAsset { flags, ..treaty(REINSURER, MOST) };
            (0..900).for_each(|_| book.asset(asset, &[letter(MOST)]));
            inputs.push(Input::new("halves", &limits(MOST, MOST), &book));
        }
    }
    inputs
}

/// A fund with a few treaties of one reinsurer, now and then with many, and others between them.
pub fn random(random: &mut Random) -> (RawSchedule, RawBook) {
    let treaties = match random.below(200) {
        0..=169 => random.between(2, 6),
        170..=195 => random.between(7, 20),
        196..=198 => random.between(21, 90),
        _ => random.between(91, 400),
    };
    let most = MOST / (4 * treaties + 10);
    let scale = random.pick(&[1, 2, 5, 10, 101, 1_000, 1_000_000, most]);
    let mut book = empty();
    random_parties(random, &mut book);
    for _ in 0..treaties {
        while random.chance(30) {
            book.assets.push(random_beside(random, scale));
        }
        book.assets.push(random_treaty(random, REINSURER, scale));
    }
    book.specialist = random.chance(30) as u8;
    if book.specialist == 1 {
        books::retrocede(random, 40, &mut book);
    }
    add_mitigants(random, &mut book);
    books::set_totals(random, scale, &mut book);
    if random.chance(6) {
        past_most(random, &mut book);
    }
    let nets: u64 = book.assets.iter().map(net).sum();
    (random_schedule(random, nets, scale), book)
}

/// Another reinsurer, other groups, other grades and flags; the first one has a half nearly always.
fn random_parties(random: &mut Random, book: &mut RawBook) {
    for place in [REINSURER, BELOW, AFFILIATE, REGISTERED, APART] {
        let party = &mut book.counterparties[usize::from(place) - 1];
        if random.chance(60) {
            party.grade = random.below(5) as u8;
        }
        if random.chance(20) {
            party.parent = random.below(u64::from(place)) as u16;
        }
        if random.chance(15) {
            party.kind = random.pick(&[0, 1, 2, 3]);
        }
        if random.chance(30) {
            party.flags ^= random.pick(&[1, 4, 5]);
        }
        if random.chance(5) {
            party.flags ^= 2;
        }
    }
}

/// An amount of about a scale, often one at a boundary.
fn random_amount(random: &mut Random, scale: u64) -> u64 {
    match random.below(20) {
        0..=1 => 0,
        2..=3 => 1,
        4..=6 => scale,
        7 => scale + 1,
        _ => random.between(0, scale),
    }
}

fn random_treaty(random: &mut Random, counterparty: u16, scale: u64) -> RawAsset {
    let mut asset = treaty(counterparty, random_amount(random, scale));
    let (entry, any) = (random.below(3) as u8, random.below(30) as u8);
    let months = [0, 2, 3, 11, 12, 23, 24, 255, any];
    if random.chance(50) && entry > 0 {
        (asset.entry, asset.months) = (entry, random.pick(&months));
    }
    if random.chance(40) {
        asset.insurance_stress = random_amount(random, scale);
        asset.flags |= (random.chance(60) as u8) << 1;
    }
    if random.chance(35) {
        asset.value = random_amount(random, scale);
        asset.offsets = random_amount(random, asset.value / 2).min(asset.value);
    }
    if random.chance(20) {
        asset.deductions = random_amount(random, scale / 3);
    }
    asset.flags |= random.chance(8) as u8;
    asset
}

/// A treaty of another reinsurer, or any other asset with the first one.
fn random_beside(random: &mut Random, scale: u64) -> RawAsset {
    match random.below(100) {
        0..=59 => {
            let reinsurer = random.pick(&[BELOW, BELOW, AFFILIATE, REGISTERED, APART, APART]);
            random_treaty(random, reinsurer, scale)
        }
        60..=69 => RawAsset { flags: 1, ..random_treaty(random, REINSURER, scale) },
        number => RawAsset {
            kind: random.pick(&[3, 4, 6, 7, 7, 8, 10, 11]),
            counterparty: if number < 90 { REINSURER } else { BANK },
            value: random_amount(random, scale),
            ..Default::default()
        },
    }
}

fn net(asset: &RawAsset) -> u64 {
    let rises = asset.flags & 2 != 0;
    let stressed = asset.combination_stress.max(if rises { asset.insurance_stress } else { 0 });
    let worth = if asset.kind == 9 { stressed } else { asset.value };
    worth.saturating_sub(asset.offsets + asset.deductions)
}

/// Hands the assets none to three mitigants, most of them good, of values about what is left of their
/// reinsurer's half and about their nets.
fn add_mitigants(random: &mut Random, book: &mut RawBook) {
    let mut left = vec![0; book.counterparties.len() + 1];
    let treaties = || book.assets.iter().filter(|asset| asset.kind == 9 && asset.flags & 1 == 0);
    treaties().for_each(|asset| left[usize::from(asset.counterparty)] += net(asset));
    left.iter_mut().for_each(|sum| *sum /= 2);
    let with_none = random.pick(&[10, 30, 60]);
    let generous = random.chance(35);
    for asset in &mut book.assets {
        if random.chance(with_none) {
            continue;
        }
        asset.mitigants = random.pick(&[1, 1, 1, 2, 3]);
        let net = net(asset);
        for _ in 0..asset.mitigants {
            let left = &mut left[usize::from(asset.counterparty)];
            let any = random.between(0, 2 * net + 1);
            let about_left = random.pick(&[*left, *left + 1, left.saturating_sub(1), *left / 2]);
            let about_net = random.pick(&[net, net + 1, net / 2, net / 2 + 1]);
            let values = [about_left, about_left, about_net, any, any, 1, 0];
            let value = if generous { net + any } else { random.pick(&values) }.min(MOST);
            *left -= value.min(*left).min(net);
            let form = random.pick(&[5, 5, 5, 4, 1, 2, 3]);
            let good = random.pick(&match form {
                2 => [HOME, HOME, BANK],
                3 => [GRADED, BANK, APART],
                _ => [BANK, BANK, BANK],
            });
            let (mut flags, mut counterparty) = (31, good);
            if random.chance(15) {
                flags = random.below(32) as u8;
            }
            if random.chance(10) {
                counterparty = random.between(1, u64::from(RELATED_BANK)) as u16;
            }
            book.mitigants.push(RawMitigant { form, flags, counterparty, value });
        }
    }
}

/// Makes a few unlinked treaties the first reinsurer's and so large that their nets mostly come to
/// more than M.
fn past_most(random: &mut Random, book: &mut RawBook) {
    let large = random.between(2, 4);
    let mut sum = 0;
    let own = |asset: &&mut RawAsset| asset.kind == 9 && asset.flags & 1 == 0;
    for asset in book.assets.iter_mut().filter(own).take(large as usize) {
        asset.counterparty = REINSURER;
        asset.combination_stress = random.between(MOST / 4, 7 * MOST / (4 * large));
        (asset.value, asset.offsets, asset.deductions) = (0, 0, 0);
        sum += asset.combination_stress;
    }
    book.total = book.assets.iter().filter(|asset| asset.kind == 9).map(|asset| asset.value).sum();
    book.excluded = sum.saturating_sub(MOST / 2).min(MOST);
    for mitigant in &mut book.mitigants {
        if random.chance(60) {
            mitigant.value = random.between(MOST / 4, MOST);
        }
    }
}

/// Limits about what the treaties come to, or any.
fn random_schedule(random: &mut Random, nets: u64, scale: u64) -> RawSchedule {
    let about = |random: &mut Random| {
        let parts = [nets / 8, nets / 4, nets / 2, nets / 2 + 1, nets, scale, 0];
        random.pick(&parts).min(MOST)
    };
    let mut schedule = limits(about(random), about(random));
    match random.below(100) {
        0..=34 => {}
        35..=64 => schedule.rows.iter_mut().for_each(|row| row.fixed = about(random)),
        65..=79 => return low_limits(random, scale),
        _ => return books::random_schedule(random, scale),
    }
    if random.chance(30) {
        schedule = rates::beside_ten_times(random, &schedule);
    }
    schedule
}
