//! What the answers to dealers are compared on: schedules, books, lists of questions and the length
//! of the buffer. Most of the seeded funds are near their limits, on either side.

use super::billings::{bank, cash, concentrated, limits, of_reinsurers, turned_back};
use super::extremes::{self, sixteen_tiers};
use super::faults::{every_set, refusable, refuse_12_to_17, refused_1_to_12};
use super::{books, combinations, halves, made, of_any_family, rates, ties, versions};
use super::{Input, Listed, Parents, Room, Shape};
use crate::random::Random;
use crate::raw::*;
use crate::weightrose::{ANSWER, MOST_QUESTIONS, QUESTION};

/// Seeded inputs of the report, the converter and the bills have other numbers.
const APART: u64 = 1 << 42;

/// The kinds that may be asked about.
pub const KINDS: [u8; 10] = [1, 2, 3, 4, 5, 6, 7, 8, 10, 11];

/// An input of the answers: the report's, with a list of questions.
#[derive(Clone, Debug)]
pub struct Asking {
    pub input: Input,
    pub questions: Vec<u8>,
}

pub type Askings = Listed<Asking>;

impl Askings {
    pub fn new(seed: u64) -> Askings {
        let parts = [
            lengths(),
            places(),
            kinds(),
            rooms(),
            refusals_1_to_12(),
            refusals_12_to_21(),
            every_sort(),
            two_tiers(),
            five_tiers(),
            ties(),
            parents(),
            every_tier(),
            covered(),
            without_limit(),
            most(),
            w_held(),
            a3_held(),
            long_lists(),
            every_combination(),
            schedule_versions(),
            reports_under_rates(),
            near_ties(),
            treaties(),
            sizes(),
            largest(),
        ];
        Listed::of(seed, APART, parts, seeded)
    }
}

fn ask(counterparty: u16, kind: u8) -> RawQuestion {
    RawQuestion { counterparty, kind }
}

/// Each kind with each counterparty.
fn ask_all(counterparties: impl IntoIterator<Item = u16>) -> Vec<RawQuestion> {
    let of = |counterparty| KINDS.map(|kind| ask(counterparty, kind));
    counterparties.into_iter().flat_map(of).collect()
}

/// With a buffer of the answers' length.
fn asking(
    name: &'static str,
    schedule: &RawSchedule,
    book: &RawBook,
    questions: &[RawQuestion],
) -> Asking {
    of_input(Input::new(name, schedule, book), RawQuestion::list(questions))
}

fn of_input(mut input: Input, questions: Vec<u8>) -> Asking {
    input.room = Room::Bytes(answers(&questions));
    Asking { input, questions }
}

/// Bytes of the answers to a list.
fn answers(questions: &[u8]) -> usize {
    questions.len() / QUESTION * ANSWER
}

fn in_room(asking: &Asking, room: usize) -> Asking {
    let input = Input { room: Room::Bytes(room), ..asking.input.clone() };
    Asking { input, ..asking.clone() }
}

fn held(kind: u8, counterparty: u16, value: u64) -> RawAsset {
    RawAsset { kind, counterparty, value, ..Default::default() }
}

fn empty() -> RawBook {
    RawBook::empty(MOST / 2, 0, 0)
}

/// The fixed amounts of rows c, d, f, h and i, and nothing of the others.
fn fixed_amounts([c, d, f, h, i]: [u64; 5]) -> RawSchedule {
    let row = |fixed| RawRow { rates: [0; 3], fixed };
    RawSchedule {
        percents: [100, 100],
        rows: [c, d, 0, f, 0, h, i, 0].map(row),
        ..RawSchedule::published()
    }
}

/// A group of a province, a bank and a registered company, so that its tiers are c, d, f, h and i:
/// kinds 5, 4, 10, 6 and 11. The province, at place 2, is the topmost parent of both others.
fn of_five_tiers(values: [u64; 5]) -> RawBook {
    let mut book = empty();
    book.counterparty(RawCounterparty { kind: 2, ..Default::default() });
    let top = book.counterparty(RawCounterparty { kind: 3, ..Default::default() });
    let bank = book.counterparty(RawCounterparty { parent: top, ..bank() });
    let life = RawCounterparty { kind: 4, grade: 1, parent: bank, ..Default::default() };
    let life = book.counterparty(life);
    let sorts = [(5, top), (4, bank), (10, life), (6, life), (11, bank)];
    for ((kind, counterparty), value) in sorts.into_iter().zip(values) {
        if value > 0 {
            book.asset(held(kind, counterparty, value), &[]);
        }
    }
    book
}

/// A question for each of these tiers, none of them of the group's topmost parent but the first.
const FIVE_TIERS: [RawQuestion; 6] = [
    RawQuestion { counterparty: 2, kind: 5 },
    RawQuestion { counterparty: 3, kind: 4 },
    RawQuestion { counterparty: 4, kind: 10 },
    RawQuestion { counterparty: 3, kind: 6 },
    RawQuestion { counterparty: 4, kind: 11 },
    RawQuestion { counterparty: 3, kind: 3 },
];

/// Lists of every length about those of a few questions and of the most, and far longer ones.
fn lengths() -> Vec<Asking> {
    let book = of_five_tiers([100, 200, 300, 50, 25]);
    let schedule = fixed_amounts([500, 900, 700, 200, 100]);
    let mut inputs = Vec::new();
    for length in (0..=31).chain(591..=612).chain([897, 900, 1_000, 3_000, 65_535, 196_608]) {
        let list: Vec<RawQuestion> =
            FIVE_TIERS.into_iter().cycle().take(length / QUESTION + 1).collect();
        let mut bytes = RawQuestion::list(&list);
        bytes.truncate(length);
        let whole = of_input(Input::new("lengths", &schedule, &book), bytes);
        let room = answers(&whole.questions);
        inputs
            .extend([room, room + ANSWER, room.saturating_sub(1), 0].map(|it| in_room(&whole, it)));
        // Without a counterparty there is no question to ask.
        let none = RawBook::empty(1_000, 0, 0);
        inputs.push(of_input(Input::new("lengths", &schedule, &none), whole.questions.clone()));
    }
    inputs
}

/// The first, the middle and the last question of a list of so many.
fn spots(count: usize) -> [usize; 3] {
    [0, count / 2, count - 1]
}

/// Places beside the first, beside the last, and such that would pass by one of their bytes.
fn places() -> Vec<Asking> {
    let mut inputs = Vec::new();
    for counterparties in [1u16, 2, 3, 255, 256, 257, 499, 500] {
        let mut book = empty();
        for place in 1..=counterparties {
            let parent = if place % 3 == 0 { place / 3 } else { 0 };
            book.counterparty(RawCounterparty { parent, ..bank() });
            book.asset(held(4 + (place % 2) as u8 * 7, place, u64::from(place)), &[]);
        }
        let last = counterparties;
        let beside = [0, 1, last - 1, last, last + 1, last + 2, last + 256, last ^ 256];
        let others = [2, 3, 255, 256, 257, 511, 512, 32_768, 65_280, 65_535];
        for place in beside.into_iter().chain(others) {
            for (count, spot) in [1, 2, 5].into_iter().flat_map(|n| spots(n).map(|at| (n, at))) {
                let mut list = vec![ask(1, 4); count];
                list[spot] = ask(place, 11);
                inputs.push(asking("places", &limits(300, 0), &book, &list));
            }
        }
        for (place, spot) in [0, last + 1].into_iter().flat_map(|p| spots(200).map(|at| (p, at))) {
            let mut list = vec![ask(last, 6); 200];
            list[spot] = ask(place, 6);
            inputs.push(asking("places", &limits(300, 0), &book, &list));
        }
    }
    inputs
}

/// Every byte as a kind, at each spot of a list, and the four beside the kinds in a list of 200.
fn kinds() -> Vec<Asking> {
    let book = of_five_tiers([100, 200, 300, 50, 25]);
    let schedule = fixed_amounts([500, 900, 700, 200, 100]);
    let mut inputs = Vec::new();
    for kind in 0..=255 {
        for spot in spots(3) {
            let mut list = FIVE_TIERS[..3].to_vec();
            list[spot].kind = kind;
            inputs.push(asking("kinds", &schedule, &book, &list));
        }
    }
    for (kind, spot) in [0, 9, 12, 255].into_iter().flat_map(|k| spots(200).map(|at| (k, at))) {
        let mut list = vec![ask(2, 5); 200];
        list[spot].kind = kind;
        inputs.push(asking("kinds", &schedule, &book, &list));
    }
    inputs
}

/// Every length about that of the answers, and those of more and of fewer answers; with good lists
/// and with bad ones.
fn rooms() -> Vec<Asking> {
    let book = of_five_tiers([100, 200, 300, 50, 25]);
    let mut inputs = Vec::new();
    for count in [0, 1, 2, 3, 50, 199, 200, 201] {
        let list: Vec<RawQuestion> = FIVE_TIERS.into_iter().cycle().take(count).collect();
        let good = asking("rooms", &limits(700, 0), &book, &list);
        let room = answers(&good.questions);
        let beside = (room.saturating_sub(9)..=room + 9).filter(|_| count < 50);
        let far = [0, 1, room / 2, room.saturating_sub(8), room.saturating_sub(1), room];
        let longer = [room + 1, room + 8, 1_600, 4_096, 100_000];
        for room in beside.chain(far).chain(longer) {
            inputs.push(in_room(&good, room));
            if let Some(kind) = good.questions.len().checked_sub(1) {
                let mut bad = in_room(&good, room);
                bad.questions[kind] = 9;
                inputs.push(bad);
            }
        }
    }
    inputs
}

/// An input that is accepted, and can be refused for anything.
fn whole() -> Asking {
    asking("refusals", &limits(100, 0), &refusable(), &[ask(4, 11), ask(1, 4), ask(2, 6)])
}

/// What 20 turns back: a byte less, a byte more, a place, a kind, or too many.
const BAD_LISTS: [fn(&mut Vec<u8>); 6] = [
    |list| list.truncate(8),
    |list| list.push(1),
    |list| list[3] = 0,
    |list| list[6] = 5,
    |list| list[8] = 9,
    |list| *list = list[..3].repeat(201),
];

/// Each refusal of 1 to 12 beside good and bad lists and buffers, under both versions of a schedule.
fn refusals_1_to_12() -> Vec<Asking> {
    let mut inputs = Vec::new();
    for refuse in refused_1_to_12() {
        let good: fn(&mut Vec<u8>) = |_| ();
        for spoil in BAD_LISTS.into_iter().chain([good]) {
            for room in [24, 23, 0] {
                let mut asking = in_room(&whole(), room);
                refuse(&mut asking.input);
                spoil(&mut asking.questions);
                inputs.push(asking);
            }
        }
    }
    inputs
}

/// Each set of refusals 12 to 15, 17, 20 and 21 at once, checked in the order 12, 13, 17, 14, 15, 20,
/// 21.
fn refusals_12_to_21() -> Vec<Asking> {
    let with = |faults: [bool; 7], spoil: fn(&mut Vec<u8>)| {
        let [of_book @ .., list, buffer] = faults;
        let mut asking = whole();
        refuse_12_to_17(&mut asking.input.book, of_book);
        if list {
            spoil(&mut asking.questions);
        }
        let room = answers(&asking.questions);
        in_room(&asking, room - usize::from(buffer))
    };
    let with_each = |spoil| every_set().map(move |faults| with(faults, spoil));
    BAD_LISTS.into_iter().flat_map(with_each).collect()
}

/// Each kind with each of the 320 sorts of counterparty, fifty questions a list: each a group of its
/// own, all of one group, and in books of one sort of asset; in each tier another limit.
fn every_sort() -> Vec<Asking> {
    let schedules = [
        fixed_amounts([11_000, 13_000, 7_000, 5_000, 3_000]),
        fixed_amounts([3_000, 5_000, 7_000, 11_000, 13_000]),
        RawSchedule { version: 2, ..fixed_amounts([5_000, 3_000, 13_000, 7_000, 11_000]) },
    ];
    let list = ask_all(1..=320);
    let mut inputs = Vec::new();
    for (place, questions) in list.chunks(50).enumerate() {
        for (number, schedule) in schedules.iter().enumerate() {
            let mut book = combinations::book_of_sorts();
            if (place + number) % 4 == 0 {
                book.counterparties[1..].iter_mut().for_each(|child| child.parent = 1);
            }
            for counterparty in (1..=320).step_by(3) {
                let kind = KINDS[(place + usize::from(counterparty)) % 10];
                book.asset(held(kind, counterparty, 100), &[]);
            }
            inputs.push(asking("every sort", schedule, &book, questions));
        }
    }
    inputs
}

/// Two tiers on both sides of their limits, either of which is the lower, or of one limit; asked
/// about are these and one more.
fn two_tiers() -> Vec<Asking> {
    let mut inputs = Vec::new();
    for (h, i) in [(500, 250), (250, 500), (300, 300), (301, 300), (0, 250), (250, 0)] {
        for of_i in [0, 1, 249, 250, 251, 300] {
            for of_h in [0, 1, 249, 250, 251, 499, 500, 700] {
                let mut book = empty();
                let name = book.counterparty(RawCounterparty::default());
                let child = book.counterparty(RawCounterparty { parent: name, ..bank() });
                book.asset(held(11, child, of_i), &[]);
                book.asset(held(6, name, of_h), &[]);
                let schedule = fixed_amounts([0, 400, 0, h, i]);
                let list = [ask(1, 11), ask(2, 11), ask(1, 6), ask(2, 8), ask(2, 4)];
                inputs.push(asking("two tiers", &schedule, &book, &list));
            }
        }
    }
    inputs
}

/// Each set of five tiers, under limits in several orders, some of which tie: each tier is asked
/// about, whether the group has it or not.
fn five_tiers() -> Vec<Asking> {
    let orders = [
        [100, 200, 300, 400, 500],
        [500, 400, 300, 200, 100],
        [300, 100, 500, 200, 400],
        [200, 500, 100, 400, 300],
        [400, 300, 200, 500, 100],
        [300, 300, 100, 300, 200],
        [200, 200, 200, 200, 200],
        [100, 100, 101, 101, 100],
        [0, 300, 0, 300, 100],
    ];
    let mut inputs = Vec::new();
    for order in orders {
        for set in 0..32 {
            for value in [1, 60, 99, 150] {
                let values = std::array::from_fn(|tier| value * (set >> tier & 1));
                let book = of_five_tiers(values);
                inputs.push(asking("five tiers", &fixed_amounts(order), &book, &FIVE_TIERS));
            }
        }
    }
    inputs
}

/// Tiers at one limit and one cent beside it, the room under it one cent on either side of none.
fn ties() -> Vec<Asking> {
    let mut inputs = Vec::new();
    for more in
        [[0, 0, 0, 0, 0], [1, 0, 0, 0, 0], [0, 0, 0, 1, 0], [0, 1, 0, 0, 1], [2, 1, 0, 1, 2]]
    {
        for standing in [98, 99, 100, 101, 102] {
            for first in 0..5 {
                let mut values = [0; 5];
                values[first] = 40;
                values[(first + 2) % 5] = standing - 40;
                let schedule = fixed_amounts(more.map(|more| 100 + more));
                let book = of_five_tiers(values);
                inputs.push(asking("ties", &schedule, &book, &FIVE_TIERS));
            }
        }
    }
    inputs
}

/// Chains and trees of parents: all that is asked of any of them is of one group, and not of the
/// group beside it.
fn parents() -> Vec<Asking> {
    let mut inputs = Vec::new();
    for count in [2, 3, 5, 16] {
        for shape in 0..4 {
            let mut book = empty();
            for place in 1..=count {
                let parent = match shape {
                    0 => 0,
                    1 => place - 1,
                    2 => u16::from(place > 1),
                    _ => place / 2,
                };
                book.counterparty(RawCounterparty { parent, ..bank() });
                book.asset(held(11, place, 10 + u64::from(place)), &[]);
                book.asset(held(4, place, 3), &[]);
            }
            let list = ask_all(1..=count);
            for limit in [20, 100, 1_000] {
                let schedule = fixed_amounts([limit, 2 * limit, 0, limit, limit]);
                inputs.push(asking("parents", &schedule, &book, &list));
            }
        }
    }
    inputs
}

/// All sixteen tiers in each group, those of retrocessions too, which no question asks about and
/// which rank among the others.
fn every_tier() -> Vec<Asking> {
    let mut inputs = Vec::new();
    for (groups, amount, vaf) in [
        (1, 100, 1_000),
        (1, 10, 1_000),
        (1, 1, 1_000),
        (1, 10_000, 100_000),
        (3, 777, 10_000),
        (3, 77, 10_000),
        (75, 1_000, 100_000),
        (2, 90, 0),
    ] {
        for version in [1, 2] {
            let book = RawBook { version, ..sixteen_tiers(groups, amount, vaf) };
            let list = ask_all(1..=3 * groups.min(3));
            let published = RawSchedule::published();
            let plain = |rate| RawSchedule {
                rows: [RawRow { rates: [rate, 0, 0], fixed: 0 }; 8],
                ..published.clone()
            };
            let schedules = [
                published.clone(),
                published.tenfold(),
                limits(amount * 4, amount),
                limits(amount * 40, amount),
                plain(169),
                plain(170),
                plain(400),
                plain(1_500),
            ];
            for schedule in schedules {
                inputs.push(asking("every tier", &schedule, &book, &list));
            }
        }
    }
    inputs
}

/// Parts that cash, debt and guarantees cover stand where they become exposures; linked assets stand
/// nowhere.
fn covered() -> Vec<Asking> {
    let mut inputs = Vec::new();
    for (form, value) in (1..=5).flat_map(|form| [0, 40, 100, 101, 250].map(|it| (form, it))) {
        for (flags, linked) in [(31, 0), (0, 0), (31, 1)] {
            let mut book = empty();
            let bank = book.counterparty(bank());
            let name = book.counterparty(RawCounterparty { parent: bank, ..Default::default() });
            book.counterparty(RawCounterparty { kind: 4, ..Default::default() });
            let mitigant = RawMitigant { form, flags, ..cash(bank, value) };
            book.asset(RawAsset { flags: linked, ..held(11, name, 200) }, &[mitigant]);
            let reinsurance = RawAsset { combination_stress: 201, ..held(9, 3, 0) };
            book.asset(reinsurance, &[mitigant, RawMitigant { counterparty: 2, ..mitigant }]);
            let schedule = fixed_amounts([350, 400, 0, 300, 220]);
            inputs.push(asking("covered", &schedule, &book, &ask_all(1..=3)));
        }
    }
    inputs
}

/// Kinds without limit, in groups with and without an excess, and the same kinds of counterparties
/// that fail their condition.
fn without_limit() -> Vec<Asking> {
    let mut inputs = Vec::new();
    for limit in [0, 100, 1_000, MOST] {
        for value in [0, 90, 700, MOST] {
            let mut book = empty();
            let home = book.counterparty(RawCounterparty { kind: 2, ..Default::default() });
            let life = RawCounterparty { kind: 4, grade: 1, parent: home, ..Default::default() };
            let related = book.counterparty(RawCounterparty { flags: 1, ..life });
            book.counterparty(life);
            book.counterparty(RawCounterparty { kind: 3, ..Default::default() });
            book.asset(held(1, home, value), &[]);
            book.asset(held(2, related, value), &[]);
            book.asset(held(11, home, value), &[]);
            inputs.push(asking("without limit", &limits(limit, 0), &book, &ask_all(1..=4)));
        }
    }
    inputs
}

/// Limits of M and of one and a half M: rooms of M, one cent less and one more.
fn most() -> Vec<Asking> {
    let half = MOST / 2;
    let mut inputs = Vec::new();
    for (version, rate) in [(1, 1_000), (1, 1_500), (2, 10_000), (2, 15_000), (2, 14_999)] {
        for value in [0, 1, 2, half - 1, half, half + 1, MOST - 1, MOST] {
            for second in [0, 1, half, MOST] {
                let mut book = RawBook::empty(MOST, 0, 0);
                let bank = book.counterparty(bank());
                book.asset(held(11, bank, value), &[]);
                book.asset(held(4, bank, second), &[]);
                let rows = [RawRow { rates: [rate, 0, 0], fixed: MOST }; 8];
                let schedule = RawSchedule { version, rows, ..RawSchedule::published() };
                let list = [ask(1, 11), ask(1, 6), ask(1, 4), ask(1, 3), ask(1, 1)];
                inputs.push(asking("most", &schedule, &book, &list));
            }
        }
    }
    inputs
}

/// Bills, whose W lessens row d's limit, at and beside that limit's product: more of them may be
/// bought as if W stayed.
fn w_held() -> Vec<Asking> {
    let mut inputs = Vec::new();
    for bills in [0, 1, 250, 499, 500, 501, 900] {
        for deposit in [0, 1, 250, 499, 500, 600] {
            for second in [0, 100, 250] {
                let mut book = RawBook::empty(1_000, 0, 0);
                let [issuer, other] = [bank(), bank()].map(|bank| book.counterparty(bank));
                book.asset(held(3, issuer, bills), &[]);
                book.asset(held(4, other, deposit), &[]);
                let mut schedule = limits(0, 0);
                schedule.rows[0].fixed = 700;
                schedule.rows[1].rates = [500, second, 0];
                let list = [ask(1, 3), ask(2, 3), ask(1, 4), ask(2, 4), ask(1, 5), ask(2, 5)];
                inputs.push(asking("W held", &schedule, &book, &list));
            }
        }
    }
    inputs
}

/// Reinsurers at and beside their limit and A3's: an excess of A3 takes nothing of a group's room.
fn a3_held() -> Vec<Asking> {
    let mut inputs = Vec::new();
    for a3 in [0, 10_000, 14_999, 15_000, 1 << 40] {
        for nets in [[5_000, 4_999, 5_001], [1, 0, 4_000], [9_000, 5_000, 1]] {
            for version in [1, 2] {
                let book = RawBook { version, ..of_reinsurers(nets) };
                let mut schedule = limits(5_000, a3);
                inputs.push(asking("A3 held", &schedule, &book, &ask_all(1..=3)));
                schedule.rows[6].fixed = 3_000;
                inputs.push(asking("A3 held", &schedule, &book, &ask_all(1..=3)));
            }
        }
    }
    inputs
}

/// Lists of 198 to 201 questions, of one question over and over, of all kinds in turn, and of the
/// same in reverse: what was asked before does not matter.
fn long_lists() -> Vec<Asking> {
    let book = of_five_tiers([100, 200, 300, 50, 25]);
    let schedule = fixed_amounts([500, 900, 700, 200, 100]);
    let mut inputs = Vec::new();
    for count in [198, 199, MOST_QUESTIONS, MOST_QUESTIONS + 1] {
        let turns: Vec<RawQuestion> = ask_all(1..=4).into_iter().cycle().take(count).collect();
        let reverse: Vec<RawQuestion> = turns.iter().rev().copied().collect();
        for list in [vec![ask(3, 6); count], turns, reverse] {
            inputs.push(asking("long lists", &schedule, &book, &list));
        }
    }
    inputs
}

/// So many questions of any kinds about counterparties of a book's bytes.
fn any_questions(random: &mut Random, book: &[u8], count: u64) -> Vec<u8> {
    let most = match book.get(6..8) {
        Some(bytes) => u64::from(u16::from_le_bytes([bytes[0], bytes[1]])).max(1),
        None => 1,
    };
    let question = |_| ask(random.between(1, most) as u16, random.pick(&KINDS));
    RawQuestion::list(&(0..count).map(question).collect::<Vec<_>>())
}

/// Each sort of counterparty with each asset and each mitigant, under one limit that most groups are
/// near.
fn every_combination() -> Vec<Asking> {
    let random = &mut Random::new(16, 1);
    let mut inputs = Vec::new();
    for mut input in combinations::all() {
        input.schedule = limits(random.between(60, 600), 1_000).bytes();
        let questions = any_questions(random, &input.book, 6);
        inputs.push(of_input(input, questions));
    }
    inputs
}

/// C-15: versions of a schedule that pass and such that do not, with rates that pass in both and
/// with rates that pass in the second alone, beside good and bad lists and buffers.
fn schedule_versions() -> Vec<Asking> {
    let mut inputs = Vec::new();
    for schedule in rates::few_versions() {
        let book = sixteen_tiers(1, 100, 20_000);
        let list = ask_all(1..=3);
        let good = asking("schedule versions", &schedule, &book, &list);
        let mut bad = good.clone();
        bad.questions.pop();
        for room in [answers(&good.questions), answers(&good.questions) - 1, 0] {
            inputs.extend([&good, &bad].map(|asking| in_room(asking, room)));
        }
    }
    inputs
}

/// C-15: every fifth of the report's inputs.
fn reports_under_rates() -> Vec<Asking> {
    let random = &mut Random::new(16, 2);
    let mut inputs = Vec::new();
    for input in rates::all().into_iter().step_by(5) {
        let questions = any_questions(random, &input.book, 4);
        inputs.push(of_input(input, questions));
    }
    inputs
}

/// C-17: every fifth of the report's inputs, with a question for each of five tiers of the group,
/// and one of bank bills.
fn near_ties() -> Vec<Asking> {
    let list = [ask(2, 11), ask(2, 6), ask(3, 10), ask(4, 5), ask(1, 4), ask(1, 3)];
    let list = RawQuestion::list(&list);
    let inputs = ties::all().into_iter().step_by(5);
    inputs.map(|input| of_input(input, list.clone())).collect()
}

/// C-18: every second of the report's inputs, with questions of the bank and the reinsurers whose
/// exposures the half decides.
fn treaties() -> Vec<Asking> {
    let random = &mut Random::new(18, 0);
    let mut inputs = Vec::new();
    for input in halves::all().into_iter().step_by(2) {
        let mut questions = any_questions(random, &input.book, 3);
        let list = [(1, 3), (1, 4), (5, 11), (5, 6), (9, 11)].map(|(who, kind)| ask(who, kind));
        questions.extend(RawQuestion::list(&list));
        inputs.push(of_input(input, questions));
    }
    inputs
}

/// Books of several sizes, in few groups and in many, with as many questions as may be sent.
fn sizes() -> Vec<Asking> {
    let sizes = [
        [16, 64, 64],
        [64, 256, 256],
        [120, 400, 300],
        [256, 800, 1_024],
        [499, 899, 1_499],
        [500, 900, 1_500],
    ];
    let mut inputs = Vec::new();
    for (number, [counterparties, assets, mitigants]) in (0..).zip(sizes) {
        for parents in [Parents::None, Parents::Some, Parents::Chain] {
            let random = &mut Random::new(16, 10 + number);
            let shape = Shape { counterparties, assets, mitigants, parents };
            let mut book = books::lifelike(random, &shape);
            if number % 2 == 0 {
                versions::at_desks(random, &mut book);
            }
            let schedule = limits(random.between(1, 5_000_000_000), 1_000_000_000);
            let input = Input::new("sizes", &schedule, &book);
            let questions = any_questions(random, &input.book, MOST_QUESTIONS as u64);
            inputs.push(of_input(input, questions));
        }
    }
    inputs
}

/// The report's largest inputs: their exposures and limits are the largest too.
fn largest() -> Vec<Asking> {
    let random = &mut Random::new(16, 0);
    let mut inputs = Vec::new();
    for input in extremes::all() {
        let questions = any_questions(random, &input.book, 20);
        inputs.push(of_input(Input { name: "largest", ..input }, questions));
    }
    inputs
}

/// A fund near its limits, one with near ties or with treaties that share a half, a concentrated one,
/// a book as the report gets it, or a fixed input of the report; with any list and any buffer.
fn seeded(random: &mut Random, reports: &[Input]) -> Asking {
    let input = match random.below(100) {
        0..=9 => reports[random.index(reports.len())].clone(),
        10..=29 => {
            let (schedule, book) = of_any_family(random);
            made(random, schedule, book)
        }
        30..=34 => turned_back(random),
        35..=44 => {
            let (schedule, book) = concentrated(random);
            Input::new("concentrated", &schedule, &book)
        }
        45..=49 => {
            let (schedule, book) = near_limits(random);
            made(random, schedule, book)
        }
        50..=58 => {
            let (schedule, book) = ties::random(random);
            Input::new("near ties", &schedule, &book)
        }
        59..=76 => {
            let (schedule, mut book) = halves::random(random);
            if random.chance(40) {
                versions::at_desks(random, &mut book);
            }
            Input::new("halves", &schedule, &book)
        }
        _ => {
            let (schedule, book) = near_limits(random);
            Input::new("near limits", &schedule, &book)
        }
    };
    let questions = random_list(random, &input.book);
    let room = random_room(random, answers(&questions));
    Asking { input: Input { room: Room::Bytes(room), ..input }, questions }
}

/// A fund with few groups whose exposures and limits are parts of one amount, so that tiers are
/// full, nearly full and tie; often of a specialist, and of either version.
pub fn near_limits(random: &mut Random) -> (RawSchedule, RawBook) {
    let (counterparties, assets, mitigants) = match random.below(200) {
        0..=189 => (random.between(1, 6), random.between(1, 14), random.below(6)),
        190..=198 => (random.between(1, 40), random.between(10, 100), random.below(60)),
        _ => (random.between(1, 500), random.between(100, 899), random.below(1_500)),
    };
    let parents = random.pick(&[Parents::None, Parents::Some, Parents::Some, Parents::Chain]);
    let shape = Shape { counterparties, assets, mitigants, parents };
    let part = random.pick(&[1, 7, 100, 1_000_000, MOST / (16 * assets + 16)]);
    let mut book = books::random_book(random, &shape, 4 * part);
    for asset in book.assets.iter_mut().filter(|asset| asset.kind != 9) {
        if random.chance(80) {
            asset.value = part * random.between(1, 4);
            (asset.offsets, asset.deductions) = (0, 0);
        }
    }
    if random.chance(30) {
        book.specialist = 1;
        books::retrocede(random, 60, &mut book);
    }
    books::set_totals(random, 4 * part, &mut book);
    if random.chance(40) {
        versions::at_desks(random, &mut book);
    }
    (near_schedule(random, part, assets), book)
}

/// Fixed amounts of a few parts each, a cent more or less, or rates.
fn near_schedule(random: &mut Random, part: u64, assets: u64) -> RawSchedule {
    let mut schedule = RawSchedule::published();
    let most = random.pick(&[4, 8, 2 * assets + 2]);
    let row = |random: &mut Random| {
        let parts = part * random.between(0, most);
        let fixed = (parts + random.pick(&[0, 0, 0, 1, 2])).saturating_sub(random.pick(&[0, 0, 1]));
        let rates = std::array::from_fn(|_| random.pick(&[0, 0, 0, 0, 25, 170, 500, 1_500]));
        RawRow { rates: if random.chance(80) { [0; 3] } else { rates }, fixed: fixed.min(MOST) }
    };
    schedule.rows = std::array::from_fn(|_| row(random));
    if random.chance(25) {
        let few = [schedule.rows[0], schedule.rows[1]];
        schedule.rows = std::array::from_fn(|_| random.pick(&few));
    }
    if random.chance(50) {
        schedule.percents = std::array::from_fn(|_| random.pick(&[0, 34, 50, 66, 100]));
    }
    if random.chance(40) {
        schedule = rates::beside_ten_times(random, &schedule);
    }
    schedule
}

/// Questions of a few counterparties, now and then as many as may be sent; every eighth list is
/// spoiled.
fn random_list(random: &mut Random, book: &[u8]) -> Vec<u8> {
    let count = match random.below(1_000) {
        0..=29 => 0,
        30..=329 => 1,
        330..=899 => random.between(2, 8),
        900..=989 => random.between(9, 20),
        990..=996 => random.between(199, 200),
        _ => random.pick(&[201, 201, 202, 255, 256, 400]),
    };
    let mut list = any_questions(random, book, count);
    let most = book.get(6..8).map_or(0, |bytes| u16::from_le_bytes([bytes[0], bytes[1]]));
    if !list.is_empty() && random.chance(12) {
        let start = QUESTION * random.index(list.len() / QUESTION);
        let any = random.number() as u16;
        let places = [0, most.wrapping_add(1), most.wrapping_add(256), most << 8, 65_535, any];
        match random.below(4) {
            0 => list[start..start + 2].copy_from_slice(&random.pick(&places).to_le_bytes()),
            1 => list[start + 2] = random.pick(&[0, 9, 9, 12, 17, 139, 255]),
            2 => list.truncate(list.len() - random.pick(&[1, 2])),
            _ => list.extend([1, 0].iter().take(random.pick(&[1, 2]))),
        }
    }
    list
}

fn random_room(random: &mut Random, room: usize) -> usize {
    match random.below(100) {
        0..=59 => room,
        60..=68 => room.saturating_sub(1),
        69..=70 => room.saturating_sub(ANSWER),
        71..=73 => random.index(room + 1),
        74 => 0,
        75..=82 => room + 1,
        83..=96 => room + random.index(200),
        _ => room + random.index(20_000),
    }
}

/// A fund whose amounts and limits are a few hundred cents at most, under fixed amounts alone, so
/// that every amount can be tried.
pub fn small_fund(random: &mut Random) -> (RawSchedule, RawBook) {
    let shape = Shape {
        counterparties: random.between(1, 5),
        assets: random.between(1, 10),
        mitigants: random.below(4),
        parents: random.pick(&[Parents::None, Parents::Some, Parents::Chain]),
    };
    let mut book = books::random_book(random, &shape, 60);
    for asset in &mut book.assets {
        asset.value = asset.value.min(99);
    }
    if random.chance(50) {
        book.specialist = 1;
        books::retrocede(random, 60, &mut book);
    }
    let stressed = book.assets.iter().map(|asset| asset.value + asset.combination_stress).sum();
    (book.total, book.excluded) = (stressed, 0);
    let mut schedule = limits(0, 0);
    for row in &mut schedule.rows {
        let any = random.below(300);
        row.fixed = random.pick(&[0, 60, 100, 100, 150, any]);
    }
    schedule.percents = [random.pick(&[50, 66, 100]), random.pick(&[34, 100])];
    (schedule, book)
}
