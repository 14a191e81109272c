//! Compares the library with the second implementation and prints what it met: the reports; the
//! converters, whose books must get the same report before and behind; the bills, which must add up
//! to the cost of the report's charge; the answers to lists of questions, which each question must
//! get when sent singly, and which must hold of the reports of books with so much more; and the
//! movements of days, both buffers after each of them, whose reports must be those made afresh.
//!
//!     compare [--inputs N] [--seed S]            N inputs (125,000 unless said) under the seed S, a
//!                                                fifth as many of the converter, and a quarter
//!                                                each of the bills, of the questions and of days
//!                                                of movements
//!     compare --only I [--seed S] [--dump FILE]  input I alone; FILE gets its schedule and book
//!     compare --conversion I [--seed S] ..       the same of the converter's inputs
//!     compare --billing I [--seed S] ..          the same of the bills' inputs
//!     compare --asking I [--seed S] ..           the same of the questions' inputs
//!     compare --moving I [--seed S] ..           the same of the movements' inputs
//!     compare --against yardstick ..             with the static library that the build was given,
//!                                                reports, and the bills and the questions' answers
//!                                                where that library has them; where treaties share
//!                                                a half, that library's may be those from before
//!                                                C-18, and are counted
//!     compare --without-version V ..             leaving out books whose byte 4 is V
//!     compare --without-schedule-version V ..    leaving out schedules whose byte 4 is V
//!
//! Ends with status 1 on the first difference, or where a refusal or a tier was not met at all,
//! also under schedules of version 2 alone unless these are left out, no report had a higher tier
//! number before a lower one of the same limit, too few inputs had treaties that share a half, one
//! that an earlier one cut short, or one that is covered for more than half of its net, no more than
//! half of the bills were of excesses at several desks, a sort of question or answer was not met, or
//! too few assets were added or taken away, or a sort of these was not met.

use std::process::ExitCode;
use std::time::Instant;
use weightrose_tests::compare::{
    adds_up, as_afresh, as_singly, compare, compare_before, compare_bills, compare_bills_before,
    compare_headroom, compare_headroom_before, compare_movements, in_tier_order, keeps, library,
    library_bills, library_convert, library_headroom, library_moved, may_be_bought, runs, second,
    second_bills, second_convert, second_headroom, second_moved, standing, Lent, Moved, Outcome,
    GUARD,
};
use weightrose_tests::inputs::{
    Asking, Askings, Billing, Billings, Conversions, Input, Inputs, Moving, Movings, Step,
};
use weightrose_tests::raw::{Movement, MOST};
use weightrose_tests::second::{halves_of, met_by, met_of, served_of};
use weightrose_tests::weightrose::{amount, Answer, HEADER, LINE, MOST_QUESTIONS};

const REFUSALS: usize = 22;
/// The refusals that a report has, those that a conversion has, those that bills have, those that a
/// list of questions has, and those that a movement has.
const OF_REPORT: &[usize] = &[1, 2, 3, 4, 5, 6, 7, 8, 9, 10, 11, 12, 13, 14, 15, 16, 17];
const OF_CONVERSION: &[usize] = &[5, 6, 7, 8, 9, 10, 11, 12, 13, 14, 15, 16, 17, 18];
const OF_BILLS: &[usize] = &[1, 2, 3, 4, 5, 6, 7, 8, 9, 10, 11, 12, 13, 14, 15, 16, 17, 19];
const OF_HEADROOM: &[usize] = &[1, 2, 3, 4, 5, 6, 7, 8, 9, 10, 11, 12, 13, 14, 15, 17, 20, 21];
const OF_MOVEMENT: &[usize] = &[1, 2, 3, 4, 5, 6, 7, 8, 9, 10, 11, 12, 13, 14, 15, 16, 17, 22];
/// The refusals that an asset more can bring a book that is accepted, and those that one less can.
const OF_ONE_MORE: &[usize] = &[8, 11, 13, 14, 15, 17];
const OF_ONE_LESS: &[usize] = &[15];
/// The tiers that a question can be about.
const TIERS_ASKED: [usize; 5] = [0, 2, 10, 11, 12];
/// The refusal of a rate: the first that a schedule of a known version can have.
const RATES: usize = 4;
/// What is said where C-18's situations were met too seldom.
const TOO_FEW_HALVES: &str = "too few treaties shared a half, were cut short or covered past half";
const TIERS: usize = 16;
const TIER_NAMES: [&str; TIERS] = [
    "i",
    "i reinsurance",
    "h",
    "h reinsurance",
    "g second",
    "g first",
    "g",
    "e second",
    "e first",
    "e",
    "f",
    "c",
    "d",
    "retrocession",
    "retrocession first",
    "retrocession second",
];

struct Options {
    inputs: usize,
    seed: u64,
    only: Option<usize>,
    conversion: Option<usize>,
    billing: Option<usize>,
    asking: Option<usize>,
    moving: Option<usize>,
    without_version: Option<u8>,
    without_schedule_version: Option<u8>,
    dump: Option<String>,
    against: Other,
}

type Bills = fn(&[u8], &[u8], u64, &mut Lent) -> u64;
type Headroom = fn(&[u8], &[u8], &[u8], &mut Lent) -> u64;

/// What the library is compared with.
struct Other {
    name: &'static str,
    subject: fn(&[u8], &[u8], &mut Lent) -> u64,
    /// None where it bills no desks.
    bills: Option<Bills>,
    /// None where it answers no questions.
    headroom: Option<Headroom>,
}

const SECOND: Other = Other {
    name: "second implementation",
    subject: second,
    bills: Some(second_bills),
    headroom: Some(second_headroom),
};

#[cfg(yardstick_bills)]
const YARDSTICK_BILLS: Option<Bills> = Some(|schedule, book, rate, lent| {
    weightrose_tests::yardstick::bills(schedule, book, rate, lent.buffer())
});
#[cfg(all(yardstick, not(yardstick_bills)))]
const YARDSTICK_BILLS: Option<Bills> = None;
#[cfg(yardstick_headroom)]
const YARDSTICK_HEADROOM: Option<Headroom> = Some(|schedule, book, questions, lent| {
    weightrose_tests::yardstick::headroom(schedule, book, questions, lent.buffer())
});
#[cfg(all(yardstick, not(yardstick_headroom)))]
const YARDSTICK_HEADROOM: Option<Headroom> = None;

fn other(name: &str) -> Result<Other, String> {
    match name {
        "second" => Ok(SECOND),
        #[cfg(yardstick)]
        "yardstick" => Ok(Other {
            name: "the one linked beside it",
            subject: |schedule, book, lent| {
                weightrose_tests::yardstick::report(schedule, book, lent.buffer())
            },
            bills: YARDSTICK_BILLS,
            headroom: YARDSTICK_HEADROOM,
        }),
        _ => Err(format!("nothing that is called {name} was linked")),
    }
}

fn options() -> Result<Options, String> {
    let mut options = Options {
        inputs: 125_000,
        seed: 20_230_701,
        only: None,
        conversion: None,
        billing: None,
        asking: None,
        moving: None,
        without_version: None,
        without_schedule_version: None,
        dump: None,
        against: SECOND,
    };
    let mut words = std::env::args().skip(1);
    while let Some(word) = words.next() {
        let value = words.next().ok_or(format!("{word} needs a value"))?;
        let number = || value.parse::<u64>().map_err(|error| format!("{word} {value}: {error}"));
        match word.as_str() {
            "--inputs" => options.inputs = number()? as usize,
            "--seed" => options.seed = number()?,
            "--only" => options.only = Some(number()? as usize),
            "--conversion" => options.conversion = Some(number()? as usize),
            "--billing" => options.billing = Some(number()? as usize),
            "--asking" => options.asking = Some(number()? as usize),
            "--moving" => options.moving = Some(number()? as usize),
            "--without-version" => options.without_version = Some(number()? as u8),
            "--without-schedule-version" => {
                options.without_schedule_version = Some(number()? as u8);
            }
            "--dump" => options.dump = Some(value),
            "--against" => options.against = other(&value)?,
            _ => return Err(format!("unknown option {word}")),
        }
    }
    Ok(options)
}

impl Options {
    fn leaves_out(&self, input: &Input) -> bool {
        let has = |bytes: &[u8], version: Option<u8>| {
            version.is_some_and(|version| bytes.get(4) == Some(&version))
        };
        has(&input.book, self.without_version)
            || has(&input.schedule, self.without_schedule_version)
    }
}

/// How often something was met, and how often of these under a schedule of version 2.
#[derive(Clone, Copy, Default)]
struct Count {
    all: u64,
    version_2: u64,
}

impl Count {
    fn add(&mut self, input: &Input) {
        self.all += 1;
        self.version_2 += u64::from(input.schedule.get(4..6) == Some(&[2, 0]));
    }
}

/// What the inputs met.
#[derive(Default)]
struct Met {
    specialist_funds: u64,
    books_of_version_2: u64,
    inputs: Count,
    written: Count,
    refusals: [Count; REFUSALS],
    lines: [Count; TIERS],
    /// Reports with a higher tier number before a lower one of the same limit (C-17).
    near_ties: Count,
    /// Accepted inputs with treaties that share a half (C-18): unlinked ones with recognised
    /// mitigants, one that an earlier one cut short, and one covered for more than half of its net.
    shared: Count,
    cut_short: Count,
    over_half: Count,
}

impl Met {
    fn count(&mut self, input: &Input, answer: u64) {
        self.specialist_funds += u64::from(input.book.get(12) == Some(&1));
        self.books_of_version_2 += u64::from(input.book.get(4) == Some(&2));
        self.inputs.add(input);
        match Answer::unpacked(answer) {
            Some(Answer::Refused(refusal)) => {
                self.refusals[refusal.number() as usize - 1].add(input);
            }
            Some(Answer::Written(_)) => {
                self.written.add(input);
                self.count_halves(input);
            }
            None => unreachable!("both answered {answer:#x}"),
        }
    }

    fn count_halves(&mut self, input: &Input) {
        if treaties(&input.book) < 2 {
            return;
        }
        let met = halves_of(&input.schedule, &input.book).unwrap_or_default();
        for (met, count) in [
            (met.shared, &mut self.shared),
            (met.cut_short, &mut self.cut_short),
            (met.over_half, &mut self.over_half),
        ] {
            if met {
                count.add(input);
            }
        }
    }

    /// The lines of a report.
    fn count_lines(&mut self, input: &Input, outcome: &Outcome) {
        if let Some(Answer::Written(length)) = Answer::unpacked(outcome.answer) {
            let lines = &outcome.area[GUARD + HEADER..GUARD + length];
            lines.chunks(LINE).for_each(|line| self.lines[usize::from(line[2])].add(input));
            if !runs(lines).iter().all(|run| in_tier_order(run)) {
                self.near_ties.add(input);
            }
        }
    }

    fn print(&self, written: &str, refusals: &[usize]) {
        println!(
            "books of specialist funds {}, of version 2 {}",
            self.specialist_funds, self.books_of_version_2
        );
        println!("{:10} {:>9} {:>9} under schedules of version 2", "", "in all", "of these");
        let line = |name: &str, count: Count| {
            println!("{name:10} {:9} {:9}", count.all, count.version_2);
        };
        line("inputs", self.inputs);
        line(written, self.written);
        for number in refusals {
            line(&format!("refusal {number:2}"), self.refusals[number - 1]);
        }
        for (name, count, what) in [
            ("halves", self.shared, "shared by treaties with recognised mitigants"),
            ("cut short", self.cut_short, "a treaty, by an earlier one's draw"),
            ("over half", self.over_half, "of its own net covered, of a treaty"),
        ] {
            println!("{name:10} {:9} {:9} {what}", count.all, count.version_2);
        }
    }

    /// C-18: enough of the inputs, under both versions of schedules where `under_both`.
    fn halves_met(&self, under_both: bool) -> bool {
        let met = |inputs: u64, [shared, cut_short, over_half]: [u64; 3]| {
            20 * shared > inputs && 40 * cut_short > inputs && 20 * over_half > inputs
        };
        let counts = [self.shared, self.cut_short, self.over_half];
        met(self.inputs.all, counts.map(|count| count.all))
            && (!under_both || counts.iter().all(|count| count.version_2 > 0))
    }

    fn print_lines(&self) {
        for ((number, name), count) in (0..).zip(TIER_NAMES).zip(self.lines) {
            println!("tier {number:2}    {:9} {:9} lines  {name}", count.all, count.version_2);
        }
        let Count { all, version_2 } = self.near_ties;
        println!("near ties  {all:9} {version_2:9} reports not in tier order at one limit");
    }

    fn refusals_met(&self, refusals: &[usize]) -> bool {
        self.written.all > 0 && refusals.iter().all(|number| self.refusals[number - 1].all > 0)
    }

    fn lines_met(&self) -> bool {
        self.lines.iter().all(|count| count.all > 0) && self.near_ties.all > 0
    }

    /// C-15: the refusals under a schedule of version 2, and 4 under one of version 1.
    fn refusals_met_under_both(&self, refusals: &[usize]) -> bool {
        let rates = self.refusals[RATES - 1];
        let mut of_known = refusals.iter().filter(|&&number| number >= RATES);
        self.written.version_2 > 0
            && rates.version_2 < rates.all
            && of_known.all(|number| self.refusals[number - 1].version_2 > 0)
    }

    fn lines_met_under_version_2(&self) -> bool {
        self.lines.iter().all(|count| count.version_2 > 0) && self.near_ties.version_2 > 0
    }
}

/// One of the counts of a book's bytes.
fn count(book: &[u8], place: usize) -> u64 {
    u64::from(u16::from_le_bytes([book[place], book[place + 1]]))
}

/// How many reinsurance assets a book's bytes have.
fn treaties(book: &[u8]) -> usize {
    let first = 40 + 4 * count(book, 6) as usize;
    let assets = 0..count(book, 8) as usize;
    assets.filter(|asset| book.get(first + 48 * asset) == Some(&9)).count()
}

/// What accepted inputs of the bills met.
#[derive(Default)]
struct MetBills {
    with_excess: u64,
    several_desks: u64,
    cut_lines: u64,
    a3_excess: u64,
    last_desk: u64,
}

impl MetBills {
    fn count(&mut self, input: &Input) {
        let served = served_of(&input.schedule, &input.book).expect("an accepted book");
        let desks = served.excesses.map(|excess| excess.of_lines + excess.of_a3 > 0);
        let with_excess = desks.iter().filter(|&&excess| excess).count();
        self.with_excess += u64::from(with_excess > 0);
        self.several_desks += u64::from(with_excess > 1);
        self.cut_lines += u64::from(served.cut > 0);
        self.a3_excess += u64::from(served.excesses[0].of_a3 > 0);
        self.last_desk += u64::from(desks[255]);
    }

    fn print(&self) {
        println!("of these with an excess {}", self.with_excess);
        println!("  at several desks      {}", self.several_desks);
        println!("  within a line         {}", self.cut_lines);
        println!("  of A3                 {}", self.a3_excess);
        println!("  at desk 255           {}", self.last_desk);
    }

    fn met(&self, written: u64) -> bool {
        let each = [self.cut_lines, self.a3_excess, self.last_desk];
        2 * self.several_desks > written && each.into_iter().all(|count| count > 0)
    }
}

/// What the questions of accepted lists met, and how many questions that is.
#[derive(Default)]
struct MetQuestions {
    questions: u64,
    tiers: [u64; TIERS],
    without_limit: u64,
    nothing: u64,
    some: u64,
    most: u64,
    of_children: u64,
    new_tiers: u64,
    beside_an_excess: u64,
    held_by_a_higher_tier: u64,
    tried: u64,
    empty_lists: u64,
    longest_lists: u64,
}

impl MetQuestions {
    fn count(&mut self, asking: &Asking, answers: &[u8], tried: usize) {
        let Asking { input, questions } = asking;
        let met = met_of(&input.schedule, &input.book, questions).expect("an accepted list");
        self.empty_lists += u64::from(met.is_empty());
        self.longest_lists += u64::from(met.len() == MOST_QUESTIONS);
        self.tried += tried as u64;
        for (number, question) in met.iter().enumerate() {
            let answer = amount(answers, number);
            self.questions += 1;
            match answer {
                0 => self.nothing += 1,
                MOST => self.most += 1,
                _ => self.some += 1,
            }
            self.of_children += u64::from(question.of_child);
            let Some(tier) = question.tier else {
                self.without_limit += 1;
                continue;
            };
            let higher = i128::from(answer) < question.own_room.min(i128::from(MOST));
            self.tiers[usize::from(tier)] += 1;
            self.new_tiers += u64::from(!question.has_line);
            self.beside_an_excess += u64::from(question.has_excess && answer > 0);
            self.held_by_a_higher_tier += u64::from(higher);
        }
    }

    /// Each figure with its name, but those of the tiers.
    fn figures(&self) -> [(&'static str, u64); 11] {
        [
            ("without limit", self.without_limit),
            ("answered 0", self.nothing),
            ("answered M", self.most),
            ("answered something between", self.some),
            ("of a counterparty with a parent", self.of_children),
            ("of a tier that the group has not", self.new_tiers),
            ("with room beside an excess", self.beside_an_excess),
            ("with less room at a higher tier", self.held_by_a_higher_tier),
            ("bought, and a cent more", self.tried),
            ("lists of 200", self.longest_lists),
            ("empty lists", self.empty_lists),
        ]
    }

    fn print(&self) {
        println!("questions                          {:9}", self.questions);
        for tier in TIERS_ASKED {
            let name = format!("of tier {tier}, {}", TIER_NAMES[tier]);
            println!("  {name:32} {:9}", self.tiers[tier]);
        }
        for (name, count) in self.figures() {
            println!("  {name:32} {count:9}");
        }
    }

    fn met(&self) -> bool {
        let of_tiers: u64 = TIERS_ASKED.iter().map(|&tier| self.tiers[tier]).sum();
        of_tiers + self.without_limit == self.questions
            && TIERS_ASKED.iter().all(|&tier| self.tiers[tier] > 0)
            && self.figures().iter().all(|&(_, count)| count > 0)
    }
}

/// What the movements of one entry met.
#[derive(Default)]
struct MetMovements {
    met: Met,
    /// By the resulting book's number.
    by_result: [u64; REFUSALS],
    book_short: u64,
    report_short: u64,
    both_short: u64,
    /// Behind another one of the same day, and those of these that were refused.
    later: u64,
    later_refused: u64,
    /// Accepted ones with bytes past the new end of the book.
    rest: u64,
    /// Accepted ones with mitigants, and by the place: first, last, any between.
    mitigated: u64,
    first: u64,
    last: u64,
    between: u64,
}

impl MetMovements {
    /// One movement: the book's buffer before it, and what it left.
    fn count(&mut self, input: &Input, step: &Step, later: bool, before: &[u8], moved: &Moved) {
        let refused = moved.answer >> 32 > 0;
        let book = if refused { before } else { standing(moved.book()) };
        self.met.count(&Input { book: book.to_vec(), ..input.clone() }, moved.answer);
        self.later += u64::from(later);
        self.later_refused += u64::from(later && refused);
        if refused {
            let met =
                met_by(&input.schedule, &step.movement, before, moved.report.len() - 2 * GUARD);
            if let Some(number) = met.resulting {
                self.by_result[number as usize - 1] += 1;
            }
            self.book_short += u64::from(met.book_short && !met.report_short);
            self.report_short += u64::from(met.report_short && !met.book_short);
            self.both_short += u64::from(met.report_short && met.book_short);
            return;
        }
        let assets = count(before, 8);
        self.rest += u64::from(book.len() < moved.book().len());
        self.mitigated += u64::from(count(before, 10) > count(book, 10));
        if let Movement::Remove(place) = step.movement {
            self.first += u64::from(place == 1);
            self.last += u64::from(place == assets);
            self.between += u64::from(1 < place && place < assets);
        }
    }

    /// Each figure with its name, those of the resulting book's refusals too.
    fn figures(&self, removals: bool) -> Vec<(String, u64)> {
        let results = if removals { OF_ONE_LESS } else { OF_ONE_MORE };
        let by_result = |&number: &usize| {
            (format!("by {number} of the resulting book"), self.by_result[number - 1])
        };
        let mut figures: Vec<(String, u64)> = results.iter().map(by_result).collect();
        let named = |(name, count): (&str, u64)| (name.to_string(), count);
        if removals {
            figures.extend(
                [
                    ("by 16 of the report's buffer", self.report_short),
                    ("of the first asset", self.first),
                    ("of the last asset", self.last),
                    ("of one between", self.between),
                    ("with mitigants", self.mitigated),
                ]
                .map(named),
            );
        } else {
            figures.extend(
                [
                    ("by 16 of the book's buffer alone", self.book_short),
                    ("by 16 of the report's alone", self.report_short),
                    ("by 16 of both", self.both_short),
                ]
                .map(named),
            );
        }
        figures.extend(
            [
                ("with bytes past the new end", self.rest),
                ("behind another one of a day", self.later),
                ("refused behind another one", self.later_refused),
            ]
            .map(named),
        );
        figures
    }

    fn print(&self, name: &str, removals: bool) {
        self.met.print(name, OF_MOVEMENT);
        for (name, count) in self.figures(removals) {
            println!("  {name:32} {count:9}");
        }
    }

    fn met(&self, removals: bool) -> bool {
        self.met.refusals_met(OF_MOVEMENT)
            && self.met.refusals_met_under_both(OF_MOVEMENT)
            && self.figures(removals).iter().all(|&(_, count)| count > 0)
    }
}

/// One comparison of an input, which is named where the two differ.
fn compare_one<T, D: std::fmt::Display>(
    options: &Options,
    option: &str,
    number: usize,
    input: &Input,
    comparison: impl FnOnce() -> Result<T, D>,
) -> Result<T, String> {
    if let Some(file) = &options.dump {
        let bytes = [&input.schedule[..], &input.book[..]].concat();
        std::fs::write(file, bytes).map_err(|error| format!("{file}: {error}"))?;
    }
    comparison().map_err(|difference| named(options, option, number, input, &difference))
}

fn named(
    options: &Options,
    option: &str,
    number: usize,
    input: &Input,
    what: &dyn std::fmt::Display,
) -> String {
    format!("input {number} ({}, --seed {} {option} {number}): {what}", input.name, options.seed)
}

/// The numbers to go through: one that was asked for, or so many.
fn numbers(only: Option<usize>, count: usize) -> std::ops::Range<usize> {
    match only {
        Some(number) => number..number + 1,
        None => 0..count,
    }
}

fn reports(options: &Options) -> Result<(), String> {
    let start = Instant::now();
    let inputs = Inputs::new(options.seed);
    let Other { name, subject: other, .. } = options.against;
    let mut met = Met::default();
    let mut differing = 0;
    for number in numbers(options.only, options.inputs) {
        let input = inputs.get(number);
        if options.leaves_out(&input) {
            continue;
        }
        let both = || {
            if name == SECOND.name {
                return compare(&library, &other, &input);
            }
            let (outcome, differs) = compare_before(&library, &other, &input)?;
            differing += u64::from(differs);
            Ok(outcome)
        };
        let outcome = compare_one(options, "--only", number, &input, both)?;
        met.count(&input, outcome.answer);
        met.count_lines(&input, &outcome);
    }
    met.print("reports", OF_REPORT);
    met.print_lines();
    if options.only.is_none() && !(met.refusals_met(OF_REPORT) && met.lines_met()) {
        return Err("a refusal, a tier or a near tie was not met".to_string());
    }
    let without = options.only.is_some() || options.without_schedule_version == Some(2);
    if options.only.is_none() && !met.halves_met(!without) {
        return Err(TOO_FEW_HALVES.to_string());
    }
    let under_both = met.refusals_met_under_both(OF_REPORT) && met.lines_met_under_version_2();
    if !without && !under_both {
        let what = "a refusal, a tier or a near tie was not met under a version of schedules";
        return Err(what.to_string());
    }
    let compared = met.inputs.all;
    let which = match numbers(options.only, options.inputs).len() as u64 - compared {
        0 => format!("the first {} fixed", inputs.fixed()),
        left_out => format!("{left_out} left out"),
    };
    let but = but(differing, "reports");
    let seconds = start.elapsed().as_secs_f64();
    println!("compared on {compared} inputs, {which}: no difference{but}, {seconds:.1} s");
    Ok(())
}

/// What is said where so many of the other library's were those from before C-18.
fn but(differing: u64, what: &str) -> String {
    match differing {
        0 => String::new(),
        _ => format!(" but C-18's half in {differing} {what}"),
    }
}

fn conversions(options: &Options) -> Result<(), String> {
    let start = Instant::now();
    let inputs = Conversions::new(options.seed);
    let mut met = Met::default();
    let count = options.inputs / 5;
    for number in numbers(options.conversion, count) {
        let input = inputs.get(number);
        let both = || compare(&library_convert, &second_convert, &input);
        let outcome = compare_one(options, "--conversion", number, &input, both)?;
        if let Some(Answer::Written(length)) = Answer::unpacked(outcome.answer) {
            keeps(&input, &outcome.area[GUARD..GUARD + length])
                .map_err(|what| named(options, "--conversion", number, &input, &what))?;
        }
        met.count(&input, outcome.answer);
    }
    met.print("converted", OF_CONVERSION);
    if options.conversion.is_none() && !met.refusals_met(OF_CONVERSION) {
        return Err("a refusal of the converter was not met".to_string());
    }
    if options.conversion.is_none() && !met.halves_met(true) {
        return Err(TOO_FEW_HALVES.to_string());
    }
    let (fixed, seconds) = (inputs.fixed(), start.elapsed().as_secs_f64());
    println!(
        "converters compared on {count} inputs, the first {fixed} fixed: no difference, {seconds:.1} s"
    );
    Ok(())
}

fn bills(options: &Options, other: Bills) -> Result<(), String> {
    let start = Instant::now();
    let inputs = Billings::new(options.seed);
    let (mut met, mut met_bills) = (Met::default(), MetBills::default());
    let mut differing = 0;
    let numbers = numbers(options.billing, options.inputs / 4);
    let count = numbers.len();
    for number in numbers {
        let billing = inputs.get(number);
        let Billing { input, rate } = &billing;
        if options.leaves_out(input) {
            continue;
        }
        let both = || {
            if options.against.name == SECOND.name {
                return compare_bills(&library_bills, &other, &billing);
            }
            let (outcome, differs) = compare_bills_before(&library_bills, &other, &billing)?;
            differing += u64::from(differs);
            Ok(outcome)
        };
        let outcome = compare_one(options, "--billing", number, input, both)
            .map_err(|what| format!("{what}, rate {rate}"))?;
        if let Some(Answer::Written(length)) = Answer::unpacked(outcome.answer) {
            adds_up(&billing, &outcome.area[GUARD..GUARD + length])
                .map_err(|what| named(options, "--billing", number, input, &what))?;
            met_bills.count(input);
        }
        met.count(input, outcome.answer);
    }
    met.print("bills", OF_BILLS);
    met_bills.print();
    let with_version_2 = options.without_schedule_version != Some(2);
    let under_both = !with_version_2 || met.refusals_met_under_both(OF_BILLS);
    let all_met = met.refusals_met(OF_BILLS) && under_both && met_bills.met(met.written.all);
    if options.billing.is_none() && !all_met {
        return Err("a refusal or an excess of the bills was not met".to_string());
    }
    if options.billing.is_none() && !met.halves_met(with_version_2) {
        return Err(TOO_FEW_HALVES.to_string());
    }
    let which = match count as u64 - met.inputs.all {
        0 => format!("the first {} fixed", inputs.fixed()),
        left_out => format!("{left_out} left out"),
    };
    let but = but(differing, "of them");
    let (compared, seconds) = (met.inputs.all, start.elapsed().as_secs_f64());
    println!("bills compared on {compared} inputs, {which}: no difference{but}, {seconds:.1} s");
    Ok(())
}

fn questions(options: &Options, other: Headroom) -> Result<(), String> {
    let start = Instant::now();
    let inputs = Askings::new(options.seed);
    let (mut met, mut met_questions) = (Met::default(), MetQuestions::default());
    let mut differing = 0;
    let numbers = numbers(options.asking, options.inputs / 4);
    let count = numbers.len();
    for number in numbers {
        let asking = inputs.get(number);
        let Asking { input, questions } = &asking;
        if options.leaves_out(input) {
            continue;
        }
        let both = || {
            if options.against.name == SECOND.name {
                return compare_headroom(&library_headroom, &other, &asking);
            }
            let (outcome, differs) = compare_headroom_before(&library_headroom, &other, &asking)?;
            differing += u64::from(differs);
            Ok(outcome)
        };
        let outcome = compare_one(options, "--asking", number, input, both)
            .map_err(|what| format!("{what}, questions {questions:?}"))?;
        if let Some(Answer::Written(length)) = Answer::unpacked(outcome.answer) {
            let answers = &outcome.area[GUARD..GUARD + length];
            let tried = as_singly(&asking, answers)
                .and_then(|()| may_be_bought(&asking, answers))
                .map_err(|what| named(options, "--asking", number, input, &what))?;
            met_questions.count(&asking, answers, tried);
        }
        met.count(input, outcome.answer);
    }
    met.print("answered", OF_HEADROOM);
    met_questions.print();
    let with_version_2 = options.without_schedule_version != Some(2);
    let under_both = !with_version_2 || met.refusals_met_under_both(OF_HEADROOM);
    let all_met = met.refusals_met(OF_HEADROOM) && under_both && met_questions.met();
    if options.asking.is_none() && !all_met {
        return Err("a refusal of the questions or a sort of them was not met".to_string());
    }
    if options.asking.is_none() && !met.halves_met(with_version_2) {
        return Err(TOO_FEW_HALVES.to_string());
    }
    let which = match count as u64 - met.inputs.all {
        0 => format!("the first {} fixed", inputs.fixed()),
        left_out => format!("{left_out} left out"),
    };
    let but = but(differing, "lists");
    let (compared, seconds) = (met.inputs.all, start.elapsed().as_secs_f64());
    println!("answers compared on {compared} inputs, {which}: no difference{but}, {seconds:.1} s");
    Ok(())
}

fn movements(options: &Options) -> Result<(), String> {
    let start = Instant::now();
    let inputs = Movings::new(options.seed);
    let mut met: [MetMovements; 2] = Default::default();
    let mut days = 0;
    for number in numbers(options.moving, options.inputs / 4) {
        let moving = inputs.get(number);
        let Moving { input, steps } = &moving;
        let both = || compare_movements(&library_moved, &second_moved, &moving);
        let left = compare_one(options, "--moving", number, input, both).map_err(|what| {
            let movements: Vec<&Movement> = steps.iter().map(|step| &step.movement).collect();
            format!("{what}, movements {movements:?}")
        })?;
        days += u64::from(steps.len() > 1);
        let mut before = &input.book[..];
        for (place, (step, moved)) in steps.iter().zip(&left).enumerate() {
            if moved.answer >> 32 == 0 {
                as_afresh(&input.schedule, moved).map_err(|what| {
                    let what = format!("movement {}: {what}", place + 1);
                    named(options, "--moving", number, input, &what)
                })?;
            }
            let [additions, removals] = &mut met;
            let of_entry = match step.movement {
                Movement::Add(_) => additions,
                Movement::Remove(_) => removals,
            };
            of_entry.count(input, step, place > 0, before, moved);
            before = moved.book();
        }
    }
    let [additions, removals] = &met;
    additions.print("added", false);
    removals.print("taken away", true);
    let counts = [additions, removals].map(|met| met.met.inputs.all);
    if options.moving.is_none() {
        if !(additions.met(false) && removals.met(true)) {
            return Err("a refusal of the movements or a sort of them was not met".to_string());
        }
        if counts.into_iter().any(|count| count < options.inputs as u64 / 25) {
            return Err("too few assets were added or taken away".to_string());
        }
        if ![additions, removals].into_iter().all(|met| met.met.halves_met(true)) {
            return Err(TOO_FEW_HALVES.to_string());
        }
    }
    let [added, taken] = counts;
    let (fixed, seconds) = (inputs.fixed(), start.elapsed().as_secs_f64());
    println!(
        "movements compared on {added} inputs of one asset more and {taken} of one less, {days} days \
         of several, the first {fixed} inputs fixed: no difference, {seconds:.1} s"
    );
    Ok(())
}

fn run(options: &Options) -> Result<(), String> {
    println!("library and {}, seed {}", options.against.name, options.seed);
    let one = [options.only, options.conversion, options.billing, options.asking, options.moving];
    let asked = |entry: usize| one[entry].is_some() || one.iter().all(Option::is_none);
    if asked(0) {
        reports(options)?;
    }
    if asked(1) && options.against.name == SECOND.name {
        conversions(options)?;
    }
    if asked(2) {
        match options.against.bills {
            Some(other) => bills(options, other)?,
            None => println!("{} bills no desks", options.against.name),
        }
    }
    if asked(3) {
        match options.against.headroom {
            Some(headroom) => questions(options, headroom)?,
            None => println!("{} answers no questions", options.against.name),
        }
    }
    if asked(4) && options.against.name == SECOND.name {
        movements(options)?;
    }
    Ok(())
}

fn main() -> ExitCode {
    match options().and_then(|options| run(&options)) {
        Ok(()) => ExitCode::SUCCESS,
        Err(message) => {
            eprintln!("compare: {message}");
            ExitCode::FAILURE
        }
    }
}
