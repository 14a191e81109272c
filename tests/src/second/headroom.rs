//! How much more may be bought (C-16): the charge made anew with an amount added to a group's tier,
//! and the greatest amount that leaves it as it was, found by trying.

use super::cascade::{self, Share};
use super::records::*;
use super::rules::{Documents, Rules};
use super::{accepted_by, fund, read, Accepted};
use crate::weightrose::{Answer, Refusal};
use std::borrow::Cow;
use std::collections::BTreeMap;

/// The answer to a schedule, a book and a list of questions, with the answers at the front of the
/// buffer.
pub fn headroom(schedule: &[u8], book: &[u8], questions: &[u8], buffer: &mut [u8]) -> Answer {
    headroom_by(&Documents, schedule, book, questions, buffer)
}

/// The same by other rules.
pub fn headroom_by<R: Rules>(
    rules: &R,
    schedule: &[u8],
    book: &[u8],
    questions: &[u8],
    buffer: &mut [u8],
) -> Answer {
    let accepted = accepted_by(rules, schedule, book, TakenFor::Answers);
    // A book that is refused has no places that a question could be out of.
    let most_place = accepted.as_ref().map_or(Place::MAX, most_place);
    let list = read::questions(rules, questions, most_place);
    let fit = rules.answers_fit(buffer.len(), questions.len() / 3);
    let found = [
        accepted.as_ref().err().copied(),
        list.is_none().then_some(Refusal::Questions),
        (!fit).then_some(Refusal::AnswersShort),
    ];
    let (accepted, list) = match (rules.first_of_headroom(found), accepted, list) {
        (Some(refusal), ..) | (None, Err(refusal), _) => return Answer::Refused(refusal),
        (None, Ok(_), None) => return Answer::Refused(Refusal::Questions),
        (None, Ok(accepted), Some(list)) => (accepted, list),
    };
    let answers = answers(rules, accepted, &list);
    let bytes: Vec<u8> = answers.iter().flat_map(|&answer| (answer as u64).to_le_bytes()).collect();
    let written = buffer.len().min(bytes.len());
    buffer[..written].copy_from_slice(&bytes[..written]);
    Answer::Written(written)
}

fn most_place(accepted: &Accepted) -> Place {
    accepted.book.counterparties.len() as Place
}

fn answers<R: Rules>(rules: &R, mut accepted: Accepted, list: &[Question]) -> Vec<i128> {
    let tops = cascade::tops(rules, &accepted.book);
    let mut answers = Vec::new();
    for question in list {
        let (answer, bought) = match asked(rules, &accepted, &tops, question) {
            About::Nothing => (0, None),
            About::NoLimit => (rules.answer_without_limit(), None),
            About::Tier(asked) => {
                let trial = Trial::new(rules, &accepted, asked);
                let answer = rules.greatest(&asked, &|amount| trial.raises(amount));
                (answer, Some((asked.top, asked.tier, rules.bought(answer))))
            }
        };
        if let Some((top, tier, bought)) = bought.filter(|&(.., bought)| bought > 0) {
            let group = accepted.sums.groups.entry(top).or_default();
            group.entry(tier).or_default().exposure += bought;
        }
        answers.push(answer);
    }
    answers
}

/// What a question is about.
enum About<'a> {
    /// A counterparty or a kind that is not there: no question that is accepted.
    Nothing,
    NoLimit,
    Tier(Asked<'a>),
}

/// The group of the counterparty, and the tier of an exposure of the kind to it.
fn asked<'a, R: Rules>(
    rules: &R,
    accepted: &'a Accepted,
    tops: &BTreeMap<Place, Place>,
    question: &Question,
) -> About<'a> {
    let (Some(kind), Some(&top)) = (question.kind, tops.get(&question.counterparty)) else {
        return About::Nothing;
    };
    let book = &accepted.book;
    let decides = rules.tier_decided_by(question.counterparty, top);
    let exposure = Exposure { counterparty: decides, kind, entry: None, months: 0, amount: 0 };
    let tier = fund::tier(rules, &exposure, &book.counterparties[&decides]);
    let Some(tier) = rules.tier_asked(tier, &book.counterparties[&decides]) else {
        return About::NoLimit;
    };
    let top = rules.group_asked(book, question.counterparty, top);
    let own = |lines: &&Vec<Line>| lines.first().is_some_and(|line| line.top == top);
    let lines = accepted.groups.iter().find(own).map_or(&[][..], Vec::as_slice);
    let charge = accepted.figures.charge;
    About::Tier(Asked { kind, top, tier, lines, limits: &accepted.limits, charge })
}

/// A group's tier to which amounts are added.
struct Trial<'a, R> {
    rules: &'a R,
    accepted: &'a Accepted,
    asked: Asked<'a>,
    shares: BTreeMap<Tier, Share>,
    /// The excess of the other groups, whose exposures and limits stay.
    of_others: i128,
}

impl<'a, R: Rules> Trial<'a, R> {
    fn new(rules: &'a R, accepted: &'a Accepted, asked: Asked<'a>) -> Trial<'a, R> {
        let shares = accepted.sums.groups.get(&asked.top).cloned().unwrap_or_default();
        let own: i128 = asked.lines.iter().map(|line| line.excess).sum();
        let of_others = accepted.figures.group_excess - own;
        Trial { rules, accepted, asked, shares, of_others }
    }

    /// The charge with so much added: the group's lines anew under the report's limits, and A3 as it
    /// was.
    fn charge(&self, amount: i128) -> i128 {
        let mut shares = self.shares.clone();
        shares.entry(self.asked.tier).or_default().exposure += amount;
        let limits = self.limits(self.rules.moved_by(&self.asked, amount));
        let lines = cascade::lines(self.rules, self.asked.top, &shares, &limits);
        let excess: i128 = lines.iter().map(|line| line.excess).sum();
        let figures = &self.accepted.figures;
        self.rules.charge(self.of_others + excess, figures.a3_sum, figures.a3_limit)
    }

    fn limits(&self, moved: Moved) -> Cow<'a, BTreeMap<Tier, Limit>> {
        if moved == Moved::default() {
            return Cow::Borrowed(&self.accepted.limits);
        }
        let Accepted { schedule, book, values, sums, .. } = self.accepted;
        let mut values = values.clone();
        values.vaf += moved.vaf;
        values.vaf_prime += moved.vaf;
        Cow::Owned(fund::limits(self.rules, schedule, book.base, &values, sums.w + moved.w))
    }

    fn raises(&self, amount: i128) -> bool {
        self.charge(amount) > self.accepted.figures.charge
    }
}

/// A list of questions about a schedule and a book; none where one of the three is refused.
fn about_each<T>(
    schedule: &[u8],
    book: &[u8],
    questions: &[u8],
    each: impl Fn(&Accepted, &Question, About) -> T,
) -> Option<Vec<T>> {
    let accepted = accepted_by(&Documents, schedule, book, TakenFor::Answers).ok()?;
    let list = read::questions(&Documents, questions, most_place(&accepted))?;
    let tops = cascade::tops(&Documents, &accepted.book);
    let about = |question| asked(&Documents, &accepted, &tops, question);
    Some(list.iter().map(|question| each(&accepted, question, about(question))).collect())
}

/// The answers found by trying each amount from 0 on, cent by cent, up to a last one; none where
/// schedule, book or list is refused.
pub fn tried(schedule: &[u8], book: &[u8], questions: &[u8], last: u64) -> Option<Vec<u64>> {
    about_each(schedule, book, questions, |accepted, _, about| match about {
        About::Tier(asked) => {
            let trial = Trial::new(&Documents, accepted, asked);
            (1..=last).find(|&more| trial.raises(i128::from(more))).map_or(last, |more| more - 1)
        }
        _ => last,
    })
}

/// What a question that is accepted is about.
pub struct MetQuestion {
    /// None where there is no limit.
    pub tier: Option<u8>,
    /// Of a counterparty that has a parent.
    pub of_child: bool,
    /// Whether the group has a line of the tier, and whether it has an excess at all.
    pub has_line: bool,
    pub has_excess: bool,
    /// The tier's limit less what stands there and at lower ranks.
    pub own_room: i128,
}

/// The same of each question; none where schedule, book or list is refused.
pub fn met_of(schedule: &[u8], book: &[u8], questions: &[u8]) -> Option<Vec<MetQuestion>> {
    about_each(schedule, book, questions, |accepted, question, about| {
        let of_child = accepted.book.counterparties[&question.counterparty].parent.is_some();
        let About::Tier(asked) = about else {
            return MetQuestion {
                tier: None,
                of_child,
                has_line: false,
                has_excess: false,
                own_room: MOST,
            };
        };
        let rank = |tier: Tier| Documents.rank(tier, &asked.limits[&tier]);
        let up_to = asked.lines.iter().filter(|line| rank(line.tier) <= rank(asked.tier));
        let standing: i128 = up_to.map(|line| line.exposure - line.excess).sum();
        MetQuestion {
            tier: Some(asked.tier.number()),
            of_child,
            has_line: asked.lines.iter().any(|line| line.tier == asked.tier),
            has_excess: asked.lines.iter().any(|line| line.excess > 0),
            own_room: asked.limits[&asked.tier].cents - standing,
        }
    })
}
