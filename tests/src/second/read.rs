//! Bytes to records: the layout of schedule, book and questions, and refusals 1 to 12 and 20. Which
//! versions of a book pass is the entry's; a schedule's rates leave here as parts of one, whatever
//! its version.

use super::records::*;
use super::rules::Rules;
use crate::weightrose::Refusal;
use std::collections::BTreeMap;

const ROWS: [RowName; 8] = [
    RowName::C,
    RowName::D,
    RowName::E,
    RowName::F,
    RowName::G,
    RowName::H,
    RowName::I,
    RowName::Z,
];
const RATES: [RateName; 3] = [RateName::Vaf, RateName::SecondVaf, RateName::Base];
const MOST_COUNTERPARTIES: usize = 500;
const MOST_ASSETS: usize = 900;
const MOST_MITIGANTS: usize = 1_500;

/// Bytes still to be read, from the front. Stored numbers are little-endian.
struct Bytes<'a>(&'a [u8]);

impl<'a> Bytes<'a> {
    fn take(&mut self, count: usize) -> &'a [u8] {
        let (front, rest) = self.0.split_at(count);
        self.0 = rest;
        front
    }

    fn array<const N: usize>(&mut self) -> [u8; N] {
        self.take(N).try_into().unwrap()
    }

    fn u8(&mut self) -> u8 {
        self.take(1)[0]
    }

    fn u16(&mut self) -> u16 {
        u16::from_le_bytes(self.array())
    }

    fn u64(&mut self) -> i128 {
        i128::from(u64::from_le_bytes(self.array()))
    }

    fn i64(&mut self) -> i128 {
        i128::from(i64::from_le_bytes(self.array()))
    }

    /// An amount; none where it is over M.
    fn amount(&mut self) -> Option<i128> {
        Some(self.u64()).filter(|&amount| amount <= MOST)
    }

    /// The first N flags of a byte; none where another bit is set.
    fn flags<const N: usize>(&mut self) -> Option<[bool; N]> {
        let byte = self.u8();
        let flags = std::array::from_fn(|bit| byte >> bit & 1 == 1);
        Some(flags).filter(|_| byte >> N == 0)
    }
}

fn accept(accepted: bool, refusal: Refusal) -> Result<(), Refusal> {
    if accepted {
        Ok(())
    } else {
        Err(refusal)
    }
}

/// "Schedule, 122 bytes", refusals 1 to 4.
pub fn schedule<R: Rules>(rules: &R, bytes: &[u8]) -> Result<Schedule, Refusal> {
    accept(bytes.len() == 122, Refusal::ScheduleLength)?;
    let mut bytes = Bytes(bytes);
    accept(bytes.take(4) == b"ACL\0", Refusal::ScheduleMark)?;
    let version = bytes.u16();
    let percents = [bytes.u16(), bytes.u16()];
    let rows = ROWS.map(|name| stored_row(name, &mut bytes));
    let passes = rules.schedule_version_passes(version);
    let accepted = schedule_rates_accepted(rules, version, percents, &rows);
    let found = [
        (!passes).then_some(Refusal::ScheduleVersion),
        (!accepted).then_some(Refusal::ScheduleRates),
    ];
    if let Some(refusal) = rules.first_of_schedule(found) {
        return Err(refusal);
    }
    let [first_percent, second_percent] =
        percents.map(|number| rules.percent_kept(version, number));
    let rows = rows.iter().map(|stored| (stored.name, row(rules, version, stored))).collect();
    Ok(Schedule { version, first_percent, second_percent, rows })
}

fn stored_row(name: RowName, bytes: &mut Bytes) -> StoredRow {
    StoredRow { name, rates: RATES.map(|rate| (rate, bytes.u16())), fixed: bytes.u64() }
}

/// "a rate over 1,500, percent over 100 or fixed amount over M" (4).
fn schedule_rates_accepted<R: Rules>(
    rules: &R,
    version: u16,
    percents: [u16; 2],
    rows: &[StoredRow],
) -> bool {
    let row_accepted = |row: &StoredRow| {
        let mut rates = row.rates.into_iter();
        rates.all(|(name, number)| rules.row_rate_accepted(version, row.name, name, number))
            && rules.fixed_accepted(version, row.fixed)
    };
    percents.into_iter().all(|percent| rules.percent_accepted(version, percent))
        && rows.iter().all(row_accepted)
}

fn row<R: Rules>(rules: &R, version: u16, stored: &StoredRow) -> Row {
    let [vaf_rate, second_vaf_rate, base_rate] =
        stored.rates.map(|(name, number)| rules.rate(version, stored.name, name, number));
    Row { vaf_rate, second_vaf_rate, base_rate, fixed: rules.fixed(version, stored.fixed) }
}

struct Header {
    version: u16,
    specialist: bool,
    counterparties: usize,
    assets: usize,
    mitigants: usize,
    total: i128,
    base: i128,
    excluded: i128,
}

/// The book, refusals 5 to 12, where such versions pass.
pub fn book<R: Rules>(
    rules: &R,
    passes: impl Fn(u16) -> bool,
    bytes: &[u8],
) -> Result<Book, Refusal> {
    let header = header(rules, passes, bytes)?;
    let most_place = header.counterparties as Place;
    let mut bytes = Bytes(&bytes[40..]);

    let counterparties: Result<BTreeMap<_, _>, _> =
        records(bytes.take(4 * header.counterparties), 4, |bytes, place| {
            Some((place, counterparty(bytes, place)?))
        });
    let assets: Result<Vec<_>, _> = records(bytes.take(48 * header.assets), 48, |bytes, _| {
        asset(rules, header.version, bytes, most_place)
    });
    let mitigants: Result<Vec<_>, _> =
        records(bytes.take(12 * header.mitigants), 12, |bytes, _| mitigant(bytes, most_place));

    let bad_records = [
        counterparties.as_ref().err().map(|&place| Refusal::Counterparty(place)),
        assets.as_ref().err().map(|&place| Refusal::Asset(place)),
        mitigants.as_ref().err().map(|&place| Refusal::Mitigant(place)),
    ];
    if let Some(refusal) = rules.first_bad_record(bad_records) {
        return Err(refusal);
    }
    Ok(Book {
        specialist: header.specialist,
        total: header.total,
        base: header.base,
        excluded: header.excluded,
        counterparties: counterparties.unwrap(),
        assets: with_mitigants(rules, assets.unwrap(), mitigants.unwrap()),
        mitigants: header.mitigants,
    })
}

/// The header's 40 bytes, refusals 5 to 9.
fn header<R: Rules>(
    rules: &R,
    passes: impl Fn(u16) -> bool,
    book: &[u8],
) -> Result<Header, Refusal> {
    accept(book.len() >= 40, Refusal::BookLength)?;
    let mut bytes = Bytes(book);
    let mark = bytes.take(4);
    let version = bytes.u16();
    let [counterparties, assets, mitigants] = std::array::from_fn(|_| usize::from(bytes.u16()));
    let specialist = rules.specialist(bytes.u8());
    let zeros = bytes.take(3);
    let header = Header {
        version,
        specialist: specialist == Some(true),
        counterparties,
        assets,
        mitigants,
        total: bytes.u64(),
        base: bytes.i64(),
        excluded: bytes.u64(),
    };
    let first_bytes = mark == b"ACB\0" && specialist.is_some() && zeros == [0; 3];
    accept(first_bytes, Refusal::BookMark)?;
    accept(passes(version), Refusal::BookVersion)?;
    accept(counts_accepted(&header, book.len()), Refusal::BookCounts)?;
    accept(amounts_accepted(&header), Refusal::BookAmounts)?;
    Ok(header)
}

/// "a count over its most, or another length" (8).
fn counts_accepted(header: &Header, length: usize) -> bool {
    header.counterparties <= MOST_COUNTERPARTIES
        && header.assets <= MOST_ASSETS
        && header.mitigants <= MOST_MITIGANTS
        && length == 40 + 4 * header.counterparties + 48 * header.assets + 12 * header.mitigants
}

/// "total or excluded over M, base outside −M to M" (9).
fn amounts_accepted(header: &Header) -> bool {
    header.total <= MOST && header.excluded <= MOST && (-MOST..=MOST).contains(&header.base)
}

/// Records of one size, or the place of the first bad one.
fn records<T, All: FromIterator<T>>(
    bytes: &[u8],
    size: usize,
    read: impl Fn(Bytes, Place) -> Option<T>,
) -> Result<All, Place> {
    let places = 1..;
    bytes
        .chunks(size)
        .zip(places)
        .map(|(record, place)| read(Bytes(record), place).ok_or(place))
        .collect()
}

/// "counterparty field, unknown bit" (10): none.
fn counterparty(mut bytes: Bytes, place: Place) -> Option<Counterparty> {
    let parent = bytes.u16();
    let grade_and_kind = bytes.u8();
    let [related, approved_affiliate, second_limb] = bytes.flags()?;
    let kind = match grade_and_kind / 16 {
        0 => CounterpartyKind::Other,
        1 => CounterpartyKind::Bank,
        2 => CounterpartyKind::HomeGovernment,
        3 => CounterpartyKind::ProvincialGovernment,
        4 => CounterpartyKind::RegisteredLifeCompany,
        _ => return None,
    };
    let grade = grade_and_kind % 16;
    let parent = match parent {
        0 => None,
        lower if lower < place => Some(lower),
        _ => return None,
    };
    let counterparty =
        Counterparty { parent, grade, kind, related, approved_affiliate, second_limb };
    Some(counterparty).filter(|_| grade <= 7)
}

/// An asset, still without its mitigants. "asset field, unknown bit, amount over M" (11): none.
fn asset<R: Rules>(rules: &R, version: u16, mut bytes: Bytes, most_place: Place) -> Option<Asset> {
    let kind = asset_kind(bytes.u8())?;
    let [linked, rises_under_stress] = bytes.flags()?;
    let entry = match bytes.u8() {
        0 => None,
        1 => Some(Entry::E),
        2 => Some(Entry::G),
        3 => Some(Entry::Retrocession),
        _ => return None,
    };
    let months = bytes.u8();
    let counterparty = known_place(bytes.u16(), most_place)?;
    let count_and_desk = bytes.array();
    let asset = Asset {
        kind,
        linked,
        rises_under_stress,
        entry,
        months,
        counterparty,
        value: bytes.amount()?,
        offsets: bytes.amount()?,
        deductions: bytes.amount()?,
        insurance_stress: bytes.amount()?,
        combination_stress: bytes.amount()?,
        desk: rules.desk(version, count_and_desk),
        count: rules.count(version, count_and_desk),
        mitigants: Vec::new(),
    };
    let accepted = reinsurance_fields_accepted(&asset)
        && rules.offsets_accepted(asset.is_reinsurance(), asset.offsets, asset.value);
    Some(asset).filter(|_| accepted)
}

/// "Only reinsurance (kind 9) may have bit 1, entry, months or stress amounts nonzero; months need
/// a nonzero entry".
fn reinsurance_fields_accepted(asset: &Asset) -> bool {
    let plain = !asset.rises_under_stress
        && asset.entry.is_none()
        && asset.months == 0
        && asset.insurance_stress == 0
        && asset.combination_stress == 0;
    let months_have_entry = asset.months == 0 || asset.entry.is_some();
    (asset.is_reinsurance() || plain) && months_have_entry
}

fn asset_kind(number: u8) -> Option<Kind> {
    Some(match number {
        1 => Kind::GovernmentGuaranteed,
        2 => Kind::LifePolicy,
        3 => Kind::BankPaper,
        4 => Kind::Deposit,
        5 => Kind::ProvinceGuaranteed,
        6 => Kind::Traded,
        7 => Kind::Loan,
        8 => Kind::Property,
        9 => Kind::Reinsurance,
        10 => Kind::PremiumsOwed,
        11 => Kind::AnyOther,
        _ => return None,
    })
}

/// The questions of a list to so many counterparties (C-16). "a place or kind is out of range, the
/// list is over 200 or its bytes aren't three a question" (20): none.
pub fn questions<R: Rules>(rules: &R, bytes: &[u8], most_place: Place) -> Option<Vec<Question>> {
    let count = bytes.len() / 3;
    let mut questions = Vec::new();
    for (number, stored) in bytes.chunks_exact(3).enumerate() {
        let (place, kind) = rules.stored_question(stored.try_into().unwrap());
        let in_range = rules.place_asked(place, most_place) && rules.kind_asked(kind);
        if !in_range && rules.question_checked(number, count) {
            return None;
        }
        questions.push(Question { counterparty: place, kind: asset_kind(kind) });
    }
    Some(questions).filter(|_| rules.list_accepted(count, bytes.len() % 3))
}

/// "mitigant likewise" (12): none.
fn mitigant(mut bytes: Bytes, most_place: Place) -> Option<Mitigant> {
    let form = match bytes.u8() {
        1 => Form::Cash,
        2 => Form::GovernmentSecurity,
        3 => Form::Debt,
        4 => Form::Guarantee,
        5 => Form::LetterOfCredit,
        _ => return None,
    };
    let [secured_and_held, p35_or_p36_terms, p40_terms, p42_terms, same_currency] =
        bytes.flags()?;
    Some(Mitigant {
        form,
        secured_and_held,
        p35_or_p36_terms,
        p40_terms,
        p42_terms,
        same_currency,
        counterparty: known_place(bytes.u16(), most_place)?,
        value: bytes.amount()?,
    })
}

/// "u16 counterparty (1 to C, in mitigants too)".
fn known_place(place: Place, most_place: Place) -> Option<Place> {
    Some(place).filter(|place| (1..=most_place).contains(place))
}

/// Hands the mitigants out to the assets in order, as far as they go.
fn with_mitigants<R: Rules>(rules: &R, assets: Vec<Asset>, mitigants: Vec<Mitigant>) -> Vec<Asset> {
    let mut mitigants = mitigants.into_iter();
    let hand_out = |asset: Asset| {
        let own = mitigants.by_ref().take(rules.mitigants_of(&asset, asset.count)).collect();
        Asset { mitigants: own, ..asset }
    };
    assets.into_iter().map(hand_out).collect()
}
