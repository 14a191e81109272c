//! What a schedule and a book say, once read: the documents' records by name.

use super::fraction::Fraction;
use std::collections::BTreeMap;

/// Document 01's M: the most that an amount read may be, in cents.
pub const MOST: i128 = 10_000_000_000_000;

/// A record's place, from 1.
pub type Place = u16;

/// The schedule's rows, in their order.
#[derive(Clone, Copy, Debug, PartialEq, Eq, PartialOrd, Ord)]
pub enum RowName {
    C,
    D,
    E,
    F,
    G,
    H,
    I,
    Z,
}

/// The rates of a row, in their order.
#[derive(Clone, Copy, Debug, PartialEq, Eq)]
pub enum RateName {
    Vaf,
    SecondVaf,
    Base,
}

/// A row as it is stored: what its rates are parts of is the schedule's version to say.
#[derive(Clone, Copy, Debug)]
pub struct StoredRow {
    pub name: RowName,
    pub rates: [(RateName, u16); 3],
    pub fixed: i128,
}

/// A row whose rates are parts of one, whatever the version that they stood in.
#[derive(Clone, Copy, Debug)]
pub struct Row {
    pub vaf_rate: Fraction,
    pub second_vaf_rate: Fraction,
    pub base_rate: Fraction,
    pub fixed: i128,
}

#[derive(Debug)]
pub struct Schedule {
    pub version: u16,
    pub first_percent: Fraction,
    pub second_percent: Fraction,
    pub rows: BTreeMap<RowName, Row>,
}

#[derive(Debug)]
pub struct Book {
    /// Of a specialist fund (P46).
    pub specialist: bool,
    pub total: i128,
    pub base: i128,
    pub excluded: i128,
    pub counterparties: BTreeMap<Place, Counterparty>,
    pub assets: Vec<Asset>,
    /// K: how many mitigants follow the assets.
    pub mitigants: usize,
}

#[derive(Clone, Copy, Debug, PartialEq, Eq)]
pub enum CounterpartyKind {
    Other,
    Bank,
    HomeGovernment,
    ProvincialGovernment,
    RegisteredLifeCompany,
}

#[derive(Clone, Debug)]
pub struct Counterparty {
    pub parent: Option<Place>,
    pub grade: u8,
    pub kind: CounterpartyKind,
    pub related: bool,
    pub approved_affiliate: bool,
    /// Approved under A1(e), second limb.
    pub second_limb: bool,
}

impl Counterparty {
    /// "Graded" means 1 to 3.
    pub fn graded(&self) -> bool {
        (1..=3).contains(&self.grade)
    }

    pub fn is(&self, kind: CounterpartyKind) -> bool {
        self.kind == kind
    }
}

/// The kinds of assets and exposures, 1 to 11.
#[derive(Clone, Copy, Debug, PartialEq, Eq)]
pub enum Kind {
    GovernmentGuaranteed,
    LifePolicy,
    /// Bank bill, guarantee, letter.
    BankPaper,
    Deposit,
    ProvinceGuaranteed,
    Traded,
    Loan,
    Property,
    Reinsurance,
    PremiumsOwed,
    AnyOther,
}

/// The entry class of reinsurance: the row it was in when it was entered into (A2), or 3, "an
/// identified retrocessionaire that was graded on entry" (P46).
#[derive(Clone, Copy, Debug, PartialEq, Eq)]
pub enum Entry {
    E,
    G,
    Retrocession,
}

#[derive(Clone, Debug)]
pub struct Asset {
    pub kind: Kind,
    pub linked: bool,
    pub rises_under_stress: bool,
    pub entry: Option<Entry>,
    pub months: u8,
    pub counterparty: Place,
    pub value: i128,
    pub offsets: i128,
    pub deductions: i128,
    pub insurance_stress: i128,
    pub combination_stress: i128,
    pub desk: u8,
    /// How many mitigants the record says it has, and those that are there.
    pub count: u16,
    pub mitigants: Vec<Mitigant>,
}

impl Asset {
    pub fn is_reinsurance(&self) -> bool {
        self.kind == Kind::Reinsurance
    }

    pub fn is_retrocession(&self) -> bool {
        self.entry == Some(Entry::Retrocession)
    }
}

#[derive(Clone, Copy, Debug, PartialEq, Eq)]
pub enum Form {
    Cash,
    GovernmentSecurity,
    Debt,
    Guarantee,
    LetterOfCredit,
}

#[derive(Clone, Debug)]
pub struct Mitigant {
    pub form: Form,
    pub secured_and_held: bool,
    pub p35_or_p36_terms: bool,
    pub p40_terms: bool,
    pub p42_terms: bool,
    pub same_currency: bool,
    pub counterparty: Place,
    pub value: i128,
}

/// The tiers in the order of their numbers, 0 to 15.
#[derive(Clone, Copy, Debug, PartialEq, Eq, PartialOrd, Ord)]
pub enum Tier {
    I,
    IReinsurance,
    H,
    HReinsurance,
    GSecond,
    GFirst,
    G,
    ESecond,
    EFirst,
    E,
    F,
    C,
    D,
    Retrocession,
    RetrocessionFirst,
    RetrocessionSecond,
}

impl Tier {
    pub const ALL: [Tier; 16] = [
        Tier::I,
        Tier::IReinsurance,
        Tier::H,
        Tier::HReinsurance,
        Tier::GSecond,
        Tier::GFirst,
        Tier::G,
        Tier::ESecond,
        Tier::EFirst,
        Tier::E,
        Tier::F,
        Tier::C,
        Tier::D,
        Tier::Retrocession,
        Tier::RetrocessionFirst,
        Tier::RetrocessionSecond,
    ];

    pub fn number(self) -> u8 {
        self as u8
    }

    /// One of the tiers that C-11 brought, 13 to 15.
    pub fn is_retrocession(self) -> bool {
        self >= Tier::Retrocession
    }
}

/// What a tier's limit is taken of.
#[derive(Clone, Copy, Debug)]
pub struct Basis {
    /// The schedule's.
    pub version: u16,
    pub tier: Tier,
    pub row: Row,
    /// VAF, and what the tier uses of VAF and VAF′.
    pub fund_vaf: i128,
    pub vaf: i128,
    pub base: i128,
    /// W where it lessens the tier's limit, else 0.
    pub w: i128,
    pub kept: Fraction,
}

/// A tier's limit in cents, and before it is rounded down to them.
#[derive(Clone, Copy, Debug)]
pub struct Limit {
    pub cents: i128,
    pub unrounded: Fraction,
}

/// What is left of an ungraded reinsurer's limit after its downgrade (A2).
#[derive(Clone, Copy, Debug, PartialEq, Eq)]
pub enum Kept {
    Full,
    FirstPercent,
    SecondPercent,
    Nothing,
}

/// What covered parts and remainders are taken for: the report's lines, the bills, the answers to
/// questions, or the report after a movement.
#[derive(Clone, Copy, Debug, PartialEq, Eq)]
pub enum TakenFor {
    Lines,
    Bills,
    Answers,
    Movements,
}

/// Which half it is: a counterparty's, by its place. The second number is 0, but where a slip has
/// more than one of them.
pub type HalfName = (Place, u8);

/// The half of a reinsurer, while its treaties draw on it (C-18).
#[derive(Clone, Debug, Default)]
pub struct Half {
    /// The nets that it is taken of.
    pub nets: Vec<i128>,
    /// The sum of those of the treaties met so far.
    pub met: i128,
    /// What it is at first, and what of it is not drawn.
    pub whole: i128,
    pub left: i128,
}

/// What mitigants do for an asset.
#[derive(Clone, Copy, Debug, Default)]
pub struct Covering {
    pub net: i128,
    pub covered: i128,
    /// The values of those that are recognised, and of the others.
    pub recognised: i128,
    pub unrecognised: i128,
}

/// Part of an asset, as an exposure to one counterparty.
#[derive(Clone, Debug)]
pub struct Exposure {
    pub counterparty: Place,
    pub kind: Kind,
    pub entry: Option<Entry>,
    pub months: u8,
    pub amount: i128,
}

/// A tier of a group: a line of the report, with what counts for A3.
#[derive(Clone, Debug)]
pub struct Line {
    pub top: Place,
    pub tier: Tier,
    pub exposure: i128,
    pub limit: i128,
    pub left: i128,
    pub excess: i128,
    /// The part of the exposure that A3 counts, before its cap.
    pub a3_together: i128,
}

/// A covered part or a remainder, as what stands is given to it (C-14).
#[derive(Clone, Debug)]
pub struct ExposureLine {
    pub asset: Place,
    pub covered: bool,
    pub desk: u8,
    pub counterparty: Place,
    pub top: Place,
    /// None where it has no limit.
    pub tier: Option<Tier>,
    pub amount: i128,
}

/// A group's tier while what stands there is given to its exposure lines.
#[derive(Clone, Debug, Default)]
pub struct Account {
    pub exposure: i128,
    pub excess: i128,
    /// What stands and was not given yet.
    pub left: i128,
}

/// What a dealer asks about (C-16).
#[derive(Clone, Copy, Debug)]
pub struct Question {
    pub counterparty: Place,
    /// None where the byte is no kind's.
    pub kind: Option<Kind>,
}

/// A question's group and tier, and what the report says of the group.
#[derive(Clone, Copy, Debug)]
pub struct Asked<'a> {
    pub kind: Kind,
    pub top: Place,
    pub tier: Tier,
    /// The group's lines, by rank.
    pub lines: &'a [Line],
    /// The fund's limits.
    pub limits: &'a BTreeMap<Tier, Limit>,
    /// The charge.
    pub charge: i128,
}

/// What an amount that is added moves of what the limits are taken of.
#[derive(Clone, Copy, Debug, Default, PartialEq, Eq)]
pub struct Moved {
    pub vaf: i128,
    pub w: i128,
}

/// The excess of one desk: what of its lines was not served, and what it has of A3's.
#[derive(Clone, Copy, Debug, Default)]
pub struct DeskExcess {
    pub of_lines: i128,
    pub of_a3: i128,
}

/// An asset's record as it is stored, with its mitigants' (C-19).
#[derive(Clone, Debug)]
pub struct StoredAsset {
    pub record: [u8; 48],
    pub mitigants: Vec<[u8; 12]>,
}

/// A book's header amounts: total assets, capital base, excluded assets.
pub type Amounts = [i128; 3];
