//! Deliberately wrong variants of the second implementation: each slip has one sentence of the
//! documents wrong. A comparison that lets one of them pass shows nothing.

use super::fraction::Fraction;
use super::fund::{recognised, Values};
use super::records::*;
use super::rules::{Documents, Rules};
use crate::weightrose::{Refusal, BILLS, DESKS};
use std::collections::BTreeMap;

macro_rules! slips {
    ($($(#[$says:meta])* $name:ident,)*) => {
        #[derive(Clone, Copy, Debug, PartialEq, Eq)]
        pub enum Slip { $($(#[$says])* $name,)* }

        impl Slip {
            pub const ALL: &'static [Slip] = &[$(Slip::$name,)*];

            /// Whether it is of the report, and so of all that reads a schedule and a book.
            pub fn of_report(self) -> bool {
                self.is_before(Slip::ConverterTakesVersion2)
            }

            /// Whether it is of the converter alone.
            pub fn of_converter(self) -> bool {
                !self.of_report() && self.is_before(Slip::CostRate1000Refused)
            }

            /// Whether it is of the bills alone.
            pub fn of_bills(self) -> bool {
                !self.is_before(Slip::CostRate1000Refused)
                    && self.is_before(Slip::Questions200Refused)
            }

            /// Whether it is of the answers to questions alone.
            pub fn of_headroom(self) -> bool {
                !self.is_before(Slip::Questions200Refused) && !self.of_movements()
            }

            /// Whether it is of movements alone.
            pub fn of_movements(self) -> bool {
                !self.is_before(Slip::StandingBookIsTheWholeBuffer)
            }

            fn is_before(self, slip: Slip) -> bool {
                (self as usize) < slip as usize
            }

            /// Whether it is of the order of tiers alone whose limits are equal in cents: under
            /// any such order the same stands and the same is cut, in each run of them as a whole.
            pub fn of_equal_limits(self) -> bool {
                matches!(
                    self,
                    Slip::TiesByHigherNumber
                        | Slip::RankedByCents
                        | Slip::HigherUnroundedFirst
                        | Slip::RankedWithoutThePercent
                        | Slip::RankedWithoutW
                        | Slip::RankedWithoutTheBase
                        | Slip::RankedWithoutTheFixedAmount
                        | Slip::RankedWithoutTheSecondRate
                        | Slip::RankedOnVafAlone
                        | Slip::RankedByThePercentOfCents
                        | Slip::RowDRankedByCents
                        | Slip::Tiers0To12RankedByCents
                        | Slip::Tiers13To15RankedByCents
                        | Slip::Version1RatesRankedInTenThousandths
                        | Slip::Version2RatesRankedPerMille
                        | Slip::RetrocessionRankedATenth
                        | Slip::RetrocessionRankedTenTimes
                        | Slip::RankedByWhatIsLeftOver
                        | Slip::RankedInTenthsOfACent
                        | Slip::RankedInHundredthsOfACent
                        | Slip::RankedInThousandthsOfACent
                        | Slip::RankedInTenThousandthsOfACent
                        | Slip::RankedInHundredThousandthsOfACent
                        | Slip::RankedInFloatingPoint
                        | Slip::LinesByUnroundedCutByCents
                        | Slip::LinesByCentsCutByUnrounded
                )
            }

            /// Whether it is of what no answer to a question hangs on: A3, which is held, and the
            /// order of equal limits.
            pub fn of_no_answer(self) -> bool {
                self.of_equal_limits() || matches!(
                    self,
                    Slip::A3Uncapped
                        | Slip::A3CountsKind4
                        | Slip::A3CountsTiers7To9
                        | Slip::A3WithoutTier1
                        | Slip::A3CountsRetrocession
                        | Slip::A3WithoutEntry3FromMonth24
                        | Slip::A3CapReduced
                        | Slip::A3OnVaf
                        | Slip::Version1A3RatesInTenThousandths
                        | Slip::Version2A3RatesPerMille
                        | Slip::ChargeWithoutA3
                )
            }

            /// Whether it is of what a report alone has: figures and bytes that no bill and no
            /// answer reads.
            pub fn of_report_alone(self) -> bool {
                matches!(
                    self,
                    Slip::ExactBufferRefused
                        | Slip::LinkedNotUnlimited
                        | Slip::LinkedNotInAllNet
                        | Slip::LinesWithoutExposure
                        | Slip::LinesByCentsCutByUnrounded
                        | Slip::TierSetWithoutLowest
                        | Slip::TierSetOf13Bits
                )
            }
        }
    };
}

slips! {
    /// Document 01's own: "each tier against its unreduced limit (T2)".
    UnreducedLimits,
    /// Document 01's own: "rounding before the percent (T7)".
    RoundedBeforePercent,
    /// Document 01's own: "A3 on uncapped values (T8)".
    A3Uncapped,
    /// Document 01's own: "a fixed tier ranking".
    FixedRanking,
    /// Document 01's own: "month 3 at the full limit".
    Month3Full,

    // Refusals.
    ScheduleVersion0Passes,
    ScheduleVersion2Refused,
    ScheduleVersion3Passes,
    ScheduleVersionByItsLowByte,
    RatesBeforeTheVersion,
    Version1RatesUpTo15000Pass,
    Version1RateTimesTenIn16Bits,
    Version2RatesOver1500Refused,
    Version2Rate15000Refused,
    Version2Rate15001Passes,
    RatesOfRowCCheckedAlone,
    RatesOfRowZNotChecked,
    SecondVafRatesNotChecked,
    BaseRatesNotChecked,
    Version2PercentsUpTo1000Pass,
    Version2FixedAmountsUpTo10MPass,
    Version2Refused,
    Version3Passes,
    VersionByItsLowByte,
    Version2CountOfTwoBytes,
    Version1CountOfOneByte,
    AnyByte12Marks,
    AssetsBeforeCounterparties,
    MitigantsBeforeAssets,
    NettedOverValueAccepted,
    OffsetsOverValueRefusedForAll,
    CountsAddedIn16Bits,
    CountsNotChecked,
    SpecialistEntryBefore13,
    SpecialistEntryAfter14,
    SpecialistEntryAfter15,
    SpecialistEntryWithoutPlace,
    SpecialistEntryLastPlace,
    SpecialistEntryNotChecked,
    SpecialistEntryOfLinkedAccepted,
    ReinsuranceEqualToTotalRefused,
    VafPrime0Refused,
    VafPrimeMRefused,
    VafPrimeOverMAccepted,
    ExactBufferRefused,

    // Values.
    GreaterStressAlways,
    DeductionsLeftInNet,
    StressedLessNettedBelow0,
    DeductionsTakenOffVafPrime,

    // The half of a reinsurer: who has one, and of what it is taken.
    HalfForAffiliatesToo,
    HalfForRegisteredToo,
    HalfForUngradedAlone,
    HalfNotForRelated,
    HalfNotForSecondLimb,
    HalfForEveryAsset,
    /// Document 01's own half, which C-18 replaced.
    HalfOfEachTreaty,
    HalfOfTheGroup,
    HalfOfAllReinsurers,
    HalfByEntryClass,
    HalfByDesk,
    HalfRoundedUp,
    HalvesRoundedPerTreaty,
    HalvesRoundedUpPerTreaty,
    HalfOfTheFirstTreaty,
    HalfOfTheGreatestTreaty,
    HalfOfMitigatedTreaties,
    HalfOfCoveredTreaties,
    HalfOfTreatiesMet,
    HalfOfWhatIsNotCovered,
    HalfOfValues,
    HalfBeforeOffsetsAndDeductions,
    HalfBeforeOffsets,
    HalfBeforeDeductions,
    HalfOfNetsBelow0,
    HalfOfCombinationStresses,
    HalfOfASumUpToM,
    LinkedAddedToTheHalf,
    OtherKindsAddedToTheHalf,
    RetrocessionNotAddedToTheHalf,

    // What is drawn on it.
    LinkedTreatiesDraw,
    OtherKindsDraw,
    RetrocessionDrawsNothing,
    RetrocessionCoveredInFull,
    /// Rounded up: rounded down it is document 01's own half.
    UpToHalfOfItsOwnNet,
    CoveredPastItsNet,
    HalfSharedProRata,
    DrawnFromTheLastTreaty,
    GreatestTreatyDrawsFirst,
    LeastTreatyDrawsFirst,
    DrawnDeskByDesk,
    DrawnByMitigantsValues,
    DrawnByItsNet,
    DrawnByItsNetWithoutMitigants,
    UnrecognisedMitigantsDraw,
    DrawnOnce,
    NeverDrawn,

    // Mitigants.
    LinkedMitigantsTakeNoPlace,
    CurrencyNotAsked,
    P35TermsForEveryAsset,
    UngradedDebtRecognised,
    GradeAskedOfCash,
    RelatedGuarantorRecognised,
    UngradedGuarantorRecognised,
    CurrencyAskedOfGuarantees,
    GuaranteeOfReinsuranceByAnyone,
    P40TermsForReinsurance,
    LetterForEveryAsset,
    GuaranteeAlwaysBankPaper,
    CashAsLoan,

    // Tiers.
    UnrelatedLifePolicyUnlimited,
    ProvinceUnlimited,
    BankPaperNeedsGrade,
    PropertyNeedsGrade,
    PremiumsNeedNoGrade,
    AnyOtherGradedInH,
    SecondLimbForRegisteredOnly,
    RelatedRegisteredInE,
    RegisteredAffiliateInG,
    Month2FirstPercent,
    Month11SecondPercent,
    Month12FirstPercent,
    Month23Nothing,
    Month24SecondPercent,
    GradedRetrocessionByFlags,
    GradedRetrocessionWhereHOnly,
    GradedRetrocessionByMonths,
    UngradedRetrocessionInE,
    RetrocessionMonth2First,
    RetrocessionMonth3Full,
    RetrocessionMonth11Second,
    RetrocessionMonth12First,
    RetrocessionMonth23InI,
    RetrocessionMonth24Second,
    RetrocessionFrom24Second,
    RetrocessionFrom24NotReinsurance,

    // Limits.
    Version1RatesInTenThousandths,
    Version1SecondVafRateInTenThousandths,
    Version1BaseRateInTenThousandths,
    Version1A3RatesInTenThousandths,
    Version1FixedAmountTenTimes,
    Version2RatesPerMille,
    Version2SecondVafRatePerMille,
    Version2BaseRatePerMille,
    Version2A3RatesPerMille,
    Version2FixedAmountATenth,
    Version2PercentsPerMille,
    Version2RatesRoundedDownToPerMille,
    Version2RatesRoundedToTheNearestPerMille,
    Version2RoundedBeforePercent,
    WATenth,
    WTenTimes,
    WTimes10000In64Bits,
    LimitsOfSigned64Bits,
    RetrocessionInTenThousandths,
    RetrocessionByTheSchedulesVersion,
    RetrocessionTenTimes,
    RetrocessionWithBase,
    RetrocessionWithFixedAmount,
    RetrocessionInThirds,
    RetrocessionByPercentsKept,
    RetrocessionPercentsKeptToo,
    RetrocessionRoundedBeforePercent,
    RetrocessionRoundedUp,
    RetrocessionLessenedByW,
    RetrocessionOnVaf,
    PercentsExchanged,
    PremiumsOnVafPrime,
    IReinsuranceOnVaf,
    WCountsKind5,
    WIgnored,
    WLessensSecondRate,
    SecondRateIgnored,
    NegativeBaseAsPositive,
    FixedAmountKeptWhole,
    RoundedUp,

    // Cascade.
    ParentNotTopmost,
    TiesByHigherNumber,
    ExposureCutWhole,
    RetrocessionRanksLast,
    RetrocessionNotCascaded,

    // Ties before rounding.
    /// Document 01's own ranking, which C-17 replaced.
    RankedByCents,
    HigherUnroundedFirst,
    RankedByTheNearestCent,
    RankedByCentsRoundedUp,
    RankedWithoutThePercent,
    RankedWithoutW,
    RankedWithoutTheBase,
    RankedWithoutTheFixedAmount,
    RankedWithoutTheSecondRate,
    RankedOnVafAlone,
    RankedByThePercentOfCents,
    RowDRankedByCents,
    Tiers0To12RankedByCents,
    Tiers13To15RankedByCents,
    Version1RatesRankedInTenThousandths,
    Version2RatesRankedPerMille,
    RetrocessionRankedATenth,
    RetrocessionRankedTenTimes,
    RankedByWhatIsLeftOver,
    RankedInTenthsOfACent,
    RankedInHundredthsOfACent,
    RankedInThousandthsOfACent,
    RankedInTenThousandthsOfACent,
    RankedInHundredThousandthsOfACent,
    RankedInFloatingPoint,
    RankedInSigned64Bits,
    LinesByUnroundedCutByCents,
    LinesByCentsCutByUnrounded,
    CutAtLimitsRoundedUp,
    CutOverUnroundedLimits,

    // A3.
    A3CountsKind4,
    A3CountsTiers7To9,
    A3WithoutTier1,
    A3CountsRetrocession,
    A3WithoutEntry3FromMonth24,
    A3CapReduced,
    A3OnVaf,

    // Report.
    ChargeWithoutA3,
    ChargeAlways0,
    LinkedNotUnlimited,
    LinkedNotInAllNet,
    LinesWithoutExposure,
    TierSetWithoutLowest,
    TierSetOf13Bits,

    // The converter.
    ConverterTakesVersion2,
    ConverterTakesVersion0,
    Mitigants256Pass,
    Mitigants255Refused,
    ManyMitigantsOfLinkedPass,
    ManyMitigantsTogether,
    ManyMitigantsLastPlace,
    ManyMitigantsWithoutPlace,
    ManyMitigantsBefore15,
    ManyMitigantsAfter16,
    ExactOutputRefused,
    OutputOneByteShortPasses,
    ConvertedKeepsVersion1,
    ConvertedVersionInHighByte,
    ConvertedToDesk1,
    ConvertedCountInByte7,

    // The bills: refusals.
    CostRate1000Refused,
    CostRate1001Passes,
    CostRateOf16Bits,
    CostRateOf32Bits,
    CostRateSigned,
    CostRateNotChecked,
    CostRateBefore15,
    CostRateBefore14,
    CostRateBeforeTheBook,
    CostRateFirst,
    CostRateAfter16,
    BillsShortBeforeTheBook,
    BillsOfTheirLengthRefused,
    BillsOneByteShortPass,
    BillsOf255DesksPass,

    // Whose they are.
    DesksNotRead,
    Version1Byte7AsDesk,
    Version2Byte6AsDesk,
    DeskOfSevenBits,
    CoveredPartToDesk0,
    CoveredPartToNextAssetsDesk,
    CoveredPartToGuarantorsDesk,

    // What is served.
    BilledByHalvesOfEachTreaty,
    ServedFromTheLastAsset,
    AllPartsBeforeRemainders,
    AllRemaindersBeforeParts,
    ServedDeskByDesk,
    ServedByCounterparty,
    SmallestLinesFirst,
    LargestLinesFirst,
    AccountOfACounterparty,
    AccountOfAGroup,
    AccountOfATier,
    StandsUpToItsLimit,
    ExcessProRata,
    LinesServedWholeOnly,
    LinkedAssetsServed,
    ExposuresWithoutLimitBilled,

    // What is billed.
    A3ExcessForgotten,
    A3ExcessToDesk1,
    A3ExcessToDesk255,
    A3ExcessToEachDesk,
    A3CostRoundedApart,
    CostPerMille,
    CostPercent,
    CostRoundedUp,
    CostRoundedToTheNearest,
    EachBillRoundedByItself,
    RoundingLeftToDesk0,
    RoundingLeftToDesk255,
    RunningCostBilled,
    DesksFrom255,
    Desk255LeftOut,

    // The answers to questions: refusals.
    Questions200Refused,
    Questions201Pass,
    Questions255Pass,
    QuestionsNotCounted,
    NoQuestionsRefused,
    QuestionBytesLeftOver,
    QuestionShortByAByte,
    PlaceInTheOtherOrder,
    PlaceByItsLowByte,
    KindBeforeThePlace,
    Place0Passes,
    PlaceBehindTheLastPasses,
    LastPlaceRefused,
    PlacesNotChecked,
    Kind0Passes,
    Kind9Passes,
    Kind12Passes,
    Kind11Refused,
    KindByItsLowFourBits,
    KindsNotChecked,
    FirstQuestionCheckedAlone,
    LastQuestionNotChecked,
    AnswersOfTheirLengthRefused,
    AnswersOneByteShortPass,
    LastAnswerLeftOutPasses,
    AnswersShortOf200Refused,
    AnswersShortOfABytePerQuestion,
    AnswersBeforeQuestions,
    AnswersShortAs16,
    QuestionsBefore15,
    QuestionsBefore14,
    QuestionsBeforeTheBook,
    QuestionsFirst,
    AnswersShortBeforeTheBook,

    // Which tier is asked about.
    AskedOfTheCounterpartyAlone,
    AskedOfTheParent,
    TierOfTheTopmostParent,
    WithoutLimitByItsGrade,
    WithoutLimitAnswers0,
    WithoutLimitAnswersAll64Bits,

    // How much.
    AnsweredByHalvesOfEachTreaty,
    OwnTierAlone,
    OwnTierNotAsked,
    GroupsTiersAlone,
    TiersBelowInPlaceOfAbove,
    NextTierAboveAlone,
    HighestTierAlone,
    TiersAboveByNumber,
    EqualLimitsNotAsked,
    StandingBeforeTheTier,
    OwnExposureNotCounted,
    ReportsLeftAnswered,
    WholeGroupCounted,
    ExposureForStanding,
    GroupsWithAnExcessAnswer0,
    ChargedFundsAnswer0,
    OneCentMore,
    OneCentLess,
    MostNotReached,
    NotCappedAtM,
    LimitsWithTheAmount,
    WWithTheAmount,
    AnswersBoughtInTurn,

    // Movements: the book as it stands.
    StandingBookIsTheWholeBuffer,
    ShorterBufferAs5,
    ShorterBufferAs16,
    ShorterBufferBefore6,
    StandingBookNotChecked,

    // What 22 turns back, and when.
    Place0TakesTheFirst,
    PlaceBehindTheLastTakesTheLast,
    LastPlaceNotTaken,
    PlacesTakenFrom0,
    PlaceTakenOf8Bits,
    PlaceTakenOf16Bits,
    PlaceTakenOf32Bits,
    LongRecordCut,
    ShortRecordPadded,
    RecordsOf48BytesEach,
    MovementNotChecked,
    MovementFirst,
    MovementBeforeTheBook,
    MovementBefore15,
    MovementAfterTheResult,
    MovementAfter16,
    ShortBuffersBefore22,

    // What comes and goes.
    AddedAtTheFront,
    AddedBeforeTheLast,
    AddedBehindTheMitigants,
    RecordsCountCleared,
    RecordsDeskCleared,
    MitigantsStay,
    FirstMitigantsTaken,
    LastMitigantsTaken,
    NextMitigantsTaken,
    ClosedUpWithTheLast,
    TakenAssetBlanked,
    AssetCountStays,
    MitigantCountStays,
    TotalFollows,
    TotalFollowsReinsurance,
    BaseFollows,
    OldEndCleared,
    RestCleared,
    RestMovedAlong,
    BookStays,

    // What the resulting book is refused by.
    ResultRefusedAs22,
    ResultRefusedWithoutPlace,
    BadRecordAtPlace1,
    BadRecordAtTheLastPlace,
    RecordWithACountAs22,
    RecordsCountOfTwoBytes,

    // Short buffers, and what a refusal leaves.
    BookBufferNotAsked,
    BookBufferOfItsLengthRefused,
    BookBufferOneByteShortPasses,
    ReportBufferOfItsLengthRefused,
    ReportBufferOneByteShortPasses,
    BookShortBeforeTheResult,
    ReportShortBeforeTheResult,
    ReportShortBeforeTheBook,
    BookChangedWhereTheReportIsShort,
    BookChangedWhereTheResultIsRefused,
    ReportWrittenWhereTheBookIsShort,

    // The report after a movement.
    ReportOfTheStandingBook,
    LimitsOfTheStandingBook,
    MovedByHalvesOfEachTreaty,
    BooksLengthAnswered,
}

impl Slip {
    fn is(self, slip: Slip) -> bool {
        self == slip
    }
}

impl Rules for Slip {
    fn specialist(&self, byte: u8) -> Option<bool> {
        match self {
            Slip::AnyByte12Marks => Some(byte != 0),
            _ => Documents.specialist(byte),
        }
    }

    fn schedule_version_passes(&self, version: u16) -> bool {
        match self {
            Slip::ScheduleVersion0Passes => matches!(version, 0..=2),
            Slip::ScheduleVersion2Refused => version == 1,
            Slip::ScheduleVersion3Passes => matches!(version, 1..=3),
            Slip::ScheduleVersionByItsLowByte => matches!(version as u8, 1 | 2),
            _ => Documents.schedule_version_passes(version),
        }
    }

    fn row_rate_accepted(&self, version: u16, row: RowName, rate: RateName, number: u16) -> bool {
        let unchecked = match self {
            Slip::RatesOfRowCCheckedAlone => row != RowName::C,
            Slip::RatesOfRowZNotChecked => row == RowName::Z,
            Slip::SecondVafRatesNotChecked => rate == RateName::SecondVaf,
            Slip::BaseRatesNotChecked => rate == RateName::Base,
            _ => false,
        };
        match (self, version) {
            (Slip::Version1RatesUpTo15000Pass, 1) => number <= 15_000,
            (Slip::Version1RateTimesTenIn16Bits, 1) => number.wrapping_mul(10) <= 15_000,
            (Slip::Version2RatesOver1500Refused, 2) => number <= 1_500,
            (Slip::Version2Rate15000Refused, 2) => number < 15_000,
            (Slip::Version2Rate15001Passes, 2) => number <= 15_001,
            _ => unchecked || Documents.row_rate_accepted(version, row, rate, number),
        }
    }

    fn percent_accepted(&self, version: u16, percent: u16) -> bool {
        match (self, version) {
            (Slip::Version2PercentsUpTo1000Pass, 2) => percent <= 1_000,
            _ => Documents.percent_accepted(version, percent),
        }
    }

    fn fixed_accepted(&self, version: u16, fixed: i128) -> bool {
        match (self, version) {
            (Slip::Version2FixedAmountsUpTo10MPass, 2) => fixed <= 10 * MOST,
            _ => Documents.fixed_accepted(version, fixed),
        }
    }

    fn first_of_schedule(&self, found: [Option<Refusal>; 2]) -> Option<Refusal> {
        let [version, rates] = found;
        match self {
            Slip::RatesBeforeTheVersion => rates.or(version),
            _ => Documents.first_of_schedule(found),
        }
    }

    fn version_passes(&self, version: u16) -> bool {
        match self {
            Slip::Version2Refused => version == 1,
            Slip::Version3Passes => matches!(version, 1..=3),
            Slip::VersionByItsLowByte => matches!(version as u8, 1 | 2),
            _ => Documents.version_passes(version),
        }
    }

    fn count(&self, version: u16, bytes: [u8; 2]) -> u16 {
        match self {
            Slip::Version2CountOfTwoBytes => Documents.count(1, bytes),
            Slip::Version1CountOfOneByte => Documents.count(2, bytes),
            _ => Documents.count(version, bytes),
        }
    }

    fn desk(&self, version: u16, bytes: [u8; 2]) -> u8 {
        match (self, version) {
            (Slip::DesksNotRead, _) => 0,
            (Slip::Version1Byte7AsDesk, 1) => bytes[1],
            (Slip::Version2Byte6AsDesk, 2) => bytes[0],
            (Slip::DeskOfSevenBits, 2) => bytes[1] & 127,
            _ => Documents.desk(version, bytes),
        }
    }

    fn first_bad_record(&self, bad_records: [Option<Refusal>; 3]) -> Option<Refusal> {
        let [counterparty, asset, mitigant] = bad_records;
        match self {
            Slip::AssetsBeforeCounterparties => asset.or(counterparty).or(mitigant),
            Slip::MitigantsBeforeAssets => counterparty.or(mitigant).or(asset),
            _ => Documents.first_bad_record(bad_records),
        }
    }

    fn first_refusal(&self, found: [Option<Refusal>; 4]) -> Option<Refusal> {
        let [counts, entry, values, stressed] = found;
        match self {
            Slip::SpecialistEntryBefore13 => entry.or(counts).or(values).or(stressed),
            Slip::SpecialistEntryAfter14 => counts.or(values).or(entry).or(stressed),
            Slip::SpecialistEntryAfter15 => counts.or(values).or(stressed).or(entry),
            _ => Documents.first_refusal(found),
        }
    }

    fn offsets_accepted(&self, reinsurance: bool, offsets: i128, value: i128) -> bool {
        match self {
            Slip::NettedOverValueAccepted => true,
            Slip::OffsetsOverValueRefusedForAll => offsets <= value,
            _ => Documents.offsets_accepted(reinsurance, offsets, value),
        }
    }

    fn counts_accepted(&self, counts: &[u16], mitigants: usize) -> bool {
        match self {
            Slip::CountsAddedIn16Bits => {
                usize::from(counts.iter().fold(0, |sum: u16, &count| sum.wrapping_add(count)))
                    == mitigants
            }
            Slip::CountsNotChecked => true,
            _ => Documents.counts_accepted(counts, mitigants),
        }
    }

    fn mitigants_of(&self, asset: &Asset, count: u16) -> usize {
        if self.is(Slip::LinkedMitigantsTakeNoPlace) && asset.linked {
            return 0;
        }
        Documents.mitigants_of(asset, count)
    }

    fn entry_not_of_fund(&self, book: &Book) -> Option<Place> {
        let right = Documents.entry_not_of_fund(book);
        let mut places = (1..).zip(&book.assets);
        match self {
            Slip::SpecialistEntryWithoutPlace => right.map(|_| 0),
            Slip::SpecialistEntryLastPlace => {
                let last = places.filter(|(_, asset)| asset.is_retrocession()).last();
                right.and(last).map(|(place, _)| place)
            }
            Slip::SpecialistEntryNotChecked => None,
            Slip::SpecialistEntryOfLinkedAccepted => {
                let first = places.find(|(_, asset)| asset.is_retrocession() && !asset.linked);
                right.and(first).map(|(place, _)| place)
            }
            _ => right,
        }
    }

    fn reinsurance_values_accepted(&self, values: i128, total: i128) -> bool {
        match self {
            Slip::ReinsuranceEqualToTotalRefused => values < total || values == 0,
            _ => Documents.reinsurance_values_accepted(values, total),
        }
    }

    fn vaf_prime_accepted(&self, vaf_prime: i128) -> bool {
        match self {
            Slip::VafPrime0Refused => (1..=MOST).contains(&vaf_prime),
            Slip::VafPrimeMRefused => (0..MOST).contains(&vaf_prime),
            Slip::VafPrimeOverMAccepted => vaf_prime >= 0,
            _ => Documents.vaf_prime_accepted(vaf_prime),
        }
    }

    fn buffer_accepted(&self, buffer: usize, report: usize) -> bool {
        match self {
            Slip::ExactBufferRefused => buffer > report,
            _ => Documents.buffer_accepted(buffer, report),
        }
    }

    fn converter_takes(&self, version: u16) -> bool {
        match self {
            Slip::ConverterTakesVersion2 => matches!(version, 1 | 2),
            Slip::ConverterTakesVersion0 => version <= 1,
            _ => Documents.converter_takes(version),
        }
    }

    fn too_many_mitigants(&self, book: &Book) -> Option<Place> {
        let found = |too_many: fn(&Asset) -> bool| {
            let mut assets = (1..).zip(&book.assets);
            assets.find(|(_, asset)| too_many(asset)).map(|(place, _)| place)
        };
        match self {
            Slip::Mitigants256Pass => found(|asset| asset.count > 256),
            Slip::Mitigants255Refused => found(|asset| asset.count >= 255),
            Slip::ManyMitigantsOfLinkedPass => found(|asset| !asset.linked && asset.count > 255),
            Slip::ManyMitigantsTogether if book.mitigants > 255 => Some(1),
            Slip::ManyMitigantsLastPlace => {
                let assets = (1..).zip(&book.assets);
                assets.filter(|(_, asset)| asset.count > 255).last().map(|(place, _)| place)
            }
            Slip::ManyMitigantsWithoutPlace => found(|asset| asset.count > 255).map(|_| 0),
            _ => Documents.too_many_mitigants(book),
        }
    }

    fn first_of_converter(&self, found: [Option<Refusal>; 3]) -> Option<Refusal> {
        let [of_book, many, short] = found;
        match self {
            Slip::ManyMitigantsBefore15 if of_book == Some(Refusal::StressedAssets) => {
                many.or(of_book)
            }
            Slip::ManyMitigantsAfter16 => of_book.or(short).or(many),
            _ => Documents.first_of_converter(found),
        }
    }

    fn output_accepted(&self, output: usize, book: usize) -> bool {
        match self {
            Slip::ExactOutputRefused => output > book,
            Slip::OutputOneByteShortPasses => output + 1 >= book,
            _ => Documents.output_accepted(output, book),
        }
    }

    fn converted_version(&self) -> u16 {
        match self {
            Slip::ConvertedKeepsVersion1 => 1,
            Slip::ConvertedVersionInHighByte => 0x0201,
            _ => Documents.converted_version(),
        }
    }

    fn narrowed(&self, count: u16) -> [u8; 2] {
        match self {
            Slip::ConvertedToDesk1 => [count as u8, 1],
            Slip::ConvertedCountInByte7 => [0, count as u8],
            _ => Documents.narrowed(count),
        }
    }

    fn rate_accepted(&self, rate: u64) -> bool {
        match self {
            Slip::CostRate1000Refused => rate < 1_000,
            Slip::CostRate1001Passes => rate <= 1_001,
            Slip::CostRateOf16Bits => rate as u16 <= 1_000,
            Slip::CostRateOf32Bits => rate as u32 <= 1_000,
            Slip::CostRateSigned => rate as i64 <= 1_000,
            Slip::CostRateNotChecked => true,
            _ => Documents.rate_accepted(rate),
        }
    }

    fn bills_fit(&self, buffer: usize) -> bool {
        match self {
            Slip::BillsOfTheirLengthRefused => buffer > BILLS,
            Slip::BillsOneByteShortPass => buffer + 1 >= BILLS,
            Slip::BillsOf255DesksPass => buffer + 8 >= BILLS,
            _ => Documents.bills_fit(buffer),
        }
    }

    fn first_of_bills(&self, found: [Option<Refusal>; 3]) -> Option<Refusal> {
        let [of_book, rate, short] = found;
        let number = of_book.map_or(0, Refusal::number);
        match self {
            Slip::CostRateBefore15 if number == 15 => rate.or(of_book),
            Slip::CostRateBefore14 if matches!(number, 14 | 15) => rate.or(of_book),
            Slip::CostRateBeforeTheBook if number >= 5 => rate.or(of_book),
            Slip::CostRateFirst => rate.or(of_book).or(short),
            Slip::CostRateAfter16 => of_book.or(short).or(rate),
            Slip::BillsShortBeforeTheBook if number >= 5 => short.or(of_book),
            _ => Documents.first_of_bills(found),
        }
    }

    fn has_exposure_lines(&self, asset: &Asset) -> bool {
        self.is(Slip::LinkedAssetsServed) || Documents.has_exposure_lines(asset)
    }

    fn desk_of_part(&self, book: &Book, asset: Place, part: &Exposure) -> u8 {
        let right = Documents.desk_of_part(book, asset, part);
        match self {
            Slip::CoveredPartToDesk0 => 0,
            Slip::CoveredPartToNextAssetsDesk => {
                book.assets.get(usize::from(asset)).map_or(right, |next| next.desk)
            }
            Slip::CoveredPartToGuarantorsDesk => {
                let mut assets = book.assets.iter();
                let own = assets.find(|asset| asset.counterparty == part.counterparty);
                own.map_or(right, |asset| asset.desk)
            }
            _ => right,
        }
    }

    fn serving_order(&self, line: &ExposureLine) -> [i128; 2] {
        let asset = i128::from(line.asset);
        match self {
            Slip::ServedFromTheLastAsset => [-asset, 0],
            Slip::AllPartsBeforeRemainders => [i128::from(!line.covered), asset],
            Slip::AllRemaindersBeforeParts => [i128::from(line.covered), asset],
            Slip::ServedDeskByDesk => [i128::from(line.desk), asset],
            Slip::ServedByCounterparty => [i128::from(line.counterparty), asset],
            Slip::SmallestLinesFirst => [line.amount, asset],
            Slip::LargestLinesFirst => [-line.amount, asset],
            _ => Documents.serving_order(line),
        }
    }

    fn account(&self, counterparty: Place, top: Place, tier: Tier) -> (Place, Tier) {
        match self {
            Slip::AccountOfACounterparty => (counterparty, tier),
            Slip::AccountOfAGroup => (top, Tier::I),
            Slip::AccountOfATier => (0, tier),
            _ => Documents.account(counterparty, top, tier),
        }
    }

    fn stands(&self, line: &Line) -> i128 {
        match self {
            Slip::StandsUpToItsLimit => line.exposure.min(line.limit),
            _ => Documents.stands(line),
        }
    }

    fn unserved(&self, amount: i128, account: &Account) -> i128 {
        let right = Documents.unserved(amount, account);
        match self {
            Slip::ExcessProRata if account.exposure > 0 => {
                amount * account.excess / account.exposure
            }
            Slip::LinesServedWholeOnly if right > 0 => amount,
            _ => right,
        }
    }

    fn excess_without_limit(&self, amount: i128) -> i128 {
        match self {
            Slip::ExposuresWithoutLimitBilled => amount,
            _ => Documents.excess_without_limit(amount),
        }
    }

    fn a3_excess(&self, desk: u8, excess: i128) -> i128 {
        match (self, desk) {
            (Slip::A3ExcessForgotten, _) => 0,
            (Slip::A3ExcessToDesk1, _) => Documents.a3_excess(desk ^ 1, excess),
            (Slip::A3ExcessToDesk255, _) => Documents.a3_excess(!desk, excess),
            (Slip::A3ExcessToEachDesk, _) => excess,
            _ => Documents.a3_excess(desk, excess),
        }
    }

    fn cost(&self, excess: i128, rate: u64) -> i128 {
        let right = Documents.cost(excess, rate);
        let product = excess * i128::from(rate);
        match self {
            Slip::CostPerMille => product / 1_000,
            Slip::CostPercent => product / 100,
            Slip::CostRoundedUp => right + i128::from(product % 10_000 > 0),
            Slip::CostRoundedToTheNearest => right + i128::from(product % 10_000 >= 5_000),
            _ => right,
        }
    }

    fn bills(&self, excesses: &[DeskExcess; DESKS], cost: &dyn Fn(i128) -> i128) -> [i128; DESKS] {
        let right = Documents.bills(excesses, cost);
        let all: i128 = right.iter().sum();
        let own = excesses.map(|excess| cost(excess.of_lines + excess.of_a3));
        let rounding = all - own.iter().sum::<i128>();
        let with = |mut bills: [i128; DESKS], desk: usize, bill: i128| {
            bills[desk] = bill;
            bills
        };
        match self {
            Slip::EachBillRoundedByItself => own,
            Slip::RoundingLeftToDesk0 => with(own, 0, own[0] + rounding),
            Slip::RoundingLeftToDesk255 => with(own, 255, own[255] + rounding),
            Slip::A3CostRoundedApart => {
                let lines = excesses.map(|excess| DeskExcess { of_a3: 0, ..excess });
                let bills = Documents.bills(&lines, cost);
                with(bills, 0, bills[0] + cost(excesses[0].of_a3))
            }
            Slip::RunningCostBilled => {
                let mut running = 0;
                right.map(|bill| {
                    running += bill;
                    running
                })
            }
            Slip::DesksFrom255 => {
                let mut turned = *excesses;
                turned.reverse();
                let mut bills = Documents.bills(&turned, cost);
                bills.reverse();
                bills
            }
            Slip::Desk255LeftOut => with(right, 255, 0),
            _ => right,
        }
    }

    fn list_accepted(&self, questions: usize, over: usize) -> bool {
        let right = Documents.list_accepted(questions, over);
        match self {
            Slip::Questions200Refused => right && questions < 200,
            Slip::Questions201Pass => right || (questions, over) == (201, 0),
            Slip::Questions255Pass => questions <= 255 && over == 0,
            Slip::QuestionsNotCounted => over == 0,
            Slip::NoQuestionsRefused => right && questions > 0,
            Slip::QuestionBytesLeftOver => questions <= 200,
            Slip::QuestionShortByAByte => questions <= 200 && over != 1,
            _ => right,
        }
    }

    fn stored_question(&self, bytes: [u8; 3]) -> (Place, u8) {
        let [low, high, kind] = bytes;
        match self {
            Slip::PlaceInTheOtherOrder => (u16::from_be_bytes([low, high]), kind),
            Slip::PlaceByItsLowByte => (u16::from(low), kind),
            Slip::KindBeforeThePlace => (u16::from_le_bytes([high, kind]), low),
            _ => Documents.stored_question(bytes),
        }
    }

    fn place_asked(&self, place: Place, most_place: Place) -> bool {
        let right = Documents.place_asked(place, most_place);
        match self {
            Slip::Place0Passes => right || place == 0,
            Slip::PlaceBehindTheLastPasses => right || place.checked_sub(1) == Some(most_place),
            Slip::LastPlaceRefused => right && place < most_place,
            Slip::PlacesNotChecked => true,
            _ => right,
        }
    }

    fn kind_asked(&self, kind: u8) -> bool {
        let right = Documents.kind_asked(kind);
        match self {
            Slip::Kind0Passes => right || kind == 0,
            Slip::Kind9Passes => right || kind == 9,
            Slip::Kind12Passes => right || kind == 12,
            Slip::Kind11Refused => right && kind < 11,
            Slip::KindByItsLowFourBits => Documents.kind_asked(kind & 15),
            Slip::KindsNotChecked => true,
            _ => right,
        }
    }

    fn question_checked(&self, number: usize, questions: usize) -> bool {
        match self {
            Slip::FirstQuestionCheckedAlone => number == 0,
            Slip::LastQuestionNotChecked => number + 1 < questions,
            _ => Documents.question_checked(number, questions),
        }
    }

    fn answers_fit(&self, buffer: usize, questions: usize) -> bool {
        match self {
            Slip::AnswersOfTheirLengthRefused => buffer > 8 * questions,
            Slip::AnswersOneByteShortPass => buffer + 1 >= 8 * questions,
            Slip::LastAnswerLeftOutPasses => buffer + 8 >= 8 * questions,
            Slip::AnswersShortOf200Refused => buffer >= 8 * 200,
            Slip::AnswersShortOfABytePerQuestion => buffer >= questions,
            _ => Documents.answers_fit(buffer, questions),
        }
    }

    fn first_of_headroom(&self, found: [Option<Refusal>; 3]) -> Option<Refusal> {
        let [of_book, list, short] = found;
        let number = of_book.map_or(0, Refusal::number);
        match self {
            Slip::AnswersBeforeQuestions => of_book.or(short).or(list),
            Slip::AnswersShortAs16 => of_book.or(list).or(short.map(|_| Refusal::BufferShort)),
            Slip::QuestionsBefore15 if number == 15 => list.or(of_book),
            Slip::QuestionsBefore14 if matches!(number, 14 | 15) => list.or(of_book),
            Slip::QuestionsBeforeTheBook if number >= 5 => list.or(of_book),
            Slip::QuestionsFirst => list.or(of_book).or(short),
            Slip::AnswersShortBeforeTheBook if number >= 5 => short.or(of_book),
            _ => Documents.first_of_headroom(found),
        }
    }

    fn group_asked(&self, book: &Book, counterparty: Place, top: Place) -> Place {
        match self {
            Slip::AskedOfTheCounterpartyAlone => counterparty,
            Slip::AskedOfTheParent => {
                book.counterparties[&counterparty].parent.unwrap_or(counterparty)
            }
            _ => Documents.group_asked(book, counterparty, top),
        }
    }

    fn tier_decided_by(&self, counterparty: Place, top: Place) -> Place {
        match self {
            Slip::TierOfTheTopmostParent => top,
            _ => Documents.tier_decided_by(counterparty, top),
        }
    }

    fn tier_asked(&self, tier: Option<Tier>, counterparty: &Counterparty) -> Option<Tier> {
        match self {
            Slip::WithoutLimitByItsGrade if counterparty.graded() => tier.or(Some(Tier::H)),
            Slip::WithoutLimitByItsGrade => tier.or(Some(Tier::I)),
            _ => Documents.tier_asked(tier, counterparty),
        }
    }

    fn answer_without_limit(&self) -> i128 {
        match self {
            Slip::WithoutLimitAnswers0 => 0,
            Slip::WithoutLimitAnswersAll64Bits => i128::from(u64::MAX),
            Slip::MostNotReached => MOST - 1,
            _ => Documents.answer_without_limit(),
        }
    }

    fn moved_by(&self, asked: &Asked, amount: i128) -> Moved {
        let right = Documents.moved_by(asked, amount);
        match self {
            Slip::LimitsWithTheAmount => Moved { vaf: amount, ..right },
            Slip::WWithTheAmount if Documents.counts_in_w(asked.tier, asked.kind) => {
                Moved { w: amount, ..right }
            }
            _ => right,
        }
    }

    fn greatest(&self, asked: &Asked, raises: &dyn Fn(i128) -> bool) -> i128 {
        let right = Documents.greatest(asked, raises);
        // What is left at a line of the group, or at the tier that is asked about, where such lines
        // have so much counted.
        let rank = |tier: Tier| (asked.limits[&tier].unrounded, tier);
        let own = rank(asked.tier);
        let limit = |at: (Fraction, Tier)| asked.limits[&at.1].cents;
        let stands = |line: &Line| line.exposure - line.excess;
        let sum = |counts: &dyn Fn(&Line) -> bool, amount: &dyn Fn(&Line) -> i128| {
            asked.lines.iter().filter(|line| counts(line)).map(amount).sum::<i128>()
        };
        let up_to = |at, amount: &dyn Fn(&Line) -> i128| {
            limit(at) - sum(&|line| rank(line.tier) <= at, amount)
        };
        let room = |at| up_to(at, &stands);
        let left = |at| limit(at) - sum(&|line| rank(line.tier) < at, &stands);
        let above = || asked.lines.iter().map(|line| rank(line.tier)).filter(move |&at| at > own);
        let below = || asked.lines.iter().map(|line| rank(line.tier)).filter(move |&at| at < own);
        let least = |rooms: &mut dyn Iterator<Item = i128>| rooms.min().unwrap_or(MOST);
        let with_own = |rooms: &mut dyn Iterator<Item = i128>| least(rooms).min(room(own));
        let of_own = || asked.lines.iter().find(|line| line.tier == asked.tier);
        let wrong = match self {
            Slip::OwnTierAlone => room(own),
            Slip::OwnTierNotAsked => least(&mut above().map(room)),
            Slip::GroupsTiersAlone => least(&mut above().chain(of_own().map(|_| own)).map(room)),
            Slip::TiersBelowInPlaceOfAbove => with_own(&mut below().map(room)),
            Slip::NextTierAboveAlone => with_own(&mut above().take(1).map(room)),
            Slip::HighestTierAlone => room(above().next_back().unwrap_or(own)),
            Slip::TiersAboveByNumber => {
                let lines = asked.lines.iter().map(|line| rank(line.tier));
                with_own(&mut lines.filter(|at| at.1 > asked.tier).map(room))
            }
            Slip::EqualLimitsNotAsked => {
                let lower = |line: &Line| line.limit < limit(own) || line.tier == asked.tier;
                let higher = above().filter(|&at| limit(at) > limit(own));
                least(&mut higher.map(room)).min(limit(own) - sum(&lower, &stands))
            }
            Slip::StandingBeforeTheTier => least(&mut above().map(left)).min(left(own)),
            Slip::OwnExposureNotCounted => least(&mut above().map(room)).min(left(own)),
            Slip::ReportsLeftAnswered => of_own().map_or(limit(own), |line| line.left),
            Slip::WholeGroupCounted => limit(own) - sum(&|_| true, &stands),
            Slip::ExposureForStanding => {
                let room = |at| up_to(at, &|line| line.exposure);
                least(&mut above().map(room)).min(room(own))
            }
            Slip::GroupsWithAnExcessAnswer0 if sum(&|_| true, &|line| line.excess) > 0 => 0,
            Slip::ChargedFundsAnswer0 if asked.charge > 0 => 0,
            Slip::OneCentMore => right + 1,
            Slip::OneCentLess => right - 1,
            Slip::MostNotReached => right.min(MOST - 1),
            Slip::NotCappedAtM if right == MOST => return with_own(&mut above().map(room)),
            _ => right,
        };
        wrong.clamp(0, MOST)
    }

    fn bought(&self, answer: i128) -> i128 {
        match self {
            Slip::AnswersBoughtInTurn => answer,
            _ => Documents.bought(answer),
        }
    }

    fn standing_length(&self, buffer: usize, counts: [usize; 3]) -> usize {
        match self {
            Slip::StandingBookIsTheWholeBuffer => buffer,
            _ => Documents.standing_length(buffer, counts),
        }
    }

    fn of_standing(&self, found: Option<Refusal>, shorter: bool) -> Option<Refusal> {
        let number = found.filter(|_| shorter).map_or(0, Refusal::number);
        match (self, number) {
            (Slip::ShorterBufferAs5, 8) => Some(Refusal::BookLength),
            (Slip::ShorterBufferAs16, 8) => Some(Refusal::BufferShort),
            (Slip::ShorterBufferBefore6, 6 | 7) => Some(Refusal::BookCounts),
            _ => Documents.of_standing(found, shorter),
        }
    }

    fn place_taken(&self, place: u64, assets: usize) -> Option<usize> {
        let right = |place| Documents.place_taken(place, assets);
        match self {
            Slip::Place0TakesTheFirst => right(place.max(1)),
            Slip::PlaceBehindTheLastTakesTheLast if place == assets as u64 + 1 => right(place - 1),
            Slip::LastPlaceNotTaken => right(place).filter(|&place| place < assets),
            Slip::PlacesTakenFrom0 => right(place.saturating_add(1)),
            Slip::PlaceTakenOf8Bits => right(u64::from(place as u8)),
            Slip::PlaceTakenOf16Bits => right(u64::from(place as u16)),
            Slip::PlaceTakenOf32Bits => right(u64::from(place as u32)),
            _ => right(place),
        }
    }

    fn record_added(&self, record: &[u8]) -> Option<[u8; 48]> {
        let right = Documents.record_added(record);
        let padded = || [record, &[0; 48]].concat()[..48].try_into().ok();
        match self {
            Slip::LongRecordCut if record.len() > 48 => padded(),
            Slip::ShortRecordPadded if record.len() < 48 => padded(),
            Slip::RecordsOf48BytesEach if record.len() == 96 => padded(),
            _ => right,
        }
    }

    fn record_kept(&self, version: u16, record: [u8; 48]) -> [u8; 48] {
        let mut kept = Documents.record_kept(version, record);
        match self {
            Slip::RecordsCountCleared if version == 2 => kept[6] = 0,
            Slip::RecordsCountCleared => kept[6..8].fill(0),
            Slip::RecordsDeskCleared if version == 2 => kept[7] = 0,
            _ => {}
        }
        kept
    }

    fn before_added(&self, assets: usize) -> usize {
        match self {
            Slip::AddedAtTheFront => 0,
            Slip::AddedBeforeTheLast => assets.saturating_sub(1),
            _ => Documents.before_added(assets),
        }
    }

    fn take_away(&self, assets: &mut Vec<StoredAsset>, place: usize) {
        let at = place - 1;
        let own = assets[at].mitigants.len();
        let before: usize = assets[..at].iter().map(|asset| asset.mitigants.len()).sum();
        // So many mitigants, but others: those behind as many of them all.
        let take_others = |assets: &mut Vec<StoredAsset>, behind: usize| {
            let mut all: Vec<[u8; 12]> =
                assets.iter().flat_map(|asset| asset.mitigants.clone()).collect();
            let behind = behind.min(all.len() - own);
            all.drain(behind..behind + own);
            assets.remove(at);
            let mut rest = all.into_iter();
            for asset in assets {
                asset.mitigants = rest.by_ref().take(asset.mitigants.len()).collect();
            }
        };
        match self {
            Slip::MitigantsStay => {
                let mut stay = assets.remove(at).mitigants;
                if let Some(next) = assets.get_mut(at) {
                    stay.append(&mut next.mitigants);
                    next.mitigants = stay;
                } else if let Some(last) = assets.last_mut() {
                    last.mitigants.append(&mut stay);
                }
            }
            Slip::FirstMitigantsTaken => take_others(assets, 0),
            Slip::LastMitigantsTaken => take_others(assets, usize::MAX),
            Slip::NextMitigantsTaken => take_others(assets, before + 1),
            Slip::ClosedUpWithTheLast => {
                assets.swap_remove(at);
            }
            Slip::TakenAssetBlanked => {
                assets[at].record[6..].fill(0);
                assets[at].mitigants.clear();
            }
            _ => Documents.take_away(assets, place),
        }
    }

    fn counts_after(&self, before: [usize; 3], after: [usize; 3]) -> [usize; 3] {
        let [counterparties, assets, mitigants] = after;
        match self {
            Slip::AssetCountStays => [counterparties, before[1], mitigants],
            Slip::MitigantCountStays => [counterparties, assets, before[2]],
            _ => Documents.counts_after(before, after),
        }
    }

    fn amounts_after(&self, amounts: Amounts, record: &[u8; 48], added: bool) -> Amounts {
        let right = Documents.amounts_after(amounts, record, added);
        let [total, base, excluded] = right;
        let value = i128::from(u64::from_le_bytes(record[8..16].try_into().unwrap()));
        let change = if added { value } else { -value };
        let follows = [(total + change).clamp(0, i128::from(u64::MAX)), base, excluded];
        match self {
            Slip::TotalFollows => follows,
            Slip::TotalFollowsReinsurance if record[0] == 9 => follows,
            Slip::BaseFollows => [total, (base + change).clamp(-MOST, MOST), excluded],
            _ => right,
        }
    }

    fn laid_out(&self, assets: &[StoredAsset], added: bool) -> Vec<u8> {
        let right = Documents.laid_out(assets, added);
        match (self, assets.split_last()) {
            (Slip::AddedBehindTheMitigants, Some((last, before))) if added => {
                [&Documents.laid_out(before, added)[..], &last.record].concat()
            }
            _ => right,
        }
    }

    fn of_resulting(
        &self,
        found: Option<Refusal>,
        version: u16,
        record: Option<&[u8; 48]>,
    ) -> Option<Refusal> {
        let right = Documents.of_resulting(found, version, record);
        let behind_13 = !matches!(right.map(Refusal::number), Some(..=12));
        let desk = record.is_some_and(|record| version == 2 && record[7] != 0);
        match (self, right) {
            (Slip::ResultRefusedAs22, Some(_)) => Some(Refusal::Movement),
            (Slip::ResultRefusedWithoutPlace, Some(Refusal::Asset(_))) => Some(Refusal::Asset(0)),
            (Slip::ResultRefusedWithoutPlace, Some(Refusal::SpecialistEntry(_))) => {
                Some(Refusal::SpecialistEntry(0))
            }
            (Slip::BadRecordAtPlace1, Some(Refusal::Asset(_))) => Some(Refusal::Asset(1)),
            (Slip::BadRecordAtTheLastPlace, Some(Refusal::Asset(place))) => {
                Some(Refusal::Asset(place - 1))
            }
            (Slip::RecordWithACountAs22, Some(Refusal::MitigantCounts)) => Some(Refusal::Movement),
            (Slip::RecordsCountOfTwoBytes, _) if desk && behind_13 => Some(Refusal::MitigantCounts),
            _ => right,
        }
    }

    fn book_fits(&self, buffer: usize, book: usize) -> bool {
        match self {
            Slip::BookBufferNotAsked => true,
            Slip::BookBufferOfItsLengthRefused => buffer > book,
            Slip::BookBufferOneByteShortPasses => buffer + 1 >= book,
            _ => Documents.book_fits(buffer, book),
        }
    }

    fn report_fits(&self, buffer: usize, report: usize) -> bool {
        match self {
            Slip::ReportBufferOfItsLengthRefused => buffer > report,
            Slip::ReportBufferOneByteShortPasses => buffer + 1 >= report,
            _ => Documents.report_fits(buffer, report),
        }
    }

    fn first_of_movement(&self, found: [Option<Refusal>; 5]) -> Option<Refusal> {
        let [standing, movement, result, book, report] = found;
        let number = standing.map_or(0, Refusal::number);
        let first = |found: [Option<Refusal>; 5]| Documents.first_of_movement(found);
        match self {
            Slip::StandingBookNotChecked if number >= 9 => {
                first([None, movement, result, book, report])
            }
            Slip::MovementNotChecked => first([standing, None, result, book, report]),
            Slip::MovementFirst => first([movement, standing, result, book, report]),
            Slip::MovementBeforeTheBook if number >= 5 => movement.or(standing),
            Slip::MovementBefore15 if number == 15 => movement.or(standing),
            Slip::MovementAfterTheResult => first([standing, result, movement, book, report]),
            Slip::MovementAfter16 => first([standing, result, book, report, movement]),
            Slip::ShortBuffersBefore22 => first([standing, book, report, movement, result]),
            Slip::BookShortBeforeTheResult => first([standing, movement, book, result, report]),
            Slip::ReportShortBeforeTheResult => first([standing, movement, report, result, book]),
            Slip::ReportShortBeforeTheBook if number >= 5 => report.or(standing),
            _ => first(found),
        }
    }

    fn changed(&self, found: [Option<Refusal>; 5]) -> [bool; 2] {
        let [standing, movement, result, book, report] = found.map(|found| found.is_some());
        let passes = !standing && !movement;
        match self {
            Slip::StandingBookNotChecked | Slip::MovementNotChecked => {
                [self.first_of_movement(found).is_none(); 2]
            }
            Slip::BookStays => [false, Documents.changed(found)[1]],
            Slip::BookChangedWhereTheReportIsShort if passes && !result && !book && report => {
                [true, false]
            }
            Slip::BookChangedWhereTheResultIsRefused if passes && result => [true, false],
            Slip::ReportWrittenWhereTheBookIsShort if passes && !result && book && !report => {
                [false, true]
            }
            _ => Documents.changed(found),
        }
    }

    fn buffer_after(&self, before: &[u8], old_length: usize, new: &[u8]) -> Vec<u8> {
        let mut after = Documents.buffer_after(before, old_length, new);
        let old_end = old_length.min(after.len());
        match self {
            Slip::OldEndCleared if new.len() < old_end => after[new.len()..old_end].fill(0),
            Slip::RestCleared => after[new.len()..].fill(0),
            Slip::RestMovedAlong => {
                let rest = &before[old_end..];
                after[new.len()..].iter_mut().zip(rest).for_each(|(to, &from)| *to = from);
            }
            _ => {}
        }
        after
    }

    fn reported<T>(&self, standing: T, resulting: T) -> T {
        match self {
            Slip::ReportOfTheStandingBook => standing,
            _ => Documents.reported(standing, resulting),
        }
    }

    fn values_after(&self, standing: &Values, resulting: &Values) -> Values {
        match self {
            Slip::LimitsOfTheStandingBook => standing.clone(),
            _ => Documents.values_after(standing, resulting),
        }
    }

    fn length_answered(&self, report: usize, book: usize) -> usize {
        match self {
            Slip::BooksLengthAnswered => book,
            _ => Documents.length_answered(report, book),
        }
    }

    fn stressed(&self, asset: &Asset) -> i128 {
        match self {
            Slip::GreaterStressAlways => asset.insurance_stress.max(asset.combination_stress),
            _ => Documents.stressed(asset),
        }
    }

    fn net(&self, asset: &Asset, value_or_stressed: i128) -> i128 {
        match self {
            Slip::DeductionsLeftInNet => (value_or_stressed - asset.offsets).max(0),
            _ => Documents.net(asset, value_or_stressed),
        }
    }

    fn stressed_less_netted(&self, asset: &Asset, stressed: i128) -> i128 {
        match self {
            Slip::StressedLessNettedBelow0 => stressed - asset.offsets,
            Slip::DeductionsTakenOffVafPrime => {
                (stressed - asset.offsets - asset.deductions).max(0)
            }
            _ => Documents.stressed_less_netted(asset, stressed),
        }
    }

    fn has_half(&self, counterparty: &Counterparty) -> bool {
        let right = Documents.has_half(counterparty);
        match self {
            Slip::HalfForAffiliatesToo => !counterparty.is(CounterpartyKind::RegisteredLifeCompany),
            Slip::HalfForRegisteredToo => !counterparty.approved_affiliate,
            Slip::HalfForUngradedAlone => right && !counterparty.graded(),
            Slip::HalfNotForRelated => right && !counterparty.related,
            Slip::HalfNotForSecondLimb => right && !counterparty.second_limb,
            _ => right,
        }
    }

    fn half_of(&self, book: &Book, asset: Place, taken_for: TakenFor) -> HalfName {
        let right = Documents.half_of(book, asset, taken_for);
        let own = &book.assets[usize::from(asset) - 1];
        let of_treaty = matches!(
            (self, taken_for),
            (Slip::HalfOfEachTreaty, _)
                | (Slip::BilledByHalvesOfEachTreaty, TakenFor::Bills)
                | (Slip::AnsweredByHalvesOfEachTreaty, TakenFor::Answers)
                | (Slip::MovedByHalvesOfEachTreaty, TakenFor::Movements)
        );
        match self {
            _ if of_treaty => (asset, 0),
            Slip::HalfOfTheGroup => (Documents.topmost(&book.counterparties, right.0), 0),
            Slip::HalfOfAllReinsurers => (0, 0),
            Slip::HalfByEntryClass => (right.0, own.entry.map_or(0, |entry| 1 + entry as u8)),
            Slip::HalfByDesk => (right.0, own.desk),
            _ => right,
        }
    }

    fn adds_to_half(&self, book: &Book, asset: &Asset) -> bool {
        let right = Documents.adds_to_half(book, asset);
        let recognised = |mitigant: &Mitigant| {
            let counterparty = &book.counterparties[&mitigant.counterparty];
            recognised(&Documents, mitigant, counterparty, true)
        };
        match self {
            Slip::LinkedAddedToTheHalf => asset.is_reinsurance(),
            Slip::HalfForEveryAsset | Slip::OtherKindsAddedToTheHalf => !asset.linked,
            Slip::RetrocessionNotAddedToTheHalf | Slip::RetrocessionCoveredInFull => {
                right && !asset.is_retrocession()
            }
            Slip::HalfOfMitigatedTreaties => right && !asset.mitigants.is_empty(),
            Slip::HalfOfCoveredTreaties => right && asset.mitigants.iter().any(recognised),
            _ => right,
        }
    }

    fn added_to_half(&self, asset: &Asset, net: i128) -> i128 {
        let stressed = Documents.stressed(asset);
        let Asset { offsets, deductions, combination_stress, .. } = *asset;
        match self {
            Slip::HalfOfValues => asset.value,
            Slip::HalfBeforeOffsetsAndDeductions => stressed,
            Slip::HalfBeforeOffsets => (stressed - deductions).max(0),
            Slip::HalfBeforeDeductions => (stressed - offsets).max(0),
            Slip::HalfOfNetsBelow0 => stressed - offsets - deductions,
            Slip::HalfOfCombinationStresses => Documents.net(asset, combination_stress),
            _ => net,
        }
    }

    fn half(&self, nets: &[i128]) -> i128 {
        let sum: i128 = nets.iter().sum();
        match self {
            Slip::HalfRoundedUp => (sum + 1) / 2,
            Slip::HalvesRoundedPerTreaty => nets.iter().map(|net| net / 2).sum(),
            Slip::HalvesRoundedUpPerTreaty => nets.iter().map(|net| (net + 1) / 2).sum(),
            Slip::HalfOfTheFirstTreaty => nets[0] / 2,
            Slip::HalfOfTheGreatestTreaty => nets.iter().max().map_or(0, |net| net / 2),
            Slip::HalfOfNetsBelow0 => sum.max(0) / 2,
            Slip::HalfOfASumUpToM => sum.min(MOST) / 2,
            _ => Documents.half(nets),
        }
    }

    fn draws_on_half(&self, asset: &Asset) -> bool {
        let right = Documents.draws_on_half(asset);
        match self {
            Slip::LinkedTreatiesDraw => asset.is_reinsurance(),
            Slip::HalfForEveryAsset | Slip::OtherKindsDraw => !asset.linked,
            Slip::RetrocessionDrawsNothing | Slip::RetrocessionCoveredInFull => {
                right && !asset.is_retrocession()
            }
            _ => right,
        }
    }

    fn drawing_order(&self, place: Place, asset: &Asset, net: i128) -> i128 {
        match self {
            Slip::DrawnFromTheLastTreaty => -i128::from(place),
            Slip::GreatestTreatyDrawsFirst => -net,
            Slip::LeastTreatyDrawsFirst => net,
            Slip::DrawnDeskByDesk => i128::from(asset.desk),
            _ => Documents.drawing_order(place, asset, net),
        }
    }

    fn may_be_covered(&self, asset: &Asset, net: i128, half: Option<&Half>) -> i128 {
        let right = Documents.may_be_covered(asset, net, half);
        let Some(half) = half else {
            return right;
        };
        let drawn = half.whole - half.left;
        let sum: i128 = half.nets.iter().sum();
        match self {
            Slip::OtherKindsDraw if !asset.is_reinsurance() => net,
            Slip::UpToHalfOfItsOwnNet => right.min((net + 1) / 2),
            Slip::CoveredPastItsNet => half.left,
            Slip::HalfSharedProRata if sum > 0 => half.whole * net / sum,
            Slip::HalfOfTreatiesMet => net.min((half.met / 2 - drawn).max(0)),
            Slip::HalfOfWhatIsNotCovered => net.min((sum - drawn) / 2),
            _ => right,
        }
    }

    fn drawn(&self, covering: &Covering) -> i128 {
        let right = Documents.drawn(covering);
        let Covering { net, covered, recognised, unrecognised } = *covering;
        match self {
            Slip::DrawnByMitigantsValues => recognised,
            Slip::DrawnByItsNet if recognised > 0 => net,
            Slip::DrawnByItsNetWithoutMitigants => net,
            Slip::UnrecognisedMitigantsDraw => covered + unrecognised.min(net - covered),
            Slip::DrawnOnce if covered > 0 => 1_000_000 * MOST,
            Slip::NeverDrawn => 0,
            _ => right,
        }
    }

    fn remainder(&self, covering: &Covering) -> i128 {
        match self {
            Slip::CoveredPastItsNet => Documents.remainder(covering).max(0),
            _ => Documents.remainder(covering),
        }
    }

    fn collateral_recognised(
        &self,
        item: &Mitigant,
        issuer: &Counterparty,
        reinsurance: bool,
    ) -> bool {
        let mut item = item.clone();
        let mut issuer = issuer.clone();
        let mut reinsurance = reinsurance;
        match self {
            Slip::CurrencyNotAsked => item.same_currency = true,
            Slip::P35TermsForEveryAsset => reinsurance = true,
            Slip::UngradedDebtRecognised => issuer.grade = 1,
            Slip::GradeAskedOfCash if !issuer.graded() => return false,
            _ => {}
        }
        Documents.collateral_recognised(&item, &issuer, reinsurance)
    }

    fn guarantee_recognised(
        &self,
        item: &Mitigant,
        guarantor: &Counterparty,
        reinsurance: bool,
    ) -> bool {
        let mut item = item.clone();
        let mut guarantor = guarantor.clone();
        match self {
            Slip::RelatedGuarantorRecognised => guarantor.related = false,
            Slip::UngradedGuarantorRecognised => guarantor.grade = 1,
            Slip::GuaranteeOfReinsuranceByAnyone => guarantor.kind = CounterpartyKind::Bank,
            Slip::P40TermsForReinsurance => item.p42_terms = item.p40_terms,
            Slip::CurrencyAskedOfGuarantees if !item.same_currency => return false,
            _ => {}
        }
        Documents.guarantee_recognised(&item, &guarantor, reinsurance)
    }

    fn letter_recognised(&self, guarantee_recognised: bool, reinsurance: bool) -> bool {
        match self {
            Slip::LetterForEveryAsset => guarantee_recognised,
            _ => Documents.letter_recognised(guarantee_recognised, reinsurance),
        }
    }

    fn covered_kind(&self, form: Form, counterparty: &Counterparty) -> Kind {
        match (self, form) {
            (Slip::GuaranteeAlwaysBankPaper, Form::Guarantee) => Kind::BankPaper,
            (Slip::CashAsLoan, Form::Cash) => Kind::Loan,
            _ => Documents.covered_kind(form, counterparty),
        }
    }

    fn unlimited(&self, kind: Kind, counterparty: &Counterparty) -> bool {
        let wrongly = match self {
            Slip::UnrelatedLifePolicyUnlimited => {
                kind == Kind::LifePolicy && counterparty.is(CounterpartyKind::RegisteredLifeCompany)
            }
            Slip::ProvinceUnlimited => {
                kind == Kind::GovernmentGuaranteed
                    && counterparty.is(CounterpartyKind::ProvincialGovernment)
            }
            _ => false,
        };
        wrongly || Documents.unlimited(kind, counterparty)
    }

    fn tier(&self, kind: Kind, counterparty: &Counterparty) -> Tier {
        let mut counterparty = counterparty.clone();
        let by_grade = if counterparty.graded() { Tier::H } else { Tier::I };
        match (self, kind) {
            (Slip::BankPaperNeedsGrade, Kind::BankPaper) if !counterparty.graded() => {
                return Tier::I
            }
            (Slip::PropertyNeedsGrade, Kind::Property) => return by_grade,
            (Slip::AnyOtherGradedInH, Kind::AnyOther) => return by_grade,
            (Slip::PremiumsNeedNoGrade, Kind::PremiumsOwed) => counterparty.grade = 1,
            _ => {}
        }
        Documents.tier(kind, &counterparty)
    }

    fn graded_reinsurance_tier(&self, reinsurer: &Counterparty) -> Tier {
        let mut reinsurer = reinsurer.clone();
        let registered = reinsurer.is(CounterpartyKind::RegisteredLifeCompany);
        match self {
            Slip::SecondLimbForRegisteredOnly => reinsurer.second_limb &= registered,
            Slip::RelatedRegisteredInE => reinsurer.related = false,
            Slip::RegisteredAffiliateInG if reinsurer.related && !reinsurer.second_limb => {
                reinsurer.kind = CounterpartyKind::Other
            }
            _ => {}
        }
        Documents.graded_reinsurance_tier(&reinsurer)
    }

    fn kept_after(&self, months: u8) -> Kept {
        match (self, months) {
            (Slip::Month2FirstPercent, 2) => Kept::FirstPercent,
            (Slip::Month3Full, 3) => Kept::Full,
            (Slip::Month11SecondPercent, 11) => Kept::SecondPercent,
            (Slip::Month12FirstPercent, 12) => Kept::FirstPercent,
            (Slip::Month23Nothing, 23) => Kept::Nothing,
            (Slip::Month24SecondPercent, 24) => Kept::SecondPercent,
            _ => Documents.kept_after(months),
        }
    }

    fn retrocession_tier(&self, retrocessionaire: &Counterparty, months: u8) -> Tier {
        let right = Documents.retrocession_tier(retrocessionaire, months);
        let mut ungraded = retrocessionaire.clone();
        ungraded.grade = 0;
        let by_flags = Documents.graded_reinsurance_tier(retrocessionaire);
        let by_months = Documents.retrocession_tier(&ungraded, months);
        if retrocessionaire.graded() {
            return match self {
                Slip::GradedRetrocessionByFlags => by_flags,
                Slip::GradedRetrocessionWhereHOnly if by_flags != Tier::HReinsurance => by_flags,
                Slip::GradedRetrocessionByMonths => by_months,
                _ => right,
            };
        }
        match (self, months) {
            (Slip::UngradedRetrocessionInE, 0..=2) => Tier::E,
            (Slip::UngradedRetrocessionInE, 3..=11) => Tier::EFirst,
            (Slip::UngradedRetrocessionInE, 12..=23) => Tier::ESecond,
            (Slip::RetrocessionMonth2First, 2) => Tier::RetrocessionFirst,
            (Slip::RetrocessionMonth3Full, 3) => Tier::Retrocession,
            (Slip::RetrocessionMonth11Second, 11) => Tier::RetrocessionSecond,
            (Slip::RetrocessionMonth12First, 12) => Tier::RetrocessionFirst,
            (Slip::RetrocessionMonth23InI, 23) => Tier::IReinsurance,
            (Slip::RetrocessionMonth24Second, 24) => Tier::RetrocessionSecond,
            (Slip::RetrocessionFrom24Second, 24..) => Tier::RetrocessionSecond,
            (Slip::RetrocessionFrom24NotReinsurance, 24..) => Tier::I,
            _ => right,
        }
    }

    fn rate(&self, version: u16, row: RowName, rate: RateName, number: u16) -> Fraction {
        let per_mille = Fraction::per_mille(number);
        let in_10000ths = Fraction::ten_thousandths(number);
        match (self, version, row, rate) {
            (Slip::Version1RatesInTenThousandths, 1, _, _) => in_10000ths,
            (Slip::Version1SecondVafRateInTenThousandths, 1, _, RateName::SecondVaf) => in_10000ths,
            (Slip::Version1BaseRateInTenThousandths, 1, _, RateName::Base) => in_10000ths,
            (Slip::Version1A3RatesInTenThousandths, 1, RowName::Z, _) => in_10000ths,
            (Slip::Version2RatesPerMille, 2, _, _) => per_mille,
            (Slip::Version2SecondVafRatePerMille, 2, _, RateName::SecondVaf) => per_mille,
            (Slip::Version2BaseRatePerMille, 2, _, RateName::Base) => per_mille,
            (Slip::Version2A3RatesPerMille, 2, RowName::Z, _) => per_mille,
            (Slip::Version2RatesRoundedDownToPerMille, 2, _, _) => Fraction::per_mille(number / 10),
            (Slip::Version2RatesRoundedToTheNearestPerMille, 2, _, _) => {
                Fraction::per_mille((number + 5) / 10)
            }
            _ => Documents.rate(version, row, rate, number),
        }
    }

    fn percent_kept(&self, version: u16, percent: u16) -> Fraction {
        match (self, version) {
            (Slip::Version2PercentsPerMille, 2) => Fraction::per_mille(percent),
            _ => Documents.percent_kept(version, percent),
        }
    }

    fn fixed(&self, version: u16, fixed: i128) -> i128 {
        match (self, version) {
            (Slip::Version1FixedAmountTenTimes, 1) => 10 * fixed,
            (Slip::Version2FixedAmountATenth, 2) => fixed / 10,
            _ => Documents.fixed(version, fixed),
        }
    }

    fn row(&self, tier: Tier, schedule: &Schedule) -> Row {
        let right = Documents.row(tier, schedule);
        if !tier.is_retrocession() {
            return right;
        }
        let e = schedule.rows[&RowName::E];
        let at = |vaf_rate| Row { vaf_rate, ..right };
        let a_tenth = at(Fraction::per_cent(10).of(right.vaf_rate));
        match (self, tier) {
            (Slip::RetrocessionWithBase, _) => Row { base_rate: e.base_rate, ..right },
            (Slip::RetrocessionWithFixedAmount, _) => Row { fixed: e.fixed, ..right },
            (Slip::RetrocessionInThirds, Tier::RetrocessionFirst) => at(Fraction::per_mille(333)),
            (Slip::RetrocessionInThirds, Tier::RetrocessionSecond) => at(Fraction::per_mille(167)),
            (Slip::RetrocessionByPercentsKept | Slip::RetrocessionRoundedBeforePercent, _) => {
                at(Fraction::per_mille(500))
            }
            (Slip::RetrocessionInTenThousandths, _) => a_tenth,
            (Slip::RetrocessionByTheSchedulesVersion, _) if schedule.version == 2 => a_tenth,
            (Slip::RetrocessionTenTimes, _) => at(Fraction::whole(10).of(right.vaf_rate)),
            _ => right,
        }
    }

    fn percent(&self, tier: Tier, schedule: &Schedule) -> Fraction {
        match (self, tier) {
            (
                Slip::RetrocessionByPercentsKept | Slip::RetrocessionPercentsKeptToo,
                Tier::RetrocessionFirst,
            ) => schedule.first_percent,
            (
                Slip::RetrocessionByPercentsKept | Slip::RetrocessionPercentsKeptToo,
                Tier::RetrocessionSecond,
            ) => schedule.second_percent,
            (Slip::RetrocessionRoundedBeforePercent, Tier::RetrocessionFirst) => {
                Fraction::per_cent(66)
            }
            (Slip::RetrocessionRoundedBeforePercent, Tier::RetrocessionSecond) => {
                Fraction::per_cent(34)
            }
            (Slip::PercentsExchanged, Tier::GFirst | Tier::EFirst) => schedule.second_percent,
            (Slip::PercentsExchanged, Tier::GSecond | Tier::ESecond) => schedule.first_percent,
            _ => Documents.percent(tier, schedule),
        }
    }

    fn uses_vaf_prime(&self, tier: Tier) -> bool {
        match (self, tier) {
            (Slip::PremiumsOnVafPrime, Tier::F) => true,
            (Slip::IReinsuranceOnVaf, Tier::IReinsurance) => false,
            (Slip::RetrocessionOnVaf, tier) if tier.is_retrocession() => false,
            _ => Documents.uses_vaf_prime(tier),
        }
    }

    fn lessened_by_w(&self, tier: Tier) -> bool {
        match self {
            Slip::RetrocessionLessenedByW => tier == Tier::D || tier == Tier::Retrocession,
            _ => Documents.lessened_by_w(tier),
        }
    }

    fn counts_in_w(&self, tier: Tier, kind: Kind) -> bool {
        match self {
            Slip::WCountsKind5 => tier == Tier::C,
            _ => Documents.counts_in_w(tier, kind),
        }
    }

    fn vaf_products(&self, row: &Row, vaf: i128, w: i128) -> [Fraction; 2] {
        let [first, second] = Documents.vaf_products(row, vaf, w);
        let lessened = |product: Fraction, w| product.less(w).max(Fraction::whole(0));
        let [unlessened, _] = Documents.vaf_products(row, vaf, 0);
        let in_64_bits = Fraction::whole(i128::from((10_000 * w) as u64));
        match self {
            Slip::WIgnored => [unlessened, second],
            Slip::WLessensSecondRate => [first, lessened(second, Fraction::whole(w))],
            Slip::WATenth => {
                [lessened(unlessened, Fraction::per_cent(10).of(Fraction::whole(w))), second]
            }
            Slip::WTenTimes => [lessened(unlessened, Fraction::whole(10 * w)), second],
            Slip::WTimes10000In64Bits => {
                [lessened(unlessened, Fraction::ten_thousandths(1).of(in_64_bits)), second]
            }
            Slip::SecondRateIgnored => [first, first],
            _ => [first, second],
        }
    }

    fn base_product(&self, row: &Row, base: i128) -> Fraction {
        match self {
            Slip::NegativeBaseAsPositive => Documents.base_product(row, base.abs()),
            _ => Documents.base_product(row, base),
        }
    }

    fn limit(
        &self,
        version: u16,
        tier: Option<Tier>,
        products: [Fraction; 3],
        fixed: i128,
        kept: Fraction,
    ) -> i128 {
        let right = Documents.limit(version, tier, products, fixed, kept);
        let exact = kept.of(products.into_iter().fold(Fraction::whole(fixed), Fraction::max));
        let rounded_before_percent = || {
            let full = Documents.limit(version, tier, products, fixed, Fraction::whole(1));
            kept.of(Fraction::whole(full)).floor()
        };
        let rounded_up = || exact.ceiling();
        let retrocession = tier.is_some_and(Tier::is_retrocession);
        match self {
            Slip::RoundedBeforePercent => rounded_before_percent(),
            Slip::Version2RoundedBeforePercent if version == 2 => rounded_before_percent(),
            Slip::LimitsOfSigned64Bits => {
                let millionths = Fraction::whole(1_000_000).of(exact).floor();
                i128::from(millionths as i64 / 1_000_000)
            }
            Slip::RetrocessionRoundedBeforePercent if retrocession => rounded_before_percent(),
            Slip::FixedAmountKeptWhole => right.max(fixed),
            Slip::RoundedUp => rounded_up(),
            Slip::RetrocessionRoundedUp if retrocession => rounded_up(),
            _ => right,
        }
    }

    fn topmost(&self, counterparties: &BTreeMap<Place, Counterparty>, place: Place) -> Place {
        match self {
            Slip::ParentNotTopmost => counterparties[&place].parent.unwrap_or(place),
            _ => Documents.topmost(counterparties, place),
        }
    }

    fn unrounded(&self, basis: &Basis, products: [Fraction; 3]) -> Fraction {
        let right = Documents.unrounded(basis, products);
        let [first, second, of_base] = products;
        let none = Fraction::whole(0);
        let with = |products| Documents.unrounded(basis, products);
        let on = |vaf, w| {
            let [first, second] = Documents.vaf_products(&basis.row, vaf, w);
            with([first, second, of_base])
        };
        let unreduced = Basis { kept: Fraction::whole(1), ..*basis };
        let in_parts = |parts: i128| Fraction::whole(Fraction::whole(parts).of(right).floor());
        let tenth = Fraction::per_cent(10);
        let rounded_down = Fraction::whole(right.floor());
        let retrocession = basis.tier.is_retrocession();
        match (self, basis.version) {
            (Slip::HigherUnroundedFirst, _) => none.less(right),
            (Slip::RankedByTheNearestCent, _) => Fraction::whole((in_parts(2).floor() + 1) / 2),
            (Slip::RankedByCentsRoundedUp, _) => Fraction::whole(right.ceiling()),
            (Slip::RankedWithoutThePercent, _) => Documents.unrounded(&unreduced, products),
            (Slip::RankedWithoutW, _) => on(basis.vaf, 0),
            (Slip::RankedWithoutTheBase, _) => with([first, second, none]),
            (Slip::RankedWithoutTheFixedAmount, _) => {
                let row = Row { fixed: 0, ..basis.row };
                Documents.unrounded(&Basis { row, ..*basis }, products)
            }
            (Slip::RankedWithoutTheSecondRate, _) => with([first, none, of_base]),
            (Slip::RankedOnVafAlone, _) => on(basis.fund_vaf, basis.w),
            (Slip::RankedByThePercentOfCents, _) => {
                let full = Documents.unrounded(&unreduced, products);
                basis.kept.of(Fraction::whole(full.floor()))
            }
            (Slip::RowDRankedByCents, _) if basis.tier == Tier::D => rounded_down,
            (Slip::Tiers0To12RankedByCents, _) if !retrocession => rounded_down,
            (Slip::Tiers13To15RankedByCents, _) if retrocession => rounded_down,
            (Slip::Version1RatesRankedInTenThousandths, 1) if !retrocession => {
                with(products.map(|product| tenth.of(product)))
            }
            (Slip::Version2RatesRankedPerMille, 2) if !retrocession => {
                with(products.map(|product| Fraction::whole(10).of(product)))
            }
            (Slip::RetrocessionRankedATenth, _) if retrocession => tenth.of(right),
            (Slip::RetrocessionRankedTenTimes, _) if retrocession => Fraction::whole(10).of(right),
            (Slip::RankedByWhatIsLeftOver, _) => Fraction::whole(right.left_over()),
            (Slip::RankedInTenthsOfACent, _) => in_parts(10),
            (Slip::RankedInHundredthsOfACent, _) => in_parts(100),
            (Slip::RankedInThousandthsOfACent, _) => in_parts(1_000),
            (Slip::RankedInTenThousandthsOfACent, _) => in_parts(10_000),
            (Slip::RankedInHundredThousandthsOfACent, _) => in_parts(100_000),
            // What is not below 0 is ordered as its bits are.
            (Slip::RankedInFloatingPoint, _) => {
                Fraction::whole(i128::from(right.floating().to_bits()))
            }
            (Slip::RankedInSigned64Bits, _) => {
                let millionths = Fraction::whole(1_000_000).of(right).floor();
                Fraction::whole(i128::from(millionths as i64))
            }
            _ => right,
        }
    }

    fn rank(&self, tier: Tier, limit: &Limit) -> Vec<Fraction> {
        let [cents, number] = [limit.cents, i128::from(tier.number())].map(Fraction::whole);
        match self {
            Slip::FixedRanking => vec![number],
            Slip::TiesByHigherNumber => vec![limit.unrounded, Fraction::whole(0).less(number)],
            Slip::RetrocessionRanksLast if tier.is_retrocession() => {
                vec![Fraction::whole(100 * MOST), limit.unrounded, number]
            }
            Slip::RankedByCents | Slip::LinesByUnroundedCutByCents => vec![cents, number],
            slip if slip.of_equal_limits() => vec![cents, limit.unrounded, number],
            _ => Documents.rank(tier, limit),
        }
    }

    fn left(&self, tier: Tier, limit: &Limit, standing: i128) -> i128 {
        match self {
            Slip::UnreducedLimits => limit.cents,
            Slip::RetrocessionNotCascaded if tier.is_retrocession() => limit.cents,
            Slip::CutAtLimitsRoundedUp => limit.unrounded.ceiling() - standing,
            _ => Documents.left(tier, limit, standing),
        }
    }

    fn excess(&self, exposure: i128, limit: &Limit, left: i128) -> i128 {
        match self {
            Slip::ExposureCutWhole => exposure,
            Slip::CutOverUnroundedLimits => {
                (exposure - left - (limit.unrounded.ceiling() - limit.cents)).max(0)
            }
            _ => Documents.excess(exposure, limit, left),
        }
    }

    fn put_in_order(&self, lines: &mut [Line], limits: &BTreeMap<Tier, Limit>) {
        match self {
            Slip::LinesByUnroundedCutByCents => {
                lines.sort_by_cached_key(|line| Documents.rank(line.tier, &limits[&line.tier]));
            }
            Slip::LinesByCentsCutByUnrounded => lines.sort_by_key(|line| (line.limit, line.tier)),
            _ => Documents.put_in_order(lines, limits),
        }
    }

    fn counts_in_a3(&self, tier: Tier, exposure: &Exposure, counterparty: &Counterparty) -> bool {
        let right = Documents.counts_in_a3(tier, exposure, counterparty);
        let registered = counterparty.is(CounterpartyKind::RegisteredLifeCompany);
        match self {
            Slip::A3CountsKind4 => matches!(tier.number(), 1 | 3..=6),
            Slip::A3CountsTiers7To9 => matches!(tier.number(), 1 | 3..=9) && !registered,
            Slip::A3WithoutTier1 => matches!(tier.number(), 3..=6) && !registered,
            Slip::A3CountsRetrocession => right || tier.is_retrocession() && !registered,
            Slip::A3WithoutEntry3FromMonth24 => {
                right && exposure.entry != Some(Entry::Retrocession)
            }
            _ => right,
        }
    }

    fn a3_part(&self, line: &Line) -> i128 {
        match self {
            Slip::A3Uncapped => line.a3_together,
            Slip::A3CapReduced => line.a3_together.min(line.left),
            _ => Documents.a3_part(line),
        }
    }

    fn a3_vaf(&self, vaf: i128, vaf_prime: i128) -> i128 {
        match self {
            Slip::A3OnVaf => vaf,
            _ => Documents.a3_vaf(vaf, vaf_prime),
        }
    }

    fn charge(&self, group_excess: i128, a3_sum: i128, a3_limit: i128) -> i128 {
        match self {
            Slip::ChargeWithoutA3 => group_excess,
            Slip::ChargeAlways0 => 0,
            _ => Documents.charge(group_excess, a3_sum, a3_limit),
        }
    }

    fn all_unlimited(&self, linked: i128, without_limit: i128) -> i128 {
        match self {
            Slip::LinkedNotUnlimited => without_limit,
            _ => Documents.all_unlimited(linked, without_limit),
        }
    }

    fn all_net(&self, linked: i128, others: i128) -> i128 {
        match self {
            Slip::LinkedNotInAllNet => others,
            _ => Documents.all_net(linked, others),
        }
    }

    fn has_line(&self, exposure: i128) -> bool {
        self.is(Slip::LinesWithoutExposure) || Documents.has_line(exposure)
    }

    fn tier_set(&self, tiers: &[Tier]) -> u16 {
        let set = Documents.tier_set(tiers);
        match self {
            Slip::TierSetWithoutLowest if tiers.len() > 1 => set & (set - 1),
            Slip::TierSetOf13Bits => set & 0x1fff,
            _ => set,
        }
    }
}
