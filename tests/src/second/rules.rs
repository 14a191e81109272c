//! The documents' sentences, one method each: every one that a wrong program could get wrong by
//! itself. No method calls another, so that a slip can replace one and leave the rest. A quotation
//! is document 01's, but where a request of document 02 is named.

use super::fraction::Fraction;
use super::fund::Values;
use super::records::*;
use crate::weightrose::{Refusal, BILLS, DESKS};
use std::collections::BTreeMap;

/// Document 01, as document 02's requests have changed it.
pub struct Documents;

impl Rules for Documents {}

pub trait Rules {
    // What the desk turns back.

    /// C-11: "Header byte 12 set to 1 marks a specialist fund." None where it is neither 0 nor 1
    /// (6: "its example is now byte 12 = 2").
    fn specialist(&self, byte: u8) -> Option<bool> {
        match byte {
            0 => Some(false),
            1 => Some(true),
            _ => None,
        }
    }

    /// C-13: "Refusal 7 now passes versions 1 and 2."
    fn version_passes(&self, version: u16) -> bool {
        matches!(version, 1 | 2)
    }

    /// C-13: "Book version 2 narrows the count of mitigants from two bytes to byte 6, and byte 7
    /// holds the desk": the count in an asset's bytes 6 and 7.
    fn count(&self, version: u16, bytes: [u8; 2]) -> u16 {
        match version {
            2 => u16::from(bytes[0]),
            _ => u16::from_le_bytes(bytes),
        }
    }

    /// C-13: "byte 7 holds the desk, 0 to 255". C-14: "The A3 excess goes to desk 0, as does every
    /// line of a version 1 book."
    fn desk(&self, version: u16, bytes: [u8; 2]) -> u8 {
        match version {
            2 => bytes[1],
            _ => 0,
        }
    }

    /// C-15: "Refusal 3 passes 1 and 2 (its example is now 3)".
    fn schedule_version_passes(&self, version: u16) -> bool {
        matches!(version, 1 | 2)
    }

    /// "a rate over 1,500" (4). C-15: "Schedule version 2 has the same layout with rates in
    /// ten-thousandths, at most 15,000", "and refusal 4 reads 15,000 for version 2". Every rate of
    /// every row.
    fn row_rate_accepted(&self, version: u16, _row: RowName, _rate: RateName, number: u16) -> bool {
        match version {
            2 => number <= 15_000,
            _ => number <= 1_500,
        }
    }

    /// "percent over 100" (4), in either version of a schedule.
    fn percent_accepted(&self, _version: u16, percent: u16) -> bool {
        percent <= 100
    }

    /// "or fixed amount over M" (4), in either version of a schedule.
    fn fixed_accepted(&self, _version: u16, fixed: i128) -> bool {
        fixed <= MOST
    }

    /// "Checked by rising number": what 3 and 4 find of a schedule.
    fn first_of_schedule(&self, found: [Option<Refusal>; 2]) -> Option<Refusal> {
        found.into_iter().flatten().next()
    }

    /// "Checked by rising number": the first bad counterparty, asset and mitigant, if any.
    fn first_bad_record(&self, bad_records: [Option<Refusal>; 3]) -> Option<Refusal> {
        bad_records.into_iter().flatten().next()
    }

    /// C-11: 17 comes "after 13". The findings of 13, 17, 14 and 15 on a book of good records.
    fn first_refusal(&self, found: [Option<Refusal>; 4]) -> Option<Refusal> {
        found.into_iter().flatten().next()
    }

    /// "offsets are netted liabilities, at most its value" (11): reinsurance only.
    fn offsets_accepted(&self, reinsurance: bool, offsets: i128, value: i128) -> bool {
        !reinsurance || offsets <= value
    }

    /// "counts don't add to K" (13).
    fn counts_accepted(&self, counts: &[u16], mitigants: usize) -> bool {
        counts.iter().copied().map(usize::from).sum::<usize>() == mitigants
    }

    /// "Mitigant, 12 bytes, in asset order": how many of them are an asset's.
    fn mitigants_of(&self, _asset: &Asset, count: u16) -> usize {
        usize::from(count)
    }

    /// C-11: "17 when entry 3 stands in a book whose byte 12 is 0, .., with the asset's place", the
    /// first such asset's.
    fn entry_not_of_fund(&self, book: &Book) -> Option<Place> {
        let mut places = (1..).zip(&book.assets);
        places
            .find(|(_, asset)| asset.is_retrocession() && !book.specialist)
            .map(|(place, _)| place)
    }

    /// "reinsurance values over total" (14).
    fn reinsurance_values_accepted(&self, values: i128, total: i128) -> bool {
        values <= total
    }

    /// "VAF′ below 0 or over M" (15).
    fn vaf_prime_accepted(&self, vaf_prime: i128) -> bool {
        (0..=MOST).contains(&vaf_prime)
    }

    /// "buffer shorter than report" (16).
    fn buffer_accepted(&self, buffer: usize, report: usize) -> bool {
        buffer >= report
    }

    // The converter (C-13).

    /// "The converter takes only version 1, any other is its refusal 7".
    fn converter_takes(&self, version: u16) -> bool {
        version == 1
    }

    /// "It gives 18 when an asset has more than 255 mitigants, with its place", the first such
    /// asset's.
    fn too_many_mitigants(&self, book: &Book) -> Option<Place> {
        (1..).zip(&book.assets).find(|(_, asset)| asset.count > 255).map(|(place, _)| place)
    }

    /// "between 15 and 16": what 13, 17, 14 and 15 find of the book, then 18, then 16.
    fn first_of_converter(&self, found: [Option<Refusal>; 3]) -> Option<Refusal> {
        found.into_iter().flatten().next()
    }

    /// "16 compares the output with the book's length".
    fn output_accepted(&self, output: usize, book: usize) -> bool {
        output >= book
    }

    /// "turns version 1 into 2".
    fn converted_version(&self) -> u16 {
        2
    }

    /// "narrows the count of mitigants from two bytes to byte 6, and byte 7 holds the desk", "with
    /// desk 0": bytes 6 and 7 of an asset with so many.
    fn narrowed(&self, count: u16) -> [u8; 2] {
        [count as u8, 0]
    }

    // The bills (C-14).

    /// "The cost rate is in ten-thousandths, up to 1,000": "19 when the rate exceeds 1,000".
    fn rate_accepted(&self, rate: u64) -> bool {
        rate <= 1_000
    }

    /// "They are 256 amounts of eight bytes, and 16 compares that length."
    fn bills_fit(&self, buffer: usize) -> bool {
        buffer >= BILLS
    }

    /// "19 .., after 15": what 1 to 15 and 17 find of schedule and book, then 19, then 16.
    fn first_of_bills(&self, found: [Option<Refusal>; 3]) -> Option<Refusal> {
        found.into_iter().flatten().next()
    }

    /// "the exposure lines": covered parts and remainders. Document 01: "A linked asset's net is
    /// unlimited and its mitigants unread."
    fn has_exposure_lines(&self, asset: &Asset) -> bool {
        !asset.linked
    }

    /// "each asset's covered parts": a covered part is the asset's at this place, and is billed to
    /// its desk.
    fn desk_of_part(&self, book: &Book, asset: Place, _part: &Exposure) -> u8 {
        book.assets[usize::from(asset) - 1].desk
    }

    /// "in book order, each asset's covered parts before its remainder": the line with the least is
    /// first. Of one asset's lines no bill shows the order, since all are billed to its desk.
    fn serving_order(&self, line: &ExposureLine) -> [i128; 2] {
        [i128::from(line.asset), i128::from(!line.covered)]
    }

    /// "Within a group's tier": whose account a line of the report, or an exposure line, is of.
    fn account(&self, _counterparty: Place, top: Place, tier: Tier) -> (Place, Tier) {
        (top, tier)
    }

    /// "what stands". Document 01: "what a cut leaves standing is exposure less cut".
    fn stands(&self, line: &Line) -> i128 {
        line.exposure - line.excess
    }

    /// "what stands is given to the exposure lines .. A line's unserved part is its excess."
    fn unserved(&self, amount: i128, account: &Account) -> i128 {
        amount - amount.min(account.left)
    }

    /// Of an exposure without limit nothing is cut.
    fn excess_without_limit(&self, _amount: i128) -> i128 {
        0
    }

    /// "The A3 excess goes to desk 0": what a desk has of it.
    fn a3_excess(&self, desk: u8, excess: i128) -> i128 {
        match desk {
            0 => excess,
            _ => 0,
        }
    }

    /// "the running excess times the rate, rounded down", with the rate "in ten-thousandths".
    fn cost(&self, excess: i128, rate: u64) -> i128 {
        excess * i128::from(rate) / 10_000
    }

    /// "Desk by desk from 0, the cost is the running excess times the rate, rounded down, less the
    /// same figure before that desk", where `cost` makes that figure.
    fn bills(&self, excesses: &[DeskExcess; DESKS], cost: &dyn Fn(i128) -> i128) -> [i128; DESKS] {
        let mut running = 0;
        excesses.map(|excess| {
            let before = cost(running);
            running += excess.of_lines + excess.of_a3;
            cost(running) - before
        })
    }

    // How much more may be bought (C-16).

    /// "the list is over 200 or its bytes aren't three a question" (20): of a list of so many
    /// questions, and so many bytes over.
    fn list_accepted(&self, questions: usize, over: usize) -> bool {
        questions <= 200 && over == 0
    }

    /// "each a counterparty place (u16) and an asset kind (one byte)". Document 01: "Stored numbers
    /// are little-endian".
    fn stored_question(&self, bytes: [u8; 3]) -> (Place, u8) {
        (u16::from_le_bytes([bytes[0], bytes[1]]), bytes[2])
    }

    /// "20 when a place .. is out of range": document 01's "1 to C".
    fn place_asked(&self, place: Place, most_place: Place) -> bool {
        (1..=most_place).contains(&place)
    }

    /// "20 when a .. kind is out of range": document 01's "kind 1 to 11", "other than 9".
    fn kind_asked(&self, kind: u8) -> bool {
        (1..=11).contains(&kind) && kind != 9
    }

    /// "a place or kind": that of every question, here the one of this number, from 0.
    fn question_checked(&self, _number: usize, _questions: usize) -> bool {
        true
    }

    /// "21 when the answer buffer is shorter than eight bytes a question".
    fn answers_fit(&self, buffer: usize, questions: usize) -> bool {
        buffer >= 8 * questions
    }

    /// "both after 15, in that order": what 1 to 15 and 17 find of schedule and book, then 20, then
    /// 21.
    fn first_of_headroom(&self, found: [Option<Refusal>; 3]) -> Option<Refusal> {
        found.into_iter().flatten().next()
    }

    /// "that group's tier": the counterparty's group, by its topmost parent.
    fn group_asked(&self, _book: &Book, _counterparty: Place, top: Place) -> Place {
        top
    }

    /// "that group's tier": whose kind, grade and flags decide the tier, the counterparty's.
    fn tier_decided_by(&self, counterparty: Place, _top: Place) -> Place {
        counterparty
    }

    /// The tier that is asked about, and none where "A kind without limit" is.
    fn tier_asked(&self, tier: Option<Tier>, _counterparty: &Counterparty) -> Option<Tier> {
        tier
    }

    /// "A kind without limit answers M."
    fn answer_without_limit(&self) -> i128 {
        MOST
    }

    /// "the report's limits held": what an amount moves of VAF, VAF′ and W.
    fn moved_by(&self, _asked: &Asked, _amount: i128) -> Moved {
        Moved::default()
    }

    /// "the greatest amount up to M that can be added .. without raising the charge; one cent more
    /// raises it unless the answer is M". The charge does not fall with the amount.
    fn greatest(&self, _asked: &Asked, raises: &dyn Fn(i128) -> bool) -> i128 {
        let (mut answer, mut raising) = (0, MOST + 1);
        while raising - answer > 1 {
            let amount = (answer + raising) / 2;
            if raises(amount) {
                raising = amount;
            } else {
                answer = amount;
            }
        }
        answer
    }

    /// "each answer equals what the question gets when sent singly": what of an answer counts as
    /// bought for the questions behind it.
    fn bought(&self, _answer: i128) -> i128 {
        0
    }

    // Movements through the day (C-19).

    /// "its length read from its counts", C, N and K. Document 01: "Length is 40 + 4C + 48N + 12K."
    fn standing_length(&self, _buffer: usize, counts: [usize; 3]) -> usize {
        let [counterparties, assets, mitigants] = counts;
        40 + 4 * counterparties + 48 * assets + 12 * mitigants
    }

    /// "After 1 to 15 on the book as it stands": what they find of schedule and book. "8 if the
    /// buffer is shorter" is what document 01 finds of the bytes that are there, behind 6 and 7.
    fn of_standing(&self, found: Option<Refusal>, _shorter: bool) -> Option<Refusal> {
        found
    }

    /// "22 when the place taken away isn't there": none; else the place, from 1, of so many assets.
    fn place_taken(&self, place: u64, assets: usize) -> Option<usize> {
        usize::try_from(place).ok().filter(|place| (1..=assets).contains(place))
    }

    /// "22 when .. the record isn't 48 bytes": none.
    fn record_added(&self, record: &[u8]) -> Option<[u8; 48]> {
        record.try_into().ok()
    }

    /// "a 48-byte asset record without mitigants": it comes as it is. One that counts mitigants
    /// makes a book of which 13 finds that counts don't add to K.
    fn record_kept(&self, _version: u16, record: [u8; 48]) -> [u8; 48] {
        record
    }

    /// "at the end": how many of so many assets stand before it.
    fn before_added(&self, assets: usize) -> usize {
        assets
    }

    /// "takes the asset at a place away with its mitigants and closes up": the place is there.
    fn take_away(&self, assets: &mut Vec<StoredAsset>, place: usize) {
        assets.remove(place - 1);
    }

    /// "counts follow": C, N and K.
    fn counts_after(&self, _before: [usize; 3], after: [usize; 3]) -> [usize; 3] {
        after
    }

    /// "Header amounts .. stay", whatever asset was added or taken away.
    fn amounts_after(&self, amounts: Amounts, _record: &[u8; 48], _added: bool) -> Amounts {
        amounts
    }

    /// The records behind the counterparties. Document 01: "Mitigant, 12 bytes, in asset order",
    /// behind the assets, the one that was added too.
    fn laid_out(&self, assets: &[StoredAsset], _added: bool) -> Vec<u8> {
        let records = assets.iter().flat_map(|asset| asset.record);
        let mitigants = assets.iter().flat_map(|asset| asset.mitigants.concat());
        records.chain(mitigants).collect()
    }

    /// "a movement whose resulting book would be refused is refused by that book's number and
    /// place": what 5 to 15 and 17 find of it, where this record was added to a book of the version.
    fn of_resulting(
        &self,
        found: Option<Refusal>,
        _version: u16,
        _record: Option<&[u8; 48]>,
    ) -> Option<Refusal> {
        found
    }

    /// "16 where either buffer is short": the first is, for the resulting book.
    fn book_fits(&self, buffer: usize, book: usize) -> bool {
        buffer >= book
    }

    /// "16 where either buffer is short": the second is, for its report.
    fn report_fits(&self, buffer: usize, report: usize) -> bool {
        buffer >= report
    }

    /// "After 1 to 15 on the book as it stands", then 22, "before any other check of that movement",
    /// then what the resulting book is refused by, then 16 of the book's buffer and of the report's.
    fn first_of_movement(&self, found: [Option<Refusal>; 5]) -> Option<Refusal> {
        found.into_iter().flatten().next()
    }

    /// "and changes nothing": whether the book's buffer is changed and whether the report's is,
    /// where that was found.
    fn changed(&self, found: [Option<Refusal>; 5]) -> [bool; 2] {
        [found.iter().all(Option::is_none); 2]
    }

    /// "Header amounts and bytes past the new end stay": the book's buffer after a movement, where
    /// the old book had so many bytes.
    fn buffer_after(&self, before: &[u8], _old_length: usize, new: &[u8]) -> Vec<u8> {
        [new, &before[new.len()..]].concat()
    }

    /// "the charge and the lines after it are those of a report made afresh from the assets then
    /// present": of the book as it was and as it is, the second.
    fn reported<T>(&self, _standing: T, resulting: T) -> T {
        resulting
    }

    /// "a report made afresh": VAF and VAF′ too.
    fn values_after(&self, _standing: &Values, resulting: &Values) -> Values {
        resulting.clone()
    }

    /// The answer to a movement is a report's: document 01's "The answer carries the report's
    /// length."
    fn length_answered(&self, report: usize, _book: usize) -> usize {
        report
    }

    // Values (P16 to P20, P26, P27).

    /// "Stressed = combination amount, or the greater of the two if bit 1 is set."
    fn stressed(&self, asset: &Asset) -> i128 {
        if asset.rises_under_stress {
            asset.combination_stress.max(asset.insurance_stress)
        } else {
            asset.combination_stress
        }
    }

    /// "Net = value (reinsurance: stressed) − offsets − deductions, never below 0."
    fn net(&self, asset: &Asset, value_or_stressed: i128) -> i128 {
        (value_or_stressed - asset.offsets - asset.deductions).max(0)
    }

    /// "stressed − netted, never below 0": what a reinsurance asset adds to VAF′.
    fn stressed_less_netted(&self, asset: &Asset, stressed: i128) -> i128 {
        (stressed - asset.offsets).max(0)
    }

    // Mitigants (P31 to P43).

    /// "reinsurance asset whose counterparty is neither of kind 4 nor an approved affiliate": whose
    /// treaties have a half. Of all others each is covered up to its net.
    fn has_half(&self, counterparty: &Counterparty) -> bool {
        !counterparty.is(CounterpartyKind::RegisteredLifeCompany)
            && !counterparty.approved_affiliate
    }

    /// C-18: "that counterparty's": which half an asset's is, where its counterparty has one.
    /// "Every figure is compared under this reading from here on."
    fn half_of(&self, book: &Book, asset: Place, _taken_for: TakenFor) -> HalfName {
        (book.assets[usize::from(asset) - 1].counterparty, 0)
    }

    /// C-18: "unlinked reinsurance nets": whether an asset's net is one of them.
    fn adds_to_half(&self, _book: &Book, asset: &Asset) -> bool {
        asset.is_reinsurance() && !asset.linked
    }

    /// C-18: "nets": what an asset adds.
    fn added_to_half(&self, _asset: &Asset, net: i128) -> i128 {
        net
    }

    /// C-18: "The half is now taken of the sum .., rounded down once."
    fn half(&self, nets: &[i128]) -> i128 {
        nets.iter().sum::<i128>() / 2
    }

    /// C-18: "Treaties draw on it". Document 01: "A linked asset's net is unlimited and its
    /// mitigants unread."
    fn draws_on_half(&self, asset: &Asset) -> bool {
        asset.is_reinsurance() && !asset.linked
    }

    /// C-18: "in book order": the asset with the least is first.
    fn drawing_order(&self, place: Place, _asset: &Asset, _net: i128) -> i128 {
        i128::from(place)
    }

    /// "That starts at net". C-18: "Treaties draw on it .., each up to its own net".
    fn may_be_covered(&self, _asset: &Asset, net: i128, half: Option<&Half>) -> i128 {
        half.map_or(net, |half| net.min(half.left))
    }

    /// C-18: "what their recognised mitigants cover, ..; one without draws nothing."
    fn drawn(&self, covering: &Covering) -> i128 {
        covering.covered
    }

    /// "Parts and remainder add up to net."
    fn remainder(&self, covering: &Covering) -> i128 {
        covering.net - covering.covered
    }

    /// "each covering the lesser of its value and what may still be covered".
    fn covers(&self, value: i128, still: i128) -> i128 {
        value.min(still)
    }

    /// "Collateral: bit 4, and bit 0 (reinsurance: bit 0 or 1); debt must be graded."
    fn collateral_recognised(
        &self,
        item: &Mitigant,
        issuer: &Counterparty,
        reinsurance: bool,
    ) -> bool {
        let held = item.secured_and_held || (reinsurance && item.p35_or_p36_terms);
        let eligible = item.form != Form::Debt || issuer.graded();
        item.same_currency && held && eligible
    }

    /// "Guarantee: not related, graded, bit 2; for reinsurance a bank with bit 3 instead of bit 2."
    fn guarantee_recognised(
        &self,
        item: &Mitigant,
        guarantor: &Counterparty,
        reinsurance: bool,
    ) -> bool {
        let terms = if reinsurance {
            guarantor.is(CounterpartyKind::Bank) && item.p42_terms
        } else {
            item.p40_terms
        };
        !guarantor.related && guarantor.graded() && terms
    }

    /// "Letter of credit: reinsurance only, same as its guarantee."
    fn letter_recognised(&self, guarantee_recognised: bool, reinsurance: bool) -> bool {
        reinsurance && guarantee_recognised
    }

    /// "A covered part becomes an exposure to the mitigant's counterparty: ..", of this kind.
    fn covered_kind(&self, form: Form, counterparty: &Counterparty) -> Kind {
        match (form, counterparty.kind) {
            (Form::Cash, _) => Kind::Deposit,
            (Form::GovernmentSecurity, _) => Kind::GovernmentGuaranteed,
            (Form::Debt, _) => Kind::Loan,
            (Form::Guarantee, CounterpartyKind::Bank) => Kind::BankPaper,
            (Form::Guarantee, CounterpartyKind::HomeGovernment) => Kind::GovernmentGuaranteed,
            (Form::Guarantee, CounterpartyKind::ProvincialGovernment) => Kind::ProvinceGuaranteed,
            (Form::Guarantee, _) => Kind::Loan,
            (Form::LetterOfCredit, _) => Kind::BankPaper,
        }
    }

    // Tiers (A1, A2).

    /// "Kind 1 with home government, and kind 2 with a related registered life company: no limit."
    fn unlimited(&self, kind: Kind, counterparty: &Counterparty) -> bool {
        match kind {
            Kind::GovernmentGuaranteed => counterparty.is(CounterpartyKind::HomeGovernment),
            Kind::LifePolicy => {
                counterparty.is(CounterpartyKind::RegisteredLifeCompany) && counterparty.related
            }
            _ => false,
        }
    }

    /// Every other exposure but reinsurance. "Kind 7 (loan), and any of the above that fails its
    /// condition: h if graded, else i."
    fn tier(&self, kind: Kind, counterparty: &Counterparty) -> Tier {
        let graded = counterparty.graded();
        match (kind, counterparty.kind) {
            (Kind::BankPaper, CounterpartyKind::Bank) => Tier::C,
            (Kind::ProvinceGuaranteed, CounterpartyKind::ProvincialGovernment) => Tier::C,
            (Kind::Deposit, CounterpartyKind::Bank) => Tier::D,
            (Kind::Traded | Kind::Property, _) => Tier::H,
            (Kind::PremiumsOwed, CounterpartyKind::RegisteredLifeCompany) if graded => Tier::F,
            (Kind::AnyOther, _) => Tier::I,
            _ if graded => Tier::H,
            _ => Tier::I,
        }
    }

    /// "graded gives e if kind 4 and not related, or if bit 2 is set whatever the kind; else g if
    /// bit 1 and not kind 4; else h."
    fn graded_reinsurance_tier(&self, reinsurer: &Counterparty) -> Tier {
        let registered = reinsurer.is(CounterpartyKind::RegisteredLifeCompany);
        if (registered && !reinsurer.related) || reinsurer.second_limb {
            Tier::E
        } else if reinsurer.approved_affiliate && !registered {
            Tier::G
        } else {
            Tier::HReinsurance
        }
    }

    /// "Ungraded with an entry: full limit for months 0 to 2, first percent 3 to 11, second 12 to
    /// 23; otherwise i."
    fn kept_after(&self, months: u8) -> Kept {
        match months {
            0..=2 => Kept::Full,
            3..=11 => Kept::FirstPercent,
            12..=23 => Kept::SecondPercent,
            _ => Kept::Nothing,
        }
    }

    /// C-11, of entry 3: "Graded gives tier 13 whatever the months; ungraded, months 0 to 2 give
    /// tier 13, 3 to 11 tier 14, 12 to 23 tier 15, from 24 the ordinary rule with no entry."
    fn retrocession_tier(&self, retrocessionaire: &Counterparty, months: u8) -> Tier {
        match months {
            _ if retrocessionaire.graded() => Tier::Retrocession,
            0..=2 => Tier::Retrocession,
            3..=11 => Tier::RetrocessionFirst,
            12..=23 => Tier::RetrocessionSecond,
            24.. => Tier::IReinsurance,
        }
    }

    // Limits.

    /// "u16 VAF rate, u16 second VAF rate, u16 base rate (per mille, ..)". C-15: "Schedule version
    /// 2 has the same layout with rates in ten-thousandths".
    fn rate(&self, version: u16, _row: RowName, _rate: RateName, number: u16) -> Fraction {
        match version {
            2 => Fraction::ten_thousandths(number),
            _ => Fraction::per_mille(number),
        }
    }

    /// "u16 percent kept after the first downgrade step, u16 after the second". C-15 has other
    /// rates and no other percents.
    fn percent_kept(&self, _version: u16, percent: u16) -> Fraction {
        Fraction::per_cent(percent)
    }

    /// "u64 fixed amount". "Amounts are whole cents", in either version of a schedule.
    fn fixed(&self, _version: u16, fixed: i128) -> i128 {
        fixed
    }

    /// "Tier numbers: 0 i, 1 i reinsurance, .., 12 d": each by its letter's row. C-11: "New tiers
    /// 13, 14 and 15 are 500, 330 and 170 per mille of VAF′, without base or fixed part." C-15
    /// leaves "C-11's per mille" what they are, whatever the schedule's version.
    fn row(&self, tier: Tier, schedule: &Schedule) -> Row {
        let none = Fraction::whole(0);
        let of_vaf_prime = |number| Row {
            vaf_rate: Fraction::per_mille(number),
            second_vaf_rate: none,
            base_rate: none,
            fixed: 0,
        };
        match tier {
            Tier::I | Tier::IReinsurance => schedule.rows[&RowName::I],
            Tier::H | Tier::HReinsurance => schedule.rows[&RowName::H],
            Tier::GSecond | Tier::GFirst | Tier::G => schedule.rows[&RowName::G],
            Tier::ESecond | Tier::EFirst | Tier::E => schedule.rows[&RowName::E],
            Tier::F => schedule.rows[&RowName::F],
            Tier::C => schedule.rows[&RowName::C],
            Tier::D => schedule.rows[&RowName::D],
            Tier::Retrocession => of_vaf_prime(500),
            Tier::RetrocessionFirst => of_vaf_prime(330),
            Tier::RetrocessionSecond => of_vaf_prime(170),
        }
    }

    /// "times the percent kept": tiers 5 and 8 the first percent, 4 and 7 the second.
    fn percent(&self, tier: Tier, schedule: &Schedule) -> Fraction {
        match tier {
            Tier::GFirst | Tier::EFirst => schedule.first_percent,
            Tier::GSecond | Tier::ESecond => schedule.second_percent,
            _ => Fraction::whole(1),
        }
    }

    /// "Tiers 1 and 3 to 9 use VAF′." C-11: and 13 to 15, being "per mille of VAF′".
    fn uses_vaf_prime(&self, tier: Tier) -> bool {
        matches!(tier.number(), 1 | 3..=9 | 13..=15)
    }

    /// "For d the first rate's product is lessened by W": no other tier's.
    fn lessened_by_w(&self, tier: Tier) -> bool {
        tier == Tier::D
    }

    /// "W, the whole fund's tier c exposure of kind 3".
    fn counts_in_w(&self, tier: Tier, kind: Kind) -> bool {
        tier == Tier::C && kind == Kind::BankPaper
    }

    /// "rate × VAF, second rate × VAF"; "for d the first rate's product is lessened by W, .., not
    /// below 0" (`w` is 0 for every other row).
    fn vaf_products(&self, row: &Row, vaf: i128, w: i128) -> [Fraction; 2] {
        let vaf = Fraction::whole(vaf);
        let first = row.vaf_rate.of(vaf).less(Fraction::whole(w));
        [first.max(Fraction::whole(0)), row.second_vaf_rate.of(vaf)]
    }

    /// "base rate × base (a negative base gives nothing)".
    fn base_product(&self, row: &Row, base: i128) -> Fraction {
        row.base_rate.of(Fraction::whole(base.max(0)))
    }

    /// "the greatest of .. and fixed amount, times the percent kept, exact, rounded down once", for
    /// a tier or, where there is none, for A3. C-15: "Every limit, of both versions and of C-11's
    /// per mille, must come from one shown formula."
    fn limit(
        &self,
        _version: u16,
        _tier: Option<Tier>,
        products: [Fraction; 3],
        fixed: i128,
        kept: Fraction,
    ) -> i128 {
        let greatest = products.into_iter().fold(Fraction::whole(fixed), Fraction::max);
        kept.of(greatest).floor()
    }

    /// C-17: "the unrounded limit": "the greatest of .. and fixed amount, times the percent kept,
    /// exact", and not "rounded down".
    fn unrounded(&self, basis: &Basis, products: [Fraction; 3]) -> Fraction {
        let fixed = Fraction::whole(basis.row.fixed);
        basis.kept.of(products.into_iter().fold(fixed, Fraction::max))
    }

    // Cascade (P23).

    /// "A group is everyone with the same topmost parent."
    fn topmost(&self, counterparties: &BTreeMap<Place, Counterparty>, place: Place) -> Place {
        match counterparties[&place].parent {
            None => place,
            Some(parent) => self.topmost(counterparties, parent),
        }
    }

    /// C-17: "Tiers shall rank by the unrounded limit, and only truly equal ones by number." C-11:
    /// 13 to 15 "rank .. like the rest". Ranks are compared from their first number on.
    fn rank(&self, tier: Tier, limit: &Limit) -> Vec<Fraction> {
        vec![limit.unrounded, Fraction::whole(i128::from(tier.number()))]
    }

    /// "Each tier's left is limit − standing". C-11: 13 to 15 "cascade like the rest". C-17: "limits
    /// and cuts in cents as before".
    fn left(&self, _tier: Tier, limit: &Limit, standing: i128) -> i128 {
        limit.cents - standing
    }

    /// "its excess is what of its exposure passes left". C-17: "cuts in cents as before".
    fn excess(&self, exposure: i128, _limit: &Limit, left: i128) -> i128 {
        (exposure - left).max(0)
    }

    // A3.

    /// "in tiers 1 and 3 to 6, exposures to counterparties not of kind 4". C-11: of 13 to 15, "A3
    /// doesn't count them".
    fn counts_in_a3(&self, tier: Tier, _exposure: &Exposure, counterparty: &Counterparty) -> bool {
        matches!(tier.number(), 1 | 3..=6)
            && !counterparty.is(CounterpartyKind::RegisteredLifeCompany)
    }

    /// "count together, tier by tier, up to the tier's unreduced limit".
    fn a3_part(&self, line: &Line) -> i128 {
        line.a3_together.min(line.limit)
    }

    /// "row z's limit (on VAF′, no percent) the A3 limit": the VAF it is taken on.
    fn a3_vaf(&self, _vaf: i128, vaf_prime: i128) -> i128 {
        vaf_prime
    }

    /// "Charge = group excess + what, if anything, the A3 sum has above the A3 limit."
    fn charge(&self, group_excess: i128, a3_sum: i128, a3_limit: i128) -> i128 {
        group_excess + (a3_sum - a3_limit).max(0)
    }

    // Report.

    /// "unlimited (linked nets and exposures without limit)".
    fn all_unlimited(&self, linked: i128, without_limit: i128) -> i128 {
        linked + without_limit
    }

    /// "all net (linked too)".
    fn all_net(&self, linked: i128, others: i128) -> i128 {
        linked + others
    }

    /// "tiers by rank": a group's lines stand as they were cut.
    fn put_in_order(&self, _lines: &mut [Line], _limits: &BTreeMap<Tier, Limit>) {}

    /// "one for each tier of each group (so exposure above 0 only)".
    fn has_line(&self, exposure: i128) -> bool {
        exposure > 0
    }

    /// "set of the group's tiers (bit n is tier n; its ones are the group's lines)".
    fn tier_set(&self, tiers: &[Tier]) -> u16 {
        tiers.iter().fold(0, |set, tier| set | 1 << tier.number())
    }
}
