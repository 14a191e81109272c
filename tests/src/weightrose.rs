//! The library's eight exported functions behind safe ones.

/// Bytes of a schedule.
pub const SCHEDULE: usize = 122;
/// The versions of a schedule, by the unit of its rates, and the most that a rate of each may be.
pub const SCHEDULE_PER_MILLE: u16 = 1;
pub const SCHEDULE_TEN_THOUSANDTHS: u16 = 2;
pub const MOST_RATE_PER_MILLE: u16 = 1_500;
pub const MOST_RATE_TEN_THOUSANDTHS: u16 = 15_000;
/// Bytes of the largest book: 500 counterparties, 900 assets, 1,500 mitigants.
pub const LARGEST_BOOK: usize = 40 + 4 * 500 + 48 * 900 + 12 * 1_500;
/// Bytes of the report's header, and of each of its lines.
pub const HEADER: usize = 72;
pub const LINE: usize = 40;
/// Bytes of the largest report: a line for each asset and each mitigant.
pub const LARGEST_REPORT: usize = HEADER + LINE * 2_400;
/// The desks, 0 to 255, and the bytes of their bills, eight each.
pub const DESKS: usize = 256;
pub const BILLS: usize = 8 * DESKS;
/// The most that a cost rate may be, in ten-thousandths.
pub const MOST_COST_RATE: u64 = 1_000;
/// Bytes of a dealer's question and of its answer, and the most questions of a list.
pub const QUESTION: usize = 3;
pub const ANSWER: usize = 8;
pub const MOST_QUESTIONS: usize = 200;
/// Bytes of an asset's record.
pub const ASSET: usize = 48;

mod exported {
    extern "C" {
        pub fn weightrose_report(
            schedule: *const u8,
            schedule_len: usize,
            book: *const u8,
            book_len: usize,
            report: *mut u8,
            report_len: usize,
        ) -> u64;
        pub fn weightrose_convert(
            book: *const u8,
            book_len: usize,
            converted: *mut u8,
            converted_len: usize,
        ) -> u64;
        pub fn weightrose_bills(
            schedule: *const u8,
            schedule_len: usize,
            book: *const u8,
            book_len: usize,
            rate: u64,
            bills: *mut u8,
            bills_len: usize,
        ) -> u64;
        pub fn weightrose_headroom(
            schedule: *const u8,
            schedule_len: usize,
            book: *const u8,
            book_len: usize,
            questions: *const u8,
            questions_len: usize,
            answers: *mut u8,
            answers_len: usize,
        ) -> u64;
        pub fn weightrose_add(
            schedule: *const u8,
            schedule_len: usize,
            record: *const u8,
            record_len: usize,
            book: *mut u8,
            book_len: usize,
            report: *mut u8,
            report_len: usize,
        ) -> u64;
        pub fn weightrose_remove(
            schedule: *const u8,
            schedule_len: usize,
            place: u64,
            book: *mut u8,
            book_len: usize,
            report: *mut u8,
            report_len: usize,
        ) -> u64;
        pub fn weightrose_published(schedule: *mut u8, schedule_len: usize) -> u64;
        pub fn weightrose_version() -> u64;
    }
}

/// So many bytes written, or one refusal.
#[derive(Clone, Copy, Debug, PartialEq, Eq)]
pub enum Answer {
    Written(usize),
    Refused(Refusal),
}

/// The refusals by name, 1 to 22 in this order; 10 to 12 with the bad record's place, 17 and 18 with
/// the asset's. A report is checked for 1 to 13, then 17, then 14 to 16; a conversion for 5 to 13,
/// then 17, 14, 15, 18 and 16; bills for 1 to 13, then 17, 14, 15, 19 and 16; a list of questions
/// for 1 to 13, then 17, 14, 15, 20 and 21; a movement for 1 to 13, then 17, 14 and 15 of the book as
/// it stands, then 22, then 5 to 13, 17, 14 and 15 of the resulting book, then 16.
#[derive(Clone, Copy, Debug, PartialEq, Eq)]
pub enum Refusal {
    ScheduleLength,
    ScheduleMark,
    ScheduleVersion,
    ScheduleRates,
    BookLength,
    BookMark,
    BookVersion,
    BookCounts,
    BookAmounts,
    Counterparty(u16),
    Asset(u16),
    Mitigant(u16),
    MitigantCounts,
    ReinsuranceValues,
    StressedAssets,
    BufferShort,
    SpecialistEntry(u16),
    ManyMitigants(u16),
    CostRate,
    Questions,
    AnswersShort,
    Movement,
}

impl Refusal {
    /// The documents' number.
    pub fn number(self) -> u32 {
        match self {
            Refusal::ScheduleLength => 1,
            Refusal::ScheduleMark => 2,
            Refusal::ScheduleVersion => 3,
            Refusal::ScheduleRates => 4,
            Refusal::BookLength => 5,
            Refusal::BookMark => 6,
            Refusal::BookVersion => 7,
            Refusal::BookCounts => 8,
            Refusal::BookAmounts => 9,
            Refusal::Counterparty(_) => 10,
            Refusal::Asset(_) => 11,
            Refusal::Mitigant(_) => 12,
            Refusal::MitigantCounts => 13,
            Refusal::ReinsuranceValues => 14,
            Refusal::StressedAssets => 15,
            Refusal::BufferShort => 16,
            Refusal::SpecialistEntry(_) => 17,
            Refusal::ManyMitigants(_) => 18,
            Refusal::CostRate => 19,
            Refusal::Questions => 20,
            Refusal::AnswersShort => 21,
            Refusal::Movement => 22,
        }
    }

    /// "place is the record's for 10 to 12, else 0"; C-11: 17 "with the asset's place";
    /// C-13: 18 "with its place".
    pub fn place(self) -> u16 {
        match self {
            Refusal::Counterparty(place)
            | Refusal::Asset(place)
            | Refusal::Mitigant(place)
            | Refusal::SpecialistEntry(place)
            | Refusal::ManyMitigants(place) => place,
            _ => 0,
        }
    }
}

impl Answer {
    /// The answer as the library packs it: the refusal's number above, length or place below.
    pub fn packed(self) -> u64 {
        match self {
            Answer::Written(length) => length as u64,
            Answer::Refused(refusal) => {
                u64::from(refusal.number()) << 32 | u64::from(refusal.place())
            }
        }
    }

    /// The answer behind a packed number; none where no answer packs to it.
    pub fn unpacked(packed: u64) -> Option<Answer> {
        let (number, low) = (packed >> 32, packed as u32);
        if number == 0 {
            return Some(Answer::Written(low as usize));
        }
        let refusal = match number {
            1 => Refusal::ScheduleLength,
            2 => Refusal::ScheduleMark,
            3 => Refusal::ScheduleVersion,
            4 => Refusal::ScheduleRates,
            5 => Refusal::BookLength,
            6 => Refusal::BookMark,
            7 => Refusal::BookVersion,
            8 => Refusal::BookCounts,
            9 => Refusal::BookAmounts,
            10 => Refusal::Counterparty(low as u16),
            11 => Refusal::Asset(low as u16),
            12 => Refusal::Mitigant(low as u16),
            13 => Refusal::MitigantCounts,
            14 => Refusal::ReinsuranceValues,
            15 => Refusal::StressedAssets,
            16 => Refusal::BufferShort,
            17 => Refusal::SpecialistEntry(low as u16),
            18 => Refusal::ManyMitigants(low as u16),
            19 => Refusal::CostRate,
            20 => Refusal::Questions,
            21 => Refusal::AnswersShort,
            22 => Refusal::Movement,
            _ => return None,
        };
        Some(Answer::Refused(refusal)).filter(|answer| answer.packed() == packed)
    }
}

/// The library's answer as it stands. After a report, the buffer starts with it.
pub fn packed_report(schedule: &[u8], book: &[u8], buffer: &mut [u8]) -> u64 {
    // SAFETY: each pointer is that of a slice and stands beside the slice's length, and the
    // buffer, being lent as `&mut`, is apart from the other two.
    unsafe {
        exported::weightrose_report(
            schedule.as_ptr(),
            schedule.len(),
            book.as_ptr(),
            book.len(),
            buffer.as_mut_ptr(),
            buffer.len(),
        )
    }
}

/// The library's answer to a book of version 1 as it stands. Behind a conversion, the buffer starts
/// with the book as version 2.
pub fn packed_convert(book: &[u8], buffer: &mut [u8]) -> u64 {
    // SAFETY: each pointer is that of a slice and stands beside the slice's length, and the
    // buffer, being lent as `&mut`, is apart from the book.
    unsafe {
        exported::weightrose_convert(book.as_ptr(), book.len(), buffer.as_mut_ptr(), buffer.len())
    }
}

/// The library's answer to a cost rate as it stands. After bills, the buffer starts with them.
pub fn packed_bills(schedule: &[u8], book: &[u8], rate: u64, buffer: &mut [u8]) -> u64 {
    // SAFETY: each pointer is that of a slice and stands beside the slice's length, and the
    // buffer, being lent as `&mut`, is apart from the other two.
    unsafe {
        exported::weightrose_bills(
            schedule.as_ptr(),
            schedule.len(),
            book.as_ptr(),
            book.len(),
            rate,
            buffer.as_mut_ptr(),
            buffer.len(),
        )
    }
}

/// The library's answer to a list of questions as it stands. After answers, the buffer starts with
/// them.
pub fn packed_headroom(schedule: &[u8], book: &[u8], questions: &[u8], buffer: &mut [u8]) -> u64 {
    // SAFETY: each pointer is that of a slice and stands beside the slice's length, and the
    // buffer, being lent as `&mut`, is apart from the other three.
    unsafe {
        exported::weightrose_headroom(
            schedule.as_ptr(),
            schedule.len(),
            book.as_ptr(),
            book.len(),
            questions.as_ptr(),
            questions.len(),
            buffer.as_mut_ptr(),
            buffer.len(),
        )
    }
}

/// The library's answer to an asset record that is added as it stands. After a movement, the first
/// buffer starts with the book as it then is, the second with its report.
pub fn packed_add(schedule: &[u8], record: &[u8], book: &mut [u8], report: &mut [u8]) -> u64 {
    // SAFETY: each pointer is that of a slice and stands beside the slice's length, and both
    // buffers, being lent as `&mut`, are apart from each other and from the other two.
    unsafe {
        exported::weightrose_add(
            schedule.as_ptr(),
            schedule.len(),
            record.as_ptr(),
            record.len(),
            book.as_mut_ptr(),
            book.len(),
            report.as_mut_ptr(),
            report.len(),
        )
    }
}

/// The library's answer to a place that is taken away as it stands. After a movement, both buffers
/// are as after an addition.
pub fn packed_remove(schedule: &[u8], place: u64, book: &mut [u8], report: &mut [u8]) -> u64 {
    // SAFETY: each pointer is that of a slice and stands beside the slice's length, and both
    // buffers, being lent as `&mut`, are apart from each other and from the schedule.
    unsafe {
        exported::weightrose_remove(
            schedule.as_ptr(),
            schedule.len(),
            place,
            book.as_mut_ptr(),
            book.len(),
            report.as_mut_ptr(),
            report.len(),
        )
    }
}

fn unpacked(packed: u64) -> Answer {
    Answer::unpacked(packed).unwrap_or_else(|| panic!("no answer packs to {packed:#018x}"))
}

/// Writes the report of the book under the schedule to the front of the buffer and answers its
/// length, or refuses and leaves the buffer as it is.
pub fn report(schedule: &[u8], book: &[u8], buffer: &mut [u8]) -> Answer {
    unpacked(packed_report(schedule, book, buffer))
}

/// Writes a book of version 1 as version 2 to the front of the buffer and answers its length, or
/// refuses and leaves the buffer as it is.
pub fn convert(book: &[u8], buffer: &mut [u8]) -> Answer {
    unpacked(packed_convert(book, buffer))
}

/// Writes the bills of the 256 desks at a cost rate in ten-thousandths, eight bytes each, to the
/// front of the buffer and answers their length, or refuses and leaves the buffer as it is.
pub fn bills(schedule: &[u8], book: &[u8], rate: u64, buffer: &mut [u8]) -> Answer {
    unpacked(packed_bills(schedule, book, rate, buffer))
}

/// The bill of a desk.
pub fn bill(bills: &[u8], desk: u8) -> u64 {
    let start = 8 * usize::from(desk);
    u64::from_le_bytes(bills[start..start + 8].try_into().unwrap())
}

/// Writes how much more may be bought of what each question names, eight bytes each, to the front of
/// the buffer and answers their length, or refuses and leaves the buffer as it is. A question is
/// three bytes: a counterparty's place and an asset kind.
pub fn headroom(schedule: &[u8], book: &[u8], questions: &[u8], buffer: &mut [u8]) -> Answer {
    unpacked(packed_headroom(schedule, book, questions, buffer))
}

/// The amount that answers the question of that number, from 0.
pub fn amount(answers: &[u8], question: usize) -> u64 {
    let start = ANSWER * question;
    u64::from_le_bytes(answers[start..start + ANSWER].try_into().unwrap())
}

/// Adds an asset record without mitigants at the end of the assets of the book that the first buffer
/// starts with, writes the report of the new book to the front of the second and answers the
/// report's length, or refuses and leaves both buffers as they are.
pub fn add(schedule: &[u8], record: &[u8], book: &mut [u8], report: &mut [u8]) -> Answer {
    unpacked(packed_add(schedule, record, book, report))
}

/// Takes the asset at a place, from 1, with its mitigants out of the book that the first buffer
/// starts with, and otherwise does as `add`.
pub fn remove(schedule: &[u8], place: u64, book: &mut [u8], report: &mut [u8]) -> Answer {
    unpacked(packed_remove(schedule, place, book, report))
}

/// The published schedule, for a slice that may be too short: 122, or 0 and nothing is written.
pub fn published_into(schedule: &mut [u8]) -> u64 {
    // SAFETY: the pointer and the length are those of one slice, lent as `&mut`.
    unsafe { exported::weightrose_published(schedule.as_mut_ptr(), schedule.len()) }
}

/// The published schedule (A1 to A3).
pub fn published() -> [u8; SCHEDULE] {
    let mut schedule = [0; SCHEDULE];
    let written = published_into(&mut schedule);
    assert_eq!(written, SCHEDULE as u64);
    schedule
}

/// The library's version as one number, 65,536 times its first, 256 times its second and its third.
pub fn version_number() -> u32 {
    version() as u32
}

/// Whether the library takes schedules of that version.
pub fn takes_schedule(version_of: u16) -> bool {
    version_of < 16 && version() >> 32 >> version_of & 1 == 1
}

/// Whether the library takes books of that version.
pub fn takes_book(version_of: u16) -> bool {
    version_of < 16 && version() >> 48 >> version_of & 1 == 1
}

fn version() -> u64 {
    // SAFETY: the function takes nothing.
    unsafe { exported::weightrose_version() }
}
