//! Schedules, books, questions and movements by their fields, right or wrong, and their bytes as the
//! documents lay them out. Nothing here knows which fields are accepted.

/// Document 01's M, in cents.
pub const MOST: u64 = 10_000_000_000_000;

#[derive(Clone, Debug)]
pub struct RawSchedule {
    pub mark: [u8; 4],
    pub version: u16,
    /// Kept after the first and the second downgrade step.
    pub percents: [u16; 2],
    /// c, d, e, f, g, h, i, z.
    pub rows: [RawRow; 8],
}

#[derive(Clone, Copy, Debug)]
pub struct RawRow {
    /// VAF rate, second VAF rate, base rate.
    pub rates: [u16; 3],
    pub fixed: u64,
}

#[derive(Clone, Debug)]
pub struct RawBook {
    pub mark: [u8; 4],
    pub version: u16,
    /// C, N and K where they are not the numbers of records below.
    pub counts: Option<[u16; 3]>,
    /// Byte 12, 1 for a specialist fund, and the zeros behind it.
    pub specialist: u8,
    pub zeros: [u8; 3],
    pub total: u64,
    pub base: i64,
    pub excluded: u64,
    pub counterparties: Vec<RawCounterparty>,
    pub assets: Vec<RawAsset>,
    pub mitigants: Vec<RawMitigant>,
}

#[derive(Clone, Copy, Debug, Default)]
pub struct RawCounterparty {
    pub parent: u16,
    pub grade: u8,
    pub kind: u8,
    pub flags: u8,
}

#[derive(Clone, Copy, Debug, Default)]
pub struct RawAsset {
    pub kind: u8,
    pub flags: u8,
    pub entry: u8,
    pub months: u8,
    pub counterparty: u16,
    pub mitigants: u16,
    /// Laid out in version 2 alone, which has one byte for the count.
    pub desk: u8,
    pub value: u64,
    pub offsets: u64,
    pub deductions: u64,
    pub insurance_stress: u64,
    pub combination_stress: u64,
}

#[derive(Clone, Copy, Debug, Default)]
pub struct RawMitigant {
    pub form: u8,
    pub flags: u8,
    pub counterparty: u16,
    pub value: u64,
}

/// What a dealer asks: how much more of this kind with this counterparty (C-16).
#[derive(Clone, Copy, Debug, Default, PartialEq, Eq)]
pub struct RawQuestion {
    pub counterparty: u16,
    pub kind: u8,
}

/// A movement (C-19): the bytes of an asset record that is added, or the place of the asset that is
/// taken away.
#[derive(Clone, Debug, PartialEq, Eq)]
pub enum Movement {
    Add(Vec<u8>),
    Remove(u64),
}

impl RawSchedule {
    /// The published schedule, as document 01 lists it.
    pub fn published() -> RawSchedule {
        let row = |rates, fixed| RawRow { rates, fixed };
        RawSchedule {
            mark: *b"ACL\0",
            version: 1,
            percents: [66, 34],
            rows: [
                row([250, 0, 0], 2_000_000_000),
                row([500, 250, 0], 2_000_000_000),
                row([250, 0, 1250], 2_000_000_000),
                row([250, 0, 1250], 2_000_000_000),
                row([125, 0, 625], 0),
                row([50, 0, 250], 0),
                row([25, 0, 125], 0),
                row([125, 0, 625], 0),
            ],
        }
    }

    /// The same limits in version 2: "A version 1 rate counts ten times" (C-15).
    pub fn tenfold(&self) -> RawSchedule {
        let mut schedule = RawSchedule { version: 2, ..self.clone() };
        schedule.rows.iter_mut().flat_map(|row| &mut row.rates).for_each(|rate| *rate *= 10);
        schedule
    }

    pub fn bytes(&self) -> Vec<u8> {
        let mut bytes = self.mark.to_vec();
        put_u16(&mut bytes, &[self.version, self.percents[0], self.percents[1]]);
        for row in &self.rows {
            put_u16(&mut bytes, &row.rates);
            put_u64(&mut bytes, &[row.fixed]);
        }
        bytes
    }
}

impl RawBook {
    /// A book without records, of a fund that is no specialist.
    pub fn empty(total: u64, base: i64, excluded: u64) -> RawBook {
        RawBook {
            mark: *b"ACB\0",
            version: 1,
            counts: None,
            specialist: 0,
            zeros: [0; 3],
            total,
            base,
            excluded,
            counterparties: Vec::new(),
            assets: Vec::new(),
            mitigants: Vec::new(),
        }
    }

    /// Appends a counterparty and answers its place.
    pub fn counterparty(&mut self, counterparty: RawCounterparty) -> u16 {
        self.counterparties.push(counterparty);
        self.counterparties.len() as u16
    }

    /// Appends an asset with its mitigants, which must come in asset order.
    pub fn asset(&mut self, asset: RawAsset, mitigants: &[RawMitigant]) {
        self.assets.push(RawAsset { mitigants: mitigants.len() as u16, ..asset });
        self.mitigants.extend(mitigants);
    }

    pub fn bytes(&self) -> Vec<u8> {
        let held = [self.counterparties.len(), self.assets.len(), self.mitigants.len()];
        let mut bytes = self.mark.to_vec();
        put_u16(&mut bytes, &[self.version]);
        put_u16(&mut bytes, &self.counts.unwrap_or(held.map(|count| count as u16)));
        bytes.push(self.specialist);
        bytes.extend(self.zeros);
        put_u64(&mut bytes, &[self.total, self.base as u64, self.excluded]);
        self.counterparties.iter().for_each(|counterparty| counterparty.put(&mut bytes));
        self.assets.iter().for_each(|asset| asset.put(self.version, &mut bytes));
        self.mitigants.iter().for_each(|mitigant| mitigant.put(&mut bytes));
        bytes
    }
}

impl RawCounterparty {
    fn put(&self, bytes: &mut Vec<u8>) {
        put_u16(bytes, &[self.parent]);
        bytes.extend([self.kind << 4 | self.grade & 15, self.flags]);
    }
}

impl RawAsset {
    /// Its record, the same in both versions where it has no mitigants and no desk.
    pub fn bytes(&self) -> Vec<u8> {
        self.record(1)
    }

    /// Its record in a book of this version.
    pub fn record(&self, version: u16) -> Vec<u8> {
        let mut bytes = Vec::new();
        self.put(version, &mut bytes);
        bytes
    }

    fn put(&self, version: u16, bytes: &mut Vec<u8>) {
        bytes.extend([self.kind, self.flags, self.entry, self.months]);
        put_u16(bytes, &[self.counterparty]);
        match version {
            2 => bytes.extend([self.mitigants as u8, self.desk]),
            _ => put_u16(bytes, &[self.mitigants]),
        }
        put_u64(bytes, &[self.value, self.offsets, self.deductions]);
        put_u64(bytes, &[self.insurance_stress, self.combination_stress]);
    }
}

impl RawMitigant {
    fn put(&self, bytes: &mut Vec<u8>) {
        bytes.extend([self.form, self.flags]);
        put_u16(bytes, &[self.counterparty]);
        put_u64(bytes, &[self.value]);
    }
}

impl RawQuestion {
    /// The bytes of a list.
    pub fn list(questions: &[RawQuestion]) -> Vec<u8> {
        let mut bytes = Vec::new();
        for question in questions {
            put_u16(&mut bytes, &[question.counterparty]);
            bytes.push(question.kind);
        }
        bytes
    }
}

fn put_u16(bytes: &mut Vec<u8>, numbers: &[u16]) {
    numbers.iter().for_each(|number| bytes.extend(number.to_le_bytes()));
}

fn put_u64(bytes: &mut Vec<u8>, numbers: &[u64]) {
    numbers.iter().for_each(|number| bytes.extend(number.to_le_bytes()));
}
