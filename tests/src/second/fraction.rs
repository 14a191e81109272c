//! Exact fractions: limits are rounded down once, at the end.

use std::cmp::Ordering;

/// `over` / `under`, with `under` above 0.
#[derive(Clone, Copy, Debug)]
pub struct Fraction {
    over: i128,
    under: i128,
}

impl Fraction {
    pub fn whole(number: i128) -> Fraction {
        Fraction { over: number, under: 1 }
    }

    /// So many hundredths, thousandths and ten-thousandths.
    pub fn per_cent(number: u16) -> Fraction {
        Fraction { over: i128::from(number), under: 100 }
    }

    pub fn per_mille(number: u16) -> Fraction {
        Fraction { over: i128::from(number), under: 1_000 }
    }

    pub fn ten_thousandths(number: u16) -> Fraction {
        Fraction { over: i128::from(number), under: 10_000 }
    }

    /// This part of another.
    pub fn of(self, other: Fraction) -> Fraction {
        Fraction { over: self.over * other.over, under: self.under * other.under }
    }

    pub fn less(self, other: Fraction) -> Fraction {
        Fraction {
            over: self.over * other.under - other.over * self.under,
            under: self.under * other.under,
        }
    }

    /// The greatest whole number that is not above this.
    pub fn floor(self) -> i128 {
        self.over.div_euclid(self.under)
    }

    /// The least whole number that is not below this.
    pub fn ceiling(self) -> i128 {
        -(-self.over).div_euclid(self.under)
    }

    /// What rounding down leaves over, in the parts that this is of.
    pub fn left_over(self) -> i128 {
        self.over.rem_euclid(self.under)
    }

    /// As a program would have it that knows no fractions.
    pub fn floating(self) -> f64 {
        self.over as f64 / self.under as f64
    }
}

impl Ord for Fraction {
    fn cmp(&self, other: &Fraction) -> Ordering {
        (self.over * other.under).cmp(&(other.over * self.under))
    }
}

impl PartialOrd for Fraction {
    fn partial_cmp(&self, other: &Fraction) -> Option<Ordering> {
        Some(self.cmp(other))
    }
}

impl PartialEq for Fraction {
    fn eq(&self, other: &Fraction) -> bool {
        self.cmp(other) == Ordering::Equal
    }
}

impl Eq for Fraction {}
