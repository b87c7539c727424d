//! Exact fractions with a power of two below, which no step rounds.

use std::cmp::Ordering;

use super::whole::Whole;

/// `magnitude` with its sign, over 2^`places`. Zero is not negative.
#[derive(Clone, Debug, Default)]
pub struct Fraction {
    negative: bool,
    magnitude: Whole,
    places: u32,
}

impl Fraction {
    pub fn new(negative: bool, magnitude: Whole, places: u32) -> Self {
        Self { negative: negative && !magnitude.is_zero(), magnitude, places }
    }

    /// A whole number over 2^`places`.
    pub fn over(value: i128, places: u32) -> Self {
        Self::new(value < 0, Whole::of(value.unsigned_abs()), places)
    }

    /// The exact value of a finite float.
    pub fn of(value: f64) -> Self {
        assert!(value.is_finite(), "{value} is no fraction");
        let field = (value.to_bits() >> 52 & 0x7ff) as i32;
        let stored = value.to_bits() & ((1 << 52) - 1);
        let (significand, exponent) = if field == 0 { (stored, -1074) } else { (stored | 1 << 52, field - 1075) };
        if significand == 0 {
            return Self::default();
        }
        // Without the zeros at its end, so that simple numbers stay short.
        let zeros = significand.trailing_zeros();
        let exponent = exponent + zeros as i32;
        let magnitude = Whole::of(u128::from(significand >> zeros)).shifted_left(exponent.max(0) as u32);
        Self::new(value < 0.0, magnitude, (-exponent).max(0) as u32)
    }

    pub fn is_zero(&self) -> bool {
        self.magnitude.is_zero()
    }

    /// The magnitude over a power of two that is not smaller.
    fn widened(&self, places: u32) -> Whole {
        self.magnitude.shifted_left(places - self.places)
    }

    pub fn plus(&self, other: &Self) -> Self {
        let places = self.places.max(other.places);
        let (own, more) = (self.widened(places), other.widened(places));
        if self.negative == other.negative {
            return Self::new(self.negative, own.plus(&more), places);
        }
        match own.cmp(&more) {
            Ordering::Less => Self::new(other.negative, more.minus(&own), places),
            _ => Self::new(self.negative, own.minus(&more), places),
        }
    }

    pub fn opposite(&self) -> Self {
        Self::new(!self.negative, self.magnitude.clone(), self.places)
    }

    pub fn minus(&self, other: &Self) -> Self {
        self.plus(&other.opposite())
    }

    pub fn times(&self, other: &Self) -> Self {
        let is_negative = self.negative != other.negative;
        Self::new(is_negative, self.magnitude.times(&other.magnitude), self.places + other.places)
    }

    /// How far two are apart.
    pub fn distance(&self, other: &Self) -> Self {
        Self { negative: false, ..self.minus(other) }
    }

    /// In decimal, with so many digits after the point; the rest is cut off.
    pub fn decimal(&self, digits: u32) -> String {
        let ten = 10u128.pow(digits);
        let cut = self.magnitude.times(&Whole::of(ten)).shifted_right(self.places);
        let cut = cut.narrow().expect("a number of ordinary size");
        let sign = if self.negative { "-" } else { "" };
        format!("{sign}{}.{:0width$}", cut / ten, cut % ten, width = digits as usize)
    }
}

impl Ord for Fraction {
    fn cmp(&self, other: &Self) -> Ordering {
        let difference = self.minus(other);
        match (difference.is_zero(), difference.negative) {
            (true, _) => Ordering::Equal,
            (_, true) => Ordering::Less,
            (_, false) => Ordering::Greater,
        }
    }
}

impl PartialOrd for Fraction {
    fn partial_cmp(&self, other: &Self) -> Option<Ordering> {
        Some(self.cmp(other))
    }
}

impl PartialEq for Fraction {
    fn eq(&self, other: &Self) -> bool {
        self.cmp(other) == Ordering::Equal
    }
}

impl Eq for Fraction {}

/// How far a rounded position is from the exact one, in the coordinate where it is farther.
pub fn farther(rounded: &[f64; 2], exact: &[Fraction; 2]) -> Fraction {
    let [x, y] = [0, 1].map(|i| Fraction::of(rounded[i]).distance(&exact[i]));
    x.max(y)
}
