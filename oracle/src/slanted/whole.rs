//! Whole numbers of any size, without a sign: what exact fractions are made of.

use std::cmp::Ordering;

/// Limbs of 64 bits, the least first; the last is not 0.
#[derive(Clone, Debug, Default, PartialEq, Eq)]
pub struct Whole(Vec<u64>);

impl Whole {
    pub fn of(value: u128) -> Self {
        Self::trimmed(vec![value as u64, (value >> 64) as u64])
    }

    fn trimmed(mut limbs: Vec<u64>) -> Self {
        while limbs.last() == Some(&0) {
            limbs.pop();
        }
        Self(limbs)
    }

    fn limb(&self, place: usize) -> u64 {
        self.0.get(place).copied().unwrap_or(0)
    }

    pub fn is_zero(&self) -> bool {
        self.0.is_empty()
    }

    /// The value, if 128 bits hold it.
    pub fn narrow(&self) -> Option<u128> {
        (self.0.len() <= 2).then(|| u128::from(self.limb(1)) << 64 | u128::from(self.limb(0)))
    }

    pub fn plus(&self, other: &Self) -> Self {
        let length = self.0.len().max(other.0.len());
        let mut limbs = Vec::with_capacity(length + 1);
        let mut carry = 0;
        for place in 0..length {
            let sum = u128::from(self.limb(place)) + u128::from(other.limb(place)) + carry;
            limbs.push(sum as u64);
            carry = sum >> 64;
        }
        limbs.push(carry as u64);
        Self::trimmed(limbs)
    }

    /// Less another one that is not greater.
    pub fn minus(&self, other: &Self) -> Self {
        assert!(*self >= *other, "a difference below 0");
        let mut borrow = 0;
        let mut limbs = Vec::with_capacity(self.0.len());
        for place in 0..self.0.len() {
            let (difference, first) = self.limb(place).overflowing_sub(other.limb(place));
            let (difference, second) = difference.overflowing_sub(borrow);
            limbs.push(difference);
            borrow = u64::from(first || second);
        }
        Self::trimmed(limbs)
    }

    pub fn times(&self, other: &Self) -> Self {
        let mut limbs = vec![0; self.0.len() + other.0.len()];
        for (low, &limb) in self.0.iter().enumerate() {
            let mut carry = 0;
            for (place, &factor) in other.0.iter().enumerate() {
                let sum = u128::from(limb) * u128::from(factor) + u128::from(limbs[low + place]) + carry;
                limbs[low + place] = sum as u64;
                carry = sum >> 64;
            }
            limbs[low + other.0.len()] = carry as u64;
        }
        Self::trimmed(limbs)
    }

    pub fn shifted_left(&self, bits: u32) -> Self {
        let mut limbs = vec![0; (bits / 64) as usize];
        let mut carry = 0;
        for &limb in &self.0 {
            let wide = u128::from(limb) << (bits % 64) | carry;
            limbs.push(wide as u64);
            carry = wide >> 64;
        }
        limbs.push(carry as u64);
        Self::trimmed(limbs)
    }

    /// The bits that are shifted out are lost.
    pub fn shifted_right(&self, bits: u32) -> Self {
        let first = (bits / 64) as usize;
        let limb = |place| {
            let wide = u128::from(self.limb(place + 1)) << 64 | u128::from(self.limb(place));
            (wide >> (bits % 64)) as u64
        };
        Self::trimmed((first..self.0.len()).map(limb).collect())
    }
}

impl Ord for Whole {
    fn cmp(&self, other: &Self) -> Ordering {
        let length = self.0.len().cmp(&other.0.len());
        length.then_with(|| self.0.iter().rev().cmp(other.0.iter().rev()))
    }
}

impl PartialOrd for Whole {
    fn partial_cmp(&self, other: &Self) -> Option<Ordering> {
        Some(self.cmp(other))
    }
}
