//! Paper 14's bounds: on a sheet's numbers, and on the error of a record by the number of its references.

use super::fraction::Fraction;
use crate::sheet::Sheet;

/// "Let all positions and spacings be within ±2^24"
pub const GREATEST: f64 = 16_777_216.0;
/// "columns and rows at most 1,024"
pub const MOST_MEMBERS: u16 = 1_024;
/// "a path with at most four references"
pub const MOST_REFERENCES: usize = 4;

/// "within 1/64 unit"
pub fn allowed() -> Fraction {
    Fraction::over(1, 6)
}

/// Whether a sheet's numbers are within the bounds. Boxes are no positions: they may be any.
pub fn are_kept(sheet: &Sheet) -> bool {
    let near = |pair: &[f64; 2]| pair.iter().all(|value| value.abs() <= GREATEST);
    let vectors = sheet.references.iter().flat_map(|r| [&r.origin, &r.spacing_x, &r.spacing_y]);
    let points = sheet.nodes.iter().flat_map(|node| &node.points);
    vectors.chain(points).chain(sheet.texts.iter().map(|text| &text.origin)).all(near)
        && sheet.references.iter().all(|r| {
            r.columns.max(r.rows) <= MOST_MEMBERS
                && (0.0..=1.0).contains(&r.magnification)
                && r.cos.abs() <= 1.0
                && r.sin.abs() <= 1.0
        })
}

/// How far a float may be from the exact number that it stands for, in units of 2^-53, and how great that number may be.
#[derive(Clone, Copy)]
pub struct Near {
    pub error: u128,
    pub bound: u128,
}

impl Near {
    const fn exact(bound: u128) -> Self {
        Self { error: 0, bound }
    }

    /// What both errors make together is below one unit; rounding adds the bound of the result and one unit.
    fn times(self, other: Self) -> Self {
        assert!(self.error * other.error <= 1 << 53);
        let bound = self.bound * other.bound;
        Self { error: self.error * other.bound + self.bound * other.error + 1 + bound + 1, bound }
    }

    fn plus(self, other: Self) -> Self {
        let bound = self.bound + other.bound;
        Self { error: self.error + other.error + bound + 1, bound }
    }

    fn fused(self, factor: Self, term: Self) -> Self {
        assert!(self.error * factor.error <= 1 << 53);
        let bound = self.bound * factor.bound + term.bound;
        Self { error: self.error * factor.bound + self.bound * factor.error + 1 + term.error + bound + 1, bound }
    }
}

/// A coordinate of an axis and of the translation of a placement: `axisBound`, `axisError`, `shiftBound` and `shiftError` of the
/// crate `fractions`.
#[derive(Clone, Copy)]
pub struct Placed {
    pub axis: Near,
    shift: Near,
}

const ONE: Near = Near::exact(1);
const POSITION: Near = Near::exact(1 << 24);

impl Placed {
    /// The root's own.
    const IDENTITY: Self = Self { axis: ONE, shift: Near::exact(0) };

    fn member() -> Self {
        let spaced = POSITION.times(Near::exact(1 << 10));
        let offset = spaced.plus(spaced);
        let turned = offset.fused(ONE, offset.times(ONE));
        Self { axis: ONE.times(ONE), shift: POSITION.plus(turned) }
    }

    fn turn(self, v: Near) -> Near {
        self.axis.times(v).plus(self.axis.times(v))
    }

    fn point(self, p: Near) -> Near {
        self.turn(p).plus(self.shift)
    }

    /// After so many references.
    pub fn after(references: usize) -> Self {
        let member = Self::member();
        let below = |parent: Self| Self { axis: parent.turn(member.axis), shift: parent.point(member.shift) };
        (0..references).fold(Self::IDENTITY, |parent, _| below(parent))
    }
}

/// The bound on the error of a position after so many references: `positionError` of the crate `fractions`, proved up to eight.
pub fn of_position(references: usize) -> Fraction {
    Fraction::over(Placed::after(references).point(POSITION).error as i128, 53)
}
