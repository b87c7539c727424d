//! The kinds of slanted sheets: where their numbers lie within the bounds.

use super::bounds::GREATEST;
use crate::generator::families::turn;
use crate::generator::rng::Rng;

#[derive(Clone, Copy, Debug, PartialEq, Eq, PartialOrd, Ord)]
pub enum Kind {
    /// Anywhere within the bounds.
    Any,
    /// Close to the ends, with full significands.
    NearEnds,
    /// The same, but the steps of one reference nearly cancel.
    Cancelling,
    /// Turned by odd angles, with cos² + sin² near 1.
    Turned,
    /// Zeros of both signs, subnormals and other tiny numbers, in magnifications too.
    Tiny,
    /// The ends themselves, the floats next to them, half of them, and zero.
    AtEnds,
    /// Near the ends, then changed step by step towards the largest error.
    Climbed,
}

/// The greatest float below 1.
const BELOW_ONE: f64 = 1.0 - f64::EPSILON / 2.0;

fn sign(rng: &mut Rng) -> f64 {
    rng.pick(&[-1.0, 1.0])
}

fn power(rng: &mut Rng, lowest: i64) -> f64 {
    2f64.powi(rng.range(lowest, 0) as i32)
}

/// Just below 1.
fn near_one(rng: &mut Rng) -> f64 {
    1.0 - rng.unit() * 2f64.powi(-(rng.range(1, 30) as i32))
}

fn subnormal(rng: &mut Rng) -> f64 {
    f64::from_bits(rng.next() >> rng.range(12, 63))
}

fn tiny(rng: &mut Rng) -> f64 {
    match rng.below(8) {
        0 => 0.0,
        1 => -0.0,
        2 => subnormal(rng),
        3 => -subnormal(rng),
        4 => f64::MIN_POSITIVE * sign(rng),
        5 => sign(rng) * power(rng, -1022) * near_one(rng),
        _ => 2.0 * rng.unit() - 1.0,
    }
}

impl Kind {
    pub const ALL: [Self; 7] =
        [Self::Any, Self::NearEnds, Self::Cancelling, Self::Turned, Self::Tiny, Self::AtEnds, Self::Climbed];

    /// A number within ±1.
    pub fn part(self, rng: &mut Rng) -> f64 {
        match self {
            Self::Any if rng.chance(1, 4) => (2.0 * rng.unit() - 1.0) * power(rng, -30),
            Self::Any => 2.0 * rng.unit() - 1.0,
            Self::NearEnds | Self::Cancelling | Self::Climbed => sign(rng) * near_one(rng),
            Self::Turned => (2.0 * rng.unit() - 1.0) * power(rng, -22),
            Self::Tiny => tiny(rng),
            Self::AtEnds => rng.pick(&[1.0, 1.0, -1.0, -1.0, BELOW_ONE, -BELOW_ONE, 0.5, 0.0, -0.0]),
        }
    }

    /// A coordinate of a position or a spacing.
    pub fn length(self, rng: &mut Rng) -> f64 {
        let part = self.part(rng);
        if self == Self::Tiny && rng.chance(1, 2) { part } else { part * GREATEST }
    }

    pub fn pair(self, rng: &mut Rng) -> [f64; 2] {
        [self.length(rng), self.length(rng)]
    }

    /// Cos and sin: of an angle, or any two.
    pub fn turn(self, rng: &mut Rng) -> (f64, f64) {
        if self == Self::Turned { turn(rng) } else { (self.part(rng), self.part(rng)) }
    }

    pub fn magnification(self, rng: &mut Rng) -> f64 {
        match self {
            Self::Turned => 1.0 - rng.unit(),
            Self::Tiny if rng.chance(1, 8) => -0.0,
            _ if rng.chance(1, 4) => 1.0,
            _ => self.part(rng).abs(),
        }
    }
}
