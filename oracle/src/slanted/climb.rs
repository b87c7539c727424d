//! A search for large errors: a number or two of a chain, or a reflection, is changed, and what enlarges the error at its point is kept.

use super::bounds::GREATEST;
use super::chain::Chain;
use super::fraction::{Fraction, farther};
use super::kinds::Kind;
use crate::generator::rng::Rng;

/// Changes that one climb tries.
const ROUNDS: u64 = 10_000;

/// How far the rounded steps' point is from the exact one, in the coordinate where it is farther.
pub fn error(chain: &Chain) -> Fraction {
    farther(&chain.position(), &chain.position())
}

/// Every number of a chain, with its greatest size.
fn numbers(chain: &mut Chain) -> Vec<(&mut f64, f64)> {
    let mut all: Vec<(&mut f64, f64)> = chain.point.iter_mut().map(|value| (value, GREATEST)).collect();
    for link in &mut chain.links {
        let reference = &mut link.reference;
        let pairs = [&mut reference.origin, &mut reference.spacing_x, &mut reference.spacing_y];
        all.extend(pairs.into_iter().flatten().map(|value| (value, GREATEST)));
        all.extend([(&mut reference.cos, 1.0), (&mut reference.sin, 1.0), (&mut reference.magnification, 1.0)]);
    }
    all
}

/// Another number near by, or anywhere near the ends.
fn change(rng: &mut Rng, value: f64, most: f64) -> f64 {
    let changed = match rng.below(8) {
        0 => Kind::Climbed.part(rng) * most,
        1 => -value,
        2 => value * (1.0 - rng.unit() / 64.0),
        _ => f64::from_bits(value.to_bits() ^ rng.next() >> rng.range(12, 63)),
    };
    changed.clamp(-most, most)
}

fn changed(rng: &mut Rng, chain: &Chain) -> Chain {
    let mut other = chain.clone();
    if rng.chance(1, 32) && !other.links.is_empty() {
        let place = rng.size(0, other.links.len() - 1);
        other.links[place].reference.reflection ^= true;
        return other;
    }
    let mut all = numbers(&mut other);
    for _ in 0..rng.size(1, 2) {
        let place = rng.size(0, all.len() - 1);
        let (value, most) = &mut all[place];
        **value = change(rng, **value, *most);
    }
    for link in &mut other.links {
        link.reference.magnification = link.reference.magnification.abs();
    }
    other
}

/// The chain that the search comes to, and its error.
pub fn climb(rng: &mut Rng, chain: Chain) -> (Chain, Fraction) {
    let mut best = (error(&chain), chain);
    for _ in 0..ROUNDS {
        let other = changed(rng, &best.1);
        let error = error(&other);
        if error > best.0 {
            best = (error, other);
        }
    }
    (best.1, best.0)
}
