//! Families over all finite floats: every exponent and the subnormals, in positions, boxes, turns, views and zooms.
//! Floats of unlike sizes mostly give a plan that shows nothing, so sizes are kept near each other in most sheets: all
//! coordinates moved by one power of two, or drawn around one exponent, or turns whose parts make up for each other.

use super::boxes::{reference_box, true_boxes};
use super::families::{Pair, density, false_boxes, pixels, slanted, square, turn, units};
use super::query::near;
use super::rng::Rng;
use super::square::{Shape, bare};
use crate::sheet::{Query, Reference, Sheet};

/// The exponent field of 1.
const ONE: i64 = 1023;
/// The greatest exponent field of a finite float; field 0 is that of zero and the subnormals.
const GREATEST: i64 = 2046;

/// A float of either sign with this exponent field, or the nearest that a finite float has.
fn with_exponent(rng: &mut Rng, field: i64) -> f64 {
    let kept = rng.pick(&[0, 1 << 51, (1 << 52) - 1, (1 << 52) - 1]);
    let field = field.clamp(0, GREATEST) as u64;
    f64::from_bits(rng.next() & (1 << 63 | kept) | field << 52)
}

/// A float whose exponent field is at most `apart` from this one.
fn near_exponent(rng: &mut Rng, field: i64, apart: i64) -> f64 {
    let field = field + rng.range(-apart, apart);
    with_exponent(rng, field)
}

/// Any finite float: every exponent alike, but one in sixteen is zero or subnormal.
fn any(rng: &mut Rng) -> f64 {
    let field = if rng.chance(1, 16) { 0 } else { rng.range(0, GREATEST) };
    with_exponent(rng, field)
}

/// The nearest finite float; 0 for no number.
fn finite(value: f64) -> f64 {
    if value.is_nan() { 0.0 } else { value.clamp(f64::MIN, f64::MAX) }
}

/// The value times 2 to the power, in two steps, since the power alone may be no float.
fn times_power(value: f64, power: i64) -> f64 {
    let two = |power: i64| f64::from_bits(((power + ONE) as u64) << 52);
    finite(value * two(power / 2) * two(power - power / 2))
}

/// Every position, spacing and side of a sheet.
fn coordinates(sheet: &mut Sheet) -> Vec<&mut f64> {
    let mut all: Vec<&mut f64> = Vec::new();
    all.extend(sheet.batches.iter_mut().flat_map(|batch| &mut batch.bbox));
    all.extend(sheet.texts.iter_mut().flat_map(|text| &mut text.origin));
    all.extend(sheet.nodes.iter_mut().flat_map(|node| node.points.as_flattened_mut()));
    for reference in &mut sheet.references {
        all.extend(reference.origin.iter_mut().chain(&mut reference.spacing_x).chain(&mut reference.spacing_y));
        all.extend(reference.bbox.iter_mut().flatten());
    }
    all.extend(sheet.cells.iter_mut().filter_map(|cell| cell.bbox.as_mut()).flatten());
    all
}

/// True boxes as far as floats reach.
fn finite_true_boxes(sheet: &mut Sheet) {
    true_boxes(sheet);
    coordinates(sheet).into_iter().for_each(|side| *side = finite(*side));
}

/// A query near the sheet, at a depth that shows what lies below the root, and mostly at a zoom at which one of the
/// root's references is large enough to be opened.
fn deep(rng: &mut Rng, sheet: &Sheet) -> Query {
    let mut query = Query { depth: rng.range(2, 6) as u32, ..near(rng, sheet) };
    let root = &sheet.cells[0].references;
    if root.is_empty() || rng.chance(1, 4) {
        return query;
    }
    let reference = &sheet.references[rng.pick(root) as usize];
    let whole = reference.bbox.and_then(|source| reference_box(reference, source));
    let zoom = whole.map_or(0.0, |s| rng.pick(&[24.0, 40.0, 300.0, 1e4, 1e9]) / (s[2] - s[0]).min(s[3] - s[1]));
    if zoom > 0.0 {
        query.zoom = finite(zoom);
    }
    query
}

/// A sheet and its view times one power of two, and the zoom over it: what is in view stays so, at every scale at which
/// the sizes are floats, and beyond at both ends.
pub fn scaled(rng: &mut Rng) -> Pair {
    let make = rng.pick(&[square, square, slanted, slanted, false_boxes, pixels, density, units]);
    let pair = make(rng);
    scale(rng, pair)
}

fn scale(rng: &mut Rng, (mut query, mut sheet): Pair) -> Pair {
    let power = match rng.below(8) {
        0 => rng.range(-1074, -1000),
        // Subnormals that the greatest zoom still shows.
        1 => rng.range(-1032, -1016),
        2 | 3 => rng.range(990, 1018),
        _ => rng.range(-1074, 1015),
    };
    coordinates(&mut sheet).into_iter().for_each(|value| *value = times_power(*value, power));
    query.view = query.view.map(|side| times_power(side, power));
    query.zoom = times_power(query.zoom, -power).max(f64::from_bits(1));
    (query, sheet)
}

/// Sides in order, as most boxes have them.
fn put_in_order(sides: &mut [f64; 4]) {
    for (min, max) in [(0, 2), (1, 3)] {
        if sides[min] > sides[max] {
            sides.swap(min, max);
        }
    }
}

/// Any float in any place, or floats around one exponent, with true boxes or with any.
pub fn any_floats(rng: &mut Rng) -> Pair {
    let mut sheet = bare(rng, &Shape { spread: 100, ..Shape::SMALL });
    let highest = rng.pick(&[30, GREATEST, GREATEST, GREATEST]);
    let (centre, spread) = (rng.range(0, highest), rng.pick(&[2, 12, 60, 400]));
    let odds = rng.pick(&[1, 1, 2, 6]);
    let anywhere = rng.chance(1, 4);
    for value in coordinates(&mut sheet) {
        let other = if anywhere { any(rng) } else { near_exponent(rng, centre, spread) };
        *value = if rng.chance(1, odds) { other } else { times_power(*value, (centre - ONE).clamp(-1022, 1000)) };
    }
    for reference in &mut sheet.references {
        if rng.chance(1, 8) {
            reference.magnification = near_exponent(rng, ONE, spread);
        }
        if rng.chance(1, 4) {
            (reference.cos, reference.sin) = turn(rng);
        }
    }
    for batch in &mut sheet.batches {
        put_in_order(&mut batch.bbox);
    }
    if rng.chance(3, 4) {
        finite_true_boxes(&mut sheet);
    }
    let mut query = deep(rng, &sheet);
    if rng.chance(1, 4) {
        query.view = [f64::MIN, f64::MIN, f64::MAX, f64::MAX];
    }
    (query, sheet)
}

/// A cosine and a sine of any size, with a magnification and spacings that make up for it; some spacings are turned to
/// the greatest floats, where a product overflows and its fused sum need not.
fn turn_by_any(rng: &mut Rng, reference: &mut Reference) {
    let field = rng.range(1, GREATEST);
    let apart = rng.pick(&[0, 1, 20, 52, 300]);
    reference.cos = with_exponent(rng, field);
    reference.sin = near_exponent(rng, field, apart);
    reference.magnification = near_exponent(rng, 2 * ONE - field, 1);
    let far = if rng.chance(1, 6) { 1017 } else { 0 };
    for value in reference.spacing_x.iter_mut().chain(&mut reference.spacing_y) {
        *value = times_power(*value, (ONE - field + far).clamp(-1022, 1022));
    }
}

/// Cosines and sines that are no angle's, beside true ones: any floats, alone or made up for, at any scale.
pub fn any_turns(rng: &mut Rng) -> Pair {
    let mut sheet = bare(rng, &Shape { grid: 2, ..Shape::SMALL });
    let plain = rng.pick(&[0, 2, 5]);
    for reference in &mut sheet.references {
        match rng.below(8) {
            choice if choice < plain => (reference.cos, reference.sin) = turn(rng),
            7 => (reference.cos, reference.sin) = (any(rng), any(rng)),
            6 => (reference.cos, reference.sin) = (2.0 * rng.unit() - 1.0, 2.0 * rng.unit() - 1.0),
            _ => turn_by_any(rng, reference),
        }
    }
    finite_true_boxes(&mut sheet);
    let pair = (deep(rng, &sheet), sheet);
    if rng.chance(1, 3) { scale(rng, pair) } else { pair }
}

/// Views and zooms of any size over sheets of ordinary size, up to the greatest floats.
pub fn any_views(rng: &mut Rng) -> Pair {
    let make = rng.pick(&[square, slanted, false_boxes, pixels]);
    let (mut query, sheet) = make(rng);
    query.depth = rng.range(2, 6) as u32;
    let (view, zoom) = rng.pick(&[(true, false), (true, false), (false, true), (true, true)]);
    if view {
        // From 1 up the sides are mostly beyond the sheet's items.
        let least = rng.pick(&[0, ONE]);
        query.view = [(); 4].map(|()| {
            let field = rng.range(least, GREATEST);
            with_exponent(rng, field)
        });
        if rng.chance(2, 3) {
            query.view = [-query.view[0].abs(), -query.view[1].abs(), query.view[2].abs(), query.view[3].abs()];
        }
        put_in_order(&mut query.view);
    }
    if zoom {
        let field = if rng.chance(1, 2) { rng.range(1, GREATEST) } else { ONE + rng.range(-12, 140) };
        let any = with_exponent(rng, field).abs();
        query.zoom = rng.pick(&[any, any, any, any, f64::MAX, f64::from_bits(1)]);
    }
    (query, sheet)
}
