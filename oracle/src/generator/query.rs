//! Random queries near a sheet: views at its edges, zooms at the thresholds of its parts.

use super::boxes::reference_box;
use super::rng::Rng;
use crate::sheet::{Query, Sheet};

fn view(rng: &mut Rng, sides: [f64; 4]) -> [f64; 4] {
    let [min_x, min_y, max_x, max_y] = sides;
    let (width, height) = (max_x - min_x, max_y - min_y);
    let along = |rng: &mut Rng, min: f64, size: f64| (min + size * rng.unit()).round();
    match rng.below(10) {
        0..=4 => sides,
        5 => [min_x - 7.0, min_y - 7.0, max_x + 7.0, max_y + 7.0],
        6 => {
            let (x, y) = (along(rng, min_x, width), along(rng, min_y, height));
            [x, y, x.max(max_x), y.max(max_y)]
        }
        7 => {
            let (x, y) = (along(rng, min_x, width), along(rng, min_y, height));
            [min_x.min(x), min_y.min(y), x, y]
        }
        // The edge alone: what touches it is in view.
        8 if rng.chance(1, 2) => [max_x, min_y, max_x + 50.0, max_y],
        8 => [min_x, max_y, max_x, max_y + 50.0],
        _ => {
            let (x, y) = (along(rng, min_x, width), along(rng, min_y, height));
            [x, y, x, y]
        }
    }
}

/// Sizes in pixels at which some rule turns, and sizes well above them.
const SIZES: [f64; 14] = [
    0.5, 0.999_999_99, 1.0, 2.0, 23.999_998, 23.999_999_5, 24.0, 32.0, 45.0, 64.0, 100.0, 300.0, 1000.0, 30000.0,
];

fn zoom(rng: &mut Rng, sheet: &Sheet) -> f64 {
    let mut widths: Vec<f64> = Vec::new();
    for reference in &sheet.references {
        if let Some(source) = reference.bbox {
            widths.push(source[2] - source[0]);
            widths.push(source[3] - source[1]);
            if let Some(whole) = reference_box(reference, source) {
                widths.extend([whole[2] - whole[0], whole[3] - whole[1]]);
            }
        }
    }
    widths.extend(sheet.batches.iter().map(|batch| batch.bbox[3] - batch.bbox[1]));
    widths.retain(|width| width.is_finite() && *width > 0.0);
    if widths.is_empty() || rng.chance(1, 4) {
        return 2f64.powi(rng.range(-4, 6) as i32) * (1.0 + rng.unit());
    }
    let zoom = rng.pick(&SIZES) / rng.pick(&widths);
    if zoom.is_finite() && zoom > 0.0 { zoom } else { 1.0 }
}

fn depth(rng: &mut Rng) -> u32 {
    match rng.below(32) {
        0 => 0,
        1 => 1,
        2 => rng.range(9, 32) as u32,
        _ => rng.range(2, 8) as u32,
    }
}

/// A random query that no question refuses.
pub fn near(rng: &mut Rng, sheet: &Sheet) -> Query {
    let root = match rng.below(16) {
        0 => rng.below(sheet.cells.len() as u64 + 2) as u32,
        _ => 0,
    };
    let sides = sheet.cells.get(root as usize).and_then(|cell| cell.bbox);
    let sides = sides.filter(|s| s[0] <= s[2] && s[1] <= s[3]).unwrap_or([-300.0, -300.0, 300.0, 300.0]);
    let view = view(rng, sides);
    let sound = view.iter().all(|side| side.is_finite()) && view[0] <= view[2] && view[1] <= view[3];
    let count = if rng.chance(1, 4) { rng.size(1, 4) } else { 0 };
    Query {
        root,
        depth: depth(rng),
        view: if sound { view } else { [-1e9, -1e9, 1e9, 1e9] },
        zoom: zoom(rng, sheet),
        hidden: (0..count)
            .map(|_| (rng.below(3) << 16 | rng.below(3)) as u32)
            .collect(),
    }
}
