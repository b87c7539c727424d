//! A sheet around a chain of references, and a query that shows its point.

use super::bounds::GREATEST;
use super::chain::{Chain, REACH};
use crate::generator::boxes::Sides;
use crate::generator::rng::Rng;
use crate::sheet::{Query, Reference, Sheet, Source};

/// With more members than this a view that holds them all would list too much.
const FEW: u64 = 64;

fn around([x, y]: [f64; 2], reach: f64) -> Sides {
    [x - reach, y - reach, x + reach, y + reach]
}

/// How a sheet is made and looked at: so that its point is listed, or mostly so.
#[derive(Clone, Copy, PartialEq, Eq)]
pub enum Showing {
    Surely,
    Mostly,
}

impl Showing {
    /// True `part` times out of 16, where the point need not be listed.
    fn departs(self, rng: &mut Rng, part: u64) -> bool {
        rng.chance(part, 16) && self == Self::Mostly
    }
}

/// A reference's source box: the point alone, which counts as 24 pixels, or a box that is large enough as the root sees it.
fn source_box(rng: &mut Rng, showing: Showing, place: [f64; 2], scale: f64) -> Sides {
    let wide = scale > 1.0 / 65_536.0 && !showing.departs(rng, 2);
    around(place, if wide { rng.pick(&[1.0 / 16.0, 1.0, REACH]) } else { 0.0 })
}

/// The place, or the nearest within the bounds.
fn within(place: [f64; 2]) -> [f64; 2] {
    place.map(|value| value.clamp(-GREATEST, GREATEST))
}

fn layers(rng: &mut Rng) -> (u16, u16) {
    (rng.below(3) as u16, rng.below(3) as u16)
}

fn text(rng: &mut Rng, sheet: &mut Sheet, place: [f64; 2]) -> u32 {
    let (layer, data_type) = layers(rng);
    sheet.text(layer, data_type, within(place))
}

/// Some points around the place, the first of them there.
fn node(rng: &mut Rng, sheet: &mut Sheet, place: [f64; 2]) -> u32 {
    let (layer, node_type) = layers(rng);
    let mut points = vec![within(place)];
    for _ in 0..rng.size(0, 2) {
        points.push(within(place.map(|value| value + 2.0 * rng.unit() - 1.0)));
    }
    sheet.node(layer, node_type, &points)
}

/// A cell around the place, with a text and a node there.
fn cell(rng: &mut Rng, sheet: &mut Sheet, place: [f64; 2], references: Vec<u32>) -> Source {
    let (text, node) = (text(rng, sheet, place), node(rng, sheet, place));
    let bbox = rng.chance(1, 2).then(|| around(place, REACH));
    // Few units, so that chains of grids are seldom dense.
    let cell = sheet.cell(rng.below(2), bbox);
    (cell.texts, cell.nodes, cell.references) = (vec![text], vec![node], references);
    Source::Cell(sheet.cells.len() as u32 - 1)
}

/// The sheet: each source on the way is a cell or the next reference itself, the last a cell, a text or a node.
fn sheet(rng: &mut Rng, showing: Showing, chain: &Chain) -> Sheet {
    let (places, scales) = (chain.places(), chain.scales());
    let mut sheet = Sheet::default();
    let mut source = match rng.below(4) {
        0 if !chain.links.is_empty() => Source::Text(text(rng, &mut sheet, chain.point)),
        1 if !chain.links.is_empty() => Source::Node(node(rng, &mut sheet, chain.point)),
        _ => cell(rng, &mut sheet, chain.point, Vec::new()),
    };
    for (number, link) in chain.links.iter().enumerate().rev() {
        let bbox = Some(source_box(rng, showing, places[number + 1], scales[number + 1]));
        let own = sheet.reference(Reference { source, bbox, ..link.reference.clone() });
        let is_inner = number > 0 && rng.chance(1, 3);
        source = if is_inner { Source::Reference(own) } else { cell(rng, &mut sheet, places[number], vec![own]) };
    }
    sheet
}

/// Mostly a view around the point and a depth that reaches it. Large grids are never seen whole.
fn query(rng: &mut Rng, showing: Showing, chain: &Chain, root: u32) -> Query {
    let [x, y] = chain.places()[0];
    let is_small = chain.members() <= FEW;
    let view = match rng.below(16) {
        0 if is_small => around([0.0, 0.0], 2f64.powi(60)),
        1 if is_small => around([0.0, 0.0], f64::MAX),
        // The point is at a corner, in view or not as it is rounded.
        2 if showing == Showing::Mostly => [x, y, x + REACH, y + REACH],
        _ => around([x, y], rng.pick(&[1.0, 4.0, REACH])),
    };
    let least = if showing.departs(rng, 1) { 0 } else { chain.links.len() as i64 + 1 };
    // At lower zooms a chain of six grids may be dense.
    let lowest = if showing == Showing::Surely { 44 } else { 24 };
    let zoom = if showing.departs(rng, 1) { rng.range(-20, 24) } else { rng.range(lowest, 60) };
    let hidden = if showing.departs(rng, 1) { vec![rng.below(3) as u32] } else { Vec::new() };
    Query { root, depth: rng.range(least, 48) as u32, view, zoom: 2f64.powi(zoom as i32) * (1.0 + rng.unit()), hidden }
}

/// The cell that was made last is the root.
pub fn case(rng: &mut Rng, showing: Showing, chain: &Chain) -> (Query, Sheet) {
    let sheet = sheet(rng, showing, chain);
    (query(rng, showing, chain, sheet.cells.len() as u32 - 1), sheet)
}
