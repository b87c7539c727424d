//! Sheets in which grids of bare nodes meet a limit (document 02, paper 5), each with that limit: square, with true boxes.
//! Inside a node only objects are added, so only their limit can be met there. Texts run out before a node grid is entered, in a
//! member of a grid around it; proxies run out between members that are too narrow to be opened.

use super::boxes::{Sides, grow_true_boxes, member_point};
use super::encode::{grid, single};
use super::rng::Rng;
use super::square::point;
use super::unused::placed;
use crate::events::Limits;
use crate::sheet::{Query, Reference, Sheet, Source};

/// The cell that the root places again and again.
const BLOCK: u32 = 1;
/// More than any of these sheets lists.
const MANY: usize = 100_000;
/// A batch so dense that it is a box at every zoom here, and counts as no object.
const DENSE: Sides = [0.0, 0.0, 2.0, 2.0];

/// Nodes that are opened at zoom 24, or nodes too narrow to be opened at zoom 1, in grids that are wide enough.
#[derive(Clone, Copy, PartialEq)]
enum Width {
    Any,
    Narrow,
}

fn node_grid(sheet: &mut Sheet, rng: &mut Rng, width: Width) -> u32 {
    let (points, [spacing_x, spacing_y]) = match width {
        Width::Any => ((0..rng.size(1, 4)).map(|_| point(rng, 20)).collect(), [point(rng, 60), point(rng, 60)]),
        Width::Narrow => (vec![[0.0, 0.0], [10.0, 40.0]], [[30.0, 0.0], [0.0, 50.0]]),
    };
    let source = Source::Node(sheet.node(3, 0, &points));
    let shape = match width {
        Width::Any if rng.chance(1, 3) => (1, 1),
        Width::Any => (rng.size(1, 4) as u16, rng.size(1, 4) as u16),
        Width::Narrow => (rng.size(2, 4) as u16, rng.size(1, 4) as u16),
    };
    placed(sheet, rng, Reference { spacing_x, spacing_y, ..grid(source, None, shape, [0.0; 2]) })
}

/// The root holds a grid of blocks and a node grid, or one of the two; a block texts, sometimes a node, and a node grid. What comes
/// last is mostly a node grid: after it no other box is made, so that only its own hold the points that follow the limit.
fn blocks(rng: &mut Rng, width: Width) -> Sheet {
    let mut sheet = Sheet::default();
    let dense = sheet.batch(2, 0, 1_000_000, DENSE);
    let text = sheet.text(1, 0, point(rng, 20));
    let text_reference = sheet.reference(single(Source::Text(text), None));
    let (inner, outer) = (node_grid(&mut sheet, rng, width), node_grid(&mut sheet, rng, width));
    let shape = (rng.size(1, 3) as u16, rng.size(1, 3) as u16);
    let block = placed(&mut sheet, rng, grid(Source::Cell(BLOCK), None, shape, [150.0, 200.0]));
    let root = sheet.cell(0, Some(DENSE));
    root.batches = vec![dense; rng.size(0, 2)];
    root.texts = vec![text; rng.size(0, 1)];
    root.references = rng.pick(&[[block, outer], [outer, block]]).to_vec();
    root.references.truncate(rng.size(1, 2));
    root.references.extend(rng.chance(1, 5).then_some(text_reference));
    let cell = sheet.cell(1, None);
    cell.texts = vec![text; rng.size(0, 2)];
    cell.nodes = vec![0; usize::from(rng.chance(1, 4))];
    cell.references = if rng.chance(1, 2) { vec![text_reference, inner] } else { vec![inner] };
    grow_true_boxes(&mut sheet);
    sheet
}

/// The root's box, or a part of it that keeps the origin, and with it the dense batch.
fn view(rng: &mut Rng, sheet: &Sheet) -> Sides {
    let mut view = sheet.cells[0].bbox.expect("the root has a box");
    if rng.chance(1, 2) {
        let side = rng.size(0, 3);
        let edge = view[side] as i64;
        view[side] = rng.range(edge.min(0), edge.max(0)) as f64;
    }
    view
}

/// The places of texts, or of node points, below a source.
fn places(sheet: &Sheet, source: Source, texts: bool) -> Vec<[f64; 2]> {
    match source {
        Source::Text(number) if texts => vec![sheet.texts[number as usize].origin],
        Source::Node(number) if !texts => sheet.nodes[number as usize].points.clone(),
        Source::Reference(number) => {
            let reference = &sheet.references[number as usize];
            let inner = places(sheet, reference.source, texts);
            let members = (0..reference.columns).flat_map(|column| (0..reference.rows).map(move |row| (column, row)));
            let put = |(column, row)| inner.iter().map(move |&place| member_point(reference, column, row, place));
            members.flat_map(put).collect()
        }
        Source::Cell(number) => {
            let cell = &sheet.cells[number as usize];
            let kinds: [fn(u32) -> Source; 3] = [Source::Text, Source::Node, Source::Reference];
            let lists = [&cell.texts, &cell.nodes, &cell.references];
            let listed = kinds.iter().zip(lists).flat_map(|(kind, list)| list.iter().map(|&number| kind(number)));
            listed.flat_map(|source| places(sheet, source, texts)).collect()
        }
        _ => Vec::new(),
    }
}

fn count(sheet: &Sheet, view: Sides, texts: bool) -> usize {
    let is_in = |place: &[f64; 2]| (0..2).all(|i| view[i] <= place[i] && place[i] <= view[i + 2]);
    places(sheet, Source::Cell(0), texts).iter().filter(|place| is_in(place)).count()
}

/// A limit that some member meets: of the objects or texts in view, or of the boxes.
fn limits(rng: &mut Rng, sheet: &Sheet, view: Sides, width: Width) -> Limits {
    let none = Limits { cells: MANY, objects: MANY, texts: MANY, proxies: MANY };
    let (texts, points, before) = (count(sheet, view, true), count(sheet, view, false), sheet.cells[0].batches.len());
    if width == Width::Narrow {
        // Two points a member.
        return Limits { proxies: rng.size(1, before + points / 2 + 1), ..none };
    }
    if rng.chance(1, 4) {
        return Limits { texts: rng.size(1, texts + 1), ..none };
    }
    // With room for the member's box alone, for both boxes, or for more.
    Limits { objects: rng.size(1, texts + points + 1), proxies: before + rng.pick(&[1, 2, MANY]), ..none }
}

pub fn at_a_limit(rng: &mut Rng) -> (Query, Sheet, Limits) {
    let width = if rng.chance(1, 5) { Width::Narrow } else { Width::Any };
    let sheet = blocks(rng, width);
    let view = view(rng, &sheet);
    let limits = limits(rng, &sheet, view, width);
    let zoom = if width == Width::Narrow { 1.0 } else { rng.pick(&[24.0, 40.0, 100.0]) };
    (Query { root: 0, depth: rng.range(5, 8) as u32, view, zoom, hidden: Vec::new() }, sheet, limits)
}
