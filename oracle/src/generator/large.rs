//! Large cases, kept as a name, a seed and a checksum: the limits of 10,000 and more records, sheets up to 16 MiB. Long
//! lists and chains are made by `long`, sheets of 16,777,216 bytes by `full`.

use super::boxes::grow_true_boxes;
use super::edges::at_limits::{after_both, after_cells, after_objects, after_proxies, after_texts, grids, room_for_both_boxes};
use super::edges::deep;
use super::encode::{QUARTERS, grid, input, query_bytes, single};
use super::full;
use super::full_list;
use super::long;
use super::rng::Rng;
use crate::sheet::{Query, Sheet, Source};

#[derive(Clone, Copy)]
pub struct Large {
    pub name: &'static str,
    pub seed: u64,
    pub make: fn(&mut Rng, u64) -> Vec<u8>,
}

const fn large(name: &'static str, seed: u64, make: fn(&mut Rng, u64) -> Vec<u8>) -> Large {
    Large { name, seed, make }
}

/// The seed is the count that the case turns on, where one is named.
pub const LARGE: &[Large] = &[
    large("texts of one cell", 10_000, texts_of_a_cell),
    large("texts of one cell", 10_001, texts_of_a_cell),
    large("texts of a grid", 9_999, texts_of_a_grid),
    large("texts of a grid", 10_000, texts_of_a_grid),
    large("texts of a grid", 10_001, texts_of_a_grid),
    large("batches of one cell", 20_000, batches_of_a_cell),
    large("batches of one cell", 20_001, batches_of_a_cell),
    large("batches of a grid", 20_000, batches_of_a_grid),
    large("batches of a grid", 20_001, batches_of_a_grid),
    large("nodes of one cell", 20_000, nodes_of_a_cell),
    large("nodes of one cell", 20_001, nodes_of_a_cell),
    large("nodes of one cell after a text", 20_000, nodes_after_a_text),
    large("node grid, one point a node", 20_000, node_grid),
    large("node grid, one point a node", 20_001, node_grid),
    large("node grid, one point a node", 21_000, node_grid),
    large("node grid, three points a node", 20_000, node_grid_of_three),
    large("node grid, three points a node", 20_003, node_grid_of_three),
    large("node grid, two of three points in view", 20_000, node_grid_half_in_view),
    large("node grid, two of three points in view", 20_002, node_grid_half_in_view),
    large("node grid after the texts", 5, node_grid_after_texts),
    large("dense batches of two cells", 99_999, dense_batches),
    large("dense batches of two cells", 100_000, dense_batches),
    large("dense batches of two cells", 100_003, dense_batches),
    large("proxies of small references", 100_000, small_references),
    large("proxies of small references", 100_002, small_references),
    large("cells", 4_096, |rng, n| many_cells(rng, n, 32)),
    large("cells", 4_097, |rng, n| many_cells(rng, n, 32)),
    large("cells, the last with a bad number", 4_097, many_cells_and_a_bad_number),
    large("sheet of so many bytes", 16_777_216, sheet_of_bytes),
    large("sheet of so many bytes", 16_777_217, sheet_of_bytes),
    large("descent of cells", 33, descent),
    large("descent of cells", 40, descent),
    large("street", 3_000, street),
    large("city", 300, city),
    large("city", 2_000, city),
    large("city", 6_000, city),
    large("city", 12_000, city),
    large("chain of cells", 3_000, |rng, n| long::chain_of_cells(rng, n, 32)),
    large("chain of cells", 4_096, |rng, n| long::chain_of_cells(rng, n, 32)),
    large("end of a chain of cells", 3_000, |rng, n| long::end_of_a_chain_of_cells(rng, n, 32)),
    large("end of a chain of cells", 4_096, |rng, n| long::end_of_a_chain_of_cells(rng, n, 32)),
    large("chain of references", 3_000, |rng, n| long::chain_of_references(rng, n, 32)),
    large("chain of references", 4_096, |rng, n| long::chain_of_references(rng, n, 32)),
    large("four lists of so many numbers", 65_535, long::four_long_lists),
    large("hidden layers", 16_384, long::hidden_layers),
    large("hidden layers", 65_000, long::hidden_layers),
    large("one short of 20,000 objects", 0, after_objects),
    large("one short of 20,000 objects", 1, after_objects),
    large("one short of 20,000 objects", 2, after_objects),
    large("one short of 20,000 objects", 3, after_objects),
    large("one short of 20,000 objects", 4, after_objects),
    large("one short of 20,000 objects", 5, after_objects),
    large("one short of 20,000 objects", 6, after_objects),
    large("one short of 20,000 objects", 7, after_objects),
    large("one short of 20,000 objects", 8, after_objects),
    large("one short of 20,000 objects", 9, after_objects),
    large("one short of 10,000 texts", 0, after_texts),
    large("one short of 10,000 texts", 1, after_texts),
    large("one short of 10,000 texts", 2, after_texts),
    large("one short of 10,000 texts", 3, after_texts),
    large("one short of 10,000 texts", 4, after_texts),
    large("one short of 10,000 texts", 5, after_texts),
    large("one short of 10,000 texts", 6, after_texts),
    large("one short of 100,000 proxies", 0, after_proxies),
    large("one short of 100,000 proxies", 1, after_proxies),
    large("one short of 100,000 proxies", 2, after_proxies),
    large("one short of 100,000 proxies", 3, after_proxies),
    large("one short of 100,000 proxies", 4, after_proxies),
    large("one short of 100,000 proxies", 5, after_proxies),
    large("one short of 100,000 proxies", 6, after_proxies),
    large("one short of 100,000 proxies", 7, after_proxies),
    large("one short of 100,000 proxies", 8, after_proxies),
    large("one short of 100,000 proxies", 9, after_proxies),
    large("one short of 100,000 proxies", 10, after_proxies),
    large("one short of objects and proxies", 0, after_both),
    large("one short of objects and proxies", 1, after_both),
    large("one short of objects and proxies", 2, after_both),
    large("one short of objects and proxies", 3, after_both),
    large("one short of objects and proxies", 4, after_both),
    large("one short of objects and proxies", 5, after_both),
    large("one short of objects and proxies", 6, after_both),
    large("one short of objects and proxies", 7, after_both),
    large("one short of proxies, and 20,000 cells", 0, after_cells),
    large("one short of proxies, and 20,000 cells", 1, after_cells),
    large("node grid of six, the limit in member", 1, limit_in_member),
    large("node grid of six, the limit in member", 4, limit_in_member),
    large("node grid of six, the limit in member", 6, limit_in_member),
    large("node grid of one, the limit in member", 1, limit_in_only_member),
    large("node grid, two short of 100,000 proxies", 99_998, room_for_both_boxes),
    large("one short of 100,000 proxies", 11, after_proxies),
    large("proxies called for", 99_999, full_list::called_for),
    large("proxies called for", 100_000, full_list::called_for),
    large("proxies called for", 100_001, full_list::called_for),
    large("proxies called for", 100_063, full_list::called_for),
    large("parts that want a box", 100_065, full_list::wanted),
    large("any descent to a full list", 1, |rng, _| full_list::any_descent(rng, 32)),
    large("any descent to a full list", 2, |rng, _| full_list::any_descent(rng, 32)),
    large("any descent to a full list", 3, |rng, _| full_list::any_descent(rng, 32)),
    large("any descent to a full list", 4, |rng, _| full_list::any_descent(rng, 32)),
    large("any descent to a full list", 5, |rng, _| full_list::any_descent(rng, 32)),
    large("any descent to a full list", 6, |rng, _| full_list::any_descent(rng, 32)),
    large("any descent to a full list", 7, |rng, _| full_list::any_descent(rng, 32)),
    large("any descent to a full list", 8, |rng, _| full_list::any_descent(rng, 32)),
    large("proxies called for", 100_065, full_list::called_for),
    large("proxies called for", 100_095, full_list::called_for),
    large("any descent of 48 levels to a full list", 1, |rng, _| full_list::any_descent(rng, 48)),
    large("any descent of 48 levels to a full list", 2, |rng, _| full_list::any_descent(rng, 48)),
    large("any descent of 48 levels to a full list", 3, |rng, _| full_list::any_descent(rng, 48)),
    large("any descent of 48 levels to a full list", 4, |rng, _| full_list::any_descent(rng, 48)),
    large("cells at depth 48", 4_096, |rng, n| many_cells(rng, n, 48)),
    large("chain of cells at depth 48", 4_096, |rng, n| long::chain_of_cells(rng, n, 48)),
    large("end of a chain of cells at depth 48", 4_096, |rng, n| long::end_of_a_chain_of_cells(rng, n, 48)),
    large("chain of references at depth 48", 4_096, |rng, n| long::chain_of_references(rng, n, 48)),
];

/// These, the deep sheets for which plan_vectors has no room, and the full sheets.
pub fn all() -> Vec<Large> {
    [LARGE, &deep::large_cases(), &full::large_cases()].concat()
}

const WIDE: [f64; 4] = [-1e9, -1e9, 1e9, 1e9];

pub fn wide(depth: u32) -> Query {
    Query { root: 0, depth, view: WIDE, zoom: 1.0, hidden: Vec::new() }
}

pub fn finish(mut sheet: Sheet, query: Query, rng: &mut Rng) -> Vec<u8> {
    grow_true_boxes(&mut sheet);
    input(&query, &sheet, rng)
}

/// What follows a limit: one more of everything.
fn tail(sheet: &mut Sheet) -> Vec<u32> {
    let text = sheet.text(9, 0, [1.0, 1.0]);
    let node = sheet.node(9, 1, &[[2.0, 2.0]]);
    let batch = sheet.batch(9, 2, 1, [3.0, 3.0, 30.0, 30.0]);
    let sources = [Source::Text(text), Source::Node(node), Source::Batch(batch), Source::Cell(1), Source::Cell(70)];
    sources.map(|source| sheet.reference(single(source, Some([0.0, 0.0, 40.0, 40.0])))).to_vec()
}

fn texts_of_a_cell(rng: &mut Rng, count: u64) -> Vec<u8> {
    let mut sheet = Sheet::default();
    for x in 0..7 {
        sheet.text(1, x, [f64::from(x), 0.0]);
    }
    let node = sheet.node(2, 0, &[[1.0, 1.0]]);
    let references = tail(&mut sheet);
    let root = sheet.cell(0, None);
    root.texts = (0..count).map(|place| (place % 7) as u32).collect();
    (root.nodes, root.references) = (vec![node], references);
    finish(sheet, wide(3), rng)
}

/// Two grids of texts, so that the second meets the limit, then the tail.
fn texts_of_a_grid(rng: &mut Rng, count: u64) -> Vec<u8> {
    let mut sheet = Sheet::default();
    let text = sheet.text(1, 1, [0.0, 0.0]);
    let point = Some([0.0; 4]);
    let first = sheet.reference(grid(Source::Text(text), point, (80, 100), [30.0, 30.0]));
    let rest = (count - 8_000) as u16;
    let second = sheet.reference(grid(Source::Text(text), point, (1, rest), [30.0, 30.0]));
    let tail = tail(&mut sheet);
    sheet.cell(0, None).references = [vec![first, second], tail].concat();
    finish(sheet, wide(3), rng)
}

fn batches_of_a_cell(rng: &mut Rng, count: u64) -> Vec<u8> {
    let mut sheet = Sheet::default();
    for x in 0..5 {
        sheet.batch(1, x, 1, [f64::from(x), 0.0, f64::from(x) + 10.0, 10.0]);
    }
    let references = tail(&mut sheet);
    let root = sheet.cell(0, None);
    root.batches = (0..count).map(|place| (place % 5) as u32).collect();
    (root.texts, root.references) = (vec![0], references);
    finish(sheet, wide(3), rng)
}

/// Three grids that together hold `count` members, each a cell with one batch.
fn batches_of_a_grid(rng: &mut Rng, count: u64) -> Vec<u8> {
    let mut sheet = Sheet::default();
    let batch = sheet.batch(1, 1, 1, [0.0, 0.0, 30.0, 30.0]);
    let side = Some([0.0, 0.0, 30.0, 30.0]);
    let rest = (count - 16_000) as u16;
    let mut references = Vec::new();
    for shape in [(80, 100), (100, 80), (1, rest)] {
        references.push(sheet.reference(grid(Source::Batch(batch), side, shape, [40.0, 40.0])));
    }
    let tail = tail(&mut sheet);
    sheet.cell(0, None).references = [references, tail].concat();
    finish(sheet, wide(3), rng)
}

fn nodes_of_a_cell(rng: &mut Rng, count: u64) -> Vec<u8> {
    nodes_after(rng, count, 0)
}

/// One text more, so that the limit falls inside the last node, and nothing after it.
fn nodes_after_a_text(rng: &mut Rng, count: u64) -> Vec<u8> {
    nodes_after(rng, count, 1)
}

fn nodes_after(rng: &mut Rng, count: u64, texts: usize) -> Vec<u8> {
    let mut sheet = Sheet::default();
    let points: Vec<[f64; 2]> = (0..50).map(|x| [f64::from(x), 5.0]).collect();
    for layer in 0..4 {
        sheet.node(layer, 3, &points);
    }
    let single = sheet.node(7, 7, &[[0.0, 0.0]]);
    let references = tail(&mut sheet);
    let root = sheet.cell(0, None);
    root.nodes = (0..count / 50).map(|place| (place % 4) as u32).collect();
    root.nodes.extend(vec![single; (count % 50) as usize]);
    root.texts = vec![0; texts];
    if texts == 0 {
        root.references = references;
    }
    finish(sheet, wide(3), rng)
}

fn node_grids(rng: &mut Rng, count: u64, points: &[[f64; 2]], view: [f64; 4]) -> Vec<u8> {
    let mut sheet = Sheet::default();
    let node = sheet.node(3, 4, points);
    let seen = points.iter().filter(|point| point[0] <= view[2]).count() as u64;
    let members = count.div_ceil(seen);
    let mut left = members;
    let mut references = Vec::new();
    while left > 0 {
        let rows = left.min(4_000) as u16;
        references.push(sheet.reference(grid(Source::Node(node), None, (1, rows), [60.0, 60.0])));
        left -= u64::from(rows);
    }
    // The last grid goes on past the limit.
    sheet.references.last_mut().unwrap().columns = 2;
    let tail = tail(&mut sheet);
    sheet.cell(0, None).references = [references, tail].concat();
    finish(sheet, Query { view, ..wide(3) }, rng)
}

fn node_grid(rng: &mut Rng, count: u64) -> Vec<u8> {
    node_grids(rng, count, &[[1.0, 2.0]], WIDE)
}

fn node_grid_of_three(rng: &mut Rng, count: u64) -> Vec<u8> {
    node_grids(rng, count, &[[0.0, 0.0], [30.0, 0.0], [0.0, 30.0]], WIDE)
}

/// The last point of each node lies out of view, so a node may end there after the limit was met.
fn node_grid_half_in_view(rng: &mut Rng, count: u64) -> Vec<u8> {
    node_grids(rng, count, &[[0.0, 0.0], [0.0, 30.0], [30.0, 0.0]], [-1e9, -1e9, 20.0, 1e9])
}

fn limit_in_member(rng: &mut Rng, member: u64) -> Vec<u8> {
    limit_in(rng, (3, 2), member)
}

fn limit_in_only_member(rng: &mut Rng, member: u64) -> Vec<u8> {
    limit_in(rng, (1, 1), member)
}

/// The limit falls after the first of three points of one member. The grid stands in a cell that is moved and turned, and nothing
/// comes after it: no other box holds the points of later members.
fn limit_in(rng: &mut Rng, shape: (u16, u16), member: u64) -> Vec<u8> {
    let mut sheet = Sheet::default();
    let fill = sheet.node(3, 4, &[[1.0, 2.0]]);
    let fill = grids(&mut sheet, Source::Node(fill), [0.0; 4], 20_002 - 3 * member as u16);
    let node = sheet.node(5, 6, &[[0.0, 0.0], [30.0, 0.0], [0.0, 40.0]]);
    let nodes = sheet.reference(grid(Source::Node(node), None, shape, [60.0, 70.0]));
    let mut turned = single(Source::Cell(1), None);
    (turned.origin, turned.reflection, (turned.cos, turned.sin)) = ([500.0, -300.0], true, QUARTERS[1]);
    let turned = sheet.reference(turned);
    sheet.cell(0, None).references = [fill, vec![turned]].concat();
    sheet.cell(1, None).references.push(nodes);
    finish(sheet, wide(4), rng)
}

/// The texts run out inside a cell that is placed again and again, with node grids beside.
fn node_grid_after_texts(rng: &mut Rng, more: u64) -> Vec<u8> {
    let mut sheet = Sheet::default();
    let text = sheet.text(1, 1, [5.0, 5.0]);
    let node = sheet.node(2, 1, &[[1.0, 1.0], [9.0, 9.0]]);
    let bare = sheet.reference(grid(Source::Node(node), None, (2, 2), [40.0, 40.0]));
    let placed = sheet.reference(grid(Source::Cell(1), None, (40, 50), [100.0, 100.0]));
    let tail = tail(&mut sheet);
    sheet.cell(0, None).references = [vec![placed], tail].concat();
    let cell = sheet.cell(3, None);
    (cell.texts, cell.nodes, cell.references) = (vec![text; more as usize], vec![node], vec![bare]);
    finish(sheet, wide(4), rng)
}

/// Batches that are dense become proxies without counting as objects.
fn dense_batches(rng: &mut Rng, count: u64) -> Vec<u8> {
    let mut sheet = Sheet::default();
    for x in 0..3 {
        sheet.batch(1, x, 200, [f64::from(x), 0.0, f64::from(x) + 30.0, 30.0]);
    }
    let inner = sheet.reference(single(Source::Cell(1), None));
    let tail = tail(&mut sheet);
    let root = sheet.cell(0, None);
    root.batches = (0..60_000).map(|place| place % 3).collect();
    root.references = [vec![inner], tail].concat();
    let cell = sheet.cell(1, None);
    cell.batches = (60_000..count).map(|place| (place % 3) as u32).collect();
    finish(sheet, wide(3), rng)
}

/// References below 24 pixels, listed often.
fn small_references(rng: &mut Rng, count: u64) -> Vec<u8> {
    let mut sheet = Sheet::default();
    let batch = sheet.batch(1, 1, 1, [0.0, 0.0, 40.0, 10.0]);
    let small = sheet.reference(single(Source::Cell(2), None));
    let plain = sheet.reference(single(Source::Batch(batch), None));
    let inner = sheet.reference(grid(Source::Cell(1), None, (1, 2), [0.0, 100.0]));
    let tail = tail(&mut sheet);
    let root = sheet.cell(0, None);
    root.references = [vec![inner, small], tail].concat();
    let cell = sheet.cell(1, Some([0.0, 0.0, 4000.0, 4000.0]));
    cell.references = (0..count / 2).map(|place| if place % 5 == 0 { plain } else { small }).collect();
    sheet.cell(1, None).batches.push(batch);
    let query = Query { zoom: 2.0, ..wide(4) };
    finish(sheet, query, rng)
}

/// The most cells at the greatest depth take all of the scratch that a plan can take.
fn many_cells(rng: &mut Rng, count: u64, depth: u32) -> Vec<u8> {
    let mut sheet = Sheet::default();
    let text = sheet.text(1, 1, [5.0, 5.0]);
    let last = sheet.reference(single(Source::Cell(count as u32 - 1), None));
    sheet.cell(0, None).references.push(last);
    for _ in 1..count {
        sheet.cell(1, None);
    }
    sheet.cells.last_mut().unwrap().texts.push(text);
    finish(sheet, Query { zoom: 30.0, ..wide(depth) }, rng)
}

fn many_cells_and_a_bad_number(rng: &mut Rng, count: u64) -> Vec<u8> {
    let mut bytes = many_cells(rng, count, 32);
    let mut sheet = Sheet::default();
    sheet.cell(1, None).batches.push(7);
    bytes.extend(super::encode::cell_bytes(&sheet.cells[0]));
    bytes
}

/// The worked example's cell among texts that nothing lists, up to a length.
pub fn sheet_of_bytes(_: &mut Rng, length: u64) -> Vec<u8> {
    let query = Query { view: [0.0, 0.0, 100.0, 100.0], ..wide(1) };
    let mut sheet = Sheet::default();
    let first = sheet.text(1, 0, [10.0, 20.0]);
    sheet.cell(0, Some([0.0, 0.0, 100.0, 100.0])).texts.push(first);
    let mut bytes = query_bytes(&query);
    let end = bytes.len() + length as usize;
    bytes.extend(super::encode::text_bytes(&sheet.texts[0], b""));
    bytes.extend(super::encode::cell_bytes(&sheet.cells[0]));
    full::fill(&mut bytes, end, 500);
    bytes
}

fn descent(rng: &mut Rng, levels: u64) -> Vec<u8> {
    let mut sheet = Sheet::default();
    let text = sheet.text(1, 0, [7.0, 9.0]);
    let batch = sheet.batch(2, 0, 1, [0.0, 0.0, 40.0, 40.0]);
    for level in 0..levels as u32 {
        let mut step = single(Source::Cell(level + 1), None);
        (step.cos, step.sin) = rng.pick(&QUARTERS);
        (step.origin, step.reflection) = ([2.0, -1.0], rng.chance(1, 2));
        let step = sheet.reference(step);
        let cell = sheet.cell(u64::from(level % 3), None);
        (cell.texts, cell.batches) = (vec![text], vec![batch]);
        if u64::from(level) + 1 < levels {
            cell.references = vec![step];
        }
    }
    finish(sheet, Query { zoom: 40.0, ..wide(32) }, rng)
}

pub fn street(rng: &mut Rng, count: u64) -> Vec<u8> {
    let (sheet, query) = street_sheet(rng, count);
    finish(sheet, query, rng)
}

/// A long row of houses, listed by the root and by a second cell, of which the view holds a part.
pub fn street_sheet(rng: &mut Rng, count: u64) -> (Sheet, Query) {
    let mut sheet = Sheet::default();
    let text = sheet.text(1, 0, [5.0, 5.0]);
    let batch = sheet.batch(2, 0, 3, [0.0, 0.0, 80.0, 60.0]);
    let mut houses = Vec::new();
    for place in 0..count {
        let mut house = single(Source::Cell(2), None);
        house.origin = [place as f64 * 100.0, rng.range(0, 900) as f64];
        (house.cos, house.sin) = rng.pick(&QUARTERS);
        house.reflection = rng.chance(1, 2);
        houses.push(sheet.reference(house));
    }
    let second = sheet.reference(single(Source::Cell(1), None));
    let half = houses.split_off(houses.len() / 2);
    houses.push(second);
    sheet.cell(0, None).references = houses;
    sheet.cell(0, None).references = half;
    let house = sheet.cell(2, None);
    (house.texts, house.batches) = (vec![text], vec![batch]);
    let view = [count as f64 * 48.0, 0.0, count as f64 * 52.0, 1000.0];
    (sheet, Query { view, ..wide(4) })
}

/// Streets of blocks of cells: `count` leaf records of each kind below three levels of grids.
pub fn city(rng: &mut Rng, count: u64) -> Vec<u8> {
    let (sheet, query) = city_sheet(rng, count);
    input(&query, &sheet, rng)
}

fn city_sheet(rng: &mut Rng, count: u64) -> (Sheet, Query) {
    let mut sheet = Sheet::default();
    for _ in 0..count {
        let (x, y) = (rng.range(0, 900) as f64, rng.range(0, 900) as f64);
        let sides = [x, y, x + rng.range(1, 90) as f64, y + rng.range(1, 90) as f64];
        sheet.batch(rng.below(6) as u16, 0, rng.below(200) as u32, sides);
        sheet.text(rng.below(6) as u16, 1, [y, x]);
        sheet.node(rng.below(6) as u16, 2, &[[x, x], [y, x], [y, y]]);
    }
    let leaves = (count / 8).clamp(1, 3_000) as u32;
    let blocks = leaves / 4 + 1;
    let mut lists = Vec::new();
    for level in 0..3u32 {
        let cells = [4, blocks, leaves][level as usize];
        let below = [blocks, leaves, 0][level as usize];
        let first_below = [4, 4 + blocks, 0][level as usize];
        for _ in 0..cells {
            let mut references = Vec::new();
            for _ in 0..if below == 0 { 0 } else { rng.size(2, 12) } {
                let cell = first_below + rng.below(u64::from(below)) as u32;
                let mut made = grid(Source::Cell(cell), None, (rng.size(1, 4) as u16, rng.size(1, 4) as u16), [1000.0, 1000.0]);
                (made.cos, made.sin) = rng.pick(&QUARTERS);
                made.origin = [rng.range(-9000, 9000) as f64, rng.range(-9000, 9000) as f64];
                made.reflection = rng.chance(1, 3);
                references.push(sheet.reference(made));
            }
            lists.push((level, references));
        }
    }
    for (level, references) in lists {
        let share = if level == 2 { 24 } else { 1 };
        let picks: Vec<u32> = (0..share).map(|_| rng.below(count) as u32).collect();
        let cell = sheet.cell(3 * u64::from(level), None);
        (cell.batches, cell.texts, cell.nodes) = (picks.clone(), picks.clone(), picks);
        cell.references = references;
    }
    grow_true_boxes(&mut sheet);
    let view = sheet.cells[0].bbox.unwrap_or(WIDE);
    (sheet, Query { view, zoom: rng.pick(&[0.25, 0.5, 1.0]), ..wide(6) })
}
