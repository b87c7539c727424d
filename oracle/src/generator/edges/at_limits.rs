//! Large cases one short of a limit: what comes next meets the limit, and each test against it that the code has is asked there.

use super::wide;
use crate::generator::encode::{grid, input, single};
use crate::generator::rng::Rng;
use crate::sheet::{Query, Sheet, Source};

/// What a cell lists that comes next: b a batch, c one out of view, d a dense one, t a text, u one out of view, n a node of two
/// points, o one out of view, p one of one point, r a reference to a text. A capital stands for a grid of three, the last out of view: B of the batch, T of the text,
/// N of the node, D of a cell that is dense; and C for a cell that holds itself.
const OBJECTS_NEXT: [&str; 10] = ["bb", "bt", "bo", "tt", "nn", "br", "B", "b", "utt", "po"];
const TEXTS_NEXT: [&str; 7] = ["b", "tt", "to", "nn", "tr", "T", "bb"];
const PROXIES_NEXT: [&str; 12] = ["b", "t", "n", "dc", "dt", "dn", "dr", "D", "C", "tt", "nn", "do"];
const BOTH_NEXT: [&str; 8] = ["bb", "bt", "bo", "nn", "br", "B", "N", "tt"];

/// The records that every case has, by the letters above.
fn records() -> Sheet {
    let mut sheet = Sheet::default();
    sheet.batch(1, 0, 1, [0.0, 0.0, 30.0, 30.0]);
    sheet.batch(1, 1, 200, [0.0, 0.0, 30.0, 30.0]);
    sheet.text(2, 0, [5.0, 5.0]);
    sheet.batch(1, 2, 1, [2e9, 0.0, 3e9, 30.0]);
    sheet.node(3, 0, &[[1.0, 1.0], [2.0, 2.0]]);
    sheet.node(3, 1, &[[2e9, 1.0]]);
    sheet
}

/// The reference to what comes next: a cell with its list, or a grid.
fn next(sheet: &mut Sheet, letters: &str) -> u32 {
    let side = Some([0.0, 0.0, 30.0, 30.0]);
    let source = match letters {
        "B" => Source::Batch(0),
        "T" => Source::Text(0),
        "N" => Source::Node(0),
        "D" => Source::Cell(2),
        "C" => return sheet.reference(single(Source::Cell(4), side)),
        _ => return sheet.reference(single(Source::Cell(1), side)),
    };
    sheet.reference(grid(source, side, (3, 1), [9e8, 0.0]))
}

/// Cell 1, with the list; cell 2, with so many units that a member of it is dense; cell 3, with what it is given; cell 4, which
/// holds itself; cell 5, with nothing.
fn cells(sheet: &mut Sheet, letters: &str, last: u32, filling: Vec<u32>) {
    let side = Some([0.0, 0.0, 30.0, 30.0]);
    let own = sheet.reference(single(Source::Cell(4), side));
    let cell = sheet.cell(1, side);
    for letter in letters.chars() {
        match letter {
            'b' => cell.batches.push(0),
            'd' => cell.batches.push(1),
            'c' => cell.batches.push(2),
            't' => cell.texts.push(0),
            'u' => cell.texts.push(1),
            'n' => cell.nodes.push(0),
            'o' => cell.nodes.push(1),
            'p' => cell.nodes.push(2),
            'r' => cell.references.push(last),
            _ => {}
        }
    }
    sheet.cell(200, side);
    sheet.cell(1, Some([0.0, 0.0, 4000.0, 4000.0])).references = filling;
    sheet.cell(1, side).references.push(own);
    sheet.cell(0, side);
}

/// The root: what fills up to the limit, what comes next, and behind it a text, and one out of view.
fn finish(mut sheet: Sheet, fill: Vec<u32>, letters: &str, filling: Vec<u32>, rng: &mut Rng) -> Vec<u8> {
    if letters.contains('u') {
        sheet.text(2, 1, [2e9, 5.0]);
    }
    if letters.contains('p') {
        sheet.node(3, 2, &[[1.0, 1.0]]);
    }
    let next = next(&mut sheet, letters);
    let last = sheet.reference(single(Source::Text(0), Some([5.0, 5.0, 5.0, 5.0])));
    let away = sheet.reference(single(Source::Text(0), Some([2e9, 5.0, 3e9, 5.0])));
    sheet.cell(0, None).references = [fill, vec![next, last, away]].concat();
    cells(&mut sheet, letters, last, filling);
    input(&Query { view: [-1e9, -1e9, 1e9, 1e9], ..wide(4) }, &sheet, rng)
}

/// Grids of one source with so many members in all.
pub fn grids(sheet: &mut Sheet, source: Source, bbox: [f64; 4], count: u16) -> Vec<u32> {
    let mut references = Vec::new();
    let mut left = count;
    while left > 0 {
        let rows = left.min(8_000);
        references.push(sheet.reference(grid(source, Some(bbox), (1, rows), [40.0, 40.0])));
        left -= rows;
    }
    references
}

/// 19,999 objects, and then what the seed says.
pub fn after_objects(rng: &mut Rng, seed: u64) -> Vec<u8> {
    let mut sheet = records();
    let fill = grids(&mut sheet, Source::Batch(0), [0.0, 0.0, 30.0, 30.0], 19_999);
    finish(sheet, fill, OBJECTS_NEXT[seed as usize], Vec::new(), rng)
}

/// 9,999 texts, and then what the seed says.
pub fn after_texts(rng: &mut Rng, seed: u64) -> Vec<u8> {
    let mut sheet = records();
    let fill = grids(&mut sheet, Source::Text(0), [5.0, 5.0, 5.0, 5.0], 9_999);
    finish(sheet, fill, TEXTS_NEXT[seed as usize], Vec::new(), rng)
}

/// A small reference, and a grid that places cell 3, which lists it `each` times, `times` times.
fn proxies(sheet: &mut Sheet, times: u16, each: usize) -> (u32, Vec<u32>) {
    let small = sheet.reference(single(Source::Cell(70), Some([0.0, 0.0, 20.0, 20.0])));
    let fill = sheet.reference(grid(Source::Cell(3), Some([0.0, 0.0, 4000.0, 4000.0]), (times, 1), [5000.0, 0.0]));
    (fill, vec![small; each])
}

/// 99,999 proxies, and then what the seed says.
pub fn after_proxies(rng: &mut Rng, seed: u64) -> Vec<u8> {
    let mut sheet = records();
    let (fill, filling) = proxies(&mut sheet, 3, 33_333);
    finish(sheet, vec![fill], PROXIES_NEXT[seed as usize], filling, rng)
}

/// 19,999 objects and 99,999 proxies, and then what the seed says.
pub fn after_both(rng: &mut Rng, seed: u64) -> Vec<u8> {
    let mut sheet = records();
    let (fill, filling) = proxies(&mut sheet, 3, 33_333);
    let objects = grids(&mut sheet, Source::Batch(0), [0.0, 0.0, 30.0, 30.0], 19_999);
    finish(sheet, [vec![fill], objects].concat(), BOTH_NEXT[seed as usize], filling, rng)
}

/// 19,999 objects and 99,998 proxies, and then a grid of nodes: the list has room for its member's box and the whole reference's.
pub fn room_for_both_boxes(rng: &mut Rng, _: u64) -> Vec<u8> {
    let mut sheet = records();
    let (fill, filling) = proxies(&mut sheet, 2, 49_999);
    let objects = grids(&mut sheet, Source::Batch(0), [0.0, 0.0, 30.0, 30.0], 19_999);
    finish(sheet, [vec![fill], objects].concat(), "N", filling, rng)
}

/// 99,999 proxies and, with the cells that these take, all of 20,000 cells: the limit is met by one member more (seed 0), or by the
/// next reference (seed 1).
pub fn after_cells(rng: &mut Rng, seed: u64) -> Vec<u8> {
    let mut sheet = records();
    let (fill, filling) = proxies(&mut sheet, 3, 33_333);
    let cells = grids(&mut sheet, Source::Cell(5), [0.0, 0.0, 30.0, 30.0], 19_997 - seed as u16);
    finish(sheet, [vec![fill], cells].concat(), "b", filling, rng)
}
