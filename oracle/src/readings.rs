//! Document 01's worked example and "Readings at the edges", as its own sentences have them and document 02's Paper 3 changes
//! them; what else that paper says; a sheet's finder, worked out by hand from Paper 1; a node grid that runs out, from Paper 5;
//! proxies that did not fit, from Paper 8; deep sheets, from Paper 13; and lengths that no sheet has, from Paper 4. The stored answers
//! are the oracle's; these are the papers', and the oracle must meet them.

mod deep;
mod lengths;

use crate::answer::{Answer, Lent};
use crate::events::{Limits, Lists, Record, Run, Settings, patterns};
use crate::generator::boxes::grow_true_boxes;
use crate::generator::encode::{batch_bytes, cell_bytes, grid, node_bytes, reference_bytes, single, text_bytes};
use crate::generator::full_list::descent;
use crate::generator::large::{LARGE, wide};
use crate::generator::{edges, make_edge, make_large};
use crate::judge::program::split;
use crate::judge::{reader, tape};
use crate::sheet::{Query, Sheet, Source};
use crate::stored::answer;
use crate::variants::{JUDGE, checked, copies};

/// What the printed text must show.
enum Shows {
    Exactly(&'static str),
    /// So many lines that begin so.
    Lines(&'static str, usize),
    /// The totals line.
    Totals(&'static str),
}
use Shows::{Exactly, Lines, Totals};

const READINGS: &[(&str, Shows)] = &[
    ("worked example", Exactly("text 0 4024000000000000 4034000000000000\ntotals 1 1 0 0 0 0 0\n")),
    ("empty sheet, depth 1", Exactly("totals 0 0 0 0 0 0 0\n")),
    ("empty sheet, depth 0", Exactly("totals 0 0 0 0 0 0 0\n")),
    // Grid 64 x 128 = 8,192 may expand; 3 x 2,731 = 8,193 collapses.
    ("grid 64 x 128", Exactly("totals 8193 0 0 0 0 0 0\n")),
    ("grid 3 x 2731", Totals("totals 1 0 0 0 0 0 0")),
    ("grid 3 x 2731", Lines("proxy 1 ", 1)),
    // Units 127 are never dense. Units 128 at 64 x 32 px collapse, at 64 x 33 px not.
    ("reference of 127 units at 64 x 31 px", Lines("proxy", 0)),
    ("reference of 127 units at 64 x 32 px", Lines("proxy", 0)),
    ("reference of 128 units at 64 x 32 px", Lines("proxy 1 ", 1)),
    ("reference of 128 units at 64 x 33 px", Lines("proxy", 0)),
    // A batch of 128 at 64 x 32 px becomes a proxy; 127 is listed.
    ("batch of 128 at 64 x 32 px", Lines("proxy none ", 1)),
    ("batch of 128 at 64 x 32 px", Lines("batch", 0)),
    ("batch of 127 at 64 x 32 px", Lines("batch 0 ", 1)),
    // 0.5 x 0.5 px is skipped, 1 x 0.5 px not. Side 24 px passes, anything below collapses.
    ("batch at 0.5 x 0.5 px", Exactly("totals 1 0 0 0 0 1 0\n")),
    ("batch at 1 x 0.5 px", Lines("batch 0 ", 1)),
    ("members at 0.5 x 0.5 px", Totals("totals 1 0 0 4 0 0 0")),
    ("members at 1 x 0.5 px", Lines("proxy 1 ", 4)),
    ("reference at 24 x 24 px", Exactly("totals 2 0 0 0 0 0 0\n")),
    ("reference at 23.99999 x 24 px", Lines("proxy 1 ", 1)),
    ("reference at 24 x 23.99999 px", Lines("proxy 1 ", 1)),
    // Count 16,777,217 becomes 16,777,216 as f32; 16,777,219 becomes 16,777,220.
    ("reference of 16777217 units at 16384 x 16384 px", Lines("proxy 1 ", 1)),
    ("reference of 16777219 units at 4194305 x 64 px", Lines("proxy 1 ", 1)),
    ("reference of 16777219 units at 4194306 x 64 px", Lines("proxy", 0)),
    // Fused (1 + 2^-52) x (1 - 2^-52) - 1 is -2^-104, not 0.
    ("fused difference of -2^-104", Lines("text 0 b970000000000000 4000000000000000", 1)),
    // A 2 x 3 grid of a cell with 0 units counts 6 at depth 1, and 0 at depth 2 and above (document 02, paper 3); zero columns
    // count 0. The grid's depth is one below the query's.
    ("122 units and a 2 x 3 grid of a cell with 0, depth 2", Lines("proxy 1 ", 1)),
    ("121 units and a 2 x 3 grid of a cell with 0, depth 2", Lines("proxy 1 ", 0)),
    ("127 units and a 2 x 3 grid of a cell with 0, depth 3", Lines("proxy 1 ", 0)),
    ("127 units and a 2 x 3 grid of a cell with 0, depth 4", Lines("proxy 1 ", 0)),
    ("127 units and a 2 x 3 grid of a cell with 0, depth 32", Lines("proxy 1 ", 0)),
    ("127 units and a 0 x 3 grid, depth 3", Lines("proxy 1 ", 0)),
    // A missing cell, one in an open circle and a batch, text or node as a source still count one.
    ("127 units and a missing cell", Lines("proxy 1 ", 1)),
    ("127 units and itself", Lines("proxy 1 ", 1)),
    ("127 units and a batch of no elements by reference", Lines("proxy 1 ", 1)),
    ("127 units and a text by reference", Lines("proxy 1 ", 1)),
    ("127 units and a node by reference", Lines("proxy 1 ", 1)),
    // A block of unused sites beside two cells that draw is opened, and so is its field; at query depth 2 the field counts one
    // a member.
    ("block of 676 unused sites and two cells, zoom 0.24, depth 2", Lines("proxy 1 ", 1)),
    ("block of 676 unused sites and two cells, zoom 0.24, depth 4", Totals("totals 4 4 0 676 0 0 0")),
    ("block of 676 unused sites and two cells, zoom 0.24, depth 4", Lines("batch 0 ", 2)),
    ("block of 676 unused sites and two cells, zoom 0.8, depth 4", Lines("proxy 2 ", 676)),
    ("block of 676 unused sites and two cells, zoom 6, depth 4", Totals("totals 680 4 0 0 0 0 0")),
    // Depth 0 gives just one proxy if the root has a box that overlaps the view.
    ("one reference, depth 0", Lines("proxy 0 ", 1)),
    ("one reference out of view, depth 0", Exactly("totals 0 0 0 0 0 0 0\n")),
    ("root without a box, depth 0", Exactly("totals 0 0 0 0 0 0 0\n")),
    // A circle of cells ends in a proxy if the cell met again has a box, else in nothing.
    ("circle of two cells, box true, depth 5", Lines("proxy 0 ", 2)),
    ("circle of two cells, box false, depth 5", Lines("proxy", 0)),
    // Depth 33 to 48 is answered, only depth above 48 gets number 10 (document 02, paper 13).
    ("one reference, depth 33", Totals("totals 3 2 0 0 0 0 0")),
    ("one reference, depth 48", Totals("totals 3 2 0 0 0 0 0")),
    ("one reference, depth 49", Exactly("refused 10 0\n")),
];

fn holds(text: &str, shows: &Shows) -> bool {
    match shows {
        Exactly(expected) => text == *expected,
        Lines(start, count) => text.lines().filter(|line| line.starts_with(start)).count() == *count,
        Totals(expected) => text.lines().last() == Some(expected),
    }
}

/// "Cells 0 (5 units) and 1 (7 units) refer to each other once."
fn remembered() -> bool {
    let mut sheet = Sheet::default();
    let to_one = sheet.reference(single(Source::Cell(1), None));
    let to_zero = sheet.reference(single(Source::Cell(0), None));
    sheet.cell(5, None).references.push(to_one);
    sheet.cell(7, None).references.push(to_zero);
    let draw_units = copies().draw_units;
    draw_units(&sheet, &[(0, 3), (1, 2)]) == [13, 8] && draw_units(&sheet, &[(1, 2)]) == [13]
}

/// Records of 29, 56, 46, 26, 122, 26 and 56 bytes: text, cell, batch, text, reference, node, cell.
fn sheet_of_seven() -> Vec<u8> {
    let mut sheet = Sheet::default();
    let text = sheet.text(1, 0, [10.0, 20.0]);
    sheet.batch(1, 0, 1, [0.0, 0.0, 30.0, 30.0]);
    sheet.node(1, 0, &[[1.0, 2.0]]);
    sheet.reference(single(Source::Text(text), None));
    sheet.cell(0, None);
    let (text, cell) = (&sheet.texts[0], cell_bytes(&sheet.cells[0]));
    [
        text_bytes(text, b"abc"),
        cell.clone(),
        batch_bytes(&sheet.batches[0]),
        text_bytes(text, b""),
        reference_bytes(&sheet.references[0]),
        node_bytes(&sheet.nodes[0]),
        cell,
    ]
    .concat()
}

/// Batch, both texts, node, reference, both cells.
const SEVEN: [u32; 7] = [85, 0, 131, 279, 157, 29, 305];

/// What opening gives, in a list that held nines.
fn opened(sheet: &[u8], places: usize, answer: (u32, u32, u64), list: &[u32]) -> bool {
    let mut lent = vec![9; places];
    let (number, offset, length) = answer;
    (JUDGE.open)(sheet, &mut lent) == (Answer { number, offset, length }) && lent == list
}

/// What a plan with a finder answers, on memory enough for two cells at depth 3.
fn plan_answer(sheet: &[u8], finder: &[u32], depth: u32) -> Answer {
    let query = Query { depth, zoom: 1.0, ..Query::default() };
    let mut lent = Lent { finder: Some(finder.to_vec()), output: vec![9; 62], counts: vec![9; 6], marks: vec![9; 10] };
    (JUDGE.call)(checked, sheet, &query, &mut lent)
}

fn planned(sheet: &[u8], finder: &[u32], depth: u32) -> u32 {
    plan_answer(sheet, finder, depth).number
}

fn finder() -> [(&'static str, bool); 10] {
    let sheet = sheet_of_seven();
    let longer = [&SEVEN[..], &[9]].concat();
    let texts_exchanged = [85, 131, 0, 279, 157, 29, 305];
    [
        ("a finder, by kind and then by number", opened(&sheet, 8, (0, 0, 7), &longer)),
        ("a short list", opened(&sheet, 6, (13, 0, 7), &[0; 6])),
        ("the finder of an empty sheet", opened(&[], 1, (0, 0, 0), &[9])),
        ("a refused sheet and a list", opened(&sheet[..360], 7, (2, 305, 0), &[9; 7])),
        ("a plan with the own finder", planned(&sheet, &SEVEN, 3) == 0),
        ("a plan with a longer finder", planned(&sheet, &longer, 3) == 0),
        ("a plan with a short finder", planned(&sheet, &SEVEN[..6], 3) == 13),
        ("a plan with two texts exchanged", planned(&sheet, &texts_exchanged, 3) == 13),
        ("10 with the own finder", planned(&sheet, &SEVEN, 49) == 10),
        ("13 before 10", planned(&sheet, &texts_exchanged, 49) == 13),
    ]
}

/// Whether a row of nodes, each with points at (0, 0) and (30, 40), 100 apart, lists so many points and these boxes without a
/// label, where so many objects and proxies may be listed.
fn row_of_nodes(columns: u16, (objects, proxies): (usize, usize), points: u64, boxes: &[[f64; 4]]) -> bool {
    let mut sheet = Sheet::default();
    let node = sheet.node(1, 0, &[[0.0, 0.0], [30.0, 40.0]]);
    let row = sheet.reference(grid(Source::Node(node), Some([0.0, 0.0, 30.0, 40.0]), (columns, 1), [100.0, 0.0]));
    sheet.cell(0, None).references.push(row);
    let query = Query { depth: 2, view: [0.0, 0.0, 300.0, 100.0], zoom: 1.0, ..Query::default() };
    let limits = Limits { objects, proxies, ..Limits::DOCUMENT };
    let lists = checked(&sheet, &query, Settings { limits, trace: false }).lists;
    lists.totals[1] == points && lists.proxies.into_iter().eq(boxes.iter().map(|&sides| (None, patterns(sides))))
}

fn node_grid() -> [(&'static str, bool); 7] {
    let all = usize::MAX;
    let [first, middle, last] = [0.0, 100.0, 200.0].map(|x| [x, 0.0, x + 30.0, 40.0]);
    let whole = [0.0, 0.0, 230.0, 40.0];
    [
        ("a node grid that runs out in its first member", row_of_nodes(3, (1, all), 1, &[first, whole])),
        ("a node grid that runs out in a middle member", row_of_nodes(3, (3, all), 3, &[middle, whole])),
        ("a node grid that runs out in its last member", row_of_nodes(3, (5, all), 5, &[last, whole])),
        ("a node that runs out in a reference of one member", row_of_nodes(1, (1, all), 1, &[first, first])),
        ("a node grid that runs out with room for one box", row_of_nodes(3, (3, 1), 3, &[middle])),
        ("a node grid at a limit before a member", row_of_nodes(3, (2, all), 2, &[whole])),
        ("a node grid that just fits", row_of_nodes(3, (6, all), 6, &[])),
    ]
}

/// How many proxies a plan calls for, lists and drops, with a list of so many.
type Calls = (u64, usize, u64);

fn calls(sheet: &Sheet, query: &Query, list: usize) -> Calls {
    let limits = Limits { proxies: list, ..Limits::DOCUMENT };
    let run = checked(sheet, query, Settings { limits, trace: false });
    (run.record.called, run.lists.proxies.len(), run.record.dropped)
}

fn calls_of_large(name: &str, seed: u64, list: usize) -> Calls {
    let large = LARGE.iter().find(|large| large.name == name && large.seed == seed).expect("a large case of that name");
    let input = make_large(large);
    let (query, start) = split(&input).expect("a query");
    calls(&reader::open(&input[start..]).expect("a sound sheet"), &query, list)
}

/// Where the list holds one proxy, a descent of cells that all go on drops a box a cell and, but for the last, one a reference.
fn drops_two_a_level() -> bool {
    let mut sheet = descent(48, 0, 95);
    grow_true_boxes(&mut sheet);
    (1..=48).all(|depth| calls(&sheet, &wide(depth), 1) == (2 * u64::from(depth), 1, 2 * u64::from(depth) - 1))
}

/// "Their record has 62 bytes", and the seventh count stands last.
fn totals_record() -> bool {
    let mut run = Run { lists: Lists::default(), record: Record::default() };
    (run.lists.totals, run.record.dropped) = ([1, 2, 3, 4, 5, 6], u64::MAX);
    let counts = [1, 2, 3, 4, 5, 6, u64::MAX].map(u64::to_le_bytes).concat();
    tape::write(&run) == [&[62, 0, 0, 0, 15, 0][..], &counts[..]].concat()
}

fn dropped() -> [(&'static str, bool); 10] {
    let list = Limits::DOCUMENT.proxies;
    let called_for = |count| calls_of_large("proxies called for", count, list);
    let wanted = |list| calls_of_large("parts that want a box", 100_065, list);
    [
        ("the totals' record", totals_record()),
        ("99,999 proxies called for", called_for(99_999) == (99_999, 99_999, 0)),
        ("100,000 proxies called for", called_for(100_000) == (100_000, 100_000, 0)),
        ("100,001 proxies called for", called_for(100_001) == (100_001, 100_000, 1)),
        ("100,063 proxies called for", called_for(100_063) == (100_063, 100_000, 63)),
        ("100,065 proxies called for, at depth 33", called_for(100_065) == (100_065, 100_000, 65)),
        ("100,095 proxies called for, at depth 48", called_for(100_095) == (100_095, 100_000, 95)),
        ("two boxes a level dropped, and one at the last", drops_two_a_level()),
        // What is no longer visited is not called for.
        ("100,065 parts that want a box", wanted(list) == (100_001, 100_000, 1)),
        ("100,065 parts that want a box, in a longer list", wanted(usize::MAX) == (100_065, 100_065, 0)),
    ]
}

/// The numbers passed and failed.
pub fn run() -> (usize, usize) {
    let edges = edges::all();
    let mut results = vec![("remembered counts", remembered())];
    results.extend(finder());
    results.extend(node_grid());
    results.extend(dropped());
    results.extend(deep::readings());
    results.extend(lengths::readings());
    for (label, shows) in READINGS {
        let edge = edges.iter().find(|edge| edge.label == *label).expect("a case of that label");
        let text = String::from_utf8(answer(&make_edge(edge)).text).unwrap();
        results.push((label, holds(&text, shows)));
    }
    for (label, _) in results.iter().filter(|result| !result.1) {
        println!("the reading does not hold: {label}");
    }
    let passed = results.iter().filter(|result| result.1).count();
    (passed, results.len() - passed)
}
