//! Document 02's Paper 13, worked out by hand: "Depth 33 to 48 is answered now, with scratch by the same formula; up to 32 every
//! answer is what it was. Only depth above 48 gets number 10."

use crate::answer::{Answer, Lent};
use crate::events::{Run, Settings};
use crate::generator::edges::deep::{LEVELS, cells, circle, four_units, references};
use crate::generator::encode::cell_bytes;
use crate::generator::large::wide;
use crate::generator::{edges, make_edge};
use crate::sheet::{Query, Sheet};
use crate::stored::answer;
use crate::variants::{JUDGE, checked};

/// Whether so is each plan of the sheets that are nested 33, 48, 49 and 60 deep, at every depth from 1 to 48.
fn each(sheet: fn(u32) -> Sheet, is_so: impl Fn(&Run, u32, u32) -> bool) -> bool {
    LEVELS.into_iter().all(|levels| {
        let sheet = sheet(levels);
        (1..=48).all(|depth| is_so(&checked(&sheet, &wide(depth), Settings::DOCUMENT), levels, depth))
    })
}

fn labels(run: &Run) -> Vec<Option<u32>> {
    run.lists.proxies.iter().map(|proxy| proxy.0).collect()
}

/// A text a level is seen; below the last one a box stands for the next cell, if there is one.
fn descent(run: &Run, levels: u32, depth: u32) -> bool {
    let below: &[Option<u32>] = if depth < levels { &[Some(depth)] } else { &[] };
    run.lists.texts.len() as u32 == depth.min(levels) && labels(run) == below
}

/// Each inner reference costs a depth. The last reference alone has a label, its cell's.
fn chain(run: &Run, levels: u32, depth: u32) -> bool {
    let seen = depth >= levels;
    let below: &[Option<u32>] = if seen { &[] } else if depth + 1 == levels { &[Some(1)] } else { &[None] };
    run.lists.texts.len() == usize::from(seen) && labels(run) == below
}

/// The last cell lists the first again, whose box ends the circle one level deeper.
fn in_a_circle(run: &Run, levels: u32, depth: u32) -> bool {
    let next = if depth < levels { depth } else { 0 };
    run.lists.texts.len() as u32 == depth.min(levels) && labels(run) == [Some(next)]
}

/// 32 cells of 4 units below the root are dense, and a depth of 32 counts 31 of them and 1 for the next.
fn units(run: &Run, _: u32, depth: u32) -> bool {
    let dense = depth >= 33;
    (run.lists.totals[0] == 1) == (dense || depth == 1) && !(dense && labels(run) != [Some(1)])
}

/// "with scratch by the same formula": two cells at a depth, with so much less than depth counts and depth + 2 marks a cell.
fn on_scratch(depth: u32, less_counts: usize, less_marks: usize) -> Answer {
    let mut sheet = Sheet::default();
    sheet.cell(0, None);
    let sheet = cell_bytes(&sheet.cells[0]).repeat(2);
    let (counts, marks) = (2 * depth as usize - less_counts, 2 * (depth as usize + 2) - less_marks);
    let mut lent = Lent { finder: None, output: vec![9; 62], counts: vec![9; counts], marks: vec![9; marks] };
    (JUDGE.call)(checked, &sheet, &Query { depth, zoom: 1.0, ..Query::default() }, &mut lent)
}

fn scratch() -> bool {
    let number = |depth, counts, marks| on_scratch(depth, counts, marks).number;
    [32, 33, 47, 48].into_iter().all(|depth| [number(depth, 0, 0), number(depth, 1, 0), number(depth, 0, 1)] == [0, 11, 11])
}

/// A sheet that is no deeper is planned alike from its own depth on.
fn alike_at_every_depth() -> bool {
    let texts: Vec<Vec<u8>> = edges::all()
        .iter()
        .filter(|edge| edge.label.starts_with("one reference, depth") && (2..=48).contains(&edge.query.depth))
        .map(|edge| answer(&make_edge(edge)).text)
        .collect();
    texts.len() == 8 && texts.iter().all(|text| *text == texts[0])
}

pub fn readings() -> [(&'static str, bool); 6] {
    [
        ("deep descents of cells", each(cells, descent)),
        ("deep chains of inner references", each(references, chain)),
        ("deep circles", each(circle, in_a_circle)),
        ("deep draw units", each(four_units, units)),
        ("scratch at depths 32, 33, 47 and 48", scratch()),
        ("one reference at depths 2 to 48", alike_at_every_depth()),
    ]
}
