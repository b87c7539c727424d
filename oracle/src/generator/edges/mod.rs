//! Cases made by hand: document 01's worked example, its "Readings at the edges", document 02's Papers 3 and 13, and places
//! that chance seldom meets.

pub mod at_limits;
mod counts;
pub mod deep;
mod limits;
mod numbers;
mod sizes;
mod visits;

use super::encode::grid;
use crate::sheet::{Query, Sheet, Source};

pub struct Edge {
    pub label: String,
    pub query: Query,
    pub sheet: Sheet,
}

type Edges = Vec<Edge>;

fn query(view: [f64; 4], zoom: f64, depth: u32) -> Query {
    Query { root: 0, depth, view, zoom, hidden: Vec::new() }
}

fn wide(depth: u32) -> Query {
    query([-1e6, -1e6, 1e6, 1e6], 1.0, depth)
}

fn add(edges: &mut Edges, label: impl Into<String>, query: Query, sheet: Sheet) {
    edges.push(Edge { label: label.into(), query, sheet });
}

pub fn all() -> Edges {
    let mut edges = Vec::new();
    worked(&mut edges);
    sizes::grids(&mut edges);
    sizes::density(&mut edges);
    sizes::sizes(&mut edges);
    numbers::numbers(&mut edges);
    counts::units(&mut edges);
    counts::memory_of_counts(&mut edges);
    visits::depths(&mut edges, &[0, 1, 2, 3, 31, 32, 33]);
    visits::circles(&mut edges);
    visits::labels(&mut edges);
    visits::views(&mut edges);
    numbers::not_a_number(&mut edges);
    numbers::corners(&mut edges);
    visits::layers(&mut edges);
    counts::cell_limit(&mut edges);
    limits::limits(&mut edges);
    visits::depths(&mut edges, &[34, 47, 48, 49]);
    visits::deep_circles(&mut edges);
    counts::deep_memory(&mut edges);
    deep::small(&mut edges);
    edges
}

/// "Cell 0 has box 0, 0, 100, 100 and one text at (10, 20), layer 1."
pub fn worked_sheet() -> Sheet {
    let mut sheet = Sheet::default();
    let text = sheet.text(1, 0, [10.0, 20.0]);
    sheet.cell(0, Some([0.0, 0.0, 100.0, 100.0])).texts.push(text);
    sheet
}

fn worked(edges: &mut Edges) {
    add(edges, "worked example", query([0.0, 0.0, 100.0, 100.0], 1.0, 1), worked_sheet());
    for depth in [0, 1, 32] {
        add(edges, format!("empty sheet, depth {depth}"), query([0.0; 4], 1.0, depth), Sheet::default());
    }
    let query = Query { root: 9, ..query([0.0, 0.0, 100.0, 100.0], 1.0, 1) };
    add(edges, "root that the sheet lacks", query.clone(), worked_sheet());
    add(edges, "root that the sheet lacks, depth 0", Query { depth: 0, ..query }, worked_sheet());
}

/// A root that holds one reference to cell 1, which has a box, units and no items.
fn block(units: u64, sides: [f64; 2], shape: (u16, u16)) -> Sheet {
    let mut sheet = Sheet::default();
    let bbox = Some([0.0, 0.0, sides[0], sides[1]]);
    let number = sheet.reference(grid(Source::Cell(1), bbox, shape, sides));
    sheet.cell(0, None).references.push(number);
    sheet.cell(units, bbox);
    sheet
}
