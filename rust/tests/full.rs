//! Full lists: the totals count the proxies that did not fit, and the longest tape is the longest.

mod sheets;

use ribaltzen::{Buffers, MOST_TAPE, Plan, Query, Record, Totals, WorldBBox};
use sheets::{batch, cell, cell_of_units, reference};

const SQUARE: [f64; 4] = [0.0, 0.0, 100.0, 100.0];
const VIEW: WorldBBox = WorldBBox::new(0.0, 0.0, 200.0, 200.0);

/// A batch of 8 square pixels for each element: a proxy wherever it is named.
fn dense() -> Vec<u8> {
    batch(1, 128, [0.0, 0.0, 32.0, 32.0])
}

/// How many proxies a plan lists, and how many it says were dropped.
fn listed_and_dropped(plan: &Plan) -> (usize, u64) {
    let is_proxy = |record: &Record| matches!(record, Record::Proxy { .. });
    let listed = plan.records().filter(is_proxy).count();
    (listed, plan.totals().dropped_proxies)
}

/// The root names a dense batch so many times and then rows of so many members of cell 1, which names it 60,000 times.
fn sheet_of(batches: usize, rows: usize, members: u16) -> Vec<u8> {
    let (batches, rows) = (vec![0; batches], vec![0; rows]);
    [
        dense(),
        reference(members, 1, [0.0, 0.0], SQUARE),
        cell(Some(SQUARE), [&batches, &[], &[], &rows]),
        cell(Some(SQUARE), [&[0; 60_000], &[], &[], &[]]),
    ]
    .concat()
}

/// Where the list is full, each cell and each row that goes on calls for its box and stops.
#[test]
fn a_full_plan_counts_what_was_dropped() {
    let mut buffers = Buffers::new();
    for (sheet, listed, dropped) in [
        (sheet_of(39_999, 1, 1), 99_999, 0),
        (sheet_of(40_000, 1, 1), 100_000, 0),
        (sheet_of(40_001, 1, 1), 100_000, 1), // the box of cell 1
        (sheet_of(40_000, 1, 2), 100_000, 1), // that of the row
        (sheet_of(40_000, 2, 1), 100_000, 1), // that of the root
        (sheet_of(40_001, 2, 2), 100_000, 3), // all three
    ] {
        let plan = buffers.plan(&sheet, &Query::new(0, 2, VIEW, 1.0)).unwrap();
        assert_eq!(listed_and_dropped(&plan), (listed, dropped));
    }
}

/// So many cells, each but the last with two rows of the next, and without draw units, so that no row is dense.
fn descent_of(cells: u32) -> Vec<u8> {
    let mut sheet = dense();
    for number in 0..cells - 1 {
        sheet.extend(reference(3, number + 1, [0.0, 0.0], SQUARE));
        let lists: [&[u32]; 4] = [&[], &[], &[], &[number, number]];
        sheet.extend(cell_of_units(0, Some(SQUARE), lists));
    }
    let lists: [&[u32]; 4] = [&[0; 50_001], &[], &[], &[]];
    sheet.extend(cell_of_units(0, Some(SQUARE), lists));
    sheet
}

/// In the second member of the last row the list is full, and all cells and rows go on: 2 × depth − 1 of them.
#[test]
fn a_descent_drops_a_proxy_for_each_cell_and_row() {
    let mut buffers = Buffers::new();
    for (depth, dropped) in [(2, 3), (32, 63), (33, 65), (48, 95)] {
        let query = Query::new(0, depth, VIEW, 1.0);
        let plan = buffers.plan(&descent_of(depth), &query).unwrap();
        assert_eq!(listed_and_dropped(&plan), (100_000, dropped));
    }
}

/// After 39,999 dense batches of the root and 60,000 of cell 1, cell 2 lists as many objects as may be, and its own box is
/// proxy 100,000. With a further reference the root's is called for too.
#[test]
fn the_longest_tape() {
    let mut buffers = Buffers::new();
    for (references, dropped_proxies) in [(&[0, 1][..], 0), (&[0, 1, 1], 1)] {
        let sheet = [
            dense(),
            batch(1, 1, SQUARE),
            reference(1, 1, [0.0, 0.0], SQUARE),
            reference(1, 2, [0.0, 0.0], SQUARE),
            cell(Some(SQUARE), [&[0; 39_999], &[], &[], references]),
            cell(Some(SQUARE), [&[0; 60_000], &[], &[], &[]]),
            cell(Some(SQUARE), [&[1; 20_001], &[], &[], &[]]),
        ]
        .concat();
        let plan = buffers.plan(&sheet, &Query::new(0, 2, VIEW, 1.0)).unwrap();
        assert_eq!(plan.tape().len(), MOST_TAPE);
        let totals = Totals {
            detail_cells: 3,
            detail_objects: 20_000,
            dropped_proxies,
            ..Totals::default()
        };
        assert_eq!(plan.totals(), totals);
    }
}
