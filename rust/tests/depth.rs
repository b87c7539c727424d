//! Deep sheets: descents through cells and through inner references, to the greatest depth and past it.

mod sheets;

use ribaltzen::{Buffers, Finder, Lent, MOST_DEPTH, Query, Record, Sheet, Totals, WorldBBox, plan};
use sheets::{cell, reference, row, text};

const SQUARE: [f64; 4] = [0.0, 0.0, 100.0, 100.0];
const HERE: [f64; 2] = [0.0, 0.0];

fn query(depth: u32) -> Query<'static> {
    Query::new(0, depth, WorldBBox::new(0.0, 0.0, 100.0, 100.0), 1.0)
}

/// The plan in memory for this sheet and depth, which is the same with a finder.
fn records(bytes: &[u8], depth: u32) -> Vec<Record> {
    let mut buffers = Buffers::for_sheet(&Sheet::new(bytes).unwrap(), depth);
    let finder = Finder::open(bytes).unwrap();
    let with = buffers.plan_with_finder(bytes, &finder, &query(depth));
    let listed: Vec<Record> = with.unwrap().records().collect();
    let without = buffers.plan(bytes, &query(depth)).unwrap();
    assert_eq!(without.records().collect::<Vec<_>>(), listed);
    listed
}

/// 49 cells, each with the text and all but the last with the next cell.
fn descent_of_cells() -> Vec<u8> {
    let mut sheet = text(1, [10.0, 20.0], b"");
    for number in 0..48 {
        sheet.extend(reference(1, number + 1, HERE, SQUARE));
        sheet.extend(cell(Some(SQUARE), [&[], &[0], &[], &[number]]));
    }
    sheet.extend(cell(Some(SQUARE), [&[], &[0], &[], &[]]));
    sheet
}

#[test]
fn each_depth_enters_one_more_cell() {
    let sheet = descent_of_cells();
    for depth in 0..=MOST_DEPTH {
        let listed = records(&sheet, depth);
        let text = Record::Text {
            number: 0,
            position: [10.0, 20.0],
        };
        let rest = Record::Proxy {
            label: Some(depth),
            bbox: WorldBBox::new(0.0, 0.0, 100.0, 100.0),
        };
        let totals = Totals {
            detail_cells: depth.into(),
            detail_objects: depth.into(),
            ..Totals::default()
        };
        let mut expected = vec![text; depth as usize];
        expected.extend([rest, Record::Totals(totals)]);
        assert_eq!(listed, expected, "at depth {depth}");
    }
}

/// A text behind so many references, each but the first the inner one of the next.
fn descent_of_references(references: u32) -> Vec<u8> {
    let mut sheet = text(1, [10.0, 20.0], b"");
    sheet.extend(row(1, (2, 0), HERE, [10.0, 20.0, 10.0, 20.0]));
    for number in 1..references {
        sheet.extend(row(1, (4, number - 1), HERE, SQUARE));
    }
    sheet.extend(cell(Some(SQUARE), [&[], &[], &[], &[references - 1]]));
    sheet
}

/// A depth for the cell and one for each reference.
#[test]
fn each_inner_reference_takes_a_depth() {
    for references in [31, 32, 46, 47] {
        let sheet = descent_of_references(references);
        let is_listed = |depth| matches!(records(&sheet, depth)[0], Record::Text { .. });
        assert!(!is_listed(references) && is_listed(references + 1));
    }
    let listed = records(&descent_of_references(48), MOST_DEPTH);
    assert!(matches!(listed[0], Record::Proxy { label: None, .. }));
}

#[test]
fn a_greater_depth_is_refused() {
    let sheet = descent_of_cells();
    for depth in [49, 50, u32::MAX] {
        let refusal = Buffers::new().plan(&sheet, &query(depth)).unwrap_err();
        assert_eq!((refusal.number, refusal.offset), (10, 0));
    }
}

/// The number for a plan at depth 48 with so much scratch.
fn number_with(counts: usize, marks: usize) -> u32 {
    let lent = Lent {
        out: &mut [0; 2_000],
        counts: &mut vec![7; counts],
        marks: &mut vec![7; marks],
    };
    let planned = plan(&descent_of_cells(), &query(48), lent);
    planned.map_or_else(|refusal| refusal.number, |_| 0)
}

#[test]
fn the_scratch_of_the_greatest_depth_is_exact() {
    let (counts, marks) = (49 * 48, 49 * 50);
    assert_eq!(number_with(counts, marks), 0);
    assert_eq!(number_with(counts - 1, marks), 11);
    assert_eq!(number_with(counts, marks - 1), 11);
}
