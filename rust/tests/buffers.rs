//! Memory of one's own: sizes that no product can overflow, sizes for a sheet, and an output that grows.

mod sheets;

use ribaltzen::{Buffers, MOST_TAPE, Query, Sheet, WorldBBox, plan};
use sheets::{cell, of_every_kind, reference, text, worked};

const QUERY: Query = Query::new(0, 4, WorldBBox::new(0.0, 0.0, 100.0, 100.0), 1.0);

/// What memory of these lengths is printed as.
fn sizes(out: usize, counts: usize, marks: usize) -> String {
    format!("Buffers {{ out: {out}, counts: {counts}, marks: {marks} }}")
}

#[test]
fn sizes_for_every_call() {
    let enough = sizes(5_360_062, 4_096 * 48, 4_096 * 50);
    assert_eq!(format!("{:?}", Buffers::new()), enough);
    assert_eq!(format!("{:?}", Buffers::default()), enough);
}

#[test]
fn no_number_of_cells_or_depth_overflows() {
    for (cells, depth) in [(usize::MAX, u32::MAX), (usize::MAX, 48), (4_096, u32::MAX)] {
        let buffers = Buffers::with_sizes(0, cells, depth);
        assert_eq!(format!("{buffers:?}"), sizes(0, 4_096 * 48, 4_096 * 50));
    }
    let none = Buffers::with_sizes(1, usize::MAX, 0);
    assert_eq!(format!("{none:?}"), sizes(1, 0, 4_096 * 2));
}

#[test]
fn lent_memory_prints_its_sizes() {
    let mut buffers = Buffers::with_sizes(88, 1, 1);
    let lent = "Lent { out: 88, counts: 1, marks: 3 }";
    assert_eq!(format!("{:?}", buffers.lend()), lent);
}

/// A batch, a text, three points, a reference and two cells, and the totals.
#[test]
fn sizes_for_a_sheet() {
    let bytes = of_every_kind();
    let sheet = Sheet::new(&bytes).unwrap();
    let mut buffers = Buffers::for_sheet(&sheet, 4);
    let once = 58 + 26 + 3 * 26 + 3 * 42 + 62;
    assert_eq!(format!("{buffers:?}"), sizes(once, 2 * 4, 2 * 6));
    assert_eq!(
        plan(&bytes, &QUERY, buffers.lend())
            .unwrap()
            .records()
            .count(),
        6
    );
    let deeper = Query { depth: 5, ..QUERY };
    assert_eq!(
        plan(&bytes, &deeper, buffers.lend()).unwrap_err().number,
        11
    );
}

#[test]
fn no_sheet_gets_more_than_the_longest_tape() {
    let bytes = text(1, [0.0, 0.0], b"").repeat(MOST_TAPE / 26 + 1);
    let buffers = Buffers::for_sheet(&Sheet::new(&bytes).unwrap(), 1);
    assert_eq!(format!("{buffers:?}"), sizes(MOST_TAPE, 0, 0));
}

/// 50 members of a cell with a text, each 30 px wide: a tape of 50 texts from three items.
fn row() -> Vec<u8> {
    let small = [0.0, 0.0, 1.0, 1.0];
    [
        text(2, [0.5, 0.5], b"pad"),
        reference(50, 1, [0.0, 0.0], small),
        cell(Some([0.0, 0.0, 50.0, 1.0]), [&[], &[], &[], &[0]]),
        cell(Some(small), [&[], &[0], &[], &[]]),
    ]
    .concat()
}

#[test]
fn an_output_that_is_too_short_grows_to_what_is_needed() {
    let bytes = row();
    let query = Query {
        zoom: 30.0,
        ..QUERY
    };
    let mut buffers = Buffers::for_sheet(&Sheet::new(&bytes).unwrap(), 4);
    let needed = 50 * 26 + 62;
    let refusal = plan(&bytes, &query, buffers.lend()).unwrap_err();
    assert_eq!((refusal.number, refusal.needed), (12, Some(needed)));
    let grown = buffers.plan(&bytes, &query).unwrap().tape().to_vec();
    assert_eq!(format!("{buffers:?}"), sizes(needed, 8, 12));
    let mut enough = Buffers::new();
    assert_eq!(plan(&bytes, &query, enough.lend()).unwrap().tape(), grown);
}

#[test]
fn an_output_that_is_enough_stays() {
    let mut buffers = Buffers::with_sizes(200, 1, 4);
    assert_eq!(buffers.plan(&worked(), &QUERY).unwrap().tape().len(), 88);
    assert_eq!(format!("{buffers:?}"), sizes(200, 4, 6));
}

#[test]
fn growing_hides_no_other_refusal() {
    let mut buffers = Buffers::with_sizes(0, 0, 4);
    assert_eq!(buffers.plan(&worked(), &QUERY).unwrap_err().number, 11);
    assert_eq!(buffers.plan(&[0; 5], &QUERY).unwrap_err().number, 2);
    assert_eq!(format!("{buffers:?}"), sizes(0, 0, 0));
}

#[test]
fn buffers_serve_again() {
    let mut buffers = Buffers::new();
    let sheet = of_every_kind();
    let first = buffers.plan(&sheet, &QUERY).unwrap().tape().to_vec();
    buffers.plan(&worked(), &QUERY).unwrap();
    assert_eq!(buffers.plan(&sheet, &QUERY).unwrap().tape(), first);
}
