//! Plans through the static library: document 01's worked example, records of every kind, and what is left as lent.

mod sheets;

use ribaltzen::{Buffers, Lent, Placement, Query, Record, Totals, WorldBBox, hidden_layer, plan};
use sheets::{cell, node, of_every_kind, row, worked};

const VIEW: WorldBBox = WorldBBox::new(0.0, 0.0, 100.0, 100.0);
const QUERY: Query = Query::new(0, 1, VIEW, 1.0);
/// Deep enough for all of [`of_every_kind`].
const DEEP: Query = Query::new(0, 4, VIEW, 1.0);

fn records(sheet: &[u8], query: &Query) -> Vec<Record> {
    plan(sheet, query, Buffers::new().lend())
        .expect("a plan")
        .records()
        .collect()
}

#[test]
fn worked_example() {
    let mut buffers = Buffers::with_sizes(88, 1, 1);
    let sheet = worked();
    let plan = plan(&sheet, &QUERY, buffers.lend()).unwrap();
    let totals = Totals {
        detail_cells: 1,
        detail_objects: 1,
        ..Totals::default()
    };
    let text = Record::Text {
        number: 0,
        position: [10.0, 20.0],
    };
    let listed: Vec<Record> = plan.records().collect();
    assert_eq!(listed, [text, Record::Totals(totals)]);
    assert_eq!((plan.totals(), plan.tape().len()), (totals, 88));
}

#[test]
fn empty_sheet_gives_totals_only() {
    let mut buffers = Buffers::with_sizes(62, 0, 1);
    let plan = plan(b"", &QUERY, buffers.lend()).unwrap();
    assert_eq!(
        plan.records().collect::<Vec<_>>(),
        [Record::Totals(Totals::default())]
    );
}

#[test]
fn records_of_every_kind() {
    let placement = Placement {
        x_axis: [1.0, 0.0],
        y_axis: [0.0, 1.0],
        translation: [0.0, 0.0],
    };
    let text = Record::Text {
        number: 0,
        position: [5.0, 6.0],
    };
    let point = |position| Record::Point {
        layer: 3,
        node_type: 9,
        position,
    };
    let proxy = Record::Proxy {
        label: Some(1),
        bbox: WorldBBox::new(70.0, 80.0, 72.0, 83.0),
    };
    let totals = Totals {
        detail_cells: 1,
        detail_objects: 4,
        ..Totals::default()
    };
    assert_eq!(
        records(&of_every_kind(), &DEEP),
        [
            Record::Batch {
                number: 0,
                placement
            },
            text,
            point([1.0, 2.0]),
            point([3.0, 4.0]),
            proxy,
            Record::Totals(totals),
        ]
    );
}

#[test]
fn hidden_layers_are_left_out() {
    let query = Query {
        hidden: &[hidden_layer(1, 0), hidden_layer(3, 9)],
        ..DEEP
    };
    let listed = records(&of_every_kind(), &query);
    assert!(
        listed
            .iter()
            .all(|record| !matches!(record, Record::Batch { .. } | Record::Point { .. }))
    );
    assert_eq!(listed.len(), 3);
}

#[test]
fn depth_0_gives_one_proxy() {
    let listed = records(&of_every_kind(), &Query { depth: 0, ..QUERY });
    let proxy = Record::Proxy {
        label: Some(0),
        bbox: WorldBBox::new(0.0, 0.0, 200.0, 100.0),
    };
    assert_eq!((listed[0], listed.len()), (proxy, 2));
}

/// The limit of 20,000 objects is met at the third point of member 6,666.
#[test]
fn a_row_of_nodes_that_runs_out_is_boxed_as_a_whole() {
    let points = [[0.0, 0.0], [30.0, 0.0], [0.0, 30.0]];
    let sheet = [
        node(3, 9, &points),
        row(6_700, (3, 0), [0.0, 0.0], [0.0, 0.0, 30.0, 30.0]),
        cell(Some([0.0, 0.0, 6_729.0, 30.0]), [&[], &[], &[], &[0]]),
    ]
    .concat();
    let view = WorldBBox::new(0.0, 0.0, 7_000.0, 100.0);
    let listed = records(&sheet, &Query::new(0, 2, view, 1.0));
    let proxy = |min_x, max_x| Record::Proxy {
        label: None,
        bbox: WorldBBox::new(min_x, 0.0, max_x, 30.0),
    };
    let boxes = [proxy(6_666.0, 6_696.0), proxy(0.0, 6_729.0)];
    assert_eq!(listed[20_000..listed.len() - 1], boxes);
}

#[test]
fn a_plan_leaves_the_rest_as_lent() {
    let (mut out, mut counts, mut marks) = ([7u8; 98], [7u64; 3], [7u8; 5]);
    let lent = Lent {
        out: &mut out,
        counts: &mut counts,
        marks: &mut marks,
    };
    plan(&worked(), &QUERY, lent).unwrap();
    assert_eq!(out[88..], [7; 10]);
    assert_eq!((counts, marks), ([0, 7, 7], [0, 0, 0, 7, 7]));
}
