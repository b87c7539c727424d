//! The reader of sheets: every field of every kind, and what is damaged, at the planner's own numbers and offsets.

mod sheets;

use ribaltzen::sheet::{Batch, Reference, Source, Text};
use ribaltzen::{Buffers, Damage, Damaged, Query, Record, Sheet, WorldBBox};
use sheets::random::Random;
use sheets::{batch, cell, floats, halves, node, of_every_kind, record, text};

const BBOX: WorldBBox = WorldBBox::new(1.0, 2.0, 3.0, 4.0);
const EDGES: [f64; 4] = [1.0, 2.0, 3.0, 4.0];

#[test]
fn fields_of_a_batch() {
    let body = [halves(&[5, 6, 7, 1]), floats(&EDGES)].concat();
    let bytes = record(1, &body);
    let batch = Batch {
        layer: 5,
        data_type: 6,
        element_count: 65_543,
        bbox: BBOX,
    };
    assert_eq!(Sheet::new(&bytes).unwrap().batches(), [batch]);
}

#[test]
fn fields_of_a_text() {
    let body = [&halves(&[5, 6]), &floats(&[8.0, 9.0]), &b"a\xffb\n"[..]].concat();
    let bytes = record(2, &body);
    let sheet = Sheet::new(&bytes).unwrap();
    let text = Text {
        layer: 5,
        data_type: 6,
        origin: [8.0, 9.0],
        value: b"a\xffb\n",
    };
    assert_eq!(sheet.texts(), [text]);
    assert_eq!(text.to_string(), "a\u{fffd}b\u{fffd}");
    assert_eq!(format!("{text:>5}|"), " a\u{fffd}b\u{fffd}|");
}

#[test]
fn fields_of_a_node() {
    let points = [[1.0, 2.0], [3.0, 4.0]];
    let bytes = node(5, 6, &points);
    let sheet = Sheet::new(&bytes).unwrap();
    let node = sheet.node(0).unwrap();
    assert_eq!((node.layer, node.node_type), (5, 6));
    assert_eq!(node.points().collect::<Vec<_>>(), points);
    let mut left = node.points();
    assert_eq!(
        (left.len(), left.nth(1), left.len()),
        (2, Some(points[1]), 0)
    );
    assert_eq!((left.next(), left.next()), (None, None));
    assert_eq!(format!("{:?}", node.points()), "[[1.0, 2.0], [3.0, 4.0]]");
}

/// A reference's record: columns, rows, flags and source kind, source number, the nine floats 1 to 9, a box.
fn grid(head: [u16; 4], number: u32, bbox: [f64; 4]) -> Vec<u8> {
    let head = [halves(&head), number.to_le_bytes().to_vec()].concat();
    let values = floats(&[1.0, 2.0, 3.0, 4.0, 5.0, 6.0, 7.0, 8.0, 9.0]);
    record(4, &[head, values, floats(&bbox)].concat())
}

fn read_reference(bytes: &[u8]) -> Reference {
    *Sheet::new(bytes).unwrap().reference(0).unwrap()
}

#[test]
fn fields_of_a_reference() {
    let expected = Reference {
        columns: 11,
        rows: 12,
        reflection: true,
        source: Source::Reference(13),
        origin: [1.0, 2.0],
        spacing_x: [3.0, 4.0],
        spacing_y: [5.0, 6.0],
        magnification: 7.0,
        cos: 8.0,
        sin: 9.0,
        source_bbox: Some(BBOX),
    };
    assert_eq!(read_reference(&grid([11, 12, 3, 4], 13, EDGES)), expected);
}

#[test]
fn flags_of_a_reference() {
    for (flags, reflection, source_bbox) in [
        (0, false, None),
        (1, true, None),
        (2, false, Some(BBOX)),
        (3, true, Some(BBOX)),
    ] {
        let edges = if source_bbox.is_some() {
            EDGES
        } else {
            [0.0; 4]
        };
        let read = read_reference(&grid([1, 1, flags, 4], 0, edges));
        assert_eq!(
            (read.reflection, read.source_bbox),
            (reflection, source_bbox)
        );
    }
}

#[test]
fn sources_of_a_reference() {
    for (kind, source) in [
        (1, Source::Batch(7)),
        (2, Source::Text(7)),
        (3, Source::Node(7)),
        (4, Source::Reference(7)),
        (5, Source::Cell(7)),
    ] {
        assert_eq!(
            read_reference(&grid([1, 1, 2, kind], 7, EDGES)).source,
            source
        );
    }
    let greatest = u32::MAX - 1;
    let read = read_reference(&grid([1, 1, 2, 5], greatest, EDGES));
    assert_eq!(read.source, Source::Cell(greatest));
}

#[test]
fn fields_of_a_cell() {
    let bytes = cell(Some(EDGES), [&[1], &[2, 3], &[], &[4, 5, 6]]);
    let sheet = Sheet::new(&bytes).unwrap();
    let listed = sheet.cell(0).unwrap();
    assert_eq!((listed.bbox, listed.direct_draw_units), (Some(BBOX), 1));
    let lists = [
        listed.batches(),
        listed.texts(),
        listed.nodes(),
        listed.references(),
    ];
    let lists = lists.map(|list| list.collect::<Vec<_>>());
    assert_eq!(lists, [vec![1], vec![2, 3], vec![], vec![4, 5, 6]]);
    let bytes = cell(None, [&[]; 4]);
    assert_eq!(Sheet::new(&bytes).unwrap().cell(0).unwrap().bbox, None);
}

#[test]
fn numbers_count_within_their_kind() {
    let bytes = [
        text(1, [0.0, 0.0], b"first"),
        batch(2, 1, EDGES),
        text(3, [0.0, 0.0], b"second"),
        batch(4, 1, EDGES),
    ]
    .concat();
    let sheet = Sheet::new(&bytes).unwrap();
    let layers = |n| {
        (
            sheet.text(n).map(|t| t.layer),
            sheet.batch(n).map(|b| b.layer),
        )
    };
    assert_eq!(layers(0), (Some(1), Some(2)));
    assert_eq!(layers(1), (Some(3), Some(4)));
    assert_eq!(layers(2), (None, None));
    assert_eq!(sheet.text(1).unwrap().to_string(), "second");
    assert!(sheet.node(0).is_none() && sheet.reference(0).is_none() && sheet.cell(0).is_none());
    let counts = "Sheet { batches: 2, texts: 2, nodes: 0, references: 0, cells: 0 }";
    assert_eq!(format!("{sheet:?}"), counts);
}

#[test]
fn lengths_at_the_edges_of_each_kind() {
    let read = |bytes: Vec<u8>| Sheet::new(&bytes).err();
    let wrong = Some(Damaged {
        offset: 0,
        why: Damage::LengthForKind,
    });
    assert_eq!(read(text(1, [0.0, 0.0], &[b'x'; 512])), None);
    assert_eq!(read(text(1, [0.0, 0.0], &[b'x'; 513])), wrong);
    assert_eq!(read(node(1, 1, &[])), wrong);
    assert_eq!(read(node(1, 1, &[[0.0; 2]; 50])), None);
    assert_eq!(read(node(1, 1, &[[0.0; 2]; 51])), wrong);
    for (kind, right) in [(1, 46), (4, 122), (5, 56)] {
        for length in [right - 1, right + 1, right + 4] {
            assert_eq!(read(record(kind, &vec![0; length - 6])), wrong);
        }
    }
}

/// The number with which the planner refuses such a record.
fn number(why: Damage) -> u32 {
    match why {
        Damage::CutHead | Damage::Length => 2,
        Damage::Kind | Damage::LengthForKind => 3,
        Damage::Value => 4,
        other => panic!("{other:?} is of tapes"),
    }
}

/// Reader and planner agree on any bytes: numbers 2 to 4 at the same record, and whatever is planned is read, with every
/// number that is listed. Number 5 stops the planner at a record that can be read. Answers the planner's number.
fn agree(bytes: &[u8], buffers: &mut Buffers) -> u32 {
    let query = Query::new(0, 4, WorldBBox::new(0.0, 0.0, 100.0, 100.0), 1.0);
    let read = Sheet::new(bytes);
    let damage = read.as_ref().err().map(|end| (number(end.why), end.offset));
    match buffers.plan(bytes, &query) {
        Err(refusal) => {
            match refusal.number {
                2..=4 => assert_eq!(damage, Some((refusal.number, refusal.offset))),
                5 => assert!(damage.is_none_or(|(_, offset)| offset > refusal.offset)),
                _ => assert_eq!(damage, None),
            }
            refusal.number
        }
        Ok(plan) => {
            let sheet = read.expect("what is planned can be read");
            assert!(plan.records().all(|record| is_found(&sheet, record)));
            0
        }
    }
}

fn is_found(sheet: &Sheet, record: Record) -> bool {
    match record {
        Record::Batch { number, .. } => sheet.batch(number).is_some(),
        Record::Text { number, .. } => sheet.text(number).is_some(),
        Record::Point {
            layer, node_type, ..
        } => sheet
            .nodes()
            .iter()
            .any(|node| (node.layer, node.node_type) == (layer, node_type)),
        Record::Proxy { .. } | Record::Totals(_) => true,
    }
}

/// How often the planner answered each number, from 0 for a plan.
fn answers(sheets: impl Iterator<Item = Vec<u8>>) -> [usize; 13] {
    let mut buffers = Buffers::new();
    let mut answers = [0; 13];
    for bytes in sheets {
        answers[agree(&bytes, &mut buffers) as usize] += 1;
    }
    answers
}

/// Plans, and every number that a sheet of few cells can get.
fn are_all_met(answers: [usize; 13]) -> bool {
    [0, 2, 3, 4, 5, 6].iter().all(|&number| answers[number] > 0)
}

/// With a second cell without a box, and a reflected reference without one.
fn sound() -> Vec<u8> {
    let plain = grid([2, 1, 1, 2], 0, [0.0; 4]);
    [of_every_kind(), plain, cell(None, [&[]; 4])].concat()
}

#[test]
fn every_byte_changed_to_every_value() {
    let sound = sound();
    let changed = (0..sound.len()).flat_map(|place| {
        let sound = &sound;
        (0..=255).map(move |value| {
            let mut bytes = sound.clone();
            bytes[place] = value;
            bytes
        })
    });
    let answers = answers(changed);
    assert!(are_all_met(answers), "{answers:?}");
}

#[test]
fn every_cut() {
    let sound = sound();
    let answers = answers((0..=sound.len()).map(|length| sound[..length].to_vec()));
    assert_eq!(answers.iter().sum::<usize>(), sound.len() + 1);
    assert!(answers[0] >= 2 && answers[2] > 500, "{answers:?}");
}

#[test]
fn random_bytes() {
    let mut random = Random(2);
    let sound = sound();
    let changed = (0..40_000).map(|_| {
        let mut bytes = sound.clone();
        for _ in 0..=random.below(6) {
            let place = random.below(bytes.len());
            bytes[place] = [0, 1, 2, 3, 4, 5, 0xff, random.below(256) as u8][random.below(8)];
        }
        bytes.truncate(bytes.len() - [0, 0, 0, 1, 56, 57][random.below(6)]);
        bytes
    });
    let answers = answers(changed);
    assert!(are_all_met(answers), "{answers:?}");
}
