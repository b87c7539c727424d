//! Lengths that reach past the end, most of all on sheets of as many bytes as there may be: every way in refuses them with
//! number 2 at their record. And a sheet of that size whose look-ups lead to its last records.

mod sheets;

use ribaltzen::{
    Buffers, Damage, Damaged, Finder, MOST_SHEET, Placement, Query, Record, Refusal, Sheet, Totals,
    WorldBBox, open, plan, plan_with_finder,
};
use sheets::{batch, cell, node, of_every_kind, text};

const QUERY: Query = Query::new(0, 1, WorldBBox::new(0.0, 0.0, 100.0, 100.0), 1.0);
const LONG: [u32; 4] = [0xFFFF_FFFF, 0xFFFF_FFFE, 0x8000_0000, 0x0100_0001];

/// A sound sheet, of which one length at a time is changed, with what is lent.
struct Tried {
    sheet: Vec<u8>,
    finder: Finder,
    list: Vec<u32>,
    buffers: Buffers,
}

impl Tried {
    fn new(sheet: Vec<u8>) -> Self {
        let finder = Finder::open(&sheet).unwrap();
        Self {
            list: vec![7; finder.places().len()],
            buffers: Buffers::new(),
            finder,
            sheet,
        }
    }

    /// The first, a middle and the last record: offset and length.
    fn three_records(&self) -> [(usize, u32); 3] {
        let mut offsets = self.finder.places().to_vec();
        offsets.sort();
        let last = offsets.len() - 1;
        [0, last / 2, last].map(|record| {
            let at = offsets[record] as usize;
            let length = self.sheet[at..at + 4].try_into().unwrap();
            (at, u32::from_le_bytes(length))
        })
    }

    /// Plans without a finder, opens the sheet, plans with the finder that it had, and reads it here.
    fn expect_refused(&mut self, at: usize, length: u32) {
        let place = at..at + 4;
        let before = self.sheet[place.clone()].to_vec();
        self.sheet[place.clone()].copy_from_slice(&length.to_le_bytes());
        let (sheet, lent) = (&self.sheet[..], &mut self.buffers);
        let refusal = Refusal {
            number: 2,
            offset: at,
            needed: None,
        };
        let damaged = Damaged {
            offset: at,
            why: Damage::Length,
        };
        let why = format!("length {length:08X} at {at}");
        assert_eq!(plan(sheet, &QUERY, lent.lend()), Err(refusal), "{why}");
        assert_eq!(open(sheet, &mut self.list), Err(refusal), "{why}");
        assert!(self.list.iter().all(|&place| place == 7), "{why}");
        let with = plan_with_finder(sheet, self.finder.places(), &QUERY, lent.lend());
        assert_eq!(with, Err(refusal), "{why}");
        assert_eq!(Sheet::new(sheet).err(), Some(damaged), "{why}");
        self.sheet[place].copy_from_slice(&before);
    }
}

/// Texts in 16,777,216 bytes: the longest that there are, with one that fills up before them and the shortest behind them.
fn longest_sheet() -> Tried {
    let text = |value| text(1, [0.0, 0.0], &vec![b'a'; value]);
    let (long, short) = (text(512), text(0));
    let left = MOST_SHEET - 2 * short.len();
    let times = left / long.len();
    let first = text(left - times * long.len());
    let sheet = [first, long.repeat(times), short].concat();
    assert_eq!(sheet.len(), MOST_SHEET);
    Tried::new(sheet)
}

#[test]
fn a_long_length_is_refused_at_its_record() {
    for mut tried in [Tried::new(of_every_kind()), longest_sheet()] {
        for (at, _) in tried.three_records() {
            for length in LONG {
                tried.expect_refused(at, length);
            }
        }
    }
}

/// In 32 bits the sum of offset and length is the offset of the first record, or of the last but one.
#[test]
fn a_length_that_leads_back_in_32_bits_is_refused() {
    let mut tried = longest_sheet();
    let [_, (middle, long), (last, _)] = tried.three_records();
    for (at, target) in [(middle, 0), (last, 0), (last, last as u32 - long)] {
        tried.expect_refused(at, target.wrapping_sub(at as u32));
    }
}

/// One byte more than is left, and the right length in the low 16, 24 or 31 bits alone.
#[test]
fn a_length_just_past_the_end_or_right_in_its_low_bits_is_refused() {
    let mut tried = longest_sheet();
    let three = tried.three_records();
    for (at, own) in three {
        for length in [
            (MOST_SHEET - at) as u32 + 1,
            own + (1 << 24),
            own + (1 << 31),
        ] {
            tried.expect_refused(at, length);
        }
    }
    let [.., (last, own)] = three;
    tried.expect_refused(last, own + (1 << 16));
}

/// A sheet of batches, texts and nodes in turn, and at the end a cell that lists the last of each; their number, and the cell's offset.
fn with_the_last_listed() -> (Vec<u8>, u32, u32) {
    let shape = batch(1, 1, [10.0, 10.0, 50.0, 60.0]);
    let point = node(3, 9, &[[1.0, 2.0]]);
    let three = [&shape[..], &text(2, [5.0, 6.0], b""), &point].concat();
    let cell_length = cell(None, [&[0], &[0], &[0], &[]]).len();
    let times = (MOST_SHEET - cell_length) / three.len();
    let value = vec![b'a'; MOST_SHEET - cell_length - times * three.len()];
    let last = times as u32 - 1;
    let sheet = [
        shape,
        text(2, [5.0, 6.0], &value),
        point,
        three.repeat(times - 1),
        cell(None, [&[last], &[last], &[last], &[]]),
    ]
    .concat();
    assert_eq!(sheet.len(), MOST_SHEET);
    (sheet, last, (MOST_SHEET - cell_length) as u32)
}

#[test]
fn look_ups_lead_to_the_last_records() {
    let (sheet, last, root) = with_the_last_listed();
    let finder = Finder::open(&sheet).unwrap();
    assert_eq!(finder.places().last(), Some(&root));
    let (mut with, mut without) = (Buffers::new(), Buffers::new());
    let planned = with.plan_with_finder(&sheet, &finder, &QUERY).unwrap();
    assert_eq!(without.plan(&sheet, &QUERY).unwrap(), planned);
    let listed = [
        Record::Batch {
            number: last,
            placement: Placement {
                x_axis: [1.0, 0.0],
                y_axis: [0.0, 1.0],
                translation: [0.0, 0.0],
            },
        },
        Record::Text {
            number: last,
            position: [5.0, 6.0],
        },
        Record::Point {
            layer: 3,
            node_type: 9,
            position: [1.0, 2.0],
        },
        Record::Totals(Totals {
            detail_cells: 1,
            detail_objects: 3,
            ..Totals::default()
        }),
    ];
    assert_eq!(planned.records().collect::<Vec<_>>(), listed);
}
