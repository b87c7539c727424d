//! Sheets that are opened, and plans with finders: the sheet's own gives the plan that there is without one, any other
//! number 13, every lent place compared.

mod sheets;

use ribaltzen::{
    Buffers, Finder, Lent, MOST_PLACES, MOST_SHEET, Query, Refusal, WorldBBox, open, plan,
    plan_with_finder,
};
use sheets::random::Random;
use sheets::stored::Stored;
use sheets::{batch, cell, node, of_every_kind, reference, text, worked};

const VIEW: WorldBBox = WorldBBox::new(0.0, 0.0, 100.0, 100.0);
const QUERY: Query = Query::new(0, 4, VIEW, 1.0);

/// Eight records that stand in no order of kinds: cells 0 and 1 at 0 and 274, the reference at 80, and so on.
fn mixed() -> Vec<u8> {
    let shape = [10.0, 10.0, 50.0, 60.0];
    let small = [0.0, 0.0, 2.0, 3.0];
    let whole = [0.0, 0.0, 200.0, 100.0];
    [
        cell(Some(whole), [&[0, 1], &[0, 1], &[0], &[0]]),
        reference(1, 1, [70.0, 80.0], small),
        text(2, [5.0, 6.0], b""),
        batch(1, 1, shape),
        cell(Some(small), [&[], &[0], &[], &[]]),
        node(3, 9, &[[1.0, 2.0], [200.0, 2.0], [3.0, 4.0]]),
        text(2, [7.0, 8.0], b""),
        batch(4, 1, shape),
    ]
    .concat()
}

/// Batches, texts, the node, the reference, cells.
const MIXED: [u32; 8] = [228, 418, 202, 392, 334, 80, 0, 274];

/// The refusal, if any, and the memory after a call with so much of it, all filled with 7.
type Outcome = (Option<Refusal>, Vec<u8>, Vec<u64>, Vec<u8>);

fn outcome(
    sheet: &[u8],
    finder: Option<&[u32]>,
    query: &Query,
    [out, counts, marks]: [usize; 3],
) -> Outcome {
    let (mut o, mut c, mut m) = (vec![7u8; out], vec![7u64; counts], vec![7u8; marks]);
    let lent = Lent {
        out: &mut o,
        counts: &mut c,
        marks: &mut m,
    };
    let planned = match finder {
        Some(finder) => plan_with_finder(sheet, finder, query, lent),
        None => plan(sheet, query, lent),
    };
    let refusal = planned.err();
    (refusal, o, c, m)
}

fn wrong_finder(needed: Option<usize>) -> Refusal {
    Refusal {
        number: 13,
        offset: 0,
        needed,
    }
}

/// Number 13 with all of the memory zero.
fn turned_away([out, counts, marks]: [usize; 3]) -> Outcome {
    (
        Some(wrong_finder(None)),
        vec![0; out],
        vec![0; counts],
        vec![0; marks],
    )
}

const AMPLE: [usize; 3] = [400, 20, 20];

#[test]
fn places_are_by_kind_and_then_by_number() {
    let finder = Finder::open(&mixed()).unwrap();
    assert_eq!(finder.places(), MIXED);
    assert_eq!(format!("{finder:?}"), "Finder { places: 8 }");
    assert_eq!(Finder::open(b"").unwrap().places(), []);
}

#[test]
fn a_lent_list_is_filled_and_its_rest_is_as_lent() {
    for places in 8..12 {
        let mut list = vec![7; places];
        assert_eq!(open(&mixed(), &mut list).unwrap(), MIXED);
        assert_eq!(list[..8], MIXED);
        assert_eq!(list[8..], vec![7; places - 8]);
    }
    let mut list = [7; 3];
    assert_eq!(open(b"", &mut list).unwrap(), []);
    assert_eq!(list, [7; 3]);
}

#[test]
fn a_short_list_is_zeroed_and_told_what_is_needed() {
    for places in 0..8 {
        let mut list = vec![7; places];
        let refusal = open(&mixed(), &mut list).unwrap_err();
        assert_eq!(refusal, wrong_finder(Some(8)));
        assert_eq!(list, vec![0; places]);
    }
}

/// Numbers 1 to 7, at the offsets that a plan gives, with lists that are long enough and short.
#[test]
fn a_refused_sheet_leaves_the_list_as_lent() {
    let mut broken = mixed();
    broken.pop();
    let sheets = [
        (1, vec![0; MOST_SHEET + 1]),
        (2, broken),
        (
            3,
            [text(1, [0.0, 0.0], b""), sheets::record(6, &[])].concat(),
        ),
        (4, reference(32_768, 0, [0.0, 0.0], [0.0; 4])),
        (5, text(1, [0.0, f64::NAN], b"")),
        (6, [worked(), cell(None, [&[], &[1], &[], &[]])].concat()),
        (7, cell(None, [&[]; 4]).repeat(4_097)),
    ];
    for (number, sheet) in sheets {
        let refusal = plan(&sheet, &QUERY, Buffers::new().lend()).unwrap_err();
        assert_eq!(refusal.number, number);
        assert_eq!(Finder::open(&sheet), Err(refusal));
        for places in [0, 9] {
            let mut list = vec![7; places];
            assert_eq!(open(&sheet, &mut list), Err(refusal));
            assert_eq!(list, vec![7; places]);
            let with = outcome(&sheet, Some(&list), &QUERY, AMPLE);
            assert_eq!(with, outcome(&sheet, None, &QUERY, AMPLE));
        }
    }
}

/// Texts without a value, as many as a sheet has room for.
#[test]
fn the_most_places_are_enough() {
    assert_eq!(MOST_PLACES, 645_277);
    let mut sheet = text(1, [0.0, 0.0], b"").repeat(MOST_PLACES);
    let finder = Finder::open(&sheet).unwrap();
    let offsets: Vec<u32> = (0..MOST_PLACES as u32).map(|number| 26 * number).collect();
    assert!(finder.places() == offsets);
    sheet.resize(MOST_SHEET, 0);
    assert_eq!(Finder::open(&sheet).unwrap_err().number, 2);
}

/// With its own finder, alone or with more behind it, a call is as without one: planned or refused with 8 to 12.
#[test]
fn the_own_finder_changes_nothing() {
    let sheet = mixed();
    let bad_view = WorldBBox::new(101.0, 0.0, 100.0, 100.0);
    let hidden = [ribaltzen::hidden_layer(2, 0)];
    let calls = [
        (0, QUERY, AMPLE),
        (
            0,
            Query {
                hidden: &hidden,
                ..QUERY
            },
            AMPLE,
        ),
        (0, Query { depth: 0, ..QUERY }, [104, 0, 4]),
        (
            8,
            Query {
                view: bad_view,
                ..QUERY
            },
            AMPLE,
        ),
        (9, Query { zoom: 0.0, ..QUERY }, AMPLE),
        (10, Query { depth: 49, ..QUERY }, AMPLE),
        (11, QUERY, [400, 7, 20]),
        (11, QUERY, [400, 20, 11]),
        (12, QUERY, [323, 20, 20]),
    ];
    let longer = [&MIXED[..], &[7, 0, u32::MAX]].concat();
    for (number, query, sizes) in calls {
        let without = outcome(&sheet, None, &query, sizes);
        assert_eq!(without.0.map_or(0, |refusal| refusal.number), number);
        assert_eq!(outcome(&sheet, Some(&MIXED), &query, sizes), without);
        assert_eq!(outcome(&sheet, Some(&longer), &query, sizes), without);
        for places in 0..8 {
            let with = outcome(&sheet, Some(&MIXED[..places]), &query, sizes);
            assert_eq!(with, turned_away(sizes), "{places} places, before {number}");
        }
    }
}

/// Each place changed by one either way, to one past the sheet and to any; each two exchanged; other sheets' finders.
#[test]
fn a_finder_that_differs_in_one_place_is_turned_away() {
    let sheet = mixed();
    let expect_13 = |finder: &[u32]| {
        let with = outcome(&sheet, Some(finder), &QUERY, AMPLE);
        assert_eq!(with, turned_away(AMPLE), "{finder:?}");
    };
    for place in 0..8 {
        let own = MIXED[place];
        let others = [
            own.wrapping_add(1),
            own.wrapping_sub(1),
            own ^ 1 << 24,
            464,
            u32::MAX,
        ];
        for value in others {
            let mut finder = MIXED;
            finder[place] = value;
            expect_13(&finder);
        }
        for other in 0..place {
            let mut finder = MIXED;
            finder.swap(place, other);
            expect_13(&finder);
        }
    }
    let mut in_order = MIXED;
    in_order.sort();
    expect_13(&in_order);
    expect_13(Finder::open(&of_every_kind()).unwrap().places());
    expect_13(&[0; 8]);
}

/// Buffers, too, turn away what was opened for another sheet, and go on to serve the right one.
#[test]
fn the_finder_of_another_sheet_is_turned_away() {
    let (one, other) = (mixed(), of_every_kind());
    let (finder, finder_of_other) = (Finder::open(&one).unwrap(), Finder::open(&other).unwrap());
    let mut buffers = Buffers::new();
    for (sheet, finder) in [(&one, &finder_of_other), (&other, &finder)] {
        let refusal = buffers.plan_with_finder(sheet, finder, &QUERY).unwrap_err();
        assert_eq!(refusal, wrong_finder(None));
    }
    let planned = buffers.plan_with_finder(&one, &finder, &QUERY).unwrap();
    assert_eq!(planned.tape().len(), 2 * 58 + 4 * 26 + 42 + 62);
}

/// A sheet that was changed after it was opened: where its records stay it is planned as it is now, else turned away.
#[test]
fn a_changed_sheet_gets_its_own_plan_or_none() {
    let before = [text(1, [10.0, 20.0], b""), worked()].concat();
    let finder = Finder::open(&before).unwrap();
    let mut buffers = Buffers::new();
    let moved = [text(1, [30.0, 40.0], b""), worked()].concat();
    let planned = buffers.plan_with_finder(&moved, &finder, &QUERY).unwrap();
    let mut without = Buffers::new();
    assert_eq!(planned, without.plan(&moved, &QUERY).unwrap());
    assert_ne!(planned, without.plan(&before, &QUERY).unwrap());
    let named = [text(1, [10.0, 20.0], b"VDD"), worked()].concat();
    let refusal = buffers.plan_with_finder(&named, &finder, &QUERY);
    assert_eq!(refusal.unwrap_err().number, 13);
}

/// A grid of 50 texts, from buffers for one of each item: the output grows with a finder as without.
#[test]
fn the_output_grows() {
    let small = [0.0, 0.0, 1.0, 1.0];
    let sheet = [
        text(2, [0.5, 0.5], b"pad"),
        reference(50, 1, [0.0, 0.0], small),
        cell(Some([0.0, 0.0, 50.0, 1.0]), [&[], &[], &[], &[0]]),
        cell(Some(small), [&[], &[0], &[], &[]]),
    ]
    .concat();
    let finder = Finder::open(&sheet).unwrap();
    let query = Query {
        zoom: 30.0,
        ..QUERY
    };
    let mut buffers = Buffers::with_sizes(0, 2, 4);
    let planned = buffers.plan_with_finder(&sheet, &finder, &query).unwrap();
    assert_eq!(planned.tape().len(), 50 * 26 + 62);
    assert_eq!(planned, Buffers::new().plan(&sheet, &query).unwrap());
}

/// A host keeps both in one struct and plans on any thread: no lifetime ties the finder to the sheet.
#[test]
fn a_finder_is_kept_beside_its_sheet() {
    struct Opened {
        sheet: Vec<u8>,
        finder: Finder,
    }
    let sheet = mixed();
    let opened = Opened {
        finder: Finder::open(&sheet).unwrap(),
        sheet,
    };
    let depths = std::thread::scope(|scope| {
        let plan_at = |depth| {
            let query = Query { depth, ..QUERY };
            let mut buffers = Buffers::new();
            let planned = buffers.plan_with_finder(&opened.sheet, &opened.finder, &query);
            planned.unwrap().records().count()
        };
        [0, 1, 4].map(|depth| scope.spawn(move || plan_at(depth)).join().unwrap())
    });
    assert_eq!(depths, [2, 8, 8]);
}

/// A stored query and the hidden layers in it.
fn query_of(record: &[u8]) -> (Query<'static>, Vec<u32>) {
    let u32_at = |at: usize| u32::from_le_bytes(record[at..at + 4].try_into().unwrap());
    let f64_at = |at: usize| f64::from_le_bytes(record[at..at + 8].try_into().unwrap());
    let view = WorldBBox::new(f64_at(14), f64_at(22), f64_at(30), f64_at(38));
    let hidden = (54..record.len()).step_by(4).map(u32_at).collect();
    (Query::new(u32_at(6), u32_at(10), view, f64_at(46)), hidden)
}

/// What a plan with any list must be: that without one if the list begins with the sheet's own finder, else number 13.
fn hold_list(sheet: &[u8], query: &Query, list: &[u32], own: &Finder) -> Result<(), Refusal> {
    let (mut with, mut without) = (Buffers::new(), Buffers::new());
    let planned = plan_with_finder(sheet, list, query, with.lend());
    if list.starts_with(own.places()) {
        assert_eq!(planned, without.plan(sheet, query));
    } else {
        assert_eq!(planned, Err(wrong_finder(None)));
    }
    planned.map(drop)
}

/// Holds a case with its own finder, with that in which a bit is changed, and with the one of the case before; answers its own
/// where it is planned.
fn hold(input: &[u8], before: &[u32], random: &mut Random) -> Result<Finder, Refusal> {
    let length = u32::from_le_bytes(*input.first_chunk().unwrap());
    let (record, sheet) = input.split_at(length as usize);
    let (query, hidden) = query_of(record);
    let query = Query {
        hidden: &hidden,
        ..query
    };
    let own = Finder::open(sheet).inspect_err(|refusal| {
        assert!(refusal.number <= 7);
        assert_eq!(Buffers::new().plan(sheet, &query), Err(*refusal));
    })?;
    let mut changed = own.places().to_vec();
    if !changed.is_empty() {
        let place = random.below(changed.len());
        changed[place] ^= 1 << random.below(32);
        let refusal = hold_list(sheet, &query, &changed, &own).unwrap_err();
        assert_eq!(refusal.number, 13);
    }
    let _ = hold_list(sheet, &query, before, &own);
    hold_list(sheet, &query, own.places(), &own)?;
    Ok(own)
}

#[test]
fn stored_cases() {
    let stored = Stored::read();
    let (mut before, mut random) = (Vec::new(), Random(1));
    let (mut planned, mut refused) = (0, 0);
    for (input, text) in stored.cases() {
        if text == "no query\n" {
            continue;
        }
        match hold(input, &before, &mut random) {
            Ok(finder) => {
                before = finder.places().to_vec();
                planned += 1;
            }
            Err(_) => refused += 1,
        }
    }
    assert!(planned > 600 && refused > 200, "{planned} {refused}");
}
