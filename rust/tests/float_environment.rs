//! The float environment that a caller owes: debug builds ask for it, and the library answers otherwise without it.

mod sheets;

use std::arch::asm;
use std::panic::{AssertUnwindSafe, catch_unwind};
use std::thread;

use ribaltzen::{
    Buffers, Finder, Query, Record, Records, WorldBBox, float_environment_is_default, plan,
};
use sheets::{cell, reference, text, worked};

const QUERY: Query = Query::new(0, 3, WorldBBox::new(0.0, 0.0, 10.0, 10.0), 100.0);

/// MXCSR as a program starts with it, and what is changed in it.
const DEFAULT: u32 = 0x1f80;
const ROUND_DOWN: u32 = DEFAULT | 1 << 13;
const ROUND_UP: u32 = DEFAULT | 2 << 13;
const ROUND_TO_ZERO: u32 = DEFAULT | 3 << 13;
const FLUSH_TO_ZERO: u32 = DEFAULT | 1 << 15;
const DENORMALS_ARE_ZERO: u32 = DEFAULT | 1 << 6;
const INEXACT_TRAPS: u32 = DEFAULT & !(1 << 12);
const CHANGED: [u32; 6] = [
    ROUND_DOWN,
    ROUND_UP,
    ROUND_TO_ZERO,
    FLUSH_TO_ZERO,
    DENORMALS_ARE_ZERO,
    INEXACT_TRAPS,
];

// As include/ribaltzen.h declares it: called without the wrapper, which asks.
unsafe extern "C" {
    fn scene_plan(
        sheet: *const u8,
        sheet_length: usize,
        root: u32,
        depth: u32,
        min_x: f64,
        min_y: f64,
        max_x: f64,
        max_y: f64,
        zoom: f64,
        hidden: *const u32,
        hidden_length: usize,
        out: *mut u8,
        out_length: usize,
        counts: *mut u64,
        counts_length: usize,
        marks: *mut u8,
        marks_length: usize,
        offset: *mut usize,
        length: *mut usize,
    ) -> u32;
}

fn set_mxcsr(word: u32) {
    // SAFETY: `ldmxcsr` reads four bytes, here a u32 of this function. The compiler takes the default for granted, so the
    // caller does no float arithmetic of its own until it is set again.
    unsafe { asm!("ldmxcsr [{}]", in(reg) &raw const word, options(nostack, readonly)) };
}

/// The work under a float environment, or its panic: on a thread of its own, so that no other test meets it.
fn under<T: Send>(word: u32, work: impl FnOnce() -> T + Send) -> thread::Result<T> {
    thread::scope(|scope| {
        let thread = scope.spawn(|| {
            set_mxcsr(word);
            let done = catch_unwind(AssertUnwindSafe(work));
            set_mxcsr(DEFAULT);
            done
        });
        thread.join().expect("a panic of the work is caught")
    })
}

#[test]
fn the_environment_is_told() {
    const EVERY_STATUS: u32 = 0x3f;
    for word in [DEFAULT, DEFAULT | EVERY_STATUS] {
        assert!(under(word, float_environment_is_default).unwrap());
    }
    for word in CHANGED {
        assert!(
            !under(word, float_environment_is_default).unwrap(),
            "{word:x}"
        );
    }
}

#[test]
fn it_belongs_to_the_thread_and_is_inherited() {
    let child = || thread::spawn(float_environment_is_default).join().unwrap();
    assert!(!under(ROUND_UP, child).unwrap());
    assert!(float_environment_is_default() && child());
}

#[test]
#[cfg_attr(not(debug_assertions), ignore = "release builds do not ask")]
fn debug_builds_ask() {
    let sheet = worked();
    let finder = Finder::open(&sheet).unwrap();
    let memory = || Buffers::with_sizes(88, 1, 3);
    asks(|| Finder::open(&sheet).is_ok());
    asks(|| plan(&sheet, &QUERY, memory().lend()).is_ok());
    asks(|| memory().plan_with_finder(&sheet, &finder, &QUERY).is_ok());
}

/// The call is done in the default environment only.
fn asks(call: impl Fn() -> bool + Sync) {
    assert!(under(DEFAULT, &call).unwrap());
    for word in CHANGED {
        let panic = under(word, &call).unwrap_err();
        let message = panic.downcast_ref::<&str>().expect("a message");
        assert!(
            message.starts_with("the planner needs a thread that rounds to nearest"),
            "{message}"
        );
    }
}

/// Where the library places the only text of a sheet, under a float environment.
fn text_under(word: u32, sheet: &[u8]) -> [f64; 2] {
    let (mut out, mut counts, mut marks) = ([0u8; 88], [0u64; 6], [0u8; 10]);
    let (mut offset, mut length) = (0, 0);
    let hidden: [u32; 0] = [];
    let view = QUERY.view;
    // SAFETY: each pointer is that of an array or a slice, with its length.
    let mut call = || unsafe {
        scene_plan(
            sheet.as_ptr(),
            sheet.len(),
            QUERY.root,
            QUERY.depth,
            view.min_x,
            view.min_y,
            view.max_x,
            view.max_y,
            QUERY.zoom,
            hidden.as_ptr(),
            0,
            out.as_mut_ptr(),
            out.len(),
            counts.as_mut_ptr(),
            counts.len(),
            marks.as_mut_ptr(),
            marks.len(),
            &mut offset,
            &mut length,
        )
    };
    assert_eq!(under(word, &mut call).unwrap(), 0);
    match Records::new(&out[..length]).next() {
        Some(Ok(Record::Text { position, .. })) => position,
        other => panic!("no text: {other:?}"),
    }
}

/// A text at (0.1, 0.1) of a cell that is placed at (0.2, 0.7): the nearest float is above the sum in x, below it in y.
#[test]
fn the_library_answers_otherwise_with_other_rounding() {
    let square = [0.0, 0.0, 1.0, 1.0];
    let sheet = [
        text(1, [0.1, 0.1], b""),
        reference(1, 1, [0.2, 0.7], square),
        cell(Some([0.0, 0.0, 2.0, 2.0]), [&[], &[], &[], &[0]]),
        cell(Some(square), [&[], &[0], &[], &[]]),
    ]
    .concat();
    let nearest = [0.30000000000000004, 0.7999999999999999];
    let below = [0.3, 0.7999999999999999];
    let above = [0.30000000000000004, 0.8];
    assert_eq!(text_under(DEFAULT, &sheet), nearest);
    assert_eq!(text_under(ROUND_DOWN, &sheet), below);
    assert_eq!(text_under(ROUND_TO_ZERO, &sheet), below);
    assert_eq!(text_under(ROUND_UP, &sheet), above);
}

/// A text at the least subnormal.
#[test]
fn the_library_answers_otherwise_where_subnormals_are_lost() {
    let square = [0.0, 0.0, 1.0, 1.0];
    let tiny = f64::from_bits(1);
    let sheet = [
        text(1, [tiny, 0.0], b""),
        cell(Some(square), [&[], &[0], &[], &[]]),
    ]
    .concat();
    assert_eq!(text_under(DEFAULT, &sheet), [tiny, 0.0]);
    assert_eq!(text_under(FLUSH_TO_ZERO, &sheet), [0.0, 0.0]);
    assert_eq!(text_under(DENORMALS_ARE_ZERO, &sheet), [0.0, 0.0]);
}
