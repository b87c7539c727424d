//! The copies of the planner that build.rs made, and the check of one against the other.

use crate::answer::{Copies, Judge};
use crate::events::{Limits, Run, Settings, lists_of};
use crate::judge;
use crate::sheet::{Query, Sheet};

mod made {
    use super::Copies;
    #[allow(unused_imports)]
    use super::Judge;
    include!(concat!(env!("OUT_DIR"), "/variants.rs"));
}

pub use made::COPIES;

/// The judge, with no mistake planted.
pub const JUDGE: Judge = Judge { program: judge::program::program, call: judge::call::call, open: judge::finder::open };

/// The copies, or a plain end where the Rust source was absent at build time.
pub fn copies() -> Copies {
    COPIES.unwrap_or_else(|| {
        eprintln!("the Rust source is absent: this build has no planner");
        std::process::exit(3);
    })
}

/// A plan drops at most so many proxies. Once the list is full nothing more is entered, and each visit that is under way calls
/// for at most one box more and ends: that of a cell at each depth from the query's to 1, that of a reference at each to 2.
fn most_dropped(depth: u32) -> u64 {
    (2 * u64::from(depth)).saturating_sub(1)
}

/// Plans with both copies. The instrumented one goes first, so that fuel can end a hostile sheet.
pub fn checked(sheet: &Sheet, query: &Query, settings: Settings) -> Run {
    let copies = copies();
    let run = (copies.instrumented)(sheet, query, settings);
    assert!(
        lists_of(&run.record.events, run.lists.totals) == run.lists,
        "the instrumented copy's events are not its lists"
    );
    run.check_calls().unwrap_or_else(|fault| panic!("{fault}"));
    assert!(run.record.dropped <= most_dropped(query.depth), "more proxies are dropped than a plan of this depth can drop");
    if settings.limits == Limits::DOCUMENT {
        assert!(
            (copies.plain)(sheet, query) == run.lists,
            "the instrumented copy's lists are not the plain copy's"
        );
    }
    run
}
