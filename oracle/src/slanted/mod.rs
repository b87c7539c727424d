//! Document 02's Paper 14, slanted sheets: each text and node point that the judge lists, against its exact placement in fractions.

mod bounds;
mod chain;
mod check;
pub mod checks;
mod climb;
mod fraction;
mod kinds;
mod paths;
mod placement;
mod sheets;
mod tally;
mod whole;

use std::fs;
use std::path::Path;

use crate::answer::PlanFn;
use crate::commands::bounded_by;
use crate::events::{Limits, Settings};
use crate::generator::encode::input;
use crate::generator::rng::Rng;
use crate::sheet::{Query, Sheet};
use chain::Chain;
use check::Seen;
use fraction::Fraction;
use kinds::Kind;
use sheets::Showing;
pub use tally::Tally;

/// One sheet in so many is the end of a climb.
const CLIMB: u64 = 1_000;
/// The references of climbs in turn.
const CLIMBED: [usize; 10] = [4, 5, 4, 3, 4, 2, 4, 6, 4, 1];
/// Steps that a plan may take: six grids of 8,192 members, each opened once, and some more.
const FUEL: u64 = 100_000;
const TRACED: Settings = Settings { limits: Limits::DOCUMENT, trace: true };

struct Case {
    kind: Kind,
    query: Query,
    sheet: Sheet,
    /// Of a climb: the number of references and the error that it came to.
    climbed: Option<(usize, Fraction)>,
}

fn case(seed: u64) -> Case {
    let mut rng = Rng::new(seed);
    if seed % CLIMB == CLIMB - 1 {
        let references = CLIMBED[(seed / CLIMB) as usize % CLIMBED.len()];
        let start = Chain::new(&mut rng, Kind::Climbed, references);
        let (chain, error) = climb::climb(&mut rng, start);
        let (query, sheet) = sheets::case(&mut rng, Showing::Surely, &chain);
        return Case { kind: Kind::Climbed, query, sheet, climbed: Some((references, error)) };
    }
    let kind = rng.pick(&[Kind::Any, Kind::NearEnds, Kind::NearEnds, Kind::Cancelling, Kind::Turned, Kind::Tiny, Kind::AtEnds]);
    let references = rng.pick(&[0, 1, 2, 3, 4, 4, 4, 4, 5, 6]);
    let chain = Chain::new(&mut rng, kind, references);
    let (query, sheet) = sheets::case(&mut rng, Showing::Mostly, &chain);
    Case { kind, query, sheet, climbed: None }
}

/// A record of a climb's sheet has the error that it came to: the climb went by the planner's own steps.
fn keeps_climb(case: &Case, seen: &[Seen]) -> bool {
    let Some((references, error)) = &case.climbed else { return true };
    seen.iter().any(|record| record.references == *references && record.error == *error)
}

fn one(plan: PlanFn, seed: u64, tally: &mut Tally, folder: &Path) {
    let case = case(seed);
    assert!(bounds::are_kept(&case.sheet), "seed {seed}: a sheet beyond the bounds");
    let Some((run, _)) = bounded_by(FUEL, || plan(&case.sheet, &case.query, TRACED)) else {
        tally.passed_over += 1;
        return;
    };
    let seen = check::records(&case.sheet, &case.query, &run);
    let seen = seen.and_then(|seen| {
        if keeps_climb(&case, &seen) { Ok(seen) } else { Err("no record has the error that the climb came to".to_string()) }
    });
    let of = format!("{:?}, seed {seed}", case.kind);
    match seen {
        Ok(seen) => tally.add(case.kind, &of, &seen),
        Err(fault) => {
            tally.add(case.kind, &of, &[]);
            tally.faults += 1;
            tally.first.get_or_insert_with(|| {
                let file = folder.join(format!("seed-{seed}.bin"));
                fs::create_dir_all(folder).expect("a folder for faults");
                fs::write(&file, input(&case.query, &case.sheet, &mut Rng::new(seed))).expect("the input of a fault");
                format!("{of}: {fault}\n  input kept in {}", file.display())
            });
        }
    }
}

/// The input of a seed's sheet, for the static library.
#[cfg(feature = "library")]
pub fn make(seed: u64) -> Vec<u8> {
    let Case { query, sheet, .. } = case(seed);
    input(&query, &sheet, &mut Rng::new(seed))
}

/// Plans so many sheets from a seed on. The input of the first fault is kept in the folder.
pub fn run(plan: PlanFn, seed: u64, count: u64, folder: &Path) -> Tally {
    let mut tally = Tally::default();
    for seed in seed..seed + count {
        one(plan, seed, &mut tally, folder);
    }
    tally
}
