//! Demand 3 by brute force: small square sheets with true boxes, every path up to a bound, against the plan's events; and the
//! sentences of document 02's Papers 5 and 8 on them. Some are nested deeper than 32 levels, for its Paper 13.
//! Small limits are given to the instrumented planner, so that small sheets meet all four.

mod check;
mod deep;
pub mod exact;
mod node_grids;
mod paths;

use std::collections::{BTreeMap, BTreeSet};

use crate::answer::PlanFn;
use crate::coverage::{MostDropped, cause_tag};
use crate::events::{Event, Limits, Run, Settings};
use crate::generator::deep::deep_enough;
use crate::generator::node_grids::at_a_limit;
use crate::generator::query::near;
use crate::generator::rng::Rng;
use crate::generator::square::{Shape, with_true_boxes};
use crate::generator::unused::unused_sites;
use crate::levels;
use crate::sheet::{Query, Sheet};
use paths::Paths;

/// Paths beyond so many are not enumerated: the sheet is passed over, and counted as such.
const MOST_PATHS: usize = 6_000;

/// What a run of sheets came to.
#[derive(Default)]
pub struct Tally {
    pub sheets: u64,
    pub passed_over: u64,
    pub paths: u64,
    /// Sheets with paths that are longer than the bound.
    pub cut: u64,
    pub events: u64,
    pub faults: u64,
    /// Sheets by what their plans show, and by where a node grid met a limit.
    pub shown: BTreeMap<&'static str, u64>,
    pub node_grids: BTreeMap<String, u64>,
    /// Sheets by what their plans show deeper than level 32.
    pub deep: BTreeMap<&'static str, u64>,
    pub most_dropped: MostDropped,
    pub first: Option<String>,
}

/// What a long run must show besides node grids at a limit and deep levels.
const TWO_DROPPED: &str = "a plan that drops two proxies";

/// How many kinds of plans a run of some thousand sheets must show.
pub fn kinds_wanted() -> usize {
    node_grids::wanted().len() + deep::WANTED.len() + 1
}

impl Tally {
    /// The kinds that the run did not show: none of a long run.
    pub fn missing(&self) -> Vec<String> {
        let kinds = node_grids::wanted().into_iter().filter(|kind| !self.node_grids.contains_key(kind));
        let deep = deep::WANTED.iter().map(|kind| kind.1).filter(|name| !self.deep.contains_key(name)).map(str::to_string);
        kinds.chain(deep).chain((self.most_dropped.proxies < 2).then(|| TWO_DROPPED.to_string())).collect()
    }
}

fn shape(rng: &mut Rng) -> Shape {
    Shape {
        cells: rng.size(1, 4),
        items: rng.size(1, 3),
        references: rng.size(1, 5),
        grid: rng.size(1, 3),
        span: rng.pick(&[4, 12, 60, 200]),
        spread: rng.pick(&[4, 12, 60, 200, 2_000, 2_000]),
        circles: rng.pick(&[0, 0, 3, 6]),
        missing: rng.pick(&[0, 1, 2]),
        chains: rng.pick(&[0, 3, 6]),
        empty: rng.pick(&[0, 1, 4]),
        elements: rng.pick(&[1, 2, 300]),
    }
}

fn limits(rng: &mut Rng) -> Limits {
    if rng.chance(1, 3) {
        return Limits::DOCUMENT;
    }
    let mut most = |low, high| if rng.chance(1, 3) { rng.size(low, high) } else { 100_000 };
    Limits { cells: most(1, 5), objects: most(1, 8), texts: most(1, 5), proxies: most(1, 4) }
}

/// Limits that a deep sheet meets deeper than level 32, or none of them.
fn deep_limits(rng: &mut Rng) -> Limits {
    if rng.chance(1, 2) {
        return Limits::DOCUMENT;
    }
    let mut most = |low, high| if rng.chance(1, 3) { rng.size(low, high) } else { 100_000 };
    Limits { cells: most(30, 50), objects: most(15, 60), texts: most(10, 30), proxies: most(1, 4) }
}

/// One sheet in four has node grids at a limit, one in four fields of unused sites, one in sixteen is deep, the others anything.
fn case(rng: &mut Rng, seed: u64) -> (Query, Sheet, Limits) {
    if seed % 4 == 1 {
        return at_a_limit(rng);
    }
    if seed % 16 == 2 {
        let (query, sheet) = deep_enough(rng);
        return (widened(rng, query), sheet, deep_limits(rng));
    }
    let (query, sheet) = if seed % 4 == 3 { unused_sites(rng) } else { any(rng) };
    let query = widened(rng, query);
    (query, sheet, limits(rng))
}

fn any(rng: &mut Rng) -> (Query, Sheet) {
    let shape = shape(rng);
    let sheet = with_true_boxes(rng, &shape);
    (near(rng, &sheet), sheet)
}

/// The query with views and zooms from farther away too, and a view of whole numbers.
fn widened(rng: &mut Rng, mut query: Query) -> Query {
    if rng.chance(1, 6) {
        query.zoom = 2f64.powi(rng.range(-12, 64) as i32);
    }
    if rng.chance(1, 8) {
        let far = 2f64.powi(rng.range(31, 62) as i32);
        query.view = [-far, -far, far, far];
    }
    query.view = query.view.map(f64::round);
    query
}

/// What a plan shows, each once.
fn shown(run: &Run) -> BTreeSet<&'static str> {
    let kind = |event: &Event| match event {
        Event::Batch { .. } => "batch",
        Event::Text { .. } => "text",
        Event::Point { .. } => "point",
        Event::Proxy { cause, .. } => cause_tag(*cause),
        Event::Dropped { .. } => "dropped",
        Event::Culled => "culled",
        Event::MemberSkipped { .. } => "member skipped",
        Event::BatchSkipped { .. } => "batch skipped",
    };
    run.record.events.iter().map(kind).collect()
}

/// One sheet by its seed: the fault, if any.
fn one(plan: PlanFn, seed: u64, tally: &mut Tally) {
    let mut rng = Rng::new(seed ^ 0x00c0_ffee);
    let (query, sheet, limits) = case(&mut rng, seed);
    if !exact::is_square(&sheet) || !exact::has_true_boxes(&sheet) {
        tally.passed_over += 1;
        return;
    }
    // Two members beyond the depth: what lies deeper lies in the same boxes.
    let Some(paths) = Paths::of(&sheet, query.root, query.depth as usize + 2, MOST_PATHS) else {
        tally.passed_over += 1;
        return;
    };
    let run = plan(&sheet, &query, Settings { limits, trace: true });
    tally.sheets += 1;
    tally.paths += paths.items.len() as u64;
    tally.cut += u64::from(paths.cut);
    tally.events += run.record.events.len() as u64;
    tally.most_dropped.see(run.record.dropped, || format!("seed {seed}"));
    for shown in shown(&run) {
        *tally.shown.entry(shown).or_default() += 1;
    }
    for shown in levels::names(&run, deep::WANTED).collect::<BTreeSet<_>>() {
        *tally.deep.entry(shown).or_default() += 1;
    }
    for shown in node_grids::shown(&run, limits, &paths, |item| check::is_to_be_seen(&sheet, &query, item)) {
        *tally.node_grids.entry(shown).or_default() += 1;
    }
    if let Some(fault) = check::fault(&sheet, &query, limits, &run, &paths) {
        tally.faults += 1;
        tally.first.get_or_insert(format!("seed {seed}, {limits:?}: {fault}"));
    }
}

/// Checks sheets from a seed on, until `count` were checked, or a fault ends the search.
pub fn search(plan: PlanFn, seed: u64, count: u64, stop_at_fault: bool) -> Tally {
    let mut tally = Tally::default();
    let mut seed = seed;
    while tally.sheets < count && !(stop_at_fault && tally.faults > 0) {
        one(plan, seed, &mut tally);
        seed += 1;
    }
    tally
}
