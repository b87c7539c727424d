//! What an instrumented planner records: events in the order of emission, causes, paths, limits.

use std::cell::Cell;
use std::collections::BTreeMap;

/// The planner's four limits, given so that small sheets can meet them and a pane can have its own.
#[derive(Clone, Copy, Debug, PartialEq, Eq)]
pub struct Limits {
    pub cells: usize,
    pub objects: usize,
    pub texts: usize,
    pub proxies: usize,
}

impl Limits {
    /// Document 01: "20,000 cells in detail, 20,000 objects, 10,000 texts, 100,000 proxies."
    pub const DOCUMENT: Self = Self { cells: 20_000, objects: 20_000, texts: 10_000, proxies: 100_000 };
}

#[derive(Clone, Copy, Debug)]
pub struct Settings {
    pub limits: Limits,
    /// Keep the path of each event, and the events that are not written.
    pub trace: bool,
}

impl Settings {
    pub const DOCUMENT: Self = Self { limits: Limits::DOCUMENT, trace: false };
}

/// The rule that sent a part to a box, in the planner's order of tests.
#[derive(Clone, Copy, Debug, PartialEq, Eq, PartialOrd, Ord)]
pub enum Cause {
    DepthZero = 1,
    CellLimit = 2,
    OtherLimit = 3,
    Circle = 4,
    DepthOne = 5,
    Side = 6,
    Grid = 7,
    DenseReference = 8,
    DenseBatch = 9,
}

/// One step of a path: a list place, a member, in the order in which the planner takes them.
#[derive(Clone, Copy, Debug, PartialEq, Eq, PartialOrd, Ord, Hash)]
pub enum Step {
    Batch(u32),
    Text(u32),
    Node(u32),
    Reference(u32),
    Member(u32, u32),
    Point(u32),
}

#[derive(Clone, Copy, Debug, PartialEq)]
pub enum Event {
    Batch { number: u32, placement: [f64; 6] },
    Text { number: u32, position: [f64; 2] },
    Point { layer: u16, node_type: u16, position: [f64; 2], place: u32 },
    Proxy { label: Option<u32>, bbox: [f64; 4], cause: Cause },
    /// A proxy that met a full list.
    Dropped { label: Option<u32>, bbox: [f64; 4], cause: Cause },
    // The rest is kept only with paths.
    Culled,
    MemberSkipped { bbox: [f64; 4], degenerate: bool },
    BatchSkipped { bbox: [f64; 4] },
}

impl Event {
    /// Of a proxy, listed or dropped: its label, box and cause.
    pub fn boxed(&self) -> Option<(Option<u32>, [f64; 4], Cause)> {
        match *self {
            Self::Proxy { label, bbox, cause } | Self::Dropped { label, bbox, cause } => Some((label, bbox, cause)),
            _ => None,
        }
    }
}

/// Where an event stands: the root's own items and references are at level 1, what a member holds is one level deeper.
#[derive(Clone, Copy)]
pub struct Level {
    pub own: usize,
    /// The deepest level on the way to it that an inner reference leads to; 0 without one.
    pub inner: usize,
}

impl Level {
    fn of(path: &[Step]) -> Self {
        let mut level = Self { own: 1, inner: 0 };
        let is_member = |place: usize| matches!(path[place], Step::Member(..));
        for place in (0..path.len()).filter(|&place| is_member(place)) {
            level.own += 1;
            if place > 0 && is_member(place - 1) {
                level.inner = level.own;
            }
        }
        level
    }
}

#[derive(Default)]
pub struct Record {
    pub events: Vec<Event>,
    /// The level of the event at the same place.
    pub levels: Vec<Level>,
    /// With a trace: the path of the event at the same place.
    pub paths: Vec<Vec<Step>>,
    /// How many grids of bare node points met a limit inside a member.
    pub ran_out: usize,
    /// Document 02, Paper 8: how many proxies the rules called for, and how many of these met a full list.
    pub called: u64,
    pub dropped: u64,
    /// Where the visit stands.
    pub path: Vec<Step>,
    trace: bool,
}

impl Record {
    pub fn new(trace: bool) -> Self {
        Self { trace, ..Self::default() }
    }

    /// The visit stands one step below `base`.
    pub fn at(&mut self, base: usize, step: Step) {
        self.back(base);
        self.path.push(step);
    }

    /// The visit stands at `base` again.
    pub fn back(&mut self, base: usize) {
        self.path.truncate(base);
    }

    pub fn emit(&mut self, event: Event) {
        self.levels.push(Level::of(&self.path));
        if self.trace {
            let mut path = self.path.clone();
            if let Event::Point { place, .. } = event {
                path.push(Step::Point(place));
            }
            self.paths.push(path);
        }
        self.events.push(event);
    }

    /// An event that nothing shows: kept only with a trace.
    pub fn quiet(&mut self, event: Event) {
        if self.trace {
            self.emit(event);
        }
    }
}

/// A plan sorted into the Rust's lists, floats as patterns.
#[derive(Clone, Debug, Default, PartialEq, Eq)]
pub struct Lists {
    pub batches: Vec<(u32, [u64; 6])>,
    pub texts: Vec<(u32, [u64; 2])>,
    pub points: BTreeMap<(u16, u16), Vec<[u64; 2]>>,
    pub proxies: Vec<(Option<u32>, [u64; 4])>,
    /// The six of `SceneStats`. The seventh on the tape is the record's.
    pub totals: [u64; 6],
}

pub struct Run {
    pub lists: Lists,
    pub record: Record,
}

impl Run {
    /// "a seventh count: proxies that met a full list. [...] Listed plus dropped proxies equal the proxies that the rules call for":
    /// the counts of calls against the events.
    pub fn check_calls(&self) -> Result<(), String> {
        let Record { events, called, dropped, .. } = &self.record;
        let count = |is: fn(&Event) -> bool| events.iter().filter(|&event| is(event)).count() as u64;
        let met_full = count(|event| matches!(event, Event::Dropped { .. }));
        let boxes = count(|event| event.boxed().is_some());
        if *dropped != met_full {
            return Err(format!("{dropped} proxies are counted as dropped, not {met_full}"));
        }
        if *called != boxes {
            return Err(format!("{boxes} proxies are listed or dropped, and {called} were called for"));
        }
        Ok(())
    }
}

/// "Any NaN is written 7FF8000000000000."
pub fn pattern(value: f64) -> u64 {
    if value.is_nan() { 0x7ff8_0000_0000_0000 } else { value.to_bits() }
}

pub fn patterns<const N: usize>(values: [f64; N]) -> [u64; N] {
    values.map(pattern)
}

/// The lists that the events give, for the check against the plain copy's.
pub fn lists_of(events: &[Event], totals: [u64; 6]) -> Lists {
    let mut lists = Lists { totals, ..Lists::default() };
    for event in events {
        match *event {
            Event::Batch { number, placement } => lists.batches.push((number, patterns(placement))),
            Event::Text { number, position } => lists.texts.push((number, patterns(position))),
            Event::Point { layer, node_type, position, .. } => {
                lists.points.entry((layer, node_type)).or_default().push(patterns(position));
            }
            Event::Proxy { label, bbox, .. } => lists.proxies.push((label, patterns(bbox))),
            _ => {}
        }
    }
    lists
}

thread_local! {
    static CAUSE: Cell<Option<Cause>> = const { Cell::new(None) };
    static MISTAKE: Cell<usize> = const { Cell::new(0) };
    static FUEL: Cell<u64> = const { Cell::new(u64::MAX) };
}

/// Remembers why the next proxy is made.
pub fn note(cause: Cause) {
    CAUSE.set(Some(cause));
}

pub fn noted() -> Cause {
    CAUSE.get().expect("each proxy has its cause noted")
}

/// The panic of a run that takes more steps than it was given.
pub struct OutOfFuel;

/// One step of a visit or of a count. A run that is broken off is no fault, so nothing is printed.
pub fn tick() {
    let left = FUEL.get();
    if left == 0 {
        std::panic::resume_unwind(Box::new(OutOfFuel));
    }
    FUEL.set(left - 1);
}

pub fn set_fuel(steps: u64) {
    FUEL.set(steps);
}

pub fn fuel_left() -> u64 {
    FUEL.get()
}

/// The planted mistake that is switched on in this thread; 0 for none.
pub fn mistake() -> usize {
    MISTAKE.get()
}

pub fn switch_mistake(number: usize) {
    MISTAKE.set(number);
}
