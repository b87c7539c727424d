//! Document 02's Paper 5 on one plan: its own sentence, and where node grids met a limit, so that a run says what it tried.

use std::collections::BTreeSet;

use super::exact::{Sides, encloses, whole};
use super::paths::{Item, Passed, Paths};
use crate::events::{Cause, Event, Limits, Run, Step};

/// The boxes of members at which a grid of bare node points ran out: the place among the events, the member, and the exact box of
/// the whole reference.
fn run_outs<'a>(run: &'a Run, paths: &'a Paths) -> impl Iterator<Item = (usize, &'a Passed, Sides)> {
    (0..run.record.events.len()).filter_map(|place| {
        let (_, _, cause) = run.record.events[place].boxed()?;
        let passed = paths.passed.get(&run.record.paths[place])?;
        passed.node_grid.filter(|_| cause == Cause::OtherLimit).map(|sides| (place, passed, sides))
    })
}

/// "Then the whole reference's box shall be added after the member's box, without a label, also if that member is the last."
/// What is missing, if anything.
pub fn fault(run: &Run, paths: &Paths) -> Option<String> {
    let boxed = run_outs(run, paths).count();
    if boxed != run.record.ran_out {
        return Some(format!("{} node grids ran out, and {boxed} members are boxed for it", run.record.ran_out));
    }
    run_outs(run, paths).find_map(|(place, passed, sides)| {
        let missing = missing(run, place, passed, sides)?;
        Some(format!("a node grid of box {sides:?} ran out at {:?}: {missing}", run.record.paths[place]))
    })
}

fn missing(run: &Run, place: usize, passed: &Passed, reference: Sides) -> Option<&'static str> {
    let boxed = |place: usize| run.record.events.get(place).and_then(Event::boxed);
    let is = |bbox: [f64; 4], sides: Sides| bbox == sides.map(|side| side as f64);
    let (_, own, _) = boxed(place)?;
    let Some((label, bbox, cause)) = boxed(place + 1) else { return Some("the reference's box is missing, no box follows") };
    let member = &run.record.paths[place];
    let claims = [
        (passed.sides.is_some_and(|sides| is(own, sides)), "the member's box is missing, another stands there"),
        (run.record.paths[place + 1] == member[..member.len() - 1], "the reference's box is missing, another part's follows"),
        (cause == Cause::OtherLimit, "the reference's box has another cause"),
        (label.is_none(), "the reference's box has a label"),
        (is(bbox, reference), "the reference's box is not the whole reference's"),
    ];
    claims.iter().find(|claim| !claim.0).map(|claim| claim.1)
}

const MEMBERS: [&str; 4] = ["the first member", "a middle member", "the last member", "the only member"];
/// What a grid that ran out may show besides.
const LATER: &str = ", later members in view";
const ALONE: &str = ", later members in no other box";
const DROPPED: &str = ", the reference's box dropped";

fn ran_out_in(member: &str, besides: &str) -> String {
    format!("ran out in {member}{besides}")
}

fn filled_in(limit: Limit, member: &str) -> String {
    format!("{limit:?} filled in {member}, later points in view")
}

/// What a long run must show: a grid that ran out in each member, with all that it may show besides, and each limit filled in each
/// member of several.
pub fn wanted() -> Vec<String> {
    let several = &MEMBERS[..3];
    let filled = Limit::ALL.iter().flat_map(|&limit| several.iter().map(move |member| filled_in(limit, member)));
    let with_later = MEMBERS[..2].iter().flat_map(|member| [LATER, ALONE].map(|besides| ran_out_in(member, besides)));
    let others = MEMBERS.iter().flat_map(|member| ["", DROPPED].map(|besides| ran_out_in(member, besides)));
    filled.chain(with_later).chain(others).collect()
}

/// A point of a node grid that is to be seen: its path and place.
type Point<'a> = (&'a [Step], Sides);

/// What a plan shows of node grids at a limit, each once.
pub fn shown<'a>(run: &Run, limits: Limits, paths: &'a Paths, is_to_be_seen: impl Fn(&Item) -> bool) -> BTreeSet<String> {
    let filled = filled(&run.record.events, limits);
    if filled.is_empty() {
        return BTreeSet::new();
    }
    let point = |(path, item): (&'a Vec<Step>, &Item)| match item {
        Item::Point { position: [x, y], .. } if is_of_node_grid(paths, &path[..path.len() - 1]) && is_to_be_seen(item) => {
            Some((&path[..], [*x, *y, *x, *y]))
        }
        _ => None,
    };
    let points: Vec<Point> = paths.items.iter().filter_map(point).collect();
    let mut shown: BTreeSet<String> = run_outs(run, paths).flat_map(|(place, ..)| run_out(run, place, paths, &points)).collect();
    for (limit, place) in filled {
        let path = &run.record.paths[place];
        let is_later = points.iter().any(|point| point.0 > &path[..]);
        if let Some(member) = limit.member(&run.record.events[place], path, paths).filter(|_| is_later) {
            shown.insert(filled_in(limit, which(paths, member)));
        }
    }
    shown
}

/// What one grid shows that ran out: in which member, what is seen of later members, whether the reference's box was dropped.
fn run_out(run: &Run, place: usize, paths: &Paths, points: &[Point]) -> Vec<String> {
    let member = &run.record.paths[place][..];
    let reference = &member[..member.len() - 1];
    let is_later = |path: &[Step]| path.starts_with(reference) && !path.starts_with(member) && path > member;
    let later: Vec<&Point> = points.iter().filter(|point| is_later(point.0)).collect();
    let others = run.record.events.iter().enumerate().filter(|(other, _)| *other != place + 1);
    let boxes: Vec<Sides> = others.filter_map(|(_, event)| event.boxed()).map(|(_, bbox, _)| whole(bbox)).collect();
    let is_in_other = |point: &Point| boxes.iter().any(|&sides| encloses(sides, point.1));
    let tags = [
        (true, ""),
        (!later.is_empty(), LATER),
        (later.iter().any(|point| !is_in_other(point)), ALONE),
        (matches!(run.record.events.get(place + 1), Some(Event::Dropped { .. })), DROPPED),
    ];
    tags.iter().filter(|tag| tag.0).map(|tag| ran_out_in(which(paths, member), tag.1)).collect()
}

fn is_of_node_grid(paths: &Paths, member: &[Step]) -> bool {
    paths.passed.get(member).is_some_and(|passed| passed.node_grid.is_some())
}

/// Which member of its grid a path ends in.
fn which(paths: &Paths, member: &[Step]) -> &'static str {
    let Some((Step::Member(column, row), reference)) = member.split_last() else { panic!("{member:?} is no member") };
    let is_there = |column, row| paths.passed.contains_key(&[reference, &[Step::Member(column, row)]].concat());
    let is_last = !is_there(*column, row + 1) && !is_there(column + 1, 0);
    MEMBERS[match ((*column, *row) == (0, 0), is_last) {
        (true, false) => 0,
        (false, false) => 1,
        (false, true) => 2,
        (true, true) => 3,
    }]
}

/// The limits that a plan counts up to by what it lists.
#[derive(Clone, Copy, Debug)]
enum Limit {
    Objects,
    Texts,
    Proxies,
}

impl Limit {
    const ALL: [Self; 3] = [Self::Objects, Self::Texts, Self::Proxies];

    fn most(self, limits: Limits) -> usize {
        match self {
            Self::Objects => limits.objects,
            Self::Texts => limits.texts,
            Self::Proxies => limits.proxies,
        }
    }

    fn counts(self, event: &Event) -> bool {
        match event {
            Event::Text { .. } => matches!(self, Self::Objects | Self::Texts),
            Event::Batch { .. } | Event::Point { .. } => matches!(self, Self::Objects),
            Event::Proxy { .. } => matches!(self, Self::Proxies),
            _ => false,
        }
    }

    /// The member in which an event fills the limit: of objects and proxies the innermost one, of a node grid; of texts, which
    /// no node grid holds, the outermost one. The box of a member that ran out is left to objects.
    fn member<'a>(self, event: &Event, path: &'a [Step], paths: &Paths) -> Option<&'a [Step]> {
        let is_member = |step: &Step| matches!(step, Step::Member(..));
        if matches!(self, Self::Texts) {
            return path.iter().position(is_member).map(|place| &path[..=place]);
        }
        let member = path.iter().rposition(is_member).map(|place| &path[..=place])?;
        let ran_out = event.boxed().is_some_and(|(_, _, cause)| cause == Cause::OtherLimit);
        (is_of_node_grid(paths, member) && !ran_out).then_some(member)
    }
}

/// The limits that were met, each with the place of the event that filled it.
fn filled(events: &[Event], limits: Limits) -> Vec<(Limit, usize)> {
    let filling = |limit: Limit| {
        let mut counted = events.iter().enumerate().filter(|(_, event)| limit.counts(event));
        counted.nth(limit.most(limits).checked_sub(1)?).map(|(place, _)| (limit, place))
    };
    Limit::ALL.into_iter().filter_map(filling).collect()
}
