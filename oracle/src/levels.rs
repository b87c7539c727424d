//! What events show at levels that only a depth above 32 reaches: for the coverage of cases and for the brute force.

use crate::events::{Cause, Event, Level, Run};

/// At level 33 or deeper, but for the last two.
#[derive(Clone, Copy, PartialEq, Eq)]
pub enum Deep {
    Batch,
    Text,
    Point,
    Item,
    Box,
    DenseReference,
    Circle,
    Limit,
    /// Something behind an inner reference that leads there.
    Inner,
    ItemAt48,
    CircleAt48,
}

/// What one event shows.
fn shown(event: &Event, level: &Level) -> Vec<Deep> {
    if level.own <= 32 {
        return Vec::new();
    }
    let (batch, text) = (matches!(event, Event::Batch { .. }), matches!(event, Event::Text { .. }));
    let point = matches!(event, Event::Point { .. });
    let item = batch || text || point;
    let cause = event.boxed().map(|(_, _, cause)| cause);
    let circle = cause == Some(Cause::Circle);
    let kinds = [
        (batch, Deep::Batch),
        (text, Deep::Text),
        (point, Deep::Point),
        (item, Deep::Item),
        (cause.is_some(), Deep::Box),
        (cause == Some(Cause::DenseReference), Deep::DenseReference),
        (circle, Deep::Circle),
        (matches!(cause, Some(Cause::CellLimit | Cause::OtherLimit)), Deep::Limit),
        (level.inner > 32, Deep::Inner),
        (level.own == 48 && item, Deep::ItemAt48),
        (level.own == 48 && circle, Deep::CircleAt48),
    ];
    kinds.into_iter().filter(|kind| kind.0).map(|kind| kind.1).collect()
}

/// The names, of those that are given, of what a plan shows; a name may come more than once.
pub fn names(run: &Run, named: &'static [(Deep, &'static str)]) -> impl Iterator<Item = &'static str> {
    let events = run.record.events.iter().zip(&run.record.levels);
    let kinds = events.flat_map(|(event, level)| shown(event, level));
    kinds.filter_map(|kind| named.iter().find(|(other, _)| *other == kind).map(|(_, name)| *name))
}
