//! Demand 3 on one plan: each clause of document 01's "Words used in demand 3", against the events and every path; and the
//! sentences of document 02's Papers 5 and 8.

use std::collections::HashSet;

use super::exact::{Placement, Sides, encloses, whole};
use super::node_grids;
use super::paths::{Item, Paths};
use crate::events::{Event, Limits, Run, Step};
use crate::sheet::{Query, Sheet};

/// What the plan gives to hold against the paths.
struct Given<'a> {
    /// Boxes of proxies, listed or dropped.
    boxes: Vec<Sides>,
    listed: HashSet<&'a [Step]>,
    skipped: HashSet<&'a [Step]>,
}

/// The first fault, if any.
pub fn fault(sheet: &Sheet, query: &Query, limits: Limits, run: &Run, paths: &Paths) -> Option<String> {
    let given = match gather(query, limits, run, paths) {
        Ok(given) => given,
        Err(fault) => return Some(fault),
    };
    for (path, item) in &paths.items {
        if is_to_be_seen(sheet, query, item) && !is_covered(sheet, path, item, &given) {
            return Some(format!("lost: {item:?} at {path:?}"));
        }
    }
    node_grids::fault(run, paths)
}

/// Checks each event by itself, and gathers them.
fn gather<'a>(query: &Query, limits: Limits, run: &'a Run, paths: &Paths) -> Result<Given<'a>, String> {
    let mut given = Given { boxes: Vec::new(), listed: HashSet::new(), skipped: HashSet::new() };
    let mut proxies = 0;
    for (event, path) in run.record.events.iter().zip(&run.record.paths) {
        match event {
            Event::Batch { .. } | Event::Text { .. } | Event::Point { .. } => {
                if !paths.items.get(path).is_some_and(|item| lists(event, item)) {
                    return Err(format!("{event:?} is not what {path:?} leads to"));
                }
                if !given.listed.insert(path) {
                    return Err(format!("listed twice: {path:?}"));
                }
            }
            Event::Proxy { bbox, .. } => {
                proxies += 1;
                given.boxes.push(whole(*bbox));
            }
            Event::Dropped { bbox, .. } => {
                if proxies != limits.proxies {
                    return Err(format!("a proxy was dropped when {proxies} were listed"));
                }
                given.boxes.push(whole(*bbox));
            }
            Event::MemberSkipped { .. } | Event::BatchSkipped { .. } => {
                if !is_rightly_skipped(event, path, query, paths) {
                    return Err(format!("skipped, but not under one pixel both ways: {path:?}"));
                }
                given.skipped.insert(path);
            }
            Event::Culled => {}
        }
    }
    if run.lists.totals[1] != given.listed.len() as u64 {
        return Err("objects are not the listed batches, texts and points".to_string());
    }
    run.check_calls()?;
    Ok(given)
}

/// A member is measured by its exact placed box; a source without area is raised to 24 pixels, so never skipped.
fn is_rightly_skipped(event: &Event, path: &[Step], query: &Query, paths: &Paths) -> bool {
    match event {
        Event::BatchSkipped { bbox } => is_small(whole(*bbox), query.zoom),
        _ => paths.passed.get(path).is_some_and(|passed| {
            !passed.degenerate && passed.sides.is_some_and(|sides| is_small(sides, query.zoom))
        }),
    }
}

fn placement_is(values: &[f64; 6], placement: &Placement) -> bool {
    let exact = [placement.x_axis, placement.y_axis, placement.translation].concat();
    values.iter().zip(exact).all(|(&value, exact)| value == exact as f64 && value as i128 == exact)
}

/// "listed by a record of its own, with the item's number and its exact whole-number placement"
fn lists(event: &Event, item: &Item) -> bool {
    let at = |position: &[f64; 2], exact: &[i128; 2]| {
        position.iter().zip(exact).all(|(&value, &exact)| value == exact as f64)
    };
    match (event, item) {
        (Event::Batch { number, placement }, Item::Batch { number: own, placement: exact }) => {
            number == own && placement_is(placement, exact)
        }
        (Event::Text { number, position }, Item::Text { number: own, position: exact }) => {
            number == own && at(position, exact)
        }
        (
            Event::Point { layer, node_type, position, .. },
            Item::Point { layer: own_layer, node_type: own_type, position: exact },
        ) => layer == own_layer && node_type == own_type && at(position, exact),
        _ => false,
    }
}

/// "measure under one pixel in width and in height"
fn is_small(sides: Sides, zoom: f64) -> bool {
    let pixels = |size: i128| (size as f64 * zoom) as f32;
    pixels(sides[2] - sides[0]) < 1.0 && pixels(sides[3] - sides[1]) < 1.0
}

fn touches(a: Sides, b: Sides) -> bool {
    a[2] >= b[0] && a[0] <= b[2] && a[3] >= b[1] && a[1] <= b[3]
}

fn point_sides(p: [i128; 2]) -> Sides {
    [p[0], p[1], p[0], p[1]]
}

/// The item's place as a box: a point, or a batch's placed box.
fn placed(sheet: &Sheet, item: &Item) -> Sides {
    match item {
        Item::Batch { number, placement } => placement.sides(whole(sheet.batches[*number as usize].bbox)),
        Item::Text { position, .. } | Item::Point { position, .. } => point_sides(*position),
    }
}

fn in_view(sheet: &Sheet, item: &Item, view: Sides) -> bool {
    let held = match item {
        Item::Batch { number, .. } => sheet.batches[*number as usize].elements >= 1,
        _ => true,
    };
    held && touches(placed(sheet, item), view)
}

fn is_shown(sheet: &Sheet, query: &Query, item: &Item) -> bool {
    let (layer, kind) = match item {
        Item::Batch { number, .. } => {
            let batch = &sheet.batches[*number as usize];
            (batch.layer, batch.data_type)
        }
        Item::Text { number, .. } => {
            let text = &sheet.texts[*number as usize];
            (text.layer, text.data_type)
        }
        Item::Point { layer, node_type, .. } => (*layer, *node_type),
    };
    !query.hidden.contains(&(u32::from(layer) * 65_536 + u32::from(kind)))
}

/// "in view on a shown layer"
pub fn is_to_be_seen(sheet: &Sheet, query: &Query, item: &Item) -> bool {
    in_view(sheet, item, whole(query.view)) && is_shown(sheet, query, item)
}

fn is_covered(sheet: &Sheet, path: &[Step], item: &Item, given: &Given) -> bool {
    let own = placed(sheet, item);
    given.listed.contains(path)
        || given.boxes.iter().any(|&sides| encloses(sides, own))
        || (0..=path.len()).any(|length| given.skipped.contains(&path[..length]))
}
