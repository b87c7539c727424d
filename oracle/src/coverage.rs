//! What a case shows: refusals, record kinds, sources, causes of proxies, limits, ranges. Counted over a run of cases.

use std::collections::{BTreeMap, BTreeSet};

use crate::answer::{End, Outcome};
use crate::events::{Cause, Event, Limits, Run};
use crate::levels::{self, Deep};
use crate::sheet::{Cell, Query, Sheet, Source};

/// Every tag that a full run should show, in the order of the table.
pub const TAGS: &[&str] = &[
    "planned", "no-query", "too-long",
    "refusal-1", "refusal-2", "refusal-3", "refusal-4", "refusal-5", "refusal-6", "refusal-7",
    "refusal-8", "refusal-9", "refusal-10", "refusal-11", "refusal-12", "refusal-13-open", "refusal-13-plan",
    "kind-1-batch", "kind-2-text", "kind-3-node", "kind-4-reference", "kind-5-cell",
    "source-batch", "source-text", "source-node", "source-reference", "source-cell", "source-missing-cell",
    "record-11-batch", "record-12-text", "record-13-point", "record-14-proxy", "record-15-totals-only",
    "proxy-depth-0", "proxy-cell-limit", "proxy-other-limit", "proxy-circle", "proxy-depth-1",
    "proxy-side", "proxy-grid", "proxy-dense-reference", "proxy-dense-batch",
    "label-cell", "label-none",
    "limit-cells", "limit-objects", "limit-texts", "limit-proxies", "proxy-dropped", "dropped-two-or-more", "dropped-63",
    "dropped-95", "node-grid-limit",
    "culled-reference", "skipped-reference", "culled-batch", "skipped-batch",
    "hidden-layers", "depth-0", "depth-32", "depth-33", "depth-47", "depth-48", "deep-32", "deep-48",
    "level-33-item", "level-33-proxy", "level-33-dense", "level-33-inner", "level-33-circle", "level-48-item", "level-48-circle",
    "absent-box", "zero-columns-or-rows", "reflection", "slanted", "not-finite-zoomed",
    "below-root", "listed-huge", "listed-subnormal", "below-root-huge", "below-root-subnormal", "turn-of-no-angle",
    "view-huge", "zoom-greatest", "zoom-subnormal",
    "node-50-points", "text-512-bytes", "list-65535", "hidden-65000", "cells-3000", "cells-4096", "inner-chain-3000",
];

fn sheet_tags(sheet: &Sheet, tags: &mut BTreeSet<&'static str>) {
    let lists = [
        (sheet.batches.is_empty(), "kind-1-batch"),
        (sheet.texts.is_empty(), "kind-2-text"),
        (sheet.nodes.is_empty(), "kind-3-node"),
        (sheet.references.is_empty(), "kind-4-reference"),
        (sheet.cells.is_empty(), "kind-5-cell"),
    ];
    tags.extend(lists.iter().filter(|list| !list.0).map(|list| list.1));
    for reference in &sheet.references {
        tags.insert(match reference.source {
            Source::Batch(_) => "source-batch",
            Source::Text(_) => "source-text",
            Source::Node(_) => "source-node",
            Source::Reference(_) => "source-reference",
            Source::Cell(number) if number as usize >= sheet.cells.len() => "source-missing-cell",
            Source::Cell(_) => "source-cell",
        });
        if reference.bbox.is_none() {
            tags.insert("absent-box");
        }
        if reference.columns == 0 || reference.rows == 0 {
            tags.insert("zero-columns-or-rows");
        }
        if reference.reflection {
            tags.insert("reflection");
        }
        if reference.cos * reference.sin != 0.0 {
            tags.insert("slanted");
        }
    }
    if sheet.cells.iter().any(|cell| cell.bbox.is_none()) {
        tags.insert("absent-box");
    }
}

fn run_tags(run: &Run, tags: &mut BTreeSet<&'static str>) {
    for event in &run.record.events {
        match event {
            Event::Batch { .. } => tags.insert("record-11-batch"),
            Event::Text { .. } => tags.insert("record-12-text"),
            Event::Point { .. } => tags.insert("record-13-point"),
            Event::Proxy { cause, label, .. } => {
                tags.insert(if label.is_some() { "label-cell" } else { "label-none" });
                tags.insert(cause_tag(*cause));
                tags.insert("record-14-proxy")
            }
            Event::Dropped { .. } => tags.insert("proxy-dropped"),
            _ => false,
        };
    }
    if run.record.events.is_empty() {
        tags.insert("record-15-totals-only");
    }
    let [cells, objects, culled, skipped, culled_batches, skipped_batches] = run.lists.totals;
    let limits = Limits::DOCUMENT;
    let met = [
        (cells >= limits.cells as u64, "limit-cells"),
        (objects >= limits.objects as u64, "limit-objects"),
        (run.lists.texts.len() >= limits.texts, "limit-texts"),
        (run.lists.proxies.len() >= limits.proxies, "limit-proxies"),
        (culled > 0, "culled-reference"),
        (skipped > 0, "skipped-reference"),
        (culled_batches > 0, "culled-batch"),
        (skipped_batches > 0, "skipped-batch"),
        (run.record.dropped >= 2, "dropped-two-or-more"),
        (run.record.dropped == 63, "dropped-63"),
        (run.record.dropped == 95, "dropped-95"),
        (run.record.ran_out > 0, "node-grid-limit"),
    ];
    tags.extend(met.iter().filter(|tag| tag.0).map(|tag| tag.1));
}

/// The tags of what stands at levels that only a depth above 32 reaches.
const LEVEL_TAGS: &[(Deep, &str)] = &[
    (Deep::Item, "level-33-item"),
    (Deep::Box, "level-33-proxy"),
    (Deep::DenseReference, "level-33-dense"),
    (Deep::Inner, "level-33-inner"),
    (Deep::Circle, "level-33-circle"),
    (Deep::ItemAt48, "level-48-item"),
    (Deep::CircleAt48, "level-48-circle"),
];

/// Above this a float counts as huge.
const HUGE: f64 = 1e100;

fn is_huge(value: f64) -> bool {
    value.is_finite() && value.abs() >= HUGE
}

/// The floats of a listed record.
fn listed(event: &Event) -> &[f64] {
    match event {
        Event::Batch { placement, .. } => placement,
        Event::Text { position, .. } | Event::Point { position, .. } => position,
        Event::Proxy { bbox, .. } => bbox,
        _ => &[],
    }
}

/// The ranges of floats that a plan with something listed reaches.
fn float_tags(sheet: &Sheet, query: &Query, run: &Run, tags: &mut BTreeSet<&'static str>) {
    let values = || run.record.events.iter().flat_map(listed).copied();
    let (huge, subnormal) = (values().any(is_huge), values().any(f64::is_subnormal));
    let (below, any) = (run.lists.totals[0] > 1, values().next().is_some());
    let no_angle = |length: f64| !(0.5..2.0).contains(&length);
    let turned = sheet.references.iter().any(|reference| no_angle(reference.cos.hypot(reference.sin)));
    let shown = [
        (below, "below-root"),
        (huge, "listed-huge"),
        (subnormal, "listed-subnormal"),
        (below && huge, "below-root-huge"),
        (below && subnormal, "below-root-subnormal"),
        (below && turned, "turn-of-no-angle"),
        (any && query.view.into_iter().any(is_huge), "view-huge"),
        (any && query.zoom == f64::MAX, "zoom-greatest"),
        (any && query.zoom.is_subnormal(), "zoom-subnormal"),
    ];
    tags.extend(shown.iter().filter(|tag| tag.0).map(|tag| tag.1));
}

/// The longest chain of references in references. A source stands before what places it.
fn longest_inner_chain(sheet: &Sheet) -> usize {
    let mut lengths: Vec<usize> = Vec::new();
    for reference in &sheet.references {
        lengths.push(match reference.source {
            Source::Reference(inner) => lengths[inner as usize] + 1,
            _ => 1,
        });
    }
    lengths.into_iter().max().unwrap_or(0)
}

/// How long records, lists and chains are.
fn length_tags(sheet: &Sheet, query: &Query, tags: &mut BTreeSet<&'static str>) {
    let lists = |cell: &Cell| [&cell.batches, &cell.texts, &cell.nodes, &cell.references].map(Vec::len);
    let shown = [
        (sheet.nodes.iter().any(|node| node.points.len() == 50), "node-50-points"),
        (sheet.texts.iter().any(|text| text.value_bytes == 512), "text-512-bytes"),
        (sheet.cells.iter().any(|cell| lists(cell).contains(&65_535)), "list-65535"),
        (query.hidden.len() >= 65_000, "hidden-65000"),
        (sheet.cells.len() >= 3_000, "cells-3000"),
        (sheet.cells.len() == 4_096, "cells-4096"),
        (longest_inner_chain(sheet) >= 3_000, "inner-chain-3000"),
    ];
    tags.extend(shown.iter().filter(|tag| tag.0).map(|tag| tag.1));
}

pub fn cause_tag(cause: Cause) -> &'static str {
    match cause {
        Cause::DepthZero => "proxy-depth-0",
        Cause::CellLimit => "proxy-cell-limit",
        Cause::OtherLimit => "proxy-other-limit",
        Cause::Circle => "proxy-circle",
        Cause::DepthOne => "proxy-depth-1",
        Cause::Side => "proxy-side",
        Cause::Grid => "proxy-grid",
        Cause::DenseReference => "proxy-dense-reference",
        Cause::DenseBatch => "proxy-dense-batch",
    }
}

fn refusal_tag(number: u32) -> &'static str {
    TAGS.iter().find(|tag| **tag == format!("refusal-{number}")).expect("a refusal of document 01")
}

/// The tags of one case.
pub fn tags(outcome: &Outcome) -> BTreeSet<&'static str> {
    let mut tags = BTreeSet::new();
    match outcome.end {
        End::TooLong => tags.insert("too-long"),
        End::NoQuery => tags.insert("no-query"),
        End::Refused(refusal) => tags.insert(refusal_tag(refusal.number)),
        End::Planned => tags.insert("planned"),
    };
    if let (Some(sheet), Some(run), Some(query)) = (&outcome.sheet, &outcome.run, &outcome.query) {
        sheet_tags(sheet, &mut tags);
        run_tags(run, &mut tags);
        tags.extend(levels::names(run, LEVEL_TAGS));
        float_tags(sheet, query, run, &mut tags);
        length_tags(sheet, query, &mut tags);
        let asked = [
            (!query.hidden.is_empty(), "hidden-layers"),
            (query.depth == 0, "depth-0"),
            (query.depth == 32, "depth-32"),
            (query.depth == 33, "depth-33"),
            (query.depth == 47, "depth-47"),
            (query.depth == 48, "depth-48"),
            (query.depth == 32 && tags.contains("proxy-depth-1"), "deep-32"),
            (query.depth == 48 && tags.contains("proxy-depth-1"), "deep-48"),
            (query.zoom > 2f64.powi(64), "not-finite-zoomed"),
        ];
        tags.extend(asked.iter().filter(|tag| tag.0).map(|tag| tag.1));
    }
    tags
}

/// The most proxies that one plan dropped, of those that were seen, and the first case with so many.
#[derive(Default)]
pub struct MostDropped {
    pub proxies: u64,
    case: String,
}

impl MostDropped {
    pub fn see(&mut self, proxies: u64, case: impl FnOnce() -> String) {
        if proxies > self.proxies {
            *self = Self { proxies, case: case() };
        }
    }

    /// The line that a command prints.
    pub fn line(&self, of: &str) -> String {
        let case = if self.proxies > 0 { format!(" ({})", self.case) } else { String::new() };
        format!("most proxies dropped in one plan, {of}: {}{case}\n", self.proxies)
    }
}

/// Number of cases by tag.
#[derive(Default)]
pub struct Coverage(BTreeMap<&'static str, u64>);

impl Coverage {
    pub fn add(&mut self, tags: &BTreeSet<&'static str>) {
        for tag in tags {
            *self.0.entry(tag).or_default() += 1;
        }
    }

    pub fn add_tag(&mut self, tag: &'static str) {
        *self.0.entry(tag).or_default() += 1;
    }

    pub fn count(&self, tag: &str) -> u64 {
        self.0.get(tag).copied().unwrap_or(0)
    }

    /// The tags that no case shows.
    pub fn gaps(&self) -> Vec<&'static str> {
        TAGS.iter().copied().filter(|tag| self.count(tag) == 0).collect()
    }

    /// Rows of four tags with their counts.
    pub fn table(&self) -> String {
        let rows: Vec<String> = TAGS
            .chunks(4)
            .map(|row| {
                let row: Vec<String> =
                    row.iter().map(|tag| format!("{tag:24}{:7}", self.count(tag))).collect();
                row.join("  ").trim_end().to_string()
            })
            .collect();
        rows.join("\n") + "\n"
    }
}
