// The edits that make the instrumented copy: it keeps the order of emission, the causes of proxies,
// what is not written (dropped, skipped, culled), the path of each event, counts the calls for a proxy, and takes its limits
// as given.
// None of them changes what is decided; every run checks its lists against the plain copy's.

use super::Edit;

const fn edit(why: &'static str, count: usize, find: &'static str, put: &'static str) -> Edit {
    Edit { why, count, find, put }
}

pub const INSTRUMENT: &[Edit] = &[
    // The limits and the record.
    edit(
        "settings travel with the options",
        1,
        "    pub zoom: f64,\n",
        "    pub zoom: f64,\n    pub settings: Settings,\n",
    ),
    edit(
        "the plan keeps the record of events",
        1,
        "    pub stats: SceneStats,\n",
        "    pub stats: SceneStats,\n    pub record: Record,\n",
    ),
    edit(
        "the record knows whether paths are kept",
        1,
        "plan: ScenePlan::default(),",
        "plan: ScenePlan { record: Record::new(options.settings.trace), ..ScenePlan::default() },",
    ),
    edit(
        "cell limit as given, and the cause noted",
        2,
        "if self.plan.stats.detail_cells >= MAX_DETAIL_CELLS {",
        "if self.plan.stats.detail_cells >= self.options.settings.limits.cells {\n            note(Cause::CellLimit);",
    ),
    edit(
        "object limit as given",
        1,
        "detail_objects >= MAX_SCENE_OBJECTS",
        "detail_objects >= self.options.settings.limits.objects",
    ),
    edit(
        "text limit as given",
        1,
        "texts.len() >= MAX_TEXT_INSTANCES",
        "texts.len() >= self.options.settings.limits.texts",
    ),
    edit(
        "proxy limit as given (budget)",
        1,
        "load_proxies.len() >= MAX_LOAD_PROXIES",
        "load_proxies.len() >= self.options.settings.limits.proxies",
    ),
    edit(
        "proxy limit as given (list)",
        1,
        "load_proxies.len() < MAX_LOAD_PROXIES",
        "load_proxies.len() < self.options.settings.limits.proxies",
    ),
    // Causes of proxies.
    edit(
        "cause: another limit, at a node of a cell",
        1,
        "if self.detail_budget_exhausted() || !self.push_node(node, transform) {",
        "if self.detail_budget_exhausted() || !self.push_node(node, transform) {\n                note(Cause::OtherLimit);",
    ),
    edit(
        "cause: another limit",
        8,
        "if self.detail_budget_exhausted() {",
        "if self.detail_budget_exhausted() {\n            note(Cause::OtherLimit);",
    ),
    edit(
        "cause: another limit, inside a member of a grid of bare node points, which is counted",
        1,
        "depth.saturating_sub(1),\n                    ) {",
        "depth.saturating_sub(1),\n                    ) {\n                        self.plan.record.ran_out += 1;\n                        note(Cause::OtherLimit);",
    ),
    edit(
        "cause: circle",
        1,
        "if !self.cell_stack.insert(cell_name.to_string()) {",
        "if !self.cell_stack.insert(cell_name.to_string()) {\n            note(Cause::Circle);",
    ),
    edit(
        "cause: depth 0",
        1,
        "                planner.add_load(bbox",
        "                note(Cause::DepthZero);\n                planner.add_load(bbox",
    ),
    edit(
        "cause: depth at most 1",
        1,
        "if force_bbox || reference_depth <= 1 {",
        "if force_bbox || reference_depth <= 1 {\n        note(Cause::DepthOne);",
    ),
    edit(
        "cause: side below 24 px",
        1,
        "if width_px < REF_LOAD_THRESHOLD_PX || height_px < REF_LOAD_THRESHOLD_PX {",
        "if width_px < REF_LOAD_THRESHOLD_PX || height_px < REF_LOAD_THRESHOLD_PX {\n        note(Cause::Side);",
    ),
    edit(
        "cause: grid above 8,192",
        1,
        "if grid_count > REF_MAX_GRID_EXPANSION {",
        "if grid_count > REF_MAX_GRID_EXPANSION {\n        note(Cause::Grid);",
    ),
    edit(
        "cause: dense reference",
        1,
        "    area_px.is_finite() && area_px / draw_unit_count as f32",
        "    note(Cause::DenseReference);\n    area_px.is_finite() && area_px / draw_unit_count as f32",
    ),
    edit(
        "cause: dense batch",
        1,
        "<= MIN_AVERAGE_ELEMENT_AREA_PX\n        {",
        "<= MIN_AVERAGE_ELEMENT_AREA_PX\n        {\n            note(Cause::DenseBatch);",
    ),
    // Calls for a proxy.
    edit(
        "document 02, paper 8: every call for a proxy is counted, and those that meet a full list, by a test apart from the list's own",
        1,
        "    fn add_load(&mut self, bbox: WorldBBox, label: Option<Arc<str>>) {\n",
        "    fn add_load(&mut self, bbox: WorldBBox, label: Option<Arc<str>>) {\n        let most = self.options.settings.limits.proxies;\n        self.plan.record.called = self.plan.record.called.saturating_add(1);\n        if self.plan.load_proxies.len() >= most {\n            self.plan.record.dropped = self.plan.record.dropped.saturating_add(1);\n        }\n",
    ),
    // Events in the order of emission.
    edit(
        "event: batch",
        1,
        "        self.plan.geometry_instances.push(GeometryInstance {",
        "        self.plan.record.emit(Event::Batch { number: geometry_id as u32, placement: six(transform) });\n        self.plan.geometry_instances.push(GeometryInstance {",
    ),
    edit(
        "event: text",
        1,
        "            self.plan.texts.push(TextInstance {",
        "            self.plan.record.emit(Event::Text { number: number_of(&text.value), position: two(position) });\n            self.plan.texts.push(TextInstance {",
    ),
    edit(
        "event: node point",
        1,
        "            self.plan\n                .node_points\n",
        "            self.plan.record.emit(Event::Point { layer: node.layer.0.value(), node_type: node.layer.1.value(), position: two(point), place: place as u32 });\n            self.plan\n                .node_points\n",
    ),
    edit(
        "event: proxy, listed or dropped",
        1,
        "            self.plan.load_proxies.push(LoadProxy { bbox, label });\n        }",
        "            self.plan.record.emit(Event::Proxy { label: label_of(&label), bbox: four(bbox), cause: noted() });\n            self.plan.load_proxies.push(LoadProxy { bbox, label });\n        } else {\n            self.plan.record.emit(Event::Dropped { label: label_of(&label), bbox: four(bbox), cause: noted() });\n        }",
    ),
    edit(
        "event: culled",
        2,
        "self.plan.stats.culled_references += 1;",
        "self.plan.record.quiet(Event::Culled);\n            self.plan.stats.culled_references += 1;",
    ),
    edit(
        "event: member skipped",
        1,
        "self.plan.stats.skipped_subpixel_references += 1;",
        "self.plan.record.quiet(Event::MemberSkipped { bbox: four(member_bbox), degenerate: source_is_degenerate });\n                    self.plan.stats.skipped_subpixel_references += 1;",
    ),
    edit(
        "event: batch culled",
        1,
        "self.plan.stats.culled_geometry_batches += 1;",
        "self.plan.record.quiet(Event::Culled);\n            self.plan.stats.culled_geometry_batches += 1;",
    ),
    edit(
        "event: batch skipped",
        1,
        "self.plan.stats.skipped_subpixel_geometry_batches += 1;",
        "self.plan.record.quiet(Event::BatchSkipped { bbox: four(bbox) });\n            self.plan.stats.skipped_subpixel_geometry_batches += 1;",
    ),
    // Where the visit stands: list places, members, points.
    edit(
        "path: where this cell's items begin",
        1,
        "        self.plan.stats.detail_cells += 1;\n",
        "        self.plan.stats.detail_cells += 1;\n        let base = self.plan.record.path.len();\n",
    ),
    edit(
        "path: a batch's list place",
        1,
        "for &geometry_id in &cell.geometry_ids {",
        "for (place, &geometry_id) in cell.geometry_ids.iter().enumerate() {\n            self.plan.record.at(base, Step::Batch(place as u32));",
    ),
    edit(
        "path: a text's list place",
        1,
        "for text in &cell.texts {",
        "for (place, text) in cell.texts.iter().enumerate() {\n            self.plan.record.at(base, Step::Text(place as u32));",
    ),
    edit(
        "path: a node's list place",
        1,
        "for node in &cell.nodes {",
        "for (place, node) in cell.nodes.iter().enumerate() {\n            self.plan.record.at(base, Step::Node(place as u32));",
    ),
    edit(
        "path: a reference's list place",
        1,
        "for reference in &cell.references {",
        "for (place, reference) in cell.references.iter().enumerate() {\n            self.plan.record.at(base, Step::Reference(place as u32));",
    ),
    edit(
        "path: where this grid's members begin",
        1,
        "        let source_units = draw_units",
        "        let base = self.plan.record.path.len();\n        let source_units = draw_units",
    ),
    edit(
        "path: a member; and the count of steps that stops a hostile sheet",
        1,
        "            for row in 0..reference.grid.rows() {",
        "            for row in 0..reference.grid.rows() {\n                tick();\n                self.plan.record.at(base, Step::Member(column, row));",
    ),
    edit(
        "path: the box that a limit between members adds is the reference's",
        1,
        "\n                    self.add_load(world_bbox, reference",
        "\n                    self.plan.record.back(base);\n                    self.add_load(world_bbox, reference",
    ),
    edit(
        "path: the box that follows a member's is the reference's",
        1,
        "self.add_load(world_bbox, None);",
        "self.plan.record.back(base);\n                        self.add_load(world_bbox, None);",
    ),
    edit(
        "path: a point's place in its node",
        1,
        "for point in &node.points {",
        "for (place, point) in node.points.iter().enumerate() {",
    ),
    edit(
        "the count of steps that stops a hostile sheet",
        1,
        "        let count = grid_count(&reference.grid);",
        "        tick();\n        let count = grid_count(&reference.grid);",
    ),
];
