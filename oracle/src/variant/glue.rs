// Builds the Rust's prepared library from a sheet that was read, in place of `PreparedLibrary::build`,
// and turns a finished plan into lists of patterns. Spliced by build.rs into each copy of the planner.
// A cell's name is its number in decimal; a text's value is its number, so that a listed text can be told.

fn layer_of(layer: u16, data_type: u16) -> (Layer, DataType) {
    (Layer::new(layer), DataType::new(data_type))
}

fn world_bbox(sides: [f64; 4]) -> WorldBBox {
    WorldBBox::new(sides[0], sides[1], sides[2], sides[3])
}

fn vector(pair: [f64; 2]) -> DVec2 {
    DVec2::new(pair[0], pair[1])
}

fn prepare_text(number: u32, text: &sheet::Text) -> PreparedText {
    PreparedText {
        value: Arc::<str>::from(number.to_string()),
        origin: vector(text.origin),
        layer: layer_of(text.layer, text.data_type),
    }
}

fn prepare_node(node: &sheet::Node) -> PreparedNode {
    PreparedNode {
        points: node.points.iter().map(|&point| vector(point)).collect(),
        layer: layer_of(node.layer, node.node_type),
    }
}

fn prepare_reference(
    sheet: &sheet::Sheet,
    reference: &sheet::Reference,
    earlier: &[Arc<PreparedReference>],
) -> PreparedReference {
    let source = match reference.source {
        sheet::Source::Batch(number) => PreparedSource::Geometry(number as usize),
        sheet::Source::Text(number) => {
            PreparedSource::Text(prepare_text(number, &sheet.texts[number as usize]))
        }
        sheet::Source::Node(number) => {
            PreparedSource::Node(prepare_node(&sheet.nodes[number as usize]))
        }
        sheet::Source::Reference(number) => {
            PreparedSource::Reference(Arc::clone(&earlier[number as usize]))
        }
        sheet::Source::Cell(number) => PreparedSource::Cell(number.to_string()),
    };
    let label = match reference.source {
        sheet::Source::Cell(number) => Some(Arc::<str>::from(number.to_string())),
        _ => None,
    };
    PreparedReference {
        grid: Grid::new(
            Point::of(reference.origin),
            u32::from(reference.columns),
            u32::from(reference.rows),
            Some(Point::of(reference.spacing_x)),
            Some(Point::of(reference.spacing_y)),
            reference.magnification,
            Radians { cos: reference.cos, sin: reference.sin },
            reference.reflection,
        ),
        source,
        source_bbox: reference.bbox.map(world_bbox),
        label,
    }
}

fn prepare_cell(
    sheet: &sheet::Sheet,
    cell: &sheet::Cell,
    references: &[Arc<PreparedReference>],
) -> PreparedCell {
    PreparedCell {
        geometry_ids: cell.batches.iter().map(|&number| number as usize).collect(),
        direct_draw_units: cell.units,
        texts: cell
            .texts
            .iter()
            .map(|&number| prepare_text(number, &sheet.texts[number as usize]))
            .collect(),
        nodes: cell.nodes.iter().map(|&number| prepare_node(&sheet.nodes[number as usize])).collect(),
        references: cell
            .references
            .iter()
            .map(|&number| Arc::clone(&references[number as usize]))
            .collect(),
        bbox: cell.bbox.map(world_bbox),
    }
}

/// The library, and its references in order: they are let go from the last, so that no long chain unwinds.
fn prepare(sheet: &sheet::Sheet) -> (PreparedLibrary, Vec<Arc<PreparedReference>>) {
    let geometries = sheet
        .batches
        .iter()
        .map(|batch| PreparedGeometry {
            layer: layer_of(batch.layer, batch.data_type),
            positions: Vec::new(),
            triangle_indices: Vec::new(),
            line_indices: Vec::new(),
            origin: DVec2::ZERO,
            bbox: world_bbox(batch.bbox),
            element_count: batch.elements,
        })
        .collect();
    let mut references = Vec::with_capacity(sheet.references.len());
    for reference in &sheet.references {
        let prepared = prepare_reference(sheet, reference, &references);
        references.push(Arc::new(prepared));
    }
    let mut cells = HashMap::with_capacity(sheet.cells.len());
    for (number, cell) in sheet.cells.iter().enumerate() {
        cells.insert(number.to_string(), prepare_cell(sheet, cell, &references));
    }
    (PreparedLibrary { cells, geometries }, references)
}

fn release(library: PreparedLibrary, mut references: Vec<Arc<PreparedReference>>) {
    drop(library);
    while references.pop().is_some() {}
}

fn hidden_layers(query: &sheet::Query) -> HashSet<(Layer, DataType)> {
    query.hidden.iter().map(|&key| layer_of((key >> 16) as u16, key as u16)).collect()
}

fn number_of(name: &str) -> u32 {
    name.parse().expect("a name of ours is a number")
}

fn label_of(label: &Option<Arc<str>>) -> Option<u32> {
    label.as_deref().map(number_of)
}

fn six(transform: DAffine2) -> [f64; 6] {
    let DAffine2 { matrix2: DMat2 { x_axis, y_axis }, translation } = transform;
    [x_axis.x, x_axis.y, y_axis.x, y_axis.y, translation.x, translation.y]
}

fn two(point: DVec2) -> [f64; 2] {
    [point.x, point.y]
}

fn four(bbox: WorldBBox) -> [f64; 4] {
    [bbox.min_x, bbox.min_y, bbox.max_x, bbox.max_y]
}

/// The Rust's own lists.
fn lists(plan: &ScenePlan) -> Lists {
    let stats = &plan.stats;
    Lists {
        batches: plan
            .geometry_instances
            .iter()
            .map(|instance| (instance.geometry_id as u32, patterns(six(instance.transform))))
            .collect(),
        texts: plan
            .texts
            .iter()
            .map(|text| (number_of(&text.value), patterns(two(text.position))))
            .collect(),
        points: plan
            .node_points
            .iter()
            .map(|(layer, points)| {
                let points = points.iter().map(|&point| patterns(two(point))).collect();
                ((layer.0.value(), layer.1.value()), points)
            })
            .collect(),
        proxies: plan
            .load_proxies
            .iter()
            .map(|proxy| (label_of(&proxy.label), patterns(four(proxy.bbox))))
            .collect(),
        totals: [
            stats.detail_cells as u64,
            stats.detail_objects as u64,
            stats.culled_references as u64,
            stats.skipped_subpixel_references as u64,
            stats.culled_geometry_batches as u64,
            stats.skipped_subpixel_geometry_batches as u64,
        ],
    }
}
