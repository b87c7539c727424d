// The entry of the plain copy: the plan's lists. Spliced by build.rs.

fn plan_prepared(library: &PreparedLibrary, query: &sheet::Query) -> ScenePlan {
    let visible = world_bbox(query.view);
    let hidden_layers = hidden_layers(query);
    let options = SceneOptions {
        visible: &visible,
        zoom: query.zoom,
        depth: query.depth,
        hidden_layers: &hidden_layers,
    };
    library.plan(&query.root.to_string(), &options)
}

/// `PreparedLibrary::plan` on an accepted sheet and query.
pub fn plan_lists(sheet: &sheet::Sheet, query: &sheet::Query) -> Lists {
    let (library, references) = prepare(sheet);
    let lists = lists(&plan_prepared(&library, query));
    release(library, references);
    lists
}

/// The times of preparing and of `plan`.
pub fn plan_timed(sheet: &sheet::Sheet, query: &sheet::Query) -> [std::time::Duration; 2] {
    let start = std::time::Instant::now();
    let (library, references) = prepare(sheet);
    let prepared = start.elapsed();
    let start = std::time::Instant::now();
    let plan = std::hint::black_box(plan_prepared(&library, query));
    let planned = start.elapsed();
    drop(plan);
    release(library, references);
    [prepared, planned]
}

/// `cell_draw_units` of one planner, asked in turn: what it counts, with what it remembers from before.
pub fn draw_units(sheet: &sheet::Sheet, asked: &[(u32, u32)]) -> Vec<u64> {
    let (library, references) = prepare(sheet);
    let visible = world_bbox([0.0; 4]);
    let hidden_layers = HashSet::new();
    let options = SceneOptions { visible: &visible, zoom: 1.0, depth: 0, hidden_layers: &hidden_layers };
    let mut planner = Planner {
        library: &library,
        options: &options,
        plan: ScenePlan::default(),
        complexity_cache: HashMap::new(),
        complexity_stack: HashSet::new(),
        cell_stack: HashSet::new(),
    };
    let counts =
        asked.iter().map(|(cell, depth)| planner.cell_draw_units(&cell.to_string(), *depth)).collect();
    release(library, references);
    counts
}
