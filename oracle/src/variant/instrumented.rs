// The entry of an instrumented copy: lists, and the events in their order. Spliced by build.rs.

/// `PreparedLibrary::plan` on an accepted sheet and query, with its record of events.
pub fn plan_run(sheet: &sheet::Sheet, query: &sheet::Query, settings: Settings) -> Run {
    let (library, references) = prepare(sheet);
    let visible = world_bbox(query.view);
    let hidden_layers = hidden_layers(query);
    let options = SceneOptions {
        visible: &visible,
        zoom: query.zoom,
        settings,
        depth: query.depth,
        hidden_layers: &hidden_layers,
    };
    let plan = library.plan(&query.root.to_string(), &options);
    let lists = lists(&plan);
    release(library, references);
    Run { lists, record: plan.record }
}
