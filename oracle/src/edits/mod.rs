// What is taken from the Rust source, and every change made to it: tables only.
// Read twice: by build.rs, which applies and asserts them, and by the subcommand `edits`, which prints them.
// A find text quotes no more of the Rust source than is needed to meet its place.

// Only build.rs cuts and merges texts.
#[allow(dead_code)]
pub mod bodies;
pub mod instrument;
pub mod planted;

/// A run of whole lines of one seed file, read by build.rs. The first and the last line are asserted, to say which piece
/// has moved, and the SHA-256 of all of them, each with its line feed: `sed -n 'FIRST,LASTp' FILE | sha256sum` prints it.
#[allow(dead_code)]
pub struct Piece {
    pub name: &'static str,
    pub file: &'static str,
    pub lines: (usize, usize),
    pub first: &'static str,
    pub last: &'static str,
    pub sha256: &'static str,
    /// Text of ours around the piece (the head or the end of an `impl` that is cut).
    pub before: &'static str,
    pub after: &'static str,
}

/// A replacement that must meet exactly `count` places.
pub struct Edit {
    pub why: &'static str,
    pub count: usize,
    pub find: &'static str,
    pub put: &'static str,
}

pub const SCENE: &str = "crates/gdsr-viewer/src/bevy_scene.rs";
pub const DRAWABLE: &str = "crates/gdsr-viewer/src/drawable.rs";
pub const GRID: &str = "crates/gdsr/src/grid.rs";

const fn whole(
    name: &'static str,
    file: &'static str,
    lines: (usize, usize),
    first: &'static str,
    last: &'static str,
    sha256: &'static str,
) -> Piece {
    Piece { name, file, lines, first, last, sha256, before: "", after: "" }
}

pub const PIECES: &[Piece] = &[
    Piece {
        name: "Grid and its readers",
        file: GRID,
        lines: (6, 81),
        first: "#[derive(Clone, Debug, PartialEq)]",
        last: "    }",
        sha256: "486a60091d2c736f97f5a9b7edc854501f99467f57aaf5a1eb3073b11dee48f4",
        before: "",
        after: "}\n",
    },
    whole(
        "WorldBBox",
        DRAWABLE,
        (11, 44),
        "#[derive(Clone, Copy, Debug)]",
        "}",
        "3ae1c54c1b9c2b26334d5624d9a98323075e9c77792944028859b7a0aeb63a6a",
    ),
    whole(
        "limits of collapse",
        DRAWABLE,
        (246, 249),
        "const REF_LOAD_THRESHOLD_PX: f32 = 24.0;",
        "const REF_MAX_GRID_EXPANSION: u64 = 8_192;",
        "895172d885347b126614ff4c45461c2d2f6b51fbf98f25a66d60811a58fbb7b8",
    ),
    whole(
        "should_collapse_reference",
        DRAWABLE,
        (1126, 1151),
        "pub fn should_collapse_reference(",
        "}",
        "95c8d10f82d46d4ac2b1baa8d4f8e5ba63ef3c3df9c1a4d2ee195459b99188f0",
    ),
    whole(
        "limits of the planner",
        SCENE,
        (9, 16),
        "const MAX_DETAIL_CELLS: usize = 20_000;",
        "const MIN_FIXED_CONTENT_PX: f32 = 24.0;",
        "d5629f6cec544c70cf1a438f14b3aed9baf81337179c26eba5d3bb6f677c4b76",
    ),
    whole(
        "prepared library and plan",
        SCENE,
        (31, 123),
        "pub struct PreparedGeometry {",
        "}",
        "144b9669df028d40f6668cd2e7f2cffc4b28394283ea3aa667a44e3871605204",
    ),
    Piece {
        name: "PreparedLibrary::plan",
        file: SCENE,
        lines: (377, 398),
        first: "    pub fn plan(&self, cell_name: &str, options: &SceneOptions<'_>) -> ScenePlan {",
        last: "    }",
        sha256: "64eded15fe35fcbfc84541ff959f26a4ab570e2a46a9be4184aeeac30bb5ddf3",
        before: "impl PreparedLibrary {\n",
        after: "}\n",
    },
    whole(
        "Planner: visits, pushes, draw units",
        SCENE,
        (415, 724),
        "struct Planner<'a> {",
        "}",
        "3300defcb7a5bde43f72728712bfc0616ba0f500561bd10659750b2581a6cf5e",
    ),
    whole(
        "point_position",
        SCENE,
        (752, 754),
        "fn point_position(point: &Point) -> DVec2 {",
        "}",
        "589b51d1241157e263362d2a99e3809d6c561fa3741bf20c593ba1dd1c663415",
    ),
    whole(
        "grid_count to point_in_bbox",
        SCENE,
        (756, 837),
        "fn grid_count(grid: &Grid) -> u64 {",
        "}",
        "0ec0f7f1ede199aa8a245c92167708bea8984ae6102b5e61dcfe91258d411e53",
    ),
];

/// Made in both copies, the plain one too: what a stand-in needs.
pub const SUBSTITUTIONS: &[Edit] = &[
    Edit {
        why: "merge takes the first of equal values, which f64::min leaves open",
        count: 2,
        find: ".min(other.",
        put: ".first_least(other.",
    },
    Edit {
        why: "merge takes the first of equal values, which f64::max leaves open",
        count: 2,
        find: ".max(other.",
        put: ".first_greatest(other.",
    },
    Edit {
        why: "an inner reference is shared, not copied, so that long chains stay small",
        count: 1,
        find: "Reference(Box<PreparedReference>)",
        put: "Reference(Arc<PreparedReference>)",
    },
    Edit {
        why: "a reference listed by several cells is shared, not copied",
        count: 1,
        find: "references: Vec<PreparedReference>",
        put: "references: Vec<Arc<PreparedReference>>",
    },
];

/// Lines that a change request alters in the judge itself, made in both copies.
pub const ALTERATIONS: &[Edit] = &[
    Edit {
        why: "document 02, paper 3: a reference whose source counts 0 units counts 0",
        count: 1,
        find: "count.saturating_mul(source_count.max(1))",
        put: "count.saturating_mul(source_count)",
    },
    Edit {
        why: "document 02, paper 5: where a grid of bare node points runs out, the whole reference's box follows the member's",
        count: 1,
        find: "self.add_load(member_bbox, reference.label.clone());\n                        return;",
        put: "self.add_load(member_bbox, reference.label.clone());\n                        self.add_load(world_bbox, None);\n                        return;",
    },
];

#[allow(dead_code)]
/// Applies the edits in order; each must meet exactly its count of places.
pub fn apply(text: &str, edits: &[Edit], table: &str) -> String {
    let mut text = text.to_string();
    for edit in edits {
        let found = text.matches(edit.find).count();
        assert!(
            found == edit.count,
            "{table}: `{}` met {found} places, not {} ({})",
            edit.find,
            edit.count,
            edit.why
        );
        text = text.replace(edit.find, edit.put);
    }
    text
}
