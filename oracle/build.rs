//! Takes the planner's text from the Rust source and writes the copies of it into OUT_DIR: one plain (with
//! substitutions and alterations alone), one instrumented, one with all planted mistakes, each behind a switch.
//! Every piece and edit is asserted.
//! The source is found by GDSR_SOURCE, else at ../../shared/docs/src beside the repository. Where it is absent the
//! build goes on without a planner, and every subcommand that plans says so.
//! With the feature `library` the static libraries of the Rattle planner are linked, from RIBALTZEN_LIBRARY or else
//! from ../crates/NAME/out, where `tools/built` makes them.

#[allow(dead_code)]
#[path = "src/edits/mod.rs"]
mod edits;
#[path = "src/sha256.rs"]
mod sha256;

use std::fmt::Write as _;
use std::path::{Path, PathBuf};
use std::{env, fs};

use edits::planted::{self, Place};
use edits::{ALTERATIONS, PIECES, Piece, SUBSTITUTIONS, apply, bodies, instrument::INSTRUMENT};

const JUDGE: [(&str, Place); 5] = [
    ("reader", Place::Reader),
    ("finder", Place::Finder),
    ("call", Place::Call),
    ("tape", Place::Tape),
    ("program", Place::Program),
];

const PRELUDE: &str = "\
#![allow(dead_code, unused_variables, unused_imports, unused_parens)]
use std::collections::{BTreeMap, HashMap, HashSet};
use std::sync::Arc;
use crate::events::{
    Cause, Event, Lists, Record, Run, Settings, Step, note, noted, patterns, tick,
};
use crate::sheet;
";

fn main() {
    let package = PathBuf::from(env::var("CARGO_MANIFEST_DIR").unwrap());
    println!("cargo::rerun-if-env-changed=GDSR_SOURCE");
    println!("cargo::rerun-if-changed=build.rs");
    println!("cargo::rerun-if-changed=src");
    println!("cargo::rustc-check-cfg=cfg(sourceless)");
    let source = env::var("GDSR_SOURCE")
        .map_or_else(|_| package.join("../../shared/docs/src"), PathBuf::from);
    println!("cargo::rerun-if-changed={}", source.display());
    let generated = if source.join(edits::SCENE).is_file() {
        with_source(&package, &source)
    } else {
        println!("cargo::warning=the Rust source is absent: built without a planner");
        println!("cargo::rustc-cfg=sourceless");
        without_source()
    };
    let out = PathBuf::from(env::var("OUT_DIR").unwrap()).join("variants.rs");
    fs::write(out, generated).unwrap();
    if env::var_os("CARGO_FEATURE_LIBRARY").is_some() {
        link_library(&package);
    }
}

/// The planner, and the check of a sheet alone, which `race` times apart.
fn link_library(package: &Path) {
    println!("cargo::rerun-if-env-changed=RIBALTZEN_LIBRARY");
    for name in ["planner_c", "check_sheet_c"] {
        let folder = env::var("RIBALTZEN_LIBRARY")
            .map_or_else(|_| package.join(format!("../crates/{name}/out")), PathBuf::from);
        println!("cargo::rustc-link-search=native={}", folder.display());
        println!("cargo::rerun-if-changed={}", folder.join(format!("lib{name}.a")).display());
        println!("cargo::rustc-link-lib=static={name}");
    }
}

fn without_source() -> String {
    "pub static COPIES: Option<Copies> = None;\n".to_string()
}

fn with_source(package: &Path, source: &Path) -> String {
    let ours = |name: &str| fs::read_to_string(package.join("src").join(name)).unwrap();
    let taken: String = PIECES.iter().map(|piece| take(source, piece)).collect();
    let taken = apply(&taken, SUBSTITUTIONS, "substitutions");
    let taken = apply(&taken, ALTERATIONS, "alterations");
    let standins = ours("variant/standins.rs");
    let glue = ours("variant/glue.rs");
    let plain = [PRELUDE, &standins, &taken, &glue, &ours("variant/plain.rs")].join("\n");
    let instrumented = apply(&taken, INSTRUMENT, "instrumented copy");
    let instrumented =
        [PRELUDE, &standins, &instrumented, &glue, &ours("variant/instrumented.rs")].join("\n");
    let mut text = String::new();
    writeln!(text, "pub mod plain {{\n{plain}\n}}").unwrap();
    writeln!(text, "pub mod instrumented {{\n{instrumented}\n}}").unwrap();
    writeln!(text, "pub mod planted {{\n{}\n}}", planted_copies(&instrumented, Place::Planner)).unwrap();
    writeln!(text, "pub mod planted_judge {{\n#![allow(dead_code, unused_variables, unused_parens)]").unwrap();
    for (file, place) in JUDGE {
        let merged = planted_copies(&ours(&format!("judge/{file}.rs")), place);
        writeln!(text, "pub mod {file} {{\n{merged}\n}}").unwrap();
    }
    text + COPIES
}

const COPIES: &str = "}
pub static COPIES: Option<Copies> = Some(Copies {
    plain: plain::plan_lists,
    timed: plain::plan_timed,
    draw_units: plain::draw_units,
    instrumented: instrumented::plan_run,
    planted: planted::plan_run,
    planted_judge: Judge {
        program: planted_judge::program::program,
        call: planted_judge::call::call,
        open: planted_judge::finder::open,
    },
});
";

/// One asserted run of lines, each with its line feed.
fn take(source: &Path, piece: &Piece) -> String {
    let text = fs::read_to_string(source.join(piece.file))
        .unwrap_or_else(|error| panic!("{}: {error}", piece.file));
    let lines: Vec<&str> = text.lines().collect();
    let (first, last) = piece.lines;
    assert!(
        lines.get(first - 1) == Some(&piece.first) && lines.get(last - 1) == Some(&piece.last),
        "{}: lines {first} to {last} of {} do not begin and end as asserted",
        piece.name,
        piece.file
    );
    let taken = lines[first - 1..last].join("\n") + "\n";
    let hash = sha256::sha256(taken.as_bytes());
    assert!(
        hash == piece.sha256,
        "{}: a line of lines {first} to {last} of {} is not the one that the judge was made for: SHA-256 {hash}, not {}",
        piece.name,
        piece.file,
        piece.sha256
    );
    format!("{}{taken}{}", piece.before, piece.after)
}

/// A text with all the mistakes that are planted in it; their numbers begin at 1.
fn planted_copies(text: &str, place: Place) -> String {
    let copies: Vec<(usize, String)> = planted::all()
        .enumerate()
        .filter(|(_, mistake)| mistake.place == place)
        .map(|(number, mistake)| {
            (number + 1, apply(text, mistake.edits, &format!("planted mistake `{}`", mistake.name)))
        })
        .collect();
    bodies::merge(text, &copies, "crate::events::mistake()")
}
