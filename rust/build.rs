//! Links libplanner_c.a, which `tools/built planner_c` makes: from the folder that RIBALTZEN_LIBRARY names, else from
//! ../crates/planner_c/out. Ends the build with a message where the archive cannot be linked.

use std::env;
use std::path::{Path, PathBuf};

fn main() {
    println!("cargo::rerun-if-env-changed=RIBALTZEN_LIBRARY");
    let folder = library_folder();
    println!(
        "cargo::rerun-if-changed={}",
        folder.join("libplanner_c.a").display()
    );
    match hindrance(&folder) {
        Some(message) => println!("cargo::error={message}"),
        None => {
            println!("cargo::rustc-link-search=native={}", folder.display());
            println!("cargo::rustc-link-lib=static=planner_c");
        }
    }
}

fn library_folder() -> PathBuf {
    match env::var_os("RIBALTZEN_LIBRARY") {
        Some(folder) => PathBuf::from(folder),
        None => Path::new(env!("CARGO_MANIFEST_DIR")).join("../crates/planner_c/out"),
    }
}

/// Why the archive of a folder cannot be linked.
fn hindrance(folder: &Path) -> Option<String> {
    let target = |name: String| env::var(name).unwrap_or_default();
    let built =
        ["ARCH", "OS", "POINTER_WIDTH"].map(|name| target(format!("CARGO_CFG_TARGET_{name}")));
    if built != ["x86_64", "linux", "64"] {
        return Some(format!(
            "ribaltzen is built for x86-64 Linux only, not for {}: libplanner_c.a has code for nothing else",
            built.join(" ")
        ));
    }
    if folder.is_relative() {
        return Some(format!(
            "RIBALTZEN_LIBRARY is {}: name the folder of libplanner_c.a by its absolute path",
            folder.display()
        ));
    }
    let library = folder.join("libplanner_c.a");
    (!library.is_file()).then(|| {
        format!(
            "{} is absent: run `tools/built planner_c`, or name its folder in RIBALTZEN_LIBRARY",
            library.display()
        )
    })
}
