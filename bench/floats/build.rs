// Links the static library that `tools/built floats_c` makes.
use std::path::PathBuf;

fn main() {
    let here = PathBuf::from(std::env::var("CARGO_MANIFEST_DIR").unwrap());
    let folder = here.join("../../crates/floats_c/out");
    println!("cargo:rustc-link-search=native={}", folder.display());
    println!("cargo:rustc-link-lib=static=floats_c");
    println!("cargo:rerun-if-changed={}", folder.join("libfloats_c.a").display());
}
