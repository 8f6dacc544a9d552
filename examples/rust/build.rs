//! Links the static library that `tools/archive` makes.
use std::path::Path;

fn main() {
    let folder = Path::new(env!("CARGO_MANIFEST_DIR")).join("../../target/staticlib");
    let library = folder.join("libexports.a");
    assert!(library.exists(), "target/staticlib/libexports.a is missing: run `tools/archive` first");
    println!("cargo:rustc-link-search=native={}", folder.display());
    println!("cargo:rustc-link-lib=static=exports");
    println!("cargo:rerun-if-changed={}", library.display());
}
