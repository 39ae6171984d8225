//! Links the proved code, which `rt lib` builds of each crate of exports, into everything here.

use std::path::Path;

const LIBRARIES: [&str; 4] = ["code_exports", "exports", "road_exports", "section_exports"];

fn main() {
    let package = std::env::var("CARGO_MANIFEST_DIR").expect("cargo sets it");
    for name in LIBRARIES {
        let folder = Path::new(&package).join("../crates").join(name).join("out");
        println!("cargo:rustc-link-search=native={}", folder.display());
        let library = folder.join(format!("lib{name}.a"));
        println!("cargo:rerun-if-changed={}", library.display());
        if !library.exists() {
            eprintln!("{} is missing.", library.display());
            eprintln!("Run `tools/build` in the repository's root, or `make test`.");
            std::process::exit(1);
        }
        println!("cargo:rustc-link-lib=static={name}");
    }
}
