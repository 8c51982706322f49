//! Links the static libraries: the recorder's C functions, and those of graphs, records and tables that are for tests alone.
use std::path::PathBuf;

fn main() {
    let folder =
        PathBuf::from(std::env::var("CARGO_MANIFEST_DIR").unwrap()).join("../target/staticlib");
    println!("cargo:rustc-link-search=native={}", folder.display());
    for name in ["recorder", "graph_test"] {
        let library = folder.join(format!("lib{name}.a"));
        println!("cargo:rerun-if-changed={}", library.display());
        if !library.exists() {
            panic!("there is no {}: run `bin/staticlib {name}` first", library.display());
        }
        println!("cargo:rustc-link-lib=static={name}");
    }
}
