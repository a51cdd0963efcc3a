//! Links the archives that `rt lib` writes. `rust/run` makes them first, and keeps them in target/staticlib.

fn main() {
    let root = concat!(env!("CARGO_MANIFEST_DIR"), "/..");
    let folder = format!("{root}/target/staticlib");
    println!("cargo:rustc-link-search=native={folder}");
    for name in ["rust_tree", "rust_store", "rust_tally"] {
        println!("cargo:rustc-link-lib=static={name}");
        println!("cargo:rerun-if-changed={folder}/lib{name}.a");
    }
}
