//! Links the library that `tools/build xinghe` makes.

use std::path::Path;

fn main() {
    let root = std::env::var("CARGO_MANIFEST_DIR").expect("cargo names the package's directory");
    let folder = Path::new(&root).join("../../target/staticlib");
    let library = folder.join("libxinghe.a");
    println!("cargo:rerun-if-changed={}", library.display());
    if !library.is_file() {
        panic!("{} is missing; run: tools/build xinghe", library.display());
    }
    println!("cargo:rustc-link-search=native={}", folder.display());
    println!("cargo:rustc-link-lib=static=xinghe");
}
