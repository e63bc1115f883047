//! Links what `tools/staticlib trial` writes, target/staticlib/libtrial.a. The entries come with the Rust crate.

use std::path::Path;

fn main() {
    let folder = Path::new(env!("CARGO_MANIFEST_DIR")).join("../target/staticlib");
    println!("cargo:rustc-link-search=native={}", folder.display());
    let library = folder.join("libtrial.a");
    println!("cargo:rerun-if-changed={}", library.display());
    if !library.exists() {
        eprintln!("target/staticlib/libtrial.a is missing: run `tools/staticlib trial` first");
        std::process::exit(1);
    }
    println!("cargo:rustc-link-lib=static=trial");
}
