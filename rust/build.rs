//! Links target/staticlib/libcicelybeam.a. Where that is missing, or older than a file under crates/, it is
//! made first, by tools/staticlib. Where CICELYBEAM_LIB_DIR names a folder, the library in there is linked
//! as it is.

use std::path::{Path, PathBuf};
use std::process::Command;
use std::time::SystemTime;
use std::{env, fs, process};

const LIBRARY: &str = "libcicelybeam.a";

fn main() {
    println!("cargo:rerun-if-changed=build.rs");
    println!("cargo:rerun-if-env-changed=CICELYBEAM_LIB_DIR");
    let folder = match env::var_os("CICELYBEAM_LIB_DIR") {
        Some(folder) => PathBuf::from(folder),
        None => made(),
    };
    let library = folder.join(LIBRARY);
    if !library.exists() {
        stop(&format!("{} is missing", library.display()));
    }
    println!("cargo:rerun-if-changed={}", library.display());
    println!("cargo:rustc-link-search=native={}", folder.display());
    println!("cargo:rustc-link-lib=static=cicelybeam");
}

/// The folder of the repository's library, which is then up to date.
fn made() -> PathBuf {
    let root = Path::new(env!("CARGO_MANIFEST_DIR")).join("..");
    let mut sources = vec![root.join("crates.txt")];
    for part in ["src", "specs", "proofs"] {
        // not a crate's out/, which rt writes
        let crates = fs::read_dir(root.join("crates")).into_iter().flatten();
        let parts = crates.flatten().map(|entry| entry.path().join(part));
        sources.extend(parts.filter(|path| path.exists()));
    }
    for source in &sources {
        println!("cargo:rerun-if-changed={}", source.display());
    }
    let folder = root.join("target/staticlib");
    let newest = sources.iter().filter_map(|path| newest(path)).max();
    let current = changed(&folder.join(LIBRARY)).is_some_and(|made| Some(made) >= newest);
    if !current {
        make(&root);
    }
    folder
}

fn make(root: &Path) {
    let run = Command::new(root.join("tools/staticlib"))
        .arg("cicelybeam")
        .status();
    match run {
        Ok(status) if status.success() => {}
        Ok(status) => stop(&format!(
            "target/staticlib/{LIBRARY} is missing or older than crates/, and `tools/staticlib cicelybeam`, \
             which makes it with rt, failed ({status}); CICELYBEAM_LIB_DIR may name the folder of a library \
             to link as it is"
        )),
        Err(why) => stop(&format!("tools/staticlib cannot be run ({why})")),
    }
}

fn changed(path: &Path) -> Option<SystemTime> {
    fs::metadata(path).and_then(|data| data.modified()).ok()
}

/// When the file, or the last changed one in the folder, was changed.
fn newest(path: &Path) -> Option<SystemTime> {
    match fs::read_dir(path) {
        Ok(entries) => entries.flatten().filter_map(|e| newest(&e.path())).max(),
        Err(_) => changed(path),
    }
}

fn stop(line: &str) -> ! {
    eprintln!("cicelybeam: {line}");
    process::exit(1)
}
