//! Copies slice.rs and snap.rs out of mefikit's source into the build folder. No line of
//! them stands in this repository.
//!
//! slice.rs is built four times: as it stands; counting the crossings that lie in the middle by
//! default and the comparisons of points while welding; with that and the junction comparing
//! cosines; and with both and sums that start at plus zero. One line is appended to each copy, so
//! that src/reach.rs becomes a child of the module and can call its private functions.
//!
//! The source must be the one that pinned.sha256 has the checksums of: the two files, and those
//! of mefikit's mesh that the stand-ins were written after.

use std::path::Path;
use std::process::{self, Command};
use std::{env, fs};

const DEFAULT_SOURCE: &str = "../../shared/docs/src";
const REACH: &str =
    r#"pub mod reach { include!(concat!(env!("CARGO_MANIFEST_DIR"), "/src/reach.rs")); }"#;

/// Where the distances differ by too little to divide by, or by NaN. The value stays.
const BY_DEFAULT: &str = "    } else {\n        0.5\n    };";
const DEFAULTED: &str = "    } else {\n        crate::count_defaulted();\n        0.5\n    };";

/// Whether a point so far is within the tolerance of an end of a segment; `position` stops at the
/// first that is. The value stays. Only welding calls `push_coord`, where this stands.
const COMPARISON: &str = "position(|q| dist2(q, &p) <= tol2)";
const COMPARED: &str = "position(|q| { crate::count_comparison(); dist2(q, &p) <= tol2 })";

const ARCCOSINE: &str = "cos.clamp(-1.0, 1.0).acos().abs()";
// The Rust takes a later edge on `candidate < best`. Negating is exact, so this reads 'the
// cosine is greater'; a NaN stays NaN, and then the test fails on either side.
const NEGATED: &str = "-(cos.clamp(-1.0, 1.0))";

const SUMS: [&str; 2] = [".sum()", ".sum::<f64>()"];
const FROM_PLUS_ZERO: &str = ".fold(0.0_f64, |sum, x| sum + x)";

fn main() {
    let home = env::var("CARGO_MANIFEST_DIR").unwrap();
    let source = env::var("MEFIKIT_SRC").unwrap_or_else(|_| DEFAULT_SOURCE.into());
    // A relative path counts from this folder, whatever folder cargo was started in.
    let source = Path::new(&home).join(source).join("crates/mefikit/src");
    let tools = source.join("tools");
    let out = env::var("OUT_DIR").unwrap();
    let out = Path::new(&out);

    println!("cargo:rerun-if-env-changed=MEFIKIT_SRC");
    println!("cargo:rerun-if-changed=build.rs");
    println!("cargo:rustc-env=ORACLE_TOOLS={}", tools.display());

    let slice = read(&tools.join("slice.rs"));
    let snap = read(&tools.join("snap.rs"));
    pinned(&source, &Path::new(&home).join("pinned.sha256"));

    let counted = replaced(&slice, BY_DEFAULT, DEFAULTED, 1);
    let counted = replaced(&counted, COMPARISON, COMPARED, 1);
    let by_cosine = replaced(&counted, ARCCOSINE, NEGATED, 1);
    let mut by_rules = by_cosine.clone();
    for sum in SUMS {
        by_rules = replaced(&by_rules, sum, FROM_PLUS_ZERO, 3);
    }

    fs::write(out.join("snap.rs"), &snap).unwrap();
    // Only a generated file can give `#[path]` the build folder: it wants a literal.
    let mut modules = format!(
        "pub mod tools {{ #[allow(clippy::all)] #[path = {:?}] pub mod snap; }}\n",
        out.join("snap.rs")
    );
    for (name, text) in [
        ("rust", &slice),
        ("counted", &counted),
        ("by_cosine", &by_cosine),
        ("by_rules", &by_rules),
    ] {
        let file = out.join(format!("{name}.rs"));
        fs::write(&file, format!("{text}{REACH}\n")).unwrap();
        modules += &format!("#[allow(clippy::all)] #[path = {file:?}] pub mod {name};\n");
    }
    fs::write(out.join("modules.rs"), modules).unwrap();
}

fn read(path: &Path) -> String {
    println!("cargo:rerun-if-changed={}", path.display());
    fs::read_to_string(path).unwrap_or_else(|why| {
        stop(&format!(
            "cannot read {} ({why}); set MEFIKIT_SRC to the folder that holds crates/mefikit",
            path.display()
        ))
    })
}

/// Stops unless the files below `source` have the checksums of `list`.
fn pinned(source: &Path, list: &Path) {
    for line in read(list).lines() {
        let (_, file) = line.split_once("  ").unwrap();
        println!("cargo:rerun-if-changed={}", source.join(file).display());
    }
    let check = Command::new("sha256sum")
        .args(["--check", "--strict", "--quiet"])
        .arg(list)
        .current_dir(source)
        .status();
    match check {
        Ok(status) if status.success() => {}
        Ok(_) => stop("mefikit's source is not the one of pinned.sha256, which all answers were compared with"),
        Err(why) => stop(&format!("cannot run sha256sum ({why})")),
    }
}

/// `text` with `old` replaced, if it stands there exactly `times` times.
fn replaced(text: &str, old: &str, new: &str, times: usize) -> String {
    let found = text.matches(old).count();
    if found != times {
        stop(&format!(
            "slice.rs holds `{old}` {found} times, not {times}: another version?"
        ));
    }
    text.replace(old, new)
}

fn stop(line: &str) -> ! {
    eprintln!("oracle: {line}");
    process::exit(1)
}
