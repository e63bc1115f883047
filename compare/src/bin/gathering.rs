//! Holds gathering against mefikit's Rust and the rules' refusals, and on the same cells gathering, then stitching,
//! against the plane cut, in the usual way and in the strict one in turn, by normals as they are given and scaled. The number
//! is that of cells.

use compare::cutting::compare_refusals;
use compare::entries::{ours, Entry};
use compare::ways::{SCALED, USUAL};
use compare::{cases_asked, gathering, refused_by};
use std::process::ExitCode;
use std::time::Instant;

const FULL: u64 = 21_000_000;

/// How often each set of refusals is made for each type.
const TURNS: u64 = 4;

fn main() -> ExitCode {
    let cases = cases_asked("gathering", FULL);
    let start = Instant::now();
    let line = |words: String| println!("           {words}");
    println!("segments gathered, with the bits of the rules, NaN alike, and alike to the Rust's:");
    let reached = gathering::compare_with_rust(cases, ours);
    reached.found.print("space cells gathered", "give some");
    line(format!("answered, by type: {}", reached.answered.told()));
    line(format!("give some, by type: {}", reached.giving.told()));
    line(refused_by(&reached.refused));
    reached.cuts.print();
    println!("each set of refusals for each type, of which the first must be told:");
    let mut differing = 0;
    for (ways, name) in [
        (USUAL, "space cells gathered"),
        (SCALED, "the same by scaled normals"),
    ] {
        let refusals = compare_refusals(Entry::Gather, TURNS, ways, ours);
        refusals.print(name, "are refused");
        differing += refusals.differing;
    }
    println!("gathered and stitched beside the plane cut, and cells beside their faces, to the bit, NaN alike:");
    let gathered = gathering::compare(cases, ours);
    gathered
        .found
        .print("space cells gathered and stitched", "give some");
    line(format!("answered, by type: {}", gathered.answered.told()));
    line(refused_by(&gathered.refused));
    line(format!(
        "{} segments, {} faces handed over alone, {} crossings in the middle by default, and {} pinched edges",
        gathered.segments, gathered.faces, gathered.defaulted, gathered.pinched
    ));
    gathered.weldings.print();
    differing += reached.found.differing + gathered.found.differing;
    println!(
        "{:.1} seconds, {differing} differ",
        start.elapsed().as_secs_f64()
    );
    ExitCode::from(u8::from(differing > 0))
}
