//! Holds the entries of Cicelybeam's interface against mefikit's Rust and the rules' refusals, but gathering, which
//! `gathering` does. The number is that of plane cuts in each way; every other entry has a quarter of it. The strict way is held
//! against another walk, and mefikit is handed a scaled normal by the plain model.

use compare::cutting::{compare, compare_refusals, Reached};
use compare::entries::{ours, Entry};
use compare::ways::{Way, SCALED, SCALED_STRICT, STRICT, USUAL};
use compare::{cases_asked, refused_by};
use std::process::ExitCode;
use std::time::Instant;

const FULL: u64 = 400_000;

/// How often each set of refusals is made for each type.
const TURNS: u64 = 4;

const ENTRIES: [(Entry, &[Way], &str); 12] = [
    (Entry::Plane, USUAL, "space cells cut by a plane"),
    (Entry::Plane, STRICT, "the same in the strict way"),
    (Entry::Plane, SCALED, "the same by scaled normals"),
    (Entry::Plane, SCALED_STRICT, "the same by these, strict"),
    (Entry::LineInSpace, USUAL, "space cells cut by a line"),
    (Entry::PlaneCellByNormal, USUAL, "plane cells cut by normal"),
    (
        Entry::PlaneCellByNormal,
        SCALED,
        "the same by scaled normals",
    ),
    (
        Entry::PlaneCellByDirection,
        USUAL,
        "plane cells cut by direction",
    ),
    (Entry::Stitch, USUAL, "lists stitched"),
    (Entry::Stitch, STRICT, "the same in the strict way"),
    (Entry::ToleranceInSpace, USUAL, "tolerances in space"),
    (Entry::ToleranceInPlane, USUAL, "tolerances in the plane"),
];

fn main() -> ExitCode {
    let cases = cases_asked("cells", FULL);
    let start = Instant::now();
    let mut differing = 0;
    println!("entries, with the bits of the rules, NaN alike, and alike to the Rust's:");
    for (entry, ways, name) in ENTRIES {
        let cases = if entry == Entry::Plane {
            cases
        } else {
            cases / 4
        };
        let reached = compare(entry, cases, ways, ours);
        reached.found.print(name, "give some");
        print_reached(&reached);
        differing += reached.found.differing;
    }
    println!("each set of refusals for each type, of which the first must be told:");
    for (entry, ways, name) in ENTRIES {
        let found = compare_refusals(entry, TURNS, ways, ours);
        found.print(name, "are refused");
        differing += found.differing;
    }
    println!(
        "{:.1} seconds, {differing} differ",
        start.elapsed().as_secs_f64()
    );
    ExitCode::from(u8::from(differing > 0))
}

fn print_reached(reached: &Reached) {
    let line = |words: String| println!("           {words}");
    let by_type = reached.giving.told();
    if !by_type.is_empty() {
        line(format!("give some, by type: {by_type}"));
    }
    line(refused_by(&reached.refused));
    let edges = reached.edges;
    if edges.listed > 0 {
        line(format!(
            "{} loops; {} edges listed: {} in loops, {} pinched, {} flat (in {} answers), {} open (in {})",
            reached.loops,
            edges.listed,
            edges.in_loops,
            edges.pinched,
            edges.flat,
            reached.with_flat,
            edges.open,
            reached.with_open
        ));
    }
    if reached.cuts.defaulted > 0 {
        reached.cuts.print();
    }
    if reached.weldings.comparisons > 0 {
        reached.weldings.print();
        reached.repeated.print();
        let pinched = reached.pinched.told();
        if !pinched.is_empty() {
            line(format!("of these closed walks, by type: {pinched}"));
        }
    }
    if reached.arccosine > 0 {
        line(format!(
            "{} on which the Rust, comparing arccosines, goes another way than with cosines",
            reached.arccosine
        ));
    }
    let unlisted = &reached.unlisted;
    if unlisted.all > 0 {
        line(format!(
            "{} have a corner above the tolerance and one below, and list no edge: {} with numbers that \
             are not finite, {} with a tolerance below the mesh's own, {} with a large one, {} with \
             coordinates above 1e150 or below 1e-150, {} others",
            unlisted.all,
            unlisted.not_finite,
            unlisted.less_tolerance,
            unlisted.large_tolerance,
            unlisted.extreme,
            unlisted.others
        ));
    }
    if let Some(first) = &unlisted.first {
        line(format!("the first of these others: {first}"));
    }
}
